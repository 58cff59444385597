"""A run of a script, and what is asked of it."""
from __future__ import annotations

import json
import os
from collections.abc import Iterable, Mapping
from dataclasses import dataclass, fields
from functools import cached_property
from pathlib import Path
from typing import Any, SupportsIndex, TypeVar, Union, overload

from ._library import ALL, EVER, account_of, faults_of, life_of, named_text_of, notes_of, numbers_of, summary_of, text_of, why_of
from .errors import Fault, ScriptError, ScriptFault
from .lines import Dispatch, Line, Source, read_lines
from .timeline import draw

Item = TypeVar("Item")
AnyLine = TypeVar("AnyLine", bound=Line)

#: what a script of either form, of numbers or with names, may be given as: a dict, its JSON as text or bytes, or the path of a file
Script = Union[Mapping[str, Any], str, bytes, "os.PathLike[str]"]


class Found(list[Item]):
    """What was asked of a run: a list, which knows the run and the place of each item's line there.

    So does a part of it, as `[:3]`: a test that fails can show the lines around (pytest_plugin).
    """

    def __init__(self, items: Iterable[Item], run: Run, places: Iterable[int], sources: Iterable[Source] = ()) -> None:
        super().__init__(items)
        self.run = run
        self.places = tuple(places)
        self.sources = tuple(sources)  # those that were asked for, dispatched or not

    @overload
    def __getitem__(self, at: SupportsIndex) -> Item: ...

    @overload
    def __getitem__(self, at: slice) -> Found[Item]: ...

    def __getitem__(self, at: SupportsIndex | slice) -> Item | Found[Item]:
        if isinstance(at, slice):
            return Found(super().__getitem__(at), self.run, self.places[at], self.sources)
        return super().__getitem__(at)


@dataclass(frozen=True)
class Run:
    """A run that has ended: the bytes of its script, as it was given, and its text in numbers, which is the same each time."""

    script: bytes
    text: str

    def __str__(self) -> str:
        return self.text

    def __repr__(self) -> str:
        return f"<a run of {self.ticks} ticks of {self.tick_us} us, with {len(self.lines)} lines>"

    @cached_property
    def lines(self) -> tuple[Line, ...]:
        """Its lines in the order of the text: those of thread 0, of thread 1, .., each in the order in which they came."""
        return tuple(read_lines(self.text))

    @cached_property
    def _keys(self) -> dict[str, Any]:
        keys: dict[str, Any] = json.loads(numbers_of(self.script))
        return keys

    @property
    def ticks(self) -> int:
        """How many ticks it has, from 0 on."""
        return int(self._keys["ticks"])

    @property
    def tick_us(self) -> int:
        """The length of a tick in microseconds."""
        return int(self._keys["tick_us"])

    def select(self, kind: type[AnyLine], **wanted: object) -> Found[AnyLine]:
        """The lines of a class whose fields have these values, as `select(Miss, action="destroy")`, in the order of the text.

        A field that the class has not is a TypeError.
        """
        names = [field.name for field in fields(kind)]
        for name in wanted:
            if name not in names:
                raise TypeError(f"{kind.__name__} has no {name}; it has {', '.join(names)}")
        found = {
            place: line
            for place, line in enumerate(self.lines)
            if isinstance(line, kind) and all(getattr(line, name) == value for name, value in wanted.items())
        }
        return Found(found.values(), self, found, _source_in(wanted))

    def when(self, kind: type[Line], **wanted: object) -> Found[int]:
        """The ticks of the lines that `select` finds, one for each line: `when(Log, number=7)`."""
        found = self.select(kind, **wanted)
        return Found([line.tick for line in found], self, found.places, found.sources)

    def dispatches(
        self, context: int | None = None, source: int | None = None, *, thread: int | None = None
    ) -> Found[Dispatch]:
        """The dispatches of a context, of one source of it, of a thread; with nothing given all of them."""
        wanted = {"context": context, "source": source, "thread": thread}
        return self.select(Dispatch, **{name: value for name, value in wanted.items() if value is not None})

    def order(self, *sources: tuple[int, int]) -> Found[Source]:
        """These sources, pairs of a context and a number, in the order in which they are dispatched; without any, all sources.

        What different threads dispatch in one tick has no order: then it is a ValueError, which names the tick.
        """
        asked = [Source(*source) for source in sources]
        dispatches = self.select(Dispatch)
        found = {place: line for place, line in zip(dispatches.places, dispatches) if not asked or line.pair in asked}
        places = sorted(found, key=lambda place: found[place].tick)
        threads: dict[int, int] = {}  # that of each tick
        for line in found.values():
            thread = threads.setdefault(line.tick, line.thread)
            if line.thread != thread:
                raise ValueError(f"in tick {line.tick} threads {thread} and {line.thread} both dispatch: that has no order")
        return Found([found[place].pair for place in places], self, places, asked)

    def account(self, first: int = 0, most: int | None = None) -> list[dict[str, Any]]:
        """What the run does, a move at a time, as dicts with the keys of docs/ACCOUNT.md: from a move on, counted from 0, so many at most.

        A source that is attached has its name, where the script has names. A run is made anew for it. Whoever wants a long run in parts
        asks again from `first + most` on, until nothing comes.
        """
        return account_of(self.script, first, ALL if most is None else most)

    def why(self, source: tuple[int, int] | None = None, tick: int | None = None) -> str:
        """Why sources were dispatched or not, in words: each iteration of a tick, or of all, with its sources in a table.

        Of one source, a pair of a context and a number: its life, with each iteration that left it out and why. It has the names of a script
        that has some.
        """
        first, last = (0, EVER) if tick is None else (tick, tick)
        return why_of(self.script, first, last) if source is None else life_of(self.script, *source, first, last)

    def named_text(self, notes: bool = False) -> str:
        """Its text with the names of the script, where it has some, and with times; with `notes` also a line where the real GLib does otherwise."""
        return named_text_of(self.script, notes)

    def summary(self) -> str:
        """Each source and loop in one line, and what was silent: sources that were never dispatched, loops that did not end, and why."""
        return summary_of(self.script)

    def notes(self) -> str:
        """Where the real GLib would do otherwise, and by which row of docs/GLIB.md; or that nothing is known in which it would."""
        return notes_of(self.script)

    def timeline(self, *sources: tuple[int, int], around: int = 0) -> str:
        """A picture of the dispatches in each tick, with a row for each source, and for these sources though nothing dispatches them.

        Of a long run it shows the ticks around one.
        """
        return draw(self.select(Dispatch), self.ticks, self.tick_us, [Source(*source) for source in sources], around)


def _source_in(wanted: Mapping[str, object]) -> list[Source]:
    """The source that was asked for, if one was."""
    context, source = wanted.get("context"), wanted.get("source")
    return [Source(context, source)] if isinstance(context, int) and isinstance(source, int) else []


def _bytes_of(script: Script) -> bytes:
    if isinstance(script, str):
        return script.encode("utf-8", "surrogatepass")
    if isinstance(script, (bytes, bytearray, memoryview)):
        return bytes(script)
    if isinstance(script, Mapping):
        return json.dumps(dict(script)).encode()
    return Path(script).read_bytes()


def run(script: Script) -> Run:
    """Runs a script of either form to its end: a dict, its JSON as text or bytes, or the path of a file (a pathlib.Path; a str is JSON).

    A script that is refused is a ScriptError, refused memory a MemoryError, no library a LibraryNotFound, and a file that can't be
    read an OSError. A run can't be interrupted; other threads of Python go on.
    """
    __tracebackhide__ = True  # (pytest shows the call, and not what is in here)
    bytes_of = _bytes_of(script)
    try:
        return Run(bytes_of, text_of(numbers_of(bytes_of)))
    except ScriptError as refused:
        if refused.fault is Fault.NOT_JSON and isinstance(script, str) and not script.lstrip().startswith(("{", "[")):
            raise ScriptError(Fault.NOT_JSON, refused.faults, "a str is the script itself; for a file give pathlib.Path(..)") from None
        raise


def translate(script: Script) -> str:
    """The script of numbers, as JSON, that a script with names stands for; of a script of numbers its own JSON.

    What it raises is as of `run`.
    """
    __tracebackhide__ = True
    return numbers_of(_bytes_of(script)).decode("utf-8")


def check(script: Script) -> tuple[ScriptFault, ...]:
    """What is wrong with a script of either form, in the order of the places, 100 faults at most; nothing where `run` runs it.

    Refused memory is a MemoryError, no library a LibraryNotFound, and a file that can't be read an OSError.
    """
    __tracebackhide__ = True
    return faults_of(_bytes_of(script))
