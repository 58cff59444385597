"""The lines of a text: a class for each form of line (docs/FORMAT.md, "The text")."""
from __future__ import annotations

import re
from collections.abc import Callable, Iterator
from dataclasses import dataclass, fields
from typing import Any, ClassVar, Literal, NamedTuple, get_args, get_type_hints

Way = Literal["direct", "attached", "posted"]
Bound = Literal["depth", "steps"]


class Source(NamedTuple):
    """A source, by its context and its number there: 1 is the context's first. It equals the pair of the two, and is shown so."""

    context: int
    source: int

    def __repr__(self) -> str:
        return f"({self.context}, {self.source})"


@dataclass(frozen=True)
class Line:
    """What each line has: the tick that it begins with, and the number of the thread that wrote it."""

    form: ClassVar[str]  #: the line behind its tick, with the names of fields in braces

    tick: int
    thread: int

    def __str__(self) -> str:
        """The line as it stands in the text, without its end."""
        words = {field.name: _written(getattr(self, field.name)) for field in fields(self)}
        return f"{self.tick} {self.form.format(**words)}"


@dataclass(frozen=True)
class Dispatch(Line):
    """A source is dispatched; `depth` dispatches are then in progress, this one included."""

    form: ClassVar[str] = "dispatch ctx {context} source {source} priority {priority} depth {depth}"

    context: int
    source: int
    priority: int
    depth: int

    @property
    def pair(self) -> Source:
        """The source, by its context and its number there."""
        return Source(self.context, self.source)


@dataclass(frozen=True)
class Log(Line):
    """A `log` of a number."""

    form: ClassVar[str] = "log {number}"

    number: int


@dataclass(frozen=True)
class Iterate(Line):
    """An `iterate` is over; `selected` says whether anything was selected when it began."""

    form: ClassVar[str] = "iterate ctx {context} {selected}"

    context: int
    selected: bool


@dataclass(frozen=True)
class Pending(Line):
    """A `pending`: whether an iteration would dispatch something now."""

    form: ClassVar[str] = "pending ctx {context} {pending}"

    context: int
    pending: bool


@dataclass(frozen=True)
class Acquire(Line):
    """An `acquire`: whether the thread owns the context now."""

    form: ClassVar[str] = "acquire ctx {context} {acquired}"

    context: int
    acquired: bool


@dataclass(frozen=True)
class Default(Line):
    """A `show_default`: the thread-default context."""

    form: ClassVar[str] = "default ctx {context}"

    context: int


@dataclass(frozen=True)
class Invoke(Line):
    """An `invoke`: the procedure is called at once, by a source that was attached at once, or by one that will arrive."""

    form: ClassVar[str] = "invoke ctx {context} {way}"

    context: int
    way: Way


@dataclass(frozen=True)
class LoopEnd(Line):
    """A run of a loop returns."""

    form: ClassVar[str] = "loop {loop} end"

    loop: int


@dataclass(frozen=True)
class Arrive(Line):
    """A task's reply, or what another thread invoked, is attached as a source."""

    form: ClassVar[str] = "arrive ctx {context} source {source}"

    context: int
    source: int


@dataclass(frozen=True)
class Give(Line):
    """A context is given to the thread `to`."""

    form: ClassVar[str] = "give ctx {context} lane {to}"

    context: int
    to: int


@dataclass(frozen=True)
class Hold(Line):
    """A context that another thread gave is this thread's from now on."""

    form: ClassVar[str] = "hold ctx {context}"

    context: int


@dataclass(frozen=True)
class Cancel(Line):
    """The thread cancels a cancellable, or sees that another one did."""

    form: ClassVar[str] = "cancel {cancellable}"

    cancellable: int


@dataclass(frozen=True)
class Handler(Line):
    """A handler of a cancellable is called, by its id; 0 is one that was connected too late, and is called at once."""

    form: ClassVar[str] = "handler {handler}"

    handler: int


@dataclass(frozen=True)
class TaskResult(Line):
    """The result of the task numbered `task` of the thread `owner` is taken: one of the four classes below."""

    owner: int
    task: int


@dataclass(frozen=True)
class TaskOk(TaskResult):
    """The task ended with a value."""

    form: ClassVar[str] = "task {owner}.{task} ok {value}"

    value: int


@dataclass(frozen=True)
class TaskFailed(TaskResult):
    """The task failed."""

    form: ClassVar[str] = "task {owner}.{task} failed"


@dataclass(frozen=True)
class TaskCancelled(TaskResult):
    """The task was cancelled."""

    form: ClassVar[str] = "task {owner}.{task} cancelled"


@dataclass(frozen=True)
class TaskTimedOut(TaskResult):
    """The task did not end within its time."""

    form: ClassVar[str] = "task {owner}.{task} timed-out"


@dataclass(frozen=True)
class TaskLate(Line):
    """The body of a task that had replied already ends."""

    form: ClassVar[str] = "task {owner}.{task} late"

    owner: int
    task: int


@dataclass(frozen=True)
class Miss(Line):
    """An action found nothing to act on."""

    form: ClassVar[str] = "miss {action}"

    action: str


@dataclass(frozen=True)
class Halt(Line):
    """The thread reached a bound, 32 calls in progress or 10,000 steps in a tick, and takes no further step."""

    form: ClassVar[str] = "halt {bound}"

    bound: Bound


@dataclass(frozen=True)
class End(Line):
    """The thread's start list is over."""

    form: ClassVar[str] = "end"


class _Form(NamedTuple):
    """A form of line as it is read: its class, its pattern, and how the word of each field is read."""

    kind: type[Line]
    pattern: re.Pattern[str]
    readers: dict[str, Callable[[str], object]]

    def read(self, tick: int, thread: int, words: str) -> Line | None:
        """The line, where these words are of this form."""
        found = self.pattern.fullmatch(words)
        if found is None:
            return None
        return self.kind(tick, thread, **{name: self.readers[name](word) for name, word in found.groupdict().items()})


def _written(value: object) -> str:
    """How a field stands in a line."""
    return str(value).lower() if isinstance(value, bool) else str(value)


def _reader(kind: Any) -> tuple[str, Callable[[str], object]]:
    """The pattern of a field's word, and how that word is read."""
    if kind is int:
        return r"-?[0-9]+", int
    if kind is bool:
        return "true|false", lambda word: word == "true"
    return "|".join(get_args(kind)) or r"[a-z_]+", str


def _form(kind: type[Line]) -> _Form:
    hints = get_type_hints(kind)
    pattern, readers = "", {}
    for word in re.split(r"(\{[a-z]+\})", kind.form):
        if word.startswith("{"):
            name = word[1:-1]
            group, readers[name] = _reader(hints[name])
            pattern += f"(?P<{name}>{group})"
        else:
            pattern += re.escape(word)
    return _Form(kind, re.compile(pattern), readers)


_KINDS: tuple[type[Line], ...] = (
    Dispatch, Log, Iterate, Pending, Acquire, Default, Invoke, LoopEnd, Arrive, Give, Hold, Cancel, Handler,
    TaskOk, TaskFailed, TaskCancelled, TaskTimedOut, TaskLate, Miss, Halt, End,
)  # fmt: skip

#: the forms of lines, by their first word
_FORMS: dict[str, list[_Form]] = {}
for _kind in _KINDS:
    _FORMS.setdefault(_kind.form.split(" ")[0], []).append(_form(_kind))


def read_lines(text: str) -> Iterator[Line]:
    """The lines of a text, each with the thread under which it stands.

    A line of another form is a ValueError: the text is then of a newer library than this package.
    """
    thread = 0
    for line in text.splitlines():
        first, _, words = line.partition(" ")
        if first == "thread":
            thread = int(words)
            continue
        forms = _FORMS.get(words.partition(" ")[0], [])
        read = next((read for form in forms if (read := form.read(int(first), thread, words))), None)
        if read is None:
            raise ValueError(f"a line of an unknown form: {line}")
        yield read
