"""A context in the model: its sources, what an iteration selects, and who owns it."""
from __future__ import annotations

from typing import Any, Protocol

from rows import Library, Rules

NEVER = -1
ALWAYS_POLLED = 8 | 16 | 32  # err, hup and nval are told whether they are asked for or not


class LibraryAborts(Exception):
    """An assertion of the library fails: the program ends there."""


class Now(Protocol):
    """What an iteration asks of the thread that takes it."""

    def now(self) -> int: ...
    def level(self, descriptor: int) -> int: ...
    def is_cancelled(self, cancellable: int) -> bool: ...


class Source:
    """A source. `flag` is the library's READY flag, `blocked` its BLOCKED flag; `calls` counts the calls in progress."""

    __slots__ = ("context", "number", "id", "kind", "value", "bits", "priority", "recurse", "call", "ready", "dispatches", "parent",
                 "children", "destroyed", "flag", "blocked", "calls", "level", "reply", "maker")

    def __init__(self, context: Context, spec: dict[str, Any], now: int, maker: object) -> None:
        kind = spec["kind"]
        context.sources_made += 1
        self.context, self.number, self.id = context, context.number, context.sources_made
        self.kind: str = kind[0]
        self.value: int = kind[1] if len(kind) > 1 else 0
        self.bits: int = kind[2] if len(kind) > 2 else 0
        self.priority: int = spec.get("priority", 200 if self.kind == "idle" else 0)
        self.recurse: bool = spec.get("recurse", False)
        self.call: int | None = spec.get("call")
        self.ready = now + self.value * 1000 if self.kind == "timeout" else self.value if self.kind == "ready" else NEVER
        self.dispatches = self.calls = 0
        self.parent: Source | None = None
        self.children: list[Source] = []
        self.destroyed = self.flag = self.blocked = False
        self.level = 1
        self.reply: Any = None
        self.maker = maker

    def block(self) -> None:
        if not self.blocked:
            self.blocked = True
            for child in self.children:
                child.block()

    def unblock(self) -> None:
        if self.blocked:
            self.blocked = False
            for child in self.children:
                child.unblock()

    def flag_ready(self) -> None:
        source: Source | None = self
        while source:
            source.flag = True
            source = source.parent


class Context:
    """A context. Its sources stand in one list for each priority; `pending` is the list that an iteration dispatches from, one for all
    iterations in progress, as in the library."""

    def __init__(self, number: int, rules: Rules, library: Library) -> None:
        self.number, self.rules, self.library = number, rules, library
        self.lists: dict[int, list[Source]] = {}
        self.sources_made = 0
        self.pending: list[Source | None] = []
        self.time, self.time_is_fresh, self.preparing = 0, False, False
        self.owner: object | None = None
        self.owned = 0

    # who owns it

    def acquire(self, thread: object) -> bool:
        if self.owner is None:
            self.owner = thread
            if self.owned != 0:
                raise LibraryAborts
        if self.owner is thread:
            self.owned += 1
        return self.owner is thread

    def release(self) -> bool:
        """whether the library did not refuse it"""
        if self.owned <= 0 and self.library.release_is_checked:
            return False
        self.owned -= 1
        if self.owned == 0:
            self.owner = None
        return True

    # places of sources

    def add(self, source: Source) -> None:
        places = self.lists.setdefault(source.priority, [])
        if source.parent:
            places.insert(places.index(source.parent), source)
        else:
            places.append(source)

    def remove(self, source: Source) -> None:
        self.lists[source.priority].remove(source)
        if not self.lists[source.priority]:
            del self.lists[source.priority]

    def set_priority(self, source: Source, priority: int) -> None:
        self.remove(source)
        source.priority = priority
        self.add(source)
        for child in reversed(source.children) if self.rules.priority_turns_children else list(source.children):
            self.set_priority(child, priority)

    def destroy(self, source: Source) -> None:
        if source.destroyed:
            return
        source.destroyed = True
        for child in list(source.children):
            self.destroy(child)
        if source.parent:
            source.parent.children.remove(source)
        self.remove(source)

    # what an iteration selects

    def cached_time(self, at: Now) -> int:
        if not self.time_is_fresh:
            self.time, self.time_is_fresh = at.now(), True
        return self.time

    def is_blocked(self, source: Source) -> bool:
        if self.rules.one_blocked_flag:
            return source.blocked
        above: Source | None = source
        while above:
            if above.calls and not above.recurse:
                return True
            above = above.parent
        return False

    def is_ready_itself(self, source: Source, at: Now) -> bool:
        if source.kind == "idle":
            return True
        if source.kind == "cancel" and not self.rules.cancellable_source_once and at.is_cancelled(source.value):
            return True
        return source.ready != NEVER and source.ready <= self.cached_time(at)

    def prepare(self, sources: list[Source], at: Now) -> int | None:
        """The most urgent priority of what is ready while no descriptor shows anything."""
        most_urgent = None
        for source in sources:
            if self.is_blocked(source):
                continue
            if most_urgent is not None and source.priority > most_urgent:
                break
            if not source.flag and self.is_ready_itself(source, at):
                source.flag_ready()
            if source.flag:
                most_urgent = source.priority
        if most_urgent is None:
            self.time_is_fresh = False  # the library asks for the time again after it has waited
        return most_urgent

    def select(self, at: Now) -> bool:
        """Fills the list of pending dispatches, and tells whether there are any."""
        if self.preparing:
            return False  # the library warns that it was called from inside a prepare
        self.pending, self.time_is_fresh = [], False
        sources = [source for priority in sorted(self.lists) for source in self.lists[priority]]
        if not self.rules.ready_flag_stays:
            for source in sources:
                source.flag = False
        most_urgent = self.prepare(sources, at)
        for source in sources:
            if self.is_blocked(source):
                continue
            if self.pending and most_urgent is not None and source.priority > most_urgent:
                break
            if not source.flag and (self.shows(source, most_urgent, at) or self.is_ready_itself(source, at)):
                source.flag_ready()
            if source.flag:
                self.pending.append(source)
                most_urgent = source.priority
        return bool(self.pending)

    def shows(self, source: Source, most_urgent: int | None, at: Now) -> bool:
        """whether a source's descriptor was asked, and shows what the source wants"""
        asked = source.kind == "fd" and (most_urgent is None or source.priority <= most_urgent)
        return asked and bool(at.level(source.value) & (source.bits | ALWAYS_POLLED))

    def peek(self, at: Now) -> bool:
        """What `select` answers, with nothing changed: this project's `pending`."""
        if self.rules.pending_refills:
            return self.select(at)
        kept = self.pending, self.time, self.time_is_fresh
        flags = [(source, source.flag) for sources in self.lists.values() for source in sources]
        some = self.select(at)
        self.pending, self.time, self.time_is_fresh = kept
        for source, flag in flags:
            source.flag = flag
        return some
