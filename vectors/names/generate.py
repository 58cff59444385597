"""Random scripts with names: right ones, whose translations are right by docs/FORMAT.md too, and such in which one place was changed, most of which are
refused."""
from __future__ import annotations

import copy
import random
from collections.abc import Callable, Iterator
from typing import Any

from translate import CONDITIONS, KEEPS, OF_ONE_NAME, PRIORITIES, UNITS

ODD_NAMES = ("", " ", "0", "-1", "attach", "to", "null", "never", "true", "a b", "a|b", 'a"b', "a\\b", "a/b", "a~b", "\t", "\u0000", "größe", "名前", "😀",
             "x" * 300)
LETTERS = "abcxyz_"
MOST_DEEP = 4
MOST_OF_A_TICK = 1_000  # of each unit
KEYS = ("attach", "to", "call", "idle", "fd", "events", "priority", "keep", "form", "contexts", "odd", "log")
VALUES: tuple[Any, ...] = (None, True, False, 0, 7, -1, "", "odd", "never", "16 ms", "1 us", "16ms", "1.5 ms", "-1 ms", "1  s", " 1 s", "1 s ",
                           "IN", "IN|", "|", "IN|IN", "in", "HIGH", "high", "CONTINUE", "REMOVE", [], {}, ["value", 1], ["value"], ["sleep", 1],
                           [["sleep", "1 ms"]], {"idle": True})


class Maker:
    """Makes one script."""

    def __init__(self, seed: int) -> None:
        self.random = random.Random(seed)
        self.contexts: list[list[str]] = []
        self.names = {kind: self.some_names(least, most) for kind, least, most in (
            ("thread", 1, 4), ("loop", 0, 3), ("procedure", 1, 5), ("cancellable", 0, 3), ("descriptor", 0, 3), ("slot", 1, 6), ("text", 1, 5))}
        for _ in self.names["thread"]:
            self.contexts.append(self.some_names(1, 3))
        self.number_contexts()
        self.version = self.random.choice((None, 1, 2))
        self.plain = self.names["procedure"][0]  # may be connected and invoked

    def chance(self, of_hundred: int) -> bool:
        return self.random.randrange(100) < of_hundred

    def some_names(self, least: int, most: int) -> list[str]:
        names = set[str]()
        for _ in range(self.random.randint(least, most) if least or self.chance(80) else 0):
            names.add(self.random.choice(ODD_NAMES) if self.chance(20) else "".join(self.random.choices(LETTERS, k=self.random.randint(1, 4))))
        return self.random.sample(sorted(names), len(names))

    def number_contexts(self) -> None:
        """Each name once: of a thread that names none, the thread's own, where no other context has it."""
        taken, self.unsaid = set[str](), set[str]()
        for thread, contexts in zip(self.names["thread"], self.contexts):
            contexts[:] = [name for name in contexts if name not in taken]
            if not contexts or self.chance(30) and thread not in taken:
                contexts[:] = [thread] if thread not in taken else [f"context of {thread}"]
                if contexts == [thread]:
                    self.unsaid.add(thread)
            taken.update(contexts)
        self.names["context"] = [name for contexts in self.contexts for name in contexts]

    def name(self, kind: str) -> str:
        return self.random.choice(self.names[kind])

    def time(self, units: tuple[str, ...] = tuple(UNITS)) -> str:
        amount = self.random.choice((0, 1, 2, 16, 1_500, self.random.randrange(10**6)))
        return f"{'0' * self.chance(5)}{amount} {self.random.choice(units)}"

    def ready_time(self) -> str:
        return "never" if self.chance(30) else self.time()

    def conditions(self) -> str:
        return "|".join(self.random.choices(list(CONDITIONS), k=self.random.choice((0, 1, 1, 2, 3, 32))))

    def priority(self) -> Any:
        return self.random.choice(list(PRIORITIES)) if self.chance(70) else self.random.randint(-300, 300)

    def source(self, keys: dict[str, Callable[[], Any]]) -> dict[str, Any]:
        kinds: list[Callable[[], dict[str, Any]]] = [lambda: {"idle": True}, lambda: {"timeout": self.time(("ms", "s"))}, lambda: {"ready": self.ready_time()}]
        if self.names["descriptor"]:
            kinds.append(lambda: {"fd": self.name("descriptor"), "events": self.conditions()})
        if self.names["cancellable"]:
            kinds.append(lambda: {"cancellable": self.name("cancellable")})
        return self.random.choice(kinds)() | self.some(keys)

    def some(self, keys: dict[str, Callable[[], Any]]) -> dict[str, Any]:
        return {key: make() for key, make in keys.items() if self.chance(50)}

    def procedure_or_null(self) -> str | None:
        return None if self.chance(20) else self.name("procedure")

    def tree(self, deep: int = MOST_DEEP) -> list[Any]:
        word = self.random.choice(("value", "fail", "sleep", "check") + ("seq", "both", "first", "within") * (deep > 1))
        parts: dict[str, Callable[[], list[Any]]] = {
            "value": lambda: [self.random.randint(-9, 9)], "fail": list, "check": list, "sleep": lambda: [self.time()],
            "within": lambda: [self.time(), self.tree(deep - 1)]}
        return [word, *parts.get(word, lambda: [self.tree(deep - 1), self.tree(deep - 1)])()]

    def task(self) -> dict[str, Any]:
        may: dict[str, Callable[[], Any]] = {
            "check_cancellable": lambda: self.chance(50), "return_on_cancel": lambda: self.chance(50), "priority": self.priority}
        if self.names["cancellable"]:
            may["cancellable"] = lambda: None if self.chance(20) else self.name("cancellable")
        said = self.some(may)
        if said.get("return_on_cancel"):
            said.pop("check_cancellable", None)
        return {"task": True if self.chance(30) else self.name("text"), "does": self.tree(), "call": self.name("procedure")} | said

    def attach(self) -> dict[str, Any]:
        may: dict[str, Callable[[], Any]] = {"priority": self.priority, "can_recurse": lambda: self.chance(50), "call": self.procedure_or_null}
        return {"attach": self.name("slot"), "to": self.name("context")} | self.source(may)

    def child(self) -> dict[str, Any]:
        may: dict[str, Callable[[], Any]] = {"can_recurse": lambda: self.chance(50), "call": self.procedure_or_null}
        return {"child": self.name("slot"), "below": self.name("slot")} | self.source(may)

    def of_one_name(self) -> dict[str, Any]:
        word = self.random.choice([word for word, kind in OF_ONE_NAME.items() if self.names[kind]])
        return {word: self.name(OF_ONE_NAME[word])}

    def action(self) -> dict[str, Any]:
        makers: list[Callable[[], dict[str, Any]]] = [self.attach, self.attach, self.child, self.task, lambda: {"show_default": True}]
        makers += [lambda: {"set_priority": self.name("slot"), "to": self.priority()}, lambda: {"invoke": self.plain, "in": self.name("context")}]
        makers += [self.plain_action] * 4 + [self.of_one_name] * 12
        if self.version != 1:
            makers.append(lambda: {"give": self.name("context"), "to": self.name("thread")})
        if self.names["cancellable"]:
            makers.append(lambda: {"connect": self.name("slot"), "to": self.name("cancellable"), "call": self.plain})
        action = self.random.choice(makers)()
        return dict(self.random.sample(list(action.items()), len(action)))

    def plain_action(self) -> dict[str, Any]:
        """One that a handler may take."""
        makers: list[Callable[[], dict[str, Any]]] = [lambda: {"set_ready": self.name("slot"), "to": self.ready_time()}, lambda: {"log": self.name("text")}]
        makers += [lambda: {"destroy": self.name("slot")}] + [lambda: {"quit": self.name("loop")}] * bool(self.names["loop"])
        return self.random.choice(makers)()

    def actions(self) -> list[dict[str, Any]]:
        return [self.action() for _ in range(self.random.randrange(7))]

    def thread(self, name: str, contexts: list[str]) -> dict[str, Any]:
        said = {} if name in self.unsaid else {"contexts": contexts}
        return said | {"start": self.actions()}

    def procedure(self, name: str) -> dict[str, Any]:
        if name == self.plain:
            return {"do": [self.plain_action() for _ in range(self.random.randrange(4))]} | self.some({"keep": lambda: self.random.choice(("REMOVE", 0))})
        return {"do": self.actions()} | self.some({"keep": lambda: self.random.choice((*KEEPS, None, 0, 1, 7))})

    def pairs(self) -> list[list[Any]]:
        return [[tick, self.conditions()] for tick in sorted(self.random.sample(range(100), self.random.randrange(4)))]

    def script(self) -> dict[str, Any]:
        threads = {name: self.thread(name, contexts) for name, contexts in zip(self.names["thread"], self.contexts)}
        slots = [{"attach": name, "to": self.name("context"), "idle": True} for name in self.names["slot"]]  # so that each names something
        first = threads[self.names["thread"][0]]
        first["start"] = self.random.sample(slots, len(slots)) + first["start"]
        told: dict[str, Any] = {
            "form": "names",
            "ticks": self.random.randint(1, 100),
            "threads": threads,
            "procedures": {name: self.procedure(name) for name in self.names["procedure"]},
            "loops": {name: self.name("context") for name in self.names["loop"]},
            "cancellables": self.names["cancellable"],
            "descriptors": {name: self.pairs() for name in self.names["descriptor"]},
        } | self.some({"tick": lambda: f"{self.random.randint(1, MOST_OF_A_TICK)} {self.random.choice(list(UNITS))}"})
        if self.version:
            told["version"] = self.version
        return dict(self.random.sample(list(told.items()), len(told)))


def script(seed: int) -> dict[str, Any]:
    return Maker(seed).script()


def places(value: Any) -> Iterator[tuple[Any, Any]]:
    """Each object and list with each key or index in it."""
    for key, inner in list(value.items() if isinstance(value, dict) else enumerate(value) if isinstance(value, list) else ()):
        yield value, key
        yield from places(inner)


def changed(seed: int) -> dict[str, Any]:
    """A script in which a value or a key was changed, put in or taken away."""
    told, chosen = copy.deepcopy(script(seed)), random.Random(-seed - 1)
    inner, key = chosen.choice(list(places(told)))
    way = chosen.randrange(4)
    if way == 0:
        del inner[key]
    elif way == 1 and isinstance(inner, dict):
        inner[chosen.choice(KEYS)] = inner.pop(key)
    elif way == 2 and isinstance(inner, dict):
        inner[chosen.choice(KEYS)] = chosen.choice(VALUES)
    else:
        inner[key] = copy.deepcopy(chosen.choice(VALUES))
    return told
