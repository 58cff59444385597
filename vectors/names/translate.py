#!/usr/bin/env python3
"""Writes the script of numbers that a script with names stands for, as docs/NAMES.md says. It shares nothing with the program.

usage: translate.py [FILE]"""
from __future__ import annotations

import json
import re
import sys
from collections.abc import Callable, Iterable, Iterator
from dataclasses import dataclass
from pathlib import Path
from typing import Any

MOST = {"thread": 64, "context": 256, "loop": 256, "procedure": 1024, "cancellable": 256, "descriptor": 256, "slot": 256, "text": 4096}
UNITS = {"us": 1, "ms": 1_000, "s": 1_000_000}  # in microseconds
CONDITIONS = {"IN": 1, "PRI": 2, "OUT": 4, "ERR": 8, "HUP": 16, "NVAL": 32}
MOST_CONDITIONS = 32
PRIORITIES = {"HIGH": -100, "DEFAULT": 0, "HIGH_IDLE": 100, "DEFAULT_IDLE": 200, "LOW": 300}
KEEPS = {"CONTINUE": None, "REMOVE": 0}
VERSION, TICK = 2, 1_000  # where a script has no other

NAMING = ("attach", "child", "connect")  # the actions that let a slot name something
SOURCES = {"idle": (), "timeout": (), "ready": (), "fd": ("events",), "cancellable": ()}  # the keys beside each kind
ACTIONS: dict[str, tuple[tuple[str, ...], tuple[str, ...]]] = {  # the keys that must stand beside each word, and those that may
    "attach": (("to",), ("priority", "can_recurse", "call")),
    "child": (("below",), ("can_recurse", "call")),
    "destroy": ((), ()),
    "set_ready": (("to",), ()),
    "set_priority": (("to",), ()),
    "iterate": ((), ()),
    "pending": ((), ()),
    "run": ((), ()),
    "quit": ((), ()),
    "cancel": ((), ()),
    "connect": (("to", "call"), ()),
    "disconnect": ((), ()),
    "task": (("does", "call"), ("cancellable", "check_cancellable", "return_on_cancel", "priority")),
    "push": ((), ()),
    "pop": ((), ()),
    "show_default": ((), ()),
    "acquire": ((), ()),
    "release": ((), ()),
    "invoke": (("in",), ()),
    "give": (("to",), ()),
    "log": ((), ()),
}
OF_ONE_NAME = {  # the kind of the name that is all of an action
    "destroy": "slot", "iterate": "context", "pending": "context", "run": "loop", "quit": "loop", "cancel": "cancellable", "disconnect": "slot",
    "push": "context", "pop": "context", "acquire": "context", "release": "context", "log": "text",
}


class Refused(Exception):
    """Where a script is wrong, as a pointer, and how."""

    def __init__(self, place: str, why: str) -> None:
        super().__init__(f"{place or 'the top'}: {why}")


class Members(dict[str, Any]):
    """An object, and the keys that stand twice in it."""

    def __init__(self, pairs: list[tuple[str, Any]]) -> None:
        super().__init__(pairs)
        keys = [key for key, _ in pairs]
        self.twice = {key for key in keys if keys.count(key) > 1} if len(self) < len(keys) else set()


@dataclass(frozen=True)
class Value:
    """A value of the script, and the pointer to it."""

    it: Any
    place: str = ""

    def members(self) -> Iterator[tuple[str, Value]]:
        if not isinstance(self.it, dict):
            raise Refused(self.place, "no object")
        return ((key, Value(value, f"{self.place}/{key.replace('~', '~0').replace('/', '~1')}")) for key, value in self.it.items())

    def items(self, length: int | None = None) -> list[Value]:
        if not isinstance(self.it, list):
            raise Refused(self.place, "no list")
        if length not in (None, len(self.it)):
            raise Refused(self.place, f"a list of another length than {length}")
        return [Value(item, f"{self.place}/{n}") for n, item in enumerate(self.it)]

    def keys(self, must: Iterable[str], may: Iterable[str] = ()) -> dict[str, Value]:
        found, must = dict(self.members()), tuple(must)
        for key in must:
            if key not in found:
                raise Refused(self.place, f"no key {key}")
        for key, value in found.items():
            if key not in (*must, *may):
                raise Refused(value.place, "an unknown key")
        return found

    def only(self, words: Iterable[str]) -> str:
        found = [word for word in words if word in dict(self.members())]
        if len(found) != 1:
            raise Refused(self.place, f"{len(found)} words in the place of one")
        return found[0]

    def text(self) -> str:
        if not isinstance(self.it, str):
            raise Refused(self.place, "no text")
        return self.it

    def number(self) -> Any:
        if isinstance(self.it, bool) or not isinstance(self.it, (int, float)):
            raise Refused(self.place, "no number")
        return self.it

    def truth(self) -> bool:
        if not isinstance(self.it, bool):
            raise Refused(self.place, "neither true nor false")
        return self.it

    def true(self) -> None:
        if self.it is not True:
            raise Refused(self.place, "not true")

    def one_of(self, words: dict[str, Any]) -> Any:
        if self.text() not in words:
            raise Refused(self.place, "none of the words")
        return words[self.text()]

    def time(self) -> int:
        parts = re.fullmatch("([0-9]+) (us|ms|s)", self.text())
        if not parts:
            raise Refused(self.place, "no time")
        return int(parts[1]) * UNITS[parts[2]]

    def milliseconds(self) -> int:
        whole, rest = divmod(self.time(), UNITS["ms"])
        if rest:
            raise Refused(self.place, "no whole milliseconds")
        return whole

    def ready_time(self) -> int:
        return -1 if self.it == "never" else self.time()

    def conditions(self) -> int:
        words = self.text().split("|") if self.text() else []
        if len(words) > MOST_CONDITIONS or any(word not in CONDITIONS for word in words):
            raise Refused(self.place, "no conditions")
        return sum(CONDITIONS[word] for word in set(words))

    def priority(self) -> Any:
        return self.one_of(PRIORITIES) if isinstance(self.it, str) else self.number()

    def keep(self) -> Any:
        return None if self.it is None else self.one_of(KEEPS) if isinstance(self.it, str) else self.number()


class Names:
    """The names of each kind, in the order of their numbers."""

    def __init__(self, script: dict[str, Value]) -> None:
        self.lists: dict[str, list[str]] = {kind: [] for kind in MOST}
        for key, kind in (("threads", "thread"), ("loops", "loop"), ("procedures", "procedure"), ("descriptors", "descriptor")):
            if key in script:
                self.only_once(kind, [name for name, _ in script[key].members()], script[key])
                if twice := getattr(script[key].it, "twice", None):
                    raise Refused(script[key].place, f"{sorted(twice)[0]} stands twice")
        if "cancellables" in script:
            self.only_once("cancellable", [item.text() for item in script["cancellables"].items()], script["cancellables"])
        self.only_once("context", [name for thread in script["threads"].members() for name in contexts_of(*thread)], script["threads"])
        for action in actions_of(script):
            for word in NAMING:
                self.first("slot", action.it.get(word))
            self.first("text", action.it.get("log"))

    def only_once(self, kind: str, names: list[str], at: Value) -> None:
        self.lists[kind] = names
        if len(names) > MOST[kind]:
            raise Refused(at.place, f"more than {MOST[kind]}")
        for n, name in enumerate(names):
            if name in names[:n]:
                raise Refused(at.place, f"{name} stands twice")

    def first(self, kind: str, name: Any) -> None:
        if isinstance(name, str) and name not in self.lists[kind]:
            self.lists[kind].append(name)

    def number(self, kind: str, name: Value) -> int:
        known = self.lists[kind][: MOST[kind]]
        if name.text() not in known:
            raise Refused(name.place, f"the name of no {kind}")
        return known.index(name.text())


def contexts_of(name: str, thread: Value) -> list[str]:
    contexts = dict(thread.members()).get("contexts")
    return [name] if contexts is None else [item.text() for item in contexts.items()]


def actions_of(script: dict[str, Value]) -> Iterator[Value]:
    """All actions that are objects, in the order that gives slots and texts their numbers."""
    for key, inner in (("threads", "start"), ("procedures", "do")):
        if key in script:
            for _, each in script[key].members():
                listed = dict(each.members()).get(inner)
                yield from (action for action in (listed.items() if listed else []) if isinstance(action.it, dict))


class Translation:
    """A script of numbers in the making."""

    def __init__(self, names: Names) -> None:
        self.names = names

    def name(self, kind: str) -> Callable[[Value], int]:
        return lambda value: self.names.number(kind, value)

    def name_or_null(self, kind: str) -> Callable[[Value], int | None]:
        return lambda value: None if value.it is None else self.names.number(kind, value)

    def action(self, value: Value) -> list[Any]:
        word = value.only(ACTIONS)
        must, may = ACTIONS[word]
        if word in ("attach", "child"):
            kind = value.only(SOURCES)
            must = (*must, kind, *SOURCES[kind])
        found = value.keys((word, *must), may)
        if word in OF_ONE_NAME:
            return [word, self.names.number(OF_ONE_NAME[word], found[word])]
        return [word, *getattr(self, word)(found)]

    def attach(self, it: dict[str, Value]) -> list[Any]:
        return [self.names.number("context", it["to"]), self.names.number("slot", it["attach"]), self.source(it)]

    def child(self, it: dict[str, Value]) -> list[Any]:
        return [self.names.number("slot", it["below"]), self.names.number("slot", it["child"]), self.source(it)]

    def set_ready(self, it: dict[str, Value]) -> list[Any]:
        return [self.names.number("slot", it["set_ready"]), it["to"].ready_time()]

    def set_priority(self, it: dict[str, Value]) -> list[Any]:
        return [self.names.number("slot", it["set_priority"]), it["to"].priority()]

    def connect(self, it: dict[str, Value]) -> list[Any]:
        return [self.names.number("cancellable", it["to"]), self.names.number("slot", it["connect"]), self.names.number("procedure", it["call"])]

    def task(self, it: dict[str, Value]) -> list[Any]:
        if not isinstance(it["task"].it, str):
            it["task"].true()
        told = {"tree": self.tree(it["does"]), "call": self.names.number("procedure", it["call"])}
        readers = {"cancellable": self.name_or_null("cancellable"), "check_cancellable": Value.truth, "return_on_cancel": Value.truth,
                   "priority": Value.priority}
        return [told | optional(it, readers, {"cancellable": "cancel", "check_cancellable": "check"})]

    def show_default(self, it: dict[str, Value]) -> list[Any]:
        it["show_default"].true()
        return []

    def invoke(self, it: dict[str, Value]) -> list[Any]:
        return [self.names.number("context", it["in"]), self.names.number("procedure", it["invoke"])]

    def give(self, it: dict[str, Value]) -> list[Any]:
        return [self.names.number("context", it["give"]), self.names.number("thread", it["to"])]

    def source(self, it: dict[str, Value]) -> dict[str, Any]:
        readers = {"priority": Value.priority, "can_recurse": Value.truth, "call": self.name_or_null("procedure")}
        return {"kind": self.kind(it)} | optional(it, readers, {"can_recurse": "recurse"})

    def kind(self, it: dict[str, Value]) -> list[Any]:
        if "idle" in it:
            it["idle"].true()
            return ["idle"]
        if "timeout" in it:
            return ["timeout", it["timeout"].milliseconds()]
        if "ready" in it:
            return ["ready", it["ready"].ready_time()]
        if "fd" in it:
            return ["fd", self.names.number("descriptor", it["fd"]), it["events"].conditions()]
        return ["cancel", self.names.number("cancellable", it["cancellable"])]

    def tree(self, value: Value) -> list[Any]:
        parts: dict[str, tuple[Callable[[Value], Any], ...]] = {
            "value": (Value.number,), "fail": (), "sleep": (Value.time,), "check": (), "seq": (self.tree, self.tree), "both": (self.tree, self.tree),
            "first": (self.tree, self.tree), "within": (Value.time, self.tree)}
        items = value.items()
        word = items[0].it if items else None
        if not isinstance(word, str) or word not in parts:
            raise Refused(value.place, "no tree")
        _, *inner = value.items(1 + len(parts[word]))
        return [word, *(reader(part) for reader, part in zip(parts[word], inner))]

    def actions(self, value: Value) -> list[Any]:
        return [self.action(item) for item in value.items()]

    def thread(self, value: Value) -> dict[str, Any]:
        it = value.keys(("start",), ("contexts",))
        return {"contexts": len(it["contexts"].items()) if "contexts" in it else 1, "start": self.actions(it["start"])}

    def procedure(self, value: Value) -> dict[str, Any]:
        it = value.keys(("do",), ("keep",))
        return {"do": self.actions(it["do"])} | optional(it, {"keep": Value.keep}, {})

    def pairs(self, value: Value) -> list[Any]:
        return [[tick.number(), bits.conditions()] for tick, bits in (pair.items(2) for pair in value.items())]

    def each(self, reader: Callable[[Value], Any]) -> Callable[[Value], list[Any]]:
        return lambda value: [reader(member) for _, member in value.members()]


def optional(it: dict[str, Value], readers: dict[str, Callable[[Value], Any]], other: dict[str, str]) -> dict[str, Any]:
    """The keys that may be absent, by their names in a script of numbers."""
    return {other.get(key, key): reader(it[key]) for key, reader in readers.items() if key in it}


def translated(script: Any) -> dict[str, Any]:
    """The script of numbers of a script that was read with `read`."""
    may = ("version", "tick", "cancellables", "descriptors", "loops", "procedures")
    it = Value(script).keys(("form", "ticks", "threads"), may)
    it["form"].one_of({"names": None})
    made = Translation(Names(it))
    told = {
        "version": it["version"].number() if "version" in it else VERSION,
        "ticks": it["ticks"].number(),
        "tick_us": it["tick"].time() if "tick" in it else TICK,
        "lanes": made.each(made.thread)(it["threads"]),
    }
    lists = {"cancellables": lambda value: len(value.items()), "descriptors": made.each(made.pairs), "loops": made.each(made.name("context")),
             "procedures": made.each(made.procedure)}
    return told | optional(it, lists, {"descriptors": "fds", "procedures": "procs"})


def read(text: str) -> Any:
    return json.loads(text, object_pairs_hook=Members)


def main() -> None:
    if len(sys.argv) > 2 or sys.argv[1:2] in (["-h"], ["--help"]):
        sys.exit(__doc__)
    try:
        print(json.dumps(translated(read(Path(sys.argv[1]).read_text() if sys.argv[1:] else sys.stdin.read()))))
    except Refused as refused:
        sys.exit(str(refused))


if __name__ == "__main__":
    main()
