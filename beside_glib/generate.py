"""Random scripts. A script has a theme: a few kinds of sources and a few actions, so that each of them meets each other one often."""
from __future__ import annotations

import random
from dataclasses import dataclass
from typing import Any

Action = list[Any]
PLAIN = ("log", "set_ready", "destroy", "quit")  # what a handler may do
GROWING = ("attach", "child", "invoke", "task")  # what adds sources


@dataclass(frozen=True)
class Theme:
    kinds: tuple[str, ...]
    words: tuple[str, ...]
    nests: bool = False  # several contexts, sources that may recurse
    loops: bool = False  # two contexts at least, and a loop of each that a timeout quits again and again


def theme(kinds: str, words: str, nests: bool = False, loops: bool = False) -> Theme:
    return Theme(tuple(kinds.split()), ("log", *words.split()), nests, loops)


EDITS = "attach child destroy set_ready set_priority"
STACK = "push pop show_default acquire release invoke"
ONE_THREAD = {
    "basic": theme("idle timeout ready", ""),
    "edits": theme("idle timeout ready fd", EDITS),
    "nesting": theme("idle timeout ready fd", "iterate run quit", nests=True),
    "nested edits": theme("idle timeout ready fd", EDITS + " iterate run quit", nests=True),
    "pending": theme("idle timeout ready fd", EDITS + " pending"),
    "cancellables": theme("idle timeout ready fd cancel", EDITS + " cancel connect disconnect"),
    "tasks": theme("idle timeout ready", "task cancel destroy set_ready"),
    "owners": theme("idle timeout ready", STACK + " iterate", nests=True),
    "owners and tasks": theme("idle timeout ready", STACK + " task", nests=True),
    "nested tasks": theme("idle timeout ready cancel", "task cancel push pop show_default invoke iterate run quit", nests=True),
    "clocks": theme("timeout timeout timeout idle", "set_ready run run quit", nests=True, loops=True),
    "all": theme("idle timeout ready fd cancel", EDITS + " iterate run quit pending cancel connect disconnect task " + STACK, nests=True),
}
SEVERAL_THREADS = {
    "invokes": theme("idle timeout ready", "invoke invoke"),
    "cancellables": theme("idle timeout cancel", "cancel connect disconnect destroy"),
    "tasks": theme("idle timeout", "task cancel push pop show_default"),
    "owners": theme("idle timeout", STACK + " iterate"),
    "loops": theme("idle timeout ready", "run quit iterate invoke", nests=True),
    "edits": theme("idle timeout fd", EDITS + " invoke"),
    "all": theme("idle timeout ready fd cancel", EDITS + " iterate run quit pending cancel connect disconnect task " + STACK, nests=True),
}


class Generator:
    """Makes one script; the same numbers make the same one."""

    def __init__(self, of: Theme, seed: str, lanes: int) -> None:
        self.of, self.random = of, random.Random(seed)
        pick = self.random.choice
        self.tick_us, self.ticks = pick([1000, 1000, 1000, 700, 2500]), self.random.randint(3, 14)
        self.several = lanes > 1
        most = 3 if of.nests or "push" in of.words else 1
        self.lane_contexts = [self.random.randint(1 + of.loops, 2 if self.several and most > 1 else most) for _ in range(lanes)]
        self.contexts = sum(self.lane_contexts)
        firsts = [sum(self.lane_contexts[:lane]) for lane in range(lanes)]
        more = [self.random.randrange(self.contexts) for _ in range(self.random.randint(0, 2))]
        self.loops = list(range(self.contexts)) if of.loops else firsts + more
        self.cancellables = 2 if "cancel" in of.words or "cancel" in of.kinds else 0
        self.descriptors = 2 if "fd" in of.kinds else 0
        self.priorities = pick([[0], [0, 200], [-100, 0, 0, 5, 200], [0, 200, 300, -2147483647, 2147483647]])
        self.slots, self.procedures = self.random.randint(2, 7), self.random.randint(2, 6)
        self.lane = 0  # the one whose actions are made; procedures belong to any

    def context(self) -> int:
        """mostly one of the thread's own"""
        if self.several and self.random.random() < 0.25:
            return self.random.randrange(self.contexts)
        return sum(self.lane_contexts[: self.lane]) + self.random.randrange(self.lane_contexts[self.lane])

    def loop(self) -> int:
        if self.several and self.random.random() < 0.8:
            return self.lane
        return self.random.randrange(len(self.loops))

    def kind(self) -> list[Any]:
        word, number = self.random.choice(self.of.kinds), self.random.randint
        if word == "timeout":
            return [word, number(0, 5)]
        if word == "ready":
            return [word, self.random.choice([-1, 0, 0, self.tick_us, number(0, 6 * self.tick_us)])]
        if word == "fd":
            return [word, number(0, self.descriptors - 1), number(0, 63)]
        if word == "cancel":
            return [word, number(0, self.cancellables - 1)]
        return [word]

    def spec(self, is_child: bool = False) -> dict[str, Any]:
        spec: dict[str, Any] = {"kind": self.kind()}
        if not is_child and self.random.random() < 0.6:
            spec["priority"] = self.random.choice(self.priorities)
        if self.of.nests and self.random.random() < 0.25:
            spec["recurse"] = True
        if self.random.random() < 0.8:
            spec["call"] = self.random.randrange(self.procedures)
        return spec

    def tree(self, depth: int = 3) -> list[Any]:
        word = self.random.choice(["value", "fail", "sleep", "sleep", "check"] + (["seq", "both", "first", "within"] if depth else []))
        if word == "value":
            return [word, self.random.randint(-9, 9)]
        if word == "sleep":
            return [word, self.random.randint(0, 4 * self.tick_us)]
        if word == "within":
            return [word, self.random.randint(0, 4 * self.tick_us), self.tree(depth - 1)]
        return [word] if word in ("fail", "check") else [word, self.tree(depth - 1), self.tree(depth - 1)]

    def task(self) -> dict[str, Any]:
        task: dict[str, Any] = {"tree": self.tree(), "call": self.random.randrange(self.procedures)}
        if self.cancellables and self.random.random() < 0.6:
            task["cancel"] = self.random.randrange(self.cancellables)
        if self.random.random() < 0.3:
            task["check"] = False
        elif self.random.random() < 0.4:
            task["return_on_cancel"] = True
        if self.random.random() < 0.4:
            task["priority"] = self.random.choice(self.priorities)
        return task

    def action(self, words: tuple[str, ...]) -> Action:
        word, slot = self.random.choice(words), self.random.randrange(self.slots)
        if word == "attach":
            return [word, self.context(), slot, self.spec()]
        if word == "child":
            return [word, self.random.randrange(self.slots), slot, self.spec(is_child=True)]
        if word == "set_ready":
            return [word, slot, self.random.choice([-1, -1, 0, self.random.randint(0, self.ticks * self.tick_us)])]
        if word == "set_priority":
            return [word, slot, self.random.choice(self.priorities)]
        if word in ("destroy", "disconnect"):
            return [word, slot]
        if word in ("run", "quit"):
            return [word, self.loop()]
        if word == "cancel":
            return [word, self.random.randrange(self.cancellables)]
        if word == "connect":
            return [word, self.random.randrange(self.cancellables), slot, self.procedures]
        if word == "task":
            return [word, self.task()]
        if word == "invoke":
            return [word, self.context(), self.procedures + 1 + self.random.randrange(2)]
        if word == "show_default":
            return [word]
        if word == "log":
            return [word, self.random.randint(0, 99)]
        return [word, self.context()]

    def procedure(self) -> dict[str, Any]:
        """a procedure of a source, with at most one action that adds sources, and then not kept for long, so that few scripts swell"""
        self.lane = self.random.randrange(len(self.lane_contexts))
        words = self.of.words + ("log", "log")
        do = [self.action(words) for _ in range(self.random.randint(0, 4))]
        growing = [action for action in do if action[0] in GROWING]
        keep = self.random.choice([None, None, 0, 1, 3])
        if growing:
            do = [action for action in do if action not in growing[1:]]
            keep = self.random.choice([0, 0, 1])
        return {"do": do, "keep": keep}

    def plain_procedure(self, words: tuple[str, ...]) -> dict[str, Any]:
        self.lane = self.random.randrange(len(self.lane_contexts))
        return {"do": [self.action(words) for _ in range(self.random.randint(0, 3))]}

    def quitter(self, context: int) -> dict[str, Any]:
        """what quits the loop of a context, which has the context's number; the procedures of these stand last"""
        return {"kind": ["timeout", self.random.randint(1, 3)], "call": self.procedures + 3 + context}

    def start(self, lane: int) -> list[Action]:
        self.lane = lane
        first = sum(self.lane_contexts[:lane])
        start: list[Action] = []
        for at in range(self.random.randint(1 if self.several else 2, 4 if self.several else 6)):
            context = self.context() if self.random.random() < 0.4 else first
            start.append(["attach", context, at % self.slots, self.spec()])
        if self.of.loops:
            start += [["attach", context, 0, self.quitter(context)] for context in range(first + 1, first + self.lane_contexts[lane])]
        words = self.of.words + (("child", "child") if "child" in self.of.words else ())
        start += [action for action in (self.action(words) for _ in range(self.random.randint(0, 8))) if action[0] != "run"]
        return start + [["run", lane], ["log", 1000]]

    def descriptor(self) -> list[list[int]]:
        pairs, tick = [], self.random.randint(0, 2)
        while tick < self.ticks and len(pairs) < 6:
            pairs.append([tick, self.random.choice([0, 1, 4, 16, self.random.randint(0, 63)])])
            tick += self.random.randint(1, 4)
        return pairs

    def script(self) -> dict[str, Any]:
        procedures = [self.procedure() for _ in range(self.procedures)]
        procedures.append(self.plain_procedure(tuple(word for word in self.of.words if word in PLAIN)))
        procedures += [self.plain_procedure(self.of.words) for _ in range(2)]
        if self.of.loops:
            procedures += [{"do": [["quit", loop]], "keep": None} for loop in range(self.contexts)]
        lanes = [{"contexts": contexts, "start": self.start(lane)} for lane, contexts in enumerate(self.lane_contexts)]
        version = 2 if "child" in self.of.words and self.random.random() < 0.4 else 1
        return {"version": version, "ticks": self.ticks, "tick_us": self.tick_us, "lanes": lanes, "cancellables": self.cancellables,
                "fds": [self.descriptor() for _ in range(self.descriptors)], "loops": self.loops, "procs": procedures}


def script_of(number: int, seed: int, several: bool) -> dict[str, Any]:
    """The script of a number, of one thread or of several; themes take turns."""
    themes = SEVERAL_THREADS if several else ONE_THREAD
    name = list(themes)[number % len(themes)]
    key = f"{seed}/{number}/{name}/{several}"
    return Generator(themes[name], key, random.Random(key).randint(2, 3) if several else 1).script()
