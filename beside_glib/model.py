"""A small interpreter of scripts, with a switch for each row of docs/GLIB.md in which the real library differs. With no switch it follows this
project's rules; with all, GLib's as glib_run drives it.

usage: model.py [all|ROW,ROW..] < script.json"""
from __future__ import annotations

import json
import sys
from collections.abc import Iterable
from typing import Any

from model_actions import TextParts
from model_context import Context, LibraryAborts
from model_thread import Thread, ThreadStuck
from rows import ROWS, Library, Rules


class World:
    """All threads of a script, and what they share. With the lines that are wanted of each it stops at the first other one."""

    def __init__(self, script: dict[str, Any], rules: Rules, library: Library, wanted: list[list[str]] | None = None) -> None:
        self.rules = rules
        self.version, self.ticks, self.tick_us = script["version"], script["ticks"], script["tick_us"]
        self.procedures, self.descriptors, self.loops = script.get("procs", []), script.get("fds", []), script.get("loops", [])
        self.homes = [number for number, lane in enumerate(script["lanes"]) for _ in range(lane["contexts"])]
        self.given: set[int] = set()
        self.contexts = [Context(number, rules, library) for number in range(len(self.homes))]
        self.running, self.quits = [False] * len(self.loops), [0] * len(self.loops)
        self.cancelled: set[int] = set()
        self.signals: list[list[Any]] = [[] for _ in range(script.get("cancellables", 0))]
        lanes = enumerate(script["lanes"])
        self.threads = [Thread(self, number, lane["start"], wanted[number] if wanted else None) for number, lane in lanes]

    def deliver(self, thread: Thread, letters: list[tuple[Any, ...]]) -> None:
        for letter in letters:
            if letter[0] == "give" and letter[2] == thread.number:
                thread.say(f"hold ctx {letter[1]}")
        for letter in letters:
            self.bring(thread, *letter)

    def bring(self, thread: Thread, news: str, of: Any, more: Any = None) -> None:
        source = None
        if news == "reply" and self.homes[of.context] == thread.number:
            spec = {"kind": ["idle"], "priority": of.spec.get("priority", 0), "call": of.spec["call"]}
            source = thread.attach(self.contexts[of.context], spec)
            source.reply = of, more
        elif news == "attach" and self.homes[of] == thread.number:
            source = thread.attach(self.contexts[of], {"kind": ["idle"], "priority": 0, "call": more})
        elif news == "arrived" and self.homes[of.number] == thread.number:
            source = of
        elif news == "cancel" and of not in thread.seen:
            thread.see_cancelled(of)
            if not self.rules.cancel_at_once:
                thread.emit(of)
        if source:
            thread.say(f"arrive ctx {source.number} source {source.id}")

    def step(self, tick: int) -> None:
        for thread in self.threads:
            thread.turn(tick)
        letters = [letter for thread in self.threads for letter in thread.letters]
        for thread in self.threads:
            thread.letters = []
        for letter in letters:
            if letter[0] == "give":
                self.homes[letter[1]] = letter[2]
                self.given.discard(letter[1])
        for thread in self.threads:
            self.deliver(thread, letters)

    def run(self) -> None:
        try:
            for tick in range(self.ticks):
                self.step(tick)
        except (LibraryAborts, ThreadStuck):
            pass

    def text(self) -> str:
        return "".join(f"thread {thread.number}\n" + "".join(line + "\n" for line in thread.lines) for thread in self.threads)


def text_of(script: dict[str, Any], rows: Iterable[str] = (), library: Library = Library()) -> str:
    """The text of a script as the model writes it, with the library's way in each of these rows."""
    world = World(script, Rules.of(rows), library)
    world.run()
    return world.text()


def lines_of(text: str) -> list[list[str]]:
    """the lines of each thread"""
    threads: list[list[str]] = []
    for line in text.splitlines():
        if line.startswith("thread "):
            threads.append([])
        elif threads:
            threads[-1].append(line)
    return threads


def writes(script: dict[str, Any], wanted: str, rows: Iterable[str], library: Library) -> bool:
    """Whether that text is the wanted one; it ends with the first line that is not."""
    lines = lines_of(wanted)
    if len(lines) != len(script["lanes"]):
        return False
    world = World(script, Rules.of(rows), library, lines)
    try:
        world.run()
    except TextParts:
        return False
    return world.text() == wanted


def main() -> None:
    words = sys.argv[1:]
    rows = list(ROWS) if words == ["all"] else words[0].split(",") if words else []
    unknown = [row for row in rows if row not in ROWS]
    if unknown or len(words) > 1:
        sys.exit(f"{__doc__}\n\nROW is one of\n" + "\n".join(f"  {row}" for row in ROWS))
    sys.stdout.write(text_of(json.load(sys.stdin), rows))


if __name__ == "__main__":
    main()
