"""Puts each name of a text with names back to its number, which has to give the text that mainctx writes.

Names of threads, contexts, loops, cancellables and texts have the numbers that docs/NAMES.md gives them, here by the translator of this folder. What a source
is called is read from the account of the run (docs/ACCOUNT.md), of a handler from the script and the account: it is called by the slot that names it, the
second of a slot with #2 behind it."""
from __future__ import annotations

import json
import re
from collections import Counter
from typing import Any

from translate import PRIORITIES, Names, Value, read, translated

WORD = r'(?:"(?:[^"\\]|\\.)*"|[A-Za-z0-9_-]+)'  # a name: as it is, or in quotes
TASK = rf"{WORD}\.\d+"
LABEL = rf"(?:reply of task {TASK}|invoke of {WORD}|{WORD})(?: #\d+)?"  # what a source or a handler is called
EVENTS = {
    "dispatch": re.compile(rf"dispatch (?P<source>{LABEL})(?: -> {WORD})? \((?P<priority>-?\w+)(?:, depth (?P<depth>\d+))?\)"),
    "answer": re.compile(rf"(?P<word>iterate|pending|acquire) (?P<context>{WORD}): (?P<answer>true|false)"),
    "of context": re.compile(rf"(?P<word>default|hold) (?P<context>{WORD})"),
    "log": re.compile(rf"log (?P<text>{WORD})"),
    "loop": re.compile(rf"loop (?P<loop>{WORD}) end"),
    "invoke": re.compile(rf"invoke in (?P<context>{WORD}) -> {WORD}: (?P<how>direct|attached|posted)"),
    "arrive": re.compile(rf"arrive (?P<source>{LABEL}) in {WORD}"),
    "give": re.compile(rf"give (?P<context>{WORD}) to (?P<thread>{WORD})"),
    "cancel": re.compile(rf"cancel (?P<cancellable>{WORD})"),
    "handler": re.compile(rf"handler (?P<handler>{LABEL})"),
    "late": re.compile(rf"too late: {WORD}"),  # a handler that is connected too late has no id
    "task": re.compile(rf"task (?P<task>{TASK}) (?P<rest>.*)"),
    "same": re.compile(r"(?P<same>miss \w+|halt \w+|end)"),
}


def bare(word: str) -> str:
    return json.loads(word) if word.startswith('"') else word


def told(name: str) -> str:
    """A name as it stands in a text: in quotes where it has other characters than these."""
    return name if re.fullmatch(r"[A-Za-z0-9_-]+", name) else json.dumps(name, ensure_ascii=False)


class Run:
    """What the things of one run are called."""

    def __init__(self, text: str, account: list[dict[str, Any]]) -> None:
        script = read(text)
        self.names = Names(Value(script).keys(("form", "ticks", "threads"), tuple(script)))
        self.numbers = translated(script)
        self.sources = {one["attached"]["name"]: (one["attached"]["context"], one["attached"]["source"]) for one in account if "attached" in one}
        self.handlers = self.connected(account)

    def connected(self, account: list[dict[str, Any]]) -> dict[tuple[int, str], int]:
        """The ids of handlers, by the thread and by what they are called."""
        ids: Counter[int] = Counter()
        of_slot: Counter[str] = Counter()
        found = {}
        for one in account:
            if one.get("action") != "connect":
                continue
            actions = self.numbers["procs"][one["procedure"]]["do"] if one["list"] == "procedure" else self.numbers["lanes"][one["lane"]]["start"]
            slot = told(self.names.lists["slot"][actions[one["place"]][2]])
            if any(line.partition(" ")[2] == "handler 0" for line in one.get("lines", ())):  # it is connected too late, and has no id
                continue
            ids[one["lane"]] += 1
            of_slot[slot] += 1
            found[one["lane"], slot if of_slot[slot] == 1 else f"{slot} #{of_slot[slot]}"] = ids[one["lane"]]
        return found

    def number(self, kind: str, word: str) -> int:
        return self.names.lists[kind].index(bare(word))

    def event(self, lane: int, event: str) -> str:
        """What a line tells, in numbers."""
        kind, parts = next((kind, found) for kind, pattern in EVENTS.items() if (found := pattern.fullmatch(event)))
        if kind in ("dispatch", "arrive"):
            context, source = self.sources[parts["source"]]
            if kind == "arrive":
                return f"arrive ctx {context} source {source}"
            return f"dispatch ctx {context} source {source} priority {PRIORITIES.get(parts['priority'], parts['priority'])} depth {parts['depth'] or 1}"
        if kind == "answer":
            return f"{parts['word']} ctx {self.number('context', parts['context'])} {parts['answer']}"
        if kind == "of context":
            return f"{parts['word']} ctx {self.number('context', parts['context'])}"
        if kind == "log":
            return f"log {self.number('text', parts['text'])}"
        if kind == "loop":
            return f"loop {self.number('loop', parts['loop'])} end"
        if kind == "invoke":
            return f"invoke ctx {self.number('context', parts['context'])} {parts['how']}"
        if kind == "give":
            return f"give ctx {self.number('context', parts['context'])} lane {self.number('thread', parts['thread'])}"
        if kind == "cancel":
            return f"cancel {self.number('cancellable', parts['cancellable'])}"
        if kind == "handler":
            return f"handler {self.handlers[lane, parts['handler']]}"
        if kind == "late":
            return "handler 0"
        if kind == "task":
            thread, _, number = parts["task"].rpartition(".")
            return f"task {self.number('thread', thread)}.{number} {parts['rest']}"
        return parts["same"]

    def line(self, lane: int, line: str) -> str:
        time, event = line.split(" ms  ", 1)
        whole, _, part = time.partition(".")
        tick, rest = divmod(int(whole) * 1000 + int(part.ljust(3, "0")), self.numbers["tick_us"])
        if rest:
            raise ValueError(f"{time} ms is no tick")
        return f"{tick} {self.event(lane, event)}"


def put_back(text: str, run_text: str, account: list[dict[str, Any]]) -> str:
    """The text in numbers of what is told of the run of a script, which has this account."""
    run = Run(text, account)
    lines, lane = [], -1
    for line in run_text.splitlines():
        if line.startswith("thread "):
            lane += 1
            lines.append(f"thread {run.number('thread', line.removeprefix('thread '))}")
            continue
        lines.append(run.line(lane, line))
    return "".join(f"{line}\n" for line in lines)
