"""Two texts side by side where they part."""
from __future__ import annotations

import shutil
from difflib import SequenceMatcher
from itertools import zip_longest

from model import lines_of

AROUND = 2  # equal lines that are shown before and after a difference
ROOM = 20  # lines of differences on one screen
LEAST_ROOM = 4  # of a thread that comes last
NARROWEST = 30
WINDOW = 400  # lines from the first difference on in which equal ones are looked for

Pair = tuple[str | None, str | None, bool]  # a line here, one of the library's, and whether they are the same


def alike(here: list[str], library: list[str]) -> int:
    """how many lines the two begin with that are the same"""
    return next((at for at, (one, other) in enumerate(zip(here, library)) if one != other), min(len(here), len(library)))


def pairs_of(here: list[str], library: list[str]) -> list[Pair]:
    """both texts line by line, from a little before their first difference on"""
    begin = max(0, alike(here, library) - AROUND - 1)
    here, library = here[begin : begin + WINDOW], library[begin : begin + WINDOW]
    pairs: list[Pair] = []
    for tag, first, last, first_there, last_there in SequenceMatcher(None, here, library, autojunk=False).get_opcodes():
        both = zip_longest(here[first:last], library[first_there:last_there])
        pairs += [(one, other, tag == "equal") for one, other in both]
    return pairs


def shown(pairs: list[Pair]) -> list[Pair | None]:
    """the pairs that differ with those around them; None stands for what is left out"""
    near = {at + by for at, pair in enumerate(pairs) if not pair[2] for by in range(-AROUND, AROUND + 1)}
    lines: list[Pair | None] = []
    for at, pair in enumerate(pairs):
        if at in near:
            lines.append(pair)
        elif not lines or lines[-1] is not None:
            lines.append(None)
    return lines


def cut(line: str | None, width: int) -> str:
    text = line or ""
    return text if len(text) <= width else text[: width - 2] + ".."


def cut_both(pair: Pair, width: int) -> tuple[str, str]:
    """both lines in their columns, by their ends where they differ in no other place"""
    one, other = cut(pair[0], width), cut(pair[1], width)
    if not pair[2] and one == other:
        one, other = (".." + (line or "")[2 - width :] for line in pair[:2])
    return one, other


def one_thread(heading: str, lines: list[Pair | None], width: int, marked: bool) -> list[str]:
    told = [f"    {heading:<{width}} | {heading}"]
    for pair in lines:
        if pair is None:
            told.append(f"    {'..':<{width}} | ..")
            continue
        mark = " " if pair[2] else "*" if marked else ">"
        marked = marked or not pair[2]
        one, other = cut_both(pair, width)
        told.append(f"  {mark} {one:<{width}} | {other}".rstrip())
    return told


def side_by_side(here: str, library: str, version: str) -> list[str]:
    """Both texts, thread by thread, where they part; the first difference has a mark of its own."""
    width = max(NARROWEST, (shutil.get_terminal_size((120, 40)).columns - 8) // 2)
    ours, theirs = lines_of(here), lines_of(library)
    told, room, marked = [f"    {'here':<{width}} | GLib {version}"], ROOM, False
    for number, (one, other) in enumerate(zip_longest(ours, theirs, fillvalue=[])):
        if one == other:
            continue
        lines = shown(pairs_of(one, other))
        few = lines[: max(room, LEAST_ROOM)]
        told += one_thread(f"thread {number}", few, width, marked)
        if len(lines) > len(few):
            told.append("    .. and more")
        room, marked = room - len(few), True
    return told


def first_difference(here: str, library: str) -> str:
    """where the two texts part first, in words"""
    heading = ""
    for number, (one, other) in enumerate(zip_longest(here.splitlines(), library.splitlines()), 1):
        if one is not None and one.startswith("thread "):
            heading = one
        if one != other:
            return f"line {number} ({heading})" if heading else f"line {number}"
    return "no line"
