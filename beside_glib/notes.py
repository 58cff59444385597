"""Where mainctx_inspect notes that the library would do otherwise, and where the texts part."""
from __future__ import annotations

import re
import subprocess
from dataclasses import dataclass
from itertools import zip_longest
from pathlib import Path

from model import lines_of
from programs import SECONDS, CannotCompare

NOTE = re.compile(r"note: tick (\d+) .*\(docs/GLIB\.md, ([a-z-]+)\)")


@dataclass(frozen=True)
class Note:
    """The tick of a note, and the row that it names."""

    tick: int
    row: str


def notes_of(script: bytes, program: Path) -> list[Note]:
    """what `mainctx_inspect notes` says of a script, in the order of the moves"""
    try:
        done = subprocess.run([program, "notes"], input=script, capture_output=True, timeout=SECONDS)
    except (OSError, subprocess.TimeoutExpired) as error:
        raise CannotCompare(f"{program} notes gives no answer") from error
    if done.returncode != 0:
        raise CannotCompare(f"{program} notes ended with status {done.returncode}")
    return [Note(int(tick), row) for tick, row in NOTE.findall(done.stdout.decode())]


def tick_of(line: str | None) -> float:
    return float("inf") if line is None else int(line.split()[0])


def first_difference(here: str, there: str) -> float:
    """the tick of the first line that differs in a thread, of both texts the earlier; infinity where none does"""
    parted = float("inf")
    for one, other in zip_longest(lines_of(here), lines_of(there), fillvalue=[]):
        pair = next(((a, b) for a, b in zip_longest(one, other) if a != b), None)
        if pair:
            parted = min(parted, tick_of(pair[0]), tick_of(pair[1]))
    return parted


def is_silent(notes: list[Note], here: str, there: str) -> bool:
    """Whether two texts part, and no note comes in the tick in which they do or before it. A run that the library cuts off parts at the latest at its end."""
    return not notes or min(note.tick for note in notes) > first_difference(here, there)
