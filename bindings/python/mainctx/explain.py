"""What whoever reads a test that failed is told: where a run parts from what was wanted, and the lines around."""
from __future__ import annotations

from collections.abc import Sequence
from dataclasses import dataclass
from typing import Any

from .lines import Line
from .run import Found, Run

AROUND = 4  # lines before the one that is shown, and behind it
LONGEST = 120  # characters of a value that are shown


def shown(value: object) -> str:
    """A value as a test that failed shows it: a line as it stands in the text, and not more than fits in a line."""
    told = str(value) if isinstance(value, Line) else repr(value)
    return told if len(told) <= LONGEST else f"{told[:LONGEST]}.."


def _at(items: Sequence[object], at: int) -> str:
    return shown(items[at]) if at < len(items) else "nothing"


def _first_difference(found: Sequence[object], wanted: Sequence[object]) -> int | None:
    """The first place at which two lists differ, also where one of them is over."""
    both = next((at for at, (one, other) in enumerate(zip(found, wanted)) if one != other), None)
    if both is None and len(found) != len(wanted):
        return min(len(found), len(wanted))
    return both


def _lines_around(lines: Sequence[Line], place: int) -> list[str]:
    """The lines around one, which is marked; each thread's begin with its name."""
    told: list[str] = []
    thread = None
    for at in range(max(0, place - AROUND), min(place + AROUND + 1, len(lines))):
        if lines[at].thread != thread:
            thread = lines[at].thread
            told.append(f"  thread {thread}")
        told.append(f"{'>' if at == place else ' '} {lines[at]}")
    return told


@dataclass(frozen=True)
class Difference:
    """Where a list that a run gave parts from another."""

    run: Run
    words: str  # in a line
    picture: str  # the lines of the run around that place, and the time line around its tick


def parts(found: Found[Any], wanted: Sequence[Any]) -> Difference | None:
    """Where a list that a run gave parts from another. Where it is over, that is at its last item's line. Equal lists do nowhere."""
    at = _first_difference(found, wanted)
    if at is None:
        return None
    lines, tick, around = found.run.lines, 0, []
    if found.places:
        place = found.places[min(at, len(found.places) - 1)]
        tick, around = lines[place].tick, [*_lines_around(lines, place), ""]
    words = f"at index {at} the run has {_at(found, at)}, and {_at(wanted, at)} is wanted"
    return Difference(found.run, words, "\n".join([*around, found.run.timeline(*found.sources, around=tick)]))
