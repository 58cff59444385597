"""A picture in text of what is dispatched when."""
from __future__ import annotations

from collections import Counter
from collections.abc import Sequence

from .lines import Dispatch, Source

WIDTH = 60  # ticks that are shown at most
STEP = 10  # ticks from one number above the picture to the next
ROWS = 16  # sources that are shown at most
MANY = 10  # dispatches in one tick that have no digit


def _name(source: Source) -> str:
    return f"ctx {source.context} source {source.source}"


def _cell(count: int) -> str:
    if count == 0:
        return "."
    return str(count) if count < MANY else "+"


def _window(ticks: int, around: int) -> range:
    """The ticks that are shown: all of them, or those around one, from a multiple of the step on."""
    if ticks <= WIDTH:
        return range(ticks)
    first = max(0, around - WIDTH // 2) // STEP * STEP
    return range(first, min(first + WIDTH, ticks))


def _length(microseconds: int) -> str:
    return f"{microseconds // 1000} ms" if microseconds % 1000 == 0 else f"{microseconds} us"


def draw(dispatches: Sequence[Dispatch], ticks: int, tick_us: int, asked: Sequence[Source], around: int) -> str:
    """How often each source is dispatched in each tick: a digit, + for more than nine, a point for none."""
    counts = Counter((line.pair, line.tick) for line in dispatches)
    dispatched = {line.pair for line in dispatches}
    sources = list(dict.fromkeys([*asked, *sorted(dispatched)]))
    shown, window = sources[:ROWS], _window(ticks, around)
    margin = max(map(len, ["tick", *map(_name, shown)]))
    numbers = "".join(str(tick).ljust(STEP) for tick in window[::STEP])
    rows = [f"{'tick':{margin}}  {numbers}".rstrip()]
    for source in shown:
        cells = "".join(_cell(counts[source, tick]) for tick in window)
        rows.append(f"{_name(source):{margin}}  {cells}" + ("" if source in dispatched else "  never dispatched"))
    if len(sources) > ROWS:
        rows.append(f"and {len(sources) - ROWS} sources more")
    length = f"a tick is {_length(tick_us)}"
    if len(window) < ticks:
        length += f"; {ticks} ticks in all"
    return "\n".join([*rows, length])
