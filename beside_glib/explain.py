"""By which rows of docs/GLIB.md the library's text is another than this project's."""
from __future__ import annotations

from itertools import combinations
from typing import Any

from model import text_of, writes
from rows import ROWS, Library

Rows = tuple[str, ...]


class Explanation:
    """Looks for the rows with which the model writes the library's text of one script."""

    def __init__(self, script: dict[str, Any], wanted: str, library: Library, known: Rows) -> None:
        self.script, self.wanted, self.library, self.known = script, wanted, library, known

    def fits(self, rows: Rows) -> bool:
        return writes(self.script, self.wanted, rows, self.library)

    def needed(self, rows: Rows) -> Rows:
        """Of rows that fit those that are left where each was dropped without which the text is still the wanted one."""
        kept = rows
        for row in rows:
            fewer = tuple(other for other in kept if other != row)
            if self.fits(fewer):
                kept = fewer
        return kept

    def telling(self) -> Rows:
        """the rows that alone change something"""
        ours = text_of(self.script)
        return tuple(row for row in self.known if not writes(self.script, ours, [row], self.library))

    def least(self) -> Rows | None:
        few: list[Rows] = [(), *((row,) for row in self.known)]
        for rows in few:
            if self.fits(rows):
                return rows
        telling = self.telling()
        fitting = next((rows for rows in (telling, self.known) if self.fits(rows)), None)
        if fitting is None:
            return None
        needed = self.needed(fitting)
        candidates = tuple(row for row in self.known if row in telling or row in needed)
        smaller = (rows for size in range(2, len(needed)) for rows in combinations(candidates, size))
        return next((rows for rows in smaller if self.fits(rows)), needed)


def explain(script: dict[str, Any], wanted: str, library: Library = Library(), known: Rows = tuple(ROWS)) -> Rows | None:
    """The least set of rows with which the model writes the wanted text; empty where it needs none, None where no set does."""
    return Explanation(script, wanted, library, known).least()
