"""The trees of tasks: when one ends, and with what."""
from __future__ import annotations

from typing import Any

Outcome = str  # as the line of a result has it: `ok V`, `failed`, `cancelled`, `timed-out`


def tree_end(tree: list[Any], begun: int, cancelled: int | None, tick_us: int) -> tuple[int, Outcome]:
    """The tick at which a tree ends that is begun at a tick, and its outcome. `cancelled` is the tick from which it is seen cancelled."""

    def ticks(us: int) -> int:
        return -(-us // tick_us)

    word = tree[0]
    if word == "value":
        return begun, f"ok {tree[1]}"
    if word == "fail":
        return begun, "failed"
    if word == "sleep":
        return begun + ticks(tree[1]), "ok 0"
    if word == "check":
        return begun, "cancelled" if cancelled is not None and cancelled <= begun else "ok 0"
    if word == "within":
        limit = begun + ticks(tree[1])
        end = tree_end(tree[2], begun, cancelled, tick_us)
        return end if end[0] <= limit else (limit, "timed-out")
    first = tree_end(tree[1], begun, cancelled, tick_us)
    has_value = first[1].startswith("ok")
    if word == "seq":
        return tree_end(tree[2], first[0], cancelled, tick_us) if has_value else first
    second = tree_end(tree[2], begun, cancelled, tick_us)
    if word == "both":
        return max(first[0], second[0]), second[1] if has_value else first[1]
    return second if second[0] < first[0] else first


class Task:
    """A task whose body has not ended."""

    def __init__(self, thread: int, number: int, spec: dict[str, Any], context: int, begun: int) -> None:
        self.thread, self.number, self.spec, self.context, self.begun = thread, number, spec, context, begun
        self.cancelled: int | None = None
        self.replied = False

    @property
    def name(self) -> str:
        return f"task {self.thread}.{self.number}"
