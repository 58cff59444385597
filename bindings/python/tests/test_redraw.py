"""Does a redraw starve while a socket has data? The test of README.md, and what helps."""
from __future__ import annotations

import copy

import mainctx

SOCKET, REDRAW = (0, 1), (0, 2)
LOOP = {
    "version": 1, "ticks": 40, "tick_us": 1000,
    "fds": [[[0, 1], [25, 0]]],  # the socket: data from 0 ms on, none from 25 ms on
    "loops": [0],
    "procs": [{"do": [], "keep": None}],  # a callback that returns G_SOURCE_CONTINUE
    "lanes": [{"contexts": 1, "start": [
        ["attach", 0, 0, {"kind": ["fd", 0, 1], "priority": 0, "call": 0}],
        ["attach", 0, 1, {"kind": ["idle"], "priority": 120, "call": 0}],
        ["run", 0],
    ]}],
}  # fmt: skip


def test_the_redraw_starves() -> None:
    run = mainctx.run(LOOP)
    assert run.when(mainctx.Dispatch, context=0, source=2) == list(range(25, 40))
    assert run.order(SOCKET, REDRAW) == 25 * [SOCKET] + 15 * [REDRAW]


def test_a_socket_at_the_redraws_priority_lets_it_run() -> None:
    loop = copy.deepcopy(LOOP)
    loop["lanes"][0]["start"][0][3]["priority"] = 120  # type: ignore[index]
    run = mainctx.run(loop)
    assert run.when(mainctx.Dispatch, context=0, source=2) == list(range(40))


def test_why_says_who_goes_first() -> None:
    run = mainctx.run(LOOP)
    assert "ready, but source 1 of priority 0 goes first" in run.why(REDRAW, tick=3)
    assert "source 2" in run.why(tick=25)
    assert [move["did"] for move in run.account(0, 2)] == ["polled", "acted"]
