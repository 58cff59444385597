"""The lines of a text: each form, worked out from docs/FORMAT.md."""
from __future__ import annotations

import unittest

import mainctx as m
from mainctx.lines import read_lines

TEXT = """\
thread 0
0 dispatch ctx 1 source 2 priority -3 depth 4
0 log 7
0 iterate ctx 1 true
0 iterate ctx 1 false
0 pending ctx 1 true
0 acquire ctx 1 false
1 default ctx 1
1 invoke ctx 1 direct
1 invoke ctx 1 attached
1 invoke ctx 1 posted
1 loop 2 end
thread 1
0 arrive ctx 1 source 2
0 give ctx 1 lane 2
0 hold ctx 1
0 cancel 3
0 handler 0
thread 12
10 task 1.2 ok -3
10 task 1.2 failed
10 task 1.2 cancelled
10 task 1.2 timed-out
10 task 1.2 late
11 miss set_ready
12 halt depth
12 halt steps
4095 end
"""

LINES = [
    m.Dispatch(0, 0, context=1, source=2, priority=-3, depth=4),
    m.Log(0, 0, number=7),
    m.Iterate(0, 0, context=1, selected=True),
    m.Iterate(0, 0, context=1, selected=False),
    m.Pending(0, 0, context=1, pending=True),
    m.Acquire(0, 0, context=1, acquired=False),
    m.Default(1, 0, context=1),
    m.Invoke(1, 0, context=1, way="direct"),
    m.Invoke(1, 0, context=1, way="attached"),
    m.Invoke(1, 0, context=1, way="posted"),
    m.LoopEnd(1, 0, loop=2),
    m.Arrive(0, 1, context=1, source=2),
    m.Give(0, 1, context=1, to=2),
    m.Hold(0, 1, context=1),
    m.Cancel(0, 1, cancellable=3),
    m.Handler(0, 1, handler=0),
    m.TaskOk(10, 12, owner=1, task=2, value=-3),
    m.TaskFailed(10, 12, owner=1, task=2),
    m.TaskCancelled(10, 12, owner=1, task=2),
    m.TaskTimedOut(10, 12, owner=1, task=2),
    m.TaskLate(10, 12, owner=1, task=2),
    m.Miss(11, 12, action="set_ready"),
    m.Halt(12, 12, bound="depth"),
    m.Halt(12, 12, bound="steps"),
    m.End(4095, 12),
]

UNKNOWN = ["0 dispatch", "0 log", "0 log x", "0 iterate ctx 1 maybe", "0 invoke ctx 1 later", "0 task 1 late", "0 whatever", "0", "0 end ", ""]


class Lines(unittest.TestCase):
    def test_each_form_is_read(self) -> None:
        self.assertEqual(list(read_lines(TEXT)), LINES)

    def test_each_form_is_written_as_it_was_read(self) -> None:
        wanted = [line for line in TEXT.splitlines() if not line.startswith("thread")]
        self.assertEqual([str(line) for line in LINES], wanted)

    def test_another_form_is_told(self) -> None:
        for line in UNKNOWN:
            with self.subTest(line), self.assertRaises(ValueError):
                list(read_lines(f"thread 0\n{line}\n"))

    def test_results_are_found_by_what_they_share(self) -> None:
        results = [line for line in LINES if isinstance(line, m.TaskResult)]
        self.assertEqual([type(line) for line in results], [m.TaskOk, m.TaskFailed, m.TaskCancelled, m.TaskTimedOut])


if __name__ == "__main__":
    unittest.main()
