"""What is asked of a run, what is refused, and how the library is found."""
from __future__ import annotations

import json
import os
import pickle
import subprocess
import sys
import tempfile
import unittest
from pathlib import Path

import mainctx
from mainctx import Dispatch, Fault, Log, LoopEnd, Miss, ScriptError

TEN_LINES = {
    "version": 1, "ticks": 4, "tick_us": 1000,
    "loops": [0],
    "procs": [{"do": [["log", 7]], "keep": 1}, {"do": [["quit", 0]]}],
    "lanes": [{"contexts": 1, "start": [
        ["attach", 0, 0, {"kind": ["idle"], "call": 0}],
        ["attach", 0, 1, {"kind": ["timeout", 2], "call": 1}],
        ["run", 0],
        ["log", 9],
    ]}],
}  # fmt: skip
TEXT = """\
thread 0
0 dispatch ctx 0 source 1 priority 200 depth 1
0 log 7
1 dispatch ctx 0 source 1 priority 200 depth 1
1 log 7
2 dispatch ctx 0 source 2 priority 0 depth 1
2 loop 0 end
2 log 9
2 end
"""
NAMED = {
    "form": "names", "version": 1, "ticks": 4,
    "loops": {"main_loop": "ui"},
    "threads": {"main": {"contexts": ["ui"], "start": [
        {"attach": "my_idle", "to": "ui", "idle": True, "call": "on_idle"},
        {"attach": "my_timeout", "to": "ui", "timeout": "2 ms", "call": "on_timeout"},
        {"run": "main_loop"},
        {"log": "over"},
    ]}},
    "procedures": {"on_idle": {"do": [{"log": "idle"}], "keep": 1}, "on_timeout": {"do": [{"quit": "main_loop"}]}},
}  # fmt: skip
NAMED_TEXT = """\
thread main
0 ms  dispatch my_idle -> on_idle (DEFAULT_IDLE)
0 ms  log "idle"
1 ms  dispatch my_idle -> on_idle (DEFAULT_IDLE)
1 ms  log "idle"
2 ms  dispatch my_timeout -> on_timeout (DEFAULT)
2 ms  loop main_loop end
2 ms  log "over"
2 ms  end
"""
SUMMARY = """\
ticks 0 to 3 (0 to 3 ms)
my_idle, idle, priority DEFAULT_IDLE, attached in tick 0 (0 ms): dispatched 2 times, ticks 0 to 1 (0 to 1 ms)
my_timeout, timeout of 2 ms, priority DEFAULT, attached in tick 0 (0 ms): dispatched once, tick 2 (2 ms)
loop main_loop: 3 iterations, ticks 0 to 2 (0 to 2 ms); ended 1 time, tick 2 (2 ms)

Each source was dispatched, and each loop that ran ended.
"""
NUMBERS = {**TEN_LINES, "procs": [{"do": [["log", 1]], "keep": 1}, {"do": [["quit", 0]]}], "lanes": [{"contexts": 1, "start": [
    ["attach", 0, 0, {"kind": ["idle"], "call": 0}], ["attach", 0, 1, {"kind": ["timeout", 2], "call": 1}], ["run", 0], ["log", 0]]}]}  # fmt: skip
LANE = {"contexts": 1, "start": [["attach", 0, 0, {"kind": ["idle"], "call": 0}], ["attach", 0, 1, {"kind": ["idle"]}], ["run", 0]]}
TWO_THREADS = {
    "version": 1, "ticks": 1, "tick_us": 1, "loops": [0, 1], "procs": [{"do": []}],
    "lanes": [LANE, {"contexts": 1, "start": [["attach", 1, 0, {"kind": ["idle"]}], ["run", 1]]}],
}  # fmt: skip


class Checked(unittest.TestCase):
    """What is wrong, worked out by hand from docs/FORMAT.md."""

    SCRIPT = b"""{"version": 1, "ticks": 4, "tick_us": 1000,
 "lanes": [{"contexts": 1,
   "start": [["attach", 0, 300, {"kind": ["idle"]}], ["log", -1]]}]}"""

    def test_nothing_is_wrong(self) -> None:
        self.assertEqual(mainctx.check(TEN_LINES), ())

    def test_each_fault_has_its_place(self) -> None:
        slot, number = mainctx.check(self.SCRIPT)
        self.assertEqual((slot.fault, slot.pointer, slot.line, slot.column), (Fault.LIMIT, "/lanes/0/start/0/2", 3, 28))
        self.assertEqual((slot.wanted, slot.found), ("a slot is 0 to 255", "this is 300"))
        self.assertEqual((number.fault, number.pointer, number.line, number.column), (Fault.LIMIT, "/lanes/0/start/1/1", 3, 62))

    def test_a_refusal_tells_them(self) -> None:
        with self.assertRaises(ScriptError) as caught:
            mainctx.run(self.SCRIPT)
        self.assertEqual(caught.exception.faults, mainctx.check(self.SCRIPT))
        self.assertIn("/lanes/0/start/0/2: limit: a slot is 0 to 255, this is 300", str(caught.exception))

    def test_what_is_no_json(self) -> None:
        (fault,) = mainctx.check(b'{"version": 1,}')
        self.assertEqual((fault.fault, fault.pointer, fault.wanted), (Fault.NOT_JSON, "", "one JSON value"))


class Named(unittest.TestCase):
    """A script with names, worked out by hand from docs/NAMES.md."""

    def test_what_it_stands_for(self) -> None:
        self.assertEqual(json.loads(mainctx.translate(NAMED)), NUMBERS)
        self.assertEqual(mainctx.translate("  {}".replace("{}", json.dumps(NUMBERS))), f"  {json.dumps(NUMBERS)}")
        self.assertEqual(mainctx.check(NAMED), ())

    def test_its_text_has_numbers(self) -> None:
        run = mainctx.run(NAMED)
        self.assertEqual(run.text, TEXT.replace("log 7", "log 1").replace("log 9", "log 0"))
        self.assertEqual((run.ticks, run.tick_us), (4, 1000))

    def test_the_rest_has_names(self) -> None:
        run, numbers = mainctx.run(NAMED), mainctx.run(NUMBERS)
        attached = {"context": 0, "source": 1}
        self.assertEqual(run.account(1, 1)[0]["attached"], {**attached, "name": "my_idle"})
        self.assertEqual(numbers.account(1, 1)[0]["attached"], attached)
        told = run.why(tick=0).splitlines()
        self.assertEqual(told[0], "tick 0 (0 ms), thread main: loop main_loop iterates context ui")
        self.assertIn("  my_idle, idle, priority DEFAULT_IDLE: to be dispatched", told)
        self.assertIn("  source 1, idle, priority 200: to be dispatched", numbers.why(tick=0).splitlines())
        self.assertIn("my_timeout", run.why((0, 2)))

    def test_in_words(self) -> None:
        run = mainctx.run(NAMED)
        self.assertEqual((run.named_text(), run.named_text(notes=True)), (NAMED_TEXT, NAMED_TEXT))
        self.assertEqual((run.summary(), run.notes()), (SUMMARY, "Nothing is known in which GLib would do otherwise.\n"))
        self.assertEqual(mainctx.run(TEN_LINES).named_text(), TEXT)

    def test_what_is_refused(self) -> None:
        unknown: dict[str, object] = {**NAMED, "loops": {"other_loop": "ui"}}
        with self.assertRaises(ScriptError) as caught:
            mainctx.run(unknown)
        self.assertEqual(caught.exception.fault, Fault.SHAPE)
        self.assertEqual([(each.fault, each.pointer) for each in mainctx.check(unknown)], [
            (Fault.REFERENCE, "/threads/main/start/2/run"), (Fault.REFERENCE, "/procedures/on_timeout/do/0/quit")])  # fmt: skip
        with self.assertRaises(ScriptError) as caught:
            mainctx.translate({**NAMED, "ticks": 0})
        self.assertEqual(caught.exception.fault, Fault.LIMIT)


class Asked(unittest.TestCase):
    def setUp(self) -> None:
        self.run_ = mainctx.run(TEN_LINES)

    def test_the_text(self) -> None:
        self.assertEqual(self.run_.text, TEXT)
        self.assertEqual(str(self.run_), TEXT)

    def test_the_script_may_be_given_in_each_way(self) -> None:
        text = json.dumps(TEN_LINES)
        with tempfile.TemporaryDirectory() as folder:
            path = Path(folder) / "script.json"
            path.write_text(text)
            for script in (text, text.encode(), bytearray(text.encode()), path):
                self.assertEqual(mainctx.run(script), mainctx.Run(text.encode(), TEXT))  # type: ignore[arg-type]

    def test_ticks_and_their_length(self) -> None:
        self.assertEqual((self.run_.ticks, self.run_.tick_us), (4, 1000))

    def test_dispatches(self) -> None:
        self.assertEqual([line.tick for line in self.run_.dispatches()], [0, 1, 2])
        self.assertEqual(self.run_.dispatches(0, 2), [Dispatch(2, 0, 0, 2, 0, 1)])
        self.assertEqual(len(self.run_.dispatches(0)), 3)
        self.assertEqual(len(self.run_.dispatches(thread=0)), 3)
        self.assertEqual(self.run_.dispatches(thread=1), [])

    def test_order(self) -> None:
        self.assertEqual(self.run_.order((0, 2), (0, 1)), [(0, 1), (0, 1), (0, 2)])
        self.assertEqual(self.run_.order((0, 2)), [(0, 2)])
        self.assertEqual(self.run_.order(), [(0, 1), (0, 1), (0, 2)])
        self.assertEqual(self.run_.order((0, 3)), [])

    def test_what_two_threads_dispatch_in_one_tick_has_no_order(self) -> None:
        run = mainctx.run(TWO_THREADS)
        self.assertEqual(run.order((0, 1), (0, 2)), [(0, 1), (0, 2)])
        with self.assertRaisesRegex(ValueError, "tick 0 threads 0 and 1"):
            run.order((0, 1), (1, 1))

    def test_a_part_of_what_was_found_knows_its_run(self) -> None:
        found = self.run_.order()
        self.assertEqual(found[1:], [(0, 1), (0, 2)])
        self.assertEqual((found[1:].run, found[1:].places), (self.run_, (2, 4)))
        self.assertEqual(found[-1], (0, 2))

    def test_when(self) -> None:
        self.assertEqual(self.run_.when(Log, number=7), [0, 1])
        self.assertEqual(self.run_.when(LoopEnd), [2])
        self.assertEqual(self.run_.when(Dispatch, context=0, source=1), [0, 1])
        self.assertEqual(self.run_.when(Miss), [])

    def test_a_field_that_is_not_there(self) -> None:
        with self.assertRaisesRegex(TypeError, "Log has no value; it has tick, thread, number"):
            self.run_.select(Log, value=7)

    def test_the_time_line(self) -> None:
        wanted = """\
tick            0
ctx 0 source 3  ....  never dispatched
ctx 0 source 1  11..
ctx 0 source 2  ..1.
a tick is 1 ms"""
        self.assertEqual(self.run_.timeline((0, 3)), wanted)

    def test_the_time_line_of_a_long_run_is_cut_around_a_tick(self) -> None:
        script = {**TEN_LINES, "ticks": 200, "tick_us": 1500, "procs": [{"do": [["iterate", 0]], "keep": None}, {"do": []}]}
        lines = mainctx.run(script).timeline(around=100).splitlines()
        self.assertEqual(lines[0], "tick            70        80        90        100       110       120")
        self.assertEqual(lines[1], "ctx 0 source 1  " + "1" * 60)
        self.assertEqual(lines[-1], "a tick is 1500 us; 200 ticks in all")
        self.assertEqual(mainctx.run(script).timeline(around=199).splitlines()[0], "tick            160       170       180       190")


class Refused(unittest.TestCase):
    def fault_of(self, script: mainctx.Script) -> ScriptError:
        with self.assertRaises(ScriptError) as refused:
            mainctx.run(script)
        return refused.exception

    def test_each_class(self) -> None:
        changes: list[tuple[Fault, dict[str, object]]] = [
            (Fault.NOT_JSON, {"ticks": float("nan")}),
            (Fault.SHAPE, {"ticks": "4"}),
            (Fault.LIMIT, {"ticks": 0}),
            (Fault.REFERENCE, {"loops": [1]}),
            (Fault.RULE, {"fds": [[[1, 1], [1, 0]]]}),
        ]
        for fault, change in changes:
            with self.subTest(fault):
                self.assertIs(self.fault_of({**TEN_LINES, **change}).fault, fault)

    def test_what_is_told(self) -> None:
        refused = self.fault_of({})
        told = str(refused).splitlines()
        self.assertEqual(told[0], f"script: shape: {refused.message}")
        self.assertEqual(told[1], "  the whole script: shape: a script needs the key version, this lacks it")
        self.assertIsInstance(refused, ValueError)

    def test_a_file_name_is_told_from_a_script(self) -> None:
        self.assertIn("pathlib.Path", str(self.fault_of("loop.json")))
        self.assertNotIn("pathlib.Path", str(self.fault_of("{")))

    def test_bytes_that_are_no_text(self) -> None:
        scripts: list[mainctx.Script] = [b"", b"\xff", "\ud800", "{", b"{}\0"]
        for script in scripts:
            self.assertIs(self.fault_of(script).fault, Fault.NOT_JSON)

    def test_an_error_goes_to_another_process(self) -> None:
        refused = self.fault_of("loop.json")
        self.assertEqual(str(pickle.loads(pickle.dumps(refused))), str(refused))

    def test_a_file_that_is_not_there(self) -> None:
        with self.assertRaises(FileNotFoundError):
            mainctx.run(Path("/none/at/all.json"))


class Library(unittest.TestCase):
    def test_where_none_is_found_the_ways_are_told(self) -> None:
        script = "import mainctx\ntry:\n    mainctx.run({})\nexcept mainctx.LibraryNotFound as fault:\n    print(fault)\n"
        environment = {**os.environ, "MAINCTX_LIBRARY": "/none/at/all.so"}
        told = subprocess.run([sys.executable, "-c", script], env=environment, stdout=subprocess.PIPE, text=True, check=True).stdout
        self.assertIn("/none/at/all.so", told)
        for way in ("make -C bindings/c", "LD_LIBRARY_PATH", "MAINCTX_LIBRARY"):
            self.assertIn(way, told)


if __name__ == "__main__":
    unittest.main()
