"""What ./try answers by the module: in calls whose answers were worked out by hand, those that vectors/inspect_calls has for mainctx_inspect among them;
for each example; for each script with names, whose names are put back. The words of LIFE alone were written down from the module's own answer, and its
moments held to examples/ten_lines.out: it shows that the command hands on what the module says."""
from __future__ import annotations

import json
import subprocess
import tempfile
from collections.abc import Iterator
from importlib.machinery import SourceFileLoader
from importlib.util import module_from_spec, spec_from_loader
from pathlib import Path
from types import ModuleType
from typing import Any, NamedTuple

from put_back import put_back

TOP = Path(__file__).resolve().parents[2]
TRY = TOP / "try"
MOST_BYTES = 4_194_304  # of a script
BROKEN = '{"version": 1, "ticks": 4, "tick_us": 1000,\n "lanes": [{"contexts": 1,\n   "start": [["attach", 0, 300, {"kind": ["idle"]}]]}]}\n'
FAULT = ":3:28: limit: a slot is 0 to 255, this is 300\n  at /lanes/0/start/0/2\n1 fault\n"
FAULT_AS_JSON = {"class": "limit", "pointer": "/lanes/0/start/0/2", "line": 3, "column": 28, "byte": 98, "wanted": "a slot is 0 to 255", "found": "this is 300"}
# of examples/named/idle_starves.json, as README has it
WHY = """tick 2 (2 ms), thread main: loop main_loop iterates context ui
  bus_watch, descriptor bus, priority DEFAULT: to be dispatched
  my_idle, idle, priority DEFAULT_IDLE: ready, but bus_watch of priority DEFAULT goes first
tick 3 (3 ms), thread main: loop main_loop iterates context ui
  bus_watch, descriptor bus, priority DEFAULT: waits for descriptor bus: IN asked, nothing shown
  my_idle, idle, priority DEFAULT_IDLE: to be dispatched
"""
LIFE = """tick 0 (0 ms): attached by action 0 of the start list of thread 0: idle, priority 200, calls procedure 0
tick 0 (0 ms): dispatched, dispatch 1 of it
tick 1 (1 ms): dispatched, dispatch 2 of it
tick 1 (1 ms): destroyed by the end of a call of procedure 0
end of the run, after tick 3: source 0.1 is destroyed, and was dispatched 2 times
"""
MORE = "\n\nFor more information, try './try --help'.\n"
# README's picture of examples/named/idle_starves.json
PICTURE = """ticks 0 to 3 (0 to 3 ms), a tick a column
ms                  0
thread main
  my_idle idle      rrr1
  bus_watch fd bus  111.
  loop main_loop    ====
1 dispatched, r ready, not dispatched, . waits, = runs
"""
# of examples/named/ten_lines.json, as vectors/names/check has it
SUMMARY = """ticks 0 to 3 (0 to 3 ms)
my_idle, idle, priority DEFAULT_IDLE, attached in tick 0 (0 ms): dispatched 2 times, ticks 0 to 1 (0 to 1 ms)
my_timeout, timeout of 2 ms, priority DEFAULT, attached in tick 0 (0 ms): dispatched once, tick 2 (2 ms)
loop main_loop: 3 iterations, ticks 0 to 2 (0 to 2 ms); ended 1 time, tick 2 (2 ms)

Each source was dispatched, and each loop that ran ended.
"""
COMMANDS = "text|run|check|why|summary|timeline|stack|steps|notes|account|translate"
USAGE = f"usage: ./try {COMMANDS} [OPTIONS] [FILE]\n       ./try WORKERS fixed|queue < SCRIPT\n"
NOT_THERE = "usage: the script has no such thread or context\n"
# README's text of examples/named/ten_lines.json
TEXT = """thread main
0 ms  dispatch my_idle -> on_idle (DEFAULT_IDLE)
0 ms  log "idle"
1 ms  dispatch my_idle -> on_idle (DEFAULT_IDLE)
1 ms  log "idle"
2 ms  dispatch my_timeout -> on_timeout (DEFAULT)
2 ms  loop main_loop end
2 ms  log "over"
2 ms  end
"""


class Call(NamedTuple):
    """The words, what is to be written, and the status."""
    words: str
    out: str = ""
    err: str = ""
    status: int = 0
    given: bytes = b""


CALLS = [
    Call("why --ticks 2..3 examples/named/idle_starves.json", WHY),
    Call("why --source 0.1 examples/ten_lines.json", LIFE),
    Call("why --source 0.1 --ticks 1..1 examples/ten_lines.json", "".join(LIFE.splitlines(True)[2:])),
    Call("text examples/named/ten_lines.json", TEXT),
    Call("text --numbers examples/named/ten_lines.json", (TOP / "examples/ten_lines.out").read_text().replace("log 7", "log 1").replace("log 9", "log 0")),
    Call("text --most-lines 1 examples/named/ten_lines.json", "thread main\n", "ended after 1 line\n"),
    Call("text --most-lines 8 examples/named/ten_lines.json", "".join(TEXT.splitlines(True)[:8]), "ended after 8 lines\n"),
    Call("text --most-lines 9 examples/named/ten_lines.json", TEXT),
    Call("text --most-lines 0 examples/named/ten_lines.json", err="ended after 0 lines\n"),
    Call("summary examples/named/ten_lines.json", SUMMARY),
    Call("timeline examples/named/idle_starves.json", PICTURE),
    Call("check examples/ten_lines.json", "no faults\n"),
    Call("check --json examples/ten_lines.json"),
    Call("check", f"<stdin>{FAULT}", status=2, given=BROKEN.encode()),
    Call("run -", f"<stdin>{FAULT}", status=2, given=BROKEN.encode()),
    Call("why", f"<stdin>{FAULT}", status=2, given=BROKEN.encode()),
    Call("run", "<stdin>:1:1: shape: a script is an object, this is a list of 0\n  at the whole\n1 fault\n", status=2, given=b"[]"),
    Call("check", given=b" " * (MOST_BYTES + 1), err=f"read: a script has {MOST_BYTES} bytes at most\n", status=4),
    Call("run nowhere/at/all.json", err="read\n", status=4),
    Call("run examples", err="read\n", status=4),
    Call("run a.json b.json", err=f"one file, and not b.json as well{MORE}", status=1),
    Call("run --json a.json", err=f"run takes no --json{MORE}", status=1),
    Call("why --ticks 3 a.json", err=f"--ticks A..B has two numbers, and is not 3{MORE}", status=1),
    Call("why --source ui.1 a.json", err=f"--source C.S has two numbers, and is not ui.1{MORE}", status=1),
    Call("why --source 1.1 examples/ten_lines.json", err=NOT_THERE, status=1),
    Call("steps --lane 1 examples/ten_lines.json", err=NOT_THERE, status=1),
    Call("timeline --lane 1 --numbers examples/named/ten_lines.json", err=NOT_THERE, status=1),
    Call("summary", f"<stdin>{FAULT}", status=2, given=BROKEN.encode()),
    Call("stack --lane 0 --tick 0", f"<stdin>{FAULT}", status=2, given=BROKEN.encode()),
    Call("timeline --columns 49 a.json", err=f"--columns N is 50 to 9999, and not 49{MORE}", status=1),
    Call("stack --lane 0 a.json", err=f"stack needs --lane L and --tick T{MORE}", status=1),
    Call("stack --lane 0 --tick x a.json", err=f"--tick N has a number, and is not x{MORE}", status=1),
    Call("summary --ticks 0..1 a.json", err=f"summary takes no --ticks{MORE}", status=1),
    Call("run a.toml", err=f"a script in TOML is for ./mainctx_check and ./mainctx_inspect{MORE}", status=1),
    Call("sing", err=USAGE, status=1),
    Call("1 sing", err=USAGE, status=1),
]


def ran(words: list[str], given: bytes = b"", **where: Any) -> tuple[str, str, int]:
    done = subprocess.run([TRY, *words], input=given, stdout=subprocess.PIPE, stderr=subprocess.PIPE, cwd=TOP, timeout=60, **where)
    return done.stdout.decode(), done.stderr.decode(), done.returncode


def right(call: Call) -> str | None:
    answer = ran(call.words.split(), call.given)
    return None if answer == (call.out, call.err, call.status) else f"./try {call.words}: {answer}"


def as_json() -> str | None:
    out, err, status = ran(["check", "--json"], BROKEN.encode())
    return None if (json.loads(out), err, status) == (FAULT_AS_JSON, "", 2) else f"./try check --json: {out!r}, {err!r}, {status}"


def full() -> str | None:
    with open("/dev/full", "wb") as out:
        done = subprocess.run([TRY, "run", "examples/ten_lines.json"], stdin=subprocess.DEVNULL, stdout=out, stderr=subprocess.PIPE, cwd=TOP, timeout=60)
    return None if (done.stderr, done.returncode) == (b"write\n", 4) else f"./try run to a device that is full: {done.stderr!r}, {done.returncode}"


def without_node() -> str | None:
    """Help needs no Node, and what does says so."""
    with tempfile.TemporaryDirectory() as room:
        for tool in ("bash", "cat", "dirname", "readlink"):
            (Path(room) / tool).symlink_to(subprocess.run(["which", tool], stdout=subprocess.PIPE, text=True, check=True).stdout.strip())
        helped, refused = (ran(words, env={"PATH": room}) for words in (["why", "--help"], ["run", "examples/ten_lines.json"]))
    if helped[1:] != ("", 0) or not helped[0].startswith(USAGE):
        return f"./try why --help without Node: {helped}"
    return None if refused[0] == "" and refused[1].startswith("try: no Node from 18 on") and refused[2] == 127 else f"./try run without Node: {refused}"


def inspected() -> ModuleType:
    """The calls of mainctx_inspect that are worked out in vectors/inspect_calls."""
    loader = SourceFileLoader("inspect_calls", str(TOP / "vectors" / "inspect_calls"))
    spec = spec_from_loader(loader.name, loader)
    assert spec
    module = module_from_spec(spec)
    loader.exec_module(module)
    return module


def takes(words: str) -> bool:
    """Whether ./try has these options too: of `why` and `account` it tells all threads, and of the latter all ticks."""
    return not words.startswith(("why --lane", "account --"))


def as_inspected() -> Iterator[str | None]:
    told = inspected()
    calls = [(document, words, (want, "", 0)) for _, document, words, want in told.CASES if takes(words)]
    for document, words, want in [*calls, *((document, words, ("", err, 1)) for document, words, err in told.BEYOND)]:
        answer = ran(words.split(), json.dumps(document).encode())
        yield None if answer == want else f"./try {words}: {answer} in place of {want}"


def example(path: Path) -> str | None:
    wanted = (path.with_suffix(".out").read_text(), "", 0)
    answers = {command: ran([command, str(path.relative_to(TOP))]) for command in ("run", "text")}
    return next((f"./try {command} {path.name}: {answer}" for command, answer in answers.items() if answer != wanted), None)


def names_put_back(path: str) -> str | None:
    """The text with names is that of numbers, with each name put back to its number."""
    text, account, numbers = (ran([command, path]) for command in ("text", "account", "run"))
    told = [json.loads(line) for line in account[0].splitlines()]
    found = put_back((TOP / path).read_text(), text[0], told)
    return None if found == numbers[0] and text[1:] == account[1:] == ("", 0) else f"./try text {path}: {text}"


def tried(named: list[dict[str, Any]]) -> Iterator[str | None]:
    """Of each call what is wrong with its answer, or nothing; `named` has the scripts with names, and what they stand for."""
    yield from map(right, CALLS)
    yield from (as_json(), full(), without_node())
    yield from as_inspected()
    yield from map(example, (path for path in sorted((TOP / "examples").glob("*.json")) if path.with_suffix(".out").exists()))
    for each in named:
        out, err, status = ran(["translate", each["name"]])
        is_right = (err, status) == ("", 0) and out.endswith("}\n") and json.loads(out) == each["numbers"]
        yield names_put_back(each["name"])
        yield None if is_right else f"./try translate {each['name']}: {out!r}, {err!r}, {status}"
