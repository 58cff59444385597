"""The package for Python: all vectors, its own tests, what pip installs, what its README says, threads."""
from __future__ import annotations

import importlib
import json
import os
import re
import shutil
import sys
from collections.abc import Callable, Iterator
from concurrent.futures import ThreadPoolExecutor
from functools import partial
from pathlib import Path
from types import ModuleType
from typing import Any

from .common import MOST, NAMED, PYTHON, SCRIPT, SCRIPTS, TOP, Built, Count, Ended, Fault, Missing, Test, Variables, ended, ends, python_with
from .from_c import LONG_TEXT, long_script

sys.path.insert(0, str(TOP / "vectors" / "names"))

from translate import read, translated  # noqa: E402

THREADS, ROUNDS = 8, 25
PART, FEW_MOVES = 7, 300  # the moves of a part, and of the runs whose account is asked for in parts

RUNS = f"import mainctx, pathlib; print(mainctx.run(pathlib.Path({str(SCRIPT)!r})), end='')"
TEXT = SCRIPT.with_suffix(".out").read_text()


def package(built: Built) -> ModuleType:
    """The package of this tree, in this process."""
    os.environ["MAINCTX_LIBRARY"] = str(built.shared)
    sys.path.insert(0, str(PYTHON))
    try:
        return importlib.import_module("mainctx")
    finally:
        sys.path.remove(str(PYTHON))


def refused_rightly(mainctx: ModuleType, path: Path, refused: Exception) -> Fault:
    """the class, which is that of some fault told with it, and of none is an earlier one; and each place is one of the script"""
    told = f"script: {refused.fault.value}\n"
    classes = list(mainctx.Fault)
    if path.with_suffix(".out").exists() or told != path.with_suffix(".err").read_text():
        return told
    if not refused.faults or min(classes.index(each.fault) for each in refused.faults) != classes.index(refused.fault):
        return f"{refused.fault} with {[each.fault for each in refused.faults]}"
    return None if all(each.line and each.column for each in refused.faults) else "a fault without a place"


def lanes_of(run: Any) -> int:
    keys = json.loads(run.script)
    return len(keys["threads"] if "form" in keys else keys["lanes"])


def accounted(run: Any) -> Fault:
    """the lines of a run's moves, thread by thread, are its text; and moves that are asked for in parts are those of the whole"""
    moves = run.account()
    lanes: dict[int, list[str]] = {number: [f"thread {number}"] for number in range(lanes_of(run))}
    for move in moves:
        lanes[move["lane"]] += move.get("lines", [])
    if [line for lines in lanes.values() for line in lines] != run.text.splitlines():
        return "the account's lines are not the text"
    parts = [move for first in range(0, len(moves) + 1, PART) for move in run.account(first, PART)] if len(moves) <= FEW_MOVES else moves
    return None if parts == moves else "in parts the account is another"


def vector(mainctx: ModuleType, path: Path) -> Fault:
    """the text, or the class; the text anew from its lines; its account; and nothing is wrong with what runs"""
    script, wanted = path.read_bytes(), path.with_suffix(".out")
    try:
        run = mainctx.run(script)
    except mainctx.ScriptError as refused:
        return refused_rightly(mainctx, path, refused)
    if mainctx.check(script):
        return "something is wrong with a script that runs"
    if not wanted.exists() or run.text != wanted.read_text():
        return "another text"
    lines = [line for line in run.text.splitlines() if not line.startswith("thread ")]
    return accounted(run) if [str(line) for line in run.lines] == lines else "its lines are written otherwise"


def named(mainctx: ModuleType, path: Path) -> Fault:
    """what the translator of vectors/names gives, which was written from docs/NAMES.md alone; its text; and each source has a name of that page"""
    script, wanted = path.read_bytes(), translated(read(path.read_text()))
    if json.loads(mainctx.translate(script)) != wanted or mainctx.translate(json.dumps(wanted)) != json.dumps(wanted):
        return "another script of numbers"
    run = mainctx.run(script)
    if mainctx.check(script) or run.text != mainctx.run(wanted).text or (run.ticks, run.tick_us) != (wanted["ticks"], wanted["tick_us"]):
        return "another run"
    told = [move["attached"]["name"] for move in run.account() if "attached" in move]
    slots = {action[word] for action in actions_of(json.loads(script)) for word in ("attach", "child") if word in action}
    other = [name for name in told if re.sub(r" #\d+$", "", name) not in slots and not name.startswith(("reply of task ", "invoke of "))]
    return accounted(run) if not other else f"sources are called {other}"


def actions_of(script: dict[str, Any]) -> Iterator[dict[str, Any]]:
    for key, inner in (("threads", "start"), ("procedures", "do")):
        for each in script.get(key, {}).values():
            yield from each[inner]


def over(paths: list[Path], test: Callable[[ModuleType, Path], Fault], built: Built) -> Count:
    mainctx = package(built)
    faults = [f"{path.name}: {fault}" for path in paths if (fault := test(mainctx, path))]
    return Count(len(paths) - len(faults), len(faults), "\n".join(faults[:40]))


def threads(built: Built) -> Fault:
    """eight threads of Python at once"""
    mainctx, paths = package(built), [path for path in SCRIPTS if path.parent.name == "examples"]
    with ThreadPoolExecutor(THREADS) as pool:
        faults = [fault for fault in pool.map(lambda path: vector(mainctx, path), paths * ROUNDS) if fault]
    return faults[0] if faults else None


def long_one(built: Built) -> Fault:
    """a script of 4 MiB, and one that is longer, which the call takes too"""
    mainctx = package(built)
    for script in (long_script(), long_script() + b" "):
        if mainctx.run(script).text != LONG_TEXT:
            return f"another text for {len(script)} bytes"
    return None if len(long_script()) == MOST else "it is shorter"


def by_pytest(built: Built, python: str, tests: Path) -> Ended:
    words = (python, "-m", "pytest", "-q", "-p", "no:cacheprovider", "-p", "mainctx.pytest_plugin", tests)
    return ended(*words, where=built.room, under={"PYTHONPATH": PYTHON, "MAINCTX_LIBRARY": built.shared})


def own_tests(built: Built, pytest: str) -> Fault:
    done = by_pytest(built, pytest, PYTHON / "tests")
    return None if done.status == 0 else done.told


def readme_says(built: Built, pytest: str) -> Fault:
    """the test in README.md fails and shows the lines that stand there, and passes where the socket has the redraw's priority"""
    page, test = (PYTHON / "README.md").read_text(), built.room / "test_redraw.py"
    code = "".join(re.findall(r"^```python\n(.*?)^```", page, re.DOTALL | re.MULTILINE))
    shown = re.findall(r"^    ((?:>  |E  |---|tick|ctx |a tick).*)", page, re.MULTILINE)
    test.write_text(code)
    failed = by_pytest(built, pytest, test)
    missing = [line for line in shown if line not in failed.told.splitlines()]
    if failed.status != 1 or missing or not shown:
        return f"{missing} is not shown: {failed.told}"
    test.write_text(code.replace('"priority": 0', '"priority": 120'))
    passed = by_pytest(built, pytest, test)
    return None if passed.status == 0 else passed.told


def by_unittest(built: Built) -> Fault:
    words = (sys.executable, "-m", "unittest", "discover", "-s", ".")
    return ends(*words, where=PYTHON / "tests", told="OK", under={"PYTHONPATH": PYTHON, "MAINCTX_LIBRARY": built.shared})


def by_pip(built: Built, pip: str) -> Fault:
    """a copy of bindings/, beside what make built: the package finds that, and takes it along where pip installs it"""
    copy, site = built.out.parents[1] / "python", built.room / "site"
    shutil.copytree(PYTHON, copy, ignore=shutil.ignore_patterns("__pycache__"))
    fault = ends(pip, "-c", RUNS, told=TEXT, where=built.room, under={"PYTHONPATH": copy})
    fault = fault or ends(pip, "-m", "pip", "install", "-q", "--no-index", "--disable-pip-version-check", "--target", site, copy)
    shutil.rmtree(copy)
    if fault or not (site / "mainctx" / "libmainctx.so").exists():
        return fault or "the package has no library"
    return ends(pip, "-c", RUNS, told=TEXT, where=built.room, under={"PYTHONPATH": site})


def plugin_by_pip(built: Built, pytest: str) -> Fault:
    """pytest finds what pip installed by itself"""
    test = PYTHON / "tests" / "test_plugin.py"
    words = (pytest, "-m", "pytest", "-q", "-p", "no:cacheprovider", "--rootdir", built.room, test)
    return ends(*words, where=built.room, told="1 passed", under={"PYTHONPATH": built.room / "site"})


def found_by(built: Built, variables: Variables) -> Fault:
    """The package of this tree finds the library by a variable."""
    return ends(sys.executable, "-c", RUNS, told=TEXT, where=built.room, under={"PYTHONPATH": PYTHON, **variables})


def with_pytest(built: Built, pytest: str) -> Iterator[Test]:
    yield Test("Python, the package's tests by pytest", lambda: own_tests(built, pytest))
    yield Test("bindings/python/README.md", lambda: readme_says(built, pytest))
    if (built.room / "site").exists():
        yield Test("pytest with what pip installed", lambda: plugin_by_pip(built, pytest))


def with_mypy(built: Built, mypy: str) -> Iterator[Test]:
    words = ("--cache-dir", built.room / "mypy", "mainctx", "build_backend.py", "tests")
    yield Test("mypy", lambda: ends(mypy, "-m", "mypy", *words, where=PYTHON, told="Success"))


def tests(built: Built) -> Iterator[Test | Missing]:
    yield Test("vectors by Python", lambda: over(SCRIPTS, vector, built))
    yield Test("scripts with names by Python", lambda: over(NAMED, named, built))
    yield Test("eight threads of Python at once", lambda: threads(built))
    yield Test("Python, scripts of 4 MiB", lambda: long_one(built))
    yield Test("Python, the package's tests", lambda: by_unittest(built))
    yield Test("Python, the library that a variable names", lambda: found_by(built, {"MAINCTX_LIBRARY": built.shared}))
    yield Test("Python, the library that is installed", lambda: found_by(built, {"LD_LIBRARY_PATH": built.prefix / "lib"}))
    pip, pytest, mypy = python_with("pip"), python_with("pytest"), python_with("mypy")
    if pip:
        yield Test("pip install", partial(by_pip, built, pip))
    else:
        yield Missing("pip", "pip install ./bindings/python")
    if pytest:
        yield from with_pytest(built, pytest)
    else:
        yield Missing("pytest (Debian: apt-get install python3-pytest)", "what pytest shows of a run")
    if mypy:
        yield from with_mypy(built, mypy)
    else:
        yield Missing("mypy (Debian: apt-get install mypy)", "the types of the package for Python")
