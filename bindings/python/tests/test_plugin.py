"""What pytest shows of a test that fails."""
from __future__ import annotations

import os
import subprocess
import sys
from pathlib import Path

TESTS = '''\
import mainctx
from test_redraw import LOOP

def test_lists_that_differ():
    assert mainctx.run(LOOP).order((0, 1), (0, 2)) == 25 * [(0, 1)] + 15 * [(0, 3)]

def test_a_number():
    run = mainctx.run(LOOP)
    assert run.when(mainctx.Dispatch, source=2)[0] < 16

def test_that_passes():
    run = mainctx.run(LOOP)
    assert run.when(mainctx.Dispatch, source=2)[0] == 25
'''

DIFFERENCE = "at index 25 the run has (0, 2), and (0, 3) is wanted"
AROUND = """\
  thread 0
  21 dispatch ctx 0 source 1 priority 0 depth 1
  22 dispatch ctx 0 source 1 priority 0 depth 1
  23 dispatch ctx 0 source 1 priority 0 depth 1
  24 dispatch ctx 0 source 1 priority 0 depth 1
> 25 dispatch ctx 0 source 2 priority 120 depth 1
  26 dispatch ctx 0 source 2 priority 120 depth 1
  27 dispatch ctx 0 source 2 priority 120 depth 1
  28 dispatch ctx 0 source 2 priority 120 depth 1
"""
PICTURE = """\
tick            0         10        20        30
ctx 0 source 1  1111111111111111111111111...............
ctx 0 source 2  .........................111111111111111
a tick is 1 ms
"""


def test_what_is_shown(tmp_path: Path) -> None:
    here = Path(__file__).resolve().parent
    (tmp_path / "test_of_somebody.py").write_text(TESTS)
    plugin = [] if "mainctx" in _installed_plugins() else ["-p", "mainctx.pytest_plugin"]
    ran = subprocess.run(
        [sys.executable, "-m", "pytest", "-q", "-p", "no:cacheprovider", *plugin, str(tmp_path)],
        env={**os.environ, "PYTHONPATH": os.pathsep.join([str(here), str(here.parent), os.environ.get("PYTHONPATH", "")])},
        cwd=tmp_path,
        stdout=subprocess.PIPE,
        text=True,
    )
    assert "2 failed, 1 passed" in ran.stdout
    assert DIFFERENCE in ran.stdout
    assert AROUND in ran.stdout
    assert ran.stdout.count(PICTURE) == 2


def _installed_plugins() -> set[str]:
    from importlib.metadata import entry_points

    points = entry_points()
    found = points.select(group="pytest11") if hasattr(points, "select") else points.get("pytest11", [])
    return {point.name for point in found}
