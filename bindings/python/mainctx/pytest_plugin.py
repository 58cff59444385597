"""What pytest tells of a test that failed: the lines of the run around the difference, and a time line of its dispatches.

pytest finds this by itself where the package is installed; else `-p mainctx.pytest_plugin` names it.
"""
from __future__ import annotations

from collections.abc import Generator, Iterable, Iterator
from typing import Any

import pytest

from .explain import Difference, parts, shown
from .run import Found, Run

#: what is shown of the comparisons that failed in the test that goes on; pytest runs one test at a time in a process
_told: list[Difference] = []


def pytest_assertrepr_compare(op: str, left: object, right: object) -> list[str] | None:
    """Tells of `assert run.order(..) == [..]`, and of each comparison of what a run gave with a list, where the two part."""
    if op != "==":
        return None
    for found, wanted in ((left, right), (right, left)):
        if isinstance(found, Found) and isinstance(wanted, (list, tuple)):
            difference = parts(found, wanted)
            if difference is not None:
                _told.append(difference)
                return [f"{shown(left)} == {shown(right)}", difference.words]
    return None


def _runs_in(frames: Iterable[dict[str, object]]) -> Iterator[Run]:
    """The runs that stand in variables."""
    return (value for frame in frames for value in frame.values() if isinstance(value, Run))


@pytest.hookimpl(hookwrapper=True)
def pytest_runtest_makereport(call: pytest.CallInfo[None]) -> Generator[None, Any, None]:
    """Shows what was told of the comparison that failed, and the time lines of other runs in variables of the test."""
    outcome = yield
    report: pytest.TestReport = outcome.get_result()
    sections = {id(difference.run): (repr(difference.run), difference.picture) for difference in _told}
    _told.clear()
    if call.excinfo is None or not report.failed:
        return
    for run in _runs_in(entry.frame.f_locals for entry in call.excinfo.traceback):
        sections.setdefault(id(run), (repr(run), run.timeline()))
    report.sections.extend(sections.values())
