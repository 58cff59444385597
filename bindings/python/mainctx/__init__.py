"""Runs scripts of GLib's main event loop in virtual time, by the proved engine of mainctx.

    import mainctx

    run = mainctx.run(script)                    a dict, JSON as text or bytes, or the path of a file
    assert run.order((0, 1), (0, 2)) == [(0, 2), (0, 1)]

docs/FORMAT.md of the repository has the script and the lines of the text, docs/NAMES.md scripts with names.
"""
from .errors import Fault, LibraryNotFound, ScriptError, ScriptFault
from .lines import (
    Acquire,
    Arrive,
    Cancel,
    Default,
    Dispatch,
    End,
    Give,
    Halt,
    Handler,
    Hold,
    Invoke,
    Iterate,
    Line,
    Log,
    LoopEnd,
    Miss,
    Pending,
    Source,
    TaskCancelled,
    TaskFailed,
    TaskLate,
    TaskOk,
    TaskResult,
    TaskTimedOut,
)
from .run import Found, Run, Script, check, run, translate

__version__ = "0.1.0"

__all__ = [
    "Acquire", "Arrive", "Cancel", "Default", "Dispatch", "End", "Fault", "Found", "Give", "Halt", "Handler", "Hold", "Invoke", "Iterate",
    "LibraryNotFound", "Line", "Log", "LoopEnd", "Miss", "Pending", "Run", "Script", "ScriptError", "ScriptFault", "Source", "TaskCancelled",
    "TaskFailed", "TaskLate", "TaskOk", "TaskResult", "TaskTimedOut", "check", "run", "translate",
]  # fmt: skip
