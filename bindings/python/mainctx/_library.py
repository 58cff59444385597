"""The shared library: where it is found, and the calls that are made of it."""
from __future__ import annotations

import ctypes
import json
import os
from collections.abc import Callable
from functools import lru_cache
from pathlib import Path
from typing import Any

from .errors import Fault, LibraryNotFound, ScriptError, ScriptFault

VARIABLE = "MAINCTX_LIBRARY"
NAME = "libmainctx.so"
INSTALLED_NAME = "libmainctx.so.0"  # as the loader looks for it: the name with the number of its interface
HERE = Path(__file__).resolve().parent
BESIDE = HERE / NAME  # where the package has the library along
CHECKOUT = HERE.parents[1]  # where the package lies in bindings/python
BUILT = CHECKOUT / "c" / "out" / NAME  # where make of bindings/c leaves it

TEXT, MEMORY, SHORT_ROOM, FAULTS = 0, 6, 7, 8  # what a call answers beside the numbers of faults (mainctx.h)
FIRST_ROOM = 65536
ALL = 2**64 - 1  # as many moves as a run has
EVER = 2**32 - 1  # no run has so many ticks

CALLS: dict[str, list[Any]] = {  # what each call takes between the script and the room
    "mainctx_run": [],
    "mainctx_translate": [],
    "mainctx_check": [],
    "mainctx_account": [ctypes.c_uint64, ctypes.c_uint64],
    "mainctx_why": [ctypes.c_uint32, ctypes.c_uint32],
    "mainctx_life": [ctypes.c_uint32, ctypes.c_uint64, ctypes.c_uint32, ctypes.c_uint32],
    "mainctx_text": [ctypes.c_uint32],
    "mainctx_summary": [],
    "mainctx_notes": [],
}


def _places() -> list[str]:
    """The files to try, best first. Where the variable names one, no other is tried."""
    if os.environ.get(VARIABLE):
        return [os.environ[VARIABLE]]
    near = [BESIDE, BUILT] if CHECKOUT.name == "bindings" else [BESIDE]
    return [*(str(path) for path in near if path.exists()), INSTALLED_NAME]


@lru_cache(maxsize=None)
def library() -> ctypes.CDLL:
    """The library, which is loaded once."""
    __tracebackhide__ = True
    tried = []
    for place in _places():
        try:
            loaded = ctypes.CDLL(place)
        except OSError as fault:
            tried.append(str(fault))
            continue
        size, pointer = ctypes.c_size_t, ctypes.c_char_p
        for name, asked in CALLS.items():
            call = getattr(loaded, name)
            call.restype = ctypes.c_uint32
            call.argtypes = [pointer, size, *asked, pointer, size, ctypes.POINTER(size)]
        return loaded
    raise LibraryNotFound(tried)


def _answer(call: Callable[..., int], script: bytes, *asked: int) -> tuple[int, bytes]:
    """What a call answers of a script, and the text that it leaves. Other threads of Python go on meanwhile."""
    __tracebackhide__ = True
    room, needed = FIRST_ROOM, ctypes.c_size_t()
    while True:
        text = ctypes.create_string_buffer(room)
        answer = call(script, len(script), *asked, text, room, ctypes.byref(needed))
        if answer == MEMORY:
            raise MemoryError("mainctx: a request for memory was refused")
        if answer != SHORT_ROOM:
            return answer, text.raw[: needed.value]
        room = needed.value


def _told(name: str, script: bytes, *asked: int) -> bytes:
    """What a call tells of a script, in UTF-8."""
    __tracebackhide__ = True
    answer, text = _answer(getattr(library(), name), script, *asked)
    if answer != TEXT:
        raise ScriptError(Fault.by_number(answer), faults_of(script))
    return text


def numbers_of(script: bytes) -> bytes:
    """The script of numbers that a script is, or stands for."""
    __tracebackhide__ = True
    return _told("mainctx_translate", script)


def text_of(script: bytes) -> str:
    """The text of a script of numbers."""
    __tracebackhide__ = True
    return _told("mainctx_run", script).decode("utf-8")


def account_of(script: bytes, first: int, most: int) -> list[dict[str, Any]]:
    """So many moves of a run, as the account tells them, from one on; neither its first line nor its last."""
    __tracebackhide__ = True
    lines = [json.loads(line) for line in _told("mainctx_account", script, first, most).splitlines()[1:]]
    return [line for line in lines if line["did"] != "over"]


def why_of(script: bytes, first: int, last: int) -> str:
    """Why sources were dispatched or not in these ticks, in words."""
    __tracebackhide__ = True
    return _told("mainctx_why", script, first, last).decode("utf-8")


def life_of(script: bytes, context: int, source: int, first: int, last: int) -> str:
    """The life of a source in these ticks, in words."""
    __tracebackhide__ = True
    return _told("mainctx_life", script, context, source, first, last).decode("utf-8")


def named_text_of(script: bytes, notes: bool) -> str:
    """The text of a run with the names of its script, and where that is asked for with a line where the real GLib does otherwise."""
    __tracebackhide__ = True
    return _told("mainctx_text", script, int(notes)).decode("utf-8")


def summary_of(script: bytes) -> str:
    """Each source and loop of a run in one line, and what was silent."""
    __tracebackhide__ = True
    return _told("mainctx_summary", script).decode("utf-8")


def notes_of(script: bytes) -> str:
    """Where the real GLib would do otherwise than a run."""
    __tracebackhide__ = True
    return _told("mainctx_notes", script).decode("utf-8")


def faults_of(script: bytes) -> tuple[ScriptFault, ...]:
    """What is wrong with a script, 100 faults at most, in the order of their places."""
    _, text = _answer(library().mainctx_check, script)
    return tuple(ScriptFault.of_keys(json.loads(line)) for line in text.decode("utf-8").splitlines())
