"""What a run refuses, and why the library is not found."""
from __future__ import annotations

from collections.abc import Mapping, Sequence
from dataclasses import dataclass
from enum import Enum
from typing import Any


class Fault(Enum):
    """The classes of fault of a script (docs/FORMAT.md): a script is refused by the first of them of which it has one."""

    NOT_JSON = "not json"
    SHAPE = "shape"
    LIMIT = "limit"
    REFERENCE = "reference"
    RULE = "rule"

    @classmethod
    def by_number(cls, number: int) -> Fault:
        """The fault that a call of the library answers: 1 is the first class."""
        return list(cls)[number - 1]


_MEANING = {
    Fault.NOT_JSON: "the bytes are not one JSON value",
    Fault.SHAPE: "a value of the wrong type, a key that is missing or unknown, an unknown word, a list of the wrong length",
    Fault.LIMIT: "a number or a count outside its range",
    Fault.REFERENCE: "the number of a context, lane, loop, descriptor, cancellable or procedure that the script does not have",
    Fault.RULE: "a procedure that may not be connected or invoked, ticks that do not rise, or a task's keys that exclude each other",
}

_WAYS = (
    "make -C bindings/c, and then pip install ./bindings/python, which takes the library along",
    "make -C bindings/c install PREFIX=/usr/local, and ldconfig or LD_LIBRARY_PATH=/usr/local/lib",
    "MAINCTX_LIBRARY=/path/of/libmainctx.so, which is then the only place that is tried",
)


@dataclass(frozen=True)
class ScriptFault:
    """A fault of a script, at a place: as str in the words of mainctx_check."""

    fault: Fault
    pointer: str  # to the value that is wrong (RFC 6901), "" for the whole script
    line: int | None  # from 1 on, as the column, which counts characters; of a dict that of its JSON
    column: int | None
    wanted: str
    found: str

    @classmethod
    def of_keys(cls, keys: Mapping[str, Any]) -> ScriptFault:
        """The fault of an object of mainctx_check --json."""
        return cls(Fault(keys["class"]), keys["pointer"], keys["line"], keys["column"], keys["wanted"], keys["found"])

    def __str__(self) -> str:
        return f"{self.pointer or 'the whole script'}: {self.fault.value}: {self.wanted}, {self.found}"


class ScriptError(ValueError):
    """A script that is refused: its class, `fault`, what that means, `message`, and each fault with its place, `faults`. Nothing was run."""

    def __init__(self, fault: Fault, faults: Sequence[ScriptFault] = (), hint: str = "") -> None:
        super().__init__(fault, faults, hint)
        self.fault = fault
        self.faults = tuple(faults)
        self.message = f"{_MEANING[fault]}; {hint}" if hint else _MEANING[fault]

    def __str__(self) -> str:
        return "".join([f"script: {self.fault.value}: {self.message}", *(f"\n  {each}" for each in self.faults)])


class LibraryNotFound(OSError):
    """No shared library of mainctx could be loaded. The first run tells it, not the import."""

    def __init__(self, tried: Sequence[str]) -> None:
        super().__init__(tried)
        self.tried = tuple(tried)

    def __str__(self) -> str:
        tried = "".join(f"\n  {fault}" for fault in self.tried)
        return f"no libmainctx.so could be loaded:{tried}\nOne of these finds it:" + "".join(f"\n  {way}" for way in _WAYS)
