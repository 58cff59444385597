"""What the tests of all languages share."""
from __future__ import annotations

import os
import re
import subprocess
import sys
from collections.abc import Callable, Mapping
from dataclasses import dataclass
from pathlib import Path

BINDINGS = Path(__file__).resolve().parents[1]
TOP = BINDINGS.parent
C, PYTHON, RUST = BINDINGS / "c", BINDINGS / "python", BINDINGS / "rust"

SCRIPT = TOP / "examples" / "ten_lines.json"  # a small one
SCRIPTS = [path for folder in ("vectors", "examples") for path in sorted((TOP / folder).glob("**/*.json")) if path.parent.name != "named"]
NAMED = sorted((TOP / "examples" / "named").glob("*.json"))  # with names
MOST = 4_194_304  # bytes that a script may have by docs/FORMAT.md

CLOSING = re.compile(r"(\d+) passed, (\d+) failed")
TOLD_AT_MOST = 2_000  # characters of a failed command

# what a caller has set does not decide what is tried here
for _name in [*(name for name in os.environ if name.startswith("MAINCTX_")), "LD_LIBRARY_PATH", "PKG_CONFIG_PATH", "PYTHONPATH"]:
    os.environ.pop(_name, None)
os.environ.update(PYTHONDONTWRITEBYTECODE="1", RUST_BACKTRACE="0")

Fault = str | None
Variables = Mapping[str, str | Path]


@dataclass(frozen=True)
class Count:
    """Many tests at once: how many passed, how many failed, and what was told of those."""

    passed: int
    failed: int
    told: str = ""


@dataclass(frozen=True)
class Test:
    """A test, which answers why it fails, or None; or the count of the tests that it stands for."""

    name: str
    outcome: Callable[[], Fault | Count]


@dataclass(frozen=True)
class Missing:
    """What this machine has not, and what is not tried therefore."""

    what: str
    untried: str


@dataclass(frozen=True)
class Built:
    """Where the things lie that are tried: what make builds, what make install puts under a prefix, and a folder to work in."""

    archive: Path
    room: Path

    @property
    def out(self) -> Path:
        return self.room / "bindings" / "c" / "out"

    @property
    def prefix(self) -> Path:
        return self.room / "prefix"

    @property
    def shared(self) -> Path:
        return self.out / "libmainctx.so"


@dataclass(frozen=True)
class Ended:
    """What a command that has ended told, and its status."""

    status: int
    told: str


def ended(*words: str | Path, typed: bytes = b"", where: Path = TOP, under: Variables = {}) -> Ended:
    """Runs a command to its end, under these variables beside those that are set."""
    environment = {**os.environ, **{name: str(value) for name, value in under.items()}}
    command = [str(word) for word in words]
    done = subprocess.run(command, cwd=where, env=environment, input=typed, stdout=subprocess.PIPE, stderr=subprocess.STDOUT)
    return Ended(done.returncode, done.stdout.decode(errors="replace"))


def ends(
    *words: str | Path, told: str = "", status: int = 0, typed: bytes = b"", where: Path = TOP, under: Variables = {}
) -> Fault:
    """Holds a command to its status, and to a piece of what it tells."""
    done = ended(*words, typed=typed, where=where, under=under)
    if done.status != status:
        return f"status {done.status} in place of {status}: {done.told[-TOLD_AT_MOST:]}"
    return None if told in done.told else f"{told[:TOLD_AT_MOST]!r} is not told: {done.told[-TOLD_AT_MOST:]}"


def vectors(program: Path) -> Count:
    """All scripts through a program, by vectors/check."""
    done = subprocess.run([TOP / "vectors" / "check", "--workers", "1", "--sharing", "fixed", program], stdout=subprocess.PIPE, text=True)
    lines = done.stdout.splitlines()
    closing = CLOSING.fullmatch(lines[-1]) if lines else None
    if closing is None:
        return Count(0, 1, done.stdout)
    return Count(int(closing[1]), int(closing[2]), "\n".join(lines[:-1]))


def python_with(module: str) -> str | None:
    """A Python that has a module: this one, or Debian's."""
    for python in (sys.executable, "/usr/bin/python3"):
        if Path(python).exists() and subprocess.run([python, "-c", f"import {module}"], stderr=subprocess.DEVNULL).returncode == 0:
            return python
    return None
