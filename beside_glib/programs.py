"""Runs a script here and on the real library."""
from __future__ import annotations

import subprocess
import sys
from dataclasses import dataclass
from pathlib import Path

from rows import Library

HERE = Path(__file__).resolve().parent
MAINCTX = HERE.parent / "mainctx"
GLIB_RUN = HERE / "out" / "glib_run"
SECONDS = 60
REFUSED = 2  # mainctx's status for a script that it refuses
CUT_OFF = 3  # glib_run's status where the library aborted, or holds up all threads
PACKAGES = "libglib2.0-dev libjansson-dev pkg-config"


class CannotCompare(Exception):
    """Why a script could not be run on both sides."""


@dataclass(frozen=True)
class Ran:
    """What glib_run wrote: the text, whether that was cut off, and what the library said of it on standard error."""

    text: str
    cut_off: bool
    said: list[str]


def run_here(script: bytes, program: Path = MAINCTX) -> str:
    """The text that `mainctx` writes. What it tells of building goes to standard error as it comes."""
    try:
        running = subprocess.Popen([program, "1", "fixed"], stdin=subprocess.PIPE, stdout=subprocess.PIPE, stderr=subprocess.PIPE)
    except OSError as error:
        raise CannotCompare(f"{program} does not start: {error.strerror}") from error
    assert running.stdin and running.stdout and running.stderr
    said = []
    try:
        running.stdin.write(script)
        running.stdin.close()
    except BrokenPipeError:
        pass
    if program == MAINCTX:
        said = tell_building(running)
    text = running.stdout.read()
    said += running.stderr.read().decode(errors="replace").splitlines()
    status, last = running.wait(), said[-1] if said else "it said nothing"
    if status == REFUSED:
        raise CannotCompare(f"mainctx refuses it: {last} (docs/FORMAT.md)")
    if status != 0:
        raise CannotCompare(f"mainctx ended with status {status}: {last}")
    return text.decode()


def tell_building(running: subprocess.Popen[bytes]) -> list[str]:
    """Hands on each line that tells of building, until the program itself says something or writes."""
    assert running.stderr
    said = []
    for line in running.stderr:
        if line.startswith(b"mainctx: "):
            sys.stderr.write(line.decode(errors="replace"))
            sys.stderr.flush()
        else:
            said.append(line.decode(errors="replace").rstrip("\n"))
    return said


def run_on_glib(script: bytes, program: Path = GLIB_RUN) -> Ran:
    """The text that the real library gives."""
    need_glib_run(program)
    try:
        done = subprocess.run([program], input=script, capture_output=True, timeout=SECONDS)
    except subprocess.TimeoutExpired as error:
        raise CannotCompare(f"glib_run gave no answer in {SECONDS} seconds") from error
    except OSError as error:
        raise CannotCompare(f"{program} does not start: {error.strerror}") from error
    said = [line for line in done.stderr.decode(errors="replace").splitlines() if line and line != "**"]
    if done.returncode not in (0, CUT_OFF):
        raise CannotCompare(f"glib_run ended with status {done.returncode}: {said[-1] if said else 'it said nothing'}")
    return Ran(done.stdout.decode(errors="replace"), done.returncode == CUT_OFF, said)


def need_glib_run(program: Path) -> None:
    if program.exists():
        return
    if program != GLIB_RUN:
        raise CannotCompare(f"there is no {program}")
    if subprocess.run(["sh", "-c", "pkg-config --exists gio-2.0 gio-unix-2.0 jansson"], stderr=subprocess.DEVNULL).returncode != 0:
        raise CannotCompare(f"GLib's headers are missing: apt-get install {PACKAGES}, then make -C beside_glib")
    raise CannotCompare("glib_run is not built: make -C beside_glib")


def library_of(program: Path = GLIB_RUN) -> Library:
    """the GLib that glib_run runs on"""
    need_glib_run(program)
    try:
        told = subprocess.run([program, "--version"], capture_output=True, text=True, timeout=SECONDS).stdout.split()
    except (OSError, subprocess.TimeoutExpired) as error:
        raise CannotCompare(f"{program} does not start") from error
    if not told:
        raise CannotCompare(f"{program} --version tells nothing")
    return Library(told[0], "release-is-checked" in told)
