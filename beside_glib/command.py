"""usage: beside-glib [--why] [--mainctx PROGRAM] [--glib-run PROGRAM] script.json ..

Runs each script here and on the real GLib of this machine, in virtual time. Where the two texts part it shows them side by side, the
first difference marked by '>' and the others by '*', and names the rows of docs/GLIB.md that explain it: the least set of known
differences with which a model of this project's rules writes GLib's text. Of a script with names both run the script of numbers that
it stands for, and the texts have these numbers.

  --why               also where in GLib's source each row has its cause, its script of beside_glib/differences, and what the library
                      said on standard error
  --mainctx PROGRAM   in place of ./mainctx, which builds the program first where that is needed
  --glib-run PROGRAM  in place of beside_glib/out/glib_run, for another GLib
  -                   as a script is standard input

Status 0: all texts are equal. 1: they part, and known differences explain it. 2: they part, and none does. 3: a script could not be
compared. Of several the greatest. It needs `make -C beside_glib` once (apt-get install libglib2.0-dev libjansson-dev pkg-config)."""
from __future__ import annotations

import json
import os
import sys
from collections.abc import Callable
from dataclasses import dataclass, field
from pathlib import Path
from threading import Timer

sys.path.append(str(Path(__file__).resolve().parents[1] / "vectors" / "names"))

from explain import explain
from programs import GLIB_RUN, MAINCTX, CannotCompare, Ran, library_of, run_here, run_on_glib
from rows import ROWS, Library
from show import first_difference, side_by_side
from translate import Refused, read, translated

EQUAL, EXPLAINED, UNEXPLAINED, NOT_COMPARED = range(4)
NAMED = {"form", "threads"}  # the keys by which a script is one with names


class WrongUsage(Exception):
    """What is wrong with the arguments."""


@dataclass
class Wanted:
    """what the command line asks for"""

    why: bool = False
    mainctx: Path = MAINCTX
    glib_run: Path = GLIB_RUN
    scripts: list[str] = field(default_factory=list)


def read_words(words: list[str]) -> Wanted:
    wanted, rest = Wanted(), list(words)
    while rest:
        word = rest.pop(0)
        if word == "--why":
            wanted.why = True
        elif word in ("--mainctx", "--glib-run"):
            if not rest:
                raise WrongUsage(f"{word} needs a program")
            setattr(wanted, word[2:].replace("-", "_"), Path(rest.pop(0)).resolve())
        elif word.startswith("-") and word != "-":
            raise WrongUsage(f"{word} is unknown")
        else:
            wanted.scripts.append(word)
    if not wanted.scripts:
        raise WrongUsage("no script is given")
    return wanted


def read_script(name: str) -> bytes:
    """The script of numbers that is to be run."""
    try:
        return in_numbers(sys.stdin.buffer.read() if name == "-" else Path(name).read_bytes())
    except OSError as error:
        raise CannotCompare(f"it can't be read: {error.strerror}") from error


def in_numbers(script: bytes) -> bytes:
    """What a script with names stands for; anything else as it is, which mainctx refuses where it is no script."""
    try:
        value = read(script.decode())
    except ValueError:
        return script
    if not isinstance(value, dict) or not NAMED & value.keys():
        return script
    try:
        return json.dumps(translated(value)).encode()
    except Refused as why:
        raise CannotCompare(f"{why} (docs/NAMES.md; ./mainctx_check says more)") from why


def tell_row(row: str, why: bool) -> list[str]:
    told = [f"  {row}: {ROWS[row].told}"]
    if why:
        told += [f"      in GLib 2.74.6: {ROWS[row].place}", f"      docs/GLIB.md#{row}, beside_glib/differences/{row}.json"]
    return told


def tell_explanation(rows: tuple[str, ...] | None, why: bool) -> list[str]:
    if rows is None:
        return ["  no known difference explains this. Please report it, with the script, both texts and GLib's version:",
                "  either the harness or the rules are wrong, or docs/GLIB.md lacks a row."]
    told = ["  explained by " + ("this row" if len(rows) == 1 else f"these {len(rows)} rows together") + " of docs/GLIB.md:"]
    return told + [line for row in rows for line in tell_row(row, why)]


def end_of(ran: Ran) -> str:
    """why the library's text was cut off"""
    failed = [line.split("gmain.c:")[-1] for line in ran.said if "assertion failed" in line]
    return f"the library aborts (gmain.c:{failed[0]})" if failed else ran.said[-1].removeprefix("glib_run: ")


def said_by(ran: Ran) -> list[str]:
    said = [line for line in dict.fromkeys(ran.said) if not line.startswith(("glib_run: ", "Bail out!"))]
    return [f"  GLib said: {line}" for line in said]


def patiently(name: str, look: Callable[[], tuple[str, ...] | None]) -> tuple[str, ...] | None:
    """Looks, and says so where it takes long."""
    saying = Timer(2, lambda: print(f"beside-glib: {name}: looking for the rows that explain it ..", file=sys.stderr))
    saying.start()
    try:
        return look()
    finally:
        saying.cancel()


def compare(name: str, wanted: Wanted, library: Library) -> int:
    script = read_script(name)
    here, ran = run_here(script, wanted.mainctx), run_on_glib(script, wanted.glib_run)
    if here == ran.text and not ran.cut_off:
        print(f"{name}: equal, {here.count(chr(10))} lines")
        status = EQUAL
    else:
        print(f"{name}: parts from GLib {library.version} at {first_difference(here, ran.text)}")
        print("\n".join(side_by_side(here, ran.text, library.version)))
        if ran.cut_off:
            print(f"  GLib's text ends there: {end_of(ran)}")
        rows = patiently(name, lambda: explain(json.loads(script), ran.text, library))
        print("\n".join(tell_explanation(rows, wanted.why)))
        status = UNEXPLAINED if rows is None else EXPLAINED
    if wanted.why:
        print("".join(f"{line}\n" for line in said_by(ran)), end="")
    return status


def compare_all(wanted: Wanted) -> int:
    statuses = []
    library = library_of(wanted.glib_run)
    for name in wanted.scripts:
        try:
            statuses.append(compare(name, wanted, library))
        except CannotCompare as why:
            print(f"beside-glib: {name}: {why}", file=sys.stderr)
            statuses.append(NOT_COMPARED)
        sys.stdout.flush()
    if len(statuses) > 1:
        counts = [f"{statuses.count(status)} {what}" for status, what in enumerate(("equal", "explained", "unexplained", "not compared"))]
        print(f"GLib {library.version}: " + ", ".join(counts))
    return max(statuses)


def main(words: list[str]) -> int:
    sys.setrecursionlimit(20_000)
    if "--help" in words or "-h" in words:
        print(__doc__)
        return 0
    try:
        return compare_all(read_words(words))
    except WrongUsage as why:
        print(f"beside-glib: {why}\n{__doc__.splitlines()[0]}   (--help says more)", file=sys.stderr)
        return NOT_COMPARED
    except CannotCompare as why:
        print(f"beside-glib: {why}", file=sys.stderr)
        return NOT_COMPARED
    except BrokenPipeError:
        os.dup2(os.open(os.devnull, os.O_WRONLY), sys.stdout.fileno())
        return NOT_COMPARED
    except KeyboardInterrupt:
        return 130
