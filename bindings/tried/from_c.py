"""The library from C: what it exports, how it is installed, all vectors, rooms, refused memory, threads, long scripts, two copies."""
from __future__ import annotations

import shutil
import subprocess
from collections.abc import Iterator
from pathlib import Path

from .common import C, MOST, NAMED, SCRIPT, SCRIPTS, TOP, Built, Fault, Missing, Test, ends, vectors

EXPORTED = {
    f"mainctx_{name}"
    for name in ("account", "check", "life", "notes", "run", "stack", "steps", "summary", "text", "timeline", "translate", "version", "why")
}
INSTALLED = {"include/mainctx.h", "lib/libmainctx.a", "lib/libmainctx.so", "lib/libmainctx.so.0", "lib/pkgconfig/mainctx.pc"}
SANITIZERS = ("-fsanitize=address,undefined", "-fno-sanitize-recover=all")
WARNINGS = ("-std=c11", "-O1", "-g", "-Wall", "-Wextra", "-Werror")
WRAPPED = "-Wl,--wrap=malloc,--wrap=realloc,--wrap=free"

# of these every request for memory is refused in turn, of each call: each example, a script with names, and some vectors that are short, refused ones too
SHORT = 4_000  # bytes
REFUSED_IN = [path for path in SCRIPTS if path.parent.name == "examples" or path.stem.endswith("-002") and path.stat().st_size < SHORT]
FAULTY = TOP / "vectors" / "01-idle-sources" / "broken-01-000.json"  # of which mainctx_check tells
NAMED_SCRIPT = next(path for path in NAMED if path.name == SCRIPT.name)  # the small one with names
AT_ONCE = [f"examples/{name}.json" for name in ("ten_lines", "idle_starves", "invoke_three_ways", "task_ends", "give_to_worker")]

# a text that is worked out by hand: example.c's socket has data in ticks 0 to 4
EXAMPLE = "thread 0\n" + "".join(
    f"{tick} dispatch ctx 0 source {'1 priority 0' if tick < 5 else '2 priority 120'} depth 1\n" for tick in range(8)
)

PROCEDURES, LOGS, LOGGED = 1000, 220, 4_294_967_295
LONG = (
    b'{"version":1,"ticks":1,"tick_us":1,"procs":['
    + b",".join([b'{"do":[' + b",".join([b'["log",%d]' % LOGGED] * LOGS) + b"]}"] * PROCEDURES)
    + b'],"lanes":[{"contexts":1,"start":[["attach",0,0,{"kind":["idle"],"call":%d}],["iterate",0]]}]}' % (PROCEDURES - 1)
)
LONG_TEXT = (
    "thread 0\n0 dispatch ctx 0 source 1 priority 200 depth 1\n" + f"0 log {LOGGED}\n" * LOGS + "0 iterate ctx 0 true\n0 end\n"
)


def long_script() -> bytes:
    """A script of as many bytes as one may have."""
    assert MOST - 10_000 < len(LONG) <= MOST
    return LONG.ljust(MOST)


def make(built: Built, *words: str | Path) -> Fault:
    return ends("make", "-s", "-C", C, f"ARCHIVE={built.archive}", f"OUT={built.out}", *words)


def names(*command: str | Path) -> set[str]:
    told = subprocess.run(["nm", "-g", "--defined-only", *command], stdout=subprocess.PIPE, text=True, check=True).stdout
    return {line.split()[2] for line in told.splitlines() if len(line.split()) == 3}


def exports(*command: str | Path) -> Fault:
    found = names(*command)
    return None if found == EXPORTED else f"it exports {', '.join(sorted(found))}"


def installed(folder: Path) -> set[str]:
    return {str(path.relative_to(folder)) for path in folder.glob("**/*") if not path.is_dir()}


def put_under(built: Built) -> Fault:
    """make install with a DESTDIR: the files, which say their places without it; make uninstall leaves none"""
    staged = built.room / "staged"
    fault = make(built, "install", "PREFIX=/usr", f"DESTDIR={staged}")
    if fault or installed(staged / "usr") != INSTALLED or installed(staged) != {f"usr/{path}" for path in INSTALLED}:
        return fault or f"it installs {installed(staged)}"
    if "libdir=/usr/lib\nincludedir=/usr/include\n" not in (staged / "usr/lib/pkgconfig/mainctx.pc").read_text():
        return "mainctx.pc has other folders"
    return make(built, "uninstall", "PREFIX=/usr", f"DESTDIR={staged}") or (f"{installed(staged)} is left" if installed(staged) else None)


def example(built: Built, libraries: str) -> Fault:
    """example.c, built by what pkg-config tells of what is installed, and nothing else"""
    program = built.room / "example"
    command = f"cc -o {program} {C}/example.c $(pkg-config --cflags mainctx) {libraries}"
    fault = ends("sh", "-c", command, under={"PKG_CONFIG_PATH": built.prefix / "lib/pkgconfig"})
    return fault or ends(program, told=EXAMPLE, under={"LD_LIBRARY_PATH": built.prefix / "lib"})


def compiled(built: Built, name: str, sanitizers: tuple[str, ...], *words: str | Path) -> Fault:
    """Builds a test of bindings/c/tests over the static library, and runs it."""
    program = built.out / name
    files = [C / "tests" / f"{name}.c", C / "tests" / "common.c", built.out / "libmainctx.a"]
    links = [WRAPPED] if name == "refuse" else []
    fault = ends("cc", *WARNINGS, *sanitizers, f"-I{C}", "-o", program, *files, *links, "-pthread", "-ldl")
    return fault or ends(program, *words)


def twice(built: Built, sanitizers: tuple[str, ...]) -> Fault:
    copy = built.room / "another_mainctx.so"
    shutil.copy(built.shared, copy)
    return compiled(built, "twice", sanitizers, built.shared, copy, SCRIPT, SCRIPT.with_suffix(".out"))


def over(program: Path) -> Iterator[Test]:
    """All vectors, scripts of 4 MiB, and a byte more, which the runner does not read."""
    yield Test(f"vectors by {program.name}", lambda: vectors(program))
    yield Test(f"{program.name}, a script of 4 MiB", lambda: ends(program, typed=long_script(), told=LONG_TEXT))
    yield Test(f"{program.name}, 4 MiB of brackets", lambda: ends(program, typed=b"[" * MOST, status=2, told="script: not json"))
    yield Test(f"{program.name}, 4 MiB of spaces", lambda: ends(program, typed=b" " * MOST, status=2, told="script: not json"))
    yield Test(f"{program.name}, a byte more", lambda: ends(program, typed=long_script() + b" ", status=4, told="read"))


def sanitizers_of(built: Built) -> tuple[str, ...]:
    """What the compiler here can watch memory with, or nothing."""
    source, program = built.room / "nothing.c", built.room / "nothing"
    source.write_text("int main(void) { return 0; }\n")
    return SANITIZERS if ends("cc", *SANITIZERS, "-o", program, source) is None and ends(program) is None else ()


def tests(built: Built) -> Iterator[Test | Missing]:
    yield Test("libmainctx.so, its names", lambda: exports("-D", built.shared))
    yield Test("libmainctx.a, its names", lambda: exports(built.out / "libmainctx.a"))
    yield from over(built.out / "run")
    yield from over(built.out / "run-static")
    yield Test("make install, make uninstall", lambda: put_under(built))
    if shutil.which("pkg-config"):
        yield Test("example.c", lambda: example(built, "$(pkg-config --libs mainctx)"))
        yield Test("example.c with libmainctx.a", lambda: example(built, "$(pkg-config --variable=libdir mainctx)/libmainctx.a"))
    else:
        yield Missing("pkg-config", "example.c over what is installed")
    if shutil.which("c++"):
        yield Test("mainctx.h in C++", lambda: ends("c++", "-pedantic", "-Werror", "-fsyntax-only", "-x", "c++", C / "mainctx.h"))
    else:
        yield Missing("c++", "mainctx.h in C++")
    sanitizers = sanitizers_of(built)
    if not sanitizers:
        yield Missing("AddressSanitizer for cc", "memory under it: the same tests run without it")
    yield Test("rooms of each length", lambda: compiled(built, "rooms", sanitizers, SCRIPT, SCRIPT.with_suffix(".out"), FAULTY, NAMED_SCRIPT))
    yield Test("each request refused", lambda: compiled(built, "refuse", sanitizers, *REFUSED_IN, NAMED_SCRIPT))
    yield Test("eight threads at once", lambda: compiled(built, "threads", sanitizers, *(TOP / path for path in AT_ONCE)))
    yield Test("a library that is loaded twice", lambda: twice(built, sanitizers))
