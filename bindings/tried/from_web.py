"""The module for browsers and Node: what bindings/web/test tries, which says itself what this machine has not."""
from __future__ import annotations

import subprocess
from collections.abc import Iterator

from .common import BINDINGS, CLOSING, Count, Test


def all_of_it() -> Count:
    done = subprocess.run([BINDINGS / "web" / "test"], stdout=subprocess.PIPE, stderr=subprocess.STDOUT, text=True)
    *lines, last = done.stdout.splitlines() or [""]
    closing = CLOSING.fullmatch(last)
    for line in lines if closing else [*lines, last]:
        print(line, flush=True)
    if closing is None:
        return Count(0, int(done.returncode != 0), "bindings/web/test")
    return Count(int(closing[1]), int(closing[2]), "bindings/web/test")


def tests() -> Iterator[Test]:
    yield Test("the module for browsers and Node", all_of_it)
