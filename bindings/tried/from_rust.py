"""The crate for Rust: its tests and its example without a registry, and all vectors through it."""
from __future__ import annotations

import shutil
from collections.abc import Iterator
from pathlib import Path

from .common import RUST, Built, Fault, Missing, Test, Variables, ends, vectors


def cargo(built: Built, *words: str, under: Variables) -> Fault:
    variables: dict[str, str | Path] = {"CARGO_TARGET_DIR": built.room / "target", **under}
    return ends("cargo", *words, "--offline", "--locked", "-q", where=RUST, under=variables)


def tests(built: Built) -> Iterator[Test | Missing]:
    if not shutil.which("cargo") or ends("cargo", "--version"):
        yield Missing("cargo", "the crate for Rust")
        return
    named: Variables = {"MAINCTX_LIB_DIR": built.out}
    yield Test("cargo test", lambda: cargo(built, "test", under=named))
    yield Test("the example of the crate", lambda: cargo(built, "build", "--example", "run", under=named))
    yield Test("vectors by Rust", lambda: vectors(built.room / "target" / "debug" / "examples" / "run"))
    if shutil.which("pkg-config"):
        installed: Variables = {"CARGO_TARGET_DIR": built.room / "installed", "PKG_CONFIG_PATH": built.prefix / "lib" / "pkgconfig"}
        yield Test("cargo test over what is installed", lambda: cargo(built, "test", "--test", "run", under=installed))
