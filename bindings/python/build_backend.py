"""Makes the package for pip (PEP 517), with nothing but Python's own library, so that pip needs no network for it.

The package takes the shared library along where there is one: that which MAINCTX_LIBRARY names, else that of bindings/c/out.
"""
from __future__ import annotations

import base64
import hashlib
import io
import os
import re
import sysconfig
import tarfile
from collections.abc import Iterator
from pathlib import Path
from typing import Any, Optional
from zipfile import ZIP_DEFLATED, ZipFile, ZipInfo

HERE = Path(__file__).resolve().parent
PACKAGE = HERE / "mainctx"
CHECKOUT = HERE.parent  # where the package lies in bindings/python
BUILT = CHECKOUT / "c" / "out" / "libmainctx.so"
LIBRARY_NAME = "mainctx/libmainctx.so"
EARLIEST = (1980, 1, 1, 0, 0, 0)  # that a zip file can say; so that what is built depends on the files alone
MODES = {True: 0o100755, False: 0o100644}  # of a library, and of another file

_version = re.search(r'^__version__ = "(.*)"$', (PACKAGE / "__init__.py").read_text(), re.MULTILINE)
assert _version is not None
VERSION = _version.group(1)
STEM = f"mainctx-{VERSION}"

METADATA = f"""\
Metadata-Version: 2.1
Name: mainctx
Version: {VERSION}
Summary: Runs scripts of GLib's main event loop in virtual time, by a proved engine
License: Apache-2.0
Requires-Python: >=3.9
Classifier: Framework :: Pytest
Classifier: Typing :: Typed
Description-Content-Type: text/markdown

"""
ENTRY_POINTS = "[pytest11]\nmainctx = mainctx.pytest_plugin\n"


def _library() -> Path | None:
    named = os.environ.get("MAINCTX_LIBRARY")
    if named:
        return Path(named)
    return BUILT if CHECKOUT.name == "bindings" and BUILT.exists() else None


def _tag(library: Path | None) -> str:
    """For which Pythons and machines a package is: with a library for machines like this one alone."""
    platform = re.sub(r"[-.]", "_", sysconfig.get_platform()) if library else "any"
    return f"py3-none-{platform}"


def _metadata() -> bytes:
    return (METADATA + (HERE / "README.md").read_text()).encode()


def _files(library: Path | None) -> Iterator[tuple[str, bytes]]:
    """What the package installs, by name."""
    for path in sorted(PACKAGE.iterdir()):
        if path.suffix == ".py" or path.name == "py.typed":
            yield f"mainctx/{path.name}", path.read_bytes()
    if library:
        yield LIBRARY_NAME, library.read_bytes()
    wheel = f"Wheel-Version: 1.0\nGenerator: mainctx\nRoot-Is-Purelib: {'false' if library else 'true'}\nTag: {_tag(library)}\n"
    yield f"{STEM}.dist-info/METADATA", _metadata()
    yield f"{STEM}.dist-info/WHEEL", wheel.encode()
    yield f"{STEM}.dist-info/entry_points.txt", ENTRY_POINTS.encode()


def _sum(content: bytes) -> str:
    return "sha256=" + base64.urlsafe_b64encode(hashlib.sha256(content).digest()).rstrip(b"=").decode()


def _put(archive: ZipFile, name: str, content: bytes) -> None:
    entry = ZipInfo(name, EARLIEST)
    entry.external_attr = MODES[name == LIBRARY_NAME] << 16
    archive.writestr(entry, content, ZIP_DEFLATED)


def build_wheel(
    wheel_directory: str, config_settings: Optional[dict[str, Any]] = None, metadata_directory: Optional[str] = None
) -> str:
    """Writes the package into a folder, and answers its name."""
    library = _library()
    name, record = f"{STEM}-{_tag(library)}.whl", f"{STEM}.dist-info/RECORD"
    with ZipFile(Path(wheel_directory) / name, "w") as archive:
        lines = []
        for path, content in _files(library):
            _put(archive, path, content)
            lines.append(f"{path},{_sum(content)},{len(content)}\n")
        _put(archive, record, "".join([*lines, f"{record},,\n"]).encode())
    return name


def _without_caches(entry: tarfile.TarInfo) -> tarfile.TarInfo | None:
    return None if "__pycache__" in entry.name else entry


def build_sdist(sdist_directory: str, config_settings: Optional[dict[str, Any]] = None) -> str:
    """Writes the sources into a folder, and answers their name. The library is not among them."""
    name, metadata = f"{STEM}.tar.gz", _metadata()
    with tarfile.open(Path(sdist_directory) / name, "w:gz") as archive:
        for path in ("mainctx", "tests", "README.md", "pyproject.toml", "build_backend.py"):
            archive.add(HERE / path, f"{STEM}/{path}", filter=_without_caches)
        entry = tarfile.TarInfo(f"{STEM}/PKG-INFO")
        entry.size = len(metadata)
        archive.addfile(entry, io.BytesIO(metadata))
    return name
