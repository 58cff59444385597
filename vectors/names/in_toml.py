"""Writes a script as TOML, for the check of this folder: of the objects at the top each member is a table with a header, what lies deeper is written inline."""
from __future__ import annotations

import json
from collections.abc import Callable
from typing import Any

read: Callable[[str], dict[str, Any]] | None
try:
    from tomllib import loads as read
except ImportError:  # before Python 3.11
    read = None


def in_order(value: Any) -> Any:
    """A value with the members of its objects in the order of their keys."""
    if isinstance(value, dict):
        return {key: in_order(value[key]) for key in sorted(value)}
    return [in_order(item) for item in value] if isinstance(value, list) else value


def has_null(value: Any) -> bool:
    """Whether a value has a null, which TOML can't write."""
    parts = value.values() if isinstance(value, dict) else value if isinstance(value, list) else []
    return value is None or any(map(has_null, parts))


def scalar(value: Any) -> str:
    return json.dumps(value, ensure_ascii=False).replace("\x7f", "\\u007F")


def inline(value: Any) -> str:
    if isinstance(value, dict):
        return "{ " + ", ".join(f"{scalar(key)} = {inline(inner)}" for key, inner in value.items()) + " }"
    return "[" + ", ".join(map(inline, value)) + "]" if isinstance(value, list) else scalar(value)


def text_of(script: dict[str, Any]) -> str:
    """A script that has no null."""
    tables = {key: value for key, value in script.items() if isinstance(value, dict)}
    lines = [f"{scalar(key)} = {inline(value)}" for key, value in script.items() if key not in tables]
    for key, value in tables.items():
        lines += ["", f"[{scalar(key)}]"]
        lines += [f"{scalar(name)} = {inline(inner)}" for name, inner in value.items()]
    return "\n".join(lines) + "\n"
