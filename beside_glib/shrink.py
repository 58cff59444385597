"""Makes a script small that shows something."""
from __future__ import annotations

import copy
from collections.abc import Callable, Iterator
from typing import Any

Script = dict[str, Any]


def places(script: Script) -> list[list[Any]]:
    """all lists of actions in it"""
    return [lane["start"] for lane in script["lanes"]] + [procedure["do"] for procedure in script.get("procs", [])]


def smaller(script: Script) -> Iterator[Script]:
    """scripts that have an action less, a key of a source or a procedure less, or fewer ticks"""
    for ticks in (1, script["ticks"] // 2, script["ticks"] - 1):
        if 0 < ticks < script["ticks"]:
            yield {**script, "ticks": ticks}
    for at, actions in enumerate(places(script)):
        for number in reversed(range(len(actions))):
            fewer = copy.deepcopy(script)
            del places(fewer)[at][number]
            yield fewer
            if isinstance(actions[number][-1], dict):
                for key in actions[number][-1].keys() - {"kind", "tree"}:
                    plainer = copy.deepcopy(script)
                    del places(plainer)[at][number][-1][key]
                    yield plainer
    for number, procedure in enumerate(script.get("procs", [])):
        if "keep" in procedure:
            plainer = copy.deepcopy(script)
            del plainer["procs"][number]["keep"]
            yield plainer
    if script.get("procs") and not script["procs"][-1]["do"]:
        yield {**script, "procs": script["procs"][:-1]}


def shrink(script: Script, shows: Callable[[Script], bool], tries: int = 3000) -> Script:
    """The script with all taken away that can be, one by one, while it shows what it did."""
    found = True
    while found and tries > 0:
        found = False
        for fewer in smaller(script):
            tries -= 1
            if tries <= 0:
                break
            if shows(fewer):
                script, found = fewer, True
                break
    return script
