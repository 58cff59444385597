"""The recipes of bench/recipes_of, as `bench/recipes` reads them, and the walk through their questions.

A recipe is a file of TOML: `title`, `like`, `room` (where to begin) and `examples` (the words of those that exist), `types` (whose variants those are), and
groups. A group has files, each with a note behind a colon, which begins with `if` where the file is touched only in a case that nothing asks for. One with a
`key` asks (`ask`): its files are touched where the answer is yes. In place of them it may have a `choice` of several answers. `like` names those that exist and
answer yes. Within a group stand others that are asked for only after its yes. `also` leads to another recipe, `part` to what stands below some keys of one; the
keys behind the colon are answered yes there, and those with a dash no, where only a part is led to. `within` says of what the key above leads to, behind a colon,
of which crate alone files are touched there, where nothing else leads to it. The groups of shared.toml are for each recipe that they name (`of`)."""
import functools, tomllib
from pathlib import Path

TOP = Path(__file__).resolve().parent.parent
RECIPES = TOP / "bench" / "recipes_of"
SHARED = "shared"


@functools.cache
def read(name):
    told = tomllib.loads((RECIPES / f"{name}.toml").read_text())
    for group in told["group"] if name == SHARED else []:
        for one, _ in each_group(inside(group)):
            one["of"] = group["of"]
    return told


def names():
    return sorted(path.stem for path in RECIPES.glob("*.toml") if path.stem != SHARED)


def groups_of(name):
    """The groups of a recipe, with those that several have in common, which say of which they are."""
    return read(name)["group"] + [group for group in read(SHARED)["group"] if name in group["of"]]


def inside(group):
    return group.get("choice", []) + group.get("group", [])


def each_group(groups, above=()):
    """Each group, also within others, with those above it that have a key."""
    for group in groups:
        yield group, above
        yield from each_group(inside(group), above + ((group,) if "key" in group else ()))


def files_of(group):
    """The paths of a group, without endings (one with an ending stands for that file alone), each with its note. A crate stands by its name, `top` is the
    repository's root."""
    for room, parts in group.get("files", {}).items():
        base = "" if room == "top" else f"crates/{room}/" if (TOP / "crates" / room).is_dir() else f"{room}/"
        for part, entries in parts.items() if isinstance(parts, dict) else [("", parts)]:
            for entry in entries:
                path, _, note = entry.partition(": ")
                yield f"{base}{part + '/' if part else ''}{path}".rstrip("/"), note


def always_of(name):
    return {path for group in groups_of(name) if "key" not in group for path, _ in files_of(group)}


def leads_of(group):
    """To which recipes a group leads, with the keys that it answers yes there, and whether to the whole of it (`also`), or only to what is below these (`part`)."""
    for way in ("also", "part"):
        for lead in group.get(way, []):
            name, _, keys = lead.partition(":")
            yield name, [key for key in keys.replace(" ", "").split(",") if key], way == "also"


def bounds_of(group):
    """Of which recipes a group leaves the files of one crate alone, with the path of that."""
    for bound in group.get("within", []):
        name, _, crate = bound.partition(":")
        yield name, f"crates/{crate}/"


def key_of(first, name, group):
    """The key of a group where the recipe `first` is asked for: one of another recipe has that one's name before it."""
    return group["key"] if name == first or "of" in group else f"{name}.{group['key']}"


def shared_keys(name):
    """The keys of a recipe that several have in common: they are written without its name."""
    return [group["key"] for group, _ in each_group(groups_of(name)) if "of" in group and "key" in group]


def led_from(name):
    """The recipes to the whole of which one leads, also through another one."""
    found = [name]
    for one in found:
        found += dict.fromkeys(other for group, _ in each_group(groups_of(one)) for other, _, is_whole in leads_of(group) if is_whole and other not in found)
    return found[1:]


def all_keys(first):
    """Each key that may be answered, with those above it."""
    return {key_of(first, name, group): [key_of(first, name, one) for one in above] for name in names() for group, above in each_group(groups_of(name)) if "key" in group}


class Walk:
    """What is for something new, of its recipe and of all to which that leads: `found` has a key, which is None where nothing was asked, with a group and the
    name of its recipe. `answer` says yes or no to a key with its group."""

    def __init__(self, first, answer):
        self.first, self.answer = first, answer
        self.whole, self.led, self.known, self.denied, self.said = {first}, [first], set(), set(), {}
        self.until_settled(lambda name: read(name)["group"])
        self.until_settled(groups_of)

    def until_settled(self, groups_of_one):
        """Goes over all groups anew until none leads to something that was not met before. Each question comes once."""
        before = None
        while before != (len(self.led), len(self.whole), len(self.known)):
            before = len(self.led), len(self.whole), len(self.known)
            self.found, self.leading, self.bounds = [], {}, {}
            for name in [*self.led]:
                groups = groups_of_one(name)
                if name not in self.whole:
                    groups = [group for group in groups if "key" in group and key_of(self.first, name, group) in self.known]
                self.take(name, groups, None if name == self.first else name)

    def take(self, name, groups, above):
        """Takes groups; `above` is the key of the question above, or the name of a recipe that was led to."""
        for group in groups:
            key = key_of(self.first, name, group) if "key" in group else None
            if key and not self.is_yes(name, key, group):
                continue
            self.found.append((key or (None if "of" in group else above), group, name))
            for other, crate in bounds_of(group):
                self.bounds.setdefault(other, {})[above] = crate
            for other, keys, is_whole in leads_of(group):
                if other != name:
                    self.leading.setdefault(other, set()).add(key or above)
                self.led += [] if other in self.led else [other]
                self.whole |= {other} if is_whole else set()
                for led, over in each_group(groups_of(other)):
                    if led.get("key") in keys:
                        self.known |= {key_of(self.first, other, one) for one in (led, *over)}
                    elif f"-{led.get('key')}" in keys:
                        self.denied.add(key_of(self.first, other, led))
            self.take(name, inside(group), key or above)

    def files(self):
        """The files of what was found: the key, the path without its ending, and the note. Of a recipe to which nothing leads but keys that keep to one crate
        there, only files of that."""
        for key, group, name in self.found:
            bounds = self.bounds.get(name, {})
            crates = tuple(bounds.values()) if bounds and self.leading.get(name, set()) <= set(bounds) and name != self.first else ("",)
            yield from ((key, stem, note) for stem, note in files_of(group) if stem.startswith(crates))

    def is_yes(self, name, key, group):
        """Whether a question is answered yes. Where one answer of a choice is known, the others are no."""
        if key in self.denied and name not in self.whole:
            return False
        choices = {key_of(self.first, name, choice) for choice in group.get("choice", [])}
        if choices & self.known:
            self.said |= {choice: False for choice in choices if choice not in self.said}
        if key not in self.said and key not in self.known:
            self.said[key] = self.answer(key, group)
        return key in self.known or self.said[key]
