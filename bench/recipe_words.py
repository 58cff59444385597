"""The files in which `bench/recipes` looks for words, how a word is spelt in them, and which of them hold scripts."""
import re
from pathlib import Path

from recipe_walk import TOP

SEARCHED = {
    "crates": (".rt", ".antt"),
    "bindings": (".py", ".md", ".c", ".h", ".rs", ".mjs"),
    "beside_glib": (".py", ".c", ".h", ".md"),
    "vectors": (".py", ""),
    "bench": (".py", ""),
    "docs": (".md", ".json", ".txt"),
    "page/src": (".mjs",),
    "examples": (".md",),
}
ALONE = ("page/index.html", "page/style.css", "page/build", "page/test", "try", "mainctx", "mainctx_check", "mainctx_inspect")
PASSED_OVER = {"must-fail", "out", "__pycache__", "ARCHITECTURE.md", "MUTATIONS.md", "recipes"}
COMMENTS = {".rt": "//", ".antt": "--", ".py": "#", "": "#", ".mjs": "//"}
EDITS = ("crates/*/must-fail/*.edit", "gate/wrong_bodies/*/*.edit")
TEST_CRATES = ("test_data", "test_lanes", "test_runs", "bench_rows")
ROOMS = ("bindings", "page", "beside_glib", "vectors", "examples", "gate", "bench", "docs")
PARTS = ("specs", "src", "proofs", "must-fail")
MOST_LINES = 12
SCRIPTS_IN = ("crates", "bindings", "beside_glib", "vectors", "bench", "docs", "page", "examples", "README.md", "try")
BUILT = (".wasm", ".deflate", ".sha256", ".html", ".png", ".svg", ".toml")
SCRIPT = re.compile(r"""["']version\\?["']\s*:\s*(?P<version>\d)|["']form\\?["']\s*:\s*\\?["']names|\bform = ["']names""")
MADE = re.compile(r"""["']version["']\]?\s*[:=]\s*[A-Za-z_]""")
NAMED_VERSION, VERSIONS = "2", "12"
MOST_OF_SCRIPT = 200_000
MOST_IN_FOLDER = 4


class Index:
    """The files of the repository in which words are looked for."""

    def __init__(self):
        self.sources, self.texts, self.stems = [str(path) for path in sources()], {}, {}
        self.edits = [str(path.relative_to(TOP)) for glob in EDITS for path in sorted(TOP.glob(glob))]
        for path in self.sources:
            self.stems.setdefault(str(Path(path).with_suffix("")), []).append(path)
        crates = [re.split("[: ]", line)[0] for line in (TOP / "crates.txt").read_text().splitlines() if line]
        self.rooms = [f"crates/{crate}" for crate in sorted(crates, key=lambda crate: crate in TEST_CRATES)] + [*ROOMS]

    def of(self, stem):
        """The files that a path without ending stands for; a folder stands for itself."""
        if stem in self.stems:
            return self.stems[stem]
        if (TOP / stem).exists():
            return [stem + "/" * (TOP / stem).is_dir()]
        return sorted(str(path.relative_to(TOP)) for path in TOP.glob(f"{stem}.*")) or [stem]

    def room(self, path):
        """The crate or the folder of a path."""
        parts = path.split("/")
        return "/".join(parts[:2]) if parts[0] == "crates" else parts[0] if parts[0] in ROOMS else "."

    def place(self, path):
        """By which paths are sorted."""
        room = self.room(path)
        part = path.removeprefix(f"{room}/").split("/")[0]
        return self.rooms.index(room) if room in self.rooms else len(self.rooms), PARTS.index(part) if part in PARTS else len(PARTS), path

    def text(self, path):
        if path not in self.texts:
            self.texts[path] = (TOP / path).read_text(errors="replace").splitlines() if (TOP / path).is_file() else []
        return self.texts[path]

    def purpose(self, path):
        """What the first line of code, of a definition or of a proof says that it is for."""
        first = self.text(path)[0] if path.endswith((".rt", ".antt")) else ""
        return f"({first.lstrip('/!- ').rstrip('.')})" if first.startswith(("//!", "--")) else ""

    def lines(self, path, pattern):
        """The numbers of the lines that have a word; none where a file is not one of those that are searched."""
        is_edit = path.endswith(".edit")
        return [number for number, line in enumerate(self.text(path), 1) if pattern.search(line)] if pattern and (is_edit or path in self.sources) else []

    def uses(self, path, pattern, types):
        """The numbers of the lines of code that have a word as a variant of one of some types, or otherwise than as a variant, and not in a whole script."""
        imported, text = types_in(self.text(path)) if path.endswith(".antt") else {}, self.text(path)
        lines = [number for number in self.lines(path, pattern) if not is_comment(path, text[number - 1]) and not is_import(text[number - 1])]
        lines = [number for number in lines if not is_script(text[number - 1])]
        if not types or not path.endswith((".rt", ".antt", ".edit")):
            return lines
        return [number for number in lines if not all(is_of_other(match, text[number - 1], types, imported) for match in pattern.finditer(text[number - 1]))]

    def has_variant(self, path, lines, pattern, types):
        """Whether a word is a variant of one of some types in one of some lines of a file."""
        imported, text = types_in(self.text(path)) if path.endswith(".antt") else {}, self.text(path)
        return any(match[0][0].isupper() and type_of(match, text[number - 1], imported) in types for number in lines for match in pattern.finditer(text[number - 1]))


def sources():
    for top, endings in SEARCHED.items():
        for path in sorted((TOP / top).rglob("*")):
            if path.suffix in endings and path.is_file() and not PASSED_OVER & set(path.parts):
                yield path.relative_to(TOP)
    yield from ALONE


def spellings(word):
    """A word as it is written, and as the name of a variant where it is one of a script."""
    return {word, "".join(map(str.capitalize, re.split("[-_]", word)))} if re.search("[-_]", word) else {word}


def all_spellings(word):
    """A word in each way in which a script, a type or a function is named by it."""
    lower = [part.lower() for part in re.split("[-_]", re.sub(r"(?<=[a-z0-9])(?=[A-Z])", "_", word))]
    return {word, "_".join(lower), "-".join(lower), "_".join(lower).upper(), "".join(map(str.capitalize, lower))}


def whole(words):
    """What finds one of some words where it stands by itself, or as a part of a name between its dashes."""
    return re.compile(rf"(?<![A-Za-z0-9])({'|'.join(map(re.escape, sorted(words)))})(?![A-Za-z0-9])") if words else None


def pattern_of(word):
    """What finds a word in each way in which it is spelt."""
    return whole(all_spellings(word)) if word else None


def named_by(word):
    """What finds the variant, the functions (act_quit), the word of a script and the function of an edit (`in: `) that a word names, and not the same word in
    prose. Of a word with dashes or capitals within it each spelling is found: no prose has these."""
    if not word or re.search(r"[-_]|[a-z0-9][A-Z]", word):
        return pattern_of(word)
    lower = re.escape(word.lower())
    return re.compile(rf"(?<![A-Za-z0-9_]){re.escape(word.capitalize())}(?![A-Za-z0-9_])|(?<![A-Za-z0-9_])(?:act|read|push|put|take)_{lower}(?![A-Za-z0-9_])|([\"'`\[]){lower}(?=\\?[\"'`])|^in: (?:\S*[:_])?{lower}(?![A-Za-z0-9])")


def is_import(line):
    return re.match(r"\s*(pub |ghost )*use ", line) is not None


def is_script(line):
    """Whether a whole script stands in a line: `print_texts` finds those."""
    return SCRIPT.search(line) is not None and "ticks" in line


def types_in(lines):
    """Of which types a definition or a proof imports variants: by the name of the variant, or of what stands before it."""
    told = {}
    for type_name, alias, variants in re.findall(r"\.(\w+)\.TheVariants(?: as (\w+)|\.\{([^}]*)\})", "\n".join(lines)):
        told |= dict.fromkeys([alias] if alias else [one.split()[-1] for one in variants.split(",") if one.strip()], type_name)
    return told


def type_of(match, line, imported):
    """Of which type what was found in code of Rattle is a variant, as far as that shows."""
    before = re.search(r"(\w+)(?:::|\.)$", line[: match.start()])
    return imported.get(before[1] if before else match[0], before[1] if before else "")


def is_of_other(match, line, types, imported):
    """Whether what was found in code of Rattle is no variant of these types: one of another, or the name of a type."""
    name = type_of(match, line, imported)
    return match[0][0].isupper() and (name[:1].isupper() or not name) and name not in types


def is_comment(path, line):
    suffix = Path(path).suffix
    return suffix in COMMENTS and line.lstrip().startswith(COMMENTS[suffix])


def numbers_of(lines, mark="  lines "):
    return f"{mark}{', '.join(map(str, lines[:MOST_LINES]))}{', ..' if len(lines) > MOST_LINES else ''}" if lines else ""


# ---- scripts


def scripts_in(path, text):
    """The scripts that a file holds, each as its version, where it begins and its text. Programs in Python join theirs from parts, so of these the whole file is
    one for each version that it names, and for both where it gets the version from elsewhere."""
    found = [(match["version"] or NAMED_VERSION, match.start()) for match in SCRIPT.finditer(text)]
    if path.suffix in (".py", "") and path.parts[-1] not in ("stdin", "stdout"):
        told = {version for version, _ in found} | set(VERSIONS if MADE.search(text) else "")
        yield from ((version, 0, text) for version in sorted(told))
        return
    until = -1
    for version, at in found:
        if at > until:
            start = max(text.rfind("{", 0, at), 0)
            until = end_of(text, start)
            yield version, start, text[start:until]


def end_of(text, start):
    """Behind the brace that ends what one begins; in TOML, which has none round a script, its block."""
    depth = 0
    for match in re.compile("[{}]").finditer(text, start, start + MOST_OF_SCRIPT):
        depth += 1 if match[0] == "{" else -1
        if depth == 0:
            return match.end()
    return len(text)


def print_texts(word, version):
    """The files that hold a script with a word, with their lines; of folders with many of them how many; and the files that name one of these. Answers the
    status."""
    pattern, folders, texts = re.compile(rf"""["']{re.escape(word)}\\?["']|(?<![\w-]){re.escape(word)} = """), {}, {}
    for path in (path for top in SCRIPTS_IN for path in ([TOP / top] if (TOP / top).is_file() else sorted((TOP / top).rglob("*")))):
        if not path.is_file() or path.suffix in BUILT or {"out", "target", "__pycache__"} & set(path.parts) or path.name.startswith("recipe"):
            continue
        text = texts[str(path.relative_to(TOP))] = path.read_text(errors="replace")
        lines = {text.count("\n", 0, start + match.start()) + 1 for one, start, script in scripts_in(path, text) if version in (None, one) for match in pattern.finditer(script)}
        if lines:
            folders.setdefault(str(path.parent.relative_to(TOP)), []).append((str(path.relative_to(TOP)), sorted(lines)))
    for folder, files in folders.items():
        if len(files) > MOST_IN_FOLDER and all(path.endswith(".json") for path, _ in files):
            print(f"{folder}/: {len(files)} scripts")
        else:
            print("".join(f"{path}{numbers_of(lines, ': ')}\n" for path, lines in files), end="")
    print_naming({Path(path).stem for files in folders.values() for path, _ in files if path.endswith(".json")}, texts)
    return 0 if folders else 1


def print_naming(scripts, texts):
    """The files that name one of some scripts: by a name that is no plain word, or with its ending."""
    names = {name for name in scripts if re.search(r"[-_\d]", name)} | {f"{name}.json" for name in scripts}
    naming = {path: [number for number, line in enumerate(text.splitlines(), 1) if not names.isdisjoint(re.findall(r"[\w-]+(?:\.json)?", line))] for path, text in texts.items() if not path.endswith(".json")}
    if any(naming.values()):
        print("\nfiles that name one of these scripts:")
    print("".join(f"{path}{numbers_of(lines, ': ')}\n" for path, lines in naming.items() if lines), end="")
