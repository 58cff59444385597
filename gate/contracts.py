"""A crate of which most functions are cut down to their contracts: their bodies are loops that do nothing, which the prover leaves unproved at once, and what
they call is not asked for. A proof sees of another function its contract alone, so whether a function has an open goal of its own is the same as before."""
import os, re
from dataclasses import dataclass

HOME = re.compile(r"(?:pub(?:\([^)]*\))? )?(?:struct|enum) (\w+)")
METHODS = re.compile(r"impl(?:<.*?>)? (\w+)(?:<.*>)? \{")
OTHER_ITEM = re.compile(r"impl\b|(?:pub(?:\([^)]*\))? )?(?:mod|trait|struct|enum|macro_rules!?)\b")
FUNCTION = re.compile(r'( *)(?:pub(?:\([^)]*\))? )?(?:extern "C" )?fn (\w+)')
CYCLE = re.compile(r" *#\[cycle\((\w+)\)\]")
# a name that nothing has
NOTHING = "not-proved-here"
# the files of a function's proof
OF_PROOF = ("Answers.antt", "Invariants.antt", "Proof.antt")


@dataclass(frozen=True)
class Function:
    """A function of no trait: its path below the crate, as the prover prints it, its cycle of calls if it has one, and where it stands: its file,
    and the lines of its cycle's name (none: -1), of its body's first brace and of its last."""
    path: str
    cycle: str
    file: str
    named: int
    body: int
    end: int


def module_of(file):
    """The module of a file of src."""
    return [it for it in file.removeprefix("src/").removesuffix(".rt").split("/") if it not in ("lib", "main", "mod")]


def opens_body(line, indent, is_first):
    """Whether a line of a function's head has its body's first brace: it is alone there, or behind the result's type."""
    return line in (f"{indent}{{", f"{indent}{{}}") or line.endswith(("{", "{}")) and (is_first or line.startswith(f"{indent})"))


def functions_in(file, lines, homes):
    """The functions of a file as `rt fmt` lays it out, but those of traits, tests and macros."""
    owner, at = [], 0
    while at < len(lines):
        line = lines[at]
        methods, found = METHODS.fullmatch(line), FUNCTION.match(line)
        if methods:
            owner = [methods[1]]
        elif OTHER_ITEM.match(line) and line.endswith("{"):
            owner = None
        elif line.startswith("}"):
            owner = []
        at += 1
        if not found or owner is None or len(found[1]) != 4 * len(owner):
            continue
        above = at - 1
        while lines[above - 1].lstrip().startswith(("#[", "//")):
            above -= 1
        cycles = {it: CYCLE.match(lines[it])[1] for it in range(above, at) if CYCLE.match(lines[it])}
        body = at - 1
        while not opens_body(lines[body], found[1], body == at - 1):
            body += 1
        end = body
        while not lines[body].endswith("{}") and lines[end] != found[1] + "}":
            end += 1
        at = end + 1
        if not any("#[test]" in it for it in lines[above:body]):
            module = homes.get(owner[0], module_of(file)) if owner else module_of(file)
            cycle = "::".join([*module_of(file), *cycles.values()]) if cycles else ""
            yield Function("::".join([*module, *owner, found[2]]), cycle, file, next(iter(cycles), -1), body, end)


def sources(folder):
    """The texts of the files in a crate's src, by their paths in the crate."""
    files = [os.path.relpath(f"{at}/{it}", folder) for at, _, names in os.walk(f"{folder}/src") for it in names if it.endswith(".rt")]
    return {it: open(f"{folder}/{it}").read() for it in files}


def functions_of(texts):
    """The functions of a crate, from the texts of its files in src."""
    homes = {name: module_of(file) for file, text in texts.items() for line in text.split("\n") for name in HOME.findall(line) if HOME.match(line)}
    return [it for file, text in texts.items() for it in functions_in(file, text.split("\n"), homes)]


def cut(crate, folder, kept):
    """In a copy of a crate, leaves of each function but these and those of their cycles its contract alone."""
    texts = sources(folder)
    found = functions_of(texts)
    cycles = {it.cycle for it in found if it.path in kept and it.cycle}
    for file, text in texts.items():
        lines = text.split("\n")
        for it in reversed([it for it in found if it.file == file and it.path not in kept and it.cycle not in cycles]):
            # (with as many lines, so that the prover tells those of the crate)
            opened, indent = re.sub(r"\{\}?$", "{ loop {}", lines[it.body]), re.match(" *", lines[it.end])[0]
            lines[it.body:it.end + 1] = [opened, *[""] * (it.end - it.body - 1), f"{indent}}}"] if it.end > it.body else [opened + " }"]
            if it.named >= 0:
                lines[it.named] = ""
            put_refused_proof(crate, folder, it)
        with open(f"{folder}/{file}", "w") as written:
            written.write("\n".join(lines))


def refused_proof(crate, path):
    """A proof of a function that is none, which the prover refuses at once: what calls the function goes by its contract, and is not proved."""
    name = path.rpartition("::")[2]
    return f"use Rattle.{crate}.proofs.{path.replace('::', '.')}.Statement as stated\n\npub {name}_spec : {{M : Type 1}} → stated.statement M\n{name}_spec = {NOTHING}\n"


def put_refused_proof(crate, folder, function):
    """Puts that in the place of a function's proof, or of that of its cycle."""
    module, _, name = f"proofs/{function.path.replace('::', '/')}".rpartition("/")
    cycle = function.cycle.rpartition("::")
    for home in (f"{module}/{name}", f"{module}/+{name}", f"proofs/{cycle[0].replace('::', '/')}/+{cycle[2]}"):
        for file in OF_PROOF:
            if os.path.exists(f"{folder}/{home}/{file}"):
                os.remove(f"{folder}/{home}/{file}")
    os.makedirs(f"{folder}/{module}/{name}", exist_ok=True)
    with open(f"{folder}/{module}/{name}/Proof.antt", "w") as file:
        file.write(refused_proof(crate, function.path))
