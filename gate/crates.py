"""The crates of a tree whose libraries rt has built, and how rt asks the prover about one of them."""
import os, shutil

kit = os.path.dirname(os.path.dirname(os.path.realpath(shutil.which("rt"))))


class Crates:
    """Those that crates.txt at the top of a tree lists, with the libraries that each uses."""

    def __init__(self, tree):
        self.tree = os.path.realpath(tree)
        self.below = {}
        for line in open(f"{self.tree}/crates.txt"):
            name, colon, libraries = line.partition("#")[0].partition(":")
            if colon:
                self.below[name.split()[0]] = libraries.split()

    def all_below(self, name):
        """The tree's crates that a crate stands on."""
        found = {it for it in self.below[name] if it in self.below}
        return found.union(*map(self.all_below, found))

    def words(self, command, name):
        """The words by which the prover checks or builds a crate in its folder, over the libraries that stand there, as rt has them."""
        words = [f"{kit}/bin/rattle", command, "--crate-name", name, f"src/{'main' if os.path.exists(f'{self.tree}/crates/{name}/src/main.rt') else 'lib'}.rt"]
        for library in ["std", *self.below[name]]:
            home = f"{self.tree}/crates/{library}/out/rlib" if library in self.below else f"{kit}/rlibs"
            words += ["--extern", f"{library}={home}/{library}.rlib"]
        for home in [f"{kit}/rlibs", *(f"{self.tree}/crates/{it}/out/rlib" for it in sorted(self.all_below(name)))]:
            words += ["-L", f"dependency={home}"]
        return [*words, "--antt-project", f"{kit}/rattle/logic/antt-project.json", "--logic-built", f"{kit}/logic_built", "--links", f"{name}="]
