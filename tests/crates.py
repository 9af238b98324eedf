"""The repository's crates, and the words by which the kit's prover is called over the libraries below one of them, as they
were built."""
import os
import subprocess

TOP = os.path.realpath(f"{os.path.dirname(os.path.realpath(__file__))}/..")
KIT = os.path.dirname(subprocess.run(["rt", "doc"], capture_output=True, text=True, check=True).stdout.strip())
LOGIC = ["--antt-project", f"{KIT}/rattle/logic/antt-project.json", "--logic-built", f"{KIT}/logic_built"]


class Crate:
    """A crate that crates.txt names: its kind, where that is no program and no library for other crates; the libraries
    that it lists, of the repository and of the kit; and all of the repository's below it, lowest first."""

    def __init__(self, name, kind, listed, known):
        self.name, self.folder, self.kind = name, f"{TOP}/crates/{name}", kind
        self.main = "main" if os.path.isfile(f"{self.folder}/src/main.rt") else "lib"
        self.deps = [it for it in listed if it in known]
        self.of_kit = ["std", *[it for it in listed if it not in known]]
        found = {it for dep in self.deps for it in (dep, *known[dep].below)}
        self.below = [it for it in known if it in found]

    def words(self):
        """What every call of the prover names: the crate's root, its libraries, and the logic."""
        words = ["--crate-name", self.name, f"src/{self.main}.rt", *LOGIC, "--links", f"{self.name}="]
        for it in self.of_kit:
            words += ["--extern", f"{it}={KIT}/rlibs/{it}.rlib"]
        words += ["-L", f"dependency={KIT}/rlibs"]
        for it in self.deps:
            words += ["--extern", f"{it}={library_of(it)}"]
        for it in self.below:
            words += ["-L", f"dependency={os.path.dirname(library_of(it))}"]
        return words


def library_of(name):
    """Where a crate's library is built."""
    return f"{TOP}/crates/{name}/out/rlib/{name}.rlib"


def all_crates():
    """Each crate by its name, behind those below it."""
    with open(f"{TOP}/crates.txt", encoding="utf-8") as lines:
        rows = [it.partition("#")[0].partition(":") for it in lines]
    rows = {head.split()[0]: (head.split()[1:], deps.split()) for head, _, deps in rows if head.strip()}
    found = {}
    while len(found) < len(rows):
        for name, (kind, deps) in rows.items():
            if name not in found and all(it in found for it in deps if it in rows):
                found[name] = Crate(name, "".join(kind), deps, found)
    return found
