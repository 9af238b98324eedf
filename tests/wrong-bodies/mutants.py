"""The mutants of a crate, in files crates/CRATE/wrong-bodies/MODULE.mutants.

The first line of a file is 'file: src/MODULE.rt'. Behind it stand blocks with an empty line between two: a line
'NAME: REASON', and pairs of lines 'old: TEXT' and 'new: TEXT'. Each old text stands once in that file; a later pair applies
to what the earlier ones made.
"""
import os
import re

from sources import owner_of, text_of

# The head of a function, and of what stands between functions.
FUNCTION = re.compile(r"(?m)^[ \t]*(?:pub(?:\([a-z]+\))? )?(?:final )?(?:const )?(?:extern \"C\" )?fn (\w+)")
# The head of what methods stand in.
IMPL = re.compile(r"(?m)^(?:impl|(?:pub(?:\([a-z]+\))? )?trait)\b[^{]*")
CONSTANT = re.compile(r"\s*(?:pub(?:\([a-z]+\))? )?(?:const|static) ([A-Z_0-9]+):")
TYPE = re.compile(r"(?m)^(?:pub(?:\([a-z]+\))? )?(?:const|static|struct|enum) (\w+)")
NAME = re.compile(r"(\w+): (\S.*)")


class Unusable(Exception):
    """Why a mutant can't be tried."""


def module_of(file):
    """The module of a file of src/, by its path below the crate; empty for the crate's root."""
    module = file[len("src/") : -len(".rt")].replace("/", "::")
    return "" if module in ("lib", "main") else module


def path_of(file, text, head):
    """What the prover is asked for where this function is turned: the function, or the whole module of a method."""
    is_method = any(it.start() < head.start() and not re.search(r"(?m)^}", text[it.start() : head.start()]) for it in IMPL.finditer(text))
    names = [module_of(file), *([] if is_method and module_of(file) else [head[1]])]
    return "::".join(it for it in names if it)


def type_at(text, place):
    """The type whose block `impl` a place stands in, or the trait whose; empty where it stands in none."""
    before = [it for it in IMPL.finditer(text) if it.start() < place]
    if not before or re.search(r"(?m)^}", text[before[-1].start() : place]):
        return ""
    owner, trait = owner_of(before[-1][0])
    return owner or trait


class Mutant:
    """A block of such a file: the texts that it puts in place of others, and the functions that it turns."""

    def __init__(self, file, lines):
        found = NAME.fullmatch(lines[0])
        if not found:
            raise Unusable(f"'{lines[0]}' isn't NAME: REASON")
        self.file, self.name, self.reason, self.pairs, old = file, found[1], found[2], [], None
        for line in lines[1:]:
            if line.startswith("old: ") and old is None:
                old = line[len("old: ") :]
            elif line.startswith("new:") and old is not None:
                self.pairs.append((old, line[len("new:") :].removeprefix(" ")))
                old = None
            else:
                raise Unusable(f"'{line}' is no line of a pair 'old:' and 'new:'")
        if old is not None or not self.pairs:
            raise Unusable("it has no pair of lines 'old:' and 'new:'")
        # Each function that is turned, with the type or trait in whose block it stands, and what the prover is asked for.
        self.turned, self.paths, self.constant = set(), set(), None

    def put_into(self, text, is_noted=False):
        """The text with this mutant in it; notes the functions that it turns."""
        for old, new in self.pairs:
            if text.count(old) != 1:
                raise Unusable(f"an old text is in {self.file} {text.count(old)} times, and not once")
            if is_noted:
                self.note(text, old)
            text = text.replace(old, new)
        return text

    def note(self, text, old):
        place = text.index(old) + len(old) - len(old.lstrip())
        line = text[text.rfind("\n", 0, place) + 1 : place + len(old)]
        heads = [it for it in FUNCTION.finditer(text) if it.start() <= place]
        if found := CONSTANT.match(line):
            self.constant = found[1]
        elif not heads:
            before = [it for it in TYPE.finditer(text) if it.start() <= place]
            self.constant = before[-1][1] if before else ""
        else:
            self.turned.add((heads[-1][1], type_at(text, heads[-1].start())))
            self.paths.add(path_of(self.file, text, heads[-1]))

    def judged(self):
        """What the judges are asked for: the functions, or the constant."""
        return frozenset(self.turned if self.constant is None else {(self.constant, "")})

    def functions(self):
        """The functions that it turns, as one writes them; or the constant."""
        return sorted("::".join(it for it in (owner, name) if it) for name, owner in self.judged())


def mutants_in(folder, source):
    """The mutants of a crate, by its folder; and of those that can't be tried the file, the name, and why. `source` gives the
    text of a file of src/."""
    found, unusable = [], []
    for name in sorted(os.listdir(folder)):
        blocks = text_of(f"{folder}/{name}").rstrip("\n").split("\n\n")
        head = re.fullmatch(r"file: (src/[\w/]+\.rt)", blocks[0])
        if not head or not name.endswith(".mutants"):
            unusable.append((name, "its first line isn't 'file: src/MODULE.rt', and behind it no empty line, or its name doesn't end in .mutants"))
            continue
        for block in blocks[1:]:
            lines = block.split("\n")
            try:
                mutant = Mutant(head[1], lines)
                mutant.put_into(source(head[1]), True)
                found.append(mutant)
            except (Unusable, OSError) as why:
                unusable.append((f"{name}: {lines[0].partition(':')[0]}", why))
    names = [it.name for it in found]
    unusable += [(it, "two mutants of the crate have this name") for it in sorted({it for it in names if names.count(it) > 1})]
    return found, unusable
