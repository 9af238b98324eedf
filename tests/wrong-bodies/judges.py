"""What decides whether a contract rejects a mutant, beside the mutant itself: the function that it changes, with its
contract; the contracts of what that calls; the types, constants and traits that it or these contracts name; and two levels
of definitions: those that any of this cites, and those that these cite. Where a mutant changes a constant, these of every
function of the crate that names it.

Nothing else counts: not the rest of the file, not what a callee's body does, not a definition three levels down (that of its
own crate has mutants and tests too), not the prover's version. Comments decide nothing. Nor do private fields of another
crate's type that contracts see as a value, nor how the value comes from them: outside of its crate the value alone is seen.
"""
import functools
import os
import re

from sources import seen_from_outside, sources_in, text_of, words_in

# How many levels of definitions count.
LEVELS = 2
# What a file brings from specs/: names in braces, or a module under another name.
NAMES = re.compile(r"\buse Rattle\.(\w+)\.specs\.(\w+)[\w.]*\.\{([^}]*)\}")
MODULE = re.compile(r"\buse Rattle\.(\w+)\.specs\.(\w+)[\w.]* as (\w+)")
# A module of another crate that a crate's specs/Lib.antt passes on.
PASSED_ON = re.compile(r"(?m)^pub use Rattle\.(\w+)\.specs\.(\w+)$")
# A signature, or the head of a type: with it a definition begins. An equation goes on with one.
SIGNATURE = re.compile(r"(?:(?:pub|abbrev|unfoldable|opaque) )*(?:(data|record) )?([^\s:(){},]+)\s*(?:\{[^}]*\}\s*)*:(?=\s)")
ANY = "*"
# What brings names into clauses; what they stand for counts, and not the line.
BRINGS = re.compile(r"(?m)^[ \t]*ghost use [^;]*;\n*")
# A name that is called: behind a dot, behind colons, or alone.
METHOD = re.compile(r"\.(\w+)(?=\(|::<)")
PATH = re.compile(r"(?<=::)\w+")


def words_of(text):
    return set(re.split(r"[\s(){};,.:\[\]]+", text))


class Definition:
    """A definition of a file of specs/: its text without comments, and where the words come from that its file has."""

    def __init__(self, origins):
        self.text, self.origins = "", origins

    def cited(self):
        return {self.origins[it] for it in words_of(self.text) if it in self.origins}


def brought_in(text):
    """Each word that lines `use` bring from specs/, with the crate, the module and the name of what it stands for."""
    for crate, module, names in NAMES.findall(text):
        for name in names.split(","):
            name, _, other = (it.strip() for it in name.partition(" as "))
            for word in {other or name, *(other or name).split("◌")} - {""}:
                yield word, (crate, module, name)
    for crate, module, other in MODULE.findall(text):
        yield other, (crate, module, ANY)


def definitions_in(folder):
    """The definitions of a crate, each by the crate, its module and its name; what a `data` lists has a name too. A crate of
    tests alone has none."""
    crate, folder = os.path.basename(folder), f"{folder}/specs"
    for file in sorted(os.listdir(folder)) if os.path.isdir(folder) else ():
        module, text = file.removesuffix(".antt"), text_of(f"{folder}/{file}")
        origins, found, name, is_data = dict(brought_in(text)), {}, None, False
        for line in (re.sub(r"(^|\s)--.*", "", it).rstrip() for it in text.splitlines()):
            if line and not line[0].isspace() and not re.match(r"(?:pub )?(?:use|mod)\b", line):
                first = line.split()[0]
                if head := SIGNATURE.match(line):
                    name, is_data = head[2], head[1] == "data"
                    found.setdefault(name, Definition(origins))
                elif first in found:
                    name, is_data = first, False
            if line and name:
                found[name].text += f"{line}\n"
                if is_data and (listed := re.match(r"\s+(\w+) :", line)):
                    found.setdefault(listed[1], found[name])
        for name in found:
            origins.update((word, (crate, module, name)) for word in {name, *name.split("◌")} - {""})
        yield from (((crate, module, name), it) for name, it in found.items())


def passed_on_by(folder):
    """The modules of other crates that a crate passes on, each by both."""
    path = f"{folder}/specs/Lib.antt"
    found = PASSED_ON.findall(text_of(path)) if os.path.isfile(path) else ()
    return {(os.path.basename(folder), module): crate for crate, module in found}


class Said:
    """A text that counts, and where the words come from that its file brings in from specs/."""

    def __init__(self, text, origins):
        self.text, self.origins = text, origins

    def cited(self):
        return {self.origins[it] for it in words_of(self.text) if it in self.origins}


class Judges:
    """The definitions and sources of a crate and of those below it, by which its mutants are judged."""

    def __init__(self, folders):
        self.own = os.path.basename(folders[-1])
        self.definitions = {key: it for folder in folders for key, it in definitions_in(folder)}
        self.passed_on = {key: it for folder in folders for key, it in passed_on_by(folder).items()}
        self.files, self.types, self.traits, self.constants, self.functions, self.blocks = {}, {}, {}, {}, {}, {}
        kinds = {"type": self.types, "model": self.types, "trait": self.traits, "constant": self.constants, "function": self.functions, "method": self.functions}
        for folder in folders:
            for path, source in sources_in(folder).items():
                source.origins = dict(brought_in(source.text))
                is_own = source.crate == self.own
                if is_own:
                    self.files[path] = source
                for it in source.items if is_own else seen_from_outside(source.items):
                    kinds[it.kind].setdefault(it.name, []).append((it, source))
                    if it.owner and it.around:
                        self.blocks.setdefault(it.owner, set()).add(it.around)

    def of(self, file, turned):
        """The texts that decide over mutants of these functions of a file, each a name and the type or trait in whose block
        it stands; all of them without comments, and in an order that doesn't depend on the files in which they stand."""
        said, found = self.said(file, turned)
        return sorted({*(BRINGS.sub("", it.text) for it in said), *(self.definitions[it].text for it in found)})

    def definitions_of(self, file, turned):
        """The definitions among what decides."""
        return self.said(file, turned)[1]

    @functools.lru_cache(maxsize=None)
    def said(self, file, turned):
        """The texts of sources that count, and the definitions."""
        own = self.turned_in(file, turned)
        called, named = self.called_by(own)
        level = self.known({it for said in [*own, *called] for it in said.cited()})
        found = level | self.known({it for said in named for it in said.cited()})
        for _ in range(LEVELS - 1):
            level = self.known({it for key in level for it in self.definitions[key].cited()}) - found
            found |= level
        return [*own, *called, *named], found

    def turned_in(self, file, turned):
        """The functions that are turned, each with the first lines of the block that it stands in; where a constant is, this
        one and all functions of the crate that name it."""
        source, found = self.files[file], []
        for name, owner in sorted(turned):
            items = [it for it in source.items if it.name == name and it.kind in ("function", "method") and owner in ("", it.owner, it.trait)]
            found += [Turned(it, source, self.promised(it)) for it in items]
            if not items:
                found += self.constant_in(source, name)
        return found or [Turned(None, source, "")]

    def constant_in(self, source, name):
        constants = [it for it in source.items if it.kind in ("constant", "type") and it.name == name]
        users = [(it, other) for other in self.files.values() for it in other.items if it.kind in ("function", "method") and name in words_in(it.text)]
        return [Turned(it, source, "") for it in constants] + [Turned(it, other, self.promised(it)) for it, other in users]

    def promised(self, item):
        """What the trait says of a method, whose block it stands in."""
        traits = self.traits.get(item.trait, ()) if item.owner else ()
        heads = [it.head for _, source in traits for it in source.items if it.kind == "method" and it.trait == item.trait and not it.owner and it.name == item.name]
        return "\n".join(heads)

    def called_by(self, own):
        """The contracts of what these functions call; and the types, constants and traits that they or those name."""
        # The names of types and traits whose values may come in; a value of any other type has no way to.
        known, called, new = set(), {}, set()
        for it in own:
            new |= it.words() | {word for word in it.source.brought if word in self.traits}
        while new := new - known:
            known |= new
            new = {word for name in new for it, _ in [*self.types.get(name, ()), *self.traits.get(name, ())] for word in self.reached_from(it)}
            new |= {word for name in known & self.types.keys() for block in self.blocks.get(name, ()) for line in re.findall(r"(?m)^type [^;]*;", block) for word in words_in(line)}
            for turned in own:
                for key, item in turned.calls(self, known):
                    called[key] = item
            new |= {word for item, _ in called.values() for word in words_in(item.head)}
        heads = [Said(item.head, source.origins) for _, (item, source) in sorted(called.items())]
        words = set().union(*(it.words() for it in own), *(words_in(it.text) for it in heads))
        named = [(it, source) for kind in (self.types, self.constants, self.traits) for name in sorted(words & kind.keys()) for it, source in kind[name]]
        return heads, [Said(it.text, source.origins) for it, source in named]

    @staticmethod
    def reached_from(item):
        """The words of a type's fields, and of what a trait is built on."""
        return words_in(item.text.partition("{")[0] if item.kind == "trait" else item.text) if item.kind != "model" else ()

    def known(self, keys):
        """Those of these names that are definitions, each in the crate that has it; of a module under another name, all of
        it."""
        keys = {(self.home_of(crate, module), module, name) for crate, module, name in keys}
        modules = {(crate, module) for crate, module, name in keys if name == ANY}
        return keys & self.definitions.keys() | {it for it in self.definitions if it[:2] in modules}

    def home_of(self, crate, module):
        """The crate that has a module which this one has or passes on."""
        while (crate, module) in self.passed_on:
            crate = self.passed_on[crate, module]
        return crate


class Turned(Said):
    """A function that is turned, or a constant; without one it is the whole file."""

    def __init__(self, item, source, promised):
        self.item, self.source = item, source
        super().__init__("\n".join([item.around, promised, item.text]) if item else source.text, source.origins)

    def words(self):
        words = words_in(self.text)
        return words | {self.source.other_names[it] for it in words & self.source.other_names.keys()}

    def calls(self, judges, known):
        """What it calls, among functions that it can name, and methods of types and traits that are known."""
        text, words = self.item.text if self.item else self.source.text, self.words()
        behind = {*METHOD.findall(text), *PATH.findall(text)}
        in_scope = self.source.brought | set(PATH.findall(text))
        for name in words & judges.functions.keys():
            for item, source in judges.functions[name]:
                if item is self.item:
                    continue
                if item.kind == "method":
                    is_called = name in behind and (item.owner or item.trait) in known
                else:
                    is_called = name in in_scope or source is self.source
                if is_called:
                    yield (source.crate, source.path, item.owner, item.trait, name), (item, source)
