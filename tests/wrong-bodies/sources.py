"""The items of sources in Rattle, as `rt fmt` lays them out: functions with their contracts, types, traits, constants, and
what stands in blocks `impl`. Comments and attributes are left out: they decide nothing."""
import os
import re
from dataclasses import dataclass, field

# A string, a character, or a comment with what separates it from the code before it.
COMMENT = re.compile(r"""r(#+)"(?:.|\n)*?"\1|r"[^"]*"|"(?:\\(?:.|\n)|[^"\\])*"|'(?:\\.|[^'\\\n])'|(\n?[ \t]*//[^\n]*)""")
ATTRIBUTE = re.compile(r"(?m)^[ \t]*#!?\[[^\n]*\]\n")
VISIBLE = r"(?:(pub(?:\([a-z]+\))?) )?"
FUNCTION = re.compile(rf"{VISIBLE}(?:final )?(?:const )?(?:extern \"C\" )?fn (\w+)")
CONSTANT = re.compile(rf"{VISIBLE}(?:const|static) ([A-Z_0-9]+):")
TYPE = re.compile(rf"{VISIBLE}(?:struct|enum|type) (\w+)")
TRAIT = re.compile(rf"{VISIBLE}trait (\w+)")
IMPL = re.compile(r"impl\b")
MODULE = re.compile(rf"{VISIBLE}mod (\w+) \{{")
# The type, and the trait if there is one, in the head of a block `impl`.
OF_TRAIT = re.compile(r"\b(\w+)(?:<[^{]*>)? for &?(?:'\w+ )?(?:mut )?(\w+)")
OF_TYPE = re.compile(r"impl(?:<.*?>)? (?:&'?\w* ?)?(\w+)")
OF_OWN_TRAIT = re.compile(r"\btrait (\w+)")
# What another crate doesn't see of a type that has a value: private fields, how the value comes from them, what they keep.
VALUE = re.compile(r"(?m)^ghost Value = ")
UNSEEN_FIELD = re.compile(r"(?m)^[ \t]+(?!pub |[ \t])[^\n]*\n")
UNSEEN_MEMBER = re.compile(r"ghost (?:use|view|invariant)\b")


def text_of(path):
    with open(path, encoding="utf-8") as it:
        return it.read()


def without_comments(text):
    """A source without its comments and attributes; those that stand alone go with their lines."""
    return ATTRIBUTE.sub("", COMMENT.sub(lambda it: "" if it[2] else it[0], f"\n{text}").lstrip("\n"))


def words_in(text):
    return set(re.findall(r"\w+", text))


def owner_of(head):
    """The type and the trait in the head of a block `impl`; of a trait's own block the trait alone."""
    if it := OF_OWN_TRAIT.search(head):
        return "", it[1]
    if it := OF_TRAIT.search(head):
        return it[2], it[1]
    found = OF_TYPE.match(head)
    return (found[1] if found else ""), ""


def chunks_of(text):
    """The items of a text, none of which is indented: each ends where its block does, or at a semicolon."""
    found, lines = [], []
    for line in text.split("\n"):
        if not lines and (not line.strip() or line[0].isspace()):
            continue
        lines.append(line)
        if ends_item(lines):
            found.append("\n".join(lines) + "\n")
            lines = []
    return found


def ends_item(lines):
    """Whether the last of these lines ends the item that begins with the first."""
    line = lines[-1]
    if len(lines) == 1:
        return line.endswith(";") or line.endswith("}") and line.count("{") == line.count("}")
    if line[:1] in ("}", "]", ")"):
        return line[0] == "}" or line.endswith(";")
    if line == "{}":
        return True
    return line.endswith(";") and not any(it.endswith("{") and not it.strip().startswith(("requires", "ensures")) for it in lines)


def inside_of(chunk):
    """What stands in a block, no longer indented."""
    lines = chunk.split("\n")
    start = next((at for at, it in enumerate(lines) if it.endswith("{")), len(lines))
    return "\n".join(it.removeprefix("    ") for it in lines[start + 1 :])


def head_of(chunk):
    """A function's signature and contract, a block's first lines."""
    lines = chunk.rstrip("\n").split("\n")
    end = next((at for at, it in enumerate(lines) if it in ("{", "{}")), None)
    if end is None:
        end = next((at for at, it in enumerate(lines) if it.endswith("{")), len(lines) - 1)
        return "\n".join(lines[: end + 1]) if end or not lines[0].endswith("}") else lines[0].partition("{")[0]
    return "\n".join(lines[:end])


@dataclass
class Item:
    """An item of a source: its name, its text, what callers see of it, and the type and the trait whose block it stands in."""

    kind: str
    name: str
    text: str
    head: str
    is_public: bool
    owner: str = ""
    trait: str = ""
    # The first lines of the block that it stands in, with what is ghost there, and its associated types.
    around: str = ""


@dataclass
class Source:
    """A source: its crate, its file, its text without comments, its items, and what it brings in."""

    crate: str
    path: str
    text: str
    items: list = field(default_factory=list)
    # Other names of what it brings in.
    other_names: dict = field(default_factory=dict)
    brought: set = field(default_factory=set)

    def __post_init__(self):
        self.add(self.text, True)
        lines = re.findall(r"(?m)^(?:pub(?:\([a-z]+\))? )?use [^;]*;", self.text)
        self.brought = words_in(" ".join(lines))
        self.other_names = {other: name for line in lines for name, other in re.findall(r"(\w+) as (\w+)", line)}

    def add(self, text, is_public):
        for chunk in chunks_of(text):
            if it := MODULE.match(chunk):
                self.add(inside_of(chunk), is_public and it[1] == "pub")
            elif it := TRAIT.match(chunk):
                self.put("trait", it, chunk, chunk, is_public)
                self.add_members(chunk, "", it[2], is_public and bool(it[1]))
            elif IMPL.match(chunk):
                self.add_block(chunk)
            elif it := FUNCTION.match(chunk):
                self.put("function", it, chunk, head_of(chunk), is_public)
            elif it := CONSTANT.match(chunk):
                self.put("constant", it, chunk, chunk, is_public)
            elif it := TYPE.match(chunk):
                self.put("type", it, chunk, chunk, is_public)

    def put(self, kind, found, chunk, head, is_public, **where):
        self.items.append(Item(kind, found[2], chunk, head, is_public and found[1] == "pub", **where))

    def add_block(self, chunk):
        """The items of a block `impl`; how contracts see a type is an item of its own."""
        owner, trait = owner_of(head_of(chunk))
        if trait == "Model":
            self.items.append(Item("model", owner, chunk, chunk, True, owner))
        self.add_members(chunk, owner, trait, True)

    def add_members(self, chunk, owner, trait, is_public):
        members = chunks_of(inside_of(chunk))
        around = "\n".join([head_of(chunk), *[it for it in members if not FUNCTION.match(it)]])
        for member in members:
            if it := FUNCTION.match(member):
                # A trait's methods are as visible as the trait.
                is_seen = is_public and bool(trait or it[1] == "pub")
                self.items.append(Item("method", it[2], member, head_of(member), is_seen, owner, trait, around))
            elif it := CONSTANT.match(member):
                self.items.append(Item("constant", it[2], member, member, is_public, owner, trait))


def seen_from_outside(items):
    """The public items of a source, as another crate sees them: of a type with a value neither private fields nor how the
    value comes from them."""
    models = {it.owner: it for it in items if it.kind == "model"}
    valued = {name for name, it in models.items() if any(VALUE.match(member) for member in chunks_of(inside_of(it.text)))}
    for it in items:
        if it.kind == "model" and it.owner in valued:
            members = [member for member in chunks_of(inside_of(it.text)) if not UNSEEN_MEMBER.match(member)]
            text = "\n".join([head_of(it.text), *members])
            yield Item("model", it.name, text, text, True, it.owner)
        elif it.kind == "type" and it.name in valued and it.is_public:
            text = UNSEEN_FIELD.sub("", it.text)
            yield Item("type", it.name, text, text, True)
        elif it.is_public:
            yield it


def sources_in(folder):
    """The sources of a crate, by their paths below it."""
    crate, found = os.path.basename(folder), {}
    for at, _, names in os.walk(f"{folder}/src"):
        for name in sorted(names):
            if name.endswith(".rt"):
                path = os.path.relpath(f"{at}/{name}", folder)
                found[path] = Source(crate, path, without_comments(text_of(f"{at}/{name}")))
    return found
