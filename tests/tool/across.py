"""pdb_tool over files whose inlined calls have ids of other modules: one made by hand, and random ones, whose names follow
from what they were made of."""
import random
from struct import pack

from program import compare

FILES_MADE = 200
FUNCTIONS = {0x1000: b"one", 0x1001: b"two", 0x1002: b"three"}
TOP_BIT = 0x80000000


def padded(data, size):
    return data + bytes(-len(data) % size)


def container(streams, page=512):
    """A file of these streams, in pages of this size: page 1 has the numbers of the directory's pages, which stand behind it."""
    counts = [-(-len(it) // page) for it in streams]
    size = 4 * (1 + len(streams) + sum(counts))
    own = -(-size // page)
    assert 4 * own <= page
    first = 2 + own
    directory = pack("<I", len(streams)) + b"".join(pack("<I", len(it)) for it in streams) + pack(f"<{sum(counts)}I", *range(first, first + sum(counts)))
    head = b"Microsoft C/C++ MSF 7.00\r\n\x1aDS\0\0\0" + pack("<6I", page, 1, first + sum(counts), size, 0, 1)
    return b"".join(padded(it, page) for it in (head, pack(f"<{own}I", *range(2, first)), directory, *streams))


def record(kind, fields):
    body = pack("<H", kind) + fields
    body += bytes(-(len(body) + 2) % 4)
    return pack("<H", len(body)) + body


def subsection(kind, data):
    return pack("<II", kind, len(data)) + padded(data, 4)


def numbers(*them):
    return pack(f"<{len(them)}I", *them)


# An information stream without names of streams.
NAMELESS = numbers(20000404, 1, 2) + bytes(16)


def made_file(modules, code=(), machine=0x8664, information=NAMELESS, ids=b"", symbols=b"", names=b""):
    """A file of modules, each told by its name, its symbols and its lines. Its code is told by section, offset, size and the
    number of the module. Stream 4 has the ids, 5 the global symbols, 6 the names, and the modules begin at 7."""
    streams, entries = [b"", information, b"", b"", ids, symbols, names], b""
    for name, own, lines in modules:
        sizes = pack("<HIII", len(streams), len(own), 0, len(lines))
        entries += padded(bytes(34) + sizes + bytes(16) + name + b"\0" + name + b"\0", 4)
        streams.append(own + lines)
    pieces = b"".join(numbers(section, offset, size, 0x60000020, module, 0, 0) for section, offset, size, module in code)
    contributions = numbers(0xF12EBA2D) + pieces
    head = numbers(0xFFFFFFFF, 19990903, 1) + pack("<6H", 0xFFFF, 0, 0xFFFF, 0, 5, 0) + numbers(len(entries), len(contributions), 0, 0, 0, 0, 0, 0)
    streams[3] = head + pack("<HHI", 0, machine, 0) + entries + contributions
    return container(streams)


def ids_of(functions):
    """A stream of ids, which are functions of type 74 with these names, from 1000 on."""
    each = b"".join(pack("<H", len(it)) + it for it in (padded(pack("<HII", 0x1601, 0, 0x74) + name + b"\0\0\0", 4)[:-2] for name in functions))
    return numbers(20040203, 56, 0x1000, 0x1000 + len(functions), len(each)) + bytes(36) + each


class Made:
    """A file of a call with this id. A module has a name, imports as (name, numbers), and exports as pairs; the call is in
    the first one. A name that is a number is an offset at which nothing can be read."""

    def __init__(self, call, modules, has_strings=True):
        self.call, self.modules, self.has_strings = call, modules, has_strings

    def file(self):
        strings = b"\0a.c\0" + b"".join(name + b"\0" for name, _, _ in self.modules) + b"absent\0"
        modules = []
        for k, (name, imports, exports) in enumerate(self.modules):
            symbols = self.symbols() if k == 0 else b""
            parts = self.inlined() if k == 0 else b""
            if imports is not None:
                each = [numbers(strings.find(b"\0" + it + b"\0") + 1 if isinstance(it, bytes) else it, len(them), *them) for it, them in imports]
                parts += subsection(0xF7, b"".join(each))
            if exports is not None:
                parts += subsection(0xF8, b"".join(numbers(*it) for it in exports))
            modules.append((name, symbols, parts))
        names = b"\xfe\xef\xfe\xef" + numbers(1, len(strings)) + strings
        return made_file(modules, [(1, 0x100, 0x30, 0)], information=self.information(), ids=ids_of(FUNCTIONS.values()), names=names)

    def information(self):
        """Stream 6 has the name `/names`, or one that nobody looks for."""
        name = b"/names\0" if self.has_strings else b"/nomen\0"
        return numbers(20000404, 1, 2) + bytes(16) + numbers(len(name)) + name + numbers(1, 1, 1, 1, 0, 0, 6)

    def symbols(self):
        """The procedure `main` of 48 bytes at 1:100, and a call of two bytes at 1:108."""
        main = record(0x1110, numbers(0, 0x1000, 0, 0x30, 0, 0, 0, 0x100) + pack("<HB", 1, 0) + b"main\0")
        call = record(0x114D, numbers(4, 0x1000, self.call) + bytes([12, 2, 8]))
        return numbers(4) + main + call + record(0x114E, b"") + record(6, b"")

    def inlined(self):
        return subsection(0xF4, numbers(1, 0)) + subsection(0xF6, numbers(0, self.call, 0, 10))

    def name(self):
        """The name of the call, by what the file was made of."""
        number = self.call
        if number >= TOP_BIT:
            number = self.imported(number >> 20 & 0x7FF, number & 0xFFFFF)
        return FUNCTIONS.get(number, b"??")

    def imported(self, place, at):
        imports = self.modules[0][1] or []
        if place >= len(imports) or at >= len(imports[place][1]) or not self.has_strings:
            return None
        name, local = imports[place][0], imports[place][1][at]
        exporting = [exports or [] for its_name, _, exports in self.modules if its_name == name]
        return dict(reversed(exporting[0])).get(local) if exporting else None


def texts(what, made, room):
    with open(f"{room}/across.pdb", "wb") as it:
        it.write(made.file())
    name = made.name()
    compare(f"resolve, {what}", (0, name + b"\na.c:10:0\nmain\n??:0:0\n\n" if made.has_strings else name + b"\n??:10:0\nmain\n??:0:0\n\n", b""), "resolve", f"{room}/across.pdb", "1:108")
    typed = name if name == b"??" else name + b": int"
    compare(f"scopes, {what}", (0, b"procedure 0001:00000100 48 main\n  inlined " + typed + b"\n", b""), "scopes", f"{room}/across.pdb", "0")
    found = b"" if name == b"??" else b"inlined 0001:00000108 - 2 " + name + b"\n"
    compare(f"find, {what}", (0 if found else 1, found, b""), "find", f"{room}/across.pdb", "one", "two", "three", "??")
    if made.has_strings:
        compare(f"where, {what}", (0, b"inlined 0001:00000108 - 2 a.c:10:0 " + name + b"\n", b""), "where", f"{room}/across.pdb", "a.c")


def across_modules(room):
    """Calls of one module whose ids are those of another."""
    local = TOP_BIT + 0x22
    own = [(local, 0x1002)]
    caller = (b"a.obj", [(b"b.obj", [TOP_BIT + 0x11, local])], own)
    first, second = (b"b.obj", None, [(local, 0x1001), (local, 0x1000)]), (b"b.obj", None, [(local, 0x1000)])
    made = Made(TOP_BIT + 1, [caller, first, second])
    assert made.name() == b"two"
    texts("an id of another module", made, room)
    chance = random.Random(1)
    for k in range(FILES_MADE):
        texts(f"random ids {k}", random_file(chance), room)


def random_file(chance):
    def local():
        return TOP_BIT + chance.randrange(2)

    names = [b"b.obj"] * 5 + [b"c.obj"] * 2
    named = [(chance.choice(names + [b"absent", 0xFFFFFF, 0]), [local() for _ in range(chance.randrange(1, 4))]) for _ in range(chance.randrange(1, 4))]
    modules = [(b"a.obj", chance.choice([named] * 9 + [None]), [(local(), chance.randrange(0x1000, 0x1003))])]
    for _ in range(chance.randrange(1, 5)):
        exports = [(local(), chance.randrange(0x1000, 0x1004)) for _ in range(chance.randrange(1, 5))]
        modules.append((chance.choice(names + [b"b.ob"]), None, chance.choice([exports] * 9 + [None])))
    place = chance.randrange(len(named))
    number = chance.choice([TOP_BIT] * 9 + [0x1000]) + (chance.choice([place] * 9 + [len(named)]) << 20) + chance.randrange(len(named[place][1]) + (chance.randrange(4) == 0))
    return Made(number, modules, chance.randrange(10) > 0)
