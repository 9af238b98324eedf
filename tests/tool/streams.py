"""`pdb_tool streams` beside a reading of its own: of the container's directory, and of what says what a stream is."""
import random
import struct

from program import FILES, REAL, compare, one_line, ran, tell, wrong

SAMPLE = b"""0 0 old directory
1 67 information
2 - types
3 184 debug information
4 - ids
5 92 global symbols
6 260 module 0
7 17 name /names
8 40 section headers
"""
USAGE = b"usage: pdb_tool streams [--symbols=DIR].. [--json] FILE\n"
ABSENT = 0xFFFFFFFF
HEADER = ((12, "index of global symbols"), (16, "index of publics"), (20, "global symbols"))
EXTRA = "fpo,exception,fixup,omap to src,omap from src,section headers,token rid map,xdata,pdata,framedata,original section headers".split(",")
DAMAGED = 400


def u16(b, at):
    return struct.unpack_from("<H", b, at)[0]


def u32(b, at):
    return struct.unpack_from("<I", b, at)[0]


class File:
    """The container of a file: its page size and its directory."""

    def __init__(self, data):
        self.data, self.page, self.used = data, u32(data, 32), u32(data, 40)
        size = u32(data, 44)
        pages = -(-size // self.page)
        listed = self.paged([u32(data, 52 + 4 * k) for k in range(-(-4 * pages // self.page))], 4 * pages)
        self.directory = self.paged([u32(listed, 4 * k) for k in range(pages)], size)
        self.sizes = [u32(self.directory, 4 + 4 * k) for k in range(u32(self.directory, 0))]

    def paged(self, pages, size):
        if not all(0 < page < self.used for page in pages):
            raise ValueError
        found = b"".join(self.data[page * self.page : (page + 1) * self.page].ljust(self.page, b"\0") for page in pages)
        if any(page * self.page + min(self.page, size - k * self.page) > len(self.data) for k, page in enumerate(pages)):
            raise ValueError
        return found[:size]

    def stream(self, n):
        """Its bytes; ValueError where there is none, or it can't be read."""
        if n >= len(self.sizes) or self.sizes[n] == ABSENT:
            raise ValueError
        before = sum(-(-size // self.page) for size in self.sizes[:n] if size != ABSENT)
        count = -(-self.sizes[n] // self.page)
        at = 4 + 4 * len(self.sizes) + 4 * before
        if at + 4 * count > len(self.directory) and count:
            raise ValueError
        return self.paged([u32(self.directory, at + 4 * k) for k in range(count)], self.sizes[n])


def names(b):
    """The names of streams, with their numbers."""
    if len(b) < 32:
        raise ValueError
    size = u32(b, 28)
    part, rest = b[32 : 32 + size], b[32 + size :]
    if len(part) < size:
        raise ValueError
    count, at = u32(rest, 0), 8
    for _ in range(2):
        at += 4 + 4 * u32(rest, at)
    if at + 8 * count > len(rest):
        raise ValueError
    found = []
    for k in range(count):
        start = u32(rest, at + 8 * k)
        if start > len(part):
            raise ValueError
        found.append((part[start : part.index(b"\0", start)], u16(rest, at + 8 * k + 4)))
    return found


def modules(b):
    """The numbers of the streams of modules, in order, up to the fault of their list."""
    part, at, found = b[64 : 64 + u32(b, 24)], 0, []
    if len(part) < u32(b, 24):
        return found
    while at < len(part):
        end = at + 64
        for _ in range(2):
            end = part.find(b"\0", end) + 1 if end <= len(part) else 0
            if end == 0:
                return found
        end = at + -(-(end - at) // 4) * 4
        found.append(u16(part, at + 34))
        at = end
    return found


def extra(b):
    """The further streams of the DBI stream."""
    at = 64 + sum(u32(b, k) for k in (24, 28, 32, 36, 40, 52))
    size = u32(b, 48)
    if at + size > len(b) or size % 2:
        raise ValueError
    return [(u16(b, at + 2 * k), text) for k, text in enumerate(EXTRA) if 2 * k + 2 <= size]


def tried(read):
    """What was read; nothing where it can't be."""
    try:
        return read()
    except (ValueError, struct.error):
        return []


def roles(file):
    """Each stream that is something, and what it is, in the order in which these are printed."""
    found = list(enumerate(["old directory", "information", "types", "debug information", "ids"]))
    found += [(n, b"name" + (b" " + one_line(name) if name else b"")) for name, n in tried(lambda: names(file.stream(1)))]
    debug = tried(lambda: file.stream(3))
    if len(debug) >= 64 and u32(debug, 0) == ABSENT:
        found += [(u16(debug, at), text) for at, text in HEADER]
        found += tried(lambda: extra(debug))
        found += [(n, f"module {k}") for k, n in enumerate(modules(debug))]
    for n, what in (2, "types"), (4, "ids"):
        items = tried(lambda n=n: file.stream(n))
        if len(items) >= 56:
            found += [(u16(items, 20), f"hashes of {what}"), (u16(items, 22), f"further hashes of {what}")]
    return [(n, what if isinstance(what, bytes) else what.encode()) for n, what in found if n != 0xFFFF]


def text_of(data):
    file = File(data)
    by_stream = {}
    for n, what in roles(file):
        by_stream.setdefault(n, []).append(what)
    lines = []
    for n, size in enumerate(file.sizes):
        what = b", ".join(by_stream.get(n, [b"-"]))
        lines.append(f"{n} {'-' if size == ABSENT else size} ".encode() + what + b"\n")
    return b"".join(lines)


def streams(sample, room):
    compare("streams of the sample", (0, SAMPLE, b""), "streams", sample)
    compare("streams of two files", wrong(b"streams takes one FILE, and not x", USAGE), "streams", sample, "x")
    for name in REAL:
        with open(f"{FILES}/{name}.pdb", "rb") as it:
            compare(f"streams of {name}", (0, text_of(it.read()), b""), "streams", f"{FILES}/{name}.pdb")
    damaged_files(sample, room)


def damaged_files(sample, room):
    """Files of which some bytes are changed: each has the text of the other reading, or can't be opened."""
    chance = random.Random(7)
    with open(sample, "rb") as it:
        whole = it.read()
    for n in range(DAMAGED):
        data = bytearray(whole)
        for _ in range(chance.choice([1, 1, 2, 8])):
            data[chance.randrange(len(data))] = chance.choice([0, 1, 2, 0xFF, chance.randrange(256)])
        file = f"{room}/streams.pdb"
        with open(file, "wb") as it:
            it.write(data)
        said = ran("streams", file)
        if said[0] == 4:
            continue
        try:
            wanted = text_of(bytes(data))
        except (ValueError, struct.error, MemoryError):
            tell(said[1].startswith(b"error "), f"streams of damaged file {n}", said)
            continue
        tell((said[0], said[1]) == (0, wanted), f"streams of damaged file {n}", (said, wanted))
