"""`pdb_tool variables` over damaged files. Where the damage is in the symbols, the lines or the sizes of one module, the texts of
many of its places are compared with those of the other reading. Where it is anywhere, `variables` ends as `resolve` does,
and prints the same frames."""
import os
import random
import re
from struct import unpack_from

from program import FILES, REAL, ran, tell
from scopes import SITES, random_file
from streams import File, u16
from variables import compare_places
from variables_made import MADE, file_with
from variables_read import RANGE_AT, module_list, module_of, pieces_of_code

IN_A_MODULE = 600
RANDOM = 60
ANYWHERE = 350
PLACES = 60
ENDS = (0, 1, 2, 4, 8, 0x7F, 0x80, 0xFF, 0x7FFF, 0x8000, 0xFFFF, 0x7FFFFFFF, 0x80000000, 0xFFFFFFFF)
# Kinds that mean something to `variables`, and two that are passed over.
KINDS = (0x0006, 0x114E, 0x114F, 0x0007, 0x0402, 0x1012, 0x1110, 0x1103, 0x1104, 0x1132, 0x114D, 0x115D, 0x1102, 0x112A, 0x113E, 0x1153, *range(0x113F, 0x1146), 0x1150,
         0x1106, 0x1111, 0x110B, 0x100D, 0x110C, 0x1112, 0x1107, 0x1002, 0x113C)
VARIABLE = re.compile(rb"  (?:param|local|static|thread|constant) ")


class Damaged:
    """The bytes of a file of which one module is damaged: where its symbols, their records, its lines and its sizes stand."""

    def __init__(self, data, number):
        file = File(data)
        self.data = bytearray(data)
        self.number, entry, stream, sizes = next(it for it in module_list(file) if it[0] == number)
        self.symbols, _, self.lines = sizes
        self.stream, self.entry = places(file, stream), places(file, 3)[entry : entry + 64]
        part, self.records, at = file.stream(stream), [], 4
        while at < self.symbols:
            self.records.append(at)
            at += 2 + u16(part, at)

    def read(self, at, size):
        return int.from_bytes(bytes(self.data[it] for it in self.stream[at : at + size]), "little")

    def put(self, at, number, size, stream=None):
        for it, byte in zip((stream or self.stream)[at : at + size], (number % 256**size).to_bytes(size, "little")):
            self.data[it] = byte


def places(file, number):
    """Where in a file the bytes of a stream stand."""
    before = sum(-(-size // file.page) for size in file.sizes[:number] if size != 0xFFFFFFFF)
    pages = unpack_from(f"<{-(-file.sizes[number] // file.page)}I", file.directory, 4 + 4 * len(file.sizes) + 4 * before)
    return [at for page in pages for at in range(page * file.page, (page + 1) * file.page)][: file.sizes[number]]


def some_bytes(it, chance):
    for _ in range(chance.randint(1, 8)):
        it.put(chance.randrange(4, it.symbols), chance.choice((0, 1, 0xFF, chance.randrange(256))), 1)


def a_number(it, chance):
    """A number of a record, which becomes an end of its type, or a little more or less."""
    for _ in range(chance.randint(1, 3)):
        at, size = chance.choice(it.records) + 2 + 2 * chance.randrange(12), chance.choice((2, 4))
        it.put(at, chance.choice((*ENDS, *(it.read(at, size) + chance.randint(-16, 16) for _ in range(9)))), size)


def a_kind(it, chance):
    for _ in range(chance.randint(1, 3)):
        it.put(chance.choice(it.records) + 2, chance.choice(KINDS), 2)


def a_length(it, chance):
    """The length of a record: so the records behind it begin elsewhere, or a list of records ends."""
    at = chance.choice(it.records)
    it.put(at, chance.choice((*ENDS, *(it.read(at, 2) + 4 * chance.randint(-4, 4) for _ in range(20)))), 2)


def swapped_records(it, chance):
    for _ in range(chance.randint(1, 4)):
        k = chance.randrange(len(it.records) - 1)
        first, second = it.records[k : k + 2]
        end = second + 2 + it.read(second, 2)
        if end <= it.symbols:
            both = bytes(it.data[at] for at in it.stream[second:end] + it.stream[first:second])
            it.put(first, int.from_bytes(both, "little"), len(both))
            it.records[k + 1] = first + end - second


def sizes(it, chance):
    """The symbols are cut off, or go on into the lines, or the sizes are wrong."""
    at = chance.choice((36, 36, 36, 40, 44))
    size = it.lines if at == 44 else it.symbols
    it.put(at, chance.choice((*ENDS, *(size - 4 * chance.randrange(size // 4 + 2) for _ in range(20)), size + 4)), 4, it.entry)


def a_cut_record(it, chance):
    """A record is cut off, and what is left of it is passed over."""
    at = chance.choice(it.records)
    size = it.read(at, 2)
    if size >= 6:
        left = 2 + 4 * chance.randrange((size - 2) // 4)
        it.put(at, left, 2)
        it.put(at + 2 + left, size - left - 2, 2)
        it.put(at + 4 + left, 7, 2)


def a_site(it, chance):
    """The annotations of a site."""
    sites = [at for at in it.records if it.read(at + 2, 2) in SITES]
    for _ in range(chance.randint(1, 3) if sites else 0):
        at = chance.choice(sites)
        behind = range(at + 16, at + 2 + it.read(at, 2))
        if behind:
            it.put(chance.choice(behind), chance.choice((*range(15), 0x80, 0xC0, 0xE0, 0xFF, chance.randrange(256))), 1)


def inlined_functions(it, chance):
    """The functions that are inlined, or the front of a part of the lines."""
    fronts, listed, at = [], [], 0
    while at < it.lines:
        kind, size = it.read(it.symbols + at, 4), it.read(it.symbols + at + 4, 4)
        fronts += range(at, at + 8)
        listed += range(at + 8, at + 8 + size) if kind == 0xF6 and size < it.lines else ()
        at += 8 + size
    for _ in range(chance.randint(1, 2)):
        at = chance.choice(chance.choice((fronts, listed or fronts)))
        it.put(it.symbols + at, chance.choice((0, 1, 4, 0x80, 0xF4, 0xF6, 0xFF, chance.randrange(256))), 1)


DAMAGE = (some_bytes, a_number, a_number, a_kind, a_kind, a_length, a_cut_record, a_cut_record, swapped_records, sizes, a_site, a_site, a_site, inlined_functions)


def edges(module):
    """Where something of a module begins or ends, and the bytes before."""
    ends = [(it.code[0], at) for it in module.nodes if it.code for at in (it.code[1], it.code[1] + it.code[2])]
    for data in (it for node in module.nodes for it in node.ranges):
        at = RANGE_AT.get(u16(data, 0))
        if at and len(data) >= at + 8:
            offset, section, length = unpack_from("<IHH", data, at)
            gaps = (unpack_from("<HH", data, k) for k in range(at + 8, len(data) - 3, 4))
            ends += [(section, offset + by) for by in (0, length, *(by for start, size in gaps for by in (start, start + size)))]
    for procedure in module.procedures:
        ends += [(procedure.code[0], by) for site in module.sites for at, size in module.pieces_of(site, procedure) for by in (at, at + size)]
    return {(section, at - before) for section, at in ends for before in (0, 1)}


def places_of(file, module, number, chance):
    """Places of the code of a module, among them where something of it begins or ends."""
    pieces = [(section, offset, length) for section, offset, length, its in pieces_of_code(file) if its == number]
    everywhere = [(section, at) for section, offset, length in pieces for at in range(offset, offset + length)]
    near = sorted(edges(module) & set(everywhere))
    return [place for them in (near, everywhere) for place in chance.sample(them, min(PLACES, len(them)))]


def damaged_module(what, path, data, number, chance):
    it = Damaged(data, number)
    for _ in range(chance.choice((1, 1, 2))):
        chance.choice(DAMAGE)(it, chance)
    with open(path, "wb") as out:
        out.write(it.data)
    file = File(bytes(it.data))
    _, _, stream, its_sizes = next(them for them in module_list(file) if them[0] == number)
    module = module_of(file, stream, its_sizes)
    return compare_places(what, path, module, places_of(file, module, number, chance))[0]


def bases():
    """The bytes of the real and of the made files, each with the numbers of its modules that have code and symbols."""
    for name in REAL:
        with open(f"{FILES}/{name}.pdb", "rb") as it:
            yield name, it.read()
    for what, (symbols, _, *lines) in MADE.items():
        yield what, file_with(symbols, *lines)


def damaged_modules(room):
    files = []
    for what, data in bases():
        coded = {module for _, _, length, module in pieces_of_code(File(data)) if length}
        numbers = [k for k, _, stream, its in module_list(File(data)) if k in coded and stream != 0xFFFF and its[0] > 60 and its[2] > 0]
        files.append((what, data, numbers))
    found = 0
    for number in range(IN_A_MODULE):
        chance = random.Random(number)
        # Every second file is a real one.
        what, data, numbers = files[number // 2 % len(REAL)] if number % 2 else files[len(REAL) + number // 2 % len(MADE)]
        found += damaged_module(f"{what}, damaged by {number}", f"{room}/damaged.pdb", data, chance.choice(numbers), chance)
    tell(found > 10 * IN_A_MODULE, "places of damaged modules that have variables", found)


def random_records(room):
    """Random records in random scopes."""
    found, code = 0, [(1, 0x10, 0x30, 0), (1, 0x1000, 0x30, 0), (2, 0x1000, 0x10, 0)]
    for seed in range(RANDOM):
        path = f"{room}/random.pdb"
        data = random_file(random.Random(seed), code)
        with open(path, "wb") as out:
            out.write(data)
        _, _, stream, its_sizes = next(module_list(File(data)))
        wanted = [(section, at) for section, offset, length, _ in code for at in range(offset, offset + length)]
        found += compare_places(f"random records {seed}", path, module_of(File(data), stream, its_sizes), wanted)[0]
    tell(found > RANDOM, "places of random records that have variables", found)


def without_variables(text):
    return b"".join(it for it in text.splitlines(keepends=True) if not VARIABLE.match(it))


def damaged_anywhere(room, hostile):
    """Statuses, messages and frames as of `resolve`."""
    files = [hostile.real_file(name) for name in REAL]
    refused = 0
    for number in range(ANYWHERE):
        chance = random.Random(number + 90_000)
        file = files[number // len(hostile.KINDS) % len(files)]
        data = bytearray(file.bytes)
        hostile.KINDS[number % len(hostile.KINDS)](file, data, chance)
        path = f"{room}/{number}.pdb"
        with open(path, "wb") as it:
            it.write(data)
        words = [f"{chance.choice((1, 1, 1, 2)):x}:{chance.randrange(0x900):x}" for _ in range(PLACES)] + [f"{chance.randrange(0x1000, 0x2000):x}" for _ in range(4)]
        frames, given = (ran(command, path, *words, limit=20) for command in ("resolve", "variables"))
        well = frames[0] in (0, 4) and frames[::2] == given[::2] and b"memory" not in given[2] and without_variables(given[1]) == frames[1]
        tell(well and given[1].count(b"\n\n") == (0 if given[0] else len(words)), f"variables of damaged file {number}", (frames[::2], given[::2], given[1][-200:]))
        refused += given[0] == 4
        os.remove(path)
    tell(0 < refused < ANYWHERE // 2, "damaged files that can't be opened", refused)


def damaged_variables(room, hostile):
    damaged_modules(room)
    random_records(room)
    damaged_anywhere(room, hostile)
