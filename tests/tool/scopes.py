"""`pdb_tool scopes` beside a reading of its own: over real files, and over files of made records in made scopes. Names of
inlined functions are left to other tests; their types are not."""
import glob
import os
import random
from struct import error, pack, unpack_from

from across import made_file, numbers
from program import FILES, REAL, one_line, ran, tell
from streams import File, u16
from symbols import CORPUS, NAMES, lists
from typed import VARIABLE_AT, Types, behind_record

FILES_MADE = 60
PROCEDURES = {0x110F, 0x1110, 0x1146, 0x1147, 0x1155, 0x1156, 0x100A, 0x100B}
MANAGED = {0x112A, 0x112B, 0x101A, 0x101B}
SITES = {0x114D, 0x115D}
STARTS = PROCEDURES | MANAGED | SITES | {0x1102, 0x1103, 0x1104, 0x1132, 0x0206, 0x0207, 0x0208, 0x0104, 0x0105, 0x0106, 0x0107, 0x0108} | {
    0x1010, 0x1011, 0x1015, 0x1016, 0x1114, 0x1115, 0x1118, 0x1119, 0x1148, 0x1149, 0x114A, 0x114B}
ENDS = {0x0006, 0x114E, 0x114F}
RANGES = {*range(0x113F, 0x1146), 0x1150, 0x1157}
FRAMES = {"x86": ["vframe", "ebp", "ebx"], "x64": ["rsp", "rbp", "r13"], "arm": ["sp", "r7"], "arm64": ["sp", "fp"]}


def name_at(data, at):
    """The name at an offset: zero-ended, or behind a byte of its length."""
    if u16(data, 0) >= 0x1100:
        end = data.find(b"\0", at)
        if end < 0:
            raise error
        return data[at:end]
    length = data[at] if at < len(data) else -1
    if length < 0 or at + 1 + length > len(data):
        raise error
    return data[at + 1 : at + 1 + length]


def named(words, name):
    return words.encode() + (b" " + one_line(name) if name else b"")


def offset_in(offset, section):
    return f"{section:04x}:{offset % 2 ** 32:08x}"


def register(machine, number):
    return NAMES.get((machine, number), f"{number:04x}")


def memory(name, offset):
    return f"[{name}{offset:+d}]" if offset else f"[{name}]"


def code(word, data, at, form, order, name):
    """The line of code: its offset, section and size stand at `at`, in this order."""
    found = dict(zip(order, unpack_from("<" + form, data, at)))
    return named(f"{word} {offset_in(found['offset'], found['section'])} {found['len']}", name_at(data, name) if name else b"")


def line_of(data, machine):
    """The line of a record; None where it has none."""
    kind = u16(data, 0)
    if kind in PROCEDURES:
        return code("procedure", data, 14, "IIIIIH", ["len", "start", "end", "type", "offset", "section"], 37)
    if kind in MANAGED:
        return code("procedure", data, 14, "IIIIIHBH", ["len", "start", "end", "token", "offset", "section"], 39)
    if kind in (0x1103, 0x0207):
        return code("block", data, 10, "IIH", ["len", "offset", "section"], 20)
    if kind in (0x1102, 0x0206):
        return thunk(data)
    if kind == 0x1132:
        return code("separated", data, 10, "IIIIHH", ["len", "flags", "offset", "parent", "section"], 0)
    if kind in (0x110C, 0x110D, 0x111C, 0x111D, 0x1007, 0x1008, 0x1112, 0x1113, 0x100E, 0x100F):
        offset, section = unpack_from("<IH", data, 6)
        word = "thread" if kind in (0x1112, 0x1113, 0x100E, 0x100F) else "data"
        return named(f"{word} {offset_in(offset, section)}", name_at(data, 12))
    if kind in (0x1105, 0x0209):
        offset, section, _ = unpack_from("<IHB", data, 2)
        return named(f"label {offset_in(offset, section)}", name_at(data, 9))
    return variable(data, kind, machine)


def thunk(data):
    """That of a thunk, whose last part depends on what it does."""
    offset, section, length, does = unpack_from("<IHHB", data, 14)
    name = name_at(data, 23)
    at = 24 + len(name)
    if does == 1:
        unpack_from("<H", data, at)
        name_at(data, at + 2)
    if does == 2:
        unpack_from("<H", data, at)
    return named(f"thunk {offset_in(offset, section)} {length}", name)


def variable(data, kind, machine):
    """That of a variable."""
    if kind == 0x113E:
        unpack_from("<IH", data, 2)
        return named("local", name_at(data, 8))
    if kind == 0x1153:
        unpack_from("<IIH", data, 2)
        return named("local", name_at(data, 12))
    if kind in (0x1106, 0x1001):
        return named(f"register {register(machine, unpack_from('<IH', data, 2)[1])}", name_at(data, 8))
    if kind in (0x1111, 0x100D):
        offset, _, number = unpack_from("<iIH", data, 2)
        return named(f"relative {memory(register(machine, number), offset)}", name_at(data, 12))
    if kind in (0x110B, 0x1006):
        offset, _ = unpack_from("<iI", data, 2)
        return named(f"relative {memory({'x86': 'ebp', 'x64': 'rbp'}.get(machine, 'frame'), offset)}", name_at(data, 10))
    return None


def parameter_in(data):
    """Whether the variable with ranges that a record names is a parameter; None where it names none."""
    kind = u16(data, 0)
    at = {0x113E: 6, 0x1153: 10}.get(kind)
    return None if at is None else bool(u16(data, at) & 1)


def word_of(data, machine, base):
    """Where a record of a range says that the variable is, and the offset of the range in the record."""
    kind = u16(data, 0)
    if kind == 0x113F:
        return f"program:{unpack_from('<I', data, 2)[0]}", 6
    if kind == 0x1140:
        program, part = unpack_from("<II", data, 2)
        return f"+{part}:program:{program}", 10
    if kind == 0x1141:
        return register(machine, unpack_from("<HH", data, 2)[0]), 6
    if kind in (0x1142, 0x1144):
        names = FRAMES.get(machine, [])
        name = names[base - 1] if 0 < base <= len(names) else "frame"
        return memory(name, unpack_from("<i", data, 2)[0]), 6 if kind == 0x1142 else None
    if kind == 0x1143:
        number, _, part = unpack_from("<HHI", data, 2)
        return f"+{part & 0xFFF}:{register(machine, number)}", 10
    if kind == 0x1145:
        number, part, offset = unpack_from("<HHi", data, 2)
        return (f"+{part >> 4}:" if part & 1 else "") + memory(register(machine, number), offset), 10
    raise error


def range_lines(data, machine, base):
    """The lines of a record of a range: one for each longest run of bytes that no gap has."""
    word, at = word_of(data, machine, base)
    if at is None:
        return [word.encode()]
    start, section, length = unpack_from("<IHH", data, at)
    held = bytearray(b"\1" * length)
    for gap in range(at + 8, len(data) - 3, 4):
        first, size = unpack_from("<HH", data, gap)
        held[first : first + size] = bytes(len(held[first : first + size]))
    runs, at = [], 0
    for run in bytes(held).replace(b"\0\1", b"\0 \1").replace(b"\1\0", b"\1 \0").split(b" "):
        if run[:1] == b"\1":
            runs.append(f"{word} {offset_in(start + at, section)} {len(run)}".encode())
        at += len(run)
    return runs


def bases_of(records, k):
    """The encoded registers of the frame of the procedure that record k starts."""
    depth = 0
    for _, data in records[k + 1 :]:
        kind = u16(data, 0)
        if kind in ENDS:
            if depth == 0:
                break
            depth -= 1
        if kind == 0x1012 and depth == 0 and len(data) >= 28:
            flags = unpack_from("<I", data, 24)[0]
            return flags >> 14 & 3, flags >> 16 & 3
        depth += kind in STARTS
    return 0, 0


def text_of(records, machine, types):
    """The lines of a list of symbols; an inlined call has only its first word and its type."""
    lines, scopes, parameter = [], [], None
    for k, (_, data) in enumerate(records):
        kind = u16(data, 0)
        if kind in ENDS and scopes:
            scopes.pop()
        depth = len(scopes)
        try:
            if kind in RANGES:
                if parameter is not None:
                    base = (scopes[-1] if scopes else (0, 0))[parameter]
                    lines += [b"  " * min(depth + 1, 32) + it for it in range_lines(data, machine, base)]
                continue
            parameter = None
            line = b"inlined" if kind in SITES and len(data) >= (14 if kind == 0x114D else 18) else line_of(data, machine)
            if line is not None:
                lines.append(b"  " * min(depth, 32) + line + behind_record(types, data, VARIABLE_AT))
                parameter = parameter_in(data)
        except error:
            pass
        if kind in STARTS:
            own = kind in PROCEDURES or kind == 0x1132
            scopes.append((bases_of(records, k) if depth < 8 else (0, 0)) if own else scopes[-1] if scopes else (0, 0))
    return lines


def without_name(line, wanted):
    """The line of an inlined call without the name, where it ends as is wanted."""
    words, ends = line.lstrip(b" "), wanted.lstrip(b" ")
    if words.startswith(b"inlined") and ends.startswith(b"inlined") and line.endswith(ends[7:]):
        return line[: len(line) - len(words)] + ends
    return line


def compare_scopes(what, path):
    with open(path, "rb") as it:
        file = File(it.read())
    types = Types.of(file)
    for words, found, machine in lists(file):
        if not words:
            continue
        status, out, err = ran("scopes", path, *words)
        wanted = text_of(found, machine, types)
        lines = out.split(b"\n")[:-1]
        lines = [without_name(*it) for it in zip(lines, wanted)] + lines[len(wanted) :]
        other = next((it for it in zip(lines, wanted) if it[0] != it[1]), (len(lines), len(wanted)))
        tell((status, err) == (0, b"") and lines == wanted, f"scopes {words} of {what}", other)


def random_record(chance):
    """A record of a scope, a variable, a range or a frame."""
    number = chance.choice([0, 1, 4, 17, 22, 328, 335, 0xFFFFFFFF, chance.randrange(1 << 32)])
    place = pack("<IH", chance.choice([0x10, 0x1000, 0xFFFFFFF0]), chance.randrange(3))
    span = place + pack("<H", chance.choice([0, 1, 8, 40, 65535]))
    gaps = b"".join(pack("<HH", chance.randrange(48), chance.choice([0, 1, 3, 9, 65535])) for _ in range(chance.choice([0, 0, 1, 2, 5])))
    name = chance.choice([b"", b"a", b"b\nc"])
    small = pack("<H", chance.choice([0, 1, 17, 22, 335, 20, 65535]))
    made = {
        0x1110: numbers(0, 0, 0, 9, 0, 0, 0) + place + b"\0" + name + b"\0",
        0x1132: numbers(0, 0, 7, 0) + pack("<IIHH", 1, 2, 3, 4),
        0x1103: numbers(0, 0, 5) + place + name + b"\0",
        0x114D: numbers(0, 0, 0x1000),
        0x112A: numbers(0, 0, 0, 9, 0, 0, 0) + place + b"\0\0\0" + name + b"\0",
        0x0006: b"",
        0x114E: b"",
        0x1012: numbers(0, 0, 0, 0) + bytes(6) + pack("<I", chance.randrange(16) << 14),
        0x113E: numbers(0x74) + pack("<H", chance.randrange(4)) + name + b"\0",
        0x1153: numbers(0x74, 1) + pack("<H", chance.randrange(4)) + name + b"\0",
        0x1111: pack("<I", number) + numbers(0x74) + small + name + b"\0",
        0x110B: pack("<I", number) + numbers(0x74) + name + b"\0",
        0x1106: numbers(0x74) + small + name + b"\0",
        0x113F: numbers(chance.randrange(9)) + span + gaps,
        0x1140: numbers(chance.randrange(9), chance.randrange(9)) + span + gaps,
        0x1141: small + b"\0\0" + span + gaps,
        0x1142: pack("<I", number) + span + gaps,
        0x1143: small + b"\0\0" + numbers(number) + span + gaps,
        0x1144: pack("<I", number),
        0x1145: small + pack("<H", chance.randrange(64)) + pack("<I", number) + span + gaps,
        0x1150: b"\0\0\0\0",
        0x1101: numbers(1) + b"o\0",
    }
    usual = [0x113E, 0x1153, 0x113E, *range(0x113F, 0x1146), *range(0x1141, 0x1146), 0x0006]
    kind = chance.choice([*made, *usual, *usual])
    body = made[kind]
    if chance.randrange(20) == 0:
        body = body[: chance.randrange(len(body) + 1)]
    return pack("<H", kind) + body


def random_file(chance, code=()):
    """A file of one module of such records, which has this code; its header names a machine, or none."""
    made = [random_record(chance) for _ in range(600)]
    part = numbers(4) + b"".join(pack("<H", len(it)) + it for it in made)
    return made_file([(b"a", part, b"")], code, machine=chance.choice([0x14C, 0x8664, 0x1C4, 0xAA64, 0]))


def scopes(room):
    """Real files, those of the folder PDB_FILES, and random records."""
    further = sorted(glob.glob(f"{CORPUS}/*.pdb")) if CORPUS else []
    for path in [f"{FILES}/{name}.pdb" for name in REAL] + further:
        compare_scopes(os.path.basename(path), path)
    for seed in range(FILES_MADE):
        path = f"{room}/scopes.pdb"
        with open(path, "wb") as it:
            it.write(random_file(random.Random(seed)))
        compare_scopes("random records", path)
