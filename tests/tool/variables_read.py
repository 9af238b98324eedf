"""Another reading of the variables in scope at a place, also of damaged files: a tree of the module's symbols is walked from
the function down. What can't be read is as if it weren't there."""
from itertools import takewhile
from struct import error, unpack_from

from scopes import ENDS, FRAMES, MANAGED, PROCEDURES, RANGES, SITES, STARTS, memory, name_at, offset_in, register, thunk
from streams import u16, u32
from symbols import IMAGES, machine_of, processor
from typed import Bad, number_at

CODE = 0x20
BLOCKS = {0x1103, 0x0207}
THUNKS = {0x1102, 0x0206}
SEPARATED = 0x1132
DATA = {0x110C, 0x110D, 0x111C, 0x111D, 0x1007, 0x1008, 0x1020, 0x1021}
THREADS = {0x1112, 0x1113, 0x100E, 0x100F}
CONSTANTS = {0x1107, 0x112D, 0x1002}
# Where the type, the flags and the name of a variable with ranges stand, and where a record of a range has its range.
LOCALS = {0x113E: (2, 6, 8), 0x1153: (2, 10, 12)}
RANGE_AT = {0x113F: 6, 0x1140: 10, 0x1141: 6, 0x1142: 6, 0x1143: 10, 0x1144: None, 0x1145: 10}


class Node:
    """A record, what stands below it, and of a variable the records of ranges behind it."""

    def __init__(self, at, data, ranges):
        self.at, self.data, self.kind, self.ranges, self.below = at, data, u16(data, 0), ranges, []
        self.code = code_of(self.kind, data)


def code_of(kind, data):
    """Section, offset and length of a procedure, block, thunk or separated code; None of another record."""
    try:
        if kind in PROCEDURES | MANAGED:
            length, offset, section = unpack_from("<I", data, 14) + unpack_from("<IH", data, 30)
            name_at(data, 37 if kind in PROCEDURES else 39)
        elif kind in BLOCKS:
            length, offset, section = unpack_from("<IIH", data, 10)
            name_at(data, 20)
        elif kind in THUNKS:
            offset, section, length = unpack_from("<IHH", data, 14)
            thunk(data)
        elif kind == SEPARATED:
            length, _, offset, _, section, _ = unpack_from("<IIIIHH", data, 10)
        else:
            return None
        return section, offset, length
    except error:
        return None


def has(code, place):
    return code is not None and code[0] == place[0] and code[1] <= place[1] < code[1] + code[2]


def is_with(node):
    """A scope in which members of a variable are named alone."""
    try:
        return node.kind in (0x1104, 0x0208) and name_at(node.data, 20) is not None
    except error:
        return False


def is_site(node):
    """A site of an inlined function; one whose record is cut off is none."""
    return node.kind in SITES and len(node.data) >= (14 if node.kind == 0x114D else 18)


def annotations(data):
    """The annotations of a site: their opcodes with their operands."""
    at = 14 if u16(data, 0) == 0x114D else 18

    def number():
        nonlocal at
        size, bits = (1, 7) if data[at] < 0x80 else (2, 14) if data[at] < 0xC0 else (4, 29)
        if data[at] >= 0xE0 or at + size > len(data):
            raise IndexError
        found = int.from_bytes(data[at : at + size], "big") % (1 << bits)
        at += size
        return found

    while at < len(data):
        opcode = number()
        if opcode == 0:
            return
        if opcode > 13:
            raise IndexError
        yield opcode, [number() for _ in range(2 if opcode == 12 else 1)]


def covered(site, begin):
    """The pieces of code of a site in a function that begins there, as offsets and lengths. Where the annotations can't be
    read on, the last piece is none."""
    offset, base, kind, pieces = begin, 0, 1, []
    try:
        for opcode, operands in annotations(site.data):
            if opcode == 1:
                offset = operands[0]
            if opcode == 2:
                base = operands[0]
            if opcode == 8 and operands[0] < 2:
                kind = operands[0]
            if opcode in (3, 4, 11, 12):
                offset += operands[-1] & 15 if opcode == 11 else operands[-1]
            at = (offset + base) % 2**32
            if opcode in (3, 4, 11, 12) and pieces and pieces[-1][1:] == [None, kind]:
                pieces[-1][1] = operands[0] if opcode == 4 else (at - pieces[-1][0]) % 2**32
            if opcode in (3, 11, 12):
                pieces.append([at, operands[0] if opcode == 12 else None, kind])
    except IndexError:
        pieces = pieces[:-1]
    return [(at, size) for at, size, _ in pieces if size is not None]


def storage(data, machine, base):
    """The offset in the variable, and where a record of a range says that this part of it is."""
    kind = u16(data, 0)
    if kind == 0x113F:
        return None, f"program:{u32(data, 2)}"
    if kind == 0x1140:
        return u32(data, 6), f"program:{u32(data, 2)}"
    if kind == 0x1141:
        return None, register(machine, u16(data, 2))
    if kind in (0x1142, 0x1144):
        names = FRAMES.get(machine, [])
        frame = names[base - 1] if 0 < base <= len(names) else "frame"
        return None, memory(frame, unpack_from("<i", data, 2)[0])
    if kind == 0x1143:
        return u32(data, 6) & 0xFFF, register(machine, u16(data, 2))
    number, part, offset = unpack_from("<HHi", data, 2)
    return part >> 4 if part & 1 else None, memory(register(machine, number), offset)


def held(data, place):
    """The range of a record has the place, and no gap has it."""
    at = RANGE_AT.get(u16(data, 0), len(data))
    if at is None:
        return len(data) >= 6
    offset, section, length = unpack_from("<IHH", data, at)
    byte = place[1] - offset
    if section != place[0] or not 0 <= byte < length:
        return False
    gaps = (unpack_from("<HH", data, k) for k in range(at + 8, len(data) - 3, 4))
    return not any(start <= byte < start + size for start, size in gaps)


def where(node, machine, base, place):
    """Where a variable with ranges is at a place."""
    parts = []
    for data in node.ranges:
        try:
            if not held(data, place):
                continue
        except error:
            continue
        part, text = storage(data, machine, base)
        if part is None:
            return text
        parts.append(f"+{part}:{text}")
    return ",".join(parts) or "-"


def bases_of(scope):
    """The encoded registers of locals and parameters, of the first frame's record directly in a scope."""
    for it in scope.below:
        if it.kind == 0x1012 and len(it.data) >= 28:
            flags = u32(it.data, 24)
            return flags >> 14 & 3, flags >> 16 & 3
    return 0, 0


def known(node):
    """The type and the name of a variable with ranges; None of another record."""
    if node.kind not in LOCALS:
        return None
    type_at, _, name = LOCALS[node.kind]
    try:
        return u32(node.data, type_at), name_at(node.data, name)
    except error:
        return None


def told_in(scope):
    """The types and names of the variables with ranges in a scope, outside its inlined sites."""
    found = set()
    for it in scope.below:
        if not is_site(it):
            found |= {known(it)} | told_in(it)
    return found - {None}


def variable(node, machine, bases, place, told):
    """The words and the name of a variable; None of another record, or where it is told twice."""
    kind, data = node.kind, node.data
    try:
        if kind in LOCALS:
            _, flags, name = LOCALS[kind]
            parameter = u16(data, flags) & 1
            word = "param" if parameter else "local" if kind == 0x113E else "static"
            return word, where(node, machine, bases[parameter], place), name_at(data, name)
        if kind in DATA | THREADS:
            offset, section = unpack_from("<IH", data, 6)
            return "thread" if kind in THREADS else "static", offset_in(offset, section), name_at(data, 12)
        if kind in CONSTANTS:
            value, at = number_at(data, 6)
            return "constant", str(value), name_at(data, at)
        if kind in (0x1106, 0x1001):
            of_type, number = unpack_from("<IH", data, 2)
            text, name = register(machine, number), name_at(data, 8)
        elif kind in (0x1111, 0x100D):
            offset, of_type, number = unpack_from("<iIH", data, 2)
            text, name = memory(register(machine, number), offset), name_at(data, 12)
        elif kind in (0x110B, 0x1006):
            offset, of_type = unpack_from("<iI", data, 2)
            text, name = memory({"x86": "ebp", "x64": "rbp"}.get(machine, "frame"), offset), name_at(data, 10)
        else:
            return None
        return None if (of_type, name) in told else ("local", text, name)
    except (error, Bad):
        return None


class Module:
    """The symbols of a module as a tree, its machine, and the ids of its inlined functions."""

    def __init__(self, records, machine, listed):
        self.machine, self.told, self.pieces = machine, {}, {}
        self.nodes, around = [], [Node(0, b"\0\0", [])]
        for k, (at, data) in enumerate(records):
            kind = u16(data, 0)
            if kind in ENDS:
                if len(around) > 1:
                    around.pop()
                continue
            behind = (it for _, it in records[k + 1 :]) if kind in LOCALS else ()
            node = Node(at, data, list(takewhile(lambda it: u16(it, 0) in RANGES, behind)))
            around[-1].below.append(node)
            self.nodes.append(node)
            if kind in STARTS:
                around.append(node)
        functions = PROCEDURES, THUNKS | {SEPARATED}, MANAGED
        self.procedures, self.others, self.managed = ([it for it in self.nodes if it.kind in kinds and it.code] for kinds in functions)
        self.sites = [it for it in self.nodes if is_site(it) and u32(it.data, 10) in listed]

    def calls(self, procedure, place):
        """The indices of the sites with an inlined call at the place, in their order."""
        found, end = [], u32(procedure.data, 6)
        for it in self.sites:
            if procedure.at < it.at < end:
                if any(at <= place[1] < at + size for at, size in self.pieces_of(it, procedure)):
                    found.append(it.at)
        return found

    def pieces_of(self, site, procedure):
        key = site.at, procedure.at
        if key not in self.pieces:
            self.pieces[key] = covered(site, procedure.code[1])
        return self.pieces[key]

    def variables_at(self, place):
        """The number of inlined calls at a place, and the variables there: the number of the inlined call or None, the words and
        the name of each."""
        firsts = [next((it for it in them if has(it.code, place)), None) for them in (self.procedures, self.others, self.managed)]
        procedure, function = firsts[0], firsts[0] or firsts[1] or firsts[2]
        if function is None:
            return 0, []
        if function.at not in self.told:
            self.told[function.at] = told_in(function)
        calls = self.calls(procedure, place) if procedure else []
        found = []
        self.walk(function, None, bases_of(function), 0, place, (calls, self.told[function.at], found))
        return len(calls), found

    def walk(self, node, owner, bases, depth, place, kept):
        """Goes through what stands below a node of this owner, in this frame and in so many scopes."""
        calls, told, found = kept
        for it in node.below:
            if it.kind not in STARTS:
                said = variable(it, self.machine, bases, place, told)
                if said is not None:
                    found.append((owner, *said))
            elif it.at in calls if it.kind in SITES else is_with(it) or it.kind in BLOCKS | {SEPARATED} and has(it.code, place):
                own = bases_of(it) if it.kind == SEPARATED and depth < 8 else bases
                self.walk(it, calls.index(it.at) if it.kind in SITES else owner, own, depth + 1, place, kept)


def symbols_of(stream, size):
    """The symbols of a module's stream, up to the first that can't be read: the index and the bytes of each."""
    part, at, found = stream[:size], 4, []
    if size > len(stream) or len(part) < 4 or u32(part, 0) != 4:
        return found
    while at + 4 <= len(part):
        length = u16(part, at)
        if length < 2 or at + 2 + length > len(part):
            break
        if u16(part, at + 2) not in (0x0402, 0x0007):
            found.append((at, part[at + 2 : at + 2 + length]))
        at += 2 + length
    return found


def listed_in(lines):
    """The ids of inlined functions of lines data."""
    at = 0
    while at + 8 <= len(lines):
        kind, size = unpack_from("<II", lines, at)
        part = lines[at + 8 : at + 8 + size]
        if len(part) < size or not (0xF1 <= kind <= 0xFD or kind >> 31):
            break
        if kind == 0xF6:
            return ids_in(part)
        at += 8 + size
    return set()


def ids_in(part):
    at, found = 4, set()
    while at + 12 <= len(part):
        behind = at + 12
        if u32(part, 0) == 1:
            behind += 4 + 4 * u32(part, behind) if behind + 4 <= len(part) else 4
        if behind > len(part):
            break
        found.add(u32(part, at))
        at = behind
    return found


def module_list(file):
    """The number, the name's offset, the stream and the sizes of each module of a file."""
    debug = file.stream(3)
    part, at, k = debug[64 : 64 + u32(debug, 24)], 0, 0
    while at < len(part):
        end = part.index(b"\0", part.index(b"\0", at + 64) + 1) + 1
        yield k, 64 + at, u16(part, at + 34), unpack_from("<III", part, at + 36)
        at, k = end + -end % 4, k + 1


def module_of(file, stream, sizes):
    """A module as its stream and the sizes in the list of modules tell it."""
    symbols, old, lines = sizes
    data = file.stream(stream)
    records = symbols_of(data, symbols)
    machine = next(filter(None, (machine_of(processor(it)) for _, it in records)), IMAGES.get(u16(file.stream(3), 58)))
    is_whole = not old and symbols + lines <= len(data)
    return Module(records, machine, listed_in(data[symbols : symbols + lines]) if is_whole else set())


def pieces_of_code(file):
    """The contributions of code of a file: section, offset, length, and the number of the module."""
    debug = file.stream(3)
    start = 64 + u32(debug, 24)
    part = debug[start : start + u32(debug, 28)]
    for at in range(4, len(part) - 27, 28):
        section, offset, length, flags, module = unpack_from("<HxxiIIH", part, at)
        if flags & CODE:
            yield section, offset, length, module
