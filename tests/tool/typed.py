"""The types of a file, by a reading of its own: their names in C++, their sizes, and their members; and `pdb_tool types`
beside it, over real files and over streams of random records."""
import functools
import glob
import os
import random
from struct import error, pack, unpack_from

from across import container, numbers
from program import FILES, REAL, damage_notice, one_line, ran, tell
from streams import File, u16, u32

CORPUS = os.environ.get("PDB_FILES")
FILES_MADE = 60
LENGTH, DEPTH, LISTS = 65536, 64, 1024

SIMPLE = {
    0x03: ("void", 0), 0x07: ("<not translated>", None), 0x08: ("HRESULT", 4),
    0x10: ("signed char", 1), 0x11: ("short", 2), 0x12: ("long", 4), 0x13: ("__int64", 8), 0x14: ("__int128", 16),
    0x20: ("unsigned char", 1), 0x21: ("unsigned short", 2), 0x22: ("unsigned long", 4), 0x23: ("unsigned __int64", 8), 0x24: ("unsigned __int128", 16),
    0x30: ("bool", 1), 0x31: ("__bool16", 2), 0x32: ("__bool32", 4), 0x33: ("__bool64", 8), 0x34: ("__bool128", 16),
    0x40: ("float", 4), 0x41: ("double", 8), 0x42: ("long double", 10), 0x43: ("__float128", 16), 0x44: ("__float48", 6), 0x45: ("float", 4), 0x46: ("__half", 2),
    0x50: ("_Complex float", 8), 0x51: ("_Complex double", 16), 0x52: ("_Complex long double", 20), 0x53: ("_Complex __float128", 32),
    0x54: ("_Complex __float48", 12), 0x55: ("_Complex float", 8), 0x56: ("_Complex __half", 4),
    0x68: ("__int8", 1), 0x69: ("unsigned __int8", 1), 0x70: ("char", 1), 0x71: ("wchar_t", 2), 0x72: ("__int16", 2), 0x73: ("unsigned __int16", 2),
    0x74: ("int", 4), 0x75: ("unsigned", 4), 0x76: ("__int64", 8), 0x77: ("unsigned __int64", 8), 0x78: ("__int128", 16), 0x79: ("unsigned __int128", 16),
    0x7A: ("char16_t", 2), 0x7B: ("char32_t", 4), 0x7C: ("char8_t", 1),
}
POINTERS = {1: 2, 2: 4, 3: 4, 4: 4, 5: 6, 6: 8, 7: 16}
KINDS = {
    0x0A: "VTSHAPE", 0x0E: "LABEL", 0x1001: "MODIFIER", 0x1002: "POINTER", 0x1008: "PROCEDURE", 0x1009: "MFUNCTION", 0x1201: "ARGLIST", 0x1203: "FIELDLIST",
    0x1205: "BITFIELD", 0x1206: "METHODLIST", 0x1503: "ARRAY", 0x1504: "CLASS", 0x1505: "STRUCTURE", 0x1506: "UNION", 0x1507: "ENUM", 0x150A: "ALIAS",
    0x1515: "TYPESERVER2", 0x1519: "INTERFACE", 0x151D: "VFTABLE",
}
TAGS = {0x1504, 0x1505, 0x1519, 0x1506, 0x1507}
NUMBERS = {0x8000: "b", 0x8001: "h", 0x8002: "H", 0x8003: "i", 0x8004: "I", 0x8009: "q", 0x800A: "Q"}
SIGNED = {0x10, 0x11, 0x12, 0x13, 0x14, 0x68, 0x70, 0x72, 0x74, 0x76, 0x78}
UNSIGNED = {0x20, 0x21, 0x22, 0x23, 0x24, 0x30, 0x31, 0x32, 0x33, 0x34, 0x69, 0x71, 0x73, 0x75, 0x77, 0x79, 0x7A, 0x7B, 0x7C}
EOF = "error 1 the data ends before a record does"


class Bad(Exception):
    """A list of members that goes no further, with the line that says so."""


def number_at(data, at):
    """A number with a prefix, and where it ends."""
    prefix = unpack_from("<H", data, at)[0]
    if prefix < 0x8000:
        return prefix, at + 2
    if prefix not in NUMBERS:
        raise Bad(f"error 20 the prefix 0x{prefix:04x} says no known kind of number")
    value = unpack_from("<" + NUMBERS[prefix], data, at + 2)[0]
    return value, at + 2 + {"b": 1, "h": 2, "i": 4, "q": 8}[NUMBERS[prefix].lower()]


def name_at(data, at):
    end = data.find(b"\0", at) if at <= len(data) else -1
    if end < 0:
        raise error
    return data[at:end]


def items_of(stream):
    """The items of a stream, and the line of its fault, if there is one."""
    if not stream:
        return [], None
    if len(stream) < 56 or u32(stream, 4) + u32(stream, 16) > len(stream):
        return [], EOF
    records, index, at, found = stream[u32(stream, 4) : u32(stream, 4) + u32(stream, 16)], u32(stream, 8), 0, []
    while at < len(records) and index < 1 << 32:
        if at + 2 > len(records) or u16(records, at) < 2 or at + 2 + u16(records, at) > len(records):
            return found, EOF
        found.append((index, records[at + 2 : at + 2 + u16(records, at)]))
        at, index = at + 2 + u16(records, at), index + 1
    return found, None


def stream_of(file, number):
    try:
        return items_of(file.stream(number))[0]
    except (ValueError, error):
        return []


class Types:
    """The types and the ids of a file."""

    def __init__(self, types, ids=()):
        self.items, self.ids, self.first, self.underlying = {}, {}, {}, 0
        for index, data in types:
            self.items.setdefault(index, data)
        for index, data in ids:
            self.ids.setdefault(index, data)
        for index, data in types:
            tag = self.tag(data)
            if tag and not tag["forward"]:
                self.first.setdefault(tag["key"], index)
        self.parts = functools.lru_cache(None)(self.parts)

    @classmethod
    def of(cls, file):
        return cls(stream_of(file, 2), stream_of(file, 4))

    # ---- tags and sizes

    def tag(self, data):
        kind = u16(data, 0)
        if kind not in TAGS:
            return None
        try:
            flags = unpack_from("<H", data, 4)[0]
            fields = unpack_from("<I", data, 10 if kind == 0x1507 else 6)[0]
            size, at = (None, 14) if kind == 0x1507 else number_at(data, 10 if kind == 0x1506 else 18)
            name = name_at(data, at)
            unique = name_at(data, at + len(name) + 1) if flags >> 9 & 1 else None
        except (error, Bad):
            return None
        return {"forward": flags >> 7 & 1, "fields": fields, "name": name, "size": size, "key": (kind, unique is not None, name if unique is None else unique)}

    def full(self, index):
        """The index of the full definition of what has a tag."""
        tag = self.tag(self.items[index]) if index in self.items else None
        if not tag:
            return None
        return self.first.get(tag["key"]) if tag["forward"] else index

    def named(self, index):
        """A class's own size and name, which need no unique name; None where they can't be read."""
        data = self.items.get(index)
        kind = u16(data, 0)
        size, at = (None, 14) if kind == 0x1507 else number_at(data, 10 if kind == 0x1506 else 18)
        return size, name_at(data, at)

    def size(self, index, steps=DEPTH):
        if index < 0x1000:
            if index == 0x103 or index >> 8 > 7:
                return None
            if index >> 8:
                return POINTERS[index >> 8] if index & 0xFF in SIMPLE else None
            return SIMPLE.get(index, ("", None))[1]
        data = self.items.get(index)
        if data is None or steps == 0:
            return None
        kind = u16(data, 0)
        try:
            if kind == 0x1001:
                unpack_from("<IH", data, 2)
                return self.size(u32(data, 2), steps - 1)
            if kind == 0x1205:
                unpack_from("<IB", data, 2)
                return self.size(u32(data, 2), steps - 1)
            if kind == 0x1002:
                return self.pointer_size(data)
            if kind == 0x1503:
                return number_at(data, 10)[0]
            if kind in TAGS:
                self.named(index)
                full = self.full(index)
                if full is None:
                    return None
                if kind == 0x1507:
                    return self.size(u32(self.items[full], 6), steps - 1)
                return self.named(full)[0]
        except (error, Bad):
            return None
        return None

    @staticmethod
    def pointer_size(data):
        _, a = unpack_from("<II", data, 2)
        mode, given = a >> 5 & 7, a >> 13 & 63
        if mode in (2, 3):
            unpack_from("<I", data, 10)
            return given or None
        if mode > 4:
            return None
        return {0: 2, 1: 4, 2: 4, 0xA: 4, 0xB: 6, 0xC: 8}.get(a & 31, given or None)

    # ---- names

    def name(self, index):
        text = self.whole(index, DEPTH)
        return text if len(text) <= LENGTH else text[:LENGTH] + b"<...>"

    def whole(self, index, depth):
        front, back, shape, _ = self.parts(index, depth)
        return front + (b" " if shape == "function" else b"") + back

    def parts(self, index, depth):
        try:
            front, back, shape, right = self.parts_of(index, depth)
        except (error, Bad):
            return b"??", b"", "plain", False
        # What is longer than a name may be is never shown.
        return front[: LENGTH + 1], back[: LENGTH + 1], shape, right

    def parts_of(self, index, depth):
        if index < 0x1000:
            mode, kind = index >> 8, index & 0xFF
            if index in (0, 0x103):
                return b"<no type>" if index == 0 else b"std::nullptr_t", b"", "plain", False
            if mode > 7 or kind not in SIMPLE:
                return b"??", b"", "plain", 0 < mode < 8
            return SIMPLE[kind][0].encode() + (b"*" if mode else b""), b"", "plain", mode != 0
        if depth == 0:
            return b"<...>", b"", "plain", False
        data = self.items.get(index)
        if data is None:
            raise error
        return self.by_kind(u16(data, 0), data, index, depth)

    def by_kind(self, kind, data, index, depth):
        if kind == 0x1001:
            u, bits = unpack_from("<IH", data, 2)
            words = [w for k, w in enumerate([b"const", b"volatile", b"__unaligned"]) if bits >> k & 1]
            front, back, shape, right = self.parts(u, depth - 1)
            front = front + b"".join(b" " + w for w in words) if right else b"".join(w + b" " for w in words) + front
            return front, back, shape, right
        if kind == 0x1002:
            return self.pointer(data, depth)
        if kind == 0x1503:
            u, _ = unpack_from("<II", data, 2)
            size, _ = number_at(data, 10)
            front, back, _, right = self.parts(u, depth - 1)
            return front, b"[" + self.count(size, self.size(u)) + b"]" + back, "array", right
        if kind == 0x1205:
            u, n = unpack_from("<IB", data, 2)
            front, back, _, _ = self.parts(u, depth - 1)
            return front, back + b" : %d" % n, "plain", False
        if kind in (0x1008, 0x1009):
            return self.function(kind, data, depth)
        if kind == 0x1201:
            return self.arguments(data, depth), b"", "plain", False
        if kind == 0x1203:
            return b"<field list>", b"", "plain", False
        if kind == 0x0A:
            return b"<vftable %d methods>" % unpack_from("<H", data, 2)[0], b"", "plain", False
        if kind in TAGS:
            return self.named(index)[1] or b"??", b"", "plain", False
        if kind == 0x150A:
            unpack_from("<I", data, 2)
            return name_at(data, 6) or b"??", b"", "plain", False
        raise error

    @staticmethod
    def count(size, element):
        if not 0 <= size < 1 << 64:
            return b"?"
        if element is not None and 0 < element < 1 << 64 and size % element == 0:
            return b"%d" % (size // element)
        return b"?" if size else b""

    def pointer(self, data, depth):
        u, a = unpack_from("<II", data, 2)
        mode = a >> 5 & 7
        if mode > 4:
            raise error
        front, back, shape, _ = self.parts(u, depth - 1)
        if mode in (2, 3):
            c = unpack_from("<I", data, 10)[0]
            gap, star = b" (" if shape != "plain" else b" ", self.whole(c, depth - 1) + b"::*"
        else:
            gap, star = b" (" if shape != "plain" else b"", {0: b"*", 1: b"&", 4: b"&&"}[mode]
        words = b"".join(w for bit, w in ((10, b" const"), (9, b" volatile"), (11, b" __unaligned"), (12, b" __restrict")) if a >> bit & 1)
        return front + gap + star + words, (b")" if shape != "plain" else b"") + back, "plain", True

    def function(self, kind, data, depth):
        if kind == 0x1008:
            u, _, _, _, listed = unpack_from("<IBBHI", data, 2)
            behind = b""
        else:
            u, _, this, _, _, _, listed = unpack_from("<IIIBBHI", data, 2)
            behind = self.object(this)
        front, back, _, _ = self.parts(u, depth - 1)
        arguments = b"(??)"
        if listed >= 0x1000 and depth - 1 == 0:
            arguments = b"(<...>)"
        elif listed >= 0x1000 and listed in self.items and u16(self.items[listed], 0) == 0x1201:
            try:
                arguments = self.arguments(self.items[listed], depth - 1)
            except error:
                pass
        return front, arguments + behind + back, "function", False

    def arguments(self, data, depth):
        count = unpack_from("<I", data, 2)[0]
        if 6 + 4 * count > len(data):
            raise error
        entries = [u32(data, 6 + 4 * k) for k in range(count)]
        texts = [b"..." if k == count - 1 and it == 0 else self.whole(it, depth - 1) for k, it in enumerate(entries)]
        return b"(" + b", ".join(texts) + b")"

    def object(self, this):
        data = self.items.get(this)
        if data is None or u16(data, 0) != 0x1002 or len(data) < 10:
            return b""
        u, a = unpack_from("<II", data, 2)
        text, under = b"", self.items.get(u)
        if under is not None and u16(under, 0) == 0x1001 and len(under) >= 8:
            text = (b" const" if under[6] & 1 else b"") + (b" volatile" if under[6] & 2 else b"")
        return text + (b" &" if a >> 20 & 1 else b" &&" if a >> 21 & 1 else b"")

    # ---- what has a type

    def behind(self, index):
        """What stands behind a line of this type."""
        return b": " + one_line(self.name(index)) if index else b""

    def function_type(self, id):
        data = self.ids.get(id)
        return u32(data, 6) if data is not None and u16(data, 0) in (0x1601, 0x1602) and len(data) >= 10 else 0

    # ---- members

    def members(self, index):
        """The lines of the members of a list, and of those that it goes on with."""
        read, lines = set(), []
        while index is not None:
            if index in read:
                return lines + [b"error the list of members continues in itself"]
            if len(read) == LISTS:
                return lines + [b"<...>"]
            data, onward = self.items.get(index), None
            read.add(index)
            if data is None or u16(data, 0) != 0x1203:
                return lines + [EOF.encode()]
            at = 2
            try:
                while at < len(data):
                    found, at, goes_on = self.member(data, at)
                    lines += found
                    onward = onward if goes_on is None else goes_on
                    if at < len(data) and data[at] > 0xF0:
                        at += data[at] & 15
                        if at > len(data):
                            raise error
            except error:
                return lines + [EOF.encode()]
            except Bad as bad:
                return lines + [str(bad).encode()]
            index = onward
        return lines

    def member(self, data, at):
        """The lines of a member, where it ends, and the list with which the list goes on, if it says so."""
        kind, first = unpack_from("<H", data, at)[0], None
        if kind not in MEMBERS:
            raise Bad(UNKNOWN)
        if kind == 0x1502:
            a, at = unpack_from("<H", data, at + 2)[0], at + 4
        else:
            a, first = unpack_from("<HI", data, at + 2)
            at += 8
        values, shape = [], MEMBERS[kind]
        for part in shape:
            if part == "V":
                value, at = number_at(data, at)
            elif part == "4":
                value, at = unpack_from("<I", data, at)[0], at + 4
            elif part == "i":
                value, at = unpack_from("<i", data, at)[0], at + 4
            elif part == "e":
                if a >> 2 & 7 not in (4, 6):
                    continue
                value, at = unpack_from("<I", data, at)[0], at + 4
            else:
                value = name_at(data, at)
                at += len(value) + 1
            values.append(value)
        if kind == 0x1404:
            return [], at, first
        return self.member_lines(kind, a, first, values), at, None

    def member_lines(self, kind, a, first, values):
        access = {1: b" access=private", 2: b" access=protected"}.get(a & 3, b"")
        type_name = one_line(self.name(first)) if first is not None else b""
        name = one_line(values[-1]) if values and isinstance(values[-1], bytes) else b""
        named = b" " + name + b": " + type_name
        if kind in (0x1400, 0x151A):
            return [b"base offset=%d" % values[0] + access + b" " + type_name]
        if kind in (0x1401, 0x1402):
            word = b"virtual_base" if kind == 0x1401 else b"indirect_base"
            return [word + b" vbptr=%d entry=%d" % (values[1], values[2]) + access + b" " + type_name]
        if kind == 0x1409:
            return [b"vftable " + type_name]
        if kind == 0x140C:
            return [b"vftable offset=%d " % values[0] + type_name]
        if kind == 0x140A:
            return [b"friend " + type_name]
        if kind == 0x1502:
            return [b"enumerator value=%d " % self.value(values[0]) + name]
        if kind == 0x150D:
            bits = self.items.get(first)
            bit = b" bit=%d" % bits[7] if bits is not None and u16(bits, 0) == 0x1205 and len(bits) >= 8 else b""
            return [b"member offset=%d" % values[0] + bit + access + named]
        if kind == 0x150E:
            return [b"static" + access + named]
        if kind == 0x150F:
            return self.overloads(first, name)
        if kind == 0x1511:
            return [self.method(a, values[0] if len(values) > 1 else None, name, first)]
        return [{0x150C: b"friend", 0x1510: b"nested", 0x1512: b"nested"}[kind] + named]

    def method(self, a, entry, name, index):
        word = {1: b" kind=virtual", 4: b" kind=virtual", 2: b" kind=static", 3: b" kind=friend", 5: b" kind=pure", 6: b" kind=pure"}.get(a >> 2 & 7, b"")
        access = {1: b" access=private", 2: b" access=protected"}.get(a & 3, b"")
        return b"method" + word + (b"" if entry is None else b" entry=%d" % entry) + access + b" " + name + b": " + one_line(self.name(index))

    def overloads(self, index, name):
        data = self.items.get(index)
        if data is None or u16(data, 0) != 0x1206:
            return [b"method " + name]
        at, lines = 2, []
        try:
            while at < len(data):
                a, _, index = unpack_from("<HHI", data, at)
                entry = unpack_from("<I", data, at + 8)[0] if a >> 2 & 7 in (4, 6) else None
                at += 8 if entry is None else 12
                lines.append(self.method(a, entry, name, index))
        except error:
            lines.append(b"method " + name)
        return lines

    def value(self, stored):
        """The value of an enumerator as a number of the underlying type."""
        index, steps = self.underlying, DEPTH
        while index >= 0x1000 and steps and index in self.items and u16(self.items[index], 0) == 0x1001 and len(self.items[index]) >= 8:
            index, steps = u32(self.items[index], 2), steps - 1
        if index not in SIGNED | UNSIGNED:
            return stored
        count = 1 << 8 * SIMPLE[index][1]
        number = stored % count
        return number - count if index in SIGNED and number >= count // 2 else number

    # ---- lines

    def lines(self, index):
        """The lines of the type of an index."""
        data = self.items.get(index)
        if index >= 0x1000 and data is None:
            return [b"%08x ??" % index]
        size = self.size(index)
        behind = (b"" if size is None else b" size=%d" % size) + b" " + one_line(self.name(index))
        if data is None:
            return [b"%08x" % index + behind]
        kind, tag = u16(data, 0), self.tag(data)
        word = b"LF_" + KINDS[kind].encode() if kind in KINDS else b"%04x" % kind
        line = b"%08x " % index + word
        if tag and tag["forward"]:
            full = self.full(index)
            line += b" forward=" + (b"-" if full is None else b"%08x" % full)
        line += behind
        self.underlying = 0
        if kind == 0x1507 and self.is_enumeration(data):
            self.underlying = u32(data, 6)
            if not u16(data, 4) >> 7 & 1:
                line += b": " + one_line(self.name(self.underlying))
        found = self.members(tag["fields"]) if tag and not tag["forward"] and tag["fields"] else []
        return [line] + [b"  " + it for it in found]

    @staticmethod
    def is_enumeration(data):
        """The fields of an enumeration up to its name are there."""
        try:
            unpack_from("<I", data, 10)
            name_at(data, 14)
        except error:
            return False
        return True


# Where records of symbols have the index of a type, by their kinds.
TYPE_AT = {
    **dict.fromkeys((0x1110, 0x110F, 0x100A, 0x100B, 0x1155), 26),
    **dict.fromkeys((0x110C, 0x110D, 0x111C, 0x111D, 0x1007, 0x1008, 0x1112, 0x1113, 0x100E, 0x100F, 0x113E, 0x1106, 0x1001), 2),
    **dict.fromkeys((0x1107, 0x1002, 0x112D, 0x1108, 0x1003, 0x1109, 0x110A, 0x1005, 0x1117, 0x1014), 2),
    0x1111: 6,
}
# The same of records that only `scopes` shows with a type, and of the ids of functions.
VARIABLE_AT = {0x1153: 2, 0x100D: 6, 0x110B: 6, 0x1006: 6}
ID_AT = {0x1146: 26, 0x1147: 26, 0x1156: 26, 0x114D: 10, 0x115D: 10}


def behind_record(types, data, further=()):
    """What stands at the end of the line of a record of a symbol."""
    kind = u16(data, 0)
    at = {**TYPE_AT, **dict(further)}.get(kind)
    if at is not None:
        return types.behind(u32(data, at))
    return types.behind(types.function_type(u32(data, ID_AT[kind]))) if kind in ID_AT else b""


# What stands behind the attributes and the type of a member: numbers, a number where the function is introduced, a name.
MEMBERS = {
    0x1400: "V", 0x151A: "V", 0x1401: "4VV", 0x1402: "4VV", 0x1404: "", 0x1409: "", 0x140C: "i", 0x140A: "", 0x150C: "n", 0x1502: "Vn", 0x150D: "Vn",
    0x150E: "n", 0x150F: "n", 0x1510: "n", 0x1512: "n", 0x1511: "en",
}
UNKNOWN = "error 2 not supported: Unsupported symbol data format"


def compare_types(what, path):
    with open(path, "rb") as it:
        file = File(it.read())
    try:
        listed, fault = items_of(file.stream(2))
    except ValueError:
        return
    types = Types(listed)
    wanted = [line for index, _ in listed for line in types.lines(index)] + ([fault.encode()] if fault else [])
    status, out, err = ran("types", path)
    lines = out.split(b"\n")[:-1]
    other = next((it for it in zip(lines, wanted) if it[0] != it[1]), (len(lines), len(wanted)))
    tell((status, err) == (0, damage_notice(path, out)) and lines == wanted, f"types of {what}", (err, *other))
    some = [0, 0x74, 0x103, 0x674, 0xFFF, 0x1000, 0x1001, 0x7FFFFFFF, 0xFFFFFFFF] + [index for index, _ in listed[::97]]
    wanted = b"".join(line + b"\n" for index in some for line in types.lines(index))
    found = ran("types", path, *(f"{index:x}" for index in some))
    tell((found[0], found[2]) == (0, damage_notice(path, found[1])) and found[1] == wanted, f"some types of {what}", found[1][:99])
    # The lines of `check` on members: the error that ends the members of a type, which `types` puts behind them.
    wanted = []
    for index, _ in listed:
        last = types.lines(index)[-1]
        if last.startswith(b"  error "):
            wanted.append(b"%s: type %08x: %s" % (path.encode(), index, last.split(b" ", 4)[4]))
    status, out, err = ran("check", path)
    lines = [it for it in out.split(b"\n") if it.startswith(path.encode() + b": type ")]
    tell((status == 1 or not wanted, err, lines) == (True, b"", wanted), f"check of the members of {what}", (lines[:2], wanted[:2]))


def random_index(chance, upto):
    return chance.choice([0, 3, 0x10, 0x70, 0x74, 0x75, 0x103, 0x603, 0x874, 0x1000 + chance.randrange(upto + 2), 0x1000 + chance.randrange(upto + 2), 0x1000 + chance.randrange(upto + 2)])


def random_number(chance):
    form = chance.choice(["", "", "b", "h", "H", "i", "I", "q", "Q", "x"])
    if form == "":
        return pack("<H", chance.randrange(0x8000) if chance.randrange(2) else chance.randrange(64))
    if form == "x":
        return pack("<H", chance.choice([0x8005, 0x8017, 0xFFFF]))
    prefix = next(key for key, it in NUMBERS.items() if it == form)
    size = {"b": 1, "h": 2, "i": 4, "q": 8}[form.lower()]
    return pack("<H", prefix) + bytes(chance.choice([0, 1, 0x7F, 0x80, 0xFF]) for _ in range(size))


def random_name(chance):
    return chance.choice([b"", b"a", b"S", b"b\nc", b"n<int>"]) + b"\0"


def random_members(chance, upto):
    body = b""
    for _ in range(chance.randrange(6)):
        kind = chance.choice([*MEMBERS, *MEMBERS, 0x1403])
        a = chance.randrange(32)
        body += pack("<HH", kind, a)
        if kind != 0x1502:
            body += pack("<I", random_index(chance, upto))
        for part in MEMBERS.get(kind, ""):
            if part == "V":
                body += random_number(chance)
            elif part in "4i" or part == "e" and a >> 2 & 7 in (4, 6):
                body += pack("<I", chance.randrange(1 << 32))
            elif part == "n":
                body += random_name(chance)
        body += bytes(range(0xF0 + chance.randrange(4), 0xF0, -1))
    return body


def random_type(chance, upto):
    """A record of a type; it may refer to any other."""
    def other():
        return random_index(chance, upto)

    kind = chance.choice([0x1001, 0x1002, 0x1002, 0x1503, 0x1205, 0x1008, 0x1009, 0x1201, 0x1203, 0x1203, 0x000A, 0x1504, 0x1505, 0x1519, 0x1506, 0x1507, 0x1507, 0x150A, 0x1206, 0x000E, 0x1609])
    flags = chance.choice([0, 0x80, 0x200, 0x280])
    tail = random_name(chance) + (random_name(chance) if flags & 0x200 else b"")
    body = {
        0x1001: lambda: numbers(other()) + pack("<H", chance.randrange(8)),
        0x1002: lambda: numbers(other(), chance.randrange(1 << 22)) + (numbers(other()) + b"\0\0"),
        0x1503: lambda: numbers(other(), other()) + random_number(chance) + b"\0",
        0x1205: lambda: numbers(other()) + bytes([chance.randrange(65), chance.randrange(65)]),
        0x1008: lambda: numbers(other()) + b"\0\0\2\0" + numbers(other()),
        0x1009: lambda: numbers(other(), other(), other()) + b"\0\0\2\0" + numbers(other(), 0),
        0x1201: lambda: (lambda them: numbers(len(them), *them))([other() for _ in range(chance.randrange(4))]),
        0x1203: lambda: random_members(chance, upto),
        0x000A: lambda: pack("<H", chance.randrange(9)) + b"\x55",
        0x1506: lambda: pack("<HHI", 2, flags, other()) + random_number(chance) + tail,
        0x1507: lambda: pack("<HHII", 2, flags, other(), other()) + tail,
        0x150A: lambda: numbers(other()) + random_name(chance),
        0x1206: lambda: b"".join(pack("<HHI", a, 0, other()) + (numbers(8) if a >> 2 & 7 in (4, 6) else b"") for a in (chance.randrange(32) for _ in range(chance.randrange(4)))),
    }.get(kind, lambda: pack("<HHIII", 2, flags, other(), 0, 0) + random_number(chance) + tail)()
    if chance.randrange(12) == 0:
        body = body[: chance.randrange(len(body) + 1)]
    return pack("<H", kind) + body


def random_stream(chance, count=400):
    records = b"".join(pack("<H", len(it)) + it for it in (random_type(chance, k + 4) for k in range(count)))
    if chance.randrange(4) == 0:
        records += chance.choice([b"\1", b"\1\0\2", b"\xff\xff\2"])
    return numbers(20040203, 56, 0x1000, 0x1000 + count, len(records)) + bytes(36) + records


def random_file(chance):
    """A file with a stream of random types."""
    return container([b"", numbers(20000404, 1, 2) + bytes(16), random_stream(chance), b"", b""])


def file_with(records):
    """A file whose types are these records."""
    counted = b"".join(pack("<H", len(it)) + it for it in records)
    stream = numbers(20040203, 56, 0x1000, 0x1000 + len(records), len(counted)) + bytes(36) + counted
    return container([b"", numbers(20000404, 1, 2) + bytes(16), stream, b"", b""], 4096)


def shared_lists(room):
    """100,000 classes whose members go through 100 long lists, the last of which has an error: each list is read once, so
    that some seconds do for what would take hours."""
    long = b"".join(pack("<HHI", 0x1409, 0, 0x674) for _ in range(2000))
    chain = [pack("<H", 0x1203) + long + pack("<HHI", 0x1404, 0, 0x1001 + k) for k in range(99)] + [pack("<HH", 0x1203, 0x1409)]
    tag = pack("<HHHIIIH", 0x1505, 1, 0, 0x1000, 0, 0, 4) + b"S\0"
    path = f"{room}/shared.pdb"
    with open(path, "wb") as it:
        it.write(file_with(chain + [tag] * 100_000))
    status, out, err = ran("check", path, limit=60)
    lines = [it for it in out.split(b"\n") if b": type " in it]
    last = b"%s: type %08x: the data ends before a record does" % (path.encode(), 0x1000 + 100 + 99_999)
    tell((status, err, len(lines), lines[-1:]) == (1, b"", 100_000, [last]), "check of lists that many types have", (len(lines), lines[-1:]))


def doubled_lists(room):
    """Lists of arguments, each of which has the one before it twice: names that would have 2^60 bytes end in a second."""
    lists = [pack("<HI", 0x1201, 0)] + [pack("<HIII", 0x1201, 2, 0x1000 + k, 0x1000 + k) for k in range(60)]
    path = f"{room}/doubled.pdb"
    with open(path, "wb") as it:
        it.write(file_with(lists))
    before = os.times()
    status, out, err = ran("types", path, "103c", limit=60)
    after = os.times()
    taken = after.children_user + after.children_system - before.children_user - before.children_system
    line = out.rstrip(b"\n")
    head = b"0000103c LF_ARGLIST "
    tell((status, err, line[: len(head)], line[-3:], len(line)) == (0, b"", head, b"...", len(head) + 4096 + 3), "a name of 2^60 bytes", (status, len(line)))
    tell(taken < 1, "the time of a name of 2^60 bytes", taken)
    compare_types("lists of arguments in lists", path)


def types(room):
    """Real files, those of the folder PDB_FILES, random records, lists that many types have, and long names."""
    shared_lists(room)
    doubled_lists(room)
    further = sorted(glob.glob(f"{CORPUS}/*.pdb")) if CORPUS else []
    for path in [f"{FILES}/{name}.pdb" for name in REAL] + further:
        compare_types(os.path.basename(path), path)
    for seed in range(FILES_MADE):
        path = f"{room}/types.pdb"
        with open(path, "wb") as it:
            it.write(random_file(random.Random(seed)))
        compare_types("random types", path)
