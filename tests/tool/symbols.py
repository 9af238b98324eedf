"""`pdb_tool symbols` beside a reading of its own of the records that `pdb_records` reads, and of registers, processors and
languages by the machine of the module: over real files, and over records of random bytes."""
import glob
import os
import random
import re
from struct import error, pack, unpack_from

from across import made_file, numbers
from program import FILES, REAL, TOP, one_line, ran, tell
from streams import File, u16, u32
from typed import Types, behind_record

FILES_MADE = 60
# A folder with further files, if the caller names one.
CORPUS = os.environ.get("PDB_FILES")

VARIABLE = "param addrtaken compgenx aggregate aggregated aliased alias retvalue optimizedout enreg_glob enreg_stat".split()
FRAME = "alloca setjmp longjmp inline_asm eh inline_spec seh naked security_checks async_eh gs_no_stack_ordering was_inlined gs_check safe_buffers - - - - pogo_on valid_counts opt_speed guard_cf guard_cfw".split()
PROCEDURE = "nofpo int far never notreached cust_call noinline optdbginfo".split()
TYPES = "none ref_tmpct own_tmpct own_tmr own_tm ref_tm".split()
MINI = "local data udt label const".split()
ENTRIES = "int1 uint1 int2 uint2 int4 uint4 pointer uint1_shl1 uint2_shl1 int1_shl1 int2_shl1".split()
COOKIES = "copy xor_sp xor_bp xor_r13".split()
WHY = "unknown not_selected not_referenced".split()
BASES = {"x86": ["vframe", "ebp", "ebx"], "x64": ["rsp", "rbp", "r13"], "arm": ["sp", "r7"], "arm64": ["sp", "fp"], "mips": [], None: []}
IMAGES = {0x14C: "x86", 0x8664: "x64", 0x1C0: "arm", 0x1C2: "arm", 0x1C4: "arm", 0xAA64: "arm64", 0xA641: "arm64", 0xA64E: "arm64"}
LANGUAGES = {**dict(enumerate("C Cpp Fortran Masm Pascal Basic Cobol Link Cvtres Cvtpgd CSharp VB ILAsm Java JScript MSIL HLSL ObjC ObjCpp Swift AliasObj Rust Go".split())), 0x44: "D", 0x53: "OldSwift"}

# The parts of each record behind its kind, as `TYPE FIELD`, by its kinds. What has the field `-` isn't printed.
ATTRIBUTES = "loc live, variable flags"
PROCEDURES = "idx? parent, idx end, idx? next, u32 len, u32 dbg_start_offset, u32 dbg_end_offset"
LAYOUTS = {
    "1012": "u32 frame_bytes, u32 padding_bytes, u32 padding_offset, u32 saved_register_bytes, loc exception_handler, frame flags",
    "110b 1006": "i32 offset, hex type_index, name",
    "100d": "i32 offset, hex type_index, reg register, name",
    "113f": "u32 program, range range, gaps gaps",
    "1140": "u32 program, u32 offset_in_parent, range range, gaps gaps",
    "1141": "reg register, bit maybe, range range, gaps gaps",
    "1142": "i32 offset, range range, gaps gaps",
    "1143": "reg register, bit maybe, u32_12 offset_in_parent, range range, gaps gaps",
    "1144": "i32 offset",
    "1145": "reg register, subfield subfield, i32 offset, range range, gaps gaps",
    "1153": "hex type_index, u32 module_file, variable flags, name",
    "113a": "i32 offset, reg register, cookie cookie, u8 flags",
    "1139": "loc offset, u16 -, hex type_index",
    "115e": "loc offset, u16 instruction_bytes, hex type_index",
    "115a 115b 1168": "ids functions",
    "1159": "loc base, entry entry_kind, places branch, u32 entries",
    "1137": "u32 len, hex characteristics, loc offset, name",
    "1136": "u16 section, u8 alignment, u8 -, hex address, u32 len, hex characteristics, name",
    "113d": "rev flags, strings strings",
    "1019": "loc offset, strings16 strings",
    "115c": "u32 invocations, i64 dynamic_count, u32 instructions, u32 live_instructions",
    "1169": "hex id, name",
    "112a 112b 101a 101b": f"{PROCEDURES}, hex token, loc offset, procedure flags, reg return_register, name",
    "1129": "u32 sum_name, idx symbol_index, mod? module, name",
    "0404": "oem oem, hex type_index, rest data",
    "1154": "hex type_index, variable flags, u16 data_slot, u16 data_offset, name",
    "1158": "tags tags",
    "1104 0208": "idx? parent, idx end, u32 len, loc offset, name",
    "100c": "hex root, hex path, loc offset",
    "115f": "types flags, u16 word0, u16 word1",
    "1160": "hex value, mod? module, mini flags, name",
    "113b": "why why, u32 file, u32 line, rest data",
    "0001": "u8 cpu, u8 language, u16 flags, name",
    "0005": "idx start, u16 section",
    "000a": "",
    "111a 111b 1017 1018": "u32 slot, hex type_index, name",
    "1120 1024": f"u32 slot, hex type_index, {ATTRIBUTES}, name",
    "111e 1022 112e": f"i32 offset, hex type_index, {ATTRIBUTES}, name",
    "111f 1023 112f": f"hex type_index, {ATTRIBUTES}, reg register, name",
    "1122 1026 1130": f"i32 offset, hex type_index, reg register, {ATTRIBUTES}, name",
    # Of the 27 layouts of pdb_symbols those that have registers, or a bit that no field has.
    "1106": "hex type_index, reg register, name -",
    "1111": "i32 offset, hex type_index, reg register, name",
    "113e": "hex type_index, variable flags, name",
}
PARTS = {int(kind, 16): text.split(", ") if text else [] for kinds, text in LAYOUTS.items() for kind in kinds.split()}
COMPILERS = {0x1013: 6, 0x1116: 6, 0x113C: 8}
# Kinds that neither reads: of 16 bits, HLSL, MIPS, IA-64, and those without a published layout.
UNREAD = [0x0002, 0x0105, 0x1114, 0x1118, 0x1121, 0x1150, 0x1151, 0x1157, 0x1162, 0x1164, 0x1167, 0x1170, 0x1171, 0x1177, 0x9999]


def registers():
    """The names of registers by their machines and numbers, as the tests of pdb_records have them."""
    with open(f"{TOP}/crates/pdb_records/tests/registers.rs", encoding="utf-8") as it:
        text = it.read()
    found = {}
    for machine, names in re.findall(r'const (\w+): &str = "([^"]*)"', text):
        number = 0
        for word in names.split():
            if word.isdigit():
                number = int(word)
            else:
                found[machine.lower(), number] = word
                number += 1
    return found


NAMES = registers()


def joined(texts):
    return ",".join(texts) or "-"


def flags(names, number):
    return "+".join(name for k, name in enumerate(names) if number >> k & 1 and name != "-") or "-"


def named(names, number):
    return names[number] if number < len(names) else str(number)


class Record:
    """The bytes of a record, and the place in it that is read next."""

    def __init__(self, data, machine):
        self.data, self.machine, self.at, self.kind = data, machine, 2, u16(data, 0)

    def number(self, form):
        found = unpack_from("<" + form, self.data, self.at)[0]
        self.at += {"b": 1, "h": 2, "i": 4, "q": 8}[form.lower()]
        return found

    def behind(self):
        found, self.at = self.data[self.at :], len(self.data)
        return found

    def place(self):
        offset, section = self.number("I"), self.number("H")
        return f"{section:04x}:{offset:08x}"

    def zero_ended(self):
        end = self.data.find(b"\0", self.at)
        if end < 0:
            raise error
        found, self.at = self.data[self.at : end], end + 1
        return found

    def name(self):
        if self.kind >= 0x1100:
            return self.zero_ended()
        length = self.number("B")
        found = self.data[self.at : self.at + length]
        if len(found) < length:
            raise error
        self.at += length
        return found

    def register(self):
        number = self.number("H")
        return NAMES.get((self.machine, number), f"{number:04x}")

    def base(self, encoded):
        names = BASES[self.machine]
        return "-" if encoded == 0 else names[encoded - 1] if encoded <= len(names) else str(encoded)

    def pairs(self, form, text):
        rest = self.behind()
        size = 4 if form == "HH" else 8
        return joined(text % unpack_from("<" + form, rest, at) for at in range(0, len(rest) - size + 1, size))

    def strings(self):
        found = []
        while self.at < len(self.data):
            name = self.zero_ended()
            if not name:
                break
            found.append(name)
        return found

    def functions(self):
        count = self.number("I")
        if self.at + 4 * count > len(self.data):
            raise error
        ids = [self.number("I") for _ in range(count)]
        counts = [self.number("I") for _ in range(min(count, (len(self.data) - self.at) // 4))]
        return f"{joined(f'{it:08x}' for it in ids)} invocations={joined(map(str, counts))}"

    def places(self):
        branch, table, branch_section, table_section = self.number("I"), self.number("I"), self.number("H"), self.number("H")
        return f"{branch_section:04x}:{branch:08x} table={table_section:04x}:{table:08x}"

    def frame(self):
        number = self.number("I")
        return f"{flags(FRAME, number)} local_base={self.base(number >> 14 & 3)} param_base={self.base(number >> 16 & 3)}"

    def optional(self, form, text, less=0):
        number = self.number(form)
        return text % (number - less) if number else "-"

    def value(self, what):
        plain = {"u8": "B", "u16": "H", "u32": "I", "i32": "i", "i64": "q"}
        bits = {"variable": ("H", VARIABLE), "procedure": ("B", PROCEDURE), "types": ("I", TYPES), "mini": ("H", MINI), "rev": ("B", ["rev"])}
        words = {"cookie": ("B", COOKIES), "entry": ("H", ENTRIES)}
        if what in plain:
            return str(self.number(plain[what]))
        if what in bits:
            form, names = bits[what]
            return flags(names, self.number(form))
        if what in words:
            form, names = words[what]
            return named(names, self.number(form))
        return getattr(self, "value_" + what.rstrip("?"))()

    def value_hex(self):
        return f"{self.number('I'):08x}"

    value_idx = value_hex

    def value_mod(self):
        return self.optional("H", "%d", 1)

    def value_loc(self):
        return self.place()

    def value_reg(self):
        return self.register()

    def value_bit(self):
        return "true" if self.number("H") & 1 else "false"

    def value_subfield(self):
        word = self.number("H")
        return str(word >> 4) if word & 1 else "-"

    def value_u32_12(self):
        return str(self.number("I") & 0xFFF)

    def value_range(self):
        place = self.place()
        return f"{place}+{self.number('H')}"

    def value_gaps(self):
        return self.pairs("HH", "%d+%d")

    def value_tags(self):
        return self.pairs("Ii", "%d:%d")

    def value_why(self):
        return named(WHY, self.number("I") & 0xFF)

    def value_rest(self):
        return self.behind().hex() or "-"

    def value_oem(self):
        found, self.at = self.data[self.at : self.at + 16], self.at + 16
        if len(found) < 16:
            raise error
        return found.hex()

    def value_ids(self):
        return self.functions()

    def value_places(self):
        return self.places()

    def value_frame(self):
        return self.frame()

    def value_strings(self):
        return b",".join(map(one_line, self.strings())) or b"-"

    def value_strings16(self):
        count = self.number("H")
        found = [self.zero_ended() for _ in range(count)]
        return b",".join(map(one_line, found)) if found else b"-"

    def text(self):
        """The fields and the name."""
        out = b""
        for part in PARTS[self.kind]:
            what, _, field = part.partition(" ")
            if what == "name":
                name = one_line(self.name())
                out += b" " + name if name and field != "-" else b""
                continue
            value = self.optional("I", "%08x") if what == "idx?" else self.value(what)
            if field != "-":
                out += f" {field}=".encode() + (value if isinstance(value, bytes) else value.encode())
        return out


def text_of(data, machine):
    """What is printed behind the name of the kind."""
    try:
        return Record(data, machine).text()
    except error:
        return b" error 1 bytes=" + data[2:].hex().encode()


def processor(data):
    """The number of the processor that a record of a compiler has; None for other records, and for damaged ones."""
    if u16(data, 0) not in COMPILERS:
        return None
    record = Record(data, None)
    try:
        for form in "BHBH":
            number = record.number(form)
        for _ in range(COMPILERS[record.kind]):
            record.number("H")
        record.name()
    except error:
        return None
    return number


def machine_of(number):
    if number is None:
        return None
    if number < 8:
        return "x86"
    if 0x10 <= number <= 0x18:
        return "mips"
    if 0x60 <= number <= 0x68 or number in (0xF0, 0xF4):
        return "arm"
    return {0xD0: "x64", 0xF6: "arm64", 0xF8: "arm64", 0xF9: "arm64"}.get(number)


def records(part, start):
    """Each record of a list with its index."""
    at = start
    while at < len(part):
        length = u16(part, at)
        if u16(part, at + 2) not in (0x0402, 0x0007):
            yield at, part[at + 2 : at + 2 + length]
        at += 2 + length


def lists(file):
    """The lists of symbols of a file: the words that print each, its records, and its machine."""
    debug = file.stream(3)
    header = IMAGES.get(u16(debug, 58))
    symbols = u16(debug, 20)
    if symbols != 0xFFFF:
        yield [], list(records(file.stream(symbols), 0)), header
    part, at, k = debug[64 : 64 + u32(debug, 24)], 0, 0
    while at < len(part):
        end = part.index(b"\0", part.index(b"\0", at + 64) + 1) + 1
        stream, size = u16(part, at + 34), u32(part, at + 36)
        if stream != 0xFFFF:
            found = list(records(file.stream(stream)[:size], 4)) if size else []
            named_here = (machine_of(processor(it)) for _, it in found)
            yield [str(k)], found, next(filter(None, named_here), header)
        at, k = end + -end % 4, k + 1


def line_is(line, index, data, machine, read, types):
    """Whether a line is that of a record: whole, where the reading above is of its kind."""
    front = line.lstrip(b" ").split(b" ", 2)
    if front[0] != f"{index:08x}".encode():
        return False
    kind, rest = u16(data, 0), line.lstrip(b" ")[9 + len(front[1]) :]
    if kind in PARTS:
        text = text_of(data, machine)
        return rest == (text if text.startswith(b" error ") else text + behind_record(types, data))
    if processor(data) is not None:
        language = LANGUAGES.get(data[2], f"{data[2]:02x}")
        return rest.startswith(f" language={language} ".encode()) and (kind < 0x1100 or machine is None or b" cpu_type=" in rest)
    if kind in read and b" error " not in rest:
        return rest.endswith(behind_record(types, data))
    return kind in read or rest == b" bytes=" + data[2:].hex().encode()


def compare_lists(what, path, read):
    with open(path, "rb") as it:
        file = File(it.read())
    kinds, types = set(), Types.of(file)
    for words, found, machine in lists(file):
        status, out, err = ran("symbols", path, *words)
        lines = out.split(b"\n")[:-1]
        bad = [line for line, (index, data) in zip(lines, found) if not line_is(line, index, data, machine, read, types)]
        tell(len(lines) == len(found) and not bad, f"symbols {words} of {what}", (len(lines), len(found), bad[:2]))
        kinds |= {u16(data, 0) for _, data in found}
        if what != "random records":
            tell((status, err) == (0, b"") and not any(b" error " in line for line in lines), f"symbols {words} of {what} without damage", err)
    return kinds


# The kinds of the 27 layouts, whose lines other tests have.
READ = {
    int(it, 16)
    for it in "0006 114e 114f 1101 0009 1106 1001 1107 1002 112d 1108 1003 1109 110a 1005 1117 1014 110c 1007 110d 1008 111c 111d 110e 1009 1110 1147 110f 1146 100b 100a 1155 1156 1112 1113 100e 100f 1116 1013 113c 1124 1029 1125 1127 0400 0403 1126 0401 1128 112c 1138 113e 114c 114d 115d 1105 0209 1103 0207 1111 1102 0206 1132".split()
}


def random_record(chance):
    kind = chance.choice([*PARTS, *PARTS, *UNREAD])
    body = b""
    for part in PARTS.get(kind, ["u32 x"]):
        what = part.split(" ")[0]
        if what in ("name", "strings", "strings16"):
            name = bytes(chance.choice(b"ab\n\xff ") for _ in range(chance.randrange(4)))
            if what == "strings16":
                body += pack("<H", chance.randrange(4)) + name + b"\0a\0b\0"
            else:
                body += name + b"\0" if kind >= 0x1100 else bytes([len(name)]) + name
            continue
        body += bytes(chance.choice([0, 0, 1, 1, 2, chance.randrange(256)]) for _ in range(chance.choice([2, 4, 4, 6, 8])))
    if kind in (0x115A, 0x115B, 0x1168):
        body = numbers(chance.randrange(4), *(chance.randrange(1 << 32) for _ in range(chance.randrange(9))))
    if kind in (0x113D, 0x1019):
        # Strings are printed as they are, and a line feed would end the line.
        body = body.replace(b"\n", b"n").replace(b"\r", b"r")
    if chance.randrange(4) == 0:
        body = body[: chance.randrange(len(body) + 1)]
    if chance.randrange(4) == 0:
        body += bytes(chance.randrange(14, 256) for _ in range(chance.randrange(20)))
    return pack("<H", kind) + body


def random_file(chance):
    """A file of one module of random records; its processor is named by the header, by a record, or by none."""
    made = [random_record(chance) for _ in range(400)]
    for _ in range(chance.randrange(3)):
        cpu = chance.choice([3, 6, 0xD0, 0xF6, 0x61, 0x12, 0x69, 0xE0, 0xF7, 0xABCD])
        compiler = pack("<H", 0x113C) + bytes([chance.choice([0, 1, 0x15, 0x44, 0x77]), 0, 0, 0]) + pack("<9H", cpu, *range(1, 9)) + b"c\0"
        made.insert(chance.randrange(len(made)), compiler[: chance.choice([len(compiler), len(compiler), 12])])
    part = numbers(4) + b"".join(pack("<H", len(it)) + it for it in made)
    further = b"".join(pack("<H", len(it)) + it for it in made[:100])
    return made_file([(b"a", part, b"")], machine=chance.choice([*IMAGES, 0, 0x200]), symbols=further)


def symbols(room):
    """Real files, those of the folder PDB_FILES, and random records."""
    further = sorted(glob.glob(f"{CORPUS}/*.pdb")) if CORPUS else []
    files = [f"{FILES}/{name}.pdb" for name in REAL] + further
    kinds = set()
    for path in files:
        kinds |= compare_lists(os.path.basename(path), path, READ)
    for seed in range(FILES_MADE):
        path = f"{room}/symbols.pdb"
        with open(path, "wb") as it:
            it.write(random_file(random.Random(seed)))
        found = compare_lists("random records", path, READ)
    tell(len(found) > len(PARTS) // 2, "kinds of random records", len(found))
    return sorted(f"{it:04x}" for it in kinds & set(PARTS))
