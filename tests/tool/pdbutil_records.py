"""The further records of `pdb_tool symbols` beside those of `llvm-pdbutil dump -symbols` of LLVM 14, where it is installed: each
field of the kinds that LLVM reads too, in real files and in made records. docs/DIFFERENCES.md says what LLVM prints otherwise."""
import glob
import os
import re
import shutil
from struct import pack

from across import numbers, record
from pdbutil import CORPUS, dumped
from program import FILES, REAL, ran, tell
from symbols import FRAME, NAMES, VARIABLE
from variables_damaged import Damaged

# What LLVM prints of a record behind its name, by the fields that `symbols` prints.
TEXTS = {
    "S_FRAMEPROC": "size = {frame_bytes}, padding size = {padding_bytes}, offset to padding = {padding_offset} bytes of callee saved registers = {saved_register_bytes}, exception handler addr = {exception_handler} local fp reg = {local_base}, param fp reg = {param_base} flags = {flags}",
    "S_BPREL32": "type = {type_index}, offset = {offset}",
    "S_DEFRANGE_REGISTER": "register = {register}, may have no name = {maybe}, range start = {start}, length = {length} gaps = {gaps}",
    "S_DEFRANGE_FRAMEPOINTER_REL": "offset = {offset}, range = {range} gaps = {gaps}",
    # LLVM turns the bit around.
    "S_DEFRANGE_SUBFIELD_REGISTER": "register = {register}, may have no name = {certain}, offset in parent = {offset_in_parent} range = {range}, gaps = {gaps}",
    "S_DEFRANGE_FRAMEPOINTER_REL_FULL_SCOPE": "offset = {offset}",
    "S_DEFRANGE_REGISTER_REL": "register = {register}, offset = {offset}, offset in parent = {subfield}, has spilled udt = {spilled} range = {range}, gaps = {gaps}",
    "S_FILESTATIC": "type = {type_index}, file name = {module_file}, flags = {flags}",
    # LLVM reads the offset without its sign.
    "S_FRAMECOOKIE": "code offset = {offset}, Register = {register}, kind = {cookie}, flags = {flags}",
    "S_CALLSITEINFO": "type = {type_index}, addr = {offset}",
    "S_HEAPALLOCSITE": "type = {type_index}, addr = {offset} call size = {instruction_bytes}",
    "S_CALLEES": "{functions}",
    "S_CALLERS": "{functions}",
    "S_INLINEES": "{functions}",
    "S_COFFGROUP": "length = {len}, addr = {offset} characteristics = {characteristics}",
    "S_SECTION": "length = {len}, alignment = {alignment}, rva = {address}, section # = {section} characteristics = {characteristics}",
    "S_ENVBLOCK": "{strings}",
    "S_ANNOTATION": "addr = {offset} strings = [ {strings}]",
}
FRAME_FLAGS = dict(zip(FRAME, (
    "has alloca;has setjmp;has longjmp;has inline asm;has eh;marked inline;has seh;naked;secure checks;has async eh;no stack order;inlined;strict secure checks;"
    "safe buffers;;;;;pgo;has profile counts;opt speed;guard cfg;guard cfw").split(";")))
VARIABLE_FLAGS = dict(zip(VARIABLE, (
    "param;address is taken;compiler generated;aggregate;aggregated;aliased;alias;return val;optimized away;enreg global;enreg static").split(";")))
COOKIES = {"copy": "copy", "xor_sp": "xor stack ptr", "xor_bp": "xor frame ptr", "xor_r13": "xor rot13"}
CHARACTERISTICS = {0x20: "code", 0x40: "initialized data", 0x80: "uninitialized data", 0x2000000: "discardable", 0x10000000: "shared", 0x20000000: "execute permissions", 0x40000000: "read permissions", 0x80000000: "write permissions"}
CPUS = {"x86": 0x03, "x64": 0xD0, "arm": 0xF4, "arm64": 0xF6}
# Registers that LLVM calls otherwise: on x64 eip, and on x86 those of x64.
OTHERWISE = {("x64", 33), *(("x86", number) for number in range(252, 260))}
# The index of a record, its kind, its name, and what follows.
HEAD = re.compile(r"^ +(\d+) \| (S_\w+) \[size = \d+\] ?(?:`(.*)`)?(.*)$")
LINE = re.compile(r"^ *([0-9a-f]{8}) (S_\w+)((?: (?!strings=)\w+=\S*)*)(?: strings=(.*))?(?: (.*))?$")
# The name of a type, of a file or of a function behind its number.
NAMED = re.compile(r"((?:type =|file name =|callee:) \w+) \(.*?\)(?=,|$| callee)")
# Values that differ from field to field. LLVM reads no gap whose first byte is f0 or more, and no bits above an offset in a variable.
RANGE = pack("<IHH", 0x110, 1, 0x17)
GAPS = pack("<4H", 8, 4, 200, 1)
MADE = (
    record(0x1012, numbers(104, 5, 6, 16) + pack("<IHI", 0x20, 1, 0x1F3FFF | 3 << 14 | 2 << 16)),
    *(record(0x1012, numbers(1, 2, 3, 4) + pack("<IHI", 0x20, 1, bit << 14 | (3 - bit) << 16)) for bit in range(4)),
    *(record(0x1012, numbers(1, 2, 3, 4) + pack("<IHI", 0x20, 1, 1 << bit)) for bit in (*range(14), *range(18, 23))),
    record(0x110B, pack("<iI", -8, 0x74) + b"a\0"),
    record(0x1141, pack("<HH", 330, 0) + RANGE + GAPS),
    record(0x1141, pack("<HH", 330, 1) + RANGE),
    record(0x1142, pack("<i", -12) + RANGE + GAPS),
    *(record(0x1143, pack("<HHI", 363, bit, 0xFF4) + RANGE + GAPS) for bit in range(2)),
    record(0x1144, pack("<i", 40)),
    record(0x1145, pack("<HHi", 335, 0x41, 40) + RANGE + GAPS),
    record(0x1145, pack("<HHi", 335, 0, -40) + RANGE),
    *(record(0x1153, pack("<IIH", 0x22, 1, 1 << bit) + b"g\0") for bit in range(11)),
    *(record(0x113A, pack("<iHBB", -56, 335, kind, 7)) for kind in range(4)),
    record(0x1139, pack("<IHHI", 0x100D, 1, 0, 0x74)),
    record(0x115E, pack("<IHHI", 0x9F44, 1, 5, 3)),
    record(0x115A, numbers(2, 0x1002, 0x1003, 5)),
    record(0x115B, numbers(2, 0x1002, 0x1003)),
    record(0x1168, numbers(1, 0x1002)),
    record(0x1137, pack("<IIIH", 4119, 0xE20000E0, 0x10, 1) + b".text\0"),
    record(0x1136, pack("<HBBIII", 1, 12, 0, 0x1000, 4119, 0x60000020) + b".text\0"),
    record(0x113D, b"\0cwd\0C: x\0\0"),
    record(0x1019, pack("<IHH", 0x10, 1, 2) + b"one\0two\0"),
)


def place(text):
    section, offset = (int(it, 16) for it in text.split(":"))
    return f"{section:04}:{offset:04}"


def all_flags(names, text, between):
    return between.join(names.get(it, it) for it in text.split("+")) if text != "-" else ""


def listed(text):
    return [] if text == "-" else text.split(",")


def values(kind, fields):
    """The fields of a record as LLVM writes their values."""
    found = dict(fields)
    if "range" in found:
        start, length = found["range"].split("+")
        found |= {"start": place(start), "length": length, "range": f"[{place(start)},+{length})"}
        found["gaps"] = "[" + ", ".join("({},{})".format(*it.split("+")) for it in listed(found["gaps"])) + "]"
    for name in "register", "local_base", "param_base":
        if name in found:
            found[name] = "NONE" if found[name] == "-" else found[name].upper()
    for name in "exception_handler", "offset":
        if ":" in found.get(name, ""):
            found[name] = place(found[name])
    if "type_index" in found:
        found["type_index"] = f"0x{int(found['type_index'], 16):04X}"
    if "flags" in found and kind in ("S_FRAMEPROC", "S_FILESTATIC"):
        found["flags"] = all_flags(FRAME_FLAGS if kind == "S_FRAMEPROC" else VARIABLE_FLAGS, found["flags"], " | ")
    if "characteristics" in found:
        bits = int(found["characteristics"], 16)
        found["characteristics"] = " ".join(text for bit, text in CHARACTERISTICS.items() if bits & bit)
    if kind == "S_ENVBLOCK":
        found["strings"] = found["strings"].replace(" ", "")
    if "address" in found:
        found["address"] = str(int(found["address"], 16))
    if "functions" in found:
        found["functions"] = " ".join(f"callee: 0x{int(it, 16):04X}" for it in listed(found["functions"]))
    if kind == "S_FRAMECOOKIE":
        found |= {"cookie": COOKIES[found["cookie"]], "offset": str(int(found["offset"]) % 2**32)}
    found["certain"] = "false" if found.get("maybe") == "true" else "true"
    found["spilled"] = "false" if found.get("subfield") == "-" else "true"
    found["subfield"] = found.get("subfield", "").replace("-", "0")
    return found


def told_by_llvm(path):
    """Each record that LLVM prints of a module: the module, the index and the kind, with the name and the rest on one line."""
    found, number, key = {}, None, None
    for line in dumped(path, "-symbols").splitlines():
        head, start = HEAD.match(line), re.match(r"^ *Mod (\d+) \| ", line)
        if start:
            number, key = int(start[1]), None
        elif head and number is not None:
            key = number, int(head[1]), head[2]
            found[key] = head[3], [head[4]]
        elif key:
            found[key][1].append(line)
    return {key: (name, " ".join(" ".join(lines).split())) for key, (name, lines) in found.items()}


def plain(kind, text):
    """What LLVM prints of a record, without the names of types and of functions. Strings have commas between them, and those
    of the environment no blanks, of which lines are joined here."""
    if kind == "S_ENVBLOCK":
        return text.removeprefix("- ").replace(" - ", ",").replace(" ", "")
    if kind == "S_ANNOTATION":
        front, strings = text.split("[ ")
        return f"{front}[ {strings.replace(' ', ',')}"
    return NAMED.sub(r"\1", text).removesuffix(" none")


def compare_records(what, path):
    """The kinds of the records of a file, of which each that LLVM prints was compared."""
    given, keys, number = told_by_llvm(path), set(), None
    for line in ran("symbols", "--all", path)[1].decode("latin-1").splitlines():
        found, start = LINE.match(line), re.match(r"module (\d+) ", line)
        number = int(start[1]) if start else number
        key = found and (number, int(found[1], 16), found[2])
        if key not in given or found[2] not in TEXTS:
            continue
        name, text = given[key]
        fields = [*re.findall(r" (\w+)=(\S*)", found[3]), ("strings", found[4])]
        wanted = TEXTS[found[2]].format(**values(found[2], fields)).strip()
        tell((name or "", plain(found[2], text)) == (found[5] or "", wanted), f"{what}: {line.strip()}", (name, text, wanted))
        keys.add(key)
    tell(keys == {it for it in given if it[2] in TEXTS}, f"{what}: records that llvm-pdbutil prints", len(keys))
    return {kind for _, _, kind in keys}


def with_records(room, body):
    """A real file whose first module has these records in place of its own."""
    with open(f"{FILES}/cpp-lld.pdb", "rb") as it:
        damaged = Damaged(it.read(), 0)
    rest = damaged.symbols - 4 - len(body)
    body += pack("<HHI", rest - 2, 0x1101, 0) + bytes(rest - 8)
    damaged.put(4, int.from_bytes(body, "little"), len(body))
    path = f"{room}/records.pdb"
    with open(path, "wb") as it:
        it.write(damaged.data)
    return path


def compare_registers(room, machine):
    """How many registers of a machine have the name that LLVM has for them; it names fewer."""
    numbers_named, count = sorted(number for its, number in NAMES if its == machine), 0
    compiler = record(0x113C, bytes(4) + pack("<9H", CPUS[machine], *8 * [0]) + b"c\0")
    for start in range(0, len(numbers_named), 150):
        them = numbers_named[start : start + 150]
        path = with_records(room, compiler + b"".join(record(0x1141, pack("<HH", it, 0) + RANGE) for it in them))
        given = re.findall(r"S_DEFRANGE_REGISTER register=(\w+) ", ran("symbols", path, "0")[1].decode())
        told = [re.match(r"register = (?:AMD64_|ARM64_|ARM_)?(.*?), may", text)[1].lower() for (module, _, kind), (_, text) in told_by_llvm(path).items() if module == 0 and kind == "S_DEFRANGE_REGISTER"]
        tell(len(given) == len(told) == len(them), f"registers of {machine}", (len(given), len(told), len(them)))
        other = [it for it in zip(them, given, told) if it[1] != it[2] and (machine, it[0]) not in OTHERWISE and not it[2].startswith("unknown ")]
        tell(not other, f"names of registers of {machine} beside llvm-pdbutil", other)
        count += sum(a == b for a, b in zip(given, told))
    return count


def pdbutil_records(room):
    """Made records, the real files, and those of the folder PDB_FILES."""
    if not shutil.which("llvm-pdbutil") or b"LLVM version 14." not in ran("--version", program="llvm-pdbutil")[1]:
        print("skipped: records beside llvm-pdbutil of LLVM 14, which isn't installed")
        return
    kinds = compare_records("made records", with_records(room, b"".join(MADE)))
    tell(kinds == set(TEXTS), "kinds that llvm-pdbutil reads", sorted(set(TEXTS) - kinds))
    count = sum(compare_registers(room, machine) for machine in CPUS)
    tell(count > 700, "registers that llvm-pdbutil names", count)
    further = sorted(glob.glob(f"{CORPUS}/*.pdb")) if CORPUS else []
    kinds = set()
    for path in [f"{FILES}/{name}.pdb" for name in REAL] + further:
        kinds |= compare_records(os.path.basename(path), path)
    tell(len(kinds) > 6, "kinds of real files that llvm-pdbutil reads", sorted(kinds))
