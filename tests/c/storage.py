"""Variables and further records of the C library: beside what `pdb_tool` prints, and records made by hand."""
import re
from struct import pack

X64 = 0x8664
ADDRESSES = 400


def pack_all(kind, text):
    """A record by its kind and its numbers in hex digits, each as wide as it is written, and words in quotes."""
    parts = [pack("<H", kind)]
    for it in text.split():
        if it[0] == "'":
            parts.append(it.strip("'").encode() + b"\0")
        elif it[0] == "-":
            parts.append(pack("<i", int(it)))
        else:
            parts.append(int(it, 16).to_bytes(len(it) // 2, "little"))
    return b"".join(parts)


# Each layout of a further record: its kind, its bytes, and what the row has that isn't 0 or empty. `place` is the offset in
# a section, and the section.
RECORDS = (
    (0x1012, "00000011 00000012 00000013 00000014 00000015 0016 00054001", {"size": 0x11, "place": (0x15, 0x16), "flags": 0x54001}),
    (0x110B, "-20 00001021 'b'", {"location": 3, "displacement": -20, "type_index": 0x1021, "name": b"b"}),
    (0x113F, "00000031 00000032 0033 0034 0035 0036", {"location": 5, "number": 0x31, "place": (0x32, 0x33), "size": 0x34, "gaps": [(0x35, 0x36)]}),
    (0x1140, "00000041 00000042 00000043 0044 0045", {"location": 5, "number": 0x41, "part": 0x42, "place": (0x43, 0x44), "size": 0x45}),
    (0x1141, "0051 0001 00000053 0054 0055 0056 0057 0058 0059", {"location": 1, "number": 0x51, "place": (0x53, 0x54), "size": 0x55, "gaps": [(0x56, 0x57), (0x58, 0x59)]}),
    (0x1142, "-61 00000062 0063 0064", {"location": 4, "displacement": -61, "place": (0x62, 0x63), "size": 0x64}),
    (0x1143, "0071 0001 00000072 00000073 0074 0075", {"location": 1, "number": 0x71, "part": 0x72, "place": (0x73, 0x74), "size": 0x75}),
    (0x1144, "-81", {"location": 4, "displacement": -81}),
    (0x1145, "0091 0921 -93 00000094 0095 0096", {"location": 2, "number": 0x91, "part": 0x92, "displacement": -93, "place": (0x94, 0x95), "size": 0x96}),
    (0x1153, "000010a1 000000a2 0601 'f'", {"type_index": 0x10A1, "flags": 0x601, "name": b"f"}),
    (0x113A, "-177 00b2 01 b3", {"location": 2, "number": 0xB2, "displacement": -177, "flags": 0xB3}),
    (0x1139, "000000c1 00c2 0000 000010c3", {"place": (0xC1, 0xC2), "type_index": 0x10C3}),
    (0x115E, "000000d1 00d2 00d3 000010d4", {"place": (0xD1, 0xD2), "size": 0xD3, "type_index": 0x10D4}),
    (0x115A, "00000001 000010e1 00000002", {}),
    (0x1159, "000000f1 00f2 0004 000000f3 000000f4 00f5 00f6 000000f7", {"place": (0xF3, 0xF5)}),
    (0x1137, "00000101 00000102 00000103 0104 'g'", {"size": 0x101, "flags": 0x102, "place": (0x103, 0x104), "name": b"g"}),
    (0x1136, "0111 0c 00 00000113 00000114 00000115 's'", {"place": (0, 0x111), "size": 0x114, "flags": 0x115, "name": b"s"}),
    (0x113D, "01 'k' 'v' 00", {"flags": 1}),
    (0x1019, "00000131 0132 0001 'x'", {"place": (0x131, 0x132)}),
    (0x115C, "00000141 0000000000000142 00000143 00000144", {}),
    (0x1169, "00001151 'h'", {"name": b"h"}),
    (0x112A, "00000160 00000161 00000162 00000163 00000164 00000165 00000166 00000167 0168 69 0000 'm'", {"size": 0x163, "place": (0x167, 0x168), "flags": 0x69, "name": b"m"}),
    (0x1129, "00000171 00000172 0173 't'", {"name": b"t"}),
    (0x0404, "01020304050607080910111213141516 00001181 0182", {"type_index": 0x1181}),
    (0x1154, "00001191 0192 0193 0194 'l'", {"type_index": 0x1191, "flags": 0x192, "name": b"l"}),
    (0x1158, "000001a1 -162", {}),
    (0x100D, "-181 000011b2 01b3 01 72", {"location": 2, "displacement": -181, "type_index": 0x11B2, "number": 0x1B3, "name": b"r"}),
    (0x1104, "000001c1 000001c2 000001c3 000001c4 01c5 'w'", {"size": 0x1C3, "place": (0x1C4, 0x1C5), "name": b"w"}),
    (0x100C, "000011d1 000011d2 000001d3 01d4", {"type_index": 0x11D1, "place": (0x1D3, 0x1D4)}),
    (0x115F, "00000012 01e1 01e2", {"flags": 0x12}),
    (0x1160, "000001f1 01f2 001f 'n'", {"flags": 0x1F, "name": b"n"}),
    (0x113B, "00000001 00000201 00000202 0203", {}),
    (0x0001, "d0 01 0211 01 63", {"flags": 0x211, "name": b"c"}),
    (0x0005, "00000221 0222", {}),
    (0x000A, "", {}),
    (0x111A, "00000241 00001242 'p'", {"type_index": 0x1242, "name": b"p"}),
    (0x1120, "00000251 00001252 00000253 0254 0255 'q'", {"type_index": 0x1252, "place": (0x253, 0x254), "flags": 0x255, "name": b"q"}),
    (0x111E, "-261 00001262 00000263 0264 0265 'u'", {"location": 4, "displacement": -261, "type_index": 0x1262, "place": (0x263, 0x264), "flags": 0x265, "name": b"u"}),
    (0x111F, "00001271 00000272 0273 0274 0275 'v'", {"location": 1, "type_index": 0x1271, "place": (0x272, 0x273), "flags": 0x274, "number": 0x275, "name": b"v"}),
    (0x1122, "-281 00001282 0283 00000284 0285 0286 'z'", {"location": 2, "displacement": -281, "type_index": 0x1282, "number": 0x283, "place": (0x284, 0x285), "flags": 0x286, "name": b"z"}),
)


def row_of(it):
    """What a record has that isn't 0 or empty."""
    row = {
        "name": it.name,
        "type_index": it.type_index,
        "flags": it.flags,
        "location": int(it.storage.location),
        "number": it.storage.number,
        "displacement": it.storage.displacement,
        "part": it.storage.part,
        "size": it.size,
        "place": None if it.offset is None else (it.offset, it.section),
        "gaps": [(gap.start, gap.size) for gap in it.gaps],
    }
    return {key: value for key, value in row.items() if value}


def made(note, pdbreader, header):
    """Each layout, in the order of the header's names; and each record without its last byte of numbers."""
    names = re.findall(r"PDB_\w+", header[header.index("PDB_FRAME_PROCEDURE = 1") :].split("}")[0])
    note("names of layouts", len(names) == len(set(names)) == len(RECORDS), names)
    for form, (kind, text, wanted) in enumerate(RECORDS, 1):
        data = pack_all(kind, text)
        found = pdbreader.record(data)
        note(f"{names[form - 1]}", found.form == form and row_of(found) == wanted, found)
        size = 2 + sum(4 if it[0] == "-" else len(it) // 2 for it in text.split() if it[0] != "'")
        if kind in (0x113D, 0x1158, 0x0404, 0x113B, 0x113F, 0x1141):
            continue
        for end in range(size - 1, 0, -max(1, size // 4)):
            try:
                pdbreader.record(data[:end])
                note(f"{names[form - 1]} of {end} bytes", kind == 0x115A and end >= 10, "no error")
            except pdbreader.PdbError as error:
                note(f"{names[form - 1]} of {end} bytes", type(error) is (pdbreader.UnexpectedEof if end > 1 else pdbreader.SymbolTooShort), error)


def fields_of(line):
    """The fields of a line of `pdb_tool symbols`, by their names."""
    return dict(re.findall(rb" (\w+)=(\S+)", line))


def agrees(pdbreader, it, line):
    """Whether a record has what the program prints of it."""
    place = b"-" if it.offset is None else b"%04x:%08x" % (it.section, it.offset)
    storage, number = it.storage, it.storage.number
    gaps = b",".join(b"%d+%d" % (gap.start, gap.size) for gap in it.gaps) or b"-"
    same = {
        b"type_index": b"%08x" % it.type_index,
        b"range": b"%s+%d" % (place, it.size),
        b"gaps": gaps,
        b"register": pdbreader.register_name(X64, number).encode() or b"%04x" % number,
        b"offset_in_parent": b"%d" % (storage.part or 0),
        b"subfield": b"-" if storage.part is None else b"%d" % storage.part,
        b"len": b"%d" % it.size,
        b"frame_bytes": b"%d" % it.size,
        b"instruction_bytes": b"%d" % it.size,
        b"exception_handler": place,
        b"characteristics": b"%08x" % it.flags,
        b"program": b"%d" % number,
    }
    shown = fields_of(line)
    if b"offset" in shown:
        same[b"offset"] = place if b":" in shown[b"offset"] else b"%d" % storage.displacement
    named = not it.name or line.endswith(b" " + it.name)
    return named and all(shown.get(key, value) == value for key, value in same.items())


def of_files(note, run, pdbreader, files, tool):
    """Every further record of files for x86-64, beside the lines of the program."""
    for file in files:
        it, seen = pdbreader.PdbFile.open(file), 0
        for k, module in enumerate(it.modules()):
            lines = run([tool, "symbols", file, str(k)]).stdout.splitlines()
            lines = {int(line.split()[0], 16): line for line in lines if re.match(rb"[0-9a-f]{8} ", line.strip())}
            for symbol in module.symbols():
                if symbol.error is None or symbol.error.code != 12:
                    continue
                try:
                    found = pdbreader.record(symbol.record)
                except pdbreader.PdbError as error:
                    note(f"{file}: {symbol.index:x}", error.code == 12 and b" bytes=" in lines[symbol.index], error)
                    continue
                seen += 1
                note(f"{file}: {symbol.index:x}", agrees(pdbreader, found, lines[symbol.index]), (found, lines[symbol.index]))
        note(f"further records of {file}", seen, seen)


def of_code(note, run, room, files, tool, addresses_of_code):
    """The example's text at bytes of code, which is the program's."""
    for file in files:
        addresses = [f"{it:x}" for it in addresses_of_code(file)]
        for at in range(0, len(addresses), ADDRESSES):
            words = [file, *addresses[at : at + ADDRESSES]]
            wanted = run([tool, "variables", *words])
            done = run([f"{room}/variables", *words])
            note(f"variables of {file} from {addresses[at]} on", wanted.returncode == done.returncode == 0 and done.stdout == wanted.stdout, done)


def of_python(note, pdbreader, file):
    """A variable in parts, and parameters, by the Python package."""
    it = pdbreader.PdbFile.open(file)
    (found,) = it.variables([pdbreader.Address(0x15, 1)])
    parts = [(storage.part, pdbreader.register_name(X64, storage.number)) for storage in found[-1].storages]
    note("a variable in parts", found[-1].name == b"m" and parts == [(0, "r11d"), (4, "r10d")], found)
    shown = [(v.name, pdbreader.register_name(X64, v.storages[0].number), v.storages[0].displacement) for v in found[:5]]
    note("parameters", shown == [(b"a", "ecx", 0), (b"b", "edx", 0), (b"c", "r8d", 0), (b"d", "r9d", 0), (b"e", "rsp", 40)], shown)
    note("kinds of variables", [int(v.kind) for v in found] == [1] * 8 + [2] and {v.call for v in found} == {None}, found)
    note("registers of frames", [pdbreader.frame_register(X64, n) for n in range(5)] == [0, 335, 334, 341, 0])
