"""list.py FILE COMMAND..: the lines that `pdb_list FILE COMMAND..` has for info, names, sections, modules, contributions,
globals, symbols K, lines K, files K, inlinees K, imports K INDEX and exports K.

    python3 examples/list.py FILE COMMAND..
"""
import os
import sys

# In a clone of the repository the package stands beside this folder.
sys.path.append(os.path.join(os.path.dirname(os.path.abspath(__file__)), "..", "python"))
import pdbreader  # noqa: E402
from pdbreader import Form  # noqa: E402

OUT = sys.stdout.buffer.write
USAGE = """usage: list.py FILE COMMAND.., of info, names, sections, modules, contributions, globals, symbols K, lines K, files K, \
inlinees K, imports K INDEX, exports K"""
# How many numbers stand behind a command.
NUMBERS = {
    **dict.fromkeys(("info", "names", "sections", "modules", "contributions", "globals"), 0),
    **dict.fromkeys(("symbols", "lines", "files", "inlinees", "exports"), 1),
    "imports": 2,
}
FORMS = {it: "".join(map(str.capitalize, it.name.split("_"))).encode() for it in Form}
VERSIONS = {930803: b"V41", 19960307: b"V50", 19970606: b"V60", 19990903: b"V70", 20091201: b"V110"}
MACHINES = {
    0x13: b"Am33",
    0x8664: b"Amd64",
    0x1C0: b"Arm",
    0xAA64: b"Arm64",
    0x1C4: b"ArmNT",
    0xEBC: b"Ebc",
    0x14C: b"X86",
    0x200: b"Ia64",
    0x9041: b"M32R",
    0x266: b"Mips16",
    0x366: b"MipsFpu",
    0x466: b"MipsFpu16",
    0x1F0: b"PowerPC",
    0x1F1: b"PowerPCFP",
    0x166: b"R4000",
    0x5032: b"RiscV32",
    0x5064: b"RiscV64",
    0x5128: b"RiscV128",
    0x1A2: b"SH3",
    0x1A3: b"SH3DSP",
    0x1A6: b"SH4",
    0x1A8: b"SH5",
    0x1C2: b"Thumb",
    0x169: b"WceMipsV2",
    0xFFFF: b"Invalid",
}


def or_dash(number):
    return b"-" if number is None else b"%d" % number


def info(file):
    it = file.information
    OUT(b"info %s %d %d %s\n" % (VERSIONS.get(it.version, b"%d" % it.version), it.signature, it.age, it.guid.hex.encode()))
    header = file.debug_information
    OUT(b"dbi %s %s\n" % (or_dash(header.age or None), MACHINES.get(header.machine, b"Unknown")))


def names(file):
    for it in file.stream_names():
        OUT(b"name %s %s\n" % (or_dash(it.number), it.name))


def sections(file):
    try:
        for it in file.sections():
            memory = b"%08x %08x" % (it.virtual_size, it.virtual_address)
            data = b"%08x %08x" % (it.size_of_raw_data, it.pointer_to_raw_data)
            OUT(b"section %s %s %08x %s\n" % (memory, data, it.characteristics, it.name))
    except pdbreader.SectionsNotFound:
        OUT(b"none\n")


def contributions(file):
    for it in file.contributions():
        numbers = (it.size, it.characteristics, it.module, it.data_crc, it.reloc_crc)
        OUT(b"contribution %04x:%08x %d %08x %d %08x %08x\n" % (it.section, it.offset, *numbers))


def modules(file):
    for place, it in enumerate(file.modules()):
        OUT(b"module %d %s %d %d %d %s\nobject %s\n" % (place, or_dash(it.record.stream), *it.sizes, it.name, it.object))


def put_symbols(rows):
    for it in rows:
        if it.error:
            told = b"refused %d" % it.error.code
        else:
            told = FORMS[it.form] + (b"" if it.name is None else b" " + it.name)
        OUT(b"symbol %08x %04x %s\n" % (it.index, it.kind, told))


def put_lines(rows):
    for it in rows:
        place = b"%04x:%08x %s" % (it.section, it.offset, or_dash(it.length))
        columns = b"%s %s" % (or_dash(it.column_start), or_dash(it.column_end))
        kind = b"S" if it.is_statement else b"E"
        OUT(b"line %s %d %d %d %s %s\n" % (place, it.file, it.line_start, it.line_end, columns, kind))


def put_files(rows):
    for it in rows:
        digest = b" " + it.checksum.hex().encode() if it.checksum else b""
        OUT(b"file %d %s%s\n" % (it.name, it.kind.name.lower().encode(), digest))


def put_inlinees(module):
    known, procedure = {}, None
    for it in module.inlinees():
        OUT(b"inlinee %08x\n" % it.id)
        known.setdefault(it.id, it)
    for it in module.symbols():
        if it.form == Form.PROCEDURE:
            procedure = it
        elif it.form == Form.INLINE_SITE:
            OUT(b"site %08x %08x\n" % (it.index, it.inlinee))
            function = known.get(it.inlinee)
            if procedure is not None and function is not None:
                place = (procedure.section, procedure.offset)
                put_lines(pdbreader.inlined_lines(it.annotations, *place, function.file, function.line))


def put_import(module, index):
    rows, place, number = module.imports(), index >> 20 & 0x7FF, index & 0xFFFFF
    if index < 1 << 31:
        raise pdbreader.NotACrossModuleRef
    if place >= len(rows) or number >= len(rows[place].numbers):
        raise pdbreader.CrossModuleRefNotFound
    OUT(b"import %d %08x\n" % (rows[place].name, rows[place].numbers[number]))


def put_exports(rows):
    for it in rows:
        OUT(b"export %s %08x %08x\n" % (b"id" if it.local >> 31 else b"type", it.local, it.global_index))


def put_of_module(file, command, k, *index):
    module = next((it for place, it in enumerate(file.modules()) if place == k), None)
    if module is None or module.record.stream is None:
        OUT(b"none\n")
    elif command == "symbols":
        put_symbols(module.symbols())
    elif command == "lines":
        put_lines(module.lines())
    elif command == "files":
        put_files(module.files())
    elif command == "inlinees":
        put_inlinees(module)
    elif command == "imports":
        put_import(module, *index)
    else:
        put_exports(module.exports())


# What prints the lines of a command without a module.
PLAIN = {"info": info, "names": names, "sections": sections, "modules": modules, "contributions": contributions}


def put(file, command, numbers):
    if command in PLAIN:
        PLAIN[command](file)
    elif command == "globals":
        put_symbols(file.global_symbols())
    else:
        put_of_module(file, command, *numbers)


def number(word):
    """An argument of at most ten decimal digits, below 2^32; None for another one."""
    well = word.isascii() and word.isdigit() and len(word) <= 10 and int(word) < 1 << 32
    return int(word) if well else None


def commands(words):
    """The commands that the arguments are, each with its numbers."""
    left = iter(words)
    for word in left:
        if word not in NUMBERS:
            stop(2, f"list.py: no command: {word}\n{USAGE}")
        numbers = []
        for _ in range(NUMBERS[word]):
            given = next(left, None)
            numbers.append(None if given is None else number(given))
            if numbers[-1] is None:
                stop(2, f"list.py: {word}: not a number: {given or 'none'}\n{USAGE}")
        yield word, numbers


def stop(status, why):
    print(why, file=sys.stderr)
    sys.exit(status)


def main(words):
    if len(words) < 2:
        stop(2, USAGE)
    asked = list(commands(words[1:]))
    try:
        file = pdbreader.PdbFile.open(words[0])
    except pdbreader.OutOfMemory:
        stop(5, "out of memory")
    except pdbreader.PdbError as error:
        stop(4, f"cannot open: {error.code}")
    except OSError as error:
        stop(3, f"list.py: {words[0]}: {error.strerror}")
    for command, numbers in asked:
        try:
            put(file, command, numbers)
        except pdbreader.OutOfMemory:
            stop(5, "out of memory")
        except pdbreader.PdbError as error:
            OUT(b"error %d\n" % error.code)


if __name__ == "__main__":
    try:
        main(sys.argv[1:])
        sys.stdout.flush()
    except BrokenPipeError:
        # What is left isn't written when the program ends.
        os.dup2(os.open(os.devnull, os.O_WRONLY), sys.stdout.fileno())
        sys.exit(6)
