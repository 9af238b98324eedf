"""`pdb_tool variables` over made files: the records of one module each, and the texts of some places, worked out by hand from
docs/DEFINITIONS.md (Variables at a place)."""
from struct import pack

from across import ids_of, made_file, numbers, record, subsection
from program import compare, notice_of, ran, tell

# Registers of x64: ecx and edx, rcx and rdx, rsp; and of frames: that of locals is rsp, that of parameters rbp.
ECX, EDX, RCX, RDX, RSP = 18, 19, 330, 331, 335
RSP_AND_RBP = 1 << 14 | 2 << 16
INT, CHAR = 0x74, 0x70
MANY = 20_000
# The index at which no scope has ended.
FAR = 0xFFFFFF
END = record(0x0006, b"")
SITE_END = record(0x114E, b"")
# Functions with the ids 1000, 1001 and 1002, which begin in the lines 10, 20 and 30 of no file.
INLINED = subsection(0xF6, numbers(0, 0x1000, 0, 10, 0x1001, 0, 20, 0x1002, 0, 30))
IDS = ids_of([b"one", b"two", b"three"])


def procedure(name, offset=0x100, length=0x40, kind=0x1110):
    return record(kind, numbers(0, FAR, 0, length, 0, 0, 0, offset) + pack("<HB", 1, 0) + name + b"\0")


def block(offset, length):
    return record(0x1103, numbers(0, 0, length, offset) + pack("<H", 1) + b"\0")


def separated(offset, length):
    """Code of the procedure at 1:100."""
    return record(0x1132, numbers(0, FAR, length, 0, offset, 0x100) + pack("<HH", 1, 1))


def site(number, offset, length):
    """A call of an inlined function, of so many bytes from so many behind the procedure's start on."""
    return record(0x114D, numbers(0, 0, number) + bytes([12, length, offset]))


def local(name, parameter=0, kind=INT):
    return record(0x113E, numbers(kind) + pack("<H", parameter) + name + b"\0")


def extent(offset, length, *gaps, section=1):
    return pack("<IHH", offset, section, length) + b"".join(pack("<HH", *it) for it in gaps)


def in_register(number, *where, **section):
    return record(0x1141, pack("<HH", number, 0) + extent(*where, **section))


def in_frame(displacement, *where):
    """In memory of the frame; without a range in all of the function."""
    return record(0x1142 if where else 0x1144, pack("<i", displacement) + (extent(*where) if where else b""))


def register(name, number, kind=INT):
    return record(0x1106, numbers(kind) + pack("<H", number) + name + b"\0")


def relative(name, displacement, kind=INT):
    """In memory of rsp."""
    return record(0x1111, pack("<iIH", displacement, kind, RSP) + name + b"\0")


def frame(flags=RSP_AND_RBP, size=26):
    return record(0x1012, (bytes(22) + numbers(flags))[:size])


def text(name, *lines):
    """The text of a place in a function without lines."""
    return b"".join(it + b"\n" for it in (name, b"??:0:0", *(b"  " + it for it in lines), b""))


def rows(lines, *words):
    """These lines of the function f at several places."""
    return {word: text(b"f", *lines) for word in words}


# The text of a place without a function.
NOWHERE = b"??\n??:0:0\n\n"

OVERLAPPING_GAPS = (
    # Bytes 2 to 11 of 32: the gaps have 4 to 9, 8 to 11 and 2 to 4, in no order.
    procedure(b"f") + local(b"a") + in_register(RCX, 0x100, 0x20, (4, 6), (8, 4), (2, 3)) + END,
    {
        **rows([b"local rcx a"], "1:100", "1:101", "1:10c", "1:11f"),
        **rows([b"local - a"], "1:102", "1:103", "1:104", "1:107", "1:108", "1:109", "1:10a", "1:10b", "1:120"),
    },
)

GAPS_PAST_THE_END = (
    # The first gap goes far past its range, and takes nothing of the next one. A gap that begins at the end takes nothing.
    procedure(b"f") + local(b"a") + in_register(RCX, 0x100, 0x10, (8, 0xFFFF)) + in_register(RDX, 0x110, 0x10, (0x10, 4), (0xFFFF, 0xFFFF)) + END,
    {
        **rows([b"local rcx a"], "1:100", "1:107"),
        **rows([b"local - a"], "1:108", "1:10f", "1:120"),
        **rows([b"local rdx a"], "1:110", "1:111", "1:11f"),
    },
)

OTHER_SECTIONS = (
    procedure(b"f") + local(b"a") + in_register(RCX, 0x100, 0x40, section=2) + in_register(RDX, 0x110, 0x10) + local(b"b") + in_register(RCX, 0x100, 0x40, section=0) + END,
    {
        **rows([b"local - a", b"local - b"], "1:100", "1:10f", "1:120"),
        **rows([b"local rdx a", b"local - b"], "1:110"),
        "2:100": NOWHERE,
    },
)

NESTED_SCOPES = (
    procedure(b"f") + register(b"a", RCX)
    + block(0x110, 0x10) + register(b"b", RCX) + block(0x114, 4) + register(b"c", RCX) + END + register(b"d", RCX) + END
    + block(0x118, 0x28) + register(b"e", RCX) + END
    + block(0x110, 0) + register(b"none", RCX) + END
    # A block that is behind its function has no code of it, and one in it is left out with it.
    + block(0x200, 0x10) + block(0x100, 0x40) + register(b"none", RCX) + END + END
    # Members of a variable are named alone, in all code.
    + record(0x1104, numbers(0, 0, 0, 0x300) + pack("<H", 1) + b"w\0") + register(b"g", RDX) + END
    + END,
    {
        **rows([b"local rcx a", b"local rdx g"], "1:100", "1:10f"),
        **rows([b"local rcx a", b"local rcx b", b"local rcx d", b"local rdx g"], "1:110", "1:113"),
        **rows([b"local rcx a", b"local rcx b", b"local rcx c", b"local rcx d", b"local rdx g"], "1:114", "1:117"),
        **rows([b"local rcx a", b"local rcx b", b"local rcx d", b"local rcx e", b"local rdx g"], "1:118", "1:11f"),
        **rows([b"local rcx a", b"local rcx e", b"local rdx g"], "1:120", "1:13f"),
        "1:140": NOWHERE,
    },
)

SCOPES_WITHOUT_AN_END = (
    # The block doesn't end, so that g stands in it, and d behind g too. Nothing ends h, f and the block.
    procedure(b"f") + register(b"a", RCX) + block(0x110, 0x10) + register(b"b", RCX)
    + procedure(b"g", 0x140, 0x10) + register(b"c", RCX) + END + register(b"d", RDX)
    + procedure(b"h", 0x150, 0x10) + register(b"e", RCX),
    {
        **rows([b"local rcx a"], "1:100", "1:10f", "1:120"),
        **rows([b"local rcx a", b"local rcx b", b"local rdx d"], "1:110", "1:11f"),
        "1:140": text(b"g", b"local rcx c"),
        "1:150": text(b"h", b"local rcx e"),
    },
)

ENDS_WITHOUT_A_SCOPE = (
    END + procedure(b"f") + register(b"a", RCX) + END + register(b"b", RCX) + END + SITE_END + procedure(b"g", 0x140, 0x10) + register(b"c", RCX) + END + register(b"d", RCX),
    {**rows([b"local rcx a"], "1:100", "1:13f"), "1:140": text(b"g", b"local rcx c")},
)

# Block k has the bytes from k on up to k before the function's end.
ALL_64 = [b"local rcx v%d" % k for k in range(64)]
SCOPES_64_DEEP = (
    procedure(b"f", 0x100, 0x100) + frame()
    + b"".join(block(0x100 + k, 0x100 - 2 * k) + register(b"v%d" % k, RCX) for k in range(64))
    + local(b"last") + in_frame(8) + 64 * END + register(b"own", RDX) + END,
    {
        **rows([ALL_64[0], b"local rdx own"], "1:100", "1:1ff"),
        **rows([*ALL_64[:32], b"local rdx own"], "1:11f", "1:1e0"),
        **rows([*ALL_64[:63], b"local rdx own"], "1:13e", "1:1c1"),
        **rows([*ALL_64, b"local [rsp+8] last", b"local rdx own"], "1:13f", "1:180", "1:1c0"),
    },
)

RANGES_WITHOUT_A_VARIABLE = (
    # Behind the function, behind a variable in a register, behind a scope's end, and behind an unknown record.
    procedure(b"f") + in_register(RCX, 0x100, 0x40) + in_frame(8)
    + register(b"r", RDX) + in_register(RCX, 0x100, 0x40)
    + block(0x100, 0x40) + local(b"c") + END + in_register(RCX, 0x100, 0x40)
    + local(b"a") + record(0x9999, b"") + in_register(RCX, 0x100, 0x40)
    # Records of ranges that aren't read end nothing, nor do those that are cut off.
    # Neither does what fills a gap, which is no record.
    + local(b"b") + record(0x1150, b"") + record(0x1157, bytes(40)) + record(0x1141, b"\x11\0") + record(0x0007, bytes(8)) + record(0x0402, b"") + in_register(RCX, 0x100, 0x40) + END,
    rows([b"local rdx r", b"local - c", b"local - a", b"local rcx b"], "1:100", "1:13f"),
)

TOLD_TWICE = (
    procedure(b"f")
    # By its name and its type a is told again, before its ranges and behind them; another type makes it another variable.
    + relative(b"a", 8) + relative(b"a", 16, CHAR) + local(b"a") + in_register(RCX, 0x100, 8) + register(b"a", RDX) + record(0x110B, pack("<iI", 24, INT) + b"a\0")
    # Variables with ranges of a block count in all of the function, those of a call don't.
    + relative(b"b", 32) + block(0x110, 0x10) + local(b"b") + in_frame(40) + register(b"a", RDX) + register(b"c", RDX) + END
    + site(0x1000, 0x20, 8) + local(b"c") + in_frame(48) + SITE_END + relative(b"c", 56)
    # A site whose record is cut off is none: so those in it count, and yet it is never entered.
    + record(0x114D, numbers(0)) + local(b"e") + in_frame(64) + SITE_END + relative(b"e", 72)
    # Data and constants are told, whatever they are called.
    + record(0x110C, numbers(INT, 0x2000) + pack("<H", 3) + b"a\0") + record(0x1107, numbers(INT) + pack("<H", 7) + b"a\0")
    + local(b"a") + END,
    {
        **rows([b"local [rsp+16] a", b"local rcx a", b"local [rsp+56] c", b"static 0003:00002000 a", b"constant 7 a", b"local - a"], "1:100", "1:107"),
        **rows([b"local [rsp+16] a", b"local - a", b"local [frame+40] b", b"local rdx c", b"local [rsp+56] c", b"static 0003:00002000 a", b"constant 7 a", b"local - a"], "1:110"),
        "1:120": b"one\n??:10:0\n  local [frame+48] c\n" + text(b"f", b"local [rsp+16] a", b"local - a", b"local [rsp+56] c", b"static 0003:00002000 a", b"constant 7 a", b"local - a"),
    },
)

SITES = (
    # The call of one has the bytes 8 to 15, in it that of two the bytes 12 to 19; the call of three is of no listed function.
    procedure(b"f")
    + site(0x1000, 8, 8) + local(b"x", 1) + in_register(RCX, 0x100, 0x40) + site(0x1001, 12, 8) + register(b"y", RDX) + SITE_END + relative(b"z", 8) + SITE_END
    + site(0x1005, 8, 8) + register(b"none", RCX) + SITE_END
    + register(b"a", ECX)
    # Where a block isn't entered, a call in it has a frame, and no variable.
    + block(0x130, 0x10) + site(0x1002, 0, 4) + register(b"w", EDX) + SITE_END + END + END,
    {
        **rows([b"local ecx a"], "1:107", "1:114", "1:13f"),
        "1:100": b"three\n??:30:0\n" + text(b"f", b"local ecx a"),
        "1:108": b"one\n??:10:0\n  param rcx x\n  local [rsp+8] z\n" + text(b"f", b"local ecx a"),
        "1:10c": b"two\n??:20:0\n  local rdx y\none\n??:10:0\n  param rcx x\n  local [rsp+8] z\n" + text(b"f", b"local ecx a"),
        "1:110": b"two\n??:20:0\n" + text(b"f", b"local ecx a"),
    },
)

def annotated(number, spelled, name):
    """A call with these annotations, and a variable of it."""
    return record(0x114D, numbers(0, 0, number) + bytes.fromhex(spelled)) + register(name, RCX) + SITE_END


ANNOTATIONS = (
    procedure(b"f", 0x100, 0x100)
    # Of a statement at 110 an expression says no length. Then 4 bytes at 11c, and 2 bytes at 130, a statement again: 5 is no kind.
    + annotated(0x1000, "0310 0800 0408 0304 0404 0801 0805 0310 0402", b"a")
    # The base 40, 4 bytes at 140. Then the offset 20 and the base 100, 3 bytes at 128.
    + annotated(0x1001, "0240 0300 0404 0120 028100 0308 0403 00", b"b")
    # 8 bytes at 150, up to the next one. Before an unknown annotation the last one is missing.
    + annotated(0x1002, "0350 0c0408 0e0e0e", b"c")
    # Likewise before a number that is spelled wrongly, and before one that is cut off.
    + annotated(0x1000, "0360 0404 0308 0404 e0000000", b"d")
    + annotated(0x1001, "0370 0404 0308 0404 0705 0780", b"e")
    # A number of two bytes, and one of four, which is the end of the list.
    + annotated(0x1002, "038080 0404 c0000000 0e0e0e", b"g") + END,
    {
        **{word: text(b"f") for word in ("1:110", "1:118", "1:120", "1:12b", "1:132", "1:144", "1:158", "1:15b", "1:164", "1:16c", "1:17c", "1:184")},
        **{word: b"one\n??:10:0\n  local rcx a\n" + text(b"f") for word in ("1:11c", "1:11f", "1:130", "1:131")},
        **{word: b"two\n??:20:0\n  local rcx b\n" + text(b"f") for word in ("1:140", "1:143", "1:128", "1:12a")},
        **{word: b"three\n??:30:0\n  local rcx c\n" + text(b"f") for word in ("1:150", "1:157")},
        **{word: b"one\n??:10:0\n  local rcx d\n" + text(b"f") for word in ("1:160", "1:163")},
        **{word: b"two\n??:20:0\n  local rcx e\n" + text(b"f") for word in ("1:170", "1:173")},
        **{word: b"three\n??:30:0\n  local rcx g\n" + text(b"f") for word in ("1:180", "1:183")},
    },
)

# Calls of one, two and three, at 100, 110 and 120.
CALLS = procedure(b"f") + site(0x1000, 0, 4) + register(b"a", RCX) + SITE_END + site(0x1001, 0x10, 4) + register(b"b", RCX) + SITE_END + site(0x1002, 0x20, 4) + register(b"c", RCX) + SITE_END + END
LISTED_FUNCTIONS = (
    CALLS,
    {"1:100": b"one\n??:1:0\n  local rcx a\n" + text(b"f"), "1:110": b"two\n??:2:0\n  local rcx b\n" + text(b"f"), "1:120": text(b"f")},
    # A part that is marked to be ignored, one of 5 bytes, and functions with further files, of which the last is cut off. A second
    # list of functions doesn't count.
    subsection(0x800000F6, numbers(0, 0x1002, 0, 3)) + pack("<II5s", 0xF5, 5, b"") + subsection(0xF6, numbers(1, 0x1000, 0, 1, 0, 0x1001, 0, 2, 2, 7, 8, 0x1002, 0, 3, 1))
    + subsection(0xF6, numbers(0, 0x1002, 0, 3)),
)
UNREAD_FUNCTIONS = (CALLS, rows([], "1:100", "1:110", "1:120"), subsection(0x01, b"") + INLINED)

OWN = local(b"p", 1) + in_frame(8, 0x100, 0x140) + local(b"a") + in_frame(16)
FRAMES = (
    # Without a frame's record; one behind the variables; one in a block alone; one that is cut off, and a second one.
    procedure(b"f") + OWN + END
    + procedure(b"g", 0x140) + OWN + frame() + frame(0) + END
    + procedure(b"h", 0x180) + block(0x180, 0x40) + frame() + OWN + END + END
    + procedure(b"i", 0x1C0) + frame(0, 20) + frame(3 << 14 | 1 << 16) + OWN + END
    + procedure(b"j", 0x200) + frame(0) + OWN + END,
    {
        **rows([b"param [frame+8] p", b"local [frame+16] a"], "1:100", "1:13f"),
        "1:140": text(b"g", b"param [rbp+8] p", b"local [rsp+16] a"),
        "1:180": text(b"h", b"param [frame+8] p", b"local [frame+16] a"),
        "1:1c0": text(b"i", b"param [rsp+8] p", b"local [r13+16] a"),
        "1:200": text(b"j", b"param [frame+8] p", b"local [frame+16] a"),
    },
)

# Separated code has a frame of its own, but not in eight scopes.
PART = frame(2 << 14) + local(b"x") + in_frame(8)
SEPARATED_CODE = (
    procedure(b"f", 0x100, 0x40) + frame(1 << 14)
    + separated(0x110, 0x10) + PART + END + local(b"y") + in_frame(16) + END
    + procedure(b"g", 0x140, 0x10) + frame(1 << 14) + 7 * block(0x140, 0x10) + separated(0x140, 0x10) + PART + 9 * END
    + procedure(b"h", 0x150, 0x10) + frame(1 << 14) + 8 * block(0x150, 0x10) + separated(0x150, 0x10) + PART + 10 * END
    # It is the function at places that no procedure has, with its procedure's name and its own variables.
    + separated(0x180, 0x10) + PART + END,
    {
        **rows([b"local [rsp+16] y"], "1:100", "1:120"),
        **rows([b"local [rbp+8] x", b"local [rsp+16] y"], "1:110", "1:11f"),
        "1:140": text(b"g", b"local [rbp+8] x"),
        "1:150": text(b"h", b"local [rsp+8] x"),
        "1:180": text(b"f", b"local [rbp+8] x"),
    },
)

PARTS = (
    procedure(b"f") + local(b"m")
    + record(0x1143, pack("<HHI", ECX, 0, 0xFFFFF004) + extent(0x100, 0x20))
    + record(0x1145, pack("<HHi", RSP, 8 << 4 | 1, -12) + extent(0x100, 0x10))
    + record(0x1140, numbers(7, 16) + extent(0x108, 0x10))
    + record(0x1145, pack("<HHi", RSP, 8 << 4, 0) + extent(0x118, 0x10))
    + record(0x113F, numbers(9) + extent(0x118, 0x18))
    + END,
    {
        **rows([b"local +4:ecx,+8:[rsp-12] m"], "1:100", "1:107"),
        **rows([b"local +4:ecx,+8:[rsp-12],+16:program:7 m"], "1:108", "1:10f"),
        **rows([b"local +4:ecx,+16:program:7 m"], "1:110", "1:117"),
        # Of two that have the whole variable the first counts.
        **rows([b"local [rsp] m"], "1:118", "1:127"),
        **rows([b"local program:9 m"], "1:128", "1:12f"),
        **rows([b"local - m"], "1:130"),
    },
)

WORDS = (
    procedure(b"f")
    + record(0x110D, numbers(INT, 0x10) + pack("<H", 2) + b"s\0") + record(0x1113, numbers(INT, 0xFFFFFFFF) + pack("<H", 0xFFFF) + b"t\0")
    + record(0x1107, numbers(INT) + pack("<Hb", 0x8000, -1) + b"c\0") + record(0x112D, numbers(INT) + pack("<HQ", 0x800A, 2**64 - 1) + b"u\0")
    + record(0x1002, numbers(INT) + pack("<H", 0x7FFF) + b"\1o")
    + record(0x1153, numbers(INT, 0) + pack("<H", 0) + b"fs\0") + in_register(ECX, 0x100, 0x40) + record(0x1153, numbers(INT, 0) + pack("<H", 1) + b"fp\0")
    + record(0x110B, pack("<iI", -8, INT) + b"bp\0") + record(0x100D, pack("<iIH", 0, INT, RSP) + b"\2ro")
    + register(b"n", 0x7777) + register(b"two\nlines", ECX) + register(b"", ECX) + register(b" blank ", ECX)
    # Records that say no variable, or that are cut off.
    + record(0x1108, numbers(INT) + b"udt\0") + record(0x1106, numbers(INT)) + record(0x113E, b"\x74\0") + record(0x1107, numbers(INT) + pack("<H", 0x9000) + b"bad\0")
    + END,
    rows(
        [b"static 0002:00000010 s", b"thread ffff:ffffffff t", b"constant -1 c", b"constant 18446744073709551615 u", b"constant 32767 o", b"static ecx fs", b"param - fp",
         b"local [rbp-8] bp", b"local [rsp] ro", b"local 7777 n", b"local ecx two lines", b"local ecx", b"local ecx  blank "],
        "1:100",
    ),
)

OTHER_FUNCTIONS = (
    # A thunk, and a managed procedure, which counts where no other function is; a procedure in another is a function of its own.
    record(0x1102, numbers(0, 0, 0, 0x100) + pack("<HHB", 1, 8, 0) + b"jump\0") + register(b"a", ECX) + END
    + record(0x112A, numbers(0, 0, 0, 0x20, 0, 0, 0x06000001, 0x100) + pack("<HBH", 1, 0, 0) + b"Main\0") + register(b"b", EDX) + END
    + procedure(b"f", 0x118, 0x20) + register(b"c", ECX) + procedure(b"g", 0x128, 0x18) + register(b"d", EDX) + END + END,
    {
        "1:100": text(b"jump", b"local ecx a"),
        "1:108": text(b"Main", b"local edx b"),
        "1:118": text(b"f", b"local ecx c"),
        "1:128": text(b"f", b"local ecx c"),
        "1:138": text(b"g", b"local edx d"),
        "1:140": NOWHERE,
    },
)

MADE = {
    "gaps that overlap": OVERLAPPING_GAPS,
    "gaps past the end of their range": GAPS_PAST_THE_END,
    "ranges of other sections": OTHER_SECTIONS,
    "nested scopes": NESTED_SCOPES,
    "scopes without an end": SCOPES_WITHOUT_AN_END,
    "ends without a scope": ENDS_WITHOUT_A_SCOPE,
    "scopes 64 deep": SCOPES_64_DEEP,
    "ranges without a variable": RANGES_WITHOUT_A_VARIABLE,
    "variables told twice": TOLD_TWICE,
    "sites": SITES,
    "annotations of sites": ANNOTATIONS,
    "lists of inlined functions": LISTED_FUNCTIONS,
    "a list of inlined functions that isn't read": UNREAD_FUNCTIONS,
    "frames": FRAMES,
    "separated code": SEPARATED_CODE,
    "parts of variables": PARTS,
    "words": WORDS,
    "other functions": OTHER_FUNCTIONS,
}


def file_with(symbols, lines=INLINED, machine=0x8664):
    """A file of a module with these symbols and lines, whose code is at 1:100 to 1:2ff and at 2:100."""
    return made_file([(b"a.obj", numbers(4) + symbols, lines)], [(1, 0x100, 0x200, 0), (2, 0x100, 0x40, 0)], machine, ids=IDS)


# Those whose module has an error: a list of inlined functions that is cut off, and a part of an unknown kind.
FAULTY = {"lists of inlined functions", "a list of inlined functions that isn't read"}


def compare_made(room, what, data, wanted):
    path = f"{room}/variables.pdb"
    with open(path, "wb") as it:
        it.write(data)
    err = notice_of(path) if what in FAULTY else b""
    compare(f"variables of {what}", (0, b"".join(wanted.values()), err), "variables", path, *wanted)
    lines = "".join(f"{it}\n" for it in wanted).encode()
    compare(f"variables of {what}, by lines", (0, b"".join(wanted.values()), err), "variables", path, given=lines)
    for word, its in wanted.items():
        compare(f"variables of {what} at {word}", (0, its, err), "variables", path, word)


def many_scopes(room):
    """Blocks in blocks, none of which ends, each with separated code, a call and a variable: seconds do for what would take an
    hour by the square of their number."""
    one = block(0x100, 0x40) + separated(0x100, 0x40) + END + site(0x1000, 0, 4) + register(b"a", RCX) + SITE_END + relative(b"b", 8)
    path = f"{room}/variables.pdb"
    with open(path, "wb") as it:
        it.write(file_with(procedure(b"f") + MANY * one))
    said = ran("variables", path, "1:100", limit=20)
    wanted = MANY * b"one\n??:10:0\n  local rcx a\n" + text(b"f", *MANY * [b"local [rsp+8] b"])
    tell(said == (0, wanted, b""), "variables of many scopes", (said[0], len(said[1]), said[2]))


def made_variables(room):
    for what, (symbols, wanted, *lines) in MADE.items():
        compare_made(room, what, file_with(symbols, *lines), wanted)
    # The registers of other machines: that of an image, that of a record of the compiler, and none.
    compiler = record(0x113C, bytes(4) + pack("<9H", 0x03, *8 * [0]) + b"c\0")
    for what, machine, ahead, lines in (
        ("x86", 0x14C, b"", [b"local [ebp+4] b", b"param [ebp+8] p", b"local [vframe+16] a"]),
        ("x86 by its compiler", 0x8664, compiler, [b"local [ebp+4] b", b"param [ebp+8] p", b"local [vframe+16] a"]),
        ("ARM64", 0xAA64, b"", [b"local [frame+4] b", b"param [fp+8] p", b"local [sp+16] a"]),
        ("no machine", 0, b"", [b"local [frame+4] b", b"param [frame+8] p", b"local [frame+16] a"]),
    ):
        symbols = ahead + procedure(b"f") + frame() + record(0x110B, pack("<iI", 4, CHAR) + b"b\0") + OWN + END
        compare_made(room, what, file_with(symbols, machine=machine), rows(lines, "1:100"))
    many_scopes(room)
