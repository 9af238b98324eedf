"""`pdb_tool frames` and `stream` beside a reading of their own: of the container, and of the records of frame data."""
import json
import os
import random

from program import FILES, REAL, compare, one_line, ran, tell, usage_of, wrong
from streams import File, extra, names, tried, u16, u32

KINDS = ["fpo", "trap", "tss", "standard"]
DAMAGED = 300
# A record of FRAMEDATA: a function's start that handles exceptions, and no program at its place in the string table.
RECORD = bytes.fromhex("10100000 12000000 03000000 08000000 00010000 ffffff7f 0400 0c00 07000000")
RECORD_LINE = b"0x1010 18 framedata locals=3 params=8 saved=12 prolog=4 max=256 seh eh start ??\n"
# A record of FPO_DATA: 0x1234 bytes of code, three words of locals, two of parameters, a prolog of 9, five registers.
OLDER = bytes.fromhex("40200000 34120000 03000000 0200 09") + bytes([0b1101_1101])
OLDER_LINE = b"0x2040 4660 standard locals=12 params=8 saved=20 prolog=9 max=0 seh bp\n"


def text_at(table, at):
    """The name at a place of the string table; none where it isn't there."""
    if len(table) < 12 or u32(table, 0) != 0xEFFEEFFE:
        return b""
    size = u32(table, 8)
    part = table[12 : 12 + size]
    if len(part) < size or at >= size or b"\0" not in part[at:]:
        return b""
    return part[at : part.index(b"\0", at)]


def newer_line(b, table):
    flags = u32(b, 28)
    shown = b"".join(word for bit, word in ((1, b" seh"), (2, b" eh"), (4, b" start")) if flags & bit)
    sizes = f"locals={u32(b, 8)} params={u32(b, 12)} saved={u16(b, 26)} prolog={u16(b, 24)} max={u32(b, 16)}"
    program = one_line(text_at(table, u32(b, 20))) or b"??"
    return f"{u32(b, 0):#x} {u32(b, 4)} framedata {sizes}".encode() + shown + b" " + program + b"\n"


def older_line(b):
    bits = u16(b, 14)
    shown = b"".join(word for bit, word in ((0x800, b" seh"), (0x1000, b" bp")) if bits & bit)
    sizes = f"locals={4 * u32(b, 8)} params={4 * u16(b, 12)} saved={4 * (bits >> 8 & 7)} prolog={bits & 255} max=0"
    return f"{u32(b, 0):#x} {u32(b, 4)} {KINDS[bits >> 14]} {sizes}".encode() + shown + b"\n"


def stream_of(file, further, what):
    """The bytes of a further stream; none where the file doesn't have it."""
    number = dict((text, n) for n, text in further).get(what, 0xFFFF)
    return None if number == 0xFFFF else file.stream(number)


def text_of(data):
    """The text of `frames` of a file; none where it is that of an error."""
    file = File(data)
    debug = file.stream(3)
    if len(debug) < 64 or u32(debug, 0) != 0xFFFFFFFF:
        return None
    further = extra(debug)
    older, newer = stream_of(file, further, "fpo"), stream_of(file, further, "framedata")
    if older is None and newer is None:
        return b"none\n"
    named = dict(reversed(tried(lambda: names(file.stream(1)))))
    table = tried(lambda: file.stream(named[b"/names"])) if b"/names" in named else b""
    lines = [newer_line(newer[at : at + 32], bytes(table)) for at in range(0, len(newer or b"") // 32 * 32, 32)]
    return b"".join(lines + [older_line(older[at : at + 16]) for at in range(0, len(older or b"") // 16 * 16, 16)])


def frames_of_files():
    found = 0
    for name in REAL:
        with open(f"{FILES}/{name}.pdb", "rb") as it:
            text = text_of(it.read())
        compare(f"frames of {name}", (0, text, b""), "frames", f"{FILES}/{name}.pdb")
        found += text.count(b"\n")
    tell(found > 3, "real files have frame data", found)


def made(data, place, records):
    """A file whose stream of frame data has these records first, and stands at this place of the further streams."""
    file = File(data)
    debug = file.stream(3)
    number = dict((text, n) for n, text in extra(debug))["framedata"]
    at = 64 + sum(u32(debug, k) for k in (24, 28, 32, 36, 40, 52))
    listed = debug[at : at + u32(debug, 48)]
    moved = bytearray(listed)
    moved[18:20] = b"\xff\xff"
    moved[2 * place : 2 * place + 2] = number.to_bytes(2, "little")
    records_there = file.stream(number)
    changed = data.replace(listed, bytes(moved)).replace(records_there, records + records_there[len(records) :])
    return changed


def frames_that_are_made(sample, room):
    with open(f"{FILES}/dll-x86.pdb", "rb") as it:
        data = it.read()
    for place, records, wanted in ((9, RECORD, RECORD_LINE), (0, OLDER + OLDER, 2 * OLDER_LINE)):
        path = f"{room}/made.pdb"
        with open(path, "wb") as it:
            it.write(made(data, place, records))
        said = ran("frames", path)
        tell(said[0] == 0 and said[1].startswith(wanted), f"made frame data at {place}", said)
        objects = [json.loads(line) for line in ran("frames", "--json", path)[1].splitlines()]
        tell(objects and objects[0]["program"] is None, f"objects of made frame data at {place}", objects)
        os.remove(path)
    compare("frames of the sample", (0, b"none\n", b""), "frames", sample)


def frames_of_damaged_files(room):
    random.seed(91)
    seen = 0
    for number in range(DAMAGED):
        with open(f"{FILES}/dll-x86.pdb", "rb") as it:
            data = bytearray(it.read())
        for _ in range(random.choice([1, 4, 40])):
            data[random.randrange(len(data))] = random.randrange(256)
        try:
            wanted = text_of(bytes(data))
        except (ValueError, IndexError, ArithmeticError):
            wanted = None
        path = f"{room}/damaged.pdb"
        with open(path, "wb") as it:
            it.write(data)
        said = ran("frames", path)
        tell(said[0] in (0, 4), f"frames of damaged file {number}", said)
        if wanted is not None and said[0] == 0 and not said[1].startswith(b"error "):
            seen += 1
            tell(said[1] == wanted, f"frames of damaged file {number}", said)
        os.remove(path)
    tell(seen > DAMAGED / 2, "damaged files whose frame data was read", seen)


def streams_as_they_are(sample):
    for path in [sample, *(f"{FILES}/{name}.pdb" for name in REAL)]:
        with open(path, "rb") as it:
            file = File(it.read())
        for number, size in enumerate(file.sizes):
            if size == 0xFFFFFFFF:
                compare(f"absent stream {number} of {path}", no_stream(path, f" {number}"), "stream", path, str(number))
            else:
                compare(f"stream {number} of {path}", (0, file.stream(number), b""), "stream", path, str(number))
        for name, number in names(file.stream(1)):
            if name:
                compare(f"stream {name} of {path}", (0, file.stream(number), b""), "stream", path, name)
        for word in str(len(file.sizes)), "65535", "65536", "4294967296", "9999999999":
            compare(f"stream {word} of {path}", no_stream(path, f" {int(word)}"), "stream", path, word)
        for word in "nothing", "", "0x1", "00000000001", "/NAMES":
            compare(f"stream {word!r} of {path}", no_stream(path, f" called {word}"), "stream", path, word)
    compare("a stream that isn't UTF-8", (2, b"", b"pdb_tool: \xef\xbf\xbd: the argument is not UTF-8\n"), "stream", sample, b"\xff")
    compare("two streams", wrong(b"stream takes one STREAM, and not 2", usage_of("stream")), "stream", sample, "1", "2")


def no_stream(path, which):
    return 1, b"", f"pdb_tool: {path} has no stream{which}: pdb_tool streams FILE lists them\n".encode()


def streams_that_cannot_be_read(sample, room):
    """A stream whose page isn't in the file: nothing of it is written."""
    with open(sample, "rb") as it:
        data = bytearray(it.read())
    file = File(bytes(data))
    listed = file.stream(7)
    page = bytes(data).index(listed) // file.page
    at = bytes(data).index(file.directory) + len(file.directory)
    pages = [k for k in range(at - 400, at, 4) if k > 0 and u32(data, k) == page]
    data[pages[-1] : pages[-1] + 4] = (0x7FFF).to_bytes(4, "little")
    path = f"{room}/unread.pdb"
    with open(path, "wb") as it:
        it.write(data)
    said = ran("stream", path, "7")
    tell(said[:2] == (1, b"") and said[2].startswith(f"pdb_tool: {path}: ".encode()), "a stream on a page that isn't there", said)
    os.remove(path)


def frame_data(sample, room):
    frames_of_files()
    frames_that_are_made(sample, room)
    frames_of_damaged_files(room)
    streams_as_they_are(sample)
    streams_that_cannot_be_read(sample, room)
