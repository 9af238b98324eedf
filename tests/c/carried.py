"""The numbers that the errors of the Python package carry."""
import struct

UNREAD_KIND, PAGE_SIZE = 0xFFEE, 1337
# Where the one record of checksums ends, no further one begins.
NO_FILE = 8


def without_stream(data, number):
    """A file whose directory says that a stream isn't there. The directory has a count, and then the size of each stream."""
    at, page_size = 52, struct.unpack_from("<I", data, 32)[0]
    for _ in range(2):
        at = struct.unpack_from("<I", data, at)[0] * page_size
    at += 4 + 4 * number
    return data[:at] + b"\xff" * 4 + data[at + 4 :]


def of_files(note, pdbreader, data):
    """A page size, and streams."""

    def raises(what, call, error, number):
        try:
            note(what, False, call())
        except error as raised:
            note(what, raised.number == number, raised.number)

    damaged = data[:32] + struct.pack("<I", PAGE_SIZE) + data[36:]
    for call in (pdbreader.PdbFile, pdbreader.information, pdbreader.key, pdbreader.sections):
        raises(f"{call.__name__}: a page size", lambda given=call: given(damaged), pdbreader.InvalidPageSize, PAGE_SIZE)
    for stream, call in ((1, pdbreader.information), (3, pdbreader.debug_information), (1, pdbreader.stream_names)):
        without = without_stream(data, stream)
        raises(f"{call.__name__}: no stream {stream}", lambda given=call, file=without: given(file), pdbreader.StreamNotFound, stream)
    raises("no stream", lambda: pdbreader.stream(data, 60000), pdbreader.StreamNotFound, 60000)
    raises("no name", lambda: pdbreader.named_stream(data, b"/none"), pdbreader.StreamNameNotFound, 0)


def of_rows(note, pdbreader):
    """The kind of a symbol, and the file of a line: a module's symbols part, and subsections of one line and of one checksum."""
    (symbol,) = pdbreader.symbols(struct.pack("<IHH", 4, 2, UNREAD_KIND), 8)
    note("the kind of a symbol", (symbol.error.code, symbol.error.number) == (12, UNREAD_KIND), symbol)
    lines = struct.pack("<IHHIIIIII", 0, 1, 0, 16, NO_FILE, 1, 20, 0, 0x80000001)
    parts = struct.pack("<II", 0xF2, len(lines)) + lines + struct.pack("<IIIBBH", 0xF4, NO_FILE, 0, 0, 0, 0)
    (line,) = pdbreader.lines(struct.pack("<I", 4) + parts, (4, 0, len(parts)))
    note("the file of a line", (line.file_error.code, line.file_error.number) == (15, NO_FILE), line)


def numbers(note, pdbreader, data):
    of_files(note, pdbreader, data)
    of_rows(note, pdbreader)
