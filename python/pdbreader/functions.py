"""The calls of the C library, each a function of the bytes that it is passed.

A number that C's type of the argument doesn't hold is a ValueError.
"""
from __future__ import annotations

import ctypes as c
import struct
import uuid
from typing import Any, Iterable, Iterator, List, Optional, Sequence, Tuple, Type, Union

from . import _library as raw
from .errors import InvalidFileChecksumOffset, PdbError, StreamNotFound, UnimplementedSymbolKind, error_of
from .records import (
    Address,
    ChecksumKind,
    Contribution,
    DebugInformation,
    Export,
    Form,
    Frame,
    Image,
    Import,
    Information,
    Inlinee,
    Line,
    Member,
    MemberKind,
    Module,
    PdbReference,
    Section,
    SourceFile,
    StreamName,
    Symbol,
    TypeSize,
)

Sizes = Tuple[int, int, int]
_DONE, _END, _ROOM, _NO_STREAM = 0, 30, 31, 0xFFFF
_INFORMATION, _DBI = 1, 3
_AT_ONCE = 256
_FORMS = [None, *Form]


def _fits(bits: int, number: int) -> int:
    """The number, where it has so many bits; ctypes would cut it off."""
    if not 0 <= number < 1 << bits:
        raise ValueError(f"{number} is no unsigned number of {bits} bits")
    return number


def _check(code: int) -> None:
    if code != _DONE:
        raise error_of(code)


def _check_file(code: int, file: bytes, stream: int = 0) -> None:
    """Raises the error of a call that takes a file: of one that can't be opened with the number that it carries, and of one
    that lacks a stream with the stream."""
    if code == _DONE:
        return
    number = raw.u32()
    if raw.LIBRARY.pdb_opens(file, len(file), number) != code:
        number.value = stream if code == StreamNotFound.code else 0
    raise error_of(code, number.value)


def _error(code: int, carrier: Type[PdbError], number: int) -> Optional[PdbError]:
    """The error of a row; one kind of error carries a number that the row has."""
    return error_of(code, number if code == carrier.code else 0) if code else None


def version() -> Tuple[int, int, int]:
    """The version of the library: major, minor, patch."""
    number = raw.LIBRARY.pdb_version()
    return number // 1000000, number // 1000 % 1000, number % 1000


def message(code: int) -> str:
    """The text of an error code; "unknown code" where the library doesn't have the code."""
    out = raw.Bytes()
    raw.LIBRARY.pdb_message(_fits(32, code), out)
    return out.copy().decode()


def opens(file: bytes) -> None:
    """Raises the error of a file that can't be opened, with the number that it carries."""
    _check_file(raw.LIBRARY.pdb_opens(file, len(file), raw.u32()), file)


def information(file: bytes) -> Information:
    """Which file it is, by the information stream."""
    out = raw.Information()
    _check_file(raw.LIBRARY.pdb_information(file, len(file), out), file, _INFORMATION)
    return Information(uuid.UUID(bytes=bytes(out.guid)), out.version, out.signature, out.age)


def debug_information(file: bytes) -> DebugInformation:
    """The header of the DBI stream."""
    out = raw.DebugInformation()
    _check_file(raw.LIBRARY.pdb_debug_information(file, len(file), out), file, _DBI)
    symbols_stream = None if out.symbols_stream == _NO_STREAM else out.symbols_stream
    return DebugInformation(out.age, symbols_stream, out.machine, out.flags)


def key(file: bytes) -> str:
    """The key under which a symbol server stores the file."""
    room, size = c.create_string_buffer(40), raw.size_t()
    _check_file(raw.LIBRARY.pdb_key(file, len(file), room, len(room), size), file)
    return room.raw[: size.value].decode("ascii")


def streams(file: bytes, numbers: Iterable[int]) -> List[Union[bytes, PdbError]]:
    """The bytes of each stream, or its error. The file is opened once."""
    wanted = [_fits(16, it) for it in numbers]
    count, size = len(wanted), raw.size_t()
    asked, rows = (raw.u16 * count)(*wanted), (raw.Stream * count)()
    room = c.create_string_buffer(1)
    code = raw.LIBRARY.pdb_streams(file, len(file), asked, count, rows, count, room, 0, size)
    if code == _ROOM:
        room = c.create_string_buffer(size.value)
        code = raw.LIBRARY.pdb_streams(file, len(file), asked, count, rows, count, room, size.value, size)
    _check_file(code, file)
    data = memoryview(room)
    return [_error(it.code, StreamNotFound, it.number) or bytes(data[it.at : it.at + it.size]) for it in rows]


def stream(file: bytes, number: int) -> bytes:
    """The bytes of a stream."""
    (found,) = streams(file, [number])
    if isinstance(found, PdbError):
        raise found
    return found


def named_stream(file: bytes, name: bytes) -> bytes:
    """The bytes of the stream with a name, as b"/names", the string table."""
    room, size = c.create_string_buffer(1), raw.size_t()
    code = raw.LIBRARY.pdb_named_stream(file, len(file), name, len(name), room, 0, size)
    if code == _ROOM:
        room = c.create_string_buffer(size.value)
        code = raw.LIBRARY.pdb_named_stream(file, len(file), name, len(name), room, size.value, size)
    _check_file(code, file)
    return room.raw[: size.value]


def stream_names(file: bytes) -> List[StreamName]:
    """The names of streams, in the order in which the file lists them; the first of equal names counts."""
    count, size, names = raw.size_t(), raw.size_t(), c.create_string_buffer(1)
    rows = (raw.StreamName * 0)()
    code = raw.LIBRARY.pdb_stream_names(file, len(file), rows, 0, count, names, 0, size)
    if code == _ROOM:
        rows, names = (raw.StreamName * count.value)(), c.create_string_buffer(max(1, size.value))
        code = raw.LIBRARY.pdb_stream_names(file, len(file), rows, len(rows), count, names, size.value, size)
    _check_file(code, file, _INFORMATION)
    data = names.raw
    return [StreamName(data[it.at : it.at + it.size], None if it.number == _NO_STREAM else it.number) for it in rows]


def sections(file: bytes) -> List[Section]:
    """The section headers of the image, as the file has them."""
    rows, count = (raw.Section * 0)(), raw.size_t()
    code = raw.LIBRARY.pdb_sections(file, len(file), rows, 0, count)
    if code == _ROOM:
        rows = (raw.Section * count.value)()
        code = raw.LIBRARY.pdb_sections(file, len(file), rows, len(rows), count)
    _check_file(code, file)
    return [
        Section(
            name=bytes(it.name)[: it.name_size],
            virtual_size=it.virtual_size,
            virtual_address=it.virtual_address,
            size_of_raw_data=it.size_of_raw_data,
            pointer_to_raw_data=it.pointer_to_raw_data,
            pointer_to_relocations=it.pointer_to_relocations,
            pointer_to_line_numbers=it.pointer_to_line_numbers,
            number_of_relocations=it.number_of_relocations,
            number_of_line_numbers=it.number_of_line_numbers,
            characteristics=it.characteristics,
        )
        for it in rows
    ]


def modules(dbi: bytes) -> Iterator[Module]:
    """The modules of the DBI stream, which is stream 3."""
    most = len(dbi) // 68 + 1
    rows, count = (raw.Module * most)(), raw.size_t()
    code = raw.LIBRARY.pdb_modules(dbi, len(dbi), rows, most, count)
    for it in rows[: count.value]:
        number = None if it.stream == _NO_STREAM else it.stream
        yield Module(it.name.copy(), it.object.copy(), number, it.symbols_size, it.lines_size, it.c13_lines_size)
    _check(code)


def contributions(dbi: bytes) -> Iterator[Contribution]:
    """The section contributions of the DBI stream: which bytes of the image came from which module."""
    most = len(dbi) // 28 + 1
    rows, count = (raw.Contribution * most)(), raw.size_t()
    code = raw.LIBRARY.pdb_contributions(dbi, len(dbi), rows, most, count)
    for it in rows[: count.value]:
        place, numbers = (it.module, it.section, it.offset), (it.size, it.characteristics, it.data_crc, it.reloc_crc)
        yield Contribution(*place, *numbers)
    _check(code)


def _symbol(it: Any) -> Symbol:
    return Symbol(
        index=it.index,
        kind=it.kind,
        form=_FORMS[it.form],
        error=_error(it.refused, UnimplementedSymbolKind, it.kind),
        record=it.record.copy(),
        name=it.name.copy() if it.has_name else None,
        section=it.section if it.has_place else None,
        offset=it.offset if it.has_place else None,
        code_size=it.code_size,
        type_index=it.type_index,
        parent=it.parent,
        end=it.end,
        inlinee=it.inlinee,
        annotations=it.annotations.copy(),
        starts_scope=bool(it.starts_scope),
        ends_scope=bool(it.ends_scope),
    )


def _symbols(call: Any, start: int, *given: Any) -> Iterator[Symbol]:
    rows, count, at = (raw.Symbol * _AT_ONCE)(), raw.size_t(), raw.u32(start)
    code = _DONE
    while code == _DONE:
        code = call(*given, at, rows, _AT_ONCE, count)
        yield from map(_symbol, rows[: count.value])
    if code != _END:
        raise error_of(code)


def symbols(stream: bytes, symbols_size: int) -> Iterator[Symbol]:
    """The symbols of a module, by the bytes of its stream."""
    return _symbols(raw.LIBRARY.pdb_symbols, 4, stream, len(stream), _fits(32, symbols_size))


def global_symbols(stream: bytes) -> Iterator[Symbol]:
    """The symbols of the stream of global symbols."""
    return _symbols(raw.LIBRARY.pdb_global_symbols, 0, stream, len(stream))


def _listed(call: Any, row: Any, width: int, stream: bytes, sizes: Sizes) -> Tuple[Sequence[Any], int]:
    """The rows of a list of the lines data, each of at least so many bytes, and the error behind them."""
    most = min(sizes[2], len(stream)) // width
    rows, count = (row * most)(), raw.size_t()
    code = call(stream, len(stream), *(_fits(32, it) for it in sizes), rows, most, count)
    return rows[: count.value], code


def _line(it: Any) -> Line:
    return Line(
        section=it.section,
        offset=it.offset,
        length=it.length if it.has_length else None,
        file=it.file,
        file_name=None if it.file_refused else it.file_name,
        file_error=_error(it.file_refused, InvalidFileChecksumOffset, it.file),
        line_start=it.line_start,
        line_end=it.line_end,
        column_start=it.column_start if it.has_column_start else None,
        column_end=it.column_end if it.has_column_end else None,
        is_statement=bool(it.is_statement),
    )


def lines(stream: bytes, sizes: Sizes) -> Iterator[Line]:
    """The line records of a module, by its stream and the sizes of that stream's three parts."""
    rows, code = _listed(raw.LIBRARY.pdb_lines, raw.Line, 8, stream, sizes)
    yield from map(_line, rows)
    _check(code)


def files(stream: bytes, sizes: Sizes) -> Iterator[SourceFile]:
    """The source files of a module."""
    rows, code = _listed(raw.LIBRARY.pdb_files, raw.File, 6, stream, sizes)
    for it in rows:
        yield SourceFile(it.index, it.name, ChecksumKind(it.kind), it.checksum.copy())
    _check(code)


def inlinees(stream: bytes, sizes: Sizes) -> Iterator[Inlinee]:
    """The inlined functions of a module."""
    rows, code = _listed(raw.LIBRARY.pdb_inlinees, raw.Inlinee, 12, stream, sizes)
    for it in rows:
        error = _error(it.file_refused, InvalidFileChecksumOffset, it.file)
        yield Inlinee(it.id, it.line, it.file, None if error else it.file_name, error)
    _check(code)


def inlined_lines(annotations: bytes, section: int, offset: int, file: int, line: int) -> Iterator[Line]:
    """The line records of an inlined call: by its annotations, the section and offset of the procedure around it, and the
    file and line of its function. Their `file_name` is 0: `files` has the names."""
    most, place = len(annotations), (_fits(16, section), _fits(32, offset), _fits(32, file), _fits(32, line))
    rows, count = (raw.Line * most)(), raw.size_t()
    code = raw.LIBRARY.pdb_inlined_lines(annotations, most, *place, rows, most, count)
    yield from map(_line, rows[: count.value])
    _check(code)


def imports(stream: bytes, sizes: Sizes) -> List[Import]:
    """The modules from which a module imports."""
    rows, code = _listed(raw.LIBRARY.pdb_imports, raw.Import, 8, stream, sizes)
    _check(code)
    return [Import(it.name, struct.unpack(f"<{it.numbers.size // 4}I", it.numbers.copy())) for it in rows]


def exports(stream: bytes, sizes: Sizes) -> Iterator[Export]:
    """What a module exports."""
    rows, code = _listed(raw.LIBRARY.pdb_exports, raw.Export, 8, stream, sizes)
    for it in rows:
        yield Export(it.local, it.global_index)
    _check(code)


def name(names: bytes, offset: int) -> bytes:
    """The name at an offset of the string table."""
    out = raw.Bytes()
    _check(raw.LIBRARY.pdb_name(names, len(names), _fits(32, offset), out))
    return out.copy()


def _addresses(addresses: Iterable[Address]) -> Any:
    wanted = [raw.Address(_fits(32, it.offset), _fits(16, it.section or 0), int(it.section is not None)) for it in addresses]
    return (raw.Address * len(wanted))(*wanted)


def frames(file: bytes, addresses: Iterable[Address]) -> List[List[Frame]]:
    """The frames of each address, from the innermost inlined function to the function itself. The file is opened once."""
    asked = _addresses(addresses)
    count, size, names = raw.size_t(), raw.size_t(), c.create_string_buffer(1)
    code = raw.LIBRARY.pdb_frames(file, len(file), asked, len(asked), (raw.Frame * 0)(), 0, count, names, 0, size)
    rows = (raw.Frame * count.value)()
    if code == _ROOM:
        names = c.create_string_buffer(max(1, size.value))
        code = raw.LIBRARY.pdb_frames(
            file, len(file), asked, len(asked), rows, len(rows), count, names, size.value, size
        )
    _check_file(code, file)
    found: List[List[Frame]] = [[] for _ in asked]
    data = names.raw
    for it in rows:
        function = data[it.name_at : it.name_at + it.name_size] if it.has_name else None
        path = data[it.file_at : it.file_at + it.file_size] if it.has_file else None
        found[it.address].append(Frame(function, path, it.line, it.column))
    return found


def _indices(indices: Iterable[int]) -> Any:
    wanted = [_fits(32, it) for it in indices]
    return (raw.u32 * len(wanted))(*wanted)


def type_names(types: bytes, indices: Iterable[int]) -> List[bytes]:
    """The names in C++ of the types of these indices, by the stream of types, which is stream 2. It is read once."""
    asked, size, names = _indices(indices), raw.size_t(), c.create_string_buffer(1)
    rows = (raw.TypeName * len(asked))()
    given = (types, len(types), asked, len(asked), rows, len(rows))
    code = raw.LIBRARY.pdb_type_name(*given, names, 0, size)
    if code == _ROOM:
        names = c.create_string_buffer(size.value)
        code = raw.LIBRARY.pdb_type_name(*given, names, size.value, size)
    _check(code)
    data = names.raw
    return [data[it.at : it.at + it.size] for it in rows]


def type_sizes(types: bytes, indices: Iterable[int]) -> List[TypeSize]:
    """The sizes of the types of these indices, by the stream of types, and their definitions. It is read once."""
    asked = _indices(indices)
    rows = (raw.TypeSize * len(asked))()
    _check(raw.LIBRARY.pdb_type_size(types, len(types), asked, len(asked), rows, len(rows)))
    return [TypeSize(it.size if it.has_size else None, it.full or None) for it in rows]


def _member(it: Any) -> Member:
    value = it.value_high << 64 | it.value
    signed = value - (1 << 128) if value >> 127 else value
    kind = MemberKind(it.form)
    is_virtual = kind in (MemberKind.VIRTUAL_BASE_CLASS, MemberKind.INDIRECT_VIRTUAL_BASE_CLASS)
    return Member(
        kind=kind,
        name=it.name.copy(),
        type_index=it.type_index or None,
        value=signed if it.has_value else None,
        entry=it.entry if is_virtual else None,
        bit=it.bit if it.has_bit else None,
        attributes=it.attributes,
    )


def members(types: bytes, indices: Iterable[int]) -> List[List[Union[Member, PdbError]]]:
    """The members of the types of these indices, by the stream of types, which is read once. A type that is only declared
    has those of its definition. An error in a list is its last item."""
    asked, count, rows = _indices(indices), raw.size_t(), (raw.Member * 0)()
    code = raw.LIBRARY.pdb_members(types, len(types), asked, len(asked), rows, 0, count)
    if code == _ROOM:
        rows = (raw.Member * count.value)()
        code = raw.LIBRARY.pdb_members(types, len(types), asked, len(asked), rows, len(rows), count)
    _check(code)
    found: List[List[Union[Member, PdbError]]] = [[] for _ in asked]
    for it in rows:
        found[it.owner].append(_member(it) if it.form else error_of(it.refused))
    return found


def image(data: bytes) -> Image:
    """What an image, an EXE or a DLL, says of itself and of its PDB, by all its bytes."""
    out = raw.Image()
    _check(raw.LIBRARY.pdb_image(data, len(data), out))
    pdb = PdbReference(uuid.UUID(bytes=bytes(out.guid)), out.age, out.path.copy()) if out.has_pdb else None
    return Image(out.machine, out.base, out.time_stamp, out.size, pdb)
