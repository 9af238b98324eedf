"""The C library by ctypes: its structs, and the types of its calls."""
from __future__ import annotations

import ctypes as c
import os
from typing import Any, List, Tuple

u8, u16, u32, u64, size_t = c.c_uint8, c.c_uint16, c.c_uint32, c.c_uint64, c.c_size_t


def _all(kind: Any, *names: str) -> List[Tuple[str, Any]]:
    """Fields of one type."""
    return [(it, kind) for it in names]


class Bytes(c.Structure):
    _fields_ = [("data", c.c_void_p), ("size", size_t)]

    def copy(self) -> bytes:
        return c.string_at(self.data, self.size)


class Information(c.Structure):
    _fields_ = [*_all(u8 * 16, "guid", "guid_bytes"), *_all(u32, "version", "signature", "age")]


class DebugInformation(c.Structure):
    _fields_ = _all(u32, "age", "symbols_stream", "machine", "flags")


class Stream(c.Structure):
    _fields_ = [*_all(size_t, "at", "size"), *_all(u32, "number", "code")]


class StreamName(c.Structure):
    _fields_ = [*_all(size_t, "at", "size"), ("number", u32)]


class Section(c.Structure):
    _fields_ = [
        ("name", u8 * 8),
        *_all(u32, "name_size", "virtual_size", "virtual_address", "size_of_raw_data", "pointer_to_raw_data"),
        *_all(u32, "pointer_to_relocations", "pointer_to_line_numbers"),
        *_all(u16, "number_of_relocations", "number_of_line_numbers"),
        ("characteristics", u32),
    ]


class Module(c.Structure):
    _fields_ = [*_all(Bytes, "name", "object"), *_all(u32, "stream", "symbols_size", "lines_size", "c13_lines_size")]


class Contribution(c.Structure):
    _fields_ = [
        ("module", size_t),
        *_all(u32, "offset", "size", "characteristics", "data_crc", "reloc_crc"),
        ("section", u16),
    ]


class Symbol(c.Structure):
    _fields_ = [
        *_all(Bytes, "record", "name", "annotations"),
        *_all(u32, "index", "parent", "end", "offset", "code_size", "type_index", "inlinee"),
        *_all(u16, "section", "kind"),
        *_all(u8, "form", "refused", "has_name", "has_place", "starts_scope", "ends_scope"),
    ]


class Line(c.Structure):
    _fields_ = [
        ("offset", u32),
        *_all(u16, "section", "file_refused"),
        *_all(u8, "has_length", "has_column_start", "has_column_end", "is_statement"),
        *_all(u32, "length", "file", "file_name", "line_start", "line_end", "column_start", "column_end"),
    ]


class File(c.Structure):
    _fields_ = [("checksum", Bytes), *_all(u32, "index", "name", "kind")]


class Inlinee(c.Structure):
    _fields_ = _all(u32, "id", "line", "file", "file_name", "file_refused")


class Import(c.Structure):
    _fields_ = [("numbers", Bytes), ("name", u32)]


class Export(c.Structure):
    _fields_ = _all(u32, "local", "global_index")


class Address(c.Structure):
    _fields_ = [("offset", u32), *_all(u16, "section", "kind")]


class Frame(c.Structure):
    _fields_ = [
        *_all(size_t, "address", "name_at", "name_size", "file_at", "file_size"),
        *_all(u32, "line", "column", "has_name", "has_file"),
    ]


class Variable(c.Structure):
    _fields_ = [
        *_all(u64, "value", "value_high"),
        *_all(size_t, "address", "call", "name_at", "name_size", "parts"),
        *_all(u32, "type_index", "kind", "location", "number"),
        ("displacement", c.c_int32),
        *_all(u32, "offset", "section", "part", "is_part", "is_inlined"),
    ]


class Record(c.Structure):
    _fields_ = [
        ("name", Bytes),
        *_all(u32, "form", "type_index", "flags", "location", "number"),
        ("displacement", c.c_int32),
        *_all(u32, "offset", "section", "size", "part", "has_place", "is_part"),
    ]


class Gap(c.Structure):
    _fields_ = _all(u32, "start", "size")


class TypeName(c.Structure):
    _fields_ = _all(size_t, "at", "size")


class TypeSize(c.Structure):
    _fields_ = [("size", u64), *_all(u32, "full", "has_size")]


class Member(c.Structure):
    _fields_ = [
        ("name", Bytes),
        *_all(u64, "value", "value_high", "entry"),
        ("owner", size_t),
        ("type_index", u32),
        ("attributes", u16),
        *_all(u8, "form", "refused", "has_value", "has_bit", "bit"),
    ]


class Image(c.Structure):
    _fields_ = [
        ("path", Bytes),
        ("base", u64),
        *_all(u8 * 16, "guid", "guid_bytes"),
        *_all(u32, "machine", "time_stamp", "size", "age", "has_pdb"),
    ]


def _load() -> c.CDLL:
    """The library that PDB_LIBRARY names; otherwise that of this clone or of this installation, or the system's."""
    here = os.path.dirname(os.path.abspath(__file__))
    name = "pdb.dll" if os.name == "nt" else "libpdb.so.0"
    folders = (("..", "..", "c", "out"), ("..", "..", ".."), ("..", ".."))
    near = [os.path.abspath(os.path.join(here, *it, name)) for it in folders]
    path = os.environ.get("PDB_LIBRARY") or next((it for it in near if os.path.exists(it)), name)
    try:
        return c.CDLL(path)
    except OSError as error:
        raise ImportError(f"the library of pdbreader can't be loaded: {error}; PDB_LIBRARY names another one") from error


LIBRARY = _load()

_DATA = [c.c_char_p, size_t]
_SIZES = [u32, u32, u32]
_SIZE = c.POINTER(size_t)
_INDICES = [c.POINTER(u32), size_t]


def _rows(row: Any) -> List[Any]:
    """What a list is written to: its rows, their capacity, and how many there are."""
    return [c.POINTER(row), size_t, _SIZE]


_CALLS: Any = {
    "pdb_version": [],
    "pdb_message": [u32, c.POINTER(Bytes)],
    "pdb_opens": [*_DATA, c.POINTER(u32)],
    "pdb_information": [*_DATA, c.POINTER(Information)],
    "pdb_debug_information": [*_DATA, c.POINTER(DebugInformation)],
    "pdb_key": [*_DATA, c.c_char_p, size_t, _SIZE],
    "pdb_streams": [*_DATA, c.POINTER(u16), size_t, c.POINTER(Stream), size_t, c.c_char_p, size_t, _SIZE],
    "pdb_named_stream": [*_DATA, *_DATA, c.c_char_p, size_t, _SIZE],
    "pdb_stream_names": [*_DATA, *_rows(StreamName), c.c_char_p, size_t, _SIZE],
    "pdb_sections": [*_DATA, *_rows(Section)],
    "pdb_modules": [*_DATA, *_rows(Module)],
    "pdb_contributions": [*_DATA, *_rows(Contribution)],
    "pdb_symbols": [*_DATA, u32, c.POINTER(u32), *_rows(Symbol)],
    "pdb_global_symbols": [*_DATA, c.POINTER(u32), *_rows(Symbol)],
    "pdb_lines": [*_DATA, *_SIZES, *_rows(Line)],
    "pdb_files": [*_DATA, *_SIZES, *_rows(File)],
    "pdb_inlinees": [*_DATA, *_SIZES, *_rows(Inlinee)],
    "pdb_inlined_lines": [*_DATA, u16, u32, u32, u32, *_rows(Line)],
    "pdb_imports": [*_DATA, *_SIZES, *_rows(Import)],
    "pdb_exports": [*_DATA, *_SIZES, *_rows(Export)],
    "pdb_name": [*_DATA, u32, c.POINTER(Bytes)],
    "pdb_type_name": [*_DATA, *_INDICES, c.POINTER(TypeName), size_t, c.c_char_p, size_t, _SIZE],
    "pdb_type_size": [*_DATA, *_INDICES, c.POINTER(TypeSize), size_t],
    "pdb_members": [*_DATA, *_INDICES, *_rows(Member)],
    "pdb_frames": [*_DATA, c.POINTER(Address), size_t, *_rows(Frame), c.c_char_p, size_t, _SIZE],
    "pdb_variables": [*_DATA, c.POINTER(Address), size_t, *_rows(Variable), c.c_char_p, size_t, _SIZE],
    "pdb_register_name": [u16, u16, c.POINTER(Bytes)],
    "pdb_frame_register": [u16, u8],
    "pdb_record": [*_DATA, c.POINTER(Record)],
    "pdb_gaps": [*_DATA, *_rows(Gap)],
    "pdb_image": [*_DATA, c.POINTER(Image)],
}

for _name, _types in _CALLS.items():
    _call = getattr(LIBRARY, _name)
    _call.argtypes, _call.restype = _types, u32

# The calls that return nothing.
for _name in ("pdb_message", "pdb_register_name"):
    getattr(LIBRARY, _name).restype = None
