"""Variables and further symbol records: the calls of the C library on them, and what these return."""
from __future__ import annotations

import ctypes as c
import enum
from dataclasses import dataclass
from typing import Iterable, List, Optional, Tuple

from . import _library as raw
from .functions import _ROOM, _addresses, _check, _check_file, _fits
from .records import Address


class VariableKind(enum.IntEnum):
    """What a variable is."""

    PARAMETER = 1
    LOCAL = 2
    STATIC = 3
    THREAD = 4
    CONSTANT = 5


class Location(enum.IntEnum):
    """What kind of storage a variable or a part of it is in."""

    NOWHERE = 0
    REGISTER = 1
    BY_REGISTER = 2  # in memory, at the value of a register and the displacement
    BY_BASE_POINTER = 3  # the same of ebp, on x86-64 of rbp
    BY_FRAME = 4  # the same of a frame's register: frame_register has it by number
    BY_PROGRAM = 5  # a program computes it, of which the file has no more than the number
    SECTION = 6  # in memory, at an offset in a section; of a variable of each thread in the thread's storage
    VALUE = 7


@dataclass(frozen=True)
class Storage:
    """Where a variable or a part of it is. What its location doesn't need is 0."""

    location: Location
    number: int = 0  # of a register, of a frame's register or of a program
    displacement: int = 0  # bytes behind the value of the register
    offset: int = 0
    section: int = 0
    value: int = 0  # of a constant
    part: Optional[int] = None  # the offset of the part in the variable, in bytes


@dataclass(frozen=True)
class Variable:
    """A variable in scope at an address."""

    kind: VariableKind
    name: bytes
    type_index: int
    call: Optional[int]  # the inlined call it belongs to, from the outermost one, 0; None where it is the function's own
    storages: Tuple[Storage, ...]  # one, or one for each part


@dataclass(frozen=True)
class Gap:
    """A gap in a range of code."""

    start: int  # counted in bytes from the start of the range
    size: int


@dataclass(frozen=True)
class Record:
    """A record of a kind that the calls on symbols don't read. What it doesn't have is 0 or empty."""

    form: int  # PDB_FRAME_PROCEDURE, .. of pdb.h
    name: bytes
    type_index: int
    flags: int  # as the record has them
    storage: Storage
    offset: Optional[int]  # of its place in the image, in its section
    section: Optional[int]
    size: int  # bytes
    gaps: Tuple[Gap, ...]


def _storage(it: raw.Variable) -> Storage:
    value = it.value_high << 64 | it.value
    signed = value - (1 << 128) if value >> 127 else value
    part = it.part if it.is_part else None
    return Storage(Location(it.location), it.number, it.displacement, it.offset, it.section, signed, part)


def variables(file: bytes, addresses: Iterable[Address]) -> List[List[Variable]]:
    """The variables in scope at each address, in the order of their records. The file is opened once."""
    asked = _addresses(addresses)
    count, size, names = raw.size_t(), raw.size_t(), c.create_string_buffer(1)
    given = (file, len(file), asked, len(asked))
    code = raw.LIBRARY.pdb_variables(*given, (raw.Variable * 0)(), 0, count, names, 0, size)
    rows = (raw.Variable * count.value)()
    if code == _ROOM:
        names = c.create_string_buffer(max(1, size.value))
        code = raw.LIBRARY.pdb_variables(*given, rows, len(rows), count, names, size.value, size)
    _check_file(code, file)
    found: List[List[Variable]] = [[] for _ in asked]
    data, at = names.raw, 0
    while at < len(rows):
        it, storages = rows[at], tuple(_storage(row) for row in rows[at : at + max(1, rows[at].parts)])
        name = data[it.name_at : it.name_at + it.name_size]
        call = it.call if it.is_inlined else None
        found[it.address].append(Variable(VariableKind(it.kind), name, it.type_index, call, storages))
        at += len(storages)
    return found


def register_name(machine: int, number: int) -> str:
    """The name of a register of a machine, IMAGE_FILE_MACHINE_.., by its number in records; empty where it has none."""
    out = raw.Bytes()
    raw.LIBRARY.pdb_register_name(_fits(16, machine), _fits(16, number), out)
    return out.copy().decode()


def frame_register(machine: int, number: int) -> int:
    """The number of the register that a frame's register is, 1 to 3; 0 where it is none."""
    return raw.LIBRARY.pdb_frame_register(_fits(16, machine), _fits(8, number))


def gaps(record: bytes) -> List[Gap]:
    """The gaps of a record of a range, in which it doesn't hold."""
    count = raw.size_t()
    rows = (raw.Gap * (len(record) // 4))()
    _check(raw.LIBRARY.pdb_gaps(record, len(record), rows, len(rows), count))
    return [Gap(it.start, it.size) for it in rows[: count.value]]


def record(data: bytes) -> Record:
    """What the record of a symbol says, by its bytes with the kind, where the calls on symbols don't read that kind."""
    out = raw.Record()
    _check(raw.LIBRARY.pdb_record(data, len(data), out))
    part = out.part if out.is_part else None
    return Record(
        form=out.form,
        name=out.name.copy(),
        type_index=out.type_index,
        flags=out.flags,
        storage=Storage(Location(out.location), out.number, out.displacement, part=part),
        offset=out.offset if out.has_place else None,
        section=out.section if out.has_place else None,
        size=out.size,
        gaps=tuple(gaps(data)),
    )
