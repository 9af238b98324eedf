"""What the calls return, as values that borrow nothing."""
from __future__ import annotations

import enum
import uuid
from dataclasses import dataclass
from typing import Optional, Tuple

from .errors import PdbError


@dataclass(frozen=True)
class Information:
    """Which file it is, by the information stream."""

    guid: uuid.UUID
    version: int  # of the stream's format: a date
    signature: int  # seconds since 1970, or another number
    age: int  # how often the file was written; the image has that of DebugInformation


@dataclass(frozen=True)
class DebugInformation:
    """The header of the DBI stream."""

    age: int
    symbols_stream: Optional[int]  # the stream of global symbols
    machine: int  # IMAGE_FILE_MACHINE_..
    flags: int


@dataclass(frozen=True)
class StreamName:
    """The name of a stream."""

    name: bytes
    number: Optional[int]  # not every number is that of a stream


@dataclass(frozen=True)
class Section:
    """A section header of the image, as in the PE format."""

    name: bytes  # without the zero bytes behind it
    virtual_size: int  # bytes in memory
    virtual_address: int  # relative to the load address
    size_of_raw_data: int  # bytes in the image's file
    pointer_to_raw_data: int  # their offset in the image's file
    pointer_to_relocations: int
    pointer_to_line_numbers: int
    number_of_relocations: int
    number_of_line_numbers: int
    characteristics: int  # IMAGE_SCN_..


@dataclass(frozen=True)
class Module:
    """A module, which is an object file."""

    name: bytes  # mostly the path of the object file
    object: bytes  # the file from which the linker took it
    stream: Optional[int]
    symbols_size: int  # the sizes of that stream's parts
    lines_size: int
    c13_lines_size: int


@dataclass(frozen=True)
class Contribution:
    """Bytes of the image that came from one module."""

    module: int  # its index in the list of modules
    section: int
    offset: int  # the offset of the first byte in the section
    size: int
    characteristics: int  # IMAGE_SCN_.. of the object file's section from which they came
    data_crc: int  # a checksum of the bytes
    reloc_crc: int  # a checksum of their relocations


class Form(enum.IntEnum):
    """The record layouts of symbols."""

    SCOPE_END = 1
    OBJ_NAME = 2
    REGISTER_VARIABLE = 3
    CONSTANT = 4
    USER_DEFINED_TYPE = 5
    MULTI_REGISTER_VARIABLE = 6
    DATA = 7
    PUBLIC = 8
    PROCEDURE = 9
    THREAD_STORAGE = 10
    COMPILE_FLAGS = 11
    USING_NAMESPACE = 12
    PROCEDURE_REFERENCE = 13
    DATA_REFERENCE = 14
    ANNOTATION_REFERENCE = 15
    TRAMPOLINE = 16
    EXPORT = 17
    LOCAL = 18
    BUILD_INFO = 19
    INLINE_SITE = 20
    INLINE_SITE_END = 21
    PROCEDURE_END = 22
    LABEL = 23
    BLOCK = 24
    REGISTER_RELATIVE = 25
    THUNK = 26
    SEPARATED_CODE = 27


@dataclass(frozen=True)
class Symbol:
    """A symbol. A number that its record doesn't have is 0."""

    index: int  # the offset of the record in its stream
    kind: int  # S_.. of cvinfo.h
    form: Optional[Form]  # None where the record can't be read
    error: Optional[PdbError]  # why it can't be read
    record: bytes  # with its kind, without its length
    name: Optional[bytes]
    section: Optional[int]  # the section and the offset in it, where the record has them
    offset: Optional[int]
    code_size: int
    type_index: int
    parent: int  # the index of the symbol whose scope it is in
    end: int  # the index of the symbol that ends its scope
    inlinee: int  # the id of the function that was inlined
    annotations: bytes  # of an inlined call, for inlined_lines
    starts_scope: bool
    ends_scope: bool


@dataclass(frozen=True)
class Line:
    """A line record."""

    section: int
    offset: int  # the offset of the code in the section
    length: Optional[int]  # bytes of code
    file: int  # by the offset of its checksum
    file_name: Optional[int]  # the offset of the file's name in the string table
    file_error: Optional[PdbError]  # why the file has no name
    line_start: int
    line_end: int
    column_start: Optional[int]
    column_end: Optional[int]
    is_statement: bool  # otherwise an expression


class ChecksumKind(enum.IntEnum):
    """What a checksum is."""

    NONE = 0
    MD5 = 1
    SHA1 = 2
    SHA256 = 3


@dataclass(frozen=True)
class SourceFile:
    """A source file of a module."""

    index: int  # the offset of its record: `file` of Line and of Inlinee
    name: int  # the offset of its name in the string table
    kind: ChecksumKind
    checksum: bytes


@dataclass(frozen=True)
class Inlinee:
    """An inlined function."""

    id: int  # `inlinee` of Symbol; the first function of an id counts
    line: int  # where the function begins
    file: int  # by the offset of its checksum
    file_name: Optional[int]  # the offset of the file's name in the string table
    file_error: Optional[PdbError]  # why the file has no name


@dataclass(frozen=True)
class Import:
    """A module from which a module imports."""

    name: int  # the offset of that module's name in the string table
    numbers: Tuple[int, ...]  # types and ids, local to that module


@dataclass(frozen=True)
class Export:
    """What a module exports."""

    local: int  # local to the module; an id where its top bit is set, otherwise a type
    global_index: int  # the number in the whole file


@dataclass(frozen=True)
class Address:
    """An address to look up: relative to the load address of the image, or an offset in a section."""

    offset: int
    section: Optional[int] = None


@dataclass(frozen=True)
class Frame:
    """A function at an address, and the line there."""

    name: Optional[bytes]
    file: Optional[bytes]
    line: int  # 0 where unknown
    column: int


@dataclass(frozen=True)
class TypeSize:
    """The size of a type, and its definition."""

    size: Optional[int]  # bytes of an object of the type
    full: Optional[int]  # of a class, a union or an enumeration the index of its definition


class MemberKind(enum.IntEnum):
    """What a member of a type is."""

    BASE_CLASS = 1
    VIRTUAL_BASE_CLASS = 2  # value is the offset of the pointer to its table
    INDIRECT_VIRTUAL_BASE_CLASS = 3  # one of a base class
    VIRTUAL_TABLE_POINTER = 4
    VIRTUAL_TABLE_OFFSET = 5
    FRIEND_CLASS = 6
    FRIEND_FUNCTION = 7
    ENUMERATOR = 8
    DATA_MEMBER = 9
    STATIC_MEMBER = 10
    MEMBER_FUNCTION = 11  # one for each overload
    UNREAD_FUNCTIONS = 12  # the list of the overloads of a name isn't there, or has an error
    NESTED_TYPE = 13
    MORE_MEMBERS = 14  # more than 1024 lists go on in one another: the others aren't read
    ENDLESS_MEMBERS = 15  # an error of the file: the list of members continues in itself


class Access(enum.IntEnum):
    """Who may use a member."""

    PRIVATE = 1
    PROTECTED = 2
    PUBLIC = 3


@dataclass(frozen=True)
class Member:
    """A member of a class, a structure, a union or an enumeration."""

    kind: MemberKind
    name: bytes
    type_index: Optional[int]
    value: Optional[int]  # of an enumerator; otherwise an offset: in the object, or in the table of virtual functions
    entry: Optional[int]  # of a virtual base class, in its table
    bit: Optional[int]  # the first bit of a bit field
    attributes: int  # CV_fldattr_t of cvinfo.h

    @property
    def access(self) -> Optional[Access]:
        """Who may use it; None where the file doesn't say so."""
        return Access(self.attributes & 3) if self.attributes & 3 else None


@dataclass(frozen=True)
class PdbReference:
    """The PDB that an image names."""

    guid: uuid.UUID
    age: int
    path: bytes  # as the linker was given it

    @property
    def key(self) -> str:
        """The key under which a symbol server stores the PDB."""
        return f"{self.guid.hex.upper()}{self.age:X}"


@dataclass(frozen=True)
class Image:
    """What an image, an EXE or a DLL, says of itself and of its PDB."""

    machine: int  # IMAGE_FILE_MACHINE_..
    base: int  # the address at which it wants to be loaded
    time_stamp: int
    size: int  # its bytes in memory
    pdb: Optional[PdbReference]

    @property
    def key(self) -> str:
        """The key under which a symbol server stores the image."""
        return f"{self.time_stamp:08X}{self.size:x}"
