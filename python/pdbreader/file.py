"""A file by its parts."""
from __future__ import annotations

import os
from functools import cached_property
from typing import Iterable, Iterator, List, Tuple, Union

from . import functions, storage
from .errors import GlobalSymbolsNotFound, PdbError
from .records import (
    Address,
    Contribution,
    DebugInformation,
    Export,
    Frame,
    Import,
    Information,
    Inlinee,
    Line,
    Member,
    Module,
    Section,
    SourceFile,
    StreamName,
    Symbol,
    TypeSize,
)
from .storage import Variable

_TYPES_STREAM = 2
_DBI_STREAM = 3


class PdbModule:
    """A module of a file. A module without a stream has no symbols and no lines: its lists are empty."""

    def __init__(self, file: "PdbFile", record: Module) -> None:
        self._file = file
        self.record = record

    def __repr__(self) -> str:
        return f"PdbModule({self.name!r})"

    @property
    def name(self) -> bytes:
        """Mostly the path of the object file."""
        return self.record.name

    @property
    def object(self) -> bytes:
        """The file from which the linker took it."""
        return self.record.object

    @property
    def sizes(self) -> Tuple[int, int, int]:
        """The sizes of the parts of its stream: symbols, C11 lines, C13 lines."""
        return self.record.symbols_size, self.record.lines_size, self.record.c13_lines_size

    @cached_property
    def stream(self) -> bytes:
        """The bytes of its stream; empty without one."""
        return b"" if self.record.stream is None else functions.stream(self._file.data, self.record.stream)

    def symbols(self) -> Iterator[Symbol]:
        """Its symbols."""
        return iter(()) if self.record.stream is None else functions.symbols(self.stream, self.record.symbols_size)

    def lines(self) -> Iterator[Line]:
        """Its line records."""
        return iter(()) if self.record.stream is None else functions.lines(self.stream, self.sizes)

    def files(self) -> Iterator[SourceFile]:
        """Its source files."""
        return iter(()) if self.record.stream is None else functions.files(self.stream, self.sizes)

    def inlinees(self) -> Iterator[Inlinee]:
        """The functions that were inlined in it."""
        return iter(()) if self.record.stream is None else functions.inlinees(self.stream, self.sizes)

    def imports(self) -> List[Import]:
        """The modules from which it imports."""
        return [] if self.record.stream is None else functions.imports(self.stream, self.sizes)

    def exports(self) -> Iterator[Export]:
        """What it exports."""
        return iter(()) if self.record.stream is None else functions.exports(self.stream, self.sizes)


class PdbFile:
    """A PDB file, by its bytes. Raises a PdbError where they can't be opened as one."""

    def __init__(self, data: Union[bytes, bytearray, memoryview]) -> None:
        self.data = bytes(data)
        functions.opens(self.data)

    @classmethod
    def open(cls, path: Union[str, bytes, "os.PathLike[str]"]) -> "PdbFile":
        """The file of a path."""
        with open(path, "rb") as it:
            return cls(it.read())

    @cached_property
    def information(self) -> Information:
        """Which file it is: its GUID, its age, its version."""
        return functions.information(self.data)

    @cached_property
    def debug_information(self) -> DebugInformation:
        """The header of the DBI stream: the image's age and machine."""
        return functions.debug_information(self.data)

    @cached_property
    def key(self) -> str:
        """The key under which a symbol server stores the file."""
        return functions.key(self.data)

    def stream(self, number: int) -> bytes:
        """The bytes of a stream."""
        return functions.stream(self.data, number)

    def stream_names(self) -> List[StreamName]:
        """The names of its streams, in the order in which it lists them."""
        return functions.stream_names(self.data)

    def sections(self) -> List[Section]:
        """The section headers of its image. Raises SectionsNotFound where it has no stream of them."""
        return functions.sections(self.data)

    def contributions(self) -> Iterator[Contribution]:
        """Which bytes of the image came from which module."""
        return functions.contributions(self.stream(_DBI_STREAM))

    def modules(self) -> Iterator[PdbModule]:
        """Its modules."""
        functions.debug_information(self.data)  # raises the error of the header, where it has one
        for it in functions.modules(self.stream(_DBI_STREAM)):
            yield PdbModule(self, it)

    def global_symbols(self) -> Iterator[Symbol]:
        """Its global symbols."""
        number = self.debug_information.symbols_stream
        if number is None:
            raise GlobalSymbolsNotFound
        return functions.global_symbols(self.stream(number))

    @cached_property
    def _types(self) -> bytes:
        return self.stream(_TYPES_STREAM)

    def type_names(self, indices: Iterable[int]) -> List[bytes]:
        """The names in C++ of the types of these indices."""
        return functions.type_names(self._types, indices)

    def type_sizes(self, indices: Iterable[int]) -> List[TypeSize]:
        """The sizes of the types of these indices, and their definitions."""
        return functions.type_sizes(self._types, indices)

    def members(self, indices: Iterable[int]) -> List[List[Union[Member, PdbError]]]:
        """The members of the types of these indices. An error in a list is its last item."""
        return functions.members(self._types, indices)

    @cached_property
    def _names(self) -> bytes:
        return functions.named_stream(self.data, b"/names")

    def name(self, offset: int) -> bytes:
        """The name at an offset of the string table: of a source file, or of a module."""
        return functions.name(self._names, offset)

    def frames(self, addresses: Iterable[Address]) -> List[List[Frame]]:
        """The functions and lines at each address, from the innermost inlined function outwards."""
        return functions.frames(self.data, addresses)

    def variables(self, addresses: Iterable[Address]) -> List[List[Variable]]:
        """The variables in scope at each address, and where each is while the code there runs."""
        return storage.variables(self.data, addresses)
