"""An exception for each error code of the library."""
from __future__ import annotations

from typing import Dict, Optional, Type


class PdbError(Exception):
    """An error of the library; `code` is its number in pdb.h.

    `number` is what the error carries: of a file that can't be opened a page size, a page or a stream; the stream that isn't
    there; the kind of a symbol that isn't read; the file of a line or of an inlined function that has no name. It is 0 of
    each other error.
    """

    code: int = 0
    number: int = 0

    def __init__(self, message: Optional[str] = None) -> None:
        super().__init__(message or type(self).__doc__)


class UnexpectedEof(PdbError):
    """Bytes that a format needs are not present."""

    code = 1


class UnimplementedFeature(PdbError):
    """A feature that this reader doesn't read."""

    code = 2


class UnrecognizedFileFormat(PdbError):
    """No file of the container MSF 7.00."""

    code = 3


class InvalidPageSize(PdbError):
    """The page size is no power of two from 256 to 8388608."""

    code = 4


class PageReferenceOutOfRange(PdbError):
    """A page number that is no page of the file."""

    code = 5


class StreamNotFound(PdbError):
    """No stream of this number."""

    code = 6


class StreamNameNotFound(PdbError):
    """No stream of this name."""

    code = 7


class GlobalSymbolsNotFound(PdbError):
    """No stream of global symbols."""

    code = 8


class AddressMapNotFound(PdbError):
    """The address map lacks a table."""

    code = 9


class InvalidStreamLength(PdbError):
    """A length contradicts its format."""

    code = 10


class SymbolTooShort(PdbError):
    """A symbol record is too short for its kind."""

    code = 11


class UnimplementedSymbolKind(PdbError):
    """Records of this kind are not read."""

    code = 12


class UnimplementedDebugSubsection(PdbError):
    """Debug subsections of this kind are not read."""

    code = 13


class UnimplementedFileChecksumKind(PdbError):
    """File checksums of this kind are not read."""

    code = 14


class InvalidFileChecksumOffset(PdbError):
    """No file checksum begins there."""

    code = 15


class UnknownBinaryAnnotation(PdbError):
    """A binary annotation of an unknown kind."""

    code = 16


class InvalidCompressedAnnotation(PdbError):
    """A binary annotation whose number is not spelled as annotations spell numbers."""

    code = 17


class NotACrossModuleRef(PdbError):
    """An index that refers to no import."""

    code = 18


class CrossModuleRefNotFound(PdbError):
    """The module doesn't have the import to which an index refers."""

    code = 19


class UnexpectedNumericPrefix(PdbError):
    """The prefix of a number is of no known kind."""

    code = 20


class IoError(PdbError, OSError):
    """Reading failed; the library never returns it."""

    code = 21


class OutOfMemory(PdbError, MemoryError):
    """malloc failed; the same call may be made again."""

    code = 22


class StreamTooLarge(PdbError):
    """More bytes than a stream can have."""

    code = 32


class SectionsNotFound(PdbError):
    """No stream of section headers."""

    code = 33


class NotAnImage(PdbError):
    """No image: it doesn't begin with MZ."""

    code = 34


class NoPeSignature(PdbError):
    """The number at offset 60 doesn't lead to a PE signature."""

    code = 35


class UnknownOptionalHeader(PdbError):
    """The optional header of an image is that of neither PE32 nor PE32+."""

    code = 36


class Nb10(PdbError):
    """The image names a PDB of version 2.00."""

    code = 37


class UnknownCodeView(PdbError):
    """The debug record of an image begins with neither RSDS nor NB10."""

    code = 38


_BY_CODE: Dict[int, Type[PdbError]] = {it.code: it for it in PdbError.__subclasses__()}


def error_of(code: int, number: int = 0) -> PdbError:
    """The exception of an error code, with the number that the error carries."""
    known = _BY_CODE.get(code)
    error = known() if known is not None else PdbError(f"error {code}")
    error.code, error.number = code, number
    return error
