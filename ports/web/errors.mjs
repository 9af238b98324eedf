// The errors of the library, by the names of pdb.h.

const NAMES = {
    1: "UnexpectedEof", 2: "UnimplementedFeature", 3: "UnrecognizedFileFormat", 4: "InvalidPageSize",
    5: "PageReferenceOutOfRange", 6: "StreamNotFound", 7: "StreamNameNotFound", 8: "GlobalSymbolsNotFound",
    9: "AddressMapNotFound", 10: "InvalidStreamLength", 11: "SymbolTooShort", 12: "UnimplementedSymbolKind",
    13: "UnimplementedDebugSubsection", 14: "UnimplementedFileChecksumKind", 15: "InvalidFileChecksumOffset",
    16: "UnknownBinaryAnnotation", 17: "InvalidCompressedAnnotation", 18: "NotACrossModuleRef",
    19: "CrossModuleRefNotFound", 20: "UnexpectedNumericPrefix", 21: "IoError", 22: "OutOfMemory",
    32: "StreamTooLarge", 33: "SectionsNotFound", 34: "NotAnImage", 35: "NoPeSignature", 36: "UnknownOptionalHeader",
    37: "Nb10", 38: "UnknownCodeView",
};

export const CODES = Object.freeze(Object.fromEntries(Object.entries(NAMES).map(([code, name]) => [name, Number(code)])));

/** The name of an error code; `Code` and the number where it has none. */
export const nameOf = (code) => NAMES[code] ?? `Code${code}`;

/**
 * An error of the library: `code` is its number in pdb.h, and `error` its name. `number` is what the error carries: of a file
 * that can't be opened a page size, a page or a stream; the stream that isn't there. Otherwise it is 0.
 */
export class PdbError extends Error {
    constructor(code, message = nameOf(code), number = 0) {
        super(message);
        this.name = "PdbError";
        this.code = code;
        this.error = nameOf(code);
        this.number = number;
    }
}

/** The engine or `memoryLimit` allows no more memory; the same call may be made again. */
export class PdbOutOfMemory extends PdbError {
    constructor(message = "out of memory") {
        super(CODES.OutOfMemory, message);
        this.name = "PdbOutOfMemory";
    }
}
