/** A reader of PDB files over pdb.wasm. Nothing of a file leaves the process or the page. */

/** An error of the library: `code` is its number in pdb.h, and `error` its name, as "UnexpectedEof". */
export class PdbError extends Error {
    constructor(code: number, message?: string, number?: number);
    readonly code: number;
    readonly error: string;
    /** Of a file that can't be opened: a page size, a page or a stream; the stream that isn't there; otherwise 0. */
    readonly number: number;
}
/** The engine or `memoryLimit` allows no more memory; the same call may be made again. */
export class PdbOutOfMemory extends PdbError {
    constructor(message?: string);
}
/** The number of each error in pdb.h, by its name. */
export const CODES: Readonly<Record<string, number>>;

/** A file: its bytes, a Blob or File, or in Node a path. */
export type Source = Uint8Array | ArrayBuffer | Blob | string | URL;
export interface OpenOptions {
    /**
     * pdb.wasm or pdb-types.wasm: its module, its bytes or its URL. Otherwise pdb.wasm beside pdb.mjs, which lacks the calls of
     * types. "pdb-types.wasm" is the file beside pdb.mjs that has them.
     */
    wasm?: WebAssembly.Module | Uint8Array | ArrayBuffer | string | URL;
    /** Is called with the number of bytes that were read, and with that of all. */
    onProgress?: (done: number, of: number) => void;
    /** How many bytes of memory the file and the reader may take; 0 is the engine's own limit. */
    memoryLimit?: number;
}
/** Opens a PDB file of up to 3 GB; its bytes are copied once. Throws the PdbError of a file that can't be opened. */
export function openPdb(source: Source, options?: OpenOptions): Promise<Pdb>;
/** What an image, an EXE or a DLL, says of itself and of its PDB. Throws the PdbError of what is no image. */
export function readImage(source: Source, options?: OpenOptions): Promise<Image>;

export interface Information {
    /** 16 bytes, in the order in which a GUID is printed. */
    guid: Uint8Array;
    /** The same, as the file has them. */
    guidBytes: Uint8Array;
    guidText: string;
    /** Of the stream's format: a date. */
    version: number;
    /** Seconds since 1970, or another number. */
    signature: number;
    age: number;
}
export interface DebugInformation {
    readonly age: number;
    /** The stream of global symbols. */
    readonly symbolsStream: number | null;
    /** IMAGE_FILE_MACHINE_.. */
    readonly machine: number;
    readonly flags: number;
}
/** The name of a stream; not every number is that of a stream. */
export interface StreamName { name: string; number: number | null; }
/** A section header of the image: the fields of IMAGE_SECTION_HEADER. The first one is section 1. */
export interface Section {
    name: string;
    virtualSize: number;
    virtualAddress: number;
    sizeOfRawData: number;
    pointerToRawData: number;
    pointerToRelocations: number;
    pointerToLineNumbers: number;
    numberOfRelocations: number;
    numberOfLineNumbers: number;
    characteristics: number;
}
export interface Module {
    /** Its index in the list: K of the calls below. */
    index: number;
    /** Mostly the path of an object file. */
    name: string;
    /** The file from which the linker took it. */
    object: string;
    stream: number | null;
    /** The sizes of that stream's parts. */
    symbolsSize: number;
    linesSize: number;
    c13LinesSize: number;
}
/** Bytes of the image that came from one module. */
export interface Contribution {
    module: number;
    section: number;
    offset: number;
    size: number;
    characteristics: number;
    dataCrc: number;
    relocCrc: number;
}
export type Form =
    | "ScopeEnd" | "ObjName" | "RegisterVariable" | "Constant" | "UserDefinedType" | "MultiRegisterVariable" | "Data" | "Public"
    | "Procedure" | "ThreadStorage" | "CompileFlags" | "UsingNamespace" | "ProcedureReference" | "DataReference"
    | "AnnotationReference" | "Trampoline" | "Export" | "Local" | "BuildInfo" | "InlineSite" | "InlineSiteEnd" | "ProcedureEnd"
    | "Label" | "Block" | "RegisterRelative" | "Thunk" | "SeparatedCode";
export const FORMS: readonly (Form | null)[];
export interface PdbSymbol {
    /** The offset of the record in its stream. */
    index: number;
    /** S_.. of cvinfo.h. */
    kind: number;
    /** The record layout; null where the record can't be read. */
    form: Form | null;
    /** 0 and null, or why the record can't be read; UnimplementedSymbolKind is about `kind`. */
    code: number;
    error: string | null;
    name: string | null;
    section: number | null;
    offset: number | null;
    /** What a record doesn't have is 0 from here on. */
    codeSize: number;
    parent: number;
    end: number;
    typeIndex: number;
    /** The id of the function that was inlined. */
    inlinee: number;
    startsScope: boolean;
    endsScope: boolean;
    /** Of an inlined call, for inlinedLines. */
    annotations: Uint8Array | null;
    /** With `bytes: true`: the record with its kind, and the bytes of the name, which need not be UTF-8. */
    record?: Uint8Array;
    nameBytes?: Uint8Array | null;
}
export interface SymbolOptions { bytes?: boolean; }
/** What has the name of a source file, or of a module: its offset in the string table, and the name there. */
export interface Named { nameAt: number | null; name: string | null; }
export interface Line extends Named {
    section: number;
    offset: number;
    length: number | null;
    /** By the offset of its checksum: `index` of SourceFile. */
    file: number;
    /** 0, or the code of why the file has no name; InvalidFileChecksumOffset is about `file`. */
    fileCode: number;
    lineStart: number;
    lineEnd: number;
    columnStart: number | null;
    columnEnd: number | null;
    isStatement: boolean;
}
export interface SourceFile extends Named {
    index: number;
    kind: "none" | "md5" | "sha1" | "sha256";
    checksum: Uint8Array;
}
/** An inlined function; the first one of an id counts. */
export interface Inlinee extends Named { id: number; line: number; file: number; fileCode: number; }
/** A module from which a module imports, and the types and ids that it takes. */
export interface Import extends Named { numbers: number[]; }
export interface Export { kind: "type" | "id"; local: number; global: number; }
/** The size of a type in bytes, and of a class, a union or an enumeration the index of its definition. */
export interface TypeSize { size: bigint | null; full: number | null; }
export type MemberKind =
    | "BaseClass" | "VirtualBaseClass" | "IndirectVirtualBaseClass" | "VirtualTablePointer" | "VirtualTableOffset" | "FriendClass"
    | "FriendFunction" | "Enumerator" | "DataMember" | "StaticMember" | "MemberFunction" | "UnreadFunctions" | "NestedType"
    | "MoreMembers";
export const MEMBER_KINDS: readonly (MemberKind | null)[];
export interface Member {
    /** null where the list of members has an error here. */
    kind: MemberKind | null;
    /** 0 and null, or that error. */
    code: number;
    error: string | null;
    name: string;
    typeIndex: number | null;
    /** Of an enumerator its value; of others an offset, in the object or in the table of virtual functions. */
    value: bigint | null;
    /** Of a virtual base class, in its table. */
    entry: bigint | null;
    /** The first bit of a bit field. */
    bit: number | null;
    /** CV_fldattr_t of cvinfo.h. */
    attributes: number;
    access: "private" | "protected" | "public" | null;
}
/** An address relative to the load address, or an offset in a section. What is out of range, and null, has no code. */
export type Address = number | bigint | { section: number; offset: number } | null;
/** A function at an address, and the line there; line and column are 0 where unknown. */
export interface Frame { function: string | null; file: string | null; line: number; column: number; }
export interface Image {
    /** The address at which it wants to be loaded. */
    base: bigint;
    machine: number;
    timeStamp: number;
    size: number;
    /** The PDB that it names. */
    pdb: { guid: Uint8Array; guidBytes: Uint8Array; guidText: string; age: number; path: string } | null;
}

/** An iterator that gives what stands before an error, and then throws it. A module without a stream has an empty one. */
export type List<T> = Generator<T, void, undefined>;

/** A PDB file. Names are text in UTF-8; what isn't UTF-8 has U+FFFD. */
export class Pdb {
    private constructor();
    /** Bytes of the file; bytes of the instance's memory, which doesn't shrink. */
    readonly size: number;
    readonly memory: number;
    /** Lets go of the memory; no call may follow. */
    close(): void;
    information(): Information;
    debugInformation(): DebugInformation;
    /** The key under which a symbol server stores the file. */
    key(): string;
    /** A copy of the bytes of a stream, by its number or its name. */
    stream(number: number): Uint8Array;
    namedStream(name: string): Uint8Array;
    streamNames(): StreamName[];
    /** Throws SectionsNotFound where the file has no stream of them. */
    sections(): Section[];
    contributions(): List<Contribution>;
    readonly moduleCount: number;
    modules(): List<Module>;
    /** Throws a RangeError where there is no module of this index, as the calls below do. */
    module(k: number): Module;
    symbols(k: number, options?: SymbolOptions): List<PdbSymbol>;
    globals(options?: SymbolOptions): List<PdbSymbol>;
    lines(k: number): List<Line>;
    files(k: number): List<SourceFile>;
    inlinees(k: number): List<Inlinee>;
    /** The line records of an inlined call: of its symbol, the last procedure before it, and the first function of its id. */
    inlinedLines(
        site: { annotations: Uint8Array },
        procedure: { section: number; offset: number },
        inlinee: { file: number; line: number },
    ): List<Line>;
    imports(k: number): List<Import>;
    exports(k: number): List<Export>;
    /** The name at an offset of the string table. */
    nameAt(offset: number): string;
    /** The names of types in C++, their sizes and their members, by their indices: each call reads all types once. Throws where pdb-types.wasm isn't used. */
    typeNames(indices: readonly number[]): string[];
    typeSizes(indices: readonly number[]): TypeSize[];
    members(indices: readonly number[]): Member[][];
    /** Of each address the frames from the innermost inlined function to the function itself, at least one. */
    frames(addresses: readonly Address[]): Frame[][];
}

/** A GUID as text without braces, of bytes in the order in which they are printed. */
export function guidText(guid: Uint8Array): string;
