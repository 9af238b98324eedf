// The records that cross between the library and JavaScript: their sizes, and what is made of each. pdb.h has their fields.

import { nameOf } from "./errors.mjs";
import { borrowed, u64 } from "./memory.mjs";

export const NO_STREAM = 0xffff;

/** How many bytes each record has. */
export const SIZES = Object.freeze({
    information: 44, debugInformation: 16, stream: 24, streamName: 24, section: 44, module: 48, contribution: 32, symbol: 88,
    line: 40, file: 32, inlinee: 20, import: 24, export: 8, address: 8, frame: 56, image: 80, typeName: 16, typeSize: 16, member: 64,
});

/** The record layouts of symbols, by their numbers. */
export const FORMS = Object.freeze([
    null, "ScopeEnd", "ObjName", "RegisterVariable", "Constant", "UserDefinedType", "MultiRegisterVariable", "Data", "Public",
    "Procedure", "ThreadStorage", "CompileFlags", "UsingNamespace", "ProcedureReference", "DataReference",
    "AnnotationReference", "Trampoline", "Export", "Local", "BuildInfo", "InlineSite", "InlineSiteEnd", "ProcedureEnd",
    "Label", "Block", "RegisterRelative", "Thunk", "SeparatedCode",
]);
/** What a member of a type is, by its number. */
export const MEMBER_KINDS = Object.freeze([
    null, "BaseClass", "VirtualBaseClass", "IndirectVirtualBaseClass", "VirtualTablePointer", "VirtualTableOffset", "FriendClass",
    "FriendFunction", "Enumerator", "DataMember", "StaticMember", "MemberFunction", "UnreadFunctions", "NestedType", "MoreMembers",
]);
const ACCESS = [null, "private", "protected", "public"];
const CHECKSUMS = ["none", "md5", "sha1", "sha256"];

/** A GUID as text, of its bytes in the order in which they are printed. */
export function guidText(guid) {
    const hex = Array.from(guid, (it) => it.toString(16).padStart(2, "0").toUpperCase()).join("");
    return hex.replace(/^(.{8})(.{4})(.{4})(.{4})(.{12})$/, "$1-$2-$3-$4-$5");
}

const u32 = (view, at) => view.getUint32(at, true);
const u16 = (view, at) => view.getUint16(at, true);

export function informationOf(view, at, memory) {
    const guid = memory.bytes(at, 16).slice(), guidBytes = memory.bytes(at + 16, 16).slice();
    return { guid, guidBytes, guidText: guidText(guid), version: u32(view, at + 32), signature: u32(view, at + 36), age: u32(view, at + 40) };
}

export function debugInformationOf(view, at) {
    const stream = u32(view, at + 4);
    return Object.freeze({
        age: u32(view, at), symbolsStream: stream === NO_STREAM ? null : stream, machine: u32(view, at + 8), flags: u32(view, at + 12),
    });
}

export function moduleOf(view, at, memory, index) {
    const stream = u32(view, at + 32);
    return {
        index, name: memory.text(...borrowed(view, at)), object: memory.text(...borrowed(view, at + 16)),
        stream: stream === NO_STREAM ? null : stream, symbolsSize: u32(view, at + 36), linesSize: u32(view, at + 40),
        c13LinesSize: u32(view, at + 44),
    };
}

export function sectionOf(view, at, memory) {
    const numbers = [12, 16, 20, 24, 28, 32].map((it) => u32(view, at + it));
    const [virtualSize, virtualAddress, sizeOfRawData, pointerToRawData, pointerToRelocations, pointerToLineNumbers] = numbers;
    return {
        name: memory.text(at, u32(view, at + 8)), virtualSize, virtualAddress, sizeOfRawData, pointerToRawData,
        pointerToRelocations, pointerToLineNumbers, numberOfRelocations: u16(view, at + 36),
        numberOfLineNumbers: u16(view, at + 38), characteristics: u32(view, at + 40),
    };
}

export function contributionOf(view, at) {
    const [offset, size, characteristics, dataCrc, relocCrc] = [8, 12, 16, 20, 24].map((it) => u32(view, at + it));
    return { module: u64(view, at), section: u16(view, at + 28), offset, size, characteristics, dataCrc, relocCrc };
}

export function symbolOf(view, at, memory, options) {
    const form = view.getUint8(at + 80), code = view.getUint8(at + 81), hasName = view.getUint8(at + 82), hasPlace = view.getUint8(at + 83);
    const symbol = {
        index: u32(view, at + 48), kind: u16(view, at + 78), form: FORMS[form], code, error: code ? nameOf(code) : null,
        name: hasName ? memory.text(...borrowed(view, at + 16)) : null, section: hasPlace ? u16(view, at + 76) : null,
        offset: hasPlace ? u32(view, at + 60) : null, codeSize: u32(view, at + 64), parent: u32(view, at + 52),
        end: u32(view, at + 56), typeIndex: u32(view, at + 68), inlinee: u32(view, at + 72),
        startsScope: view.getUint8(at + 84) === 1, endsScope: view.getUint8(at + 85) === 1,
        annotations: FORMS[form] === "InlineSite" ? memory.bytes(...borrowed(view, at + 32)).slice() : null,
    };
    if (options.bytes) {
        symbol.record = memory.bytes(...borrowed(view, at)).slice();
        symbol.nameBytes = hasName ? memory.bytes(...borrowed(view, at + 16)).slice() : null;
    }
    return symbol;
}

/** A line record; `nameAt` is the offset of its file's name in the string table, or null, and then `fileCode` says why. */
export function lineOf(view, at) {
    const known = (flag, place) => (view.getUint8(at + flag) ? u32(view, at + place) : null);
    return {
        section: u16(view, at + 4), offset: u32(view, at), length: known(8, 12), file: u32(view, at + 16),
        nameAt: u16(view, at + 6) ? null : u32(view, at + 20), fileCode: u16(view, at + 6), lineStart: u32(view, at + 24), lineEnd: u32(view, at + 28),
        columnStart: known(9, 32), columnEnd: known(10, 36), isStatement: view.getUint8(at + 11) === 1,
    };
}

export function fileOf(view, at, memory) {
    const checksum = memory.bytes(...borrowed(view, at)).slice();
    return { index: u32(view, at + 16), nameAt: u32(view, at + 20), kind: CHECKSUMS[u32(view, at + 24)], checksum };
}

export function inlineeOf(view, at) {
    const [id, line, file, nameAt, code] = [0, 4, 8, 12, 16].map((it) => u32(view, at + it));
    return { id, line, file, nameAt: code ? null : nameAt, fileCode: code };
}

export function importOf(view, at) {
    const [from, size] = borrowed(view, at), numbers = [];
    for (let k = 0; k + 4 <= size; k += 4) numbers.push(u32(view, from + k));
    return { nameAt: u32(view, at + 16), numbers };
}

export function exportOf(view, at) {
    const local = u32(view, at);
    return { kind: local >>> 31 ? "id" : "type", local, global: u32(view, at + 4) };
}

export function typeSizeOf(view, at) {
    return { size: u32(view, at + 12) ? view.getBigUint64(at, true) : null, full: u32(view, at + 8) || null };
}

/** A member of a type, and which of the indices it is of; one that is no form is the error behind the members. */
export function memberOf(view, at, memory) {
    const [form, code, hasValue, hasBit, bit] = [54, 55, 56, 57, 58].map((it) => view.getUint8(at + it));
    const attributes = u16(view, at + 52), kind = MEMBER_KINDS[form];
    const value = (view.getBigInt64(at + 24, true) << 64n) | view.getBigUint64(at + 16, true);
    const isVirtual = kind === "VirtualBaseClass" || kind === "IndirectVirtualBaseClass";
    const member = {
        kind, code, error: code ? nameOf(code) : null, name: memory.text(...borrowed(view, at)), typeIndex: u32(view, at + 48) || null,
        value: hasValue ? value : null, entry: isVirtual ? view.getBigUint64(at + 32, true) : null, bit: hasBit ? bit : null,
        attributes, access: ACCESS[attributes & 3],
    };
    return { owner: u64(view, at + 40), member };
}

export function imageOf(view, at, memory) {
    const guid = memory.bytes(at + 24, 16).slice(), guidBytes = memory.bytes(at + 40, 16).slice();
    const [machine, timeStamp, size, age, hasPdb] = [56, 60, 64, 68, 72].map((it) => u32(view, at + it));
    const pdb = hasPdb === 1 ? { guid, guidBytes, guidText: guidText(guid), age, path: memory.text(...borrowed(view, at)) } : null;
    return { base: view.getBigUint64(at + 16, true), machine, timeStamp, size, pdb };
}

/** Writes an address that is asked for; one that is out of range has no code. */
export function putAddress(view, at, address) {
    const isNumber = typeof address === "number" || typeof address === "bigint";
    const offset = isNumber ? address : address?.offset, section = isNumber ? 0 : address?.section;
    const fits = offset >= 0 && offset < 2 ** 32 && section >= 0 && section < 65536;
    view.setUint32(at, fits ? Number(offset) : 0, true);
    view.setUint16(at + 4, fits ? section : 0, true);
    view.setUint16(at + 6, fits ? (isNumber ? 0 : 1) : 2, true);
}

/** The frames of each address. */
export function framesOf(view, rows, count, names, memory, addresses) {
    const frames = Array.from({ length: addresses }, () => []);
    const text = (at, place) => memory.text(names + u64(view, at + place), u64(view, at + place + 8));
    for (let k = 0, at = rows; k < count; k++, at += SIZES.frame) {
        frames[u64(view, at)].push({
            function: u32(view, at + 48) ? text(at, 8) : null, file: u32(view, at + 52) ? text(at, 24) : null,
            line: u32(view, at + 40), column: u32(view, at + 44),
        });
    }
    return frames;
}
