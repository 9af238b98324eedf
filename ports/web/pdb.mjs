// A reader of PDB files for Node and browsers, over pdb.wasm: the proved C library of this project as WebAssembly. pdb.d.mts
// has the types and says what each call returns. One instance of the module serves one file: its memory holds the file's
// bytes, what this module keeps, and the heap of the library.

import { CODES, PdbError, PdbOutOfMemory } from "./errors.mjs";
import { Memory, borrowed, u64 } from "./memory.mjs";
import {
    FORMS, NO_STREAM, SIZES, contributionOf, debugInformationOf, exportOf, fileOf, framesOf, guidText, imageOf, importOf,
    MEMBER_KINDS, informationOf, inlineeOf, lineOf, memberOf, moduleOf, putAddress, sectionOf, symbolOf, typeSizeOf,
} from "./records.mjs";
import { isNode, sourceOf } from "./source.mjs";

export { CODES, FORMS, MEMBER_KINDS, PdbError, PdbOutOfMemory, guidText };

const DONE = 0, END = 30, ROOM = 31, INFORMATION_STREAM = 1, TYPES_STREAM = 2, DBI_STREAM = 3, SYMBOLS_AT = 4, GLOBALS_AT = 0;
const GUESS = 1 << 16, FIRST_ROWS = 64, ROWS = 1024, KEY_SIZE = 40;
// A memory of 32 bits has 4 GB, of which the file may take so many.
const LARGEST = 3 * 2 ** 30;
const big = BigInt;

export class Pdb {
    #memory; #file; #size;
    #modules = null;
    #header = null;
    #names = null;
    #types = null;
    #nameAt = new Map();
    #last = null;

    /** @internal `openPdb` makes one. */
    constructor(memory, file, size) {
        this.#memory = memory;
        this.#file = file;
        this.#size = size;
        this.#with((take) => {
            const out = take(4), code = this.#call("pdb_opens", out);
            if (code !== DONE) throw memory.error(code, "cannot open", memory.view.getUint32(out, true));
        });
    }

    get size() { return this.#size; }
    get memory() { return this.#memory.size; }

    close() {
        this.#memory = this.#last = null;
    }

    /** Does work with blocks that are given back after it. */
    #with(work) {
        const memory = this.#memory, taken = [];
        if (!memory) throw new Error("the file was closed");
        const take = (size) => {
            taken.push(memory.take(size));
            return taken.at(-1);
        };
        try {
            return work(take, memory);
        } finally {
            for (const at of taken) memory.give(at);
        }
    }

    /** Throws the error of a code; one of a stream that isn't there has the number of the stream. */
    #check(code, what, stream = 0) {
        if (code !== DONE) throw this.#memory.error(code, what, code === CODES.StreamNotFound ? stream : 0);
    }

    /** Calls with the file's bytes first. All numbers behind them are addresses and sizes. */
    #call(name, ...values) {
        return this.#memory.call(name, big(this.#file), big(this.#size), ...values.map(big));
    }

    information() {
        return this.#with((take, memory) => {
            const at = take(SIZES.information);
            this.#check(this.#call("pdb_information", at), "information", INFORMATION_STREAM);
            return informationOf(memory.view, at, memory);
        });
    }

    debugInformation() {
        this.#header ??= this.#with((take, memory) => {
            const at = take(SIZES.debugInformation);
            this.#check(this.#call("pdb_debug_information", at), "debug information", DBI_STREAM);
            return debugInformationOf(memory.view, at);
        });
        return this.#header;
    }

    key() {
        return this.#with((take, memory) => {
            const room = take(KEY_SIZE), size = take(8);
            this.#check(this.#call("pdb_key", room, KEY_SIZE, size), "key");
            return memory.text(room, u64(memory.view, size));
        });
    }

    /** Takes a block that is as large as a call wants it: its bytes, which the caller gives back. */
    #sized(guess, what, size, call, stream = 0) {
        const memory = this.#memory;
        for (let capacity = Math.min(guess, this.#size); ; ) {
            const at = memory.take(capacity);
            let code;
            try {
                code = call(at, capacity);
            } finally {
                if (code !== DONE) memory.give(at);
            }
            if (code === DONE) return { at, size: u64(memory.view, size) };
            if (code !== ROOM) this.#check(code, what, stream);
            capacity = u64(memory.view, size);
        }
    }

    /** The bytes of a stream in memory, which the caller gives back. */
    #stream(number, guess) {
        return this.#with((take, memory) => {
            const numbers = take(2), row = take(SIZES.stream), size = take(8);
            memory.view.setUint16(numbers, number, true);
            return this.#sized(guess, `stream ${number}`, size, (at, capacity) => {
                const code = this.#call("pdb_streams", numbers, 1, row, 1, at, capacity, size);
                return code || memory.view.getUint32(row + 20, true);
            }, number);
        });
    }

    /** The same of the stream with a name. */
    #named(name) {
        return this.#with((take, memory) => {
            const text = new TextEncoder().encode(name), spelled = take(text.length), size = take(8);
            memory.bytes(spelled, text.length).set(text);
            return this.#sized(GUESS, `stream ${name}`, size, (at, capacity) => this.#call("pdb_named_stream", spelled, text.length, at, capacity, size));
        });
    }

    #copied({ at, size }) {
        const bytes = this.#memory.bytes(at, size).slice();
        this.#memory.give(at);
        return bytes;
    }

    stream(number) {
        if (!Number.isInteger(number) || number < 0 || number > 0xffff) this.#check(CODES.StreamNotFound, `stream ${number}`, number);
        return this.#copied(this.#stream(number, GUESS));
    }

    namedStream(name) {
        return this.#copied(this.#named(name));
    }

    streamNames() {
        return this.#with((take, memory) => {
            const count = take(8), size = take(8), none = take(8);
            let code = this.#call("pdb_stream_names", none, 0, count, none, 0, size);
            const [n, bytes] = [u64(memory.view, count), u64(memory.view, size)];
            const rows = take(n * SIZES.streamName), names = take(bytes);
            if (code === ROOM) code = this.#call("pdb_stream_names", rows, n, count, names, bytes, size);
            this.#check(code, "names of streams", INFORMATION_STREAM);
            return Array.from({ length: n }, (_, k) => {
                const { view } = memory, at = rows + k * SIZES.streamName, number = view.getUint32(at + 16, true);
                return { name: memory.text(names + u64(view, at), u64(view, at + 8)), number: number === NO_STREAM ? null : number };
            });
        });
    }

    /** The rows of a list that a call writes, and the error behind them. */
    #list(call, most, size, make) {
        const memory = this.#memory;
        return this.#with((take) => {
            const count = take(8);
            for (;;) {
                const rows = memory.take(most * size);
                try {
                    const code = call(rows, most, count), n = u64(memory.view, count);
                    if (code === CODES.OutOfMemory) throw memory.error(code);
                    if (n <= most && code !== ROOM) {
                        return { list: Array.from({ length: n }, (_, k) => make(memory.view, rows + k * size, memory, k)), code };
                    }
                    most = n;
                } finally {
                    memory.give(rows);
                }
            }
        });
    }

    /** Gives what stands before an error, and throws it then. */
    *#each({ list, code }, what) {
        yield* list;
        this.#check(code, what);
    }

    sections() {
        const found = this.#list((rows, most, count) => this.#call("pdb_sections", rows, most, count), ROWS, SIZES.section, sectionOf);
        this.#check(found.code, "sections");
        return found.list;
    }

    #ofDbi(name, least, size, make) {
        const dbi = this.#stream(DBI_STREAM, 1 << 20), memory = this.#memory;
        try {
            const call = (rows, most, count) => memory.call(name, big(dbi.at), big(dbi.size), big(rows), big(most), big(count));
            return this.#list(call, Math.floor(dbi.size / least) + 1, size, make);
        } finally {
            memory.give(dbi.at);
        }
    }

    *contributions() {
        yield* this.#each(this.#ofDbi("pdb_contributions", 28, SIZES.contribution, contributionOf), "contributions");
    }

    /** The list of modules, which is read once; an error of the header is that of the list. */
    #allModules() {
        if (this.#modules) return this.#modules;
        try {
            this.debugInformation();
            this.#modules = this.#ofDbi("pdb_modules", 68, SIZES.module, moduleOf);
        } catch (e) {
            if (!(e instanceof PdbError) || e instanceof PdbOutOfMemory) throw e;
            this.#modules = { list: [], code: e.code };
        }
        return this.#modules;
    }

    get moduleCount() { return this.#allModules().list.length; }

    *modules() {
        yield* this.#each(this.#allModules(), "modules");
    }

    module(k) {
        const { list, code } = this.#allModules();
        if (k in list) return list[k];
        this.#check(code, "modules");
        throw new RangeError(`there is no module ${k}`);
    }

    /** The stream of a module, which is kept until another module's is wanted; null where it has none. */
    #moduleStream(module) {
        if (module.stream === null) return null;
        if (this.#last?.number !== module.stream) {
            const guess = Math.ceil((module.symbolsSize + module.linesSize + module.c13LinesSize) * 1.05) + GUESS;
            const found = this.#stream(module.stream, guess);
            if (this.#last) this.#drop(this.#last);
            this.#last = { number: module.stream, ...found, users: 0, isOld: false };
        }
        return this.#last;
    }

    /** Gives the bytes of a stream back, once no list reads them. */
    #drop(stream) {
        stream.isOld = true;
        if (stream.users === 0) this.#memory?.give(stream.at);
    }

    /** A list of a module's lines data, in which each row takes `least` bytes. */
    *#ofModule(k, name, least, size, what, make) {
        const module = this.module(k), stream = this.#moduleStream(module), memory = this.#memory;
        if (!stream) return;
        const sizes = [module.symbolsSize, module.linesSize, module.c13LinesSize];
        const call = (rows, most, count) => memory.call(name, big(stream.at), big(stream.size), ...sizes, big(rows), big(most), big(count));
        const most = Math.min(Math.floor(Math.min(module.c13LinesSize, stream.size) / least), 4 * ROWS);
        yield* this.#each(this.#list(call, most, size, make), `${what} of module ${k}`);
    }

    /** Symbols of a stream, some at a time, so that a list may be left before its end. */
    *#symbols(name, stream, sizes, start, options, what) {
        stream.users++;
        let next = start, code = DONE, capacity = FIRST_ROWS;
        try {
            while (code === DONE) {
                yield* this.#with((take, memory) => {
                    const rows = take(capacity * SIZES.symbol), count = take(8), at = take(4);
                    memory.view.setUint32(at, next, true);
                    code = memory.call(name, big(stream.at), big(stream.size), ...sizes, big(at), big(rows), big(capacity), big(count));
                    next = memory.view.getUint32(at, true);
                    return Array.from({ length: u64(memory.view, count) }, (_, k) => symbolOf(memory.view, rows + k * SIZES.symbol, memory, options));
                });
                capacity = ROWS;
            }
        } finally {
            stream.users--;
            if (stream.isOld) this.#drop(stream);
        }
        if (code !== END) this.#check(code, what);
    }

    *symbols(k, options = {}) {
        const module = this.module(k), stream = this.#moduleStream(module);
        if (stream) yield* this.#symbols("pdb_symbols", stream, [module.symbolsSize], SYMBOLS_AT, options, `symbols of module ${k}`);
    }

    *globals(options = {}) {
        const number = this.debugInformation().symbolsStream;
        if (number === null) throw this.#memory.error(CODES.GlobalSymbolsNotFound, "global symbols");
        const stream = { ...this.#stream(number, 1 << 20), users: 0, isOld: true };
        yield* this.#symbols("pdb_global_symbols", stream, [], GLOBALS_AT, options, "global symbols");
    }

    nameAt(offset) {
        const kept = this.#nameAt.get(offset);
        if (kept !== undefined) return kept;
        this.#names ??= this.#named("/names");
        return this.#with((take, memory) => {
            const out = take(16), code = memory.call("pdb_name", big(this.#names.at), big(this.#names.size), offset, big(out));
            this.#check(code, `name at ${offset}`);
            const text = memory.text(...borrowed(memory.view, out));
            this.#nameAt.set(offset, text);
            return text;
        });
    }

    /** Rows with the names at their offsets in the string table; null where there is none. */
    *#withNames(rows) {
        for (const row of rows) {
            row.name = null;
            try {
                if (row.nameAt !== null) row.name = this.nameAt(row.nameAt);
            } catch (e) {
                if (!(e instanceof PdbError) || e instanceof PdbOutOfMemory) throw e;
            }
            yield row;
        }
    }

    lines(k) {
        return this.#withNames(this.#ofModule(k, "pdb_lines", 8, SIZES.line, "lines", lineOf));
    }

    files(k) {
        return this.#withNames(this.#ofModule(k, "pdb_files", 6, SIZES.file, "files", fileOf));
    }

    inlinees(k) {
        return this.#withNames(this.#ofModule(k, "pdb_inlinees", 12, SIZES.inlinee, "inlined functions", inlineeOf));
    }

    imports(k) {
        return this.#withNames(this.#ofModule(k, "pdb_imports", 8, SIZES.import, "imports", importOf));
    }

    exports(k) {
        return this.#ofModule(k, "pdb_exports", 8, SIZES.export, "exports", exportOf);
    }

    *inlinedLines(site, procedure, inlinee) {
        const found = this.#with((take, memory) => {
            const size = site.annotations.length, at = take(size);
            memory.bytes(at, size).set(site.annotations);
            const call = (rows, most, count) => memory.call(
                "pdb_inlined_lines", big(at), big(size), procedure.section, procedure.offset, inlinee.file, inlinee.line,
                big(rows), big(most), big(count),
            );
            return this.#list(call, size, SIZES.line, (view, row) => ({ ...lineOf(view, row), nameAt: null, name: null }));
        });
        yield* this.#each(found, "annotations");
    }

    /** Does work with indices in memory and with a call over the stream of types, which is kept. */
    #withTypes(indices, work) {
        if (!this.#memory?.has("pdb_members")) throw new Error("pdb.wasm has no types: open the file with { wasm: \"pdb-types.wasm\" }");
        this.#types ??= this.#stream(TYPES_STREAM, 1 << 20);
        return this.#with((take, memory) => {
            const { at, size } = this.#types, asked = take(4 * indices.length);
            indices.forEach((it, k) => memory.view.setUint32(asked + 4 * k, it, true));
            const call = (name, ...values) => memory.call(name, big(at), big(size), big(asked), big(indices.length), ...values.map(big));
            return work(call, take, memory);
        });
    }

    typeNames(indices) {
        return this.#withTypes(indices, (call, take, memory) => {
            const rows = take(SIZES.typeName * indices.length), size = take(8);
            const names = this.#sized(GUESS, "names of types", size, (at, capacity) => call("pdb_type_name", rows, indices.length, at, capacity, size));
            const { view } = memory, found = indices.map((_, k) => memory.text(names.at + u64(view, rows + 16 * k), u64(view, rows + 16 * k + 8)));
            memory.give(names.at);
            return found;
        });
    }

    typeSizes(indices) {
        return this.#withTypes(indices, (call, take, memory) => {
            const rows = take(SIZES.typeSize * indices.length);
            this.#check(call("pdb_type_size", rows, indices.length), "sizes of types");
            return indices.map((_, k) => typeSizeOf(memory.view, rows + SIZES.typeSize * k));
        });
    }

    members(indices) {
        return this.#withTypes(indices, (call) => {
            const { list, code } = this.#list((rows, most, count) => call("pdb_members", rows, most, count), FIRST_ROWS, SIZES.member, memberOf);
            this.#check(code, "members");
            const found = indices.map(() => []);
            for (const { owner, member } of list) found[owner].push(member);
            return found;
        });
    }

    frames(addresses) {
        return this.#with((take, memory) => {
            const n = addresses.length, asked = take(n * SIZES.address), count = take(8), size = take(8);
            for (let k = 0; k < n; k++) putAddress(memory.view, asked + k * SIZES.address, addresses[k]);
            for (let most = 6 * n + 16, bytes = 512 * n + 4096; ; most = u64(memory.view, count), bytes = u64(memory.view, size)) {
                const rows = memory.take(most * SIZES.frame);
                let names;
                try {
                    names = memory.take(bytes);
                    const code = this.#call("pdb_frames", asked, n, rows, most, count, names, bytes, size);
                    if (code === DONE) return framesOf(memory.view, rows, u64(memory.view, count), names, memory, n);
                    if (code !== ROOM) this.#check(code, "frames");
                } finally {
                    memory.give(rows);
                    memory.give(names);
                }
            }
        });
    }
}

let compiled = null;

/** The module pdb.wasm, compiled once, or another one. */
async function compile(wasm) {
    if (wasm === undefined) return (compiled ??= compile(new URL("./pdb.wasm", import.meta.url)));
    if (wasm instanceof WebAssembly.Module) return wasm;
    if (wasm instanceof Uint8Array || wasm instanceof ArrayBuffer) return WebAssembly.compile(wasm);
    const url = new URL(wasm, import.meta.url);
    if (isNode && url.protocol === "file:") return WebAssembly.compile(await (await import("node:fs/promises")).readFile(url));
    return WebAssembly.compileStreaming(fetch(url));
}

/** Puts the bytes of a source into the memory of a new instance, and does work with them. */
async function opened(source, { wasm, onProgress, memoryLimit = 0 }, work) {
    const given = await sourceOf(source);
    try {
        if (given.size > LARGEST) throw new RangeError(`a file of ${given.size} bytes, and ${LARGEST} at most`);
        const { exports } = await WebAssembly.instantiate(await compile(wasm), {});
        const memory = new Memory(exports, memoryLimit), at = memory.take(given.size);
        let done = 0;
        for await (const piece of given.pieces) {
            if (done + piece.length > given.size) throw new RangeError("the file grew while it was read");
            memory.bytes(at + done, piece.length).set(piece);
            done += piece.length;
            onProgress?.(done, given.size);
        }
        if (done !== given.size) throw new RangeError("the file was cut short while it was read");
        return work(memory, at, given.size);
    } finally {
        await given.close?.();
    }
}

export function openPdb(source, options = {}) {
    return opened(source, options, (memory, at, size) => new Pdb(memory, at, size));
}

export function readImage(source, options = {}) {
    return opened(source, options, (memory, at, size) => {
        const out = memory.take(SIZES.image), code = memory.call("pdb_image", big(at), big(size), big(out));
        if (code !== DONE) throw memory.error(code, "image");
        return imageOf(memory.view, out, memory);
    });
}
