// The memory of one instance of pdb.wasm. What JavaScript keeps there stands in blocks, in the order of their addresses.
// Behind the last one is the library's heap, which is empty between calls.

import { CODES, PdbError, PdbOutOfMemory } from "./errors.mjs";

const PAGE = 65536, ALIGN = 64, SHORT = 96;
const UTF8 = new TextDecoder("utf-8", { ignoreBOM: true });

/** A number of 64 bits; sizes and addresses are below 2^53. */
export const u64 = (view, at) => view.getUint32(at + 4, true) * 0x100000000 + view.getUint32(at, true);

/** The address and the size of borrowed bytes. */
export const borrowed = (view, at) => [u64(view, at), u64(view, at + 8)];

export class Memory {
    #exports; #buffer; #view; #all; #start; #limit;
    #blocks = [];
    #fault = null;
    #codes = new Array(SHORT).fill(0);

    constructor(exports, limit) {
        this.#exports = exports;
        this.#start = Math.ceil(Number(exports.__heap_base.value) / ALIGN) * ALIGN;
        this.#limit = limit;
    }

    /** A view of all bytes: a new one where the memory grew. */
    get view() {
        const { buffer } = this.#exports.memory;
        if (buffer !== this.#buffer) {
            this.#buffer = buffer;
            this.#view = new DataView(buffer);
            this.#all = new Uint8Array(buffer);
        }
        return this.#view;
    }

    get size() {
        return this.#exports.memory.buffer.byteLength;
    }

    bytes(at, size) {
        return new Uint8Array(this.#exports.memory.buffer, at, size);
    }

    /** Takes a block at the first address where it fits. */
    take(size) {
        const whole = Math.ceil(Math.max(size, 1) / ALIGN) * ALIGN;
        let at = this.#start, index = 0;
        for (; index < this.#blocks.length; index++) {
            const block = this.#blocks[index];
            if (block.at - at >= whole) break;
            at = block.at + block.size;
        }
        if (this.#limit && at + whole > this.#limit) throw new PdbOutOfMemory();
        const missing = at + whole - this.size;
        if (missing > 0) this.#grow(Math.ceil(missing / PAGE));
        this.#blocks.splice(index, 0, { at, size: whole });
        return at;
    }

    #grow(pages) {
        try {
            this.#exports.memory.grow(pages);
        } catch (e) {
            if (e instanceof RangeError) throw new PdbOutOfMemory();
            throw e;
        }
    }

    give(at) {
        const index = this.#blocks.findIndex((it) => it.at === at);
        if (index >= 0) this.#blocks.splice(index, 1);
    }

    /** Whether the module has a call. */
    has(name) {
        return name in this.#exports;
    }

    /**
     * Calls the library; addresses and sizes are BigInts, other numbers are numbers. A trap, as where the stack ends,
     * leaves the instance as it stood then, so it takes no more calls.
     */
    call(name, ...values) {
        const { pdb_heap_bounds, pdb_heap_blocks } = this.#exports;
        if (this.#fault) throw new Error("the reader stopped at an earlier call", { cause: this.#fault });
        const last = this.#blocks.at(-1);
        try {
            pdb_heap_bounds(BigInt(last ? last.at + last.size : this.#start), BigInt(this.#limit));
            const code = this.#exports[name](...values);
            if (pdb_heap_blocks() !== 0n) throw new Error(`${name} kept memory`);
            return code >>> 0;
        } catch (e) {
            this.#fault = e;
            throw new Error(`the reader stopped: ${e.message}`, { cause: e });
        }
    }

    /** The error of a code, with the library's text, and the number that it carries. */
    error(code, what = "", number = 0) {
        const out = this.take(16);
        this.call("pdb_message", code, BigInt(out));
        const text = this.text(...borrowed(this.view, out)), message = what ? `${what}: ${text}` : text;
        this.give(out);
        return code === CODES.OutOfMemory ? new PdbOutOfMemory(message) : new PdbError(code, message, number);
    }

    /** A text in UTF-8, with U+FFFD for what isn't UTF-8. A decoder costs more than the text where that is short. */
    text(at, size) {
        if (size === 0) return "";
        if (size > SHORT) return UTF8.decode(this.bytes(at, size));
        void this.view;
        for (let k = 0; k < size; k++) {
            const byte = this.#all[at + k];
            if (byte >= 128) return UTF8.decode(this.bytes(at, size));
            this.#codes[k] = byte;
        }
        return String.fromCharCode.apply(null, this.#codes.slice(0, size));
    }
}
