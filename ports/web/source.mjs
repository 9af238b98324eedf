// Where the bytes of a file come from: memory, a Blob, or in Node a path.

const AT_ONCE = 1 << 22;

export const isNode = typeof process === "object" && !!process.versions?.node;

async function* piecesOfBlob(blob) {
    const reader = blob.stream().getReader();
    for (;;) {
        const { done, value } = await reader.read();
        if (done) return;
        yield value;
    }
}

async function* piecesOfFile(file) {
    const buffer = new Uint8Array(AT_ONCE);
    for (;;) {
        const { bytesRead } = await file.read(buffer, 0, buffer.length);
        if (bytesRead === 0) return;
        yield buffer.subarray(0, bytesRead);
    }
}

/** The size of a file, its bytes piece by piece, and what closes it. */
export async function sourceOf(source) {
    if (source instanceof Uint8Array) return { size: source.length, pieces: [source] };
    if (source instanceof ArrayBuffer) return { size: source.byteLength, pieces: [new Uint8Array(source)] };
    if (typeof Blob === "function" && source instanceof Blob) return { size: source.size, pieces: piecesOfBlob(source) };
    if (isNode && (typeof source === "string" || source instanceof URL)) {
        const { open } = await import("node:fs/promises");
        const file = await open(source);
        return { size: (await file.stat()).size, pieces: piecesOfFile(file), close: () => file.close() };
    }
    throw new TypeError("a file is a Uint8Array, an ArrayBuffer, a Blob, or in Node a path");
}
