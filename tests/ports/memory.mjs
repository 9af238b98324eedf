// memory.mjs MODULE FILE LIMITS: under each of so many limits of memory a call returns what it returns without one, or is out
// of memory; the next call then is as before. Then arguments that aren't in range, lists that are left before their end, images
// and a file that was closed. The status is 0 where all is as it should be.
import fs from "node:fs";

const [module, file, limits] = process.argv.slice(2);
const { PdbError, PdbOutOfMemory, openPdb, readImage } = await import(module);
const bytes = fs.readFileSync(file);
let wrong = 0;
const check = (what, fine, found) => {
    if (fine) return;
    wrong++;
    console.log(`${what}: ${JSON.stringify(found)}`);
};
const errorOf = (work) => {
    try {
        work();
    } catch (e) {
        return e;
    }
    return null;
};

const asked = Array.from({ length: 60 }, (_, k) => 0x1000 + 9 * k);
const works = {
    frames: (pdb) => pdb.frames(asked), key: (pdb) => pdb.key(), globals: (pdb) => [...pdb.globals()], sections: (pdb) => pdb.sections(),
    contributions: (pdb) => [...pdb.contributions()], names: (pdb) => pdb.streamNames(), modules: (pdb) => [...pdb.modules()],
    symbols: (pdb) => [...pdb.symbols(0)], lines: (pdb) => [...pdb.lines(0)], inlinees: (pdb) => [...pdb.inlinees(0)],
};
const whole = await openPdb(bytes);
let outOfMemory = 0, same = 0;
for (const [name, work] of Object.entries(works)) {
    const wanted = JSON.stringify(work(await openPdb(bytes)));
    for (let k = 0; k < Number(limits); k++) {
        const memoryLimit = (1 << 20) + bytes.length + 2000 + k * 9001;
        let pdb = null;
        try {
            pdb = await openPdb(bytes, { memoryLimit });
            const found = JSON.stringify(work(pdb));
            check(`${name} within ${memoryLimit} bytes`, found === wanted, found.slice(0, 200));
            same++;
        } catch (e) {
            check(`${name} within ${memoryLimit} bytes`, e instanceof PdbOutOfMemory, String(e));
            outOfMemory++;
        }
        const next = errorOf(() => pdb?.information());
        check(`${name}: the next call within ${memoryLimit} bytes`, next === null || next instanceof PdbOutOfMemory, String(next));
    }
}
check("limits of memory that suffice, and that don't", outOfMemory > 20 && same > 20, [outOfMemory, same]);

const nowhere = JSON.stringify([[{ function: null, file: null, line: 0, column: 0 }]]);
for (const it of [null, -1, 2 ** 32, 2n ** 40n, NaN, { section: 70000, offset: 1 }, { section: 1, offset: -1 }]) {
    check(`the frames of ${String(it)}`, JSON.stringify(whole.frames([it])) === nowhere, whole.frames([it]));
}
check("addresses as BigInts", JSON.stringify(whole.frames([0x1108n])) === JSON.stringify(whole.frames([0x1108])), null);
for (const it of [-1, 0.5, 1e9, 60000]) {
    const error = errorOf(() => whole.stream(it));
    check(`stream ${it}`, error?.error === "StreamNotFound" && error.number === it, [error?.error, error?.number]);
}
check("a name of no stream", errorOf(() => whole.namedStream("/нет"))?.error === "StreamNameNotFound", null);
check("no module", errorOf(() => [...whole.symbols(9999)]) instanceof RangeError, null);
check("the text of an error", errorOf(() => whole.stream(60000))?.message === "stream 60000: no stream of this number", errorOf(() => whole.stream(60000))?.message);

const { memory } = whole;
for (let k = 0; k < 2000; k++) {
    for (const it of whole.symbols(k % 2)) if (it.index > 100) break;
    for (const it of whole.globals()) if (it.index > 100) break;
}
check("lists that are left keep no memory", whole.memory - memory < 1 << 20, whole.memory - memory);

check("a PDB is no image", (await readImage(bytes).catch((e) => e)).error === "NotAnImage", null);
const wrongPage = Uint8Array.from(bytes);
new DataView(wrongPage.buffer).setUint32(32, 1337, true);
const refused = await openPdb(wrongPage).catch((e) => e);
check("a page size", refused.error === "InvalidPageSize" && refused.number === 1337, [refused.error, refused.number]);
for (const [stream, call] of [[1, "information"], [3, "debugInformation"]]) {
    // The directory has a u32 count, and then the size of each stream; 0xffffffff is that of none.
    const without = Uint8Array.from(bytes), view = new DataView(without.buffer), pageSize = view.getUint32(32, true);
    view.setUint32(view.getUint32(view.getUint32(52, true) * pageSize, true) * pageSize + 4 + 4 * stream, 0xffffffff, true);
    const pdb = await openPdb(without).catch((e) => e), error = pdb instanceof Error ? pdb : errorOf(() => pdb[call]());
    check(`${call} without stream ${stream}`, error?.error === "StreamNotFound" && error.number === stream, [String(error), error?.number]);
}
check("the bytes of the GUID", whole.information().guidBytes.join() === whole.stream(1).slice(12, 28).join(), null);
check("bytes are no PDB", (await openPdb(new Uint8Array(9)).catch((e) => e)).error === "UnrecognizedFileFormat", null);
check("no source", (await openPdb(7).catch((e) => e)) instanceof TypeError, null);
check("errors are errors", new PdbError(1) instanceof Error && new PdbError(1).error === "UnexpectedEof", null);
check("types without pdb-types.wasm", errorOf(() => whole.typeNames([116]))?.message.includes("pdb-types.wasm"), null);
whole.close();
check("a closed file", errorOf(() => whole.key())?.message === "the file was closed", null);
process.exit(wrong ? 1 : 0);
