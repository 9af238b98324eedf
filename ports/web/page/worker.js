// The worker: reads one file, keeps columns of its symbols, and returns to the page what it asks for. The JavaScript module
// stands before it in one script.
let wasm = null, pdb = null, index = null, name = "", sections = [], contributions = [], modules = [], found = new Uint32Array(0), records = [];

/** The message of an error of the file; null where there was none. */
const messageOf = (work) => {
    try {
        work();
        return null;
    } catch (e) {
        if (e instanceof PdbError && !(e instanceof PdbOutOfMemory)) return e.message;
        throw e;
    }
};

/** Reports progress, some times in a second. */
let reported = 0;
const report = (text, done, of) => {
    if (performance.now() - reported < 80) return;
    reported = performance.now();
    postMessage({ progress: { text, done, of } });
};

function addSizes() {
    for (const it of contributions) {
        const module = modules[it.module];
        if (!module) continue;
        module.bytes += it.size;
        if (it.characteristics & 0x20) module.code += it.size;
    }
}

/** The section headers; none where the file has no stream of them, which is no damage. */
function sectionsOf(pdb) {
    try {
        return pdb.sections();
    } catch (e) {
        if (e.code !== CODES.SectionsNotFound) throw e;
        return [];
    }
}

async function open({ file, name: given }) {
    name = given;
    pdb?.close();
    pdb = index = null;
    const started = performance.now();
    pdb = await openPdb(file, { wasm, onProgress: (done, of) => report("Reading the file", done, of) });
    const out = { name, size: pdb.size, errors: [] };
    const part = (name, work) => {
        const text = messageOf(work);
        if (text) out.errors.push({ part: name, text });
    };
    modules = [];
    sections = [];
    contributions = [];
    part("key", () => (out.key = pdb.key()));
    part("information", () => (out.information = pdb.information()));
    part("debug", () => (out.debug = pdb.debugInformation()));
    part("modules", () => { for (const it of pdb.modules()) modules.push({ ...it, bytes: 0, code: 0 }); });
    part("contributions", () => { for (const it of pdb.contributions()) contributions.push(it); });
    part("sections", () => (sections = sectionsOf(pdb)));
    addSizes();
    return { ...out, modules, sections, contributions: contributions.length, took: performance.now() - started };
}

const GROUPS = { Procedure: 1, Thunk: 1, SeparatedCode: 1, Data: 2, ThreadStorage: 2, Public: 4, UserDefinedType: 8, Constant: 8 };
const WANTED = { code: 1, data: 2, public: 4, types: 8, all: 255 }, OTHER = 128, NO_MODULE = 0xffff;

/** The lower-case names as one text, one a line, and where each starts. */
function textOf(names) {
    const lower = names.map((it) => it.toLowerCase()), starts = new Uint32Array(names.length + 1);
    lower.forEach((it, i) => (starts[i + 1] = starts[i] + it.length + 1));
    return { text: lower.join("\n"), starts };
}

/** Columns of all symbols that have a name, of the modules and of the whole file. */
function makeIndex() {
    const columns = { names: [], module: [], section: [], offset: [], size: [], form: [], group: [] }, errors = [];
    const forms = new Map(FORMS.map((it, k) => [it, k])), started = performance.now();
    let all = 0;
    const add = (list, k) => {
        for (const it of list) {
            all++;
            if (!it.name) continue;
            columns.names.push(it.name);
            columns.module.push(k);
            columns.section.push(it.section ?? 0);
            columns.offset.push(it.offset ?? 0);
            columns.size.push(it.codeSize);
            columns.form.push(forms.get(it.form));
            columns.group.push(GROUPS[it.form] ?? OTHER);
        }
    };
    const part = (work, module) => {
        const text = messageOf(work);
        if (text) errors.push({ part: "symbols", module, text });
    };
    for (const it of modules) {
        part(() => add(pdb.symbols(it.index), it.index), it.index);
        report("Reading symbols", it.index + 1, modules.length + 1);
    }
    if (pdb.size && messageOf(() => pdb.debugInformation()) === null && pdb.debugInformation().symbolsStream !== null) part(() => add(pdb.globals(), NO_MODULE), NO_MODULE);
    index = {
        names: columns.names, module: Uint16Array.from(columns.module), section: Uint16Array.from(columns.section),
        offset: Uint32Array.from(columns.offset), size: Uint32Array.from(columns.size), form: Uint8Array.from(columns.form),
        group: Uint8Array.from(columns.group), places: null, ...textOf(columns.names),
    };
    return { all, named: index.names.length, errors, took: performance.now() - started };
}

/** The name in which an offset of the text is, of those from one on. */
function nameAt(offset, from) {
    const { starts } = index;
    let low = from, step = 1;
    for (; low + step < starts.length && starts[low + step] <= offset; step *= 2) low += step;
    for (let high = Math.min(low + step, starts.length); high - low > 1; ) {
        const middle = (low + high) >> 1;
        if (starts[middle] <= offset) low = middle;
        else high = middle;
    }
    return low;
}

function search({ text, of }) {
    const wanted = WANTED[of], part = text.trim().toLowerCase(), all = index.names.length, rows = new Uint32Array(all);
    let count = 0;
    for (let i = 0; i < all; i++) {
        if (part) {
            const offset = index.text.indexOf(part, index.starts[i]);
            if (offset < 0) break;
            i = nameAt(offset, i);
        }
        if (index.group[i] & wanted) rows[count++] = i;
    }
    found = rows.slice(0, count);
    return { count };
}

const hex = (n, digits) => n.toString(16).padStart(digits, "0");
const placeText = (section, offset) => `${hex(section, 4)}:${hex(offset, 8)}`;

const symbolRows = ({ from, to }) => Array.from(found.subarray(from, to), (i) => {
    const k = index.module[i], place = index.section[i] || index.offset[i] ? placeText(index.section[i], index.offset[i]) : "";
    return [place, index.size[i] || "", index.names[i], FORMS[index.form[i]], k === NO_MODULE ? "" : modules[k].name.replace(/^.*[\\/]/, "")];
});

/** The section and offset of a function by its name, without its arguments where they don't fit; procedures before public symbols. */
function placeOf(wanted) {
    if (!index) makeIndex();
    if (!index.places) {
        index.places = new Map();
        for (const kind of [WANTED.code, WANTED.public]) {
            index.names.forEach((it, i) => {
                if (index.group[i] & kind && index.section[i] && !index.places.has(it)) index.places.set(it, i);
            });
        }
    }
    const i = index.places.get(wanted) ?? index.places.get(wanted.replace(/\(.*$/s, "").trim());
    return i === undefined ? null : { section: index.section[i], offset: index.offset[i] };
}

/** A module's name without folders and ending. */
const stemOf = (path) => path.replace(/^.*[\\/]/, "").replace(/\.[a-z]{1,4}$/i, "").toLowerCase();

/** An address in memory as one relative to the load address, or why it is none. */
function relativeTo(base, text) {
    const n = BigInt(`0x${text.replace(/^0x/i, "")}`) - base;
    if (n >= 0n && n < 1n << 32n) return { address: Number(n) };
    return { why: base ? "is not within 4 GB behind the load address" : "is above 4 GB: the load address is missing" };
}

/** What a line asks for: an address, or why it has none; null where it names nothing. */
function askedOf(line, base) {
    const whole = line.trim().replace(/`/g, "");
    let it;
    if ((it = /(?:^|[\s(\[])([0-9a-f]{1,4}):([0-9a-f]{1,8})(?=$|[\s)\]])/i.exec(whole))) return { address: { section: parseInt(it[1], 16), offset: parseInt(it[2], 16) } };
    // app!func+0x12 (WinDbg), app.exe!func(int) Line 12 (Visual Studio), app!func
    if ((it = /(?:^|\s)([^\s!]+)!(.+?)(?:\s*\+\s*(0x)?([0-9a-f]+)(?: bytes)?)?(?:\s+(?:Line \d+|\[).*|\s+C(?:\+\+)?)?$/i.exec(whole))) {
        const wanted = it[2].trim(), place = placeOf(wanted), of = stemOf(it[1]);
        return place ? { address: { section: place.section, offset: place.offset + (it[4] ? parseInt(it[4], 16) : 0) }, of } : { why: `no function ${wanted} in this file`, of };
    }
    // app.exe+0x1234, app.exe + 0x1234 (Crashpad, minidump_stackwalk), app+1234
    if ((it = /(?:^|[\s(])([^\s()!]*[^\s()!+])\s*\+\s*(?:0x)?([0-9a-f]{1,8})(?=$|[\s)\]])/i.exec(whole))) return { address: parseInt(it[2], 16), of: stemOf(it[1]) };
    // "   3:     0x7ff6c0a01108 - app::main" (Rust), and digits alone
    if ((it = /(?:^|\s)0x([0-9a-f]{1,16})(?=$|[\s\-,)\]])/i.exec(whole)) || (it = /^([0-9a-f]{3,16})$/i.exec(whole))) return relativeTo(base, it[1]);
    return null;
}

function resolve({ text, base }) {
    const lines = text.split(/\r?\n/).filter((it) => it.trim()), load = base.trim().replace(/`/g, "");
    if (load && !/^(0x)?[0-9a-f]{1,16}$/i.test(load)) throw new RangeError("the load address is no hexadecimal number");
    const asked = lines.map((it) => askedOf(it, load ? BigInt(`0x${load.replace(/^0x/i, "")}`) : 0n));
    // Where a trace names this file beside other modules, the lines of those have no address here.
    const own = stemOf(name), isNamed = asked.some((it) => it?.of === own);
    const others = new Set(asked.map((it) => it?.of).filter((it) => it && it !== own));
    if (isNamed) asked.forEach((it, i) => it?.of && it.of !== own && (asked[i] = { why: `of ${it.of}, another file` }));
    const started = performance.now(), known = asked.filter((it) => it?.address !== undefined), frames = pdb.frames(known.map((it) => it.address));
    const list = lines.map((line, i) => ({ line: line.trim(), why: asked[i]?.why ?? null, frames: frames[known.indexOf(asked[i])] ?? null }));
    return { took: performance.now() - started, guessed: !isNamed && others.size > 1 ? [...others] : [], list };
}

/** A module's source files with what its line records cover, and its line records. */
function module({ k }) {
    const files = new Map();
    const sourceAt = (path) => {
        if (!files.has(path)) files.set(path, { name: path, lines: new Set(), bytes: 0, checksum: "" });
        return files.get(path);
    };
    records = [];
    const error = messageOf(() => {
        for (const it of pdb.files(k)) {
            const bytes = Array.from(it.checksum, (b) => hex(b, 2)).join("");
            sourceAt(it.name ?? "??").checksum = bytes && `${it.kind} ${bytes}`;
        }
        for (const it of pdb.lines(k)) {
            const file = sourceAt(it.name ?? "??");
            file.lines.add(it.lineStart);
            file.bytes += it.length ?? 0;
            records.push([placeText(it.section, it.offset), it.length ?? "", `${it.lineStart}${it.columnStart ? `:${it.columnStart}` : ""}`, it.name ?? "??"]);
        }
    });
    return { module: modules[k], errors: error ? [error] : [], lines: records.length, files: [...files.values()].map((it) => ({ ...it, lines: it.lines.size })) };
}

const CALLS = { open, makeIndex, search, symbolRows, resolve, module, lineRows: ({ from, to }) => records.slice(from, to) };

onmessage = async ({ data: { id, call, values } }) => {
    try {
        if (call === "start") wasm = await WebAssembly.compile(values);
        postMessage({ id, result: call === "start" ? true : await CALLS[call](values) });
    } catch (e) {
        postMessage({ id, error: e instanceof RangeError && /memory|length|allocation/i.test(e.message) ? "out of memory" : e.message });
    }
};
