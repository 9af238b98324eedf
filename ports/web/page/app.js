"use strict";
const LARGEST = 3 * 2 ** 30, MACHINES = { 0x14c: "X86", 0x8664: "Amd64", 0x1c4: "ArmNT", 0xaa64: "Arm64" };
const at = (id) => document.getElementById(id);
const bytesOf = (text) => Uint8Array.from(atob(text.trim()), (it) => it.charCodeAt(0));
const count = (n) => n.toLocaleString("en-US");
const size = (n) => (n < 1024 ? `${n} B` : n < 1 << 20 ? `${(n / 1024).toFixed(1)} KB` : `${(n / (1 << 20)).toFixed(1)} MB`);
const make = (tag, properties = {}, ...inside) => {
    const it = Object.assign(document.createElement(tag), properties);
    it.append(...inside);
    return it;
};

// ---- The worker. ----
const worker = new Worker(URL.createObjectURL(new Blob([at("worker").textContent], { type: "text/javascript" })));
const waiting = new Map();
let calls = 0;
const ask = (call, values) => new Promise((done, reject) => {
    waiting.set(++calls, { done, reject });
    worker.postMessage({ id: calls, call, values });
});
worker.onmessage = ({ data }) => {
    if (data.progress) return progress(data.progress);
    const { done, reject } = waiting.get(data.id);
    waiting.delete(data.id);
    if (data.error !== undefined) reject(new Error(data.error));
    else done(data.result);
};
worker.onerror = (e) => fail(`The reader stopped: ${e.message ?? "unknown"}`);
const isNew = typeof WebAssembly === "object" && typeof BigInt64Array === "function";
const ready = isNew ? ask("start", bytesOf(at("wasm").textContent)) : Promise.reject(new Error("old"));
ready.catch(() => fail("This browser lacks WebAssembly with BigInt, which the reader needs. Nothing was read."));

function fail(text) {
    at("error").textContent = text;
    at("error").hidden = !text;
}
function progress({ text, done, of }) {
    at("status").textContent = `${text} …`;
    at("progress").hidden = false;
    at("progress").max = of;
    at("progress").value = done;
}
function show(text) {
    at("status").textContent = text;
    at("progress").hidden = true;
}

// ---- A list of many rows, of which those in sight stand in the document. ----
// Browsers have no element of more than some 17 million pixels: a list that would be higher scrolls in larger steps.
const HEIGHT = 26, HIGHEST = 16e6;
function listOf(room, kind, rows) {
    const all = make("div", { className: "all", role: "presentation" }), table = room.closest("[role=table]");
    room.replaceChildren(all);
    let total = 0, turn = 0, shown = "";
    /** How many pixels of the whole list are above what is in sight. */
    const above = () => {
        const whole = total * HEIGHT, { clientHeight, scrollTop } = room;
        return whole <= HIGHEST ? scrollTop : (scrollTop / (HIGHEST - clientHeight)) * (whole - clientHeight);
    };
    function rowOf(cells, index, top) {
        const it = make("div", { className: `item ${kind}`, role: "row", title: cells.join("  ") }, ...cells.map((c) => make("span", { role: "cell", textContent: c })));
        it.setAttribute("aria-rowindex", index + 2);
        it.style.top = `${top}px`;
        return it;
    }
    async function draw() {
        const top = above(), shift = room.scrollTop - top;
        const from = Math.max(0, Math.floor(top / HEIGHT) - 10), to = Math.min(total, from + Math.ceil(room.clientHeight / HEIGHT) + 20);
        const wanted = `${from} ${to} ${shift}`;
        if (wanted === shown) return;
        const mine = ++turn, list = to > from ? await rows(from, to) : [];
        if (mine !== turn) return;
        shown = wanted;
        all.replaceChildren(...list.map((cells, i) => rowOf(cells, from + i, (from + i) * HEIGHT + shift)));
    }
    room.onscroll = () => requestAnimationFrame(draw);
    new ResizeObserver(draw).observe(room);
    return (n) => {
        total = n;
        shown = "";
        table.setAttribute("aria-rowcount", n + 1);
        all.style.height = `${Math.min(n * HEIGHT, HIGHEST)}px`;
        room.scrollTop = 0;
        return draw();
    };
}
const showSymbols = listOf(at("list"), "symbol", (from, to) => ask("symbolRows", { from, to }));
const showLines = listOf(at("lines"), "line", (from, to) => ask("lineRows", { from, to }));

// ---- Tabs. ----
const tabs = [...document.querySelectorAll("[role=tab]")];
function choose(tab, focus) {
    for (const it of tabs) {
        it.setAttribute("aria-selected", it === tab);
        it.tabIndex = it === tab ? 0 : -1;
        at(it.getAttribute("aria-controls")).hidden = it !== tab;
    }
    if (focus) tab.focus();
    tab.scrollIntoView({ block: "nearest", inline: "nearest" });
    if (tab.id === "tab-symbols") search();
    if (tab.id === "tab-map") drawMap();
}
for (const [k, it] of tabs.entries()) {
    it.onclick = () => choose(it);
    it.onkeydown = (e) => {
        const to = { ArrowRight: k + 1, ArrowLeft: k - 1, Home: 0, End: tabs.length - 1 }[e.key];
        if (to !== undefined) choose(tabs[(to + tabs.length) % tabs.length], true), e.preventDefault();
    };
}

// ---- Opening. ----
let file = null, indexed = null;
async function open(given, name) {
    fail(given.size > LARGEST ? "A file of more than 3 GB doesn't fit into the memory of this page." : "");
    if (given.size > LARGEST) return;
    at("parts").hidden = true;
    at("frames").replaceChildren();
    at("resolved").textContent = "";
    at("copy").hidden = true;
    document.body.dataset.state = "opening";
    show(`Opening ${name} …`);
    try {
        await ready;
        file = await ask("open", { file: given, name });
        showSummary();
        showModules();
        showDamage();
        back();
        at("parts").hidden = false;
        choose(tabs[0]);
        document.body.dataset.state = "open";
        indexed = ask("makeIndex");
        const it = await indexed;
        file.index = it;
        showSummary();
        if (it.errors.length) showModules();
        showDamage();
        show(`${name}: ${count(it.all)} symbols of ${count(file.modules.length)} modules, read in ${((file.took + it.took) / 1000).toFixed(1)} s`);
        document.body.dataset.state = "ready";
        if (!at("symbols").hidden) search();
    } catch (e) {
        if (e.message === "old") return show("");
        show("");
        fail(`${name}: ${e.message}`);
        document.body.dataset.state = "failed";
    }
}
at("file").onchange = ({ target }) => {
    const [it] = target.files;
    // So that the same file may be chosen again, after it was written anew.
    target.value = "";
    if (it) open(it, it.name);
};
at("sample").onclick = () => {
    at("trace").value = "0x1108\n0001:00000108\ntour.exe+0x1108\ntour!nested+0x12\n";
    return open(bytesOf(at("bytes").textContent), "sample.pdb");
};
if (location.hash === "#sample") at("sample").click();
let depth = 0;
addEventListener("dragenter", () => ++depth && at("drop").classList.add("over"));
addEventListener("dragleave", () => --depth || at("drop").classList.remove("over"));
addEventListener("dragover", (e) => e.preventDefault());
addEventListener("drop", (e) => {
    e.preventDefault();
    depth = 0;
    at("drop").classList.remove("over");
    const it = e.dataTransfer.files[0];
    if (it) open(it, it.name);
});

// ---- Summary. ----
function showSummary() {
    const { information: i, debug: d, index } = file, facts = [];
    const fact = (name, text) => facts.push(make("dt", { textContent: name }), make("dd", { textContent: text ?? "–" }));
    fact("File", `${file.name}, ${size(file.size)}`);
    fact("Key", file.key);
    fact("GUID", i?.guidText);
    fact("Age", d?.age || i?.age);
    fact("Machine", d && (MACHINES[d.machine] ?? `0x${d.machine.toString(16)}`));
    fact("Signature", i && `${i.signature}${i.signature > 6e8 && i.signature < 2.2e9 ? ` (${new Date(i.signature * 1000).toISOString().slice(0, 19).replace("T", " ")} UTC, if it is a time)` : ""}`);
    fact("Modules", `${count(file.modules.length)}, ${count(file.modules.filter((it) => it.stream !== null).length)} with debug information`);
    fact("Image", `${count(file.sections.length)} sections, ${count(file.contributions)} contributions, ${size(file.modules.reduce((a, it) => a + it.bytes, 0))}`);
    fact("Symbols", index ? `${count(index.all)}, ${count(index.named)} of them with a name` : "being read …");
    if (file.sections.length) fact("Sections", file.sections.map((it) => `${it.name} ${size(it.virtualSize)}`).join(", "));
    at("facts").replaceChildren(...facts);
    const errors = damage(), shown = errors.slice(0, 40), more = errors.length > shown.length ? `; the first ${shown.length} are shown` : "";
    at("errors").replaceChildren(...(errors.length ? [make("h3", { textContent: `What could not be read (${count(errors.length)}${more})` }), make("ul", {}, ...shown.map((it) => make("li", { className: "bad", textContent: it })))] : []));
}

// ---- What is damaged: in the summary, and where something depends on it. ----
const DEPENDS = {
    addresses: ["Frames may be missing", "debug", "modules", "contributions", "sections", "symbols"],
    symbols: ["Symbols are missing", "debug", "modules", "symbols"],
    modules: ["Modules, or bytes of them, are missing", "debug", "modules", "contributions"],
    map: ["Bytes are missing", "debug", "modules", "contributions"],
};
const allErrors = () => [...file.errors, ...(file.index?.errors ?? [])];
/** The messages of errors, each once: of all, or of those that a test takes. */
const damage = (wanted = () => true) => [...new Set(allErrors().filter(wanted).map((it) => it.text))];
function showDamaged(id, what, texts) {
    const more = texts.length > 3 ? `; ${count(texts.length - 3)} more are in the summary` : "";
    at(id).hidden = !texts.length;
    at(id).textContent = texts.length ? `${what}, since the file is damaged: ${texts.slice(0, 3).join("; ")}${more}.` : "";
}
function showDamage() {
    for (const [tab, [what, ...parts]] of Object.entries(DEPENDS)) showDamaged(`${tab}Damage`, what, damage((it) => parts.includes(it.part)));
    if (file.sections.length || damage((it) => it.part === "sections").length) return;
    at("addressesDamage").hidden = false;
    at("addressesDamage").textContent += " The file has no section headers: only a section:offset has frames.";
}

// ---- Addresses. ----
let answer = null;
at("ask").onsubmit = async (e) => {
    e.preventDefault();
    at("resolved").textContent = "…";
    document.body.dataset.asked = "no";
    try {
        answer = await ask("resolve", { text: at("trace").value, base: at("base").value });
    } catch (e) {
        at("resolved").textContent = e.message;
        return;
    }
    const { list, took, guessed } = answer, known = list.filter((it) => it.frames).length;
    at("resolved").textContent = list.length ? `${count(known)} of ${count(list.length)} lines have an address of this file, ${took.toFixed(0)} ms${guessed.length ? `. They name ${guessed.slice(0, 4).join(", ")}${guessed.length > 4 ? ", .." : ""}, and none has this file's name: all were taken for it` : ""}` : "Paste addresses or a stack trace first.";
    at("copy").hidden = !known;
    at("frames").replaceChildren(...list.slice(0, 2000).map(({ line, why, frames }) => make("li", {}, make("div", { className: "asked", textContent: line }), ...(frames
        ? [make("ol", {}, ...frames.map((f, k) => make("li", {}, make("span", { className: f.function === null ? "fn faint" : "fn", textContent: f.function ?? "no function known" }), " ",
            ...(k < frames.length - 1 ? [make("span", { className: "tag", textContent: "inlined" }), " "] : []),
            make("span", { className: "at", textContent: f.file === null ? "" : `${f.file}:${f.line}${f.column ? `:${f.column}` : ""}` }))))]
        : why ? [make("div", { className: "bad", textContent: why })] : []))));
    document.body.dataset.asked = "yes";
};
at("trace").onkeydown = (e) => { if (e.key === "Enter" && (e.ctrlKey || e.metaKey)) at("ask").requestSubmit(); };
const textOf = ({ line, frames }) => (frames ? frames.map((f) => `${f.function ?? "??"}\n${f.file ?? "??"}:${f.line}:${f.column}\n`).join("") + "\n" : `${line}\n`);
at("copy").onclick = async () => {
    await navigator.clipboard?.writeText(answer.list.map(textOf).join("")).then(() => (at("resolved").textContent = "Copied."), () => (at("resolved").textContent = "The browser didn't let it be copied."));
};

// ---- Symbols. ----
let searches = 0;
async function search() {
    if (!indexed) return;
    const mine = ++searches;
    if (document.body.dataset.state !== "ready") at("found").textContent = "Reading symbols …";
    await indexed.catch(() => {});
    if (mine !== searches || document.body.dataset.state === "failed") return;
    const started = performance.now(), it = await ask("search", { text: at("find").value, of: at("form").value });
    if (mine !== searches) return;
    at("found").textContent = `${count(it.count)} found in ${(performance.now() - started).toFixed(0)} ms`;
    await showSymbols(it.count);
    document.body.dataset.found = it.count;
}
at("find").oninput = search;
at("form").onchange = search;

// ---- Modules. ----
let by = "bytes", up = false;
const measure = { name: (it) => it.name.toLowerCase(), object: (it) => it.object.toLowerCase(), bytes: (it) => it.bytes, code: (it) => it.code, debug: (it) => it.symbolsSize + it.linesSize + it.c13LinesSize };
function showModules() {
    const list = [...file.modules].sort((a, b) => { const x = measure[by](a), y = measure[by](b); return (x < y ? -1 : x > y ? 1 : a.index - b.index) * (up ? 1 : -1); });
    at("modulesCount").textContent = `${count(list.length)} modules. Bytes are those of the image that came from each, by the file's section contributions${list.length > 2000 ? "; the first 2,000 are shown" : ""}.`;
    const damaged = new Set((file.index?.errors ?? []).map((it) => it.module));
    at("table").tBodies[0].replaceChildren(...list.slice(0, 2000).map((it) => make("tr", {},
        make("td", {}, make("button", { type: "button", textContent: it.name || "(no name)", onclick: () => showModule(it.index) }), ...(damaged.has(it.index) ? [make("span", { className: "bad", textContent: " damaged" })] : [])),
        make("td", { className: "n", textContent: count(it.bytes) }), make("td", { className: "n", textContent: count(it.code) }),
        make("td", { className: "n", textContent: it.stream === null ? "none" : count(measure.debug(it)) }), make("td", { className: "faint", textContent: it.object === it.name ? "" : it.object }))));
}
for (const it of document.querySelectorAll("th button")) it.onclick = () => {
    up = by === it.dataset.by ? !up : it.dataset.by === "name" || it.dataset.by === "object";
    by = it.dataset.by;
    for (const other of document.querySelectorAll("#table th")) other.setAttribute("aria-sort", other.contains(it) ? (up ? "ascending" : "descending") : "none");
    showModules();
};
async function showModule(k) {
    const it = await ask("module", { k });
    at("allModules").hidden = true;
    at("oneModule").hidden = false;
    at("oneName").textContent = it.module.name;
    at("oneCount").textContent = `${size(it.module.bytes)} in the image, ${size(it.module.code)} of code; ${count(it.lines)} line records${it.module.stream === null ? "; no debug information" : ""}`;
    showDamaged("oneDamage", "Not all is shown", [...damage((error) => error.module === k), ...it.errors]);
    at("sources").tBodies[0].replaceChildren(...it.files.sort((a, b) => b.bytes - a.bytes).map((f) => make("tr", {}, make("td", { textContent: f.name }), make("td", { className: "n", textContent: count(f.lines) }), make("td", { className: "n", textContent: count(f.bytes) }), make("td", { className: "faint", textContent: f.checksum }))));
    choose(at("tab-modules"));
    await showLines(it.lines);
    at("oneName").focus();
}
function back() {
    at("oneModule").hidden = true;
    at("allModules").hidden = false;
}
at("back").onclick = back;

// ---- Map: squarified rectangles. ----
function squares(list, x, y, w, h, put) {
    let rest = list, left = list.reduce((a, it) => a + it.bytes, 0);
    while (rest.length && w > 0 && h > 0) {
        const short = Math.min(w, h), scale = (w * h) / left;
        let n = 0, sum = 0, worst = Infinity;
        for (; n < rest.length; n++) {
            const next = sum + rest[n].bytes * scale, side = next / short;
            const biggest = (rest[0].bytes * scale) / side, smallest = (rest[n].bytes * scale) / side;
            const now = Math.max(biggest / side, side / smallest);
            if (now > worst) break;
            worst = now;
            sum = next;
        }
        const side = sum / short;
        let along = 0;
        for (const it of rest.slice(0, n)) {
            const length = (it.bytes * scale) / side;
            if (w >= h) put(it, x, y + along, side, length);
            else put(it, x + along, y, length, side);
            along += length;
            left -= it.bytes;
        }
        rest = rest.slice(n);
        if (w >= h) (x += side), (w -= side);
        else (y += side), (h -= side);
    }
}
function drawMap() {
    const room = at("tiles"), big = file.modules.filter((it) => it.bytes).sort((a, b) => b.bytes - a.bytes), total = big.reduce((a, it) => a + it.bytes, 0);
    const list = big.slice(0, 250), rest = big.slice(250).reduce((a, it) => a + it.bytes, 0);
    if (rest) list.push({ name: `${count(big.length - 250)} smaller modules`, bytes: rest, index: -1 });
    list.sort((a, b) => b.bytes - a.bytes);
    at("mapText").textContent = big.length ? `${size(total)} of the image by module, of ${count(big.length)} modules. Blue ones are mostly code, green ones mostly data. The table of modules has the same in numbers.` : "The file has no section contributions.";
    const tiles = [];
    squares(list, 0, 0, room.clientWidth, room.clientHeight, (it, x, y, w, h) => {
        const name = it.name.replace(/^.*[\\/]/, ""), text = `${name} ${size(it.bytes)}`;
        const tile = make("button", { type: "button", tabIndex: tiles.length ? -1 : 0, title: `${it.name}: ${count(it.bytes)} bytes, ${((100 * it.bytes) / total).toFixed(1)}%${it.index < 0 ? "" : (it.code || 0) * 2 > it.bytes ? ", mostly code" : ", mostly data"}`, textContent: w > 46 && h > 18 ? text : "" });
        tile.setAttribute("aria-label", tile.title);
        Object.assign(tile.style, { left: `${x}px`, top: `${y}px`, width: `${w}px`, height: `${h}px` });
        tile.style.setProperty("--hue", it.index < 0 ? 60 : (it.code || 0) * 2 > it.bytes ? 213 : 150);
        if (it.index >= 0) tile.onclick = () => showModule(it.index);
        tiles.push(tile);
    });
    room.replaceChildren(...tiles);
}
at("tiles").onkeydown = (e) => {
    const tiles = [...at("tiles").children], k = tiles.indexOf(document.activeElement);
    const to = { ArrowRight: k + 1, ArrowDown: k + 1, ArrowLeft: k - 1, ArrowUp: k - 1, Home: 0, End: tiles.length - 1 }[e.key];
    if (to === undefined || k < 0) return;
    tiles[k].tabIndex = -1;
    tiles.at(to % tiles.length).tabIndex = 0;
    tiles.at(to % tiles.length).focus();
    e.preventDefault();
};
addEventListener("resize", () => file && !at("map").hidden && drawMap());
