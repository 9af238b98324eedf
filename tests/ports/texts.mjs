// texts.mjs MODULE FOLDER FILE..: writes beside each file of the folder, by the JavaScript module, what `pdb_list` prints of it
// (FILE.list), and the lines of `pdb_tool resolve` (FILE.frames) and `pdb_tool key` (FILE.key). A file that can't be opened has
// only FILE.list, with the message of `pdb_list`. The arguments of the commands are those of windows.py.
import fs from "node:fs";

const [module, folder, ...files] = process.argv.slice(2);
const { CODES, PdbError, openPdb } = await import(module);
const MACHINES = {
    0x13: "Am33", 0x8664: "Amd64", 0x1c0: "Arm", 0xaa64: "Arm64", 0x1c4: "ArmNT", 0xebc: "Ebc", 0x14c: "X86", 0x200: "Ia64",
    0x9041: "M32R", 0x266: "Mips16", 0x366: "MipsFpu", 0x466: "MipsFpu16", 0x1f0: "PowerPC", 0x1f1: "PowerPCFP", 0x166: "R4000",
    0x5032: "RiscV32", 0x5064: "RiscV64", 0x5128: "RiscV128", 0x1a2: "SH3", 0x1a3: "SH3DSP", 0x1a6: "SH4", 0x1a8: "SH5",
    0x1c2: "Thumb", 0x169: "WceMipsV2", 0xffff: "Invalid",
};
const VERSIONS = { 930803: "V41", 19960307: "V50", 19970606: "V60", 19990903: "V70", 20091201: "V110" };
const hex = (n, digits) => n.toString(16).padStart(digits, "0");
const orNone = (n) => (n === null ? "-" : `${n}`);
const digits = (bytes) => Array.from(bytes, (it) => hex(it, 2)).join("");

function* symbols(list) {
    for (const it of list) {
        const text = it.code ? `refused ${it.code}` : it.form + (it.name === null ? "" : ` ${it.name}`);
        yield `symbol ${hex(it.index, 8)} ${hex(it.kind, 4)} ${text}`;
    }
}

function* lines(list) {
    for (const it of list) {
        const numbers = [orNone(it.length), it.file, it.lineStart, it.lineEnd, orNone(it.columnStart), orNone(it.columnEnd)];
        yield `line ${hex(it.section, 4)}:${hex(it.offset, 8)} ${numbers.join(" ")} ${it.isStatement ? "S" : "E"}`;
    }
}

const COMMANDS = {
    *info(pdb) {
        const it = pdb.information();
        yield `info ${VERSIONS[it.version] ?? it.version} ${it.signature} ${it.age} ${digits(it.guid)}`;
        const dbi = pdb.debugInformation();
        yield `dbi ${dbi.age === 0 ? "-" : dbi.age} ${MACHINES[dbi.machine] ?? "Unknown"}`;
    },
    *names(pdb) {
        for (const it of pdb.streamNames()) yield `name ${orNone(it.number)} ${it.name}`;
    },
    *modules(pdb) {
        for (const it of pdb.modules()) {
            yield `module ${it.index} ${orNone(it.stream)} ${it.symbolsSize} ${it.linesSize} ${it.c13LinesSize} ${it.name}`;
            yield `object ${it.object}`;
        }
    },
    *contributions(pdb) {
        for (const it of pdb.contributions()) {
            const last = `${it.module} ${hex(it.dataCrc, 8)} ${hex(it.relocCrc, 8)}`;
            yield `contribution ${hex(it.section, 4)}:${hex(it.offset, 8)} ${it.size} ${hex(it.characteristics, 8)} ${last}`;
        }
    },
    *sections(pdb) {
        for (const it of pdb.sections()) {
            const numbers = [it.virtualSize, it.virtualAddress, it.sizeOfRawData, it.pointerToRawData, it.characteristics];
            yield `section ${numbers.map((n) => hex(n, 8)).join(" ")} ${it.name}`;
        }
    },
    globals: (pdb) => symbols(pdb.globals()),
    symbols: (pdb, k) => symbols(pdb.symbols(k)),
    lines: (pdb, k) => lines(pdb.lines(k)),
    *files(pdb, k) {
        for (const it of pdb.files(k)) yield `file ${it.nameAt} ${it.kind}${it.checksum.length ? ` ${digits(it.checksum)}` : ""}`;
    },
    *inlinees(pdb, k) {
        const known = new Map();
        for (const it of pdb.inlinees(k)) {
            yield `inlinee ${hex(it.id, 8)}`;
            if (!known.has(it.id)) known.set(it.id, it);
        }
        let procedure = null;
        for (const it of pdb.symbols(k)) {
            if (it.form === "Procedure") procedure = it;
            if (it.form !== "InlineSite") continue;
            yield `site ${hex(it.index, 8)} ${hex(it.inlinee, 8)}`;
            if (procedure && known.has(it.inlinee)) yield* lines(pdb.inlinedLines(it, procedure, known.get(it.inlinee)));
        }
    },
    *imports(pdb, k, index) {
        const list = [...pdb.imports(k)], place = (index >>> 20) & 0x7ff, number = index & 0xfffff;
        if (index < 2 ** 31) throw new PdbError(CODES.NotACrossModuleRef);
        if (!(number in (list[place]?.numbers ?? []))) throw new PdbError(CODES.CrossModuleRefNotFound);
        yield `import ${list[place].nameAt} ${hex(list[place].numbers[number], 8)}`;
    },
    *exports(pdb, k) {
        for (const it of pdb.exports(k)) yield `export ${it.kind} ${hex(it.local, 8)} ${hex(it.global, 8)}`;
    },
};

/** The lines of a command, with that of an error. */
function* listed(pdb, command, ...numbers) {
    try {
        const hasNone = numbers.length > 0 && ((k) => {
            try {
                return pdb.module(k).stream === null;
            } catch (e) {
                if (e instanceof RangeError) return true;
                throw e;
            }
        })(numbers[0]);
        if (hasNone) yield "none";
        else yield* COMMANDS[command](pdb, ...numbers);
    } catch (e) {
        if (!(e instanceof PdbError)) throw e;
        yield e.code === CODES.SectionsNotFound ? "none" : `error ${e.code}`;
    }
}

const frameText = (it) => `${it.function ?? "??"}\n${it.file ?? "??"}:${it.line}:${it.column}\n`;
const framesText = (frames) => frames.map((it) => `${it.map(frameText).join("")}\n`).join("");

/** The commands and the addresses, as windows.py has them. */
const { commands, addresses } = JSON.parse(fs.readFileSync(`${folder}/asked.json`, "utf8"));
for (const file of files) {
    const path = `${folder}/${file}`;
    const put = (kind, text) => fs.writeFileSync(`${path}.${kind}`, text);
    try {
        // A path, bytes and a Blob are the same file.
        const bytes = fs.readFileSync(path), source = file.length % 3 ? bytes : file.length % 2 ? path : new Blob([bytes]);
        const pdb = await openPdb(source);
        let text = "";
        for (const words of commands) for (const line of listed(pdb, ...words)) text += `${line}\n`;
        put("list", text);
        put("frames", framesText(pdb.frames(addresses)));
        try {
            put("key", `${pdb.key()} ${file}\n`);
        } catch (e) {
            if (!(e instanceof PdbError)) throw e;
            put("key", "");
        }
        pdb.close();
    } catch (e) {
        if (!(e instanceof PdbError)) throw e;
        put("list", `cannot open: ${e.code}\n`);
    }
}
