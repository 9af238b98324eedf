// types.mjs MODULE FILE INDEX..: by the JavaScript module what examples/layout.py prints: of each type its name, its size and its
// members. INDEX is hex.
const [module, file, ...words] = process.argv.slice(2);
const { openPdb } = await import(module);
const WORDS = {
    BaseClass: "base", VirtualBaseClass: "virtual_base", IndirectVirtualBaseClass: "indirect_base", VirtualTablePointer: "vftable",
    VirtualTableOffset: "vftable", FriendClass: "friend", FriendFunction: "friend", Enumerator: "enumerator", DataMember: "member",
    StaticMember: "static", MemberFunction: "method", UnreadFunctions: "method", NestedType: "nested",
};
const VALUES = { Enumerator: "value", MemberFunction: "entry" }, UNTYPED = ["Enumerator", "UnreadFunctions"];
const NAMED = ["FriendFunction", "Enumerator", "DataMember", "StaticMember", "MemberFunction", "UnreadFunctions", "NestedType"];
const METHODS = ["", " kind=virtual", " kind=static", " kind=friend", " kind=virtual", " kind=pure", " kind=pure", ""];
const oneLine = (text) => text.replace(/[\r\n]/g, " ");

function lineOf(it, type) {
    if (it.kind === null) return `  error ${it.code}`;
    if (it.kind === "MoreMembers") return "  <...>";
    const value = it.entry !== null ? "vbptr" : VALUES[it.kind] ?? "offset";
    let line = `  ${WORDS[it.kind]}${it.kind === "MemberFunction" ? METHODS[(it.attributes >> 2) & 7] : ""}`;
    for (const [name, number] of [[value, it.value], ["entry", it.entry], ["bit", it.bit]]) if (number !== null) line += ` ${name}=${number}`;
    if (it.kind !== "Enumerator" && (it.access === "private" || it.access === "protected")) line += ` access=${it.access}`;
    const parts = [...(NAMED.includes(it.kind) ? [it.name] : []), ...(UNTYPED.includes(it.kind) ? [] : [type])];
    return `${line} ${parts.map(oneLine).join(": ")}`;
}

const pdb = await openPdb(file, { wasm: "pdb-types.wasm" }), indices = words.map((it) => parseInt(it, 16));
const members = pdb.members(indices), names = pdb.typeNames(indices), sizes = pdb.typeSizes(indices);
const types = pdb.typeNames(members.flat().map((it) => it.typeIndex ?? 0));
let at = 0;
indices.forEach((_, k) => {
    console.log(`${oneLine(names[k])} ${sizes[k].size ?? "-"}`);
    for (const it of members[k]) console.log(lineOf(it, types[at++]));
});
