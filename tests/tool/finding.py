"""pdb_tool's commands that look things up or list them: over the sample, over real files against what the program and
pdb_list say elsewhere, and over damaged files."""
import os
import random
import re

from program import FILES, LIST, NO_LINES, NO_MODULE, NO_SOURCE, REAL, compare, damage_notice, ran, tell, wrong

FIND = b"""public 0001:00000100 0x1100 - main
data 0003:00000010 - - g
procedure 0001:00000100 0x1100 48 main
"""
WHERE = b"""line 0001:00000100 0x1100 8 a.c:1:0 main
line 0001:00000108 0x1108 8 a.c:2:0 main
inlined 0001:00000108 0x1108 2 a.c:10:0 ??
inlined 0001:0000010e 0x110e 5 a.c:12:0 ??
"""
CLAMP = b"""public 0001:00000000 0x1000 - nested (?nested@@YAHH@Z)
procedure 0001:00000000 0x1000 331 nested
inlined 0001:00000085 0x1085 56 tour::clamp
inlined 0001:0000035a 0x135a 21 tour::clamp
inlined 0001:000003c6 0x13c6 23 tour::clamp
inlined 0001:00000534 0x1534 11 tour::clamp
"""
# Tables of classes are named by public symbols alone.
SPELLED = b"""public 0001:000005c0 0x15c0 - operator new (??2@YAPEAX_K@Z)
public 0002:000000e8 0x20e8 - tour::square::`vftable' (??_7square@tour@@6Bnamed@1@@)
public 0002:000000f0 0x20f0 - tour::square::`vftable' (??_7square@tour@@6Bshape@1@@)
procedure 0001:000005c0 0x15c0 36 operator new
"""
USAGES = {
    "find": b"usage: pdb_tool find [--symbols=DIR].. [--json] FILE NAME..\n",
    "where": b"usage: pdb_tool where [--symbols=DIR].. [--json] FILE SOURCE..\n",
    "sources": b"usage: pdb_tool sources [--symbols=DIR].. [--json] FILE [K..]\n",
    "modules": b"usage: pdb_tool modules [--symbols=DIR].. [--json] FILE\n",
    "sections": b"usage: pdb_tool sections [--symbols=DIR].. [--json] FILE\n",
    "streams": b"usage: pdb_tool streams [--symbols=DIR].. [--json] FILE\n",
}
EVERYTHING = {"find": ["*"], "where": ["a.c", "tour.c", "tour.h"], "sources": [], "modules": [], "sections": [], "streams": []}
DAMAGED = 2000


def lines_of(*words, program=None):
    said = ran(*words, program=program) if program else ran(*words)
    return said[1].decode(errors="surrogateescape").splitlines()


def found_in_the_sample(sample):
    main, g, procedure = FIND.splitlines(keepends=True)
    for names, text in [
        (["*"], FIND),
        (["main"], main + procedure),
        (["m*n", "g"], FIND),
        (["ma*", "*ain", "m**n", "*a*i*"], main + procedure),
        (["g"], g),
        (["*g*"], g),
        (["main*main"], b""),
        (["Main"], b""),
        (["mai"], b""),
        (["ain"], b""),
        (["main "], b""),
        (["*" * 100_000 + "n"], main + procedure),
    ]:
        compare(f"find {[it[:20] for it in names]}", (0 if text else 1, text, b""), "find", sample, *names)
    first, second, third, fourth = WHERE.splitlines(keepends=True)
    for sources, text in [
        (["A.C"], WHERE),
        (["a.c"], WHERE),
        (["a.c:1"], first),
        (["a.c:2-10"], second + third),
        (["a.c:9-11", "A.c:12"], third + fourth),
        (["a.c:9999999999"], b""),
        (["a.c:0-9999999999"], WHERE),
        (["a.c:1:0"], first),
        (["a.c:10:2"], third),
        (["a.c:1-2:0"], b""),
        (["a.c:2-2"], second),
        (["a.c:"], b""),
        (["a.c:1-"], b""),
        (["a.c:00000000001"], b""),
        (["c"], b""),
        (["x/a.c"], b""),
    ]:
        compare(f"where {sources}", (0 if text else 1, text, b""), "where", sample, *sources)
    compare("sources of the sample", (0, b"md5 000102030405060708090a0b0c0d0e0f a.c\n", b""), "sources", sample)
    text = b"module 0 a.obj\nmd5 000102030405060708090a0b0c0d0e0f a.c\nnone\n"
    compare("sources of two modules", (0, text, b""), "sources", sample, "0", "1")
    compare("modules of the sample", (0, b"0 48 a.obj\n", b""), "modules", sample)
    compare("sections of the sample", (0, b"0001 0x1000 4096 60000020 .text\n", b""), "sections", sample)


def arguments(sample):
    for topic, usage in USAGES.items():
        for words in ["help", topic], [topic, "-h"], [topic, "--help"]:
            said = ran(*words)
            tell(said[0] == 0 and not said[2] and usage[7:].strip() in said[1], f"{words}", said)
        compare(f"{topic} without a file", wrong(b"FILE is missing", usage), topic)
        compare(f"{topic} of no file", (3, b"", b"pdb_tool: /nowhere: cannot read file: no such file\n"), topic, "/nowhere", *EVERYTHING[topic])
        compare(f"an option of {topic}", wrong(b"unknown option --all: " + topic.encode() + b" has --symbols --json", usage), topic, "--all", sample, *EVERYTHING[topic])
    why = {"find": b"NAME is empty", "where": NO_SOURCE, "sources": NO_MODULE}
    for topic, bad in [("find", ""), ("where", ""), ("where", ":1"), ("where", ":1-2"), ("sources", "x"), ("sources", "4294967296"), ("modules", "0"), ("sections", "1")]:
        words = [sample, *EVERYTHING[topic], bad]
        compare(f"{topic} with {bad!r}", wrong(why.get(topic, topic.encode() + b" takes one FILE, and not %s").replace(b"%s", bad.encode()), USAGES[topic]), topic, *words)
    for bad in "a.c:10-9", "a.c:9999999999-0":
        compare(f"where with {bad}", wrong(NO_LINES % bad.encode(), USAGES["where"]), "where", sample, "a.c", bad)
    for topic in "find", "where":
        compare(f"{topic} without a name", wrong(b"NAME is missing" if topic == "find" else b"SOURCE is missing", USAGES[topic]), topic, sample)


def frames_of(file, addresses):
    """The frames of each address, as (function, FILE:LINE:COLUMN)."""
    texts = ran("resolve", file, given="".join(f"{it}\n" for it in addresses).encode())[1].decode(errors="surrogateescape")
    all_frames = []
    for text in texts.split("\n\n")[: len(addresses)]:
        lines = text.split("\n")
        all_frames.append(list(zip(lines[0::2], lines[1::2])))
    return all_frames


def found_in_real_files():
    compare("find in cpp-lld", (0, CLAMP, b""), "find", f"{FILES}/cpp-lld.pdb", "*clamp*", "nested")
    compare("find of names of Microsoft's C++", (0, SPELLED, b""), "find", f"{FILES}/cpp-lld.pdb", "tour::square::`*", "operator new")
    for name in REAL:
        file = f"{FILES}/{name}.pdb"
        found = lines_of("find", file, "*")
        placed = [it.split(" ", 4) for it in found if it.split(" ")[2] != "-"]
        tell(len(placed) > 5, f"find in {name}", len(placed))
        by_address = ran("resolve", file, given="".join(f"{it[2]}\n" for it in placed).encode())
        by_place = ran("resolve", file, given="".join(f"{it[1]}\n" for it in placed).encode())
        tell(by_address == by_place, f"what is found in {name} leads back to its place")
        procedures = sorted(it for it in (it.split(": ")[0].split(" ", 3) for it in lines_of("scopes", file)) if it[0] == "procedure")
        given = sorted([it[0], it[1], it[3], it[4]] for it in placed if it[0] == "procedure")
        tell(given == procedures, f"procedures of {name}", given[:3])
        publics = sum(" S_PUB32 " in it for it in lines_of("symbols", file))
        tell(sum(it.startswith("public ") for it in found) == publics, f"publics of {name}", publics)
        sources = sorted({it.split(" ", 2)[2] for it in lines_of("sources", file) if not it.startswith("module ")})
        records = [it for it in lines_of("where", file, *sources) if not it.startswith("error ")]
        asked = [it.split(" ", 4) for it in records]
        frames = frames_of(file, [it[2] for it in asked])
        lost = [it for it, there in zip(asked, frames) if not any(it[4] == f"{place} {function}" for function, place in there)]
        tell(len(asked) > 10 and not lost, f"records of {name} are frames", (len(asked), lost[:3]))
        records = [it for it in lines_of("lines", file) if not it.startswith("module ")]
        tell(sum(it[0] == "line" for it in asked) == sum(it.split(" ")[1] not in "-0" for it in records), f"line records of {name}")
        sums = {}
        for line in lines_of(file, "contributions", program=LIST):
            _, _, size, _, module, *_ = line.split(" ")
            sums[module] = sums.get(module, 0) + int(size)
        listed = [it.split(" ", 2) for it in lines_of("modules", file)]
        names = [it.split(" ", 6)[1::5] for it in lines_of(file, "modules", program=LIST) if it.startswith("module ")]
        tell([(k, int(size)) for k, size, _ in listed] == [(k, sums.get(k, 0)) for k, _ in names], f"modules of {name}", listed[:3])
        headers = [it.split(" ") for it in lines_of(file, "sections", program=LIST)]
        wanted = [f"{n:04x} 0x{int(it[2], 16):x} {int(it[1], 16)} {it[5]} {' '.join(it[6:])}" for n, it in enumerate(headers, 1)]
        tell(lines_of("sections", file) == wanted, f"sections of {name}", wanted[:2])


def found_in_damaged_files(room, hostile):
    """Each command ends over a damaged file: its lines, or one line about the file."""
    files = [*map(hostile.real_file, ("tour-lld", "tour-gnu", "cpp-lld", "dll-x86")), hostile.sample(room)]
    refused = 0
    for number in range(DAMAGED):
        chance = random.Random(number + 50_000)
        file = files[number // len(hostile.KINDS) % len(files)]
        data = bytearray(file.bytes)
        hostile.KINDS[number % len(hostile.KINDS)](file, data, chance)
        path = f"{room}/{number}.pdb"
        with open(path, "wb") as it:
            it.write(data)
        closed = hostile.refusal_of_opening(bytes(data))
        refused += bool(closed)
        for topic, words in EVERYTHING.items():
            status, out, err = ran(topic, path, *words, limit=20)
            if closed:
                well = status == 4 and not out and err.startswith(f"pdb_tool: {path}: ".encode()) and err.count(b"\n") == 1
            else:
                well = err == damage_notice(path, out) and status == (0 if out or topic not in ("find", "where") else 1)
            tell(well, f"{topic} of damaged file {number}", (status, out[-80:], err))
        os.remove(path)
    tell(DAMAGED // 50 < refused < DAMAGED // 2, "damaged files that can't be opened", refused)


def finding(sample, room, hostile):
    found_in_the_sample(sample)
    arguments(sample)
    found_in_real_files()
    found_in_damaged_files(room, hostile)
