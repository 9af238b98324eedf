"""`--json` of pdb_tool: each line is one JSON object, written as Python writes it without blanks, and the text that follows
from the objects is that of the same command without `--json`, over the sample, the real files and damaged ones."""
import json
import os
import random
import shutil

import program
from program import FILES, REAL, SAMPLE_TEXT, SAMPLE_WHERE, compare, ran, tell, wrong

SAMPLE = b"""{"asked":"1:108","frames":[{"name":null,"file":"a.c","line":10,"column":0},{"name":"main","file":"a.c","line":2,"column":0}]}
{"asked":"2:0","frames":[{"name":null,"file":null,"line":0,"column":0}]}
"""
LISTS = {
    "sources": b'{"module":0,"checksum":"md5","digest":"000102030405060708090a0b0c0d0e0f","file":"a.c"}\n',
    "check": b'{"file":"%s","where":"' + SAMPLE_WHERE + b'","text":"' + SAMPLE_TEXT + b'"}\n',
    "modules": b'{"module":0,"bytes":48,"name":"a.obj","object":null}\n',
    "sections": b'{"section":1,"rva":"0x1000","size":4096,"flags":"60000020","name":".text"}\n',
    "key": b'{"key":"00112233445566778899AABBCCDDEEFF2","file":"%s"}\n',
}
FOUND = b"""{"kind":"public","at":"0001:00000100","rva":"0x1100","length":null,"name":"main"}
{"kind":"data","at":"0003:00000010","rva":null,"length":null,"name":"g"}
{"kind":"procedure","at":"0001:00000100","rva":"0x1100","length":48,"name":"main"}
"""
LINES = b"""{"kind":"line","at":"0001:00000100","rva":"0x1100","length":8,"file":"a.c","line":1,"column":0,"name":"main"}
{"kind":"line","at":"0001:00000108","rva":"0x1108","length":8,"file":"a.c","line":2,"column":0,"name":"main"}
{"kind":"inlined","at":"0001:00000108","rva":"0x1108","length":2,"file":"a.c","line":10,"column":0,"name":null}
{"kind":"inlined","at":"0001:0000010e","rva":"0x110e","length":5,"file":"a.c","line":12,"column":0,"name":null}
"""
USAGES = {
    "resolve": b"usage: pdb_tool resolve [--base=HEX] [--key=KEY | --image=IMAGE] [--symbols=DIR].. [--addresses] [--offsets] [--json] FILE [ADDRESS..]\n",
    "key": b"usage: pdb_tool key [--path] [--json] FILE..\n",
    "find": b"usage: pdb_tool find [--symbols=DIR].. [--json] FILE NAME..\n",
    "check": b"usage: pdb_tool check [--json] FILE..\n",
    "modules": b"usage: pdb_tool modules [--symbols=DIR].. [--json] FILE\n",
    "lines": b"usage: pdb_tool lines [--symbols=DIR].. FILE [K..]\n",
    "symbols": b"usage: pdb_tool symbols [--symbols=DIR].. [--all] FILE [K..]\n",
}
DAMAGED = 600


def one_line(text):
    return program.one_line(text.encode("utf-8", "surrogateescape")).decode("utf-8", "surrogateescape")


def dash(value):
    return "-" if value is None else value


def known(text):
    return "??" if text is None else one_line(text)


def behind_blank(text):
    return f" {one_line(text)}" if text else ""


def error_text(it):
    return "none" if it["error"] is None else f"error {it['error']} {it['text']}"


def asked_text(it):
    if it["frames"] is None:
        return it["asked"]
    return "".join(f"{known(f['name'])}\n{known(f['file'])}:{f['line']}:{f['column']}\n" for f in it["frames"])


def stretch_text(it):
    return f"{it['kind']} {it['at']} {dash(it['rva'])} {dash(it['length'])}"


def found_text(it):
    return f"{stretch_text(it)} {one_line(it['name'])}"


def where_text(it):
    return f"{stretch_text(it)} {known(it['file'])}:{it['line']}:{it['column']} {known(it['name'])}"


def source_text(it):
    return f"{it['checksum']} {dash(it['digest'])} {known(it['file'])}"


def check_text(it):
    if it["where"] is None and it["text"] is None:
        return f"{it['file']}: ok"
    return f"{it['file']}: {it['where']}: {it['text']}"


def module_text(it):
    object_file = "" if it["object"] is None else f" [{one_line(it['object'])}]"
    return f"{it['module']} {it['bytes']}{behind_blank(it['name'])}{object_file}"


def section_text(it):
    return f"{it['section']:04x} {it['rva']} {it['size']} {it['flags']}{behind_blank(it['name'])}"


def stream_text(it):
    return f"{it['stream']} {dash(it['size'])} {', '.join(it['what']) or '-'}"


def key_text(it):
    pdb = ""
    if "pdb" in it:
        pdb = " - -" if it["pdb"] is None else f" {it['pdb_key']} {one_line(it['pdb'])}"
    return f"{it['key']} {it['file']}{pdb}"


FRAME_DATA = ["rva", "size", "kind", "locals", "params", "saved", "prolog", "max", "seh", "eh", "start", "bp", "program"]


def frame_text(it):
    sizes = "".join(f" {name}={it[name]}" for name in ("locals", "params", "saved", "prolog", "max"))
    flags = "".join(f" {name}" for name in ("seh", "eh", "start", "bp") if it[name])
    program_of_it = "" if it["kind"] != "framedata" else " ??" if it["program"] is None else behind_blank(it["program"])
    return f"{it['rva']:#x} {it['size']} {it['kind']}{sizes}{flags}{program_of_it}"


# The members that the objects of each command have, and what follows from one.
KINDS = {
    "resolve": (["asked", "frames"], asked_text),
    "find": (["kind", "at", "rva", "length", "name"], found_text),
    "where": (["kind", "at", "rva", "length", "file", "line", "column", "name"], where_text),
    "sources": (["module", "checksum", "digest", "file"], source_text),
    "check": (["file", "where", "text"], check_text),
    "modules": (["module", "bytes", "name", "object"], module_text),
    "sections": (["section", "rva", "size", "flags", "name"], section_text),
    "frames": (FRAME_DATA, frame_text),
    "streams": (["stream", "size", "what"], stream_text),
    "key": (["key", "file"], key_text),
}
ERROR = ["module", "error", "text"]
FRAME = ["name", "file", "line", "column"]
IMAGE = ["key", "file", "pdb_key", "pdb"]


def text_of(command, line):
    """The text that follows from the object of a line; ValueError where it isn't as it should be."""
    it = json.loads(line)
    if json.dumps(it, ensure_ascii=False, separators=(",", ":")).encode() != line:
        raise ValueError(line)
    if list(it) == ERROR and command not in ("key", "check"):
        return error_text(it)
    members, text = KINDS[command]
    if list(it) not in ([members, IMAGE] if command == "key" else [members]):
        raise ValueError(line)
    if any(list(f) != FRAME for f in it.get("frames") or []):
        raise ValueError(line)
    return text(it)


def without_headings(text):
    """A text without the lines that name modules, and the module that each of its lines is of by these."""
    lines, modules, module = [], [], None
    for line in text.split("\n")[:-1]:
        if line.startswith("module "):
            module = int(line.split(" ")[1])
        else:
            lines.append(f"{line}\n")
            modules.append(module)
    return "".join(lines), modules


def modules_agree(objects, modules):
    """Each object has the module under whose line it stands. The last one may be the error of the list, and before `none`
    of a module that the list doesn't have there is no line."""
    said = [json.loads(line) for line in objects.split(b"\n")[:-1]]
    said = [it["module"] if it.get("text") != "none" else ... for it in said]
    return all(module is None or mine in (module, ...) or mine is None and at == len(said) - 1 for at, (mine, module) in enumerate(zip(said, modules)))


def same(what, command, *words, given=b""):
    """The objects of a command have its text, its status and its messages."""
    status, out, err = ran(command, "--json", *words, given=given)
    try:
        if out and not out.endswith(b"\n"):
            raise ValueError("no line feed at the end")
        text = "".join(f"{text_of(command, line)}\n" for line in out.split(b"\n")[:-1])
    except ValueError as e:
        tell(False, f"{what}: an object", e)
        return 0
    plain = ran(command, *words, given=given)
    lines = plain[1].decode(errors="replace")
    if command == "sources":
        lines, modules = without_headings(lines)
        tell(modules_agree(out, modules), f"{what}: the modules of its objects", (out, modules))
    wanted = plain[0], lines, plain[2]
    tell((status, text, err) == wanted, f"{what}: the text of its objects", (status, text, err, wanted))
    return out.count(b"\n")


def options(sample):
    once = b"--json is given twice"
    compare("--json twice", wrong(once, USAGES["resolve"]), "resolve", "--json", sample, "--json", "1")
    compare("--json of key twice", wrong(once, USAGES["key"]), "key", "--json", "--json", sample)
    compare("a value of --json", wrong(b"--json takes no value", USAGES["modules"]), "modules", "--json=1", sample)
    compare("--json of find twice", wrong(once, USAGES["find"]), "find", "--json", sample, "--json", "g")
    compare("--json of check twice", wrong(once, USAGES["check"]), "check", "--json", "--json", sample)
    for command, has in ("lines", b"--symbols"), ("symbols", b"--symbols --all"):
        why = b"unknown option --json: " + command.encode() + b" has " + has
        compare(f"--json of {command}", wrong(why, USAGES[command]), command, "--json", sample)
    compare("--json without a file", wrong(b"FILE is missing", USAGES["modules"]), "modules", "--json")
    compare("--json behind --", (1, b"", b"pdb_tool: --json: cannot read file: no such file\n"), "key", "--", "--json")


def objects_of_the_sample(sample):
    compare("objects of addresses", (0, SAMPLE, b""), "resolve", "--json", sample, "1:108", "2:0")
    compare("objects beside --addresses", (0, SAMPLE, b""), "resolve", "--addresses", sample, "--json", "1:108", "2:0")
    compare("objects of lines", (0, SAMPLE, b""), "resolve", sample, "--json", given=b" 1:108 \n2:0")
    bad = b'{"asked":" x\\t\\"\xef\xbf\xbd\\u0001","frames":null}\n{"asked":"","frames":null}\n'
    compare("objects of lines that are no address", (0, bad, b""), "resolve", sample, "--json", given=b" x\t\"\xff\x01\n\n")
    for command, text in LISTS.items():
        text = text % sample.encode() if b"%s" in text else text
        compare(f"objects of {command}", (int(command == "check"), text, b""), command, "--json", sample)
    for command in "modules", "sections", "frames", "streams", "key", "sources", "check":
        same(f"{command} of the sample", command, sample)
    compare("objects of find", (0, FOUND, b""), "find", sample, "*", "--json")
    compare("objects of where", (0, LINES, b""), "where", "--json", sample, "A.C")
    compare("no objects", (1, b"", b""), "find", "--json", sample, "nothing")
    compare("no objects", (1, b"", b""), "where", "--json", sample, "a.c:3-9")
    none = b'{"module":%d,"error":null,"text":"none"}\n'
    sources = none % 9 + LISTS["sources"] + none % 4294967295
    compare("sources of modules", (0, sources, b""), "sources", sample, "9", "0", "4294967295", "--json")
    two = (LISTS["check"] % sample.encode()) * 2
    compare("check of two files", (1, two, b""), "check", "--json", sample, sample)


def objects_of_real_files():
    for name in REAL:
        file = f"{FILES}/{name}.pdb"
        count = sum(same(f"{command} of {name}", command, file) for command in ("modules", "sections", "frames", "streams", "key", "sources", "check"))
        tell(count > 3, f"{name} has objects", count)
        tell(same(f"names of {name}", "find", file, "*") > 3, f"{name} has names")
        same(f"sources of modules of {name}", "sources", file, "1", "0", "77")
        files = {json.loads(line)["file"] for line in ran("sources", "--json", file)[1].split(b"\n")[:-1]} - {None}
        tell(same(f"lines of source files of {name}", "where", file, *sorted(files)) > 3, f"{name} has lines of source files")
        addresses = [f"{it:x}" for it in range(0x1000, 0x1800)]
        tell(same(f"addresses of {name}", "resolve", file, *addresses) == len(addresses), f"{name}: an object for each address")
        given = "".join(f"{it}\n" for it in addresses + ["x", "", "1:0", "ffffffff"]).encode()
        same(f"lines of {name}", "resolve", file, given=given)


def objects_of_damaged_files(room):
    random.seed(77)
    for number in range(DAMAGED):
        with open(f"{FILES}/{random.choice(REAL)}.pdb", "rb") as it:
            data = bytearray(it.read())
        for _ in range(random.choice([1, 4, 40])):
            data[random.randrange(len(data))] = random.randrange(256)
        path = f"{room}/damaged.pdb"
        with open(path, "wb") as it:
            it.write(data)
        for command in "modules", "sections", "frames", "streams", "key", "sources", "check":
            same(f"{command} of damaged file {number}", command, path)
        same(f"names of damaged file {number}", "find", path, "*")
        same(f"lines of a source file of damaged file {number}", "where", path, "main.cpp", "tour.h", "dll.c", "tour.c")
        same(f"sources of a module of damaged file {number}", "sources", path, "0")
        same(f"addresses of damaged file {number}", "resolve", path, "1000", "1100", "1:40", "2:0")
        os.remove(path)


def objects(sample, room):
    options(sample)
    objects_of_the_sample(sample)
    objects_of_real_files()
    objects_of_damaged_files(room)
    odd = f"{room}/\"a\\b\n.pdb"
    shutil.copyfile(sample, odd)
    written = json.dumps(odd).encode()
    key = LISTS["key"].replace(b'"%s"', written)
    compare("a name with a quote", (0, key, b""), "key", "--json", odd)
    compare("a name with a quote", (1, LISTS["check"].replace(b'"%s"', written), b""), "check", "--json", odd)
