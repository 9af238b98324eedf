"""Tests of the library for the web, in Node: what the JavaScript module reads is what the programs for Linux print."""
import gzip
import json
import os
import re
import shutil
import sys

import browser
import windows

HERE, TOP = windows.HERE, windows.TOP
OUT = browser.OUT
BUILT = ("pdb.wasm", "pdb-types.wasm", "index.html", "pdb.mjs", "errors.mjs", "memory.mjs", "records.mjs", "source.mjs", "pdb.d.mts")
MODULES = 3
LIMITS = 60
TYPES = 300
OF_TYPES = {"pdb_type_name", "pdb_type_size", "pdb_members", "pdb_variables", "pdb_register_name", "pdb_frame_register", "pdb_record", "pdb_gaps"}
MOST_BYTES = {"index.html": 670_000, "pdb.wasm": 120_000}


def asked():
    """The commands of `pdb_list`, and the addresses, as JavaScript takes them."""
    words, commands, addresses = windows.commands(MODULES), [], []
    for word in words:
        if word.isdigit():
            commands[-1].append(int(word))
        else:
            commands.append([word])
    for it in windows.ADDRESSES:
        section, colon, offset = it.partition(":")
        addresses.append({"section": int(section, 16), "offset": int(offset, 16)} if colon else int(it, 16))
    return {"commands": commands, "addresses": addresses}


def read(path):
    """The text of a file, with what isn't UTF-8 replaced; None where it isn't there."""
    if not os.path.exists(path):
        return None
    with open(path, "rb") as it:
        return it.read().decode("utf-8", "replace")


def header(note):
    """What the module exports and imports, its memory, and what it says of itself."""
    code = 'WebAssembly.compile(require("fs").readFileSync(process.argv[1])).then((m) => console.log(JSON.stringify({'
    code += "exports: WebAssembly.Module.exports(m), imports: WebAssembly.Module.imports(m), "
    code += 'about: WebAssembly.Module.customSections(m, "pdb.module").map((it) => new TextDecoder().decode(it))})))'
    with open(f"{TOP}/include/pdb.h", encoding="utf-8") as it:
        declared = set(re.findall(r"(?m)^(?:pdb_code|uint32_t|void) (pdb_\w+)\(", it.read()))
    wanted = declared | {"memory", "__heap_base", "pdb_heap_bounds", "pdb_heap_blocks"}
    for file, most in MOST_BYTES.items():
        with open(f"{OUT}/{file}", "rb") as it:
            data = it.read()
        size = len(gzip.compress(data) if file == "pdb.wasm" else data)
        note(f"{file}: size", size < most, size)
        print(f"{file}: {size} bytes{' by gzip' if file == 'pdb.wasm' else ''}")
    for file, names in (("pdb.wasm", wanted - OF_TYPES), ("pdb-types.wasm", wanted)):
        found = json.loads(windows.run(["node", "-e", code, f"{OUT}/{file}"], text=True).stdout or "{}")
        exported = {it["name"] for it in found.get("exports", [])}
        note(f"{file}: exports", exported == names, exported ^ names)
        note(f"{file}: imports", found.get("imports") == [], found)
        note(f"{file}: module and target", "retargeted to wasm64" in "".join(found.get("about", [])), found)


def texts(note, folder, files):
    """The texts of `pdb_list`, `pdb_tool resolve` and `pdb_tool key` over each file."""
    with open(f"{folder}/asked.json", "w", encoding="utf-8") as it:
        json.dump(asked(), it)
    done = windows.run(["node", f"{HERE}/texts.mjs", f"{OUT}/pdb.mjs", folder, *files])
    note("Node: texts.mjs", done.returncode == 0 and not done.stderr, done.stderr)
    for file in files:
        programs = {
            "list": ["pdb_list", file, *windows.commands(MODULES)],
            "frames": ["pdb_tool", "resolve", file, *windows.ADDRESSES],
            "key": ["pdb_tool", "key", file],
        }
        for kind, (name, *words) in programs.items():
            done = windows.run([f"{TOP}/crates/{name}/out/{name}", *words], cwd=folder)
            wanted, own = done.stdout.decode("utf-8", "replace"), read(f"{folder}/{file}.{kind}")
            if read(f"{folder}/{file}.frames") is None:
                # It can't be opened: pdb_list prints its error's number, and the other text isn't there.
                wanted = re.sub(r"(?s)^.*(cannot open: \d+).*$", r"\1\n", done.stderr.decode()) if kind == "list" else None
            note(f"Node: {kind} of {file}", own == wanted, [len(it or "") for it in (own, wanted)])


def types(note, folder, files):
    """The names, sizes and members of types are those of the Python package, over the library for Linux."""
    indices = [*(f"{it:x}" for it in range(0x1000, 0x1000 + TYPES)), "74", "620", "0", "ffffffff"]
    for file in files:
        native = windows.run([sys.executable, f"{TOP}/examples/layout.py", f"{folder}/{file}", *indices])
        wanted = re.sub(r"(?m)^(  error \d+) .*$", r"\1", native.stdout.decode("utf-8", "replace"))
        done = windows.run(["node", f"{HERE}/types.mjs", f"{OUT}/pdb.mjs", f"{folder}/{file}", *indices])
        own = done.stdout.decode("utf-8", "replace")
        fails = native.returncode == 4 and done.returncode == 1 and b"PdbError" in done.stderr
        note(f"Node: types of {file}", fails or (native.returncode == 0 and own == wanted), [native.stderr[-200:], done.stderr[-200:], own[:100], wanted[:100]])


def tests(note, skip, folder, whole, damaged):
    """All of them, over files and damaged ones in a folder."""
    browser.tests(note, skip, folder, whole, damaged)
    if not shutil.which("node"):
        skip("the library for the web, since node isn't installed")
        return
    header(note)
    texts(note, folder, [*whole, *damaged])
    types(note, folder, [*whole, *damaged[::8]])
    done = windows.run(["node", f"{HERE}/memory.mjs", f"{OUT}/pdb.mjs", f"{folder}/{whole[0]}", str(LIMITS)], text=True)
    note("Node: memory and other arguments", done.returncode == 0, done.stdout + done.stderr)
    if shutil.which("tsc"):
        words = ["--noEmit", "--strict", "--target", "es2022", "--module", "nodenext", "--moduleResolution", "nodenext", "--lib", "es2022,dom,dom.iterable"]
        done = windows.run(["tsc", *words, f"{OUT}/pdb.d.mts"], text=True)
        note("the types of the JavaScript module", done.returncode == 0, done.stdout)
    else:
        skip("the types of the JavaScript module, since tsc isn't installed")
