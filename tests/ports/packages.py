"""Tests of the packages for Windows and the web in dist/: each is unpacked into a folder, and used as its user would use it.
The tarball for aarch64 Linux is tested by tests/dist/check."""
import json
import os
import shutil
import subprocess
import sys
import zipfile

import browser
import windows

TOP, OUT, MINGW = windows.TOP, windows.OUT, windows.MINGW
FILE = "cpp-lld.pdb"
# What a zip has beside documentation, which only the zip for Windows has in folders.
IN_WINDOWS = ("pdb_tool.exe", "pdb_list.exe", "pdb.dll", "include/pdb.h", "lib/pdb.lib", "lib/libpdb.dll.a", "lib/libpdb.a", "python/pdbreader/__init__.py", "examples/resolve.c", f"share/{FILE}", "README.md", "docs/PROVED.md")
IN_WEB = ("index.html", "pdb.wasm", "pdb-types.wasm", "pdb.mjs", "pdb.d.mts", "README.md", "docs/PROVED.md")
# Where the Python package looks for the DLL on Windows: no Python for Windows is here to load it.
LOOKUP = """
import ctypes, os, sys, uuid
def load(path):
    print(path)
    raise SystemExit
ctypes.CDLL, os.name = load, "nt"
import pdbreader
"""
# README's line of JavaScript.
SCRIPT = 'import { openPdb } from "./pdb.mjs"; const pdb = await openPdb("app.pdb"); console.log(JSON.stringify(pdb.frames([0x1108])));'


def unpacked(note, kind, names, room):
    """The folder of an unpacked zip; None where there is none that was made of what is built."""
    found = [it for it in os.listdir(f"{TOP}/dist") if it.endswith(f"-{kind}.zip")] if os.path.isdir(f"{TOP}/dist") else []
    if len(found) != 1:
        return None
    with zipfile.ZipFile(f"{TOP}/dist/{found[0]}") as it:
        it.extractall(room)
    top = f"{room}/{found[0].removesuffix('.zip')}"
    missing = [it for it in names if not os.path.exists(f"{top}/{it}")]
    note(f"{found[0]}: files", not missing, missing)
    built = f"{OUT if kind.endswith('windows') else browser.OUT}/{names[0]}"
    with open(built, "rb") as own, open(f"{top}/{names[0]}", "rb") as it:
        return top if own.read() == it.read() else None


def of_windows(note, top, prefix):
    """The programs beside the DLL, from a folder whose name is no ASCII, and an example over each library for mingw."""
    it = windows.Wine(note, top, prefix)
    addresses = "\n".join(windows.ADDRESSES).encode() + b"\n"
    linux = f"{TOP}/crates/pdb_tool/out/pdb_tool"
    try:
        it.same("the zip's pdb_tool.exe", [linux, "resolve", f"share/{FILE}"], ["pdb_tool.exe", "resolve", f"share\\{FILE}"], input=addresses)
        it.same("the zip's pdb_list.exe", [f"{TOP}/crates/pdb_list/out/pdb_list", f"share/{FILE}", "info"], ["pdb_list.exe", f"share\\{FILE}", "info"])
        for linked in ("lib/libpdb.dll.a", "lib/libpdb.a"):
            words = [f"{MINGW}gcc", "-std=c11", "-Wall", "-Wextra", "-Werror", "-Iinclude", "examples/resolve.c", linked, "-o", "resolve.exe"]
            done = windows.run(words, cwd=top)
            note(f"the zip's {linked}", done.returncode == 0, done.stderr)
            it.same(f"resolve.exe over the zip's {linked}", [linux, "resolve", f"share/{FILE}", *windows.ADDRESSES], ["resolve.exe", f"share\\{FILE}", *windows.ADDRESSES])
    finally:
        it.end()


def of_python(note, top):
    """On Windows the Python package finds the DLL of the zip."""
    done = windows.run([sys.executable, "-c", LOOKUP], env={"PYTHONPATH": f"{top}/python", "PATH": os.environ["PATH"]}, text=True)
    note("the zip's Python package", os.path.realpath(done.stdout.strip()) == os.path.realpath(f"{top}/pdb.dll"), done)


def of_node(note, top):
    """The JavaScript module, by the line of README."""
    shutil.copy(f"{TOP}/tests/real/files/{FILE}", f"{top}/app.pdb")
    with open(f"{TOP}/README.md", encoding="utf-8") as it:
        note("README.md: JavaScript", SCRIPT.replace("JSON.stringify(pdb.frames([0x1108]))", "pdb.frames([0x1108])") in it.read())
    with open(f"{top}/app.mjs", "w", encoding="utf-8") as it:
        it.write(SCRIPT)
    done = windows.run(["node", "app.mjs"], cwd=top, text=True)
    frames = [[f"{it['function']}\n{it['file']}:{it['line']}:{it['column']}\n" for it in each] for each in json.loads(done.stdout or "[]")]
    note("the zip's pdb.mjs", frames and "".join(frames[0]) + "\n" == browser.resolved(f"{top}/app.pdb", "0x1108"), done)


def of_page(note, top):
    """The page, opened from its folder, by its sample and by a file."""
    page = browser.Page(1280, f"{top}/index.html")
    try:
        page.browser.find_element("id", "sample").click()
        page.wait("document.body.dataset.state === 'ready'")
        note("the zip's page: its sample", page.resolve(["0x1108"]) == browser.resolved(f"{TOP}/tests/real/files/{FILE}", "0x1108"))
        note("the zip's page: a file", page.feed(f"{TOP}/tests/real/files/tour-lld.pdb") == "ready")
    finally:
        page.browser.quit()


def tests(note, skip, room):
    """All of them, in folders of a folder."""
    top = unpacked(note, "x86_64-windows", IN_WINDOWS, f"{room}/мои файлы")
    if not top:
        skip("the zip for Windows, which isn't there or isn't of what is built: make windows")
    else:
        of_python(note, top)
        if windows.wine() and shutil.which(f"{MINGW}gcc"):
            of_windows(note, top, f"{room}/wine-of-zip")
        else:
            skip("the programs of the zip for Windows, since wine or mingw-w64 isn't installed")
    top = unpacked(note, "web", IN_WEB, f"{room}/the web")
    if not top:
        skip("the zip for the web, which isn't there or isn't of what is built: make web")
        return
    if shutil.which("node"):
        of_node(note, top)
    if browser.missing():
        skip(f"the page of the zip, since {browser.missing()} isn't installed")
    else:
        of_page(note, top)
