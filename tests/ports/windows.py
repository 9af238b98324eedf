"""Tests of the programs and of the library for Windows, under Wine: their texts, messages and statuses are those of the
programs for Linux."""
import glob
import os
import re
import shutil
import subprocess
import sys

HERE = os.path.dirname(os.path.realpath(__file__))
TOP = os.path.realpath(f"{HERE}/../..")
OUT = f"{TOP}/ports/out/windows"
BUILT = ("pdb_tool.exe", "pdb_list.exe", "pdb.dll", "pdb.lib", "libpdb.dll.a", "libpdb.a")
MINGW = "x86_64-w64-mingw32-"
EXAMPLES = ("list", "resolve", "tables", "key", "layout")
TYPES = [*(f"{it:x}" for it in range(0x1000, 0x1100)), "74", "0", "ffffffff"]
ADDRESSES = [*(f"0x{it:x}" for it in range(0xFF0, 0x3000, 0x55)), "0", "0xffffffff", "0001:00000108", "0002:00000010", "ffff:ffffffff"]
IMPORTS = {"pdb.dll": {"msvcrt.dll"}, "pdb_tool.exe": {"KERNEL32.dll", "msvcrt.dll"}, "pdb_list.exe": {"KERNEL32.dll", "msvcrt.dll"}}
# How many times memory is refused in the DLL at least.
REFUSED = 25
MOST_BYTES = 450_000
# What pdb_tool.exe prints behind its version.
OWN = r"LLVM module of the proved crate pdb_tool, sha256 [0-9a-f]{64}, retargeted to x86_64-w64-windows-gnu\n"
OF_C = {"malloc", "realloc", "free", "memcpy", "memmove", "memset", "memcmp", "strlen"}


def run(words, **how):
    return subprocess.run(words, stdout=subprocess.PIPE, stderr=subprocess.PIPE, check=False, **how)


def wine():
    """The program that runs those for Windows: without Debian's script, which writes of its own on standard error."""
    found = [it for it in ("/usr/lib/wine/wine64", shutil.which("wine64"), shutil.which("wine")) if it and os.path.exists(it)]
    return found[0] if found else None


class Wine:
    """Runs programs in one folder, of which Wine's own folder is no part."""

    def __init__(self, note, folder, prefix):
        self.note, self.folder = note, folder
        self.given = {**os.environ, "WINEPREFIX": prefix, "WINEDEBUG": "-all", "WINEDLLOVERRIDES": "mscoree,mshtml="}
        # One server for all programs, until `end`: otherwise each program starts Wine anew.
        os.makedirs(prefix)
        subprocess.run(["wineserver", "-p"], env=self.given, check=True)
        # Its services get no pipe of this process, which would wait for their end.
        subprocess.run([wine(), "wineboot", "--init"], env=self.given, stdin=subprocess.DEVNULL, stdout=subprocess.DEVNULL, stderr=subprocess.DEVNULL, check=False)

    def run(self, words, **how):
        """A program that says nothing at all and ends with 1 was not started, as Wine does it now and then: it is tried again."""
        done = run([wine(), *words], cwd=self.folder, env=self.given, **how)
        silent = done.returncode == 1 and not done.stdout and not done.stderr
        return run([wine(), *words], cwd=self.folder, env=self.given, **how) if silent else done

    def same(self, what, linux, windows, **how):
        """Whether both end in the same way, with the same text and the same messages."""
        if "input" not in how:
            how["stdin"] = subprocess.DEVNULL
        a, b = run(linux, cwd=self.folder, **how), self.run(windows, **how)
        fine = (a.returncode, a.stdout, a.stderr) == (b.returncode, b.stdout, b.stderr)
        self.note(f"Windows: {what}", fine, [(it.returncode, len(it.stdout), it.stderr[-120:]) for it in (a, b)])
        return a

    def program(self, name, words, **how):
        return self.same(f"{name} {' '.join(words)[:80]}", [f"{TOP}/crates/{name}/out/{name}", *words], [f"{OUT}/{name}.exe", *words], **how)

    def end(self):
        subprocess.run(["wineserver", "-k"], env=self.given, check=False)


def commands(modules):
    """All that `pdb_list` lists."""
    words = ["info", "names", "modules", "contributions", "sections", "globals"]
    for k in range(modules + 1):
        words += [it for command in ("symbols", "lines", "files", "inlinees", "exports") for it in (command, str(k))]
        words += ["imports", str(k), "2147483648", "imports", str(k), "5"]
    return words


def headers(note):
    """What the files export, import and say of themselves."""
    for file in BUILT[:3]:
        text = run([f"{MINGW}objdump", "-p", f"{OUT}/{file}"], text=True).stdout
        libraries = set(re.findall(r"(?m)^\tDLL Name: (\S+)$", text))
        note(f"{file}: imports", libraries == IMPORTS[file], libraries)
        note(f"{file}: flags", all(it in text for it in ("HIGH_ENTROPY_VA", "DYNAMIC_BASE", "NX_COMPAT")), text[:2000])
        sections = set(re.findall(r"(?m)^ +\d+ (\.\w+) ", run([f"{MINGW}objdump", "-h", f"{OUT}/{file}"], text=True).stdout))
        note(f"{file}: sections", {".text", ".pdata", ".xdata", ".reloc", ".rsrc"} <= sections, sections)
        with open(f"{OUT}/{file}", "rb") as it:
            data = it.read()
        note(f"{file}: module and target", "retargeted to x86_64-w64-windows-gnu".encode("utf-16-le") in data)
    text = run([f"{MINGW}objdump", "-p", f"{OUT}/pdb.dll"], text=True).stdout
    with open(f"{TOP}/include/pdb.h", encoding="utf-8") as it:
        declared = set(re.findall(r"(?m)^(?:pdb_code|uint32_t|void) (pdb_\w+)\(", it.read()))
    exported = set(re.findall(r"(?m)^\t\[ *\d+\] (?:\+base\[ *\d+\] )?(?:[0-9a-f]{4,} )?(\w+)$", text.partition("[Ordinal/Name Pointer] Table")[2]))
    note("pdb.dll: exports", exported == declared, exported ^ declared)
    called = set(re.findall(r"(?m)^\t[0-9a-f]+\t +\d+  (\w+)$", text))
    note("pdb.dll: size", os.path.getsize(f"{OUT}/pdb.dll") < MOST_BYTES)
    print(f"pdb.dll: {os.path.getsize(f'{OUT}/pdb.dll')} bytes")
    defined = set(re.findall(r"(?m)^[0-9a-f]+ [A-Z] (\w+)$", run([f"{MINGW}nm", "-g", "--defined-only", f"{OUT}/libpdb.a"], text=True).stdout))
    note("libpdb.a: exports", defined == declared, defined ^ declared)
    note("pdb.dll: functions of C", called <= OF_C and {"malloc", "realloc", "free"} <= called, called)


def texts(it, files, damaged):
    """All commands over whole files, some over damaged ones."""
    for file in files:
        listed = it.program("pdb_list", [file, "modules"])
        it.program("pdb_list", [file, *commands(min(listed.stdout.count(b"\nobject "), 40))])
        for words in (["lines"], ["scopes"], ["symbols"], ["symbols", "--all"], ["types"], ["sources"], ["modules"], ["modules", "--json"], ["sections"], ["streams"], ["key"], ["check"]):
            it.program("pdb_tool", [*words, file])
        it.program("pdb_tool", ["find", file, "*"])
        it.program("pdb_tool", ["where", file, "main.cpp:1-9999"])
        it.program("pdb_tool", ["resolve", file, *ADDRESSES])
        it.program("pdb_tool", ["variables", file, *ADDRESSES])
        it.program("pdb_tool", ["resolve", "--json", file], input="\n".join(ADDRESSES).encode() + b"\n")
    for at in range(0, len(damaged), 20):
        it.program("pdb_tool", ["check", *damaged[at : at + 20]])
        it.program("pdb_tool", ["key", *damaged[at : at + 20]])
    for file in damaged:
        it.program("pdb_list", [file, *commands(2)])
        it.program("pdb_tool", ["resolve", file, *ADDRESSES])
        it.program("pdb_tool", ["variables", file, *ADDRESSES])


def arguments(it, file):
    """Arguments, names of files, and standard streams."""
    for words in ([], ["help"], ["help", "resolve"], ["reslove", file], ["resolve"], ["lines", file, "zz"], ["resolve", file, "*"]):
        it.program("pdb_tool", words)
    for words in (["sample"], [file], [file, "no"], [file, "lines", "99999999999"]):
        it.program("pdb_list", words)
    names = ["путь 文件 😀.pdb", "a b's c.pdb", "-.pdb", f"{'long' * 50}.pdb", f"folder/{'deep' * 50}/{'er' * 40}.pdb"]
    for name in names:
        os.makedirs(os.path.dirname(f"{it.folder}/{name}"), exist_ok=True)
        shutil.copy(f"{it.folder}/{file}", f"{it.folder}/{name}")
        it.program("pdb_tool", ["key", name])
        it.program("pdb_list", [name, "info"])
    for name in ("nothing.pdb", "нет.pdb", "folder", "folder/nothing/nothing.pdb", ""):
        it.program("pdb_tool", ["key", name])
        it.program("pdb_list", [name, "info"])
    lines = "".join(f"{at:x}\r\n" for at in range(0x1000, 0x3000)).encode()
    it.program("pdb_tool", ["resolve", file], input=lines)


def streams(it, file):
    """A standard output that takes nothing, and one whose reader has gone."""
    for name, words in (("pdb_tool", ["symbols", "--all", file]), ("pdb_list", [file, "globals"])):
        ends = []
        for program in ([f"{TOP}/crates/{name}/out/{name}"], [wine(), f"{OUT}/{name}.exe"]):
            with open("/dev/full", "wb") as full:
                done = subprocess.run([*program, *words], stdout=full, stderr=subprocess.PIPE, cwd=it.folder, env=it.given, check=False)
            reader, writer = os.pipe()
            os.close(reader)
            gone = subprocess.run([*program, *words], stdout=writer, stderr=subprocess.PIPE, cwd=it.folder, env=it.given, check=False)
            os.close(writer)
            ends.append([(it.returncode, it.stderr) for it in (done, gone)])
        it.note(f"Windows: {name}: writers that fail", ends[0] == ends[1] and ends[0][0][0], ends)


def version(what, note, program, run_there, own):
    """The version of `pdb_tool` is that of Linux, and a line stands behind it that names what was compiled and the target."""
    for words in (["--version"], ["-V"], ["version"]):
        a, b = run([f"{TOP}/crates/pdb_tool/out/pdb_tool", *words], text=True), run_there([program, *words], text=True)
        note(f"{what}: pdb_tool {words[0]}", a.stdout and re.fullmatch(re.escape(a.stdout) + own, b.stdout) and b.returncode == 0, b)


def calls_of(file, listed):
    """Examples in C, the programs for Linux with the same texts, and the arguments of both."""
    pdb_list, pdb_tool = (f"{TOP}/crates/{it}/out/{it}" for it in ("pdb_list", "pdb_tool"))
    yield "list", [pdb_list], [file, *listed]
    yield "tables", [pdb_list], [file, "names", "contributions", "sections"]
    yield "resolve", [pdb_tool, "resolve"], [file, *ADDRESSES]
    yield "key", [pdb_tool, "key"], [file]
    yield "layout", [sys.executable, f"{TOP}/examples/layout.py"], [file, *TYPES]


def compiled(it, source, linked, name, *flags):
    """A program in C for Windows."""
    done = run([f"{MINGW}gcc", "-std=c11", "-O1", *flags, f"-I{TOP}/include", source, f"{OUT}/{linked}", "-o", f"{it.folder}/{name}.exe"])
    it.note(f"Windows: {os.path.basename(source)} by mingw over {linked}", done.returncode == 0, done.stderr)


def library(it, files, damaged):
    """The examples in C, by mingw's import library and by the static one: the texts of the programs."""
    shutil.copy(f"{OUT}/pdb.dll", it.folder)
    for name in EXAMPLES:
        compiled(it, f"{TOP}/examples/{name}.c", "libpdb.dll.a", name, "-Wall", "-Wextra", "-Werror")
        compiled(it, f"{TOP}/examples/{name}.c", "libpdb.a", f"{name}-static", "-Wall", "-Wextra", "-Werror")
    listed = [word for word in commands(2) if word not in ("names", "contributions", "sections")]
    for number, file in enumerate([*files, *damaged[::8]]):
        for name, program, words in calls_of(file, listed):
            a = run([*program, *words], cwd=it.folder)
            for how in [name, f"{name}-static"][: 1 + (number < len(files))]:
                b = it.run([f"{how}.exe", *words])
                it.note(f"Windows: {how}.exe {file}", (a.returncode, a.stdout) == (b.returncode, b.stdout), [a.returncode, b.returncode, a.stderr, b.stderr])


def many_calls(it, files):
    """Buffers of every size and eight threads over the DLL, and memory refused in turn."""
    for name in ("rooms", "threads"):
        compiled(it, f"{TOP}/tests/c/{name}.c", "libpdb.dll.a", name, "-D__USE_MINGW_ANSI_STDIO=1", "-pthread", "-static")
        done = it.run([f"{name}.exe", *files[: 2 if name == "threads" else 1]])
        it.note(f"Windows: {name}", done.returncode == 0, done)
    compiled(it, f"{HERE}/refuse.c", "libpdb.dll.a", "refuse", "-Wall", "-Wextra", "-Werror")
    for file in files:
        done = it.run(["refuse.exe", file], text=True)
        found = re.fullmatch(r"refused (\d+), failed 0\r?\n", done.stdout)
        it.note(f"Windows: memory refused over {file}", done.returncode == 0 and found and int(found[1]) >= REFUSED, done)


def microsoft(it, skip):
    """A caller by Microsoft's conventions, over pdb.lib: answers, and a fault in the library that its handler catches."""
    missing = [name for name in ("clang", "lld-link") if not shutil.which(name)]
    if missing:
        skip(f"a caller by Microsoft's conventions, since {' and '.join(missing)} isn't installed")
        return
    target = ["clang", "--target=x86_64-pc-windows-msvc", "-ffreestanding", "-Wall", "-Wextra", "-Werror", f"-I{TOP}/include", "-c"]
    done = run([*target, "-fms-extensions", "-O1", f"{HERE}/microsoft.c", "-o", f"{it.folder}/microsoft.obj"])
    it.note("Windows: pdb.h in C", done.returncode == 0, done.stderr)
    done = run([*target, "-x", "c++", "-std=c++17", f"{TOP}/include/pdb.h", "-o", f"{it.folder}/header.obj"])
    it.note("Windows: pdb.h in C++", done.returncode == 0, done.stderr)
    found = glob.glob("/usr/x86_64-w64-mingw32/lib/libkernel32.a") + glob.glob("/usr/x86_64-w64-mingw32/lib/libmsvcrt.a")
    done = run(["lld-link", "/entry:start", "/subsystem:console", "/nodefaultlib", f"/out:{it.folder}/microsoft.exe", f"{it.folder}/microsoft.obj", f"{OUT}/pdb.lib", *found])
    it.note("Windows: lld-link by pdb.lib", done.returncode == 0, done.stderr)
    done = it.run(["microsoft.exe"])
    it.note("Windows: a caller by Microsoft's conventions", done.returncode == 0 and done.stdout == b"0 0 20000404 1 7 caught\n", done)


def tests(note, skip, folder, prefix, files, damaged):
    """All of them, over files and damaged ones in a folder."""
    if shutil.which(f"{MINGW}objdump"):
        headers(note)
    else:
        skip("headers of the files for Windows, since mingw-w64 isn't installed")
    if not wine():
        skip("the programs for Windows, since wine isn't installed")
        return
    it = Wine(note, folder, prefix)
    try:
        texts(it, files, damaged)
        arguments(it, files[0])
        version("Windows", note, f"{OUT}/pdb_tool.exe", it.run, OWN)
        streams(it, files[0])
        if shutil.which(f"{MINGW}gcc"):
            library(it, files, damaged)
            many_calls(it, files)
            microsoft(it, skip)
        else:
            skip("the library for Windows, since mingw-w64 isn't installed")
    finally:
        it.end()
