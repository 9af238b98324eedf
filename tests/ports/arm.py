"""Tests of the programs and of the library for aarch64 Linux, under qemu: their texts, messages and statuses are those of the
programs for x86-64."""
import shutil
import struct
import subprocess

import windows

TOP, TARGET = windows.TOP, "aarch64-linux-gnu"
PROGRAMS = {it: f"{TOP}/crates/{it}/out/{TARGET}/{it}" for it in ("pdb_tool", "pdb_list")}
LIBRARY = f"{TOP}/c/out/{TARGET}"
# What pdb_tool prints behind its version.
OWN = r"object of the proved crate pdb_tool, sha256 [0-9a-f]{64}, for aarch64-unknown-linux-gnu\n"
BUILT = (*PROGRAMS.values(), f"{LIBRARY}/libpdb.a", f"{LIBRARY}/libpdb.so.0")


class Qemu:
    """Runs programs in one folder."""

    def __init__(self, note, folder):
        self.note, self.folder = note, folder
        self.words = [shutil.which("qemu-aarch64-static") or shutil.which("qemu-aarch64"), "-L", f"/usr/{TARGET}"]

    def run(self, words, **how):
        return windows.run([*self.words, *words], cwd=self.folder, **how)

    def same(self, what, linux, arm, **how):
        """Whether both end in the same way, with the same text and the same messages."""
        if "input" not in how:
            how["stdin"] = subprocess.DEVNULL
        a, b = windows.run(linux, cwd=self.folder, **how), self.run(arm, **how)
        fine = (a.returncode, a.stdout, a.stderr) == (b.returncode, b.stdout, b.stderr)
        self.note(f"aarch64: {what}", fine, [(it.returncode, len(it.stdout), it.stderr[-120:]) for it in (a, b)])
        return a

    def program(self, name, words, **how):
        return self.same(f"{name} {' '.join(words)[:80]}", [f"{TOP}/crates/{name}/out/{name}", *words], [PROGRAMS[name], *words], **how)


def headers(note):
    """What the files are, and what they need."""
    for path in (*PROGRAMS.values(), f"{LIBRARY}/libpdb.so.0"):
        with open(path, "rb") as it:
            head = it.read(20)
        note(f"aarch64: machine of {path}", head[:4] == b"\x7fELF" and struct.unpack_from("<H", head, 18)[0] == 183, head)
        text = windows.run([f"{TARGET}-readelf", "-d", path], text=True).stdout
        needed = [it.split("[")[1].rstrip("]") for it in text.splitlines() if "(NEEDED)" in it]
        about = windows.run([f"{TARGET}-readelf", "-p", ".comment", path], text=True).stdout
        note(f"aarch64: object and target of {path}", path not in PROGRAMS.values() or "for aarch64-unknown-linux-gnu" in about, about)
        note(f"aarch64: libraries of {path}", set(needed) <= {"libc.so.6", "ld-linux-aarch64.so.1"}, needed)


def compiled(it, sources, archive, name, *flags):
    """A program in C for aarch64."""
    words = [f"{TARGET}-gcc", "-std=c11", "-O1", "-static", *flags, f"-I{TOP}/include", *sources, archive, "-o", f"{it.folder}/{name}.arm"]
    done = windows.run(words)
    it.note(f"aarch64: {name}.c", done.returncode == 0, done.stderr)


def library(it, files, damaged):
    """The examples in C over the static library: the texts of the programs."""
    for name in windows.EXAMPLES:
        compiled(it, [f"{TOP}/examples/{name}.c"], f"{LIBRARY}/libpdb.a", name, "-Wall", "-Wextra", "-Werror")
    listed = [word for word in windows.commands(2) if word not in ("names", "contributions", "sections")]
    for file in [*files, *damaged[::8]]:
        for name, program, words in windows.calls_of(file, listed):
            a = windows.run([*program, *words], cwd=it.folder)
            b = it.run([f"{it.folder}/{name}.arm", *words])
            it.note(f"aarch64: {name} {file}", (a.returncode, a.stdout) == (b.returncode, b.stdout), [a.returncode, b.returncode, a.stderr, b.stderr])


def many_calls(it, files):
    """Buffers of every size, eight threads, and memory that is refused."""
    for name in ("rooms", "threads"):
        compiled(it, [f"{TOP}/tests/c/{name}.c"], f"{LIBRARY}/libpdb.a", name, "-pthread")
        done = it.run([f"{it.folder}/{name}.arm", *files[: 2 if name == "threads" else 1]])
        it.note(f"aarch64: {name}", done.returncode == 0, done.stdout)
    archive = f"{TOP}/crates/pdb_c/out/{TARGET}/libpdb_c.a"
    compiled(it, [f"{TOP}/tests/c/memory.c", f"{TOP}/tests/c/refuse.c"], archive, "memory")
    done = it.run([f"{it.folder}/memory.arm"], env={"REFUSE": "1"})
    it.note("aarch64: memory that is refused", done.returncode == 0 and b" live 0" in done.stderr, done)


def tests(note, skip, folder, files, damaged):
    """All of them, over files and damaged ones in a folder."""
    missing = [it for it in (f"{TARGET}-gcc", "qemu-aarch64") if not shutil.which(it) and not shutil.which(f"{it}-static")]
    if missing:
        skip(f"what is for aarch64, since {' and '.join(missing)} isn't installed")
        return
    headers(note)
    it = Qemu(note, folder)
    windows.texts(it, files, damaged)
    windows.arguments(it, files[0])
    windows.version("aarch64", note, PROGRAMS["pdb_tool"], it.run, OWN)
    library(it, files, damaged)
    many_calls(it, files)
