"""`streams`, `sections`, `modules`, `sources` and `find` beside `llvm-pdbutil dump`, where it is installed: the numbers and the names
of each line."""
import glob
import os
import re
import shutil

from pdbutil import CORPUS, dumped
from program import FILES, REAL, ran, tell

ABSENT = "4294967295"
MODULE = re.compile(r"(?m)^ *Mod (\d+) \| `(.*)`: ?$")
# A record of a symbol with its name, and the lines behind it.
SYMBOL = re.compile(r"(?m)^ +\d+ \| (S_\w+) \[size = \d+\] `(.*)`\n((?: {6,}(?! *\d+ \| ).*\n)*)")
PLACE = re.compile(r"addr = (\d+):(\d+)(?:, code size = (\d+))?")
WORDS = {"S_PUB32": "public", "S_GPROC32": "procedure", "S_LPROC32": "procedure", "S_GPROC32_ID": "procedure", "S_LPROC32_ID": "procedure", "S_GDATA32": "data", "S_LDATA32": "data", "S_GTHREAD32": "thread", "S_LTHREAD32": "thread"}


def lines_of(command, path, *words):
    return ran(command, path, *words)[1].decode("latin-1").splitlines()


def streams(path):
    """The number and the size of each stream: LLVM's, and the program's."""
    told = re.findall(r"(?m)^ *Stream +(\d+) \( *(\d+) bytes\)", dumped(path, "-streams"))
    return [(k, "-" if size == ABSENT else size) for k, size in told], [tuple(it.split(" ")[:2]) for it in lines_of("streams", path)]


def sections(path):
    """The sizes, the address, the flags and the name of each section."""
    told = re.findall(r"SECTION HEADER #(\d+)\n *(\S*) name\n *(\w+) virtual size\n *(\w+) virtual address\n(?:.*\n)*? *(\w+) flags", dumped(path, "-section-headers").split("Original Section Headers")[0])
    wanted = [f"{int(k):04x} 0x{int(address, 16):x} {int(size, 16)} {int(flags, 16):08x}" + (f" {name}" if name else "") for k, name, size, address, flags in told]
    return wanted, lines_of("sections", path)


def modules(path):
    """The number, the bytes, the name and the object of each module."""
    sizes = {}
    for module, size in re.findall(r"\| mod = (\d+), \S+, size = (\d+),", dumped(path, "-section-contribs")):
        sizes[int(module)] = sizes.get(int(module), 0) + int(size)
    told = re.findall(r"(?m)^ *Mod (\d+) \| `(.*)`: ?\n *Obj: `(.*)`: ?$", dumped(path, "-modules"))
    wanted = [f"{int(k)} {sizes.get(int(k), 0)}" + (f" {name}" if name else "") + (f" [{its}]" if its not in ("", name) else "") for k, name, its in told]
    return wanted, lines_of("modules", path)


def sources(path):
    """The files of each module, with their checksums."""
    wanted, number = [], None
    for line in dumped(path, "-files").splitlines():
        start, it = MODULE.match(line), re.match(r" *- \((.*?)(?:: (\w+))?\) (.*)$", line)
        if start:
            number = start[1]
        elif it:
            kind = {"MD5": "md5", "SHA-1": "sha1", "SHA-256": "sha256"}.get(it[1], "none")
            wanted.append((int(number), f"{kind} {(it[2] or '-').lower()} {it[3]}"))
    given, number = [], 0
    for line in lines_of("sources", path):
        start = re.match(r"module (\d+) ", line)
        if start:
            number = int(start[1])
        else:
            given.append((number, line))
    return wanted, given


def found(path):
    """Kind, offset, size and name of what `find` prints, but for inlined calls, labels and thunks."""
    wanted = set()
    for kind, name, rest in SYMBOL.findall(dumped(path, "-symbols", "-globals", "-publics")):
        place = PLACE.search(rest)
        if kind in WORDS and place:
            wanted.add((WORDS[kind], f"{int(place[1]):04x}:{int(place[2]):08x}", place[3] or "-", name))
    given = set()
    for line in lines_of("find", path, "*"):
        word, place, _, size, name = line.split(" ", 4)
        if word in WORDS.values():
            decorated = re.search(r" \(([?_@][^()]*)\)$", name) if word == "public" else None
            given.add((word, place, size, decorated[1] if decorated else name))
    return sorted(wanted), sorted(given)


def pdbutil_lists():
    """The real files, and those of the folder PDB_FILES."""
    if not shutil.which("llvm-pdbutil"):
        print("skipped: lists beside llvm-pdbutil, which isn't installed")
        return
    further = sorted(glob.glob(f"{CORPUS}/*.pdb")) if CORPUS else []
    count = 0
    for path in [f"{FILES}/{name}.pdb" for name in REAL] + further:
        for lists in streams, sections, modules, sources, found:
            wanted, given = lists(path)
            # LLVM doesn't read files of GNU's linker, and prints nothing of them but streams.
            if wanted:
                other = next((it for it in zip(wanted, given) if it[0] != it[1]), (len(wanted), len(given)))
                tell(wanted == given, f"{lists.__name__} of {os.path.basename(path)} beside llvm-pdbutil", other)
                count += len(wanted)
    tell(count > 100, "lines that llvm-pdbutil prints", count)
