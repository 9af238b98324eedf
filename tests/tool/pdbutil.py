"""The types of `pdb_tool` beside those of `llvm-pdbutil dump`, where it is installed: names, sizes and definitions of classes,
unions and enumerations; and names of types, where LLVM writes them as C++ does. LLVM cuts names at 32 bytes."""
import glob
import os
import re
import shutil
import subprocess

from program import FILES, REAL, ran, tell

CORPUS = os.environ.get("PDB_FILES")
TAG = re.compile(r"^ +0x([0-9A-F]+) \| LF_(?:CLASS|STRUCTURE|INTERFACE|UNION|ENUM) \[size = \d+\] `(.*)`$")
OPTIONS = re.compile(r"^ +options: (.*)$")
# A name in parentheses behind the index of a type, up to the comma behind it or the end of the line.
NAMED = re.compile(r"(?:type|referent|return type|underlying type) = (?:`)?0x([0-9A-F]{4,8}) \((.*?)\)`?(?=,|$)", re.M)
# Arrays, pointers to functions and to members, member functions, bit fields, qualified pointers, and what isn't there.
OTHERWISE = re.compile(rb"[\[(]|::\*|\* const|\* volatile|\?\?| : |<")


def dumped(path, *options):
    done = subprocess.run(["llvm-pdbutil", "dump", *options, path], capture_output=True, check=False)
    return done.stdout.decode("latin-1")


def tags_of(text):
    """Of each tag: its index, its name, the index of its definition where it is only declared, and its size."""
    tag = None
    for line in text.splitlines():
        found = TAG.match(line)
        tag = (int(found[1], 16), found[2]) if found else tag
        options = OPTIONS.match(line)
        if options and tag:
            forward = re.search(r"forward ref(?: \(-> 0x([0-9A-F]+)\)| \(\?\?\?\))?", options[1])
            size = re.search(r"sizeof (\d+)", options[1])
            yield *tag, forward and int(forward[1] or "0", 16), size and size[1]
            tag = None


def lines_of(path):
    """The first line of each type by its index, without the members."""
    text = ran("types", path)[1]
    return {int(it[1], 16): it[2] for it in re.finditer(rb"(?m)^([0-9a-f]{8}) (.*)$", text)}


def compare_tags(what, path, lines):
    count = 0
    for index, name, forward, size in tags_of(dumped(path, "-types")):
        line, told = lines.get(index, b""), name.encode("latin-1")
        shown = re.match(rb"LF_\w+( forward=\S+)?( size=\d+)? (.*)$", line)
        is_enumeration = line.startswith(b"LF_ENUM ")
        own = shown[3].rsplit(b": ", 1)[0] if is_enumeration and not shown[1] else shown and shown[3]
        tell(shown and own == (told or b"??"), f"{what}: the name of {index:x}", (line, told))
        if forward:
            tell(shown and shown[1] == b" forward=%08x" % forward, f"{what}: the definition of {index:x}", (line, forward))
        if forward is None and size and not is_enumeration:
            tell(shown and shown[2] == b" size=" + size.encode(), f"{what}: the size of {index:x}", (line, size))
        count += 1
    return count


def compare_names(what, path, lines):
    """Names of types in the records of symbols, which LLVM cuts, and in those of types."""
    found = {int(index, 16): name for index, name in NAMED.findall(dumped(path, "-symbols", "-types", "-globals"))}
    count = 0
    for index, name in found.items():
        line = lines.get(index)
        if line is None or line.startswith((b"LF_ENUM", b"LF_STRUCTURE", b"LF_CLASS", b"LF_UNION")):
            continue
        own = re.sub(rb"^LF_\w+( size=-?\d+)? ", b"", line)
        if OTHERWISE.search(own):
            continue
        cut = name.encode("latin-1")
        same = own.startswith(cut[:-3]) if cut.endswith(b"...") else own == cut
        tell(same, f"{what}: the name of {index:x}", (own, cut))
        count += 1
    return count


def pdbutil():
    """The real files, and those of the folder PDB_FILES."""
    if not shutil.which("llvm-pdbutil"):
        print("skipped: types beside llvm-pdbutil, which isn't installed")
        return
    further = sorted(glob.glob(f"{CORPUS}/*.pdb")) if CORPUS else []
    tags = names = 0
    for path in [f"{FILES}/{name}.pdb" for name in REAL] + further:
        what, lines = os.path.basename(path), lines_of(path)
        tags += compare_tags(what, path, lines)
        names += compare_names(what, path, lines)
    tell(tags > 50 and names > 10, "types that llvm-pdbutil names", (tags, names))
