"""What the builds of the ports share: the kit, the version, and archives whose bytes depend on nothing but what is in them."""
import functools
import hashlib
import os
import re
import subprocess
import sys
import time
import zipfile

HERE = os.path.dirname(os.path.realpath(__file__))
TOP = os.path.dirname(HERE)
NAME = "pdb-reader"


def run(words, **how):
    """Runs a program; where it fails, the build ends with what it printed."""
    done = subprocess.run(words, stdout=subprocess.PIPE, stderr=subprocess.STDOUT, text=True, check=False, **how)
    if done.returncode:
        sys.exit(f"{words[0]}: failed with status {done.returncode}\n{done.stdout}")
    return done.stdout


def needs(*names):
    """Ends where one of the programs is missing."""
    if subprocess.run([f"{TOP}/tests/needs", *names], check=False).returncode:
        sys.exit(2)


def modules(*names):
    """Keeps the modules of proved crates."""
    if subprocess.run([f"{HERE}/module", *names], check=False).returncode:
        sys.exit(1)


def is_current(crates, crate, built):
    """Whether what was built is newer than every source of its crate and of those below it."""
    if not os.path.exists(built):
        return False
    folders = [f"{crates.TOP}/crates/{name}/{part}" for name in (crate.name, *crate.below) for part in ("src", "specs", "proofs")]
    files = [f"{at}/{it}" for folder in folders for at, _, names in os.walk(folder) for it in names]
    return max(map(os.path.getmtime, files)) < os.path.getmtime(built)


@functools.cache
def kit():
    """The folder of the kit's clang and its linker."""
    return os.path.dirname(run(["rt", "doc"]).strip()) + "/toolchain/bin"


def version():
    with open(f"{TOP}/include/pdb.h", encoding="utf-8") as it:
        number = int(re.search(r"^#define PDB_VERSION (\d+)$", it.read(), re.M)[1])
    return f"{number // 1000000}.{number // 1000 % 1000}.{number % 1000}"


def calls():
    """The calls that the header declares."""
    with open(f"{TOP}/include/pdb.h", encoding="utf-8") as it:
        return set(re.findall(r"^(?:pdb_code|uint32_t|void) (pdb_\w+)\(", it.read(), re.M))


def named(crate, triple):
    """The module and the target, as each file that is made of a module names them."""
    with open(f"{HERE}/out/modules/{crate}.bc", "rb") as it:
        return f"LLVM module of the proved crate {crate}, sha256 {hashlib.sha256(it.read()).hexdigest()}, retargeted to {triple}"


def archive(path, files):
    """A zip of files by their paths, with the commit's date, or SOURCE_DATE_EPOCH where that is set."""
    told = subprocess.run(["git", "-C", TOP, "log", "-1", "--format=%ct"], capture_output=True, text=True, check=False).stdout
    when = time.gmtime(int(os.environ.get("SOURCE_DATE_EPOCH") or told or 315532800))[:6]
    os.makedirs(os.path.dirname(path), exist_ok=True)
    with zipfile.ZipFile(path, "w", zipfile.ZIP_DEFLATED, compresslevel=9) as out:
        for name, file in sorted(files.items()):
            entry = zipfile.ZipInfo(name, when)
            entry.compress_type, entry.external_attr = zipfile.ZIP_DEFLATED, (0o755 if name.endswith((".exe", ".dll")) else 0o644) << 16
            with open(file, "rb") as it:
                out.writestr(entry, it.read())
    print(f"{os.path.relpath(path, TOP)}: {os.path.getsize(path)} bytes")
