"""`pdb_tool store`: where files go, what is told of each, and that no half file has a final name."""
import os
import random
import resource
import shutil
import subprocess

from images import hand_made_image
from program import FILES, REAL, TOOL, compare, ran, tell, usage_of, wrong

KEY = "00112233445566778899AABBCCDDEEFF2"
MANY = 500


def contents(path):
    with open(path, "rb") as it:
        return it.read()


def files_below(top):
    return sorted(os.path.join(folder, name) for folder, _, files in os.walk(top) for name in files)


def stored_and_found(sample, top):
    """A PDB, an image and a real file, twice, changed and replaced."""
    os.makedirs(f"{top}/in")
    image = f"{top}/in/App.exe"
    with open(image, "wb") as it:
        it.write(hand_made_image())
    own = ran("key", image)[1].split()[0].decode()
    name = os.path.basename(sample)
    pdb_path, image_path = f"{top}/sym/{name}/{KEY}/{name}", f"{top}/sym/App.exe/{own}/App.exe"
    text = f"stored {pdb_path}\nstored {image_path}\n".encode()
    compare("a PDB and an image", (0, text, b""), "store", f"--symbols={top}/sym", sample, image)
    tell(files_below(f"{top}/sym") == sorted([pdb_path, image_path]), "what is stored", files_below(f"{top}/sym"))
    tell(contents(pdb_path) == contents(sample) and contents(image_path) == contents(image), "the bytes that are stored")
    compare("them again", (0, text.replace(b"stored", b"present"), b""), "store", sample, "--symbols", f"{top}/sym", image)
    with open(pdb_path, "ab") as it:
        it.write(b"x")
    other = f"pdb_tool: {pdb_path}: is there already, with other contents\n".encode()
    compare("another file there", (1, f"present {image_path}\n".encode(), other), "store", f"--symbols={top}/sym/", sample, image)
    tell(contents(pdb_path) == contents(sample) + b"x", "it stays")
    compare("another file replaced", (0, f"stored {pdb_path}\n".encode(), b""), "store", f"--symbols={top}/sym", "--replace", sample)
    tell(contents(pdb_path) == contents(sample), "it is replaced")
    same_size = bytearray(contents(sample))
    same_size[-1] ^= 1
    with open(pdb_path, "wb") as it:
        it.write(same_size)
    compare("a file of the same size", (1, b"", other), "store", f"--symbols={top}/sym", sample)
    compare("a file of the same size replaced", (0, f"stored {pdb_path}\n".encode(), b""), "store", "--replace", f"--symbols={top}/sym", sample)
    compare("a folder that isn't the first", (0, f"present {pdb_path}\n".encode(), b""), "store", f"--symbols={top}/sym", f"--symbols={top}/none", sample)
    tell(not os.path.exists(f"{top}/none"), "only the first folder counts")


def one_pipe(sample, top):
    """A PDB from a pipe is stored under the name of the pipe."""
    reads, writes = os.pipe()
    with subprocess.Popen([TOOL, "store", f"--symbols={top}/pipe", f"/dev/fd/{reads}"], stdout=subprocess.PIPE, pass_fds=(reads,)) as it:
        os.close(reads)
        with os.fdopen(writes, "wb") as out:
            out.write(contents(sample))
        said = it.communicate()[0]
    path = f"{top}/pipe/{reads}/{KEY}/{reads}"
    tell((it.returncode, said) == (0, f"stored {path}\n".encode()) and contents(path) == contents(sample), "a PDB from a pipe", said)


def files_that_cannot_be_stored(sample, top):
    usage = usage_of("store")
    compare("no folder", wrong(b"store needs a folder: --symbols=DIR", usage), "store", sample)
    compare("no file", wrong(b"FILE is missing", usage), "store", f"--symbols={top}/x")
    compare("a folder that isn't UTF-8", (2, b"", b"pdb_tool: --symbols=\xef\xbf\xbd: the argument is not UTF-8\n"), "store", b"--symbols=\xff", sample)
    for option in "--json", "--path":
        compare(f"store with {option}", wrong(b"unknown option " + option.encode() + b": store has --symbols --replace", usage), "store", option, f"--symbols={top}/x", sample)
    name = os.path.basename(sample)
    path = f"{top}/some/{name}/{KEY}/{name}"
    empty = f"{top}/empty.pdb"
    with open(empty, "wb"):
        pass
    text = f"pdb_tool: /nowhere: cannot read file: no such file\npdb_tool: {empty}: this is no PDB file of the format MSF 7.00: it is empty\n"
    compare("a file among others", (1, f"stored {path}\n".encode(), text.encode()), "store", f"--symbols={top}/some", "/nowhere", sample, empty)
    odd = f"{top}/a\nb.pdb"
    shutil.copyfile(sample, odd)
    text = f"pdb_tool: {top}/a b.pdb: no file can be stored under its name\n".encode()
    compare("a name with a line end", (1, b"", text), "store", f"--symbols={top}/odd", odd)
    tell(not os.path.exists(f"{top}/odd"), "nothing is stored")
    with open(f"{top}/file", "wb"):
        pass
    path = f"{top}/file/{name}/{KEY}/{name}"
    said = ran("store", f"--symbols={top}/file", sample)
    tell(said[:2] == (1, b"") and said[2].startswith(f"pdb_tool: {path}: cannot write file".encode()), "a folder that is a file", said)
    os.makedirs(f"{top}/taken/{name}/{KEY}/{name}")
    path = f"{top}/taken/{name}/{KEY}/{name}"
    said = ran("store", f"--symbols={top}/taken", sample)
    tell(said[:2] == (1, b"") and said[2].startswith(f"pdb_tool: {path}: cannot write file".encode()), "a folder in its place", said)
    tell(not files_below(f"{top}/taken"), "no part is left", files_below(f"{top}/taken"))


def writes_that_fail(sample, top):
    """The file system refuses at each size: never half a file under a final name."""
    name = os.path.basename(sample)
    size = os.path.getsize(sample)
    for limit in [0, 1, 100, size // 2, size - 1, size]:
        folder = f"{top}/limit{limit}"

        def limited(limit=limit):
            resource.setrlimit(resource.RLIMIT_FSIZE, (limit, limit))

        said = subprocess.run([TOOL, "store", f"--symbols={folder}", sample], capture_output=True, check=False, preexec_fn=limited)
        path = f"{folder}/{name}/{KEY}/{name}"
        if limit == size:
            tell((said.returncode, files_below(folder)) == (0, [path]), "a file that just fits", said)
        else:
            tell(path not in files_below(folder) and said.returncode != 0, f"a limit of {limit} bytes", said)
    parts = f"{top}/parts/{name}/{KEY}"
    os.makedirs(parts)
    for k in range(3):
        with open(f"{parts}/{name}.{k}.part", "wb"):
            pass
    compare("names that are taken", (0, f"stored {parts}/{name}\n".encode(), b""), "store", f"--symbols={top}/parts", sample)
    tell(contents(f"{parts}/{name}") == contents(sample) and len(os.listdir(parts)) == 4, "the parts of others stay", os.listdir(parts))


def many_files(sample, top):
    """A store of many files, each found by its image, and by its key."""
    random.seed(63)
    os.makedirs(f"{top}/many")
    paths = []
    for k in range(MANY):
        data = bytearray(contents(sample))
        at = bytes(data).index(bytes.fromhex("33221100554477668899aabbccddeeff"))
        data[at : at + 4] = random.randrange(1 << 32).to_bytes(4, "little")
        paths.append(f"{top}/many/{k % 50}/app{k % 7}.pdb" if k < 350 else f"{top}/many/x{k}.pdb")
        os.makedirs(os.path.dirname(paths[-1]), exist_ok=True)
        with open(paths[-1], "wb") as it:
            it.write(data)
    paths = sorted(set(paths))
    said = ran("store", f"--symbols={top}/store", *paths)
    named = ran("key", "--path", *paths)[1].split(b"\n")[:-1]
    wanted = [b"stored " + f"{top}/store/".encode() + line.split(b" ")[1] for line in named]
    tell((said[0], said[1].split(b"\n")[:-1], said[2]) == (0, wanted, b""), "many files", said)
    tell(all(contents(path) == contents(line[7:]) for path, line in zip(paths, wanted)), "the bytes of many files")


def real_files(top):
    for name in REAL:
        path = f"{FILES}/{name}.pdb"
        said = ran("store", f"--symbols={top}/real", path)
        tell(said[0] == 0 and contents(said[1][7:-1]) == contents(path), f"{name} is stored", said)


def filing(sample, room):
    top = f"{room}/filing"
    shutil.rmtree(top, ignore_errors=True)
    os.makedirs(top)
    stored_and_found(sample, top)
    one_pipe(sample, top)
    files_that_cannot_be_stored(sample, top)
    writes_that_fail(sample, top)
    many_files(sample, top)
    real_files(top)
    shutil.rmtree(top)
