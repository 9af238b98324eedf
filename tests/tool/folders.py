"""pdb_tool over an image in the place of a PDB: which files are tried, what is told of them, and where addresses begin."""
import os
import shutil

from images import hand_made_image
from program import compare, ran, tell

KEY = "00112233445566778899AABBCCDDEEFF2"
MAIN = b"main\na.c:1:0\n\n"
COMMANDS = {
    "resolve": ["1:100", "1108"],
    "variables": ["1:100"],
    "find": ["main"],
    "where": ["a.c"],
    "lines": [],
    "scopes": ["0"],
    "symbols": [],
    "types": ["74"],
    "sources": [],
    "modules": [],
    "sections": [],
    "frames": [],
    "streams": [],
    "stream": ["1"],
}


def image_of(path):
    """An image whose PDB is the sample, at this path."""
    image = hand_made_image()
    image[328:348] = bytes.fromhex("33221100554477668899aabbccddeeff02000000")
    image[312:316] = (24 + len(path) + 1).to_bytes(4, "little")
    return bytes(image[:348]) + path + b"\0"


class Room:
    """Files below a folder, which is made anew."""

    def __init__(self, top):
        self.top = top
        shutil.rmtree(top, ignore_errors=True)
        os.makedirs(top)

    def put(self, name, data):
        path = f"{self.top}/{name}"
        os.makedirs(os.path.dirname(path), exist_ok=True)
        with open(path, "wb") as it:
            it.write(data)
        return path


def not_found(image):
    return 3, b"", f"pdb_tool: {image}: its PDB a.pdb {KEY} is not found\n".encode()


def candidates(data, top):
    """Each path at which the PDB may be, in a folder of its own."""
    for name in (
        "bin/a.pdb", f"sym/a.pdb/{KEY}/a.pdb", f"sym/a.pdb/{KEY.lower()}/a.pdb", "sym/a.pdb", "more/a.pdb",
    ):
        room = Room(f"{top}/candidates")
        image = room.put("bin/a.exe", image_of(b"C:\\bin\\a.pdb"))
        words = [f"--symbols={room.top}/sym", "--symbols", f"{room.top}/more/"]
        compare(f"no PDB for {name}", not_found(image), "resolve", *words, image, "1100")
        room.put(name, data)
        for address in "140001100", "1100", "1:100":
            compare(f"{address} by {name}", (0, MAIN, b""), "resolve", *words, image, address)
    room = Room(f"{top}/fronts")
    image = room.put("a.exe", image_of(b"A.pdb"))
    room.put(f"sym/a./a.pdb/{KEY}/a.pdb", data)
    wanted = (3, b"", f"pdb_tool: {image}: its PDB A.pdb {KEY} is not found\n".encode())
    compare("a store without first letters", wanted, "modules", f"--symbols={room.top}/sym", image)
    room.put("sym/index2.txt", b"")
    compare("a store with first letters", (0, b"0 48 a.obj\n", b""), "modules", f"--symbols={room.top}/sym", image)


def found_in_its_place(data, top):
    """Files that aren't the PDB."""
    other = data.replace(bytes.fromhex("33221100554477668899aabbccddeeff"), bytes.fromhex("33221100554477668899aabbccddeefe"))
    tell(other != data, "a sample with another key")
    room = Room(f"{top}/others")
    image = room.put("a.exe", image_of(b"a.pdb"))
    first, second = room.put("a.pdb", other), room.put("sym/a.pdb", other)
    both = "".join(f"pdb_tool: wrong PDB: {it} has the key 00112233445566778899AABBCCDDEEFE2, {image} needs {KEY}\n" for it in (first, second)).encode()
    words = ["modules", f"--symbols={room.top}/sym", image]
    compare("two other PDBs", (7, b"", both), *words)
    room.put("sym/a.pdb", data)
    compare("another PDB before the right one", (0, b"0 48 a.obj\n", b""), *words)
    room.put("a.pdb", b"")
    told = f"pdb_tool: {first}: this is no PDB file of the format MSF 7.00: it is empty\n".encode()
    compare("no PDB before the right one", (0, b"0 48 a.obj\n", told), *words)
    os.remove(first)
    os.mkfifo(first)
    compare("a pipe before the right one", (0, b"0 48 a.obj\n", b""), *words)
    os.remove(second)
    os.mkdir(second)
    compare("a pipe and a folder", not_found(image), *words)
    small, smaller = room.put("a.pd_", b"x"), room.put(f"sym/a.pdb/{KEY}/a.pd_", b"x")
    told = b"".join(f"pdb_tool: {it}: is compressed: expand it first\n".encode() for it in (small, smaller))
    compare("compressed files", (3, b"", told + not_found(image)[2]), *words)


def names_and_paths(data, top):
    """The path in an image, and names that no file can have."""
    room = Room(f"{top}/paths")
    pdb = room.put("deep/b.pdb", data)
    image = room.put("a.exe", image_of(pdb.encode()))
    compare("the path in an image", (0, b"0 48 a.obj\n", b""), "modules", image)
    for path, shown in (b"..", b" .."), (b"a\nb", b" a b"), (b"deep/", b""), (pdb.encode() + b"\xff", b" b.pdb\xff"):
        image = room.put("b.exe", image_of(path))
        told = b"pdb_tool: " + image.encode() + b": its PDB" + shown + b" " + KEY.encode() + b" is not found\n"
        compare(f"the path {path}", (3, b"", told), "modules", f"--symbols={room.top}", image)
    compare("a folder that isn't UTF-8", (2, b"", b"pdb_tool: --symbols=\xef\xbf\xbd: the argument is not UTF-8\n"), "modules", b"--symbols=\xff", image)
    image = room.put("c.exe", image_of(b"C:\\x\\" + 300 * b"n"))
    told = b"pdb_tool: " + image.encode() + b": its PDB " + 300 * b"n" + b" " + KEY.encode() + b" is not found\n"
    compare("a name that is too long for a file", (3, b"", told), "modules", f"--symbols={room.top}", image)
    keys = f"112233443000 a.exe/112233443000/a.exe {KEY} b.pdb/{KEY}/b.pdb\n{KEY} b.pdb/{KEY}/b.pdb\n".encode()
    compare("paths below a store", (0, keys, b""), "key", "--path", f"{room.top}/a.exe", pdb)


def folders_of_the_variable(data, top):
    room = Room(f"{top}/variable")
    image = room.put("a.exe", image_of(b"a.pdb"))
    room.put("sym/a.pdb", data)
    found, sym = (0, b"0 48 a.obj\n", b""), f"{room.top}/sym".encode()
    passed = b"pdb_tool: _NT_SYMBOL_PATH: is not UTF-8, and is passed over\n"
    for value, wanted in (
        (sym, found), (b"srv*" + sym + b"*https://x.y/z", found), (b"/nowhere;" + sym, found), (b"x*" + sym, not_found(image)),
        (b"", not_found(image)), (b"\xff", (3, b"", passed + not_found(image)[2])),
    ):
        said = ran("modules", image, env={b"_NT_SYMBOL_PATH": value})
        tell(said == wanted, f"the variable {value}", said)
    said = ran("modules", "--symbols=/nowhere", image, env={b"_NT_SYMBOL_PATH": sym})
    tell(said == not_found(image), "folders that are given beside the variable", said)


def folders(sample, top):
    with open(sample, "rb") as it:
        data = it.read()
    candidates(data, top)
    found_in_its_place(data, top)
    names_and_paths(data, top)
    folders_of_the_variable(data, top)
    room = Room(f"{top}/commands")
    image, pdb = room.put("a.exe", image_of(b"a.pdb")), room.put("a.pdb", data)
    for command, operands in COMMANDS.items():
        said, wanted = ran(command, image, *operands), ran(command, pdb, *operands)
        tell(said == wanted and said[0] == 0, f"{command} over an image", said)
    for words in ["--base=1000", "2100"], ["--base=0", "1100"], [f"--image={image}", "140001100"], ["2fff"], ["140003000"]:
        text = MAIN if words[-1] in ("2100", "1100", "140001100") else b"??\n??:0:0\n\n"
        compare(f"the addresses {words}", (0, text, b""), "resolve", image, *words)
        said = ran("resolve", *words[:-1], image, given=words[-1].encode())
        tell(said == (0, text, b""), f"the lines {words}", said)
    compare("an address below the load address of --image", (0, MAIN, b""), "resolve", f"--image={image}", pdb, "1100")
    compare("an address behind the image", (0, b"??\n??:0:0\n\n", b""), "resolve", image, "3000")
    other = f"pdb_tool: wrong PDB: {pdb} has the key {KEY}, and not {KEY[:-1]}3\n".encode()
    compare("another wanted key", (7, b"", other), "resolve", f"--key={KEY[:-1]}3", image, "1100")
