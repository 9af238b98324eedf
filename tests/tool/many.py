"""pdb_tool over many arguments, many lines and names of every kind."""
import json
import os
import shutil
import subprocess

from program import NO_ADDRESS, NO_MODULE, TOOL, compare, found_in_sample, notice_of, ran, tell, usage_of, wrong

MANY = 2000
LINES = 1_000_001


def many_arguments(sample):
    """More arguments than any table in the program has room for at once."""
    lines = b"0001:00000100 8 a.c:1:0\n0001:00000108 8 a.c:2:0\n"
    scopes = b"procedure 0001:00000100 48 main: ??\n  inlined ??\n"
    head = b"module 0 a.obj\n"
    compare("lines of 2,000 modules", (0, MANY * (head + lines), b""), "lines", sample, *MANY * ["0"])
    compare("scopes of 2,000 modules", (0, MANY * (head + scopes), b""), "scopes", sample, *MANY * ["0"])
    status, out, err = ran("symbols", sample, *MANY * ["0"])
    tell((status, out.count(head), err) == (0, MANY, b""), "symbols of 2,000 modules", (status, err))
    compare("2,000 addresses", (0, MANY * b"main\na.c:1:0\n\n", b""), "resolve", sample, *MANY * ["1100"])
    compare("2,000 files with errors", (1, MANY * found_in_sample(sample.encode()), b""), "check", *MANY * [sample])
    status, out, err = ran("key", *MANY * [sample])
    tell((status, out.count(b"\n"), err) == (0, MANY, b""), "2,000 keys", (status, err))


def many_lines(sample):
    """A line of standard input more than a million."""
    compare("1,000,001 lines", (0, LINES * b"??\n??:0:0\n\n", b""), "resolve", sample, given=LINES * b"7\n")


def order_of_faults(sample):
    """Arguments are judged before a file is opened; one file's error is told, and the next follows."""
    compare("a bad word and no file", wrong(NO_ADDRESS % b"zz", usage_of("resolve")), "resolve", "nowhere.pdb", "zz")
    compare("a bad number and no file", wrong(NO_MODULE % b"zz", usage_of("lines")), "lines", "nowhere.pdb", "0", "zz")
    found = found_in_sample(sample.encode())
    unread = b"pdb_tool: nowhere.pdb: cannot read file: no such file\n"
    for words, out in ((["nowhere.pdb", sample], found), ([sample, "nowhere.pdb"], found), (["nowhere.pdb", sample, sample], found + found)):
        compare(f"check of {len(words)} files, of which one isn't there", (1, out, unread), "check", *words)


def names_of_every_kind(sample, room):
    """A file's name is passed on as it stands: empty, with blanks at its ends, long, in another script."""
    key = ran("key", sample)[1].split()[0]
    compare("an empty name", (1, b"", b"pdb_tool: : cannot read file: no such file\n"), "key", "")
    for name in " app.pdb", "app.pdb ", "Приложение.pdb", 200 * "a" + ".pdb", "-base.pdb":
        file = os.path.join(room, name)
        shutil.copyfile(sample, file)
        compare(f"the key of {name!r}", (0, key + b" " + file.encode() + b"\n", b""), "key", file)
        done = subprocess.run([TOOL, "check", "--", name], cwd=room, capture_output=True, check=False)
        tell((done.returncode, done.stdout) == (1, found_in_sample(name.encode())), f"check of {name!r}", done)


def names_with_line_ends(sample, room):
    """The name of a file ends no line, and JSON has it as it is."""
    file, shown = f"{room}/a\r\nb.pdb", f"{room}/a  b.pdb".encode()
    shutil.copyfile(sample, file)
    compare("a key behind a line end", (0, b"00112233445566778899AABBCCDDEEFF2 " + shown + b"\n", b""), "key", file)
    compare("a check behind a line end", (1, found_in_sample(shown), b""), "check", file)
    tell(json.loads(ran("key", "--json", file)[1])["file"] == file, "the object of a name with a line end")
    other = b"wrong PDB: " + shown + b" has the key 00112233445566778899AABBCCDDEEFF2, and not 00000000000000000000000000000000A\n"
    compare("another key behind a line end", (7, b"", b"pdb_tool: " + other), "resolve", f"--key={31 * '0'}0A", file, "1:0")
    os.remove(file)
    compare("no file behind a line end", (3, b"", b"pdb_tool: " + shown + b": cannot read file: no such file\n"), "lines", file)


def files_that_are_no_pdb(sample, room):
    """A file that can't be opened is named for what it is, where its first bytes or its size say so."""
    with open(sample, "rb") as it:
        whole = it.read()
    no_pdb = "this is no PDB file of the format MSF 7.00"
    for name, data, text in (
        ("empty", b"", f"{no_pdb}: it is empty"),
        ("net", b"BSJB\1\0\1\0" + bytes(80), f"{no_pdb}: it is a portable PDB of .NET"),
        ("gzip", b"\x1f\x8b\x08" + bytes(80), f"{no_pdb}: it is compressed by gzip"),
        ("old", b"Microsoft C/C++ program database 2.00\r\n\x1aJG" + bytes(80), "not supported: small MSF file format: it is a PDB of version 2.00"),
        ("image", b"MZ" + bytes(100), "no PE signature"),
        ("short", whole[:1000], f"the data ends before a record does: it is cut short, and has 1000 of {len(whole)} bytes"),
        ("text", b"hello, world" * 9, no_pdb),
    ):
        file = os.path.join(room, name)
        with open(file, "wb") as it:
            it.write(data)
        wanted = f"pdb_tool: {file}: {text}\n".encode()
        compare(f"modules of {name}", (4, b"", wanted), "modules", file)
        compare(f"key of {name}", (1, b"", wanted), "key", file)


def damage_is_a_notice(sample, room):
    """A text that has the line of an error is as ever; one message on standard error says where to look."""
    with open(sample, "rb") as it:
        data = bytearray(it.read())
    at = data.index(b"\xf4\0\0\0\x18\0\0\0")
    data[at + 4] = 0xFF
    data[at + 5] = 0xFF
    file = os.path.join(room, "cut.pdb")
    with open(file, "wb") as it:
        it.write(data)
    notice = notice_of(file)
    said = b"error 1 the data ends before a record does\n"
    for topic in "lines", "sources":
        compare(f"{topic} of a module that is cut", (0, said, notice), topic, file)
    compare("scopes of it", (0, b"procedure 0001:00000100 48 main: ??\n  inlined ??\n", b""), "scopes", file)
    text = b"main\n??:0:0\n\n"
    compare("a module that is cut", (0, text + text, notice), "resolve", file, "1:100", "1:101")
    compare("its variables", (0, text, notice), "variables", file, "1:100")
    compare("a module that is cut, by lines", (0, text + text, notice), "resolve", file, given=b"1:100\n1:100\n")
    compare("no module that is cut", (0, b"??\n??:0:0\n\n", b""), "resolve", file, "1:130")
    compare("the module of the whole file", (0, b"main\na.c:1:0\n\n", b""), "resolve", sample, "1:100")
