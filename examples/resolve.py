"""resolve.py FILE ADDRESS..: the text of `pdb_tool resolve FILE ADDRESS..`: addresses as 0x1108 or 1108, and offsets in
sections as 0001:00000108.

    python3 examples/resolve.py FILE ADDRESS..
"""
import os
import re
import sys

# In a clone of the repository the package stands beside this folder.
sys.path.append(os.path.join(os.path.dirname(os.path.abspath(__file__)), "..", "python"))
import pdbreader  # noqa: E402

USAGE = "usage: resolve.py FILE ADDRESS.., each HEX, 0xHEX or SECTION:HEX"
ADDRESS = re.compile(r"(?:([0-9a-fA-F]{1,4}):|0[xX])?([0-9a-fA-F]{1,8})")


def stop(status, why):
    print(why, file=sys.stderr)
    sys.exit(status)


def address(word):
    found = ADDRESS.fullmatch(word)
    if not found:
        stop(2, f"resolve.py: not an address: {word}\n{USAGE}")
    return pdbreader.Address(int(found[2], 16), found[1] and int(found[1], 16))


def main(words):
    if not words:
        stop(2, USAGE)
    addresses = [address(it) for it in words[1:]]
    try:
        found = pdbreader.PdbFile.open(words[0]).frames(addresses)
    except pdbreader.OutOfMemory:
        stop(5, "out of memory")
    except pdbreader.PdbError as error:
        stop(4, f"cannot open: {error.code}")
    except OSError as error:
        stop(3, f"resolve.py: {words[0]}: {error.strerror}")
    out = sys.stdout.buffer.write
    for frames in found:
        for it in frames:
            out(b"%s\n%s:%d:%d\n" % (b"??" if it.name is None else it.name, b"??" if it.file is None else it.file, it.line, it.column))
        out(b"\n")


if __name__ == "__main__":
    try:
        main(sys.argv[1:])
        sys.stdout.flush()
    except BrokenPipeError:
        # What is left isn't written when the program ends.
        os.dup2(os.open(os.devnull, os.O_WRONLY), sys.stdout.fileno())
        sys.exit(6)
