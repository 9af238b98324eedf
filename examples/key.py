"""key.py FILE..: the lines of `pdb_tool key FILE..`: of a PDB its key, of an image (EXE or DLL) its own key, and the key and
the path of the PDB that it names.

    python3 examples/key.py FILE..
"""
import os
import sys

# In a clone of the repository the package stands beside this folder.
sys.path.append(os.path.join(os.path.dirname(os.path.abspath(__file__)), "..", "python"))
import pdbreader  # noqa: E402


def line_of(data, file):
    if not data.startswith(b"MZ"):
        return b"%s %s" % (pdbreader.key(data).encode(), file)
    it = pdbreader.image(data)
    if it.pdb is None:
        return b"%s %s - -" % (it.key.encode(), file)
    path = bytes(32 if byte < 32 or byte == 127 else byte for byte in it.pdb.path)
    return b"%s %s %s %s" % (it.key.encode(), file, it.pdb.key.encode(), path)


def main(files):
    if not files:
        print("usage: key.py FILE..", file=sys.stderr)
        return 2
    status = 0
    for file in files:
        try:
            with open(file, "rb") as it:
                line = line_of(it.read(), os.fsencode(file))
        except pdbreader.OutOfMemory:
            print("out of memory", file=sys.stderr)
            return 5
        except pdbreader.PdbError as error:
            print(f"key.py: {file}: error {error.code}: {error}", file=sys.stderr)
            status = 1
        except OSError as error:
            print(f"key.py: {file}: {error.strerror}", file=sys.stderr)
            status = 1
        else:
            sys.stdout.buffer.write(line + b"\n")
    return status


if __name__ == "__main__":
    try:
        STATUS = main(sys.argv[1:])
        sys.stdout.flush()
    except BrokenPipeError:
        # What is left isn't written when the program ends.
        os.dup2(os.open(os.devnull, os.O_WRONLY), sys.stdout.fileno())
        STATUS = 6
    sys.exit(STATUS)
