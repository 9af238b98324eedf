"""The Python package, beside the texts of the programs."""
import os
import re
import sys

import carried  # it stands beside this file

TOP = os.path.dirname(os.path.dirname(os.path.dirname(os.path.realpath(__file__))))


def tried(note, run, files, lister, tool):
    """Its exceptions, those of a file, and values that the programs print."""
    sys.path.append(f"{TOP}/python")
    import pdbreader  # pylint: disable=import-outside-toplevel; its library is built by now

    with open(f"{TOP}/include/pdb.h", encoding="utf-8") as it:
        text = it.read()
    number = int(re.search(r"#define PDB_VERSION (\d+)", text)[1])
    # Of the other two the exceptions say more.
    other = {21: "the file can't be read", 22: "out of memory"}
    for it in pdbreader.PdbError.__subclasses__():
        message = pdbreader.message(it.code)
        note(f"message of {it.__name__}", message == other.get(it.code, it.__doc__[:1].lower() + it.__doc__[1:-1]), message)
    note("message of another code", pdbreader.message(23) == pdbreader.message(2**32 - 1) == "unknown code", pdbreader.message(23))
    note("version", pdbreader.version() == (number // 1000000, number // 1000 % 1000, number % 1000), pdbreader.version())
    rows = re.findall(r"PDB_(\w+) = (\d+)", text.split("enum {")[1].split("}")[0])
    wanted = {int(code): name.replace("_", "").lower() for name, code in rows if name not in ("DONE", "END", "ROOM", "LARGE")}
    errors = [it for it in vars(pdbreader).values() if isinstance(it, type) and issubclass(it, pdbreader.PdbError)]
    found = {it.code: it.__name__.lower() for it in errors if it is not pdbreader.PdbError}
    note("exceptions", found == {**wanted, 32: "streamtoolarge"}, found.items() ^ wanted.items())
    for file in files:
        it = pdbreader.PdbFile.open(file)
        note(f"key of {file}", f"{it.key} {file}\n" == run([tool, "key", file], text=True).stdout, it.key)
        names = [b"%s\nobject %s" % (module.name, module.object) for module in it.modules()]
        shown = run([lister, file, "modules"]).stdout
        note(f"modules of {file}", names and all(name in shown for name in names), names)
        found = {it.name(line.file_name) for module in it.modules() for line in module.lines() if line.file_name is not None}
        shown = run([tool, "lines", file]).stdout
        note(f"names of files of {file}", found and all(b" " + name + b":" in shown for name in found), found)
    carried.numbers(note, pdbreader, it.data)
    note("the bytes of the GUID", it.information.guid.bytes_le == it.stream(1)[12:28], it.information)
    for call, error in (
        (lambda: pdbreader.PdbFile(b"nothing"), pdbreader.UnrecognizedFileFormat),
        (lambda: pdbreader.PdbFile.open(files[0]).stream(60000), pdbreader.StreamNotFound),
        (lambda: pdbreader.named_stream(it.data, b"/none"), pdbreader.StreamNameNotFound),
        (lambda: list(pdbreader.modules(b"short")), pdbreader.UnexpectedEof),
        (lambda: list(pdbreader.contributions(b"short")), pdbreader.UnexpectedEof),
        (lambda: pdbreader.sections(b"nothing"), pdbreader.UnrecognizedFileFormat),
        (lambda: pdbreader.image(b"nothing"), pdbreader.NotAnImage),
        (lambda: pdbreader.image(b"MZ"), pdbreader.UnexpectedEof),
    ):
        try:
            call()
            note(error.__name__, False, "no exception")
        except pdbreader.PdbError as raised:
            note(error.__name__, type(raised) is error and str(raised) == error.__doc__, repr(raised))
    for call in (lambda: it.stream(1 << 16), lambda: it.frames([pdbreader.Address(1 << 32)]), lambda: it.name(-1)):
        try:
            note("a number that doesn't fit", False, call())
        except ValueError:
            note("a number that doesn't fit", True)
    frames = it.frames([pdbreader.Address(0x1010), pdbreader.Address(0, 9)])
    note("frames", len(frames) == 2 and frames[1] == [pdbreader.Frame(None, None, 0, 0)], frames)
    variables = it.variables([pdbreader.Address(0x10, 1), pdbreader.Address(0, 9)])
    note("variables", len(variables) == 2 and variables[1] == [], variables)
