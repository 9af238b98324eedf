"""The proved program pdb_tool, run over words and standard input, and the count of what was as it should be."""
import os
import re
import subprocess

HERE = os.path.dirname(os.path.realpath(__file__))
TOP = os.path.realpath(f"{HERE}/../..")
TOOL = f"{TOP}/crates/pdb_tool/out/pdb_tool"
LIST = f"{TOP}/crates/pdb_list/out/pdb_list"
FILES = f"{TOP}/tests/real/files"
REAL = ["tour-lld", "tour-gnu", "cpp-lld", "dll-x86"]

counts = {True: 0, False: 0}


def tell(well, what, said=""):
    counts[bool(well)] += 1
    if not well:
        print(f"not as it should be: {what}: {said!r:.400}")


def ran(*words, given=b"", program=TOOL, env=None, limit=None, pass_fds=()):
    done = subprocess.run([program, *words], input=given, capture_output=True, check=False, env=env, timeout=limit, pass_fds=pass_fds)
    return done.returncode, done.stdout, done.stderr


def compare(what, wanted, *words, given=b""):
    said = ran(*words, given=given)
    tell(said == wanted, what, said)


def one_line(name):
    """A name as a text shows it: a blank for each control character, and of more than 4,096 bytes the first, and dots."""
    shown = bytes(32 if it < 32 or it == 127 else it for it in name)
    if len(name) <= 4096:
        return shown
    cut = 4096
    while cut > 4093 and 0x80 <= name[cut] < 0xC0:
        cut -= 1
    return shown[:cut] + b"..."


def stored(name):
    with open(f"{HERE}/{name}", "rb") as it:
        return it.read()


COMMANDS = b"resolve variables find where lines scopes symbols types sources modules sections frames streams stream key store check help version"
NO_ADDRESS = b"'%s' is not an address: write 1108, 0x1108 or 1:108; find prints the addresses of names"
NO_MODULE = b"'%s' is not the index of a module: pdb_tool modules FILE lists them"
NO_TYPE = b"'%s' is not the index of a type: write HEX, as in 1000"
NO_SOURCE = b"'%s' names no source file: write SOURCE, SOURCE:63 or SOURCE:63-70"
NO_LINES = b"'%s' names no lines: write the lower line first, as in SOURCE:63-70"
NO_BASE = b"%s: HEX is 1 to 16 hex digits"
NO_KEY = b"%s: KEY is 33 to 40 hex digits"
OPTIONS_OF_RESOLVE = b"resolve has --base --key --image --symbols --addresses --offsets --json"


def usage_of(command):
    """How a command is written: the first line of its help."""
    return b"usage: " + stored(f"help-{command}.stdout").split(b"\n")[0] + b"\n"


def wrong(why, usage):
    """What is printed where an argument is wrong."""
    return 2, b"", b"pdb_tool: " + why + b"\n" + usage


def unknown(word, closest=b""):
    """What is printed where a word is no command."""
    return wrong(b"unknown command: " + word + (b"; did you mean " + closest + b"?" if closest else b""), b"commands: " + COMMANDS + b"\n")


# What `check` finds in the sample: a record of S_FRAMEPROC that is cut, among the global symbols.
SAMPLE_WHERE, SAMPLE_TEXT = b"global symbol 00000058", b"the data ends before a record does"


def found_in_sample(file):
    """The line of `check` on the sample, under this name."""
    return file + b": " + SAMPLE_WHERE + b": " + SAMPLE_TEXT + b"\n"


def notice_of(file):
    """The message that a part of a file is damaged."""
    return f"pdb_tool: {file}: a part of the file is damaged: see pdb_tool check\n".encode()


# The line of an error, which of members of types stands behind two blanks; and that of a list of them that has no end.
ERROR_LINE = re.compile(rb"(?m)^(?:  )?error (?:\d+ |the list of members continues in itself$)")


def damage_notice(file, out):
    """What is printed on standard error where a text has the line of an error."""
    return notice_of(file) if ERROR_LINE.search(out) else b""


# A line of `check` on what `resolve` reads of a module.
MODULE_DAMAGE = re.compile(rb": module \d+(?: symbols| lines| inlined functions)?: ")


def is_notice(file, err):
    """Whether nothing was printed on standard error, or that the file is damaged, and `check` says the same of a module."""
    return not err or err == notice_of(file) and bool(MODULE_DAMAGE.search(ran("check", file)[1]))
