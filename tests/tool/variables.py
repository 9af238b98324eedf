"""`pdb_tool variables` beside a reading of its own, over each byte of code of real files: which variables are in scope there,
and where each is. The frames are those of `resolve`. The sums of the texts are stored, so that no change of both readings
goes unnoticed."""
from hashlib import sha256

from program import FILES, NO_ADDRESS, NO_BASE, REAL, compare, is_notice, ran, stored, tell, wrong
from scopes import named
from streams import File
from variables_read import module_list, module_of, pieces_of_code

USAGE = b"usage: pdb_tool variables [--base=HEX] [--key=KEY | --image=IMAGE] [--symbols=DIR].. [--addresses] FILE [ADDRESS..]\n"
# What is expected of `many`, which has a variable in parts: at 0x15 `m` is in two registers, at 5 nowhere.
PARAMETERS = b"".join(b"  param " + it + b"\n" for it in (b"ecx a", b"edx b", b"r8d c", b"r9d d", b"[rsp+40] e", b"[rsp+48] f", b"[rsp+56] g", b"[rsp+64] h"))
MANY = {
    "1:10": b"many\n/tour/main.c:40:21\n" + PARAMETERS + b"  local +0:r11d m\n\n",
    "1:15": b"many\n/tour/main.c:38:50\n" + PARAMETERS + b"  local +0:r11d,+4:r10d m\n\n",
    "1:5": b"many\n/tour/main.c:40:14\n" + PARAMETERS + b"  local - m\n\n",
}
# The lines of all texts of a file, and their sum.
SUMS = "variables.sums"


def framed(frames, calls, found):
    """The lines of frames, each with those of its variables behind it: from the last of so many calls to the first, and then
    the function. None where there are more frames, or fewer."""
    pairs, text = list(zip(frames[0::2], frames[1::2])), []
    if len(pairs) != calls + 1:
        return None
    for pair, owner in zip(pairs, [*reversed(range(calls)), None]):
        text += [*pair, *(b"  " + named(f"{word} {there}", name) for of, word, there, name in found if of == owner)]
    return text


def texts_of(command, path, words):
    """The lines of the text of each address."""
    found = []
    for start in range(0, len(words), 4000):
        status, out, err = ran(command, path, *words[start : start + 4000], limit=20)
        tell(status == 0 and is_notice(path, err), f"{command} over {path}", (status, err))
        found += [it.split(b"\n") for it in out.split(b"\n\n")[:-1]]
    return found


def compare_places(what, path, module, places):
    """Whether the texts of places of a module are those of the other reading; how many places have variables."""
    words = [f"{section:x}:{offset:x}" for section, offset in places]
    frames, given = texts_of("resolve", path, words), texts_of("variables", path, words)
    tell(len(frames) == len(given) == len(places) > 0, f"texts of {what}", (len(frames), len(given), len(places)))
    wanted = [framed(lines, *(module.variables_at(place) if module else (0, []))) for lines, place in zip(frames, places)]
    other = next((it for it in zip(words, given, wanted) if it[1] != it[2]), None)
    tell(other is None, f"variables of {what}", other)
    return sum(a != b for a, b in zip(frames, given)), given


def compare_file(name):
    """Each byte of code of a real file; the line of its texts, how many places have variables, and how many places there are."""
    path = f"{FILES}/{name}.pdb"
    with open(path, "rb") as it:
        file = File(it.read())
    modules = {k: module_of(file, stream, sizes) for k, _, stream, sizes in module_list(file) if stream != 0xFFFF}
    text, several, count = b"", 0, 0
    for section, offset, length, module in pieces_of_code(file):
        places = [(section, at) for at in range(offset, offset + length)]
        found, given = compare_places(f"{name} from {section:x}:{offset:x} on", path, modules.get(module), places)
        text += b"".join(b"\n".join(it) + b"\n\n" for it in given)
        several, count = several + found, count + length
    return f"{name} {text.count(10)} {sha256(text).hexdigest()}\n", several, count


def variables(sample):
    """Each byte of code of real files; an example of a variable in parts; arguments that are wrong."""
    lines, several, counts = zip(*(compare_file(name) for name in REAL))
    tell(sum(several) > 1000 and sum(counts) > 5000, "places with variables", (several, counts))
    tell("".join(lines).encode() == stored(SUMS), f"the texts of real files have the sums of {SUMS}", "".join(lines))
    file = f"{FILES}/tour-lld.pdb"
    compare("variables of the example", (0, b"".join(MANY.values()), b""), "variables", file, *MANY)
    lines = "".join(f"{it}\n" for it in MANY).encode() + b"no\n"
    compare("variables of lines", (0, b"".join(MANY.values()) + b"no\n", b""), "variables", file, given=lines)
    compare("variables from a base", (0, b"1:10\n" + MANY["1:10"], b""), "variables", "--base", "7000", "--addresses", file, "1:10")
    compare("variables of nowhere", (0, b"??\n??:0:0\n\n", b""), "variables", "--base=1000", sample, "fff")
    compare("variables without a file", wrong(b"FILE is missing", USAGE), "variables")
    compare("variables without a base", wrong(b"--base needs a value: --base=HEX", USAGE), "variables", sample, "--base")
    compare("a base that is none", wrong(NO_BASE % b"x", USAGE), "variables", "--base", "x", sample)
    compare("no address", wrong(NO_ADDRESS % b"x", USAGE), "variables", sample, "x")
    for option in b"--json", b"--offsets", b"--all":
        compare(f"variables with {option}", wrong(b"unknown option " + option + b": variables has --base --key --image --symbols --addresses", USAGE), "variables", sample, option)
    tell(stored("help-variables.stdout").startswith(USAGE[7:]), "the usage of variables is its help's")
