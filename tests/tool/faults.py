"""pdb_tool with memory refused and with writers that fail: whole texts or a beginning of them, and a status that says so."""
import os
import re
import resource
import shutil
import subprocess

from folders import image_of
from program import TOOL, TOP, compare, ran, tell


def refused_memory(sample, room):
    """Each growth refused in turn: whole texts of some first words, and the status says so."""
    clang = os.path.dirname(subprocess.run(["rt", "doc"], capture_output=True, text=True, check=True).stdout.strip())
    refuse = f"{room}/refuse.so"
    build = [f"{clang}/toolchain/bin/clang", "-O1", "-shared", "-fPIC", "-nostdlib", "-fuse-ld=lld"]
    subprocess.run([*build, "-o", refuse, f"{TOP}/tests/memory/refuse.c"], check=True)
    folder = f"{room}/memory"
    os.mkdir(folder)
    shutil.copyfile(sample, f"{folder}/a.pdb")
    with open(f"{room}/memory.exe", "wb") as it:
        it.write(image_of(b"a.pdb"))
    for words, given in ((["resolve", sample, "1:108", "1:100", "2:0", "1100"], b""), (["resolve", sample], b"1:108\n1100\nno\n1:100\n"),
                         (["resolve", f"--symbols={folder}", f"{room}/memory.exe", "1:108"], b""), (["key", "--path", f"{room}/memory.exe"], b""),
                         (["resolve", "--addresses", sample, "1:108", "--base", "0", "1100"], b""),
                         (["variables", sample, "1:108", "1100"], b""), (["variables", sample], b"1:108\nno\n"),
                         (["key", sample, sample], b""), (["lines", sample, "0", "1", "0"], b""), (["scopes", sample], b""),
                         (["symbols", sample], b""), (["symbols", sample, "0", "0"], b""), (["check", sample, sample], b""),
                         (["find", sample, "*"], b""), (["where", sample, "a.c"], b""), (["sources", sample, "0", "1"], b""),
                         (["modules", sample], b""), (["sections", sample], b""), (["types", sample, "74", "603"], b"")):
        ends_with, whole, _ = ran(*words, given=given)
        texts = [rb"\n\n", rb"size=4 int\n", rb"no\n", rb"a.c:2:0\n", rb"none\n", rb"S_END\n", rb"record does\n", rb"pdb\n", rb"- g\n"]
        ends = {0, len(whole)} | {it.end() for text in texts for it in re.finditer(text, whole)}
        for n in range(1, 5000):
            is_refused, (status, out, err) = ran_refused(n, words, given, refuse, room)
            if status == ends_with and out == whole:
                # What is only asked for before a text is written, to be read, needs no memory.
                tell(n > 3 or is_refused, f"{words[0]} asks for memory", n)
                if not is_refused:
                    break
                continue
            tell(is_refused and (status, err) == (5, b"pdb_tool: out of memory\n") and len(out) in ends and whole.startswith(out),
                 f"growth {n} refused over {words}", (status, out, err))


def ran_refused(n, words, given, refuse, room):
    """Whether a growth was refused of a run whose growth of this number was to be, and what it did."""
    told = os.open(f"{room}/refused", os.O_CREAT | os.O_TRUNC | os.O_RDWR)
    os.dup2(told, 9)
    os.close(told)
    answer = ran(*words, given=given, env={**os.environ, "REFUSE": str(n), "LD_PRELOAD": refuse}, pass_fds=(9,))
    os.close(9)
    return os.path.getsize(f"{room}/refused") > 0, answer


def taking(most):
    """A standard output that takes so many bytes of a file, and then fails."""
    resource.setrlimit(resource.RLIMIT_FSIZE, (most, most))


def writers_that_fail(sample, room):
    """A standard output that fails behind each number of bytes: a beginning of the text stands there."""
    for words, given in ((["help"], b""), (["--version"], b""), (["key", sample, sample], b""), (["resolve", sample, "1:108", "2:0"], b""),
                         (["resolve", sample], b"1:108\nno\n"), (["lines", sample, "0", "1"], b""), (["scopes", sample], b""),
                         (["variables", sample, "1:108", "2:0"], b""), (["symbols", sample, "0"], b""), (["check", sample, sample], b""), (["find", sample, "*"], b""),
                         (["where", sample, "a.c"], b""), (["sources", sample], b""), (["modules", sample], b""), (["sections", sample], b""),
                         (["types", sample, "74", "1000"], b"")):
        ends_with, whole, _ = ran(*words, given=given)
        for most in range(len(whole) + 1):
            with open(f"{room}/out", "w+b") as out:
                # The signal of a file that is too long stays ignored, as this interpreter has it.
                done = subprocess.run([TOOL, *words], input=given, stdout=out, stderr=subprocess.PIPE, check=False,
                                      restore_signals=False, preexec_fn=lambda most=most: taking(most))
                out.seek(0)
                said = done.returncode, out.read(), done.stderr
            wanted = (6, whole[:most], b"pdb_tool: cannot write\n") if most < len(whole) else (ends_with, whole, b"")
            if said != wanted:
                tell(False, f"{words[0]} where {most} bytes are taken", said)
                break
        else:
            tell(bool(whole), f"{words[0]} where fewer bytes are taken")


def failing_writer(sample):
    with open("/dev/full", "wb") as full:
        for words in ["help"], ["--version"], ["key", sample], ["resolve", sample, "1:100"], ["lines", sample], ["symbols", sample], ["check", sample]:
            said = subprocess.run([TOOL, *words], stdout=full, stderr=subprocess.PIPE, check=False)
            tell((said.returncode, said.stderr) == (6, b"pdb_tool: cannot write\n"), f"{words[0]} without room", said)
