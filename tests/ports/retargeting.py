"""Tests of ports/keep and ports/retarget.py: what they change in a small module, and that each thing that isn't as expected
is an error which names it."""
import os
import shutil
import subprocess
import sys

HERE = os.path.dirname(os.path.realpath(__file__))
PORTS = f"{HERE}/../../ports"
sys.path.insert(0, PORTS)
import retarget  # noqa: E402 (it stands in ports/)

CALL = [
    *("--target=x86_64-unknown-linux-gnu", "--sysroot=/folder", "-march=x86-64", "-mllvm", "-no-trap-after-noreturn"),
    *("-ffunction-sections", "-fdata-sections", "-mllvm", "-trap-unreachable", "-mllvm", "-no-x86-call-frame-opt"),
    *("-mllvm", "-disable-machine-licm", "-mllvm", "-disable-postra-machine-licm", "-mllvm", "-sink-common-insts=false"),
    *("--no-default-config", "-no-canonical-prefixes", "-fintegrated-cc1", "-fno-crash-diagnostics", "-Werror"),
    *("-c", "-x", "ir", "module.bc", "-o", "module.o", "-fPIC", "-O3"),
]
# What is planted in the module: the text that is replaced, what by, and what the error names.
PLANTED = {
    "another function of the system": ("@read(", "@fsync(", "the module calls fsync"),
    "another layout": ('"e-m:e', '"e-m:w', "target datalayout"),
    "another triple": ("x86_64-unknown-linux-gnu", "x86_64-unknown-linux-musl", "target triple"),
    "other types of a function": ("declare noundef i64 @read(i32", "declare noundef i32 @read(i32", "read, i32 (i32, ptr, i64)"),
    "an argument that is extended": ("@pdb_version(ptr noundef %a0, i16 noundef", "@pdb_version(ptr noundef %a0, i16 zeroext", "exports"),
    "a function of another name": ("@pdb_version(", "@other(", "exports"),
    "a result that is no number": ("define noundef i32 @pdb_version", "define noundef i64 @pdb_version", "exports"),
    "another size of pages": ('"stack-probe-size"="3072"', '"stack-probe-size"="8192"', "8192"),
    "another processor": ('"target-cpu"="x86-64-v2"', '"target-cpu"="x86-64-v3"', "x86-64-v3"),
    "a function without attributes": ("%a0) #0 {", "%a0) {", "without attributes"),
    "a variable of each thread": ("@static.0 = private", "@static.0 = private thread_local", "thread_local"),
    "a section": ('c"/thread_local"', 'c"/thread_local", section ".other"', "section"),
    "another convention of calls": ("define internal { i64, i64 }", "define internal fastcc { i64, i64 }", "fastcc"),
    "another function of LLVM": ("@llvm.memset.p0.i64(ptr %r2", "@llvm.eh.typeid.for.p0(ptr %r2", "llvm.eh.typeid"),
    "the address of a function of memory": ("i64 %a0, i64 8)", "i64 ptrtoint (ptr @rattle_alloc to i64), i64 8)", "rattle_alloc is used"),
    "the address of a function of the system": ("i64 @read(i32 0, ptr %r5", "i64 @read(i32 0, ptr @read", "read is used"),
    "an instruction of the processor": ("call void @rattle_dealloc(", 'call void asm sideeffect "pause", "~{memory}"()\n  call void @rattle_dealloc(', "asm"),
    "flags of the module": ("!llvm.ident", "!llvm.module.flags", "flags"),
}


def refusal(work):
    """What an error names; None where there was none."""
    try:
        work()
    except retarget.Unexpected as why:
        return str(why)
    return None


def of_module(note, clang, room):
    """What is changed in the module, and what is refused."""
    with open(f"{HERE}/module.ll", encoding="utf-8") as it:
        text = it.read()
    own, retarget.read = retarget.read, lambda _, module: module
    try:
        for target in (retarget.WINDOWS, retarget.WEB):
            changed, exported, called = retarget.retarget(clang, text, target)
            wanted = [f'triple = "{target.triple}"', "@linux_read(i32 0", "call void @rattle_alloc(ptr sret", target.added]
            note(f"{target.triple}: changes", all(it in changed for it in wanted) and "probe-stack" not in changed, changed)
            note(f"{target.triple}: functions", (exported, called) == ({"pdb_version"}, {*retarget.MEMORY, "read"}), (exported, called))
            words = [clang, *retarget.flags_of(CALL, target), "-c", "-x", "ir", "-", "-o", f"{room}/module.o"]
            done = subprocess.run(words, input=changed, capture_output=True, text=True, check=False)
            note(f"{target.triple}: clang", done.returncode == 0 and not done.stderr, done.stderr)
        for name, (old, new, told) in PLANTED.items():
            why = refusal(lambda planted=text.replace(old, new): retarget.retarget(clang, planted, retarget.WINDOWS))
            note(f"planted: {name}", old in text and why is not None and told in why, why)
    finally:
        retarget.read = own


def of_target(note, clang, room):
    """A module for another target is refused, whose layout clang would replace without a word."""
    for triple, fine in (("x86_64-unknown-linux-gnu", True), ("x86_64-w64-windows-gnu", False)):
        subprocess.run([clang, f"--target={triple}", "-w", "-x", "ir", f"{HERE}/module.ll", "-c", "-emit-llvm", "-o", f"{room}/module.bc"], check=True)
        why = refusal(lambda: retarget.read(clang, f"{room}/module.bc"))
        note(f"a module for {triple}", why is None if fine else why and "different data layouts" in why, why)


def of_flags(note):
    """Each flag of the compiler's call is known, and those that guard against faults are there."""
    windows, web = (retarget.flags_of(CALL, it) for it in (retarget.WINDOWS, retarget.WEB))
    note("flags", windows.count("-no-trap-after-noreturn") == 1 and "-no-trap-after-noreturn" not in web and "-fPIC" not in windows, windows)
    for flags, told in (([*CALL, "-ffast-math"], "-ffast-math"), ([*CALL, "-mllvm", "-other"], "-other")):
        why = refusal(lambda given=flags: retarget.flags_of(given, retarget.WINDOWS))
        note(f"the flag {told}", why is not None and told in why, why)
    for flag in ("-mllvm -disable-machine-licm", "-O3", "-Werror"):
        call = " ".join(CALL).replace(f" {flag} ", " ").split() if flag != "-O3" else CALL[:-1]
        why = refusal(lambda given=call: retarget.flags_of(given, retarget.WINDOWS))
        note(f"no flag {flag}", why is not None and flag.split()[-1] in why, why)


def of_keep(note, room):
    """The clang that keeps the module: a call of the expected form, and others."""
    folder = f"{room}/toolchain"
    os.makedirs(f"{folder}/bin")
    shutil.copy(f"{PORTS}/keep", f"{folder}/bin/clang")
    with open(f"{folder}/kit-clang", "w", encoding="utf-8") as it:
        it.write("/bin/true\n")
    with open(f"{room}/module.bc", "w", encoding="utf-8") as it:
        it.write("module")
    fine = ["-O3", "-c", "-x", "ir", "module.bc", "-o", "module.o"]
    for what, words, told in (
        ("two files", [*fine, "further.bc"], "further.bc"),
        ("no module", ["-O3", "-c", "-x", "c", "module.c", "-o", "module.o"], "doesn't compile one module"),
        ("one module", fine, None),
        ("a second call", fine, "a call before"),
    ):
        done = subprocess.run([f"{folder}/bin/clang", *words], capture_output=True, text=True, cwd=room, env={}, check=False)
        note(f"keep: {what}", done.returncode == (told is not None) and (told or "") in done.stderr, done)
    with open(f"{folder}/module.call", encoding="utf-8") as it:
        note("keep: the call", it.read().split() == fine)
    note("keep: the module", os.path.getsize(f"{folder}/module.bc") == 6)


def tests(note, clang, room):
    """All of them. `note` is told what was tried, whether it came out well, and more."""
    of_module(note, clang, room)
    of_target(note, clang, room)
    of_flags(note)
    of_keep(note, room)
