"""Retargets the LLVM module of a proved crate: from x86-64 Linux, for which the compiler made it, to Windows or WebAssembly.

A module names its target in its layout, its triple and the attributes of its functions. Beside these it depends on its target
by what it calls. Each function below that changes the text of a module says what it changes and why. Where a module isn't as
expected it raises Unexpected, which says what was found, so that someone looks at the module of a newer compiler.
"""
import os
import re
import subprocess
from dataclasses import dataclass

LINUX = "x86_64-unknown-linux-gnu"
# What a module may call, as it declares it. The first three are those of memory.
MEMORY = {
    "rattle_alloc": "{ i64, i64 } (i64, i64)",
    "rattle_realloc": "{ i64, i64 } (ptr, i64, i64, i64)",
    "rattle_dealloc": "void (ptr)",
}
SYSTEM = {
    "open": "i32 (ptr, i32, ...)",
    "close": "i32 (i32)",
    "read": "i64 (i32, ptr, i64)",
    "pread": "i64 (i32, ptr, i64, i64)",
    "write": "i64 (i32, ptr, i64)",
    "__write": "i64 (i32, ptr, i64)",
    "lseek": "i64 (i32, i64, i32)",
    "statx": "i32 (i32, ptr, i32, i32, ptr)",
    "mkdir": "i32 (ptr, i32)",
    "rename": "i32 (ptr, ptr)",
    "unlink": "i32 (ptr)",
    "fsync": "i32 (i32)",
    "isatty": "i32 (i32)",
    "rattle_arg": "i64 (i64, ptr, i64)",
    "rattle_env": "i64 (ptr, ptr, i64)",
    # No program needs these, which change open files, start threads or list the environment: what clang makes of a module
    # doesn't call them. If it did, they would be missing at the end.
    "ftruncate": "i32 (i32, i64)",
    "fchmod": "i32 (i32, i32)",
    "fdatasync": "i32 (i32)",
    "flock": "i32 (i32, i32)",
    "rattle_env_at": "i64 (i64, ptr, i64)",
    "malloc": "ptr (i64)",
    "free": "void (ptr)",
    "abort": "void ()",
    "sched_yield": "i32 ()",
    "pthread_create": "i32 (ptr, ptr, ptr, ptr)",
    "pthread_join": "i32 (i64, ptr)",
    "pthread_detach": "i32 (i64)",
    "pthread_self": "i64 ()",
    "pthread_attr_init": "i32 (ptr)",
    "pthread_attr_destroy": "i32 (ptr)",
    "pthread_attr_setguardsize": "i32 (ptr, i64)",
    "pthread_attr_setstacksize": "i32 (ptr, i64)",
    "rattle_errno": "i32 ()",
    "rattle_set_errno": "void (i32)",
    "__x86_get_cpuid_feature_leaf": "ptr (i32)",
    "__sysv_signal": "i64 (i32, i64)",
}
# LLVM's own functions, which mean the same for every target.
INTRINSICS = r"llvm\.(memset|memmove|memcpy|trap|cttz|ctlz|ctpop|bswap|[us](add|sub|mul)\.(with\.overflow|sat)|[us](min|max)|fsh[lr]|abs|lifetime|assume|expect)\b"
# Forms whose meaning depends on the target, and which no module had so far.
FORMS = "thread_local addrspace section comdat byval inalloca sret x86_64_sysvcc win64cc fastcc musttail ifunc alias asm x86_fp80 personality dllexport dllimport extern_weak blockaddress indirectbr va_arg invoke landingpad".split()
# What keeps the compiler from moving reads and writes of memory: it is no instruction, and means the same for every target.
BARRIER = 'call void asm sideeffect "", "~{memory}"()'
# The attributes of functions whose values a target decides.
ATTRIBUTES = {'"probe-stack"="inline-asm"', '"stack-probe-size"="3072"', '"target-cpu"="x86-64-v2"', '"target-cpu"="x86-64"'}
PAIR = "ptr sret({ i64, i64 }) align 8"
# Flags of the compiler's call that hold for each target. Those behind -mllvm guard against known faults of LLVM's passes.
TAKEN = {
    *("-ffunction-sections", "-fdata-sections", "--no-default-config", "-no-canonical-prefixes", "-fintegrated-cc1"),
    *("-fno-crash-diagnostics", "-Werror", "-O3", "-Xclang -fmerge-functions", "-mllvm -mergefunc-use-aliases"),
    *("-mllvm -trap-unreachable", "-mllvm -no-x86-call-frame-opt", "-mllvm -disable-machine-licm"),
    *("-mllvm -disable-postra-machine-licm", "-mllvm -sink-common-insts=false"),
}


class Unexpected(Exception):
    """A module, or the compiler's call of clang, isn't as this file knows them."""


@dataclass(frozen=True)
class Target:
    """What a module is retargeted to.

    `machine` stands in the place of -march=x86-64. `without` are flags of the compiler's call that are left out here.
    `dropped` are attributes of functions that are taken away, and `added` those that each function gets.
    """

    triple: str
    machine: tuple
    without: tuple
    dropped: tuple
    added: str


# Windows has its own way to touch the pages of a large frame: without the attributes of Linux's clang calls ___chkstk_ms of
# the compiler's runtime. Each function gets unwind tables (uwtable): debuggers and a caller's handler of faults need them,
# and Linux's modules say nounwind alone.
WINDOWS = Target("x86_64-w64-windows-gnu", ("-march=x86-64",), (), ("probe-stack", "stack-probe-size"), "uwtable")
# The flags of `machine` are those of the compiler's own call for wasm64, which lacks -no-trap-after-noreturn: WebAssembly
# wants an instruction behind a call that doesn't return. The attributes of `added` are those of its modules for wasm64: the
# features that are used, and that no pass makes calls of functions of C that aren't there. No page below the stack is
# touched: there are no pages.
WEB = Target(
    "wasm64-unknown-unknown",
    ("-mcpu=lime1", "-mllvm", "-expand-div-rem-bits=64", "-mllvm", "-expand-fp-convert-bits=64"),
    ("-mllvm -no-trap-after-noreturn",),
    ("probe-stack", "stack-probe-size", "target-cpu"),
    '"target-cpu"="lime1" "no-builtin-bcmp" "no-builtin-memcmp" "no-builtin-strlen"',
)


def want(fine, what):
    if not fine:
        raise Unexpected(what)


def output_of(words, **how):
    """The output of clang."""
    done = subprocess.run(words, stdout=subprocess.PIPE, stderr=subprocess.PIPE, text=True, check=False, **how)
    want(done.returncode == 0, f"clang: {done.stderr.strip()}")
    return done.stdout


def flags_of(call, target):
    """The flags for the target, of the compiler's call of clang: each is taken over, replaced, or left out for a reason."""
    flags, words = [], iter(call)
    for word in words:
        flag = f"{word} {next(words, '')}" if word in ("-mllvm", "-Xclang", "-o", "-x") else word
        if flag in TAKEN or (flag == "-mllvm -no-trap-after-noreturn" and flag not in target.without):
            flags += flag.split()
        elif flag == f"--target={LINUX}":
            flags.append(f"--target={target.triple}")
        elif flag == "-march=x86-64":
            flags += target.machine
        else:
            # --sysroot: nothing is included. -fPIC, -fPIE: code for Windows is always so; that for the web has one place.
            known = flag.startswith("--sysroot=") or flag in ("-c", "-x ir", "module.bc", "-o module.o", "-fPIC", "-fPIE", *target.without)
            want(known, f"the compiler's call of clang has the flag {flag}")
    for flag in (f"--target={target.triple}", "-Werror", "-O3", "-trap-unreachable", "-disable-machine-licm", "-sink-common-insts=false"):
        want(flag in flags, f"the compiler's call of clang has no flag {flag}")
    return flags


def layout_of(clang, triple):
    """The data layout that clang gives modules for a target."""
    text = output_of([clang, f"--target={triple}", "-x", "c", os.devnull, "-S", "-emit-llvm", "-o", "-"])
    return re.search(r'(?m)^target datalayout = "(.*)"$', text)[1]


def sizes_in(layout):
    """The parts of a layout that decide on sizes, alignments and the order of bytes; the default one of pointers is left out."""
    return {it for it in layout.split("-") if re.match(r"[eE]$|p:|[ifv]\d|a:|S\d|[AGP]\d", it)} - {"p:64:64", "f80:128"}


def read(clang, module):
    """The text of a module, which is one for x86-64 Linux."""
    # clang gives a module that it compiles its own layout without a word. It speaks up where it links it to another module.
    output_of([clang, f"--target={LINUX}", "-Werror", "-x", "c", os.devnull, "-S", "-emit-llvm", "-o", os.devnull, "-Xclang", "-mlink-bitcode-file", "-Xclang", module])
    return output_of([clang, f"--target={LINUX}", "-Werror", "-x", "ir", module, "-S", "-emit-llvm", "-O0", "-Xclang", "-disable-llvm-passes", "-o", "-"])


def once(old, new, text):
    want(text.count(old) == 1, f"the module has {old.strip()} {text.count(old)} times")
    return text.replace(old, new)


def check_forms(text):
    """A module has none of the forms whose meaning depends on the target."""
    bare = re.sub(r'c?"[^"\n]*"', '""', text.replace(BARRIER, ""))
    for form in FORMS:
        found = form in bare and re.search(rf"(?<![\w.%@$-]){form}(?![\w.])", bare)
        want(not found, f"the module has {form}: {found and bare[found.start() - 99 : found.end() + 99]}")
    want("!llvm.module.flags" not in bare, "the module has flags")
    for name in set(re.findall(r"@(llvm\.[\w.]+)\(", bare)):
        want(re.match(INTRINSICS, name), f"the module calls {name}")


def called_in(text):
    """The functions that a module calls: those of MEMORY and SYSTEM, each declared with its types."""
    found = {}
    for result, name, arguments in re.findall(r"(?m)^declare (.*?) ?@([\w.]+)\((.*?)\)(?: #\d+)?$", text):
        if not name.startswith("llvm."):
            found[name] = f"{result.removeprefix('noundef ')} ({arguments.replace(' noundef', '')})"
    want(len(found) == len(re.findall(r"(?m)^declare (?!.*@llvm\.)", text)), "the module has a declaration of another form")
    for name, types in found.items():
        want({**MEMORY, **SYSTEM}.get(name) == types, f"the module calls {name}, {types}")
    return set(found)


def exported_by(text):
    """The functions that a module exports: C's, with arguments that neither side extends."""
    lines = re.findall(r"(?m)^define (?!internal |private )(.*)$", text)
    form = re.compile(r"(?:(?:noundef )?i32|void) @(pdb_\w+|main)\((?:(?:ptr|i64|i32|i16|i8)(?: noundef)? %\w+(?:, )?)*\) #\d+ \{$")
    for line in lines:
        want(form.match(line), f"the module exports {line}")
    return {form.match(line)[1] for line in lines}


def with_layout(text, clang, target):
    """The layout and the triple of the target. Names are spelled otherwise; sizes, alignments and the order of bytes agree."""
    linux, own = layout_of(clang, LINUX), layout_of(clang, target.triple)
    want(sizes_in(linux) == sizes_in(own), f"the layouts {linux} and {own} differ")
    text = once(f'\ntarget datalayout = "{linux}"\n', f'\ntarget datalayout = "{own}"\n', text)
    return once(f'\ntarget triple = "{LINUX}"\n', f'\ntarget triple = "{target.triple}"\n', text)


def with_attributes(text, target):
    """The attributes of functions that the target decides."""
    bodies, _, last = text.partition("\nattributes #0 = ")
    last = f"\nattributes #0 = {last}"
    groups = dict(re.findall(r"(?m)^attributes #(\d+) = \{ (.*) \}$", last))
    for group in groups.values():
        unknown = set(re.findall(r'"[^"]*"(?:="[^"]*")?', group)) - ATTRIBUTES
        want(not unknown, f"the module has the attributes {unknown}")
    last = re.sub(rf' "(?:{"|".join(target.dropped)})"="[^"]*"', "", last)
    used = {head.rpartition(" #")[2].removesuffix(" {") for head in re.findall(r"(?m)^define .*$", bodies)}
    want(used <= set(groups), "the module has a function without attributes")
    for number in used:
        last = once(f"\nattributes #{number} = {{ ", f"\nattributes #{number} = {{ {target.added} ", last)
    return bodies + last


def with_pairs(text):
    """How rattle_alloc and rattle_realloc return their pair: to where a hidden first argument points, as C does it on both
    targets for a struct of 16 bytes. On Linux it is returned in two registers."""
    want("%pair" not in text, "the module has a name %pair")
    functions = text.split("\ndefine ")
    for name in ("rattle_alloc", "rattle_realloc"):
        call = rf"(?m)^  (%\w+) = call \{{ i64, i64 \}} @{name}\((.*)\)$"
        for number, function in enumerate(functions):
            if f"@{name}" in function:
                if " %pair =" not in function:
                    function = function.replace("\nstart:\n", "\nstart:\n  %pair = alloca { i64, i64 }, align 8\n")
                functions[number] = re.sub(call, rf"  call void @{name}({PAIR} %pair, \2)\n  \1 = load {{ i64, i64 }}, ptr %pair, align 8", function)
    text = "\ndefine ".join(functions)
    for name in ("rattle_alloc", "rattle_realloc"):
        text = text.replace(f"\ndeclare {{ i64, i64 }} @{name}(", f"\ndeclare void @{name}({PAIR}, ")
        want(text.count(f"@{name}") == text.count(f" void @{name}({PAIR}"), f"{name} is used in another way than by calls")
    return text


def with_names(text, called):
    """The functions of the system get names of their own: Windows has others by the same names."""
    for name in called - {*MEMORY}:
        text = text.replace(f" @{name}(", f" @{name_of(name)}(")
        want(not re.search(rf"@{name}\b", text), f"{name} is used in another way than by calls")
    return text


def name_of(name):
    """The name of a function of the system in a module for another target."""
    return "linux_" + ("write_directly" if name == "__write" else name.removeprefix("rattle_").lstrip("_"))


def retarget(clang, module, target):
    """The text of a module for the target, the functions that it exports, and those that it calls."""
    text = read(clang, module)
    check_forms(text)
    called, exported = called_in(text), exported_by(text)
    text = with_layout(text, clang, target)
    text = with_attributes(text, target)
    text = with_pairs(text)
    return with_names(text, called), exported, called


def compile_module(clang, module, target, out):
    """Compiles the module MODULE.bc for the target, by the flags of MODULE.call: the functions that it exports and calls."""
    with open(f"{module}.call", encoding="utf-8") as it:
        flags = flags_of(it.read().splitlines(), target)
    text, exported, called = retarget(clang, f"{module}.bc", target)
    output_of([clang, *flags, "-c", "-x", "ir", "-", "-o", out], input=text)
    return exported, {name if name in MEMORY else name_of(name) for name in called}
