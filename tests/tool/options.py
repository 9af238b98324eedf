"""The grammar of pdb_tool's arguments: options anywhere, what is no option, arguments that aren't UTF-8, and files that are pipes."""
import os
import shutil
import subprocess
import threading

from images import hand_made_image
from program import NO_ADDRESS, NO_BASE, NO_MODULE, NO_TYPE, OPTIONS_OF_RESOLVE, TOOL, compare, found_in_sample, ran, tell, usage_of, wrong

KEY = "00112233445566778899AABBCCDDEEFF2"
MAIN = b"main\na.c:1:0\n\n"
NO_PDB = b"this is no PDB file of the format MSF 7.00"
SECONDS = 20
CODE = ["--base", "--key", "--image", "--symbols", "--addresses"]
# The options of each command, in the order of its usage, and its operands behind FILE.
COMMANDS = {
    "resolve": ([*CODE, "--offsets", "--json"], ["1:100"]),
    "variables": (CODE, ["1:100"]),
    "find": (["--symbols", "--json"], ["main"]),
    "where": (["--symbols", "--json"], ["a.c"]),
    "lines": (["--symbols"], ["0"]),
    "scopes": (["--symbols"], ["0"]),
    "symbols": (["--symbols", "--all"], []),
    "types": (["--symbols"], ["74"]),
    "sources": (["--symbols", "--json"], ["0"]),
    "modules": (["--symbols", "--json"], []),
    "sections": (["--symbols", "--json"], []),
    "frames": (["--symbols", "--json"], []),
    "streams": (["--symbols", "--json"], []),
    "stream": (["--symbols"], ["1"]),
    "key": (["--path", "--json"], []),
    "check": (["--json"], []),
}
VALUES = {"--base": "0", "--key": KEY, "--image": "/nowhere", "--symbols": "/nowhere"}
LACKS = {"find": b"NAME is missing", "where": b"SOURCE is missing", "stream": b"STREAM is missing"}


def spelled(option):
    """An option with its value, in one argument and in two."""
    value = VALUES.get(option)
    return [[f"{option}={value}"], [option, value]] if value else [[option]]


def options_of_a_command(sample, command):
    """Each option stands anywhere, at most once, with its value in the same argument or in the next."""
    options, operands = COMMANDS[command]
    usage = usage_of(command)
    has = command.encode() + (b" has " + " ".join(options).encode() if options else b" has no options")
    for word in "-j", "--jso", "--offset", "--alll":
        compare(f"{command} with {word}", wrong(b"unknown option " + word.encode() + b": " + has, usage), command, sample, *operands, word)
    for option in options:
        ways = spelled(option)
        texts = []
        for way in ways:
            given = [sample, *operands]
            texts += [ran(command, *given[:at], *way, *given[at:]) for at in range(len(given) + 1)]
            texts.append(ran(command, *way, "--", *given))
        tell(all(it == texts[0] for it in texts) and (texts[0][0] == int(command == "check") or option == "--image"), f"{option} of {command} stands anywhere", texts)
        twice = texts[0] if option == "--symbols" else wrong(option.encode() + b" is given twice", usage)
        for way in ways:
            compare(f"{way} of {command} twice", twice, command, *ways[0], sample, *operands, *way)
        if option in VALUES:
            name = {"--base": b"HEX", "--key": b"KEY", "--image": b"IMAGE", "--symbols": b"DIR"}[option]
            compare(f"{option} of {command} without a value", wrong(option.encode() + b" needs a value: " + option.encode() + b"=" + name, usage), command, sample, *operands, option)
        else:
            compare(f"{option} of {command} with a value", wrong(option.encode() + b" takes no value", usage), command, sample, *operands, f"{option}=")
    compare(f"{command} without a file", wrong(b"FILE is missing", usage), command)
    compare(f"{command} of nothing behind --", wrong(b"FILE is missing", usage), command, "--")
    if command in LACKS:
        compare(f"{command} of a file alone", wrong(LACKS[command], usage), command, "--symbols=x", sample)


def options_anywhere(sample, room):
    for command in COMMANDS:
        options_of_a_command(sample, command)
    for command in "modules", "sections", "frames", "streams":
        compare(f"{command} of two files", wrong(f"{command} takes one FILE, and not -".encode(), usage_of(command)), command, sample, "-")
    usage = usage_of("resolve")
    for first, second in (["--key", KEY], ["--image=x"]), (["--image", "x"], [f"--key={KEY}"]):
        compare(f"{first} beside {second}", wrong(b"--key and --image exclude each other", usage), "resolve", *first, sample, *second)
    compare("an option as a value", wrong(NO_BASE % b"--json", usage), "resolve", "--base", "--json", sample, "1:100")
    compare("the end of options as a value", wrong(NO_BASE % b"--", usage), "resolve", "--base", "--", sample, "1:100")
    compare("an option that looks like a value", wrong(b"unknown option -1: " + OPTIONS_OF_RESOLVE, usage), "resolve", sample, "-1")
    for key in KEY.lower(), "00112233-4455-6677-8899-AABBCCDDEEFF2", "{00112233-4455-6677-8899-aabbccddeeff}2":
        compare(f"the key {key}", (0, MAIN, b""), "resolve", "--key", key, sample, "1:100")
    for word, shown in ("x\ny", b"x y"), ("\x7f", b" "), (5000 * "x", 4096 * b"x" + b"..."):
        compare(f"the address {word[:4]!r} on one line", wrong(NO_ADDRESS % shown, usage), "resolve", sample, word)
    no_option = wrong(b"unknown option -a b: modules has --symbols --json", usage_of("modules"))
    compare("an option on one line", no_option, "modules", sample, "-a\nb")
    files_like_options(sample, room)


def files_like_options(sample, room):
    """`--` ends the options, and `-` is a name as any other."""
    folder = f"{room}/like options"
    os.mkdir(folder)
    for name in "-x", "--json", "--", "-":
        shutil.copyfile(sample, f"{folder}/{name}")

    def within(*words):
        done = subprocess.run([TOOL, *words], cwd=folder, capture_output=True, check=False)
        return done.returncode, done.stdout, done.stderr

    listed = b"0 48 a.obj\n"
    for words in (["--", "-x"], ["--", "--json"], ["--", "--"], ["--", "-"], ["-"], ["./-x"]):
        said = within("modules", *words)
        tell(said == (0, listed, b""), f"modules of {words}", said)
    keys = b"".join(f"{KEY} {name}\n".encode() for name in ("-", "-x", "--"))
    said = within("key", "-", "--", "-x", "--")
    tell(said == (0, keys, b""), "keys of files like options", said)
    said = within("modules", "-x")
    tell(said == wrong(b"unknown option -x: modules has --symbols --json", usage_of("modules")), "a file like an option", said)
    said = within("resolve", "--", "-x", "1:100")
    tell(said == (0, MAIN, b""), "an address behind a file like an option", said)
    compare("no file of the name -", (3, b"", b"pdb_tool: -: cannot read file: no such file\n"), "modules", "-")
    shutil.rmtree(folder)


def words_that_are_no_text(sample):
    """Of each byte that isn't UTF-8 a message has U+FFFD."""
    shown = b"\xef\xbf\xbd"
    for words in ["find", sample, b"\xff"], ["find", sample, "main", b"\xff"], ["find", b"\xff", b"\xff"], ["where", sample, b"\xff"]:
        compare(f"a word that isn't UTF-8 of {words}", (2, b"", b"pdb_tool: " + shown + b": the argument is not UTF-8\n"), *words)
    compare("a source that isn't UTF-8", (2, b"", b"pdb_tool: " + shown + b".c: the argument is not UTF-8\n"), "where", sample, b"\xff.c")
    unread = b": cannot read file: its name is not UTF-8\n"
    compare("two files that aren't UTF-8", (1, b"", b"pdb_tool: " + shown + unread + b"pdb_tool: a" + shown + unread), "key", b"\xff", b"a\xfe")
    for words in ["modules", b"\xff"], ["resolve", b"\xff", "1:100"], ["resolve", b"--image=\xff", sample, "1:100"], ["resolve", "--image", b"\xff", sample, "1:100"]:
        compare(f"a file that isn't UTF-8 of {words}", (3, b"", b"pdb_tool: " + shown + unread), *words)
    for command, text in ("resolve", NO_ADDRESS), ("lines", NO_MODULE), ("types", NO_TYPE):
        compare(f"an operand of {command} that isn't UTF-8", wrong(text % shown, usage_of(command)), command, sample, b"\xff")
    compare("a base that isn't UTF-8", wrong(NO_BASE % (b"--base=" + shown), usage_of("resolve")), "resolve", b"--base=\xff", sample)


def piped(path, data, *words, given=b""):
    """What the program prints while another writes these bytes to a pipe of this name, once."""
    def feed():
        with open(path, "wb") as it:
            try:
                it.write(data)
            except BrokenPipeError:
                pass

    writer = threading.Thread(target=feed, daemon=True)
    writer.start()
    try:
        said = ran(*words, given=given, limit=SECONDS)
    except subprocess.TimeoutExpired:
        said = "no end"
    writer.join(SECONDS)
    return said


def image_of_the_sample():
    """An image that names the sample, loaded at 140000000."""
    image = hand_made_image()
    image[328:348] = bytes.fromhex("33221100554477668899aabbccddeeff02000000")
    return bytes(image)


def pipes_as_files(sample, room):
    """A pipe is read once, as FILE and as IMAGE; one that is no symbol file isn't opened again."""
    pipe, image = f"{room}/pipe", f"{room}/piped.exe"
    os.mkfifo(pipe)
    with open(sample, "rb") as it:
        data = it.read()
    with open(image, "wb") as it:
        it.write(image_of_the_sample())
    listed = b"0 48 a.obj\n"
    shown = pipe.encode()
    for what, wanted, content, words, given in (
        ("modules", (0, listed, b""), data, ["modules", pipe], b""),
        ("a key", (0, KEY.encode() + b" " + shown + b"\n", b""), data, ["key", pipe], b""),
        ("a check", (1, found_in_sample(shown), b""), data, ["check", pipe], b""),
        ("an address", (0, MAIN, b""), data, ["resolve", f"--image={image}", pipe, "140001100"], b""),
        ("lines", (0, MAIN, b""), data, ["resolve", pipe], b"1:100\n"),
        ("an image", (0, MAIN, b""), image_of_the_sample(), ["resolve", "--image", pipe, sample, "140001100"], b""),
        ("an image for lines", (0, MAIN, b""), image_of_the_sample(), ["resolve", f"--image={pipe}", sample], b"140001100\n"),
        ("no image", (4, b"", b"pdb_tool: " + shown + b": no image\n"), data, ["resolve", f"--image={pipe}", sample, "1:100"], b""),
        ("no symbol file", (4, b"", b"pdb_tool: " + shown + b": " + NO_PDB + b"\n"), 99 * b"hello", ["modules", pipe], b""),
        ("nothing", (4, b"", b"pdb_tool: " + shown + b": " + NO_PDB + b"\n"), b"", ["modules", pipe], b""),
        ("no file of a key", (1, b"", b"pdb_tool: " + shown + b": " + NO_PDB + b"\n"), b"", ["key", pipe], b""),
    ):
        said = piped(pipe, content, *words, given=given)
        tell(said == wanted, f"{what} through a pipe", said)
    with subprocess.Popen(["cat", sample], stdout=subprocess.PIPE) as it:
        said = subprocess.run([TOOL, "resolve", f"--image={image}", "/dev/stdin", "140001100"], stdin=it.stdout, capture_output=True, check=False, timeout=SECONDS)
    tell((said.returncode, said.stdout, said.stderr) == (0, MAIN, b""), "a PDB through standard input, beside an image", said)
    status, out, err = ran("resolve", "--image=/proc/self/mem", sample, "1:100", limit=SECONDS)
    tell(status in (3, 4) and not out and err.startswith(b"pdb_tool: /proc/self/mem: "), "an image that has no size", (status, out, err))
    os.remove(pipe)
    os.remove(image)
