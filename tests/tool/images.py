"""pdb_tool over images: their keys, the PDB that an image or a key wants, and damaged images beside a reading of their own."""
import random
import subprocess

from program import TOOL, compare, one_line, ran, tell

DAMAGED = 2000
END = b"the data ends before a record does"


def hand_made_image():
    """An image of 354 bytes, which names a.pdb."""
    image = bytearray(354)
    for at, part in ((0, b"MZ"), (64, b"PE\0\0"), (324, b"RSDS" + bytes(range(16))), (348, b"a.pdb\0")):
        image[at : at + len(part)] = part
    fields = {60: 64, 68: 0x18664, 72: 0x11223344, 84: 168, 88: 0x20B, 112: 0x40000000, 116: 1, 144: 0x3000, 196: 7, 248: 0x1000,
              252: 28, 268: 0x1000, 272: 58, 276: 296, 308: 2, 312: 30, 320: 324, 344: 1}
    for at, number in fields.items():
        image[at : at + 4] = number.to_bytes(4, "little")
    return image


def images(sample, room):
    """Keys of images, and what is told of a file that an image or a key wants."""
    def put(name, data):
        with open(f"{room}/{name}", "wb") as it:
            it.write(data)
        return f"{room}/{name}"

    image = hand_made_image()
    file = put("x.exe", image)
    line = f"112233443000 {file} 030201000504070608090A0B0C0D0E0F1 a.pdb\n".encode()
    compare("an image's key", (0, line, b""), "key", file)
    key = b"00112233445566778899AABBCCDDEEFF2"
    compare("an image beside a PDB", (0, line + key + f" {sample}\n".encode(), b""), "key", file, sample)
    with subprocess.Popen(["cat", file], stdout=subprocess.PIPE) as it:
        said = subprocess.run([TOOL, "key", "/dev/stdin"], stdin=it.stdout, capture_output=True, check=False)
        tell((said.returncode, said.stdout) == (0, line.replace(file.encode(), b"/dev/stdin")), "an image through a pipe", said.stdout)
    for size in range(2, len(image)):
        cut = put("cut.exe", image[:size])
        compare(f"an image of {size} bytes", (1, b"", f"pdb_tool: {cut}: the data ends before a record does\n".encode()), "key", cut)
    none = bytearray(image)
    none[308] = 16
    none = put("none.exe", none)
    compare("an image without a PDB", (0, f"112233443000 {none} - -\n".encode(), b""), "key", none)
    compare("its PDB", (4, b"", f"pdb_tool: {none}: names no PDB\n".encode()), "resolve", f"--image={none}", sample, "1:100")
    compare("no image", (4, b"", f"pdb_tool: {sample}: no image\n".encode()), "resolve", f"--image={sample}", sample, "1:100")
    compare("no file of an image", (3, b"", b"pdb_tool: /nowhere: cannot read file: no such file\n"), "resolve", "--image=/nowhere", sample, "1:100")
    text = b"main\na.c:1:0\n\n"
    for word in b"--key=" + key, b"--key=" + key.lower():
        compare(f"the wanted {word}", (0, text, b""), "resolve", word, sample, "1:100")
        said = ran("resolve", sample, word, given=b"1:100\n")
        tell(said == (0, text, b""), f"the wanted {word} of lines", said)
    for other in key[:-1] + b"3", key + b"0", key[:-1] + b"02", b"1" + key[1:]:
        wanted = (7, b"", b"pdb_tool: wrong PDB: " + sample.encode() + b" has the key " + key + b", and not " + other + b"\n")
        compare(f"the key {other}", wanted, "resolve", b"--key=" + other, sample, "1:100")
        said = ran("resolve", b"--key=" + other, sample, given=b"1:100\n")
        tell(said == wanted, f"the key {other} of lines", said)
    wanted = (7, b"", b"pdb_tool: wrong PDB: " + sample.encode() + b" has the key " + key + b", " + file.encode() + b" needs 030201000504070608090A0B0C0D0E0F1\n")
    compare("an image of another PDB", wanted, "resolve", f"--image={file}", sample, "1:100")
    named = bytearray(image)
    named[328:348] = bytes.fromhex("33221100554477668899aabbccddeeff02000000")
    named = put("named.exe", named)
    for words in ["140001100"], ["--base=1000", "2100"], ["1:100"], ["--base", "0", "1100"]:
        compare(f"the sample by its image at {words}", (0, text, b""), "resolve", f"--image={named}", sample, *words)
    is_refused = (1, b"", f"pdb_tool: {file}: this is no PDB file of the format MSF 7.00: it is an image (EXE or DLL)\n".encode())
    compare("damage of no PDB", is_refused, "check", file)
    not_found = (3, b"", f"pdb_tool: {file}: its PDB a.pdb 030201000504070608090A0B0C0D0E0F1 is not found\n".encode())
    compare("a wanted key of an image without its PDB", not_found, "resolve", b"--key=" + key, file, "1:100")


class Refused(Exception):
    """Why an image isn't read."""


def numbers_of(data):
    """Reads of an image: `size` bytes at an offset as a number, and a test that so many bytes are there."""
    def there(at, size):
        if at + size > len(data):
            raise Refused(END)

    def number(at, size):
        there(at, size)
        return int.from_bytes(data[at : at + size], "little")
    return there, number


def debug_directory(data):
    """Time stamp and size of an image, and the offset and number of the entries of its debug directory."""
    there, number = numbers_of(data)
    front = number(60, 4)
    there(front, 4)
    if data[front : front + 4] != b"PE\0\0":
        raise Refused(b"no PE signature")
    there(front + 4, 20)
    optional, size = front + 24, number(front + 20, 2)
    if size < 2:
        raise Refused(END)
    kind = number(optional, 2)
    if kind not in (0x10B, 0x20B):
        raise Refused(b"unknown optional header")
    fixed = 96 if kind == 0x10B else 112
    if size < fixed:
        raise Refused(END)
    there(optional, size)
    sections = [optional + size + 40 * k for k in range(number(front + 6, 2))]
    there(optional + size, 40 * len(sections))
    stamp, image_size = number(front + 8, 4), number(optional + 56, 4)
    has_entries = number(optional + fixed - 4, 4) > 6 and size >= fixed + 56
    count = number(optional + fixed + 52, 4) // 28 if has_entries else 0
    if not count:
        return stamp, image_size, 0, 0
    address = number(optional + fixed + 48, 4)
    for at in sections:
        start = number(at + 12, 4)
        if start <= address < start + number(at + 16, 4):
            place = number(at + 20, 4) + address - start
            there(place, 28 * count)
            return stamp, image_size, place, count
    raise Refused(END)


def line_of(data, name):
    """The line of `key` for an image of these bytes."""
    there, number = numbers_of(data)
    stamp, image_size, place, count = debug_directory(data)
    entries = (place + 28 * k for k in range(count))
    entry = next((at for at in entries if number(at + 12, 4) == 2), None)
    front = b"%08X%x %s " % (stamp, image_size, name)
    if entry is None:
        return front + b"- -\n"
    at, size = number(entry + 24, 4), number(entry + 16, 4)
    there(at, size)
    record = data[at : at + size]
    whole, field = numbers_of(record)
    whole(0, 4)
    if record[:4] == b"NB10":
        raise Refused(b"an NB10 record, which names a PDB of version 2.00")
    if record[:4] != b"RSDS":
        raise Refused(b"unknown CodeView record")
    whole(0, 24)
    guid = b"%08X%04X%04X" % (field(4, 4), field(8, 2), field(10, 2)) + record[12:20].hex().upper().encode()
    path = one_line(record[24:].split(b"\0")[0])
    return front + guid + b"%X" % field(20, 4) + (b" " + path if path else b"") + b"\n"


def damaged(image, chance):
    """An image of which some bytes are others, or which is cut short."""
    data = bytearray(image)
    for _ in range(chance.choice([1, 1, 2, 4, 16])):
        data[chance.randrange(2, len(data))] = chance.choice([0, 1, 2, 0x7F, 0xFF, chance.randrange(256)])
    return bytes(data[: chance.randrange(2, len(data))] if chance.random() < 0.1 else data)


def damaged_images(room):
    """Each damaged image has the line that its bytes give, or the error."""
    image, file, read = hand_made_image(), f"{room}/damaged.exe", 0
    for number in range(DAMAGED):
        data = damaged(image, random.Random(number))
        with open(file, "wb") as it:
            it.write(data)
        try:
            wanted = 0, line_of(data, file.encode()), b""
            read += 1
        except Refused as why:
            wanted = 1, b"", b"pdb_tool: %s: %s\n" % (file.encode(), why.args[0])
        compare(f"damaged image {number}", wanted, "key", file)
    tell(DAMAGED // 10 < read < DAMAGED, "damaged images that are read", read)
