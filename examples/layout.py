"""layout.py FILE INDEX..: of each type its name and its size, and then the lines that `pdb_tool types FILE INDEX..` has for
its members. INDEX is hex.

    python3 examples/layout.py FILE INDEX..
"""
import os
import re
import sys

# In a clone of the repository the package stands beside this folder.
sys.path.append(os.path.join(os.path.dirname(os.path.abspath(__file__)), "..", "python"))
import pdbreader  # noqa: E402
from pdbreader import Access, MemberKind  # noqa: E402

WORDS = {
    MemberKind.BASE_CLASS: b"base",
    MemberKind.VIRTUAL_BASE_CLASS: b"virtual_base",
    MemberKind.INDIRECT_VIRTUAL_BASE_CLASS: b"indirect_base",
    MemberKind.VIRTUAL_TABLE_POINTER: b"vftable",
    MemberKind.VIRTUAL_TABLE_OFFSET: b"vftable",
    MemberKind.FRIEND_CLASS: b"friend",
    MemberKind.FRIEND_FUNCTION: b"friend",
    MemberKind.ENUMERATOR: b"enumerator",
    MemberKind.DATA_MEMBER: b"member",
    MemberKind.STATIC_MEMBER: b"static",
    MemberKind.MEMBER_FUNCTION: b"method",
    MemberKind.UNREAD_FUNCTIONS: b"method",
    MemberKind.NESTED_TYPE: b"nested",
    MemberKind.MORE_MEMBERS: b"<...>",
    MemberKind.ENDLESS_MEMBERS: b"error the list of members continues in itself",
}
VALUES = {MemberKind.ENUMERATOR: b"value", MemberKind.MEMBER_FUNCTION: b"entry"}
METHODS = [b"", b" kind=virtual", b" kind=static", b" kind=friend", b" kind=virtual", b" kind=pure", b" kind=pure", b""]


def one_line(name):
    return name.replace(b"\n", b" ").replace(b"\r", b" ")


def front_of(member):
    """What stands before the name of a member, or before its type where it has no name."""
    value = b"vbptr" if member.entry is not None else VALUES.get(member.kind, b"offset")
    front = b"  " + WORDS[member.kind]
    if member.kind == MemberKind.MEMBER_FUNCTION:
        front += METHODS[member.attributes // 4 % 8]
    for name, number in ((value, member.value), (b"entry", member.entry), (b"bit", member.bit)):
        front += b"" if number is None else b" %s=%d" % (name, number)
    if member.kind != MemberKind.ENUMERATOR and member.access in (Access.PRIVATE, Access.PROTECTED):
        front += b" access=" + member.access.name.lower().encode()
    return front


def line_of(member, type_name):
    """The line of a member, or of the error behind the members."""
    if isinstance(member, pdbreader.PdbError):
        return b"  error %d %s" % (member.code, pdbreader.message(member.code).encode())
    if member.kind in (MemberKind.MORE_MEMBERS, MemberKind.ENDLESS_MEMBERS):
        return b"  " + WORDS[member.kind]
    named = member.kind >= MemberKind.FRIEND_FUNCTION
    typed = member.kind not in (MemberKind.ENUMERATOR, MemberKind.UNREAD_FUNCTIONS)
    parts = [one_line(it) for it, there in ((member.name, named), (type_name, typed)) if there]
    return front_of(member) + b" " + b": ".join(parts)


def lines_of(file, indices):
    """All members in one call, and the names of their types in another."""
    members = file.members(indices)
    flat = [it for list_of in members for it in list_of]
    types = iter(file.type_names(getattr(it, "type_index", None) or 0 for it in flat))
    for name, size, list_of in zip(file.type_names(indices), file.type_sizes(indices), members):
        yield b"%s %s" % (one_line(name), b"-" if size.size is None else b"%d" % size.size)
        for it in list_of:
            yield line_of(it, next(types))


def main(words):
    wrong = [it for it in words[1:] if not re.fullmatch("[0-9a-fA-F]{1,8}", it)]
    for it in wrong:
        print(f"layout.py: no index: {it}", file=sys.stderr)
    if wrong or not words[1:]:
        print("usage: layout.py FILE INDEX..", file=sys.stderr)
        return 2
    indices = [int(it, 16) for it in words[1:]]
    try:
        for line in lines_of(pdbreader.PdbFile.open(words[0]), indices):
            sys.stdout.buffer.write(line + b"\n")
    except pdbreader.OutOfMemory:
        print("out of memory", file=sys.stderr)
        return 5
    except pdbreader.PdbError as error:
        print(f"layout.py: {words[0]}: error {error.code}: {error}", file=sys.stderr)
        return 4
    except OSError as error:
        print(f"layout.py: {words[0]}: {error.strerror}", file=sys.stderr)
        return 3
    return 0


if __name__ == "__main__":
    try:
        STATUS = main(sys.argv[1:])
        sys.stdout.flush()
    except BrokenPipeError:
        # What is left isn't written when the program ends.
        os.dup2(os.open(os.devnull, os.O_WRONLY), sys.stdout.fileno())
        STATUS = 6
    sys.exit(STATUS)
