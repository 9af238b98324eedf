"""The lists of files of docs/MAP.md, which are made from the heads of files."""
import glob
import os
import re

BEGIN, END = "<!-- made from the heads of files -->\n", "<!-- end of what is made -->\n"
KINDS = {"src": ("**/*.rt", "//!"), "specs": ("*.antt", "--")}


def head_of(path, mark):
    """The first sentence of what stands at the head of a file."""
    words = []
    with open(path, encoding="utf-8") as lines:
        for line in lines:
            if not line.startswith(mark) or not line[len(mark) :].strip():
                break
            words.append(line[len(mark) :].strip())
    said = re.match(r"(?s)(.*?[.:])(?:\s|$)", " ".join(words) + " ")
    return (said[1] if said else " ".join(words)).rstrip(".:").replace("|", "\\|")


def list_of(folder, kind):
    """The table of a crate's folder."""
    below, mark = KINDS[kind]
    rows = []
    for file in sorted(glob.glob(below, root_dir=f"{folder}/{kind}", recursive=True)):
        name = os.path.splitext(file)[0]
        if name not in ("lib", "Lib"):
            rows.append(f"| `{name}` | {head_of(f'{folder}/{kind}/{file}', mark)} |\n")
    return f"\n| In `{kind}/` | |\n|---|---|\n{''.join(rows)}" if rows else ""


def section_of(top, crate):
    folder = f"{top}/crates/{crate}"
    root = next(it for it in (f"{folder}/src/lib.rt", f"{folder}/src/main.rt") if os.path.exists(it))
    return f"\n## `{crate}`\n\n{head_of(root, '//!')}.\n" + "".join(list_of(folder, kind) for kind in KINDS)


def lists(top, crates):
    """What stands between the two marks."""
    return BEGIN + "".join(section_of(top, it) for it in crates) + "\n" + END


def written(page, top, crates):
    """The page with its lists made anew."""
    before, _, rest = page.partition(BEGIN)
    return before + lists(top, crates) + rest.partition(END)[2]
