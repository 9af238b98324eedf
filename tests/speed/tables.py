"""Tables of docs/PERFORMANCE.md, which the scripts that measure write."""
import os
import re
import subprocess

TOP = os.path.realpath(f"{os.path.dirname(os.path.realpath(__file__))}/../..")
PAGE = f"{TOP}/docs/PERFORMANCE.md"


def machine():
    """The processors, and what they are."""
    with open("/proc/cpuinfo", encoding="utf-8") as lines:
        model = next((it.partition(":")[2].strip() for it in lines if it.startswith("model name")), "unknown")
    return f"{os.cpu_count()} processors, {model}"


def commit():
    """The commit that is measured, with a mark where a source differs from it."""
    git = ["git", "-C", TOP]
    name = subprocess.run([*git, "rev-parse", "--short=7", "HEAD"], capture_output=True, text=True, check=True).stdout.strip()
    changed = subprocess.run([*git, "status", "--porcelain", "--", "crates", "c", "examples"], capture_output=True, text=True, check=True).stdout
    return f"{name}, with changes" if changed else name


def text_of(command, heads, rows):
    """A table behind the line that says what made it; numbers have commas."""
    lines = [f"Commit {commit()}; {machine()}; `{command}`.", ""]
    lines += [f"| {' | '.join(heads)} |", f"|{'---|' * len(heads)}"]
    for row in rows:
        lines.append(f"| {' | '.join(f'{it:,}' if isinstance(it, int) else it for it in row)} |")
    return "\n".join(lines)


def put(name, text):
    """Writes a table in place of the one of this name."""
    with open(PAGE, encoding="utf-8") as it:
        page = it.read()
    place = re.compile(rf"(<!-- table {re.escape(name)} -->\n\n).*?(\n\n<!-- end of table -->)", re.S)
    if not place.search(page):
        raise SystemExit(f"docs/PERFORMANCE.md has no table {name}")
    with open(PAGE, "w", encoding="utf-8") as it:
        it.write(place.sub(lambda found: found[1] + text + found[2], page, count=1))


def show(name, command, heads, rows, is_written):
    """Prints a table, and writes it where that is asked for."""
    text = text_of(command, heads, rows)
    print(f"{name}\n\n{text}\n", flush=True)
    if is_written:
        put(name, text)
