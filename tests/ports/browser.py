"""Tests of the page, in Chromium: it is fed files as a person would do it, and shows what the programs for Linux print."""
import importlib.util
import os
import shutil
import struct
import subprocess
import sys
import time
import urllib.parse

import attacks
import reach
import windows

TOP = windows.TOP
OUT = f"{TOP}/ports/out/web"
PAGE = f"{OUT}/index.html"
TOOL = f"{TOP}/crates/pdb_tool/out/pdb_tool"
SECONDS = 60
# Files of more than 51 MB are read within so many seconds. Of the symbols of the first one 480,000 are searched within so many
# milliseconds, and so many a picture takes while the list scrolls. The best of some tries counts, since other work may run.
LARGE, ROWS, READY, SEARCH, SCROLL, TRIES_OF = "globals-1100000", 1100000, 5, 50, 50, 5
FURTHER, LEAST_SIZE = "inlined-50000", 51_000_000
SCROLLING = """
const done = arguments[1], rows = arguments[0], room = at("list"), times = [], steps = 60;
const drawn = (from) => Math.abs(Number(room.querySelector(".item")?.getAttribute("aria-rowindex") ?? -1e9) - from) < 90;
const last = () => room.querySelector(".item:last-child");
(async () => {
    for (let k = 1; k <= steps; k++) {
        const to = Math.floor((room.scrollHeight - room.clientHeight) * k / steps), begun = performance.now();
        room.scrollTop = to;
        do await new Promise(requestAnimationFrame); while (!drawn(rows * k / steps) && performance.now() - begun < 1000);
        times.push(performance.now() - begun);
    }
    const [end, of] = [last().getBoundingClientRect().bottom, room.getBoundingClientRect().bottom];
    done([times.sort((a, b) => a - b)[steps / 2], Number(last().getAttribute("aria-rowindex")) - 1, Math.round(of - end)]);
})();
"""
# Lines of traces, each of which names 0x1108 of cpp-lld.pdb: `nested` begins at 0001:00000000, and section 1 at 0x1000.
TRACES = (
    *("0x1108", "1108", "00001108", "0001:00000108", "app.exe+0x1108", "app.exe + 0x1108", "app+1108", " 3  app.exe + 0x1108"),
    *("app!nested+0x108", "04 000000a1`b2c3d4e0 00007ff6`c0a01108 app!nested+0x108 [/tour/main.cpp @ 63]"),
    "app.exe!nested() + 0x108 bytes",
)


def driver(width, height=900):
    """Chromium, without a window."""
    from selenium import webdriver  # pylint: disable=import-outside-toplevel; it isn't everywhere
    from selenium.webdriver.chrome.options import Options  # pylint: disable=import-outside-toplevel
    from selenium.webdriver.chrome.service import Service  # pylint: disable=import-outside-toplevel

    options = Options()
    options.binary_location = shutil.which("chromium")
    for it in ("--headless=new", "--no-sandbox", "--disable-gpu", "--disable-dev-shm-usage", "--hide-scrollbars"):
        options.add_argument(it)
    options.set_capability("goog:loggingPrefs", {"browser": "ALL"})
    made = webdriver.Chrome(service=Service(shutil.which("chromedriver")), options=options)
    made.execute_cdp_cmd("Emulation.setDeviceMetricsOverride", {"width": width, "height": height, "deviceScaleFactor": 1, "mobile": width < 600})
    return made


class Page:
    """The page, as one opens it from a folder."""

    def __init__(self, width, path=PAGE):
        self.browser = driver(width)
        self.browser.get(f"file://{urllib.parse.quote(path)}")

    def run(self, code, *values):
        return self.browser.execute_script(code, *values)

    def wait(self, what):
        end = time.time() + SECONDS
        while not self.run(f"return {what}"):
            if time.time() > end:
                raise TimeoutError(f"{what}: {self.run('return document.body.innerText')[:500]}")
            time.sleep(0.05)

    def feed(self, file):
        """The state of the page, once it has read a file."""
        self.run("document.body.dataset.state = ''")
        self.browser.find_element("id", "file").send_keys(file)
        self.wait("['ready', 'failed'].includes(document.body.dataset.state)")
        return self.run("return document.body.dataset.state")

    def resolve(self, lines, base=""):
        """What the page has of addresses and lines of a trace, in the form of `pdb_tool resolve`."""
        code = "choose(at('tab-addresses')); at('trace').value = arguments[0]; at('base').value = arguments[1]; "
        self.run(code + "document.body.dataset.asked = ''; at('ask').requestSubmit()", "\n".join(lines), base)
        self.wait("document.body.dataset.asked === 'yes'")
        return self.run("return answer.list.map(textOf).join('')")


def resolved(file, *addresses):
    return windows.run([TOOL, "resolve", file, *addresses], text=True, errors="replace").stdout


def of_files(note, page, folder, whole, damaged):
    """Frames and keys of files, and whether they open."""
    addresses = [*(f"{it:#x}" for it in range(0x1000, 0x1400, 7)), "0001:00000108", "0x0", "0xffffffff"]
    for name in (*whole, *damaged):
        file = f"{folder}/{name}"
        opens = windows.run([f"{TOP}/crates/pdb_list/out/pdb_list", file, "info"]).returncode != 4
        state = page.feed(file)
        note(f"page: {name} opens", state == ("ready" if opens else "failed"), state)
        if opens:
            note(f"page: frames of {name}", page.resolve(addresses) == resolved(file, *addresses))
            key = windows.run([TOOL, "key", file], text=True).stdout.split()[:1]
            note(f"page: key of {name}", all(it in page.run("return at('facts').innerText") for it in key), key)


def of_traces(note, page, file):
    """Lines of traces of several programs, with a load address, and of other files."""
    page.feed(file)
    one = resolved(file, "0x1108")
    note("page: lines of traces", page.resolve(TRACES) == one * len(TRACES))
    based = ["0x140001108", "   3:     0x140001108 - tour::clamp", "00000001`40001108"]
    note("page: a load address", page.resolve(based, "0x140000000") == one * len(based))
    page.resolve([" 0  cpp-lld.exe + 0x1108", " 1  kernel32.dll + 0x17374", "0x140001108"])
    found = page.run("return answer.list.map((it) => (it.frames ? it.frames.length : it.why))")
    note("page: other files", found == [2, "of kernel32, another file", "is above 4 GB: the load address is missing"], found)


def of_parts(note, page):
    """The other tabs have what the file has."""
    page.run("at('find').value = 'nest'; choose(at('tab-symbols'))")
    page.wait("document.querySelectorAll('#list .item').length > 0")
    note("page: symbols", "nested" in page.run("return at('list').innerText"))
    page.run("choose(at('tab-modules')); document.querySelector('#table tbody button').click()")
    page.wait("!at('oneModule').hidden && document.querySelectorAll('#lines .item').length > 0")
    note("page: a module", ".cpp" in page.run("return at('sources').innerText"))
    page.run("choose(at('tab-map'))")
    note("page: the map", page.run("return document.querySelectorAll('#tiles button').length") > 0)


def ready_in(note, page, folder, name):
    """In how many seconds a large file is ready, at best."""
    subprocess.run([sys.executable, f"{TOP}/tests/speed/files", folder, name], check=True)
    file, ready = f"{folder}/{name}.pdb", []
    for _ in range(TRIES_OF):
        begun = time.time()
        state = page.feed(file)
        ready.append(time.time() - begun)
    size = os.path.getsize(file)
    note(f"page: {name}, {size} bytes, ready within {READY} s", state == "ready" and size > LEAST_SIZE and min(ready) < READY, ready)
    return min(ready)


def of_large(note, page, folder):
    """A large file is ready, searched and scrolled in time."""
    print(f"the page: {FURTHER} ready in {ready_in(note, page, folder, FURTHER):.1f} s")
    ready = ready_in(note, page, folder, LARGE)
    page.run("choose(at('tab-symbols')); at('form').value = 'all'")
    searched = []
    for text in ("", *["symbol_9", "9_xx", "qq"] * TRIES_OF):
        page.run("document.body.dataset.found = ''; at('find').value = arguments[0]; search()", text)
        page.wait("document.body.dataset.found !== ''")
        searched.append((int(page.run("return at('found').textContent").split(" found in ")[1].split()[0]), text))
    best = [min(took for took, it in searched if it == text) for text in ("symbol_9", "9_xx", "qq")]
    note(f"page: searched within {SEARCH} ms", max(best) * 480000 / ROWS <= SEARCH, searched)
    page.run("document.body.dataset.found = ''; at('find').value = ''; search()")
    page.wait("document.body.dataset.found !== ''")
    scrolled = [page.browser.execute_async_script(SCROLLING, ROWS) for _ in range(TRIES_OF)]
    taken = min(it[0] for it in scrolled)
    note(f"page: rows scroll within {SCROLL} ms", taken <= SCROLL, scrolled)
    note("page: the last row is in sight at the end", all(last == ROWS and 0 <= below < 4 for _, last, below in scrolled), scrolled)
    print(f"the page: {LARGE} ready in {ready:.1f} s, {ROWS} symbols searched in {best} ms, a picture in {taken:.0f} ms while it scrolls")


def listed(file, *words):
    return windows.run([f"{TOP}/crates/pdb_list/out/pdb_list", file, *words], text=True, errors="replace").stdout.splitlines()


def fails(file, *words):
    """Whether a list of `pdb_list` ends with an error; that a file has no global symbols is none."""
    last = listed(file, *words)[-1:]
    return bool(last) and last[0].startswith("error ") and last[0] != "error 8"


def with_a_short_contribution(folder, name):
    """The name of a file whose last contribution lacks a byte: in the header of its DBI stream the list is a byte shorter, and
    the part behind it a byte longer."""
    with open(f"{folder}/{name}", "rb") as it:
        data = bytearray(it.read())
    at = data.index(struct.pack("<iI", -1, 19990903)) + 28
    sizes = struct.unpack_from("<2I", data, at)
    struct.pack_into("<2I", data, at, sizes[0] - 1, sizes[1] + 1)
    with open(f"{folder}/short-contribution.pdb", "wb") as it:
        it.write(data)
    return "short-contribution.pdb"


def of_damage(note, page, folder, names):
    """Each tab says what of the file can't be read that it depends on."""
    seen = set()
    for name in names:
        file = f"{folder}/{name}"
        if page.feed(file) != "ready":
            continue
        # The last line of `info` is of the DBI stream.
        modules = fails(file, "info") or fails(file, "modules")
        count = sum(it.startswith("module ") for it in listed(file, "modules"))
        symbols = fails(file, "globals") or any(fails(file, "symbols", str(k)) for k in range(count))
        wanted = {"map": modules or fails(file, "contributions"), "symbols": modules or symbols}
        shown = {it: page.run("return !at(arguments[0]).hidden && at(arguments[0]).textContent.includes('damaged')", f"{it}Damage") for it in wanted}
        note(f"page: damage of {name}", shown == wanted, [shown, wanted])
        seen |= {it for it, damaged in wanted.items() if damaged}
    note("page: files whose parts are damaged", seen == {"map", "symbols"}, seen)


def missing():
    """The programs that aren't installed and that drive a browser; empty where all are."""
    sys.path.append("/usr/lib/python3/dist-packages")
    found = [it for it in ("chromium", "chromedriver") if not shutil.which(it)]
    return " and ".join(found) or ("" if importlib.util.find_spec("selenium") else "selenium")


def tests(note, skip, folder, whole, damaged):
    """All of them, over files and some damaged ones."""
    if missing():
        skip(f"the page, since {missing()} isn't installed")
        return
    page = Page(1280)
    try:
        of_files(note, page, folder, whole, damaged[::4])
        of_traces(note, page, f"{folder}/{whole[0]}")
        of_parts(note, page)
        of_damage(note, page, folder, [with_a_short_contribution(folder, whole[0]), *damaged[::4]])
        reach.tests(note, page, f"{folder}/{whole[0]}")
        attacks.by_names(note, page, folder, whole[0])
        of_large(note, page, folder)
        errors = [it["message"] for it in page.browser.get_log("browser") if it["level"] == "SEVERE"]
        note("page: errors on the console", not errors, errors)
        attacks.by_scripts(note, page, PAGE, folder)
    finally:
        page.browser.quit()
    page = Page(400)
    try:
        page.browser.find_element("id", "sample").click()
        page.wait("document.body.dataset.state === 'ready'")
        for tab in ("summary", "addresses", "symbols", "modules", "map"):
            page.run(f"choose(at('tab-{tab}'))")
            note(f"page: {tab} within 400 pixels", page.run("return document.documentElement.scrollWidth <= innerWidth"))
    finally:
        page.browser.quit()
