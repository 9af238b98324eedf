"""Attacks on the page: names that are markup, and scripts that try to send something. A server on this machine hears nothing."""
import http.server
import re
import threading
import time

import windows

TOOL = f"{windows.TOP}/crates/pdb_tool/out/pdb_tool"
# Names of the file, and markup of the same size, which would load something or be shown in bold.
MARKUP = {b"/tour/main.cpp": b"<img src=/x.p>", b"clamp": b"<b>xx"}
# What scripts can't do, by the page's policy: each is tried in a worker and in the page.
TRIES = """
const tried = [], attempt = async (name, work) => { try { await work(); tried.push(`${name} went`); } catch { tried.push(`${name} failed`); } };
const opened = (it) => new Promise((done, fail) => { it.onopen = it.onload = it.onmessage = done; it.onerror = fail; });
await attempt("fetch", () => fetch(`${home}/fetch`));
await attempt("post", () => fetch(`${home}/post`, { method: "POST", mode: "no-cors", body: "x" }));
await attempt("request", () => { const it = new XMLHttpRequest(), end = opened(it); it.open("GET", `${home}/request`); it.send(); return end; });
await attempt("socket", () => opened(new WebSocket(home.replace("http", "ws"))));
await attempt("events", () => opened(new EventSource(`${home}/events`)));
await attempt("module", () => import(`${home}/module`));
await attempt("eval", () => (0, eval)("1"));
await attempt("function", () => new Function("return 1")());
"""
KINDS = ("fetch", "post", "request", "socket", "events", "module", "eval", "function")
IN_WORKER = TRIES + 'await attempt("script", () => importScripts(`${home}/script`)); postMessage(tried);'
# Elements that load something, each with the attributes that name it.
ELEMENTS = """
const put = (tag, given, text = "") => { const it = document.createElement(tag); for (const [name, value] of Object.entries(given)) it.setAttribute(name, value); it.textContent = text; document.body.append(it); return it; };
new Image().src = `${home}/image`;
for (const tag of ["iframe", "script", "embed", "video", "audio", "track", "source"]) put(tag, { src: `${home}/${tag}` });
put("object", { data: `${home}/object` });
for (const rel of ["stylesheet", "prefetch", "icon", "manifest", "modulepreload"]) put("link", { rel, href: `${home}/${rel}` });
put("link", { rel: "preload", as: "fetch", href: `${home}/preload` });
put("style", {}, `@import "${home}/import"; body { background: url(${home}/background) }`);
put("div", { style: `background: url(${home}/attribute)` }, "x");
put("script", {}, `fetch("${home}/inline"); window.wentInline = true;`);
put("button", { onclick: `window.wentInline = true` }).click();
const form = put("form", { action: `${home}/form`, method: "post", target: "frame" });
put("iframe", { name: "frame" });
try { form.submit(); } catch {}
navigator.sendBeacon(`${home}/beacon`, "x");
put("base", { href: `${home}/base/` });
try { new SharedWorker(`${home}/shared`); } catch {}
try { new Worker(`${home}/worker`); } catch {}
"""
# What a server hears of all that where there is no policy.
HEARD = {"fetch", "post", "request", "module", "script", "image", "iframe", "stylesheet", "import", "background", "attribute", "inline", "form", "beacon", "object", "embed", "video", "audio", "prefetch", "preload"}


def by_names(note, page, folder, name):
    """Names of a file, and that of the file itself, which are markup: they are shown as they are."""
    with open(f"{folder}/{name}", "rb") as it:
        data = it.read()
    for old, new in MARKUP.items():
        note(f"markup for {old}", len(old) == len(new) and old in data)
        data = data.replace(old, new)
    file = f"{folder}/<img src=x>.pdb"
    with open(file, "wb") as it:
        it.write(data)
    page.feed(file)
    wanted = windows.run([TOOL, "resolve", file, "0x1108"], text=True).stdout
    note("page: frames with markup", page.resolve(["0x1108"]) == wanted and all(it.decode() in wanted for it in MARKUP.values()), wanted)
    for tab in ("summary", "addresses", "symbols", "modules", "map"):
        page.run(f"choose(at('tab-{tab}'))")
        found = page.run("return document.querySelectorAll('main img, main b').length")
        note(f"page: markup in {tab}", found == 0, found)
    page.run("document.querySelector('#table tbody button').click()")
    page.wait("!at('oneModule').hidden && document.querySelectorAll('#lines .item').length > 0")
    note("page: markup in a module", page.run("return document.querySelectorAll('main img, main b').length") == 0)


class Server:
    """A server on this machine that notes who comes."""

    def __init__(self):
        heard = self.heard = []

        class Listener(http.server.BaseHTTPRequestHandler):
            def handle(self):
                heard.append(self.rfile.readline().decode("latin-1").strip())

        self.server = http.server.ThreadingHTTPServer(("127.0.0.1", 0), Listener)
        self.home = f"http://127.0.0.1:{self.server.server_port}"
        threading.Thread(target=self.server.serve_forever, daemon=True).start()


def tried_by(page, home):
    """What scripts try in a worker, in the page, and by elements: how each of the first two kinds went."""
    code = f"const home = '{home}'; (async () => {{ {IN_WORKER} }})()"
    start = "const done = arguments[1], it = new Worker(URL.createObjectURL(new Blob([arguments[0]]))); it.onmessage = (e) => done(e.data); it.onerror = (e) => done(e.message)"
    worker = page.browser.execute_async_script(start, code)
    own = page.browser.execute_async_script(f"const home = '{home}', end = arguments[0]; (async () => {{ {TRIES} end(tried); }})()")
    page.run(f"const home = '{home}'; {ELEMENTS}")
    time.sleep(1.5)
    return worker, own, page.run("return window.wentInline === true")


def by_scripts(note, page, path, folder):
    """Nothing leaves the page: what scripts try fails, and a server hears nothing. Of the page without its policy it hears all."""
    it = Server()
    worker, own, inline = tried_by(page, it.home)
    note("page: what a worker tries", worker == [f"{kind} failed" for kind in (*KINDS, "script")], worker)
    note("page: what its scripts try", own == [f"{kind} failed" for kind in KINDS], own)
    note("page: scripts in elements", not inline)
    note("page: what a server heard", it.heard == [], it.heard)
    with open(path, encoding="utf-8") as file:
        bare = re.sub('<meta http-equiv="Content-Security-Policy"[^>]*>', "", file.read())
    with open(f"{folder}/bare.html", "w", encoding="utf-8") as file:
        file.write(bare)
    page.browser.get(f"file://{folder}/bare.html")
    *_, inline = tried_by(page, it.home)
    heard = {line.split()[1].strip("/") for line in it.heard if line}
    note("a page without a policy: what a server heard", inline and HEARD <= heard, HEARD - heard)
    it.server.shutdown()
