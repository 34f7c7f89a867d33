#!/usr/bin/env python3
"""Proves and builds the functions for a browser, and runs them and the page in Chromium and Node.

Every function on worked answers and on random texts beside the engine's own strings, served as a site serves them; the
module's types, bundles of it, and the program of its README; then the page as it is opened from the disk, driven by the
browser's own protocol: what it shows at some cursors, what goes into its field, and what those have of it who hear it, or
use a phone. Where no Chromium is on the path, it says so. With `--picture` it makes docs/page.png anew. The last line printed
is 'N passed, M failed', with what is left out.
"""
import functools
import http.server
import json
import os
import pathlib
import re
import shutil
import subprocess
import sys
import tempfile
import threading

import page_tests
from devtools import Browser
from page_lines import blocks
from tally import Tally
from web_package import BUNDLERS, OF_BUNDLER, try_bundles, try_types

ROOT = pathlib.Path(__file__).resolve().parents[3]

NAMES = ["chromium", "chromium-browser", "google-chrome"]
# how many results there are of what Node and of what a Chromium is asked
IN_NODE = 11 + OF_BUNDLER * len(BUNDLERS)
IN_BROWSER = 106
# no time is judged: an engine that hangs ends the script, also on a slow machine
SECONDS = 600
PICTURE_WIDTH = 1280

COMPARE = 'import("./compare.mjs").then((module) => module.compareAll()).then(JSON.stringify)'
EXCHANGE = 'import("./exchanges.mjs").then((module) => module.tryExchanges()).then(JSON.stringify)'
# where a program says in a comment what it prints
PRINTED = re.compile(r"^console\.log\(.*\); +// (.*)$", re.MULTILINE)
# 64-bit memory is there without a flag in a Node of this version, or this flag asks for it
FLAG = "--experimental-wasm-memory64"

tally = Tally()


class Site(http.server.SimpleHTTPRequestHandler):
    """Serves a folder to a page that may share memory."""

    extensions_map = {**http.server.SimpleHTTPRequestHandler.extensions_map, ".mjs": "text/javascript"}

    def end_headers(self):
        self.send_header("Cross-Origin-Opener-Policy", "same-origin")
        self.send_header("Cross-Origin-Embedder-Policy", "require-corp")
        super().end_headers()

    def log_message(self, *_):
        pass


def serve(folder):
    """A server of the folder; answers it, and its address."""
    server = http.server.ThreadingHTTPServer(("127.0.0.1", 0), functools.partial(Site, directory=folder))
    threading.Thread(target=server.serve_forever, daemon=True).start()
    return server, f"http://127.0.0.1:{server.server_address[1]}"


def fill(folder, built):
    """What a site has, with the page's modules and the comparison beside it."""
    sources = ROOT / "bindings/web"
    built_files = [built / name for name in ("str_indices_web.wasm", "package.json")]
    for path in [*built_files, *sources.glob("*.mjs"), *sources.glob("tests/*.mjs")]:
        shutil.copy(path, folder)
    (folder / "site.html").write_text("<!doctype html><title>A site</title>")


def judge(where, printed):
    """Counts what the comparison found."""
    found = json.loads(printed)
    for line in found["told"]:
        print(line)
    passed = 0 if found["failed"] else found["passed"]
    tally.enough("compare.mjs", passed, f"every function {where}, {found['failed']} failed")


def compare_in_browser(browser, address):
    page = browser.open(f"{address}/site.html")
    judge("in the browser", page.value(COMPARE))
    tally.result(page.value("crossOriginIsolated"), "the site shares memory")


def node_answer(folder, script, *flags):
    command = ["node", *flags, "--input-type=module", "-e", script]
    return subprocess.run(command, cwd=folder, capture_output=True, text=True, timeout=SECONDS)


def try_exchanges(folder, flags):
    """Each two functions of the module that are asked alike, exchanged: the worked answers must see it."""
    done = node_answer(folder, f"console.log(await {EXCHANGE})", *flags)
    found = json.loads(done.stdout) if done.returncode == 0 else {"right": False, "tried": 0, "unseen": [done.stderr[-200:]]}
    seen = found["tried"] if found["right"] and not found["unseen"] else 0
    told = "".join(f"; not {one}" for one in found["unseen"])
    tally.enough("exchanges of the module", seen, f"each of {found['tried']} exchanges of the module is seen{told}")


def try_program(built, flags):
    """The program of the README, as it stands there, beside what was built."""
    [program] = [text for language, text in blocks(ROOT / "bindings/web/README.md") if language == "js"]
    done = node_answer(built, program, *flags)
    told = f"the program of the README prints {done.stdout.splitlines()} {done.stderr[-200:]}"
    tally.result(done.stdout.splitlines() == PRINTED.findall(program) != [], told)


def compare_in_node(folder, built):
    """The module as a package of Node's, and what it says where 64-bit memory is behind a flag."""
    shutil.copytree(folder, folder / "project/node_modules/str_indices", ignore=shutil.ignore_patterns("project"))
    use = (
        'import { load, isSupported } from "str_indices";'
        "try { const { positionOf } = await load();"
        ' console.log(isSupported(), positionOf("one\\r\\ntwo", "crlf", "utf16", 6).line);'
        "} catch (error) { console.log(isSupported(), error.message); }"
    )
    without = node_answer(folder / "project", use).stdout
    said = "true 1" in without or ("false" in without and FLAG in without)
    tally.result(said, f"Node without a flag: {without.strip()}")
    flags = [] if without.startswith("true") else [FLAG]
    done = node_answer(folder / "project", use, *flags)
    tally.result(done.stdout == "true 1\n", f"a package of Node's: {done.stdout.strip()}{done.stderr[-200:]}")
    try_flags(folder / "project")
    try_bundles(tally, built, folder / "project", ["node", *flags])
    try_program(built, flags)
    done = node_answer(folder, f"console.log(await {COMPARE})", *flags)
    if tally.result(done.returncode == 0, "the comparison runs in Node"):
        judge("in Node", done.stdout)
    try_exchanges(folder, flags)
    check_types(folder, flags)
    by_path = 'import { load } from "str_indices"; try { await load("/nowhere/a.wasm"); } catch (e) { console.log(e.message); }'
    done = node_answer(folder / "project", by_path, *flags)
    tally.result("/nowhere/a.wasm cannot be read" in done.stdout, f"a file that is missing: {done.stdout.strip()}")


# the package by require, and the call by which a program sets the flag for itself and its workers
USE = 'require("str_indices").load().then(({ chars }) => console.log(chars.count("é")));'
SET = f'require("node:v8").setFlagsFromString("{FLAG}");'


def try_flags(folder):
    """The package by require, where a program sets the flag, a worker, or a file that NODE_OPTIONS names."""
    (folder / "flag.cjs").write_text(SET)
    worker = f"new (require('node:worker_threads').Worker)({json.dumps(SET + USE)}, {{ eval: true }});"
    programs = {"a program": (SET + USE, ""), "a worker": (worker, ""), "a file": (USE, "--require ./flag.cjs")}
    for where, (program, options) in programs.items():
        done = subprocess.run(["node", "-e", program], cwd=folder, env=dict(os.environ, NODE_OPTIONS=options),
                              capture_output=True, text=True, timeout=SECONDS)
        # a Node that has no require for modules says so
        right = done.stdout == "1\n" or "ERR_REQUIRE_ESM" in done.stderr
        tally.result(right, f"{where} sets the flag: {done.stdout.strip()}{done.stderr[-200:]}")


# the functions of the module, and the objects that they are in
NAMES_OF = (
    'import { load } from "./str_indices.mjs"; const { text, ...functions } = await load();'
    " const names = (all) => Object.keys(all).flatMap((name) => [name, ...names(all[name])]);"
    " console.log(JSON.stringify(names(functions)));"
)


def check_types(folder, flags):
    """The types name what the module has."""
    types = (ROOT / "bindings/web/str_indices.d.mts").read_text()
    done = node_answer(folder, NAMES_OF, *flags)
    names = set(json.loads(done.stdout)) if done.returncode == 0 else set()
    missing = sorted(name for name in names if f"readonly {name}:" not in types)
    told = f"the types name the module's functions; missing: {missing} {done.stderr[-200:]}"
    tally.result(len(names) >= 18 and not missing, told)


def take_picture(browser, page_file, file):
    """A picture of the page, in the file."""
    page = page_tests.opened(browser, page_file.as_uri(), PICTURE_WIDTH)
    page.value("document.activeElement.blur()")
    page.settle()
    page.picture(file, PICTURE_WIDTH)
    header = file.read_bytes()[:24]
    size = [int.from_bytes(header[16:20], "big"), int.from_bytes(header[20:24], "big")]
    tally.result(size[0] == PICTURE_WIDTH and size[1] > 400, f"a picture of the page, {size[0]} by {size[1]}")


def try_in_browser(program, built, anew):
    with tempfile.TemporaryDirectory() as folder, Browser(program) as browser:
        folder = pathlib.Path(folder)
        fill(folder, built)
        server, address = serve(folder)
        compare_in_browser(browser, address)
        server.shutdown()
        page_tests.try_all(browser, built / "index.html", tally, folder)
        take_picture(browser, built / "index.html", (ROOT / "docs" if anew else folder) / "page.png")


def try_in_node(built):
    # what the tests of the page's modules ask of a string is there from version 20 on
    if not shutil.which("node") or subprocess.run(["node", "-e", "process.exit(''.toWellFormed ? 0 : 1)"]).returncode != 0:
        tally.leave_out(IN_NODE, "no node from version 20 on is on the path (package nodejs, from Debian 13 on)")
        return
    with tempfile.TemporaryDirectory() as folder:
        fill(pathlib.Path(folder), built)
        compare_in_node(pathlib.Path(folder), built)


def main():
    browser = next(filter(None, map(shutil.which, NAMES)), None)
    done = subprocess.run([ROOT / "bindings/web/build"], stdout=subprocess.PIPE, text=True)
    right = tally.result(done.returncode == 0, "bindings/web/build, which proves the exports")
    if browser is None:
        tally.leave_out(IN_BROWSER, "no Chromium is on the path (Debian's package chromium)")
    if right:
        built = pathlib.Path(done.stdout.splitlines()[-1])
        try_types(tally, built)
        try_in_node(built)
        if browser:
            try_in_browser(browser, built, "--picture" in sys.argv)
    return tally.end()


if __name__ == "__main__":
    sys.exit(main())
