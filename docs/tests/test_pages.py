#!/usr/bin/env python3
"""Runs what the README and the pages for C, C++ and Rust print, as it stands there, in a clone with nothing set or built.

An entry for Cargo goes into a project beside the clone, with the page's program or statements where it has some. What the
README quotes of Rattle is compared elsewhere, and its program in JavaScript is run where the page for the web has it. The last
line printed is 'N passed, M failed', with what is left out.
"""
import os
import pathlib
import shutil
import subprocess
import sys
import tempfile

from page_lines import blocks, environment, try_lines
from proved import hand_on
from report_span import check_reports
from tally import Tally, least

ROOT = pathlib.Path(__file__).resolve().parents[2]

LEFT_OUT = shutil.ignore_patterns(".git", "out", "target", "__pycache__", "Cargo.lock", "refusals")
# each page, and the folder in which its lines run
PAGES = {
    "README.md": ".", "bindings/c/README.md": ".",
    **{f"bindings/{name}/README.md": f"bindings/{name}" for name in ("rust", "positions", "rope", "index")},
}
LANGUAGES = {"sh", "c", "cpp", "toml", "rust", "js", "text"}
# the page whose program in JavaScript test_browser.py runs
WEB_PAGE = "bindings/web/README.md"
# the project that an entry goes into; one that replaces the original is for a project that has that
PROJECT = '[package]\nname = "project"\nversion = "0.1.0"\nedition = "2021"\n\n'
EMPTY = "fn main() {}\n"
# what the program of a page prints, where it asks for nothing; that of the index has rows of its own
PRINTED = {"bindings/rope/README.md": "one\nand 🐸 two\n"}
REPORTS = "bindings/index/README.md"

tally = Tally()


def clone(folder):
    """The repository as it is fetched, with nothing built, but with what was proved of its crates."""
    shutil.copytree(ROOT, folder, ignore=LEFT_OUT)
    hand_on(ROOT, folder)
    subprocess.run(["git", "init", "-q", "."], cwd=folder, check=True)
    return folder


def program_of(found):
    """The program among the blocks of a page in Rust, or one of its statements, which are no Rattle; else an empty one."""
    rust = [text for language, text in found if language == "rust"]
    statements = "".join(text for text in rust if "fn " not in text)
    [program] = [text for text in rust if "fn main" in text] or [f"fn main() {{\n{statements}}}\n" if statements else EMPTY]
    return program


def try_entry(page, found, folder):
    """The entry that a page has for a project, in one beside the clone."""
    if not shutil.which("cargo"):
        tally.leave_out(1, f"{page}: its entry, as cargo is not on the path")
        return
    [entry] = [text for language, text in found if language == "toml"]
    program = program_of(found)
    project = folder / page.replace("/", "_")
    (project / "src").mkdir(parents=True)
    (project / "Cargo.toml").write_text(PROJECT + entry, encoding="utf-8")
    (project / "src/main.rs").write_text(program, encoding="utf-8")
    command, run = ["cargo", "run", "--quiet", "--offline"], environment(folder, os.environ["PATH"])
    line = f"{page}: its entry in a project{', with its program' if program != EMPTY else ''}"
    if page == REPORTS:
        check_reports(tally, [*command, "--"], f"by {line}", cwd=project, env=run)
        return
    done = subprocess.run(command, cwd=project, env=run, capture_output=True, text=True)
    if not tally.result(done.returncode == 0 and done.stdout == PRINTED.get(page, ""), line):
        print(done.returncode, done.stdout, done.stderr)


def try_page(page, top, folder, place):
    """All that a page prints; the place is an empty folder."""
    found = blocks(top / page)
    others = {language for language, _ in found} - LANGUAGES
    fences = (top / page).read_text(encoding="utf-8").count("```")
    right = not others and fences == 2 * len(found)
    tally.result(right, f"{page}: {fences} fences of {len(found)} blocks, all of known languages {' '.join(others)}")
    scripts = {block for block in found if block[0] == "js"}
    if scripts:
        tally.result(scripts <= set(blocks(top / WEB_PAGE)), f"{page}: its program in JavaScript is that of {WEB_PAGE}")
    try_lines(tally, page, found, top / PAGES[page], place, os.environ["PATH"])
    if any(language == "toml" for language, _ in found):
        try_entry(page, found, folder)


def main():
    if not shutil.which("cmake"):
        tally.leave_out(least("test_pages.py"), "cmake is not on the path")
        return tally.end()
    with tempfile.TemporaryDirectory() as folder:
        folder = pathlib.Path(folder)
        top = clone(folder / "pauskern")
        for number, page in enumerate(PAGES):
            place = folder / str(number)
            place.mkdir()
            try_page(page, top, folder, place)
    return tally.end()


if __name__ == "__main__":
    sys.exit(main())
