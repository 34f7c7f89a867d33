#!/usr/bin/env python3
"""Builds the release, and uses it as a stranger would: test_release.py [--twice]

The archive is built from a commit of a copy, and unpacked into an empty folder. There its README's lines run as they
stand, in an environment where nothing is set and Rattle's command is not to be found: each language's first program, by
pkg-config and by CMake, shared and static, and the programs. Then once more where the folder was moved. The lines of the page
for C run there too. The sums and the manual pages are looked at, that each page names only what is in the archive, and that
none speaks of Rattle's command; nor does a crate that finds no library. No archive is built with a gate's output that is of
another commit or toolchain, or tells of a failure. Where Cargo does not get the crate that the language server takes, the
archive is built without the server. With --twice the archive is built in two folders, and has to have the same bytes. The last
line printed is 'N passed, M failed', with what is left out.
"""
import json
import os
import pathlib
import re
import shutil
import subprocess
import sys
import tempfile

from debian_crates import source_flags
from man_pages import PAGES, pages
from packed_pages import astray
from page_lines import blocks, environment, try_lines
from proved import hand_on
from tally import Tally, least
from tried import tried

ROOT = pathlib.Path(__file__).resolve().parents[2]

LEFT_OUT = shutil.ignore_patterns(".git", "out", "target", "dist", "__pycache__", "Cargo.lock")
# what stands in for the gate's last line; a release has the real one
GATE_LINE = "1 passed, 0 failed"
COMMIT = ["-c", "user.name=test", "-c", "user.email=test", "commit", "-q", "-m", "A copy"]
WHEN = {"GIT_AUTHOR_DATE": "2026-01-01T00:00:00Z", "GIT_COMMITTER_DATE": "2026-01-01T00:00:00Z"}
# what pages name that is no file of the archive: requests of a language server, an entry of a package, and what Cargo makes
NO_FILES = {"pauskern/text", "textDocument/diagnostic", "str_indices/inline", "target/release/language_server"}
# what stands in the repository in the place of what a release says
UNFILLED = re.compile(rb"@VERSION@|workspace = true|not released yet")
# Rattle's command, but for a name that ends as it does
COMMAND = re.compile(r"(?<![\w./-])rt(?![\w:(])")

tally = Tally()


def has_crates_of_server():
    """Whether Cargo gets what the language server takes from elsewhere."""
    with tempfile.TemporaryDirectory() as folder:
        folder = pathlib.Path(folder)
        for name in ["bindings", "examples/language_server"]:
            shutil.copytree(ROOT / name, folder / name, ignore=LEFT_OUT)
        shutil.copy(ROOT / "Cargo.toml", folder)
        command = ["cargo", "fetch", *source_flags()]
        return subprocess.run(command, cwd=folder / "examples/language_server", capture_output=True).returncode == 0


def try_outputs(top, gate_output, of):
    """Outputs of the gate for another commit, another toolchain, a copy with changes or a failure are refused."""
    commit = re.search(r"commit (\w+),", of)[1]
    others = {"another commit": of.replace(commit, commit[::-1]), "changes": of.replace("clean", "with changes"),
              "another toolchain": f"{of}0", "none": "", "two commits": f"{of}; and at the end {of}0"}
    outputs = {what: f"{other}\n{GATE_LINE}\n" for what, other in others.items()}
    outputs["a failure"] = f"{of}\n1 passed, 1 failed\n"
    taken = []
    for what, output in outputs.items():
        gate_output.write_text(output, encoding="utf-8")
        done = subprocess.run([top / "scripts/release", gate_output], capture_output=True, text=True)
        if done.returncode != 1 or not done.stderr.startswith("release: ") or str(gate_output) not in done.stderr:
            taken.append(f"{what}: {done.stderr}")
    tally.result(not taken, f"scripts/release takes none of {len(outputs)} outputs of other runs {' '.join(taken)}")


def build(folder, flags):
    """The archive, from a commit of a copy in the folder; None where that fails."""
    top = folder / "pauskern"
    shutil.copytree(ROOT, top, ignore=LEFT_OUT)
    for words in [["init", "-q", "."], ["add", "-A"], COMMIT]:
        subprocess.run(["git", *words], cwd=top, env=dict(os.environ, **WHEN), check=True)
    (top / ".git/info/exclude").write_text("out/\n", encoding="utf-8")
    hand_on(ROOT, top)
    of = tried(top)
    try_outputs(top, folder / "gate.txt", of)
    (folder / "gate.txt").write_text(f"{of}\n{GATE_LINE}\n", encoding="utf-8")
    done = subprocess.run([top / "scripts/release", *flags, folder / "gate.txt"], stdout=subprocess.PIPE, text=True)
    if not tally.result(done.returncode == 0, "scripts/release"):
        return None
    return pathlib.Path(done.stdout.splitlines()[-1])


def path_without_rattle():
    """The path, without the folders in which Rattle's command is."""
    return os.pathsep.join(folder for folder in os.environ["PATH"].split(os.pathsep) if not shutil.which("rt", path=folder))


def try_server(top, path):
    """The language server answers a client that says hello."""
    told = {"jsonrpc": "2.0", "id": 1, "method": "initialize", "params": {"capabilities": {}}}
    body = json.dumps(told).encode()
    done = subprocess.run([top / "bin/language_server"], input=b"Content-Length: %d\r\n\r\n%s" % (len(body), body),
                          env={"PATH": path}, capture_output=True)
    tally.result(b'"capabilities"' in done.stdout, f"the language server answers: {done.stdout[:80]!r}")


def try_contents(top):
    """The sums, the links of the page for a browser, and that one version is said everywhere."""
    summed = subprocess.run(["sha256sum", "--check", "--quiet", "SHA256SUMS"], cwd=top, capture_output=True, text=True)
    listed = {line.split("  ")[1] for line in (top / "SHA256SUMS").read_text(encoding="utf-8").splitlines()}
    files = {str(path.relative_to(top)) for path in top.rglob("*") if path.is_file() and not path.is_symlink()}
    right = summed.returncode == 0 and files - listed == {"SHA256SUMS"}
    tally.result(right, f"the sums of {len(listed)} files are right {summed.stdout}")
    unfilled = [name for name in sorted(files) if UNFILLED.search((top / name).read_bytes())]
    tally.result(not unfilled, f"each file has its version, which is released {' '.join(unfilled)}")
    links = re.findall('<a href="([^"]+)"', (top / "web/index.html").read_text(encoding="utf-8"))
    tally.result(bool(links) and all((top / "web" / link).is_file() for link in links), f"{len(links)} links of the page")


def try_man_pages(top):
    """There is a page of each library, function and program, and groff takes all of them."""
    version = (top / "VERSION").read_text(encoding="utf-8").strip()
    found = sorted((top / "share/man").rglob("*.[13]"))
    wanted = {"idx.1", *(name for library in PAGES for name in pages(library, version))}
    others = " ".join(sorted(wanted ^ {page.name for page in found}))
    tally.result(not others, f"{len(found)} manual pages, and no other and none missing {others}")
    if not shutil.which("groff"):
        tally.leave_out(1, "warnings about manual pages, as groff is not on the path")
        return
    command = ["groff", "-I", top / "share/man", "-man", "-Tutf8", "-ww"]
    warned = [subprocess.run([*command, page], capture_output=True).stderr for page in found]
    tally.result(not any(warned), f"groff has no warning about them {b''.join(warned).decode()}")


def try_pages(top, folder):
    """Each page names only what is in the archive, and none speaks of Rattle's command; and what is searched for is found."""
    found = sorted(top.rglob("*.md"))
    for page in found:
        wrong = [path for path in astray(top, page) if path not in NO_FILES]
        tally.result(not wrong, f"{page.relative_to(top)} names only what is there {' '.join(wrong)}")
    # PROVENANCE.md says by what the archive was built, whatever that calls itself
    told = [page for page in found if page.name != "PROVENANCE.md"]
    texts = [*told, *(top / "share/man").rglob("*.[13]"), *(top / "include").iterdir(), top / "web/index.html"]
    speaking = [path.name for path in texts if COMMAND.search(path.read_text(encoding="utf-8"))]
    tally.result(not speaking, f"of {len(texts)} pages none speaks of Rattle's command {' '.join(speaking)}")
    page = folder / "page.md"
    gone = "[gone](gone.md), [no](#no), `gone/a.c`, `gone.h`"
    page.write_text(f"{gone}, `str_rope.h`, `docs/C.md`; `rt check`, laws.rt\n", encoding="utf-8")
    right = astray(top, page) == ["gone.md", "#no", "gone/a.c", "gone.h"]
    tally.result(right and len(COMMAND.findall(page.read_text(encoding="utf-8"))) == 1, "the searches find what is missing")


def try_message(top, folder, path):
    """A crate without its library says what is missing, and nothing of Rattle's command."""
    shutil.copytree(top / "bindings", folder / "bindings")
    done = subprocess.run(["cargo", "build", "--offline"], cwd=folder / "bindings/index", env=environment(folder, path),
                          capture_output=True, text=True)
    right = done.returncode != 0 and "STR_INDICES_LIB_DIR" in done.stderr and not COMMAND.search(done.stderr)
    tally.result(right, "a crate without its library says what is missing", done.stderr)


def try_c_page(top, folder, path):
    """The lines of the page for C, where the folder that it installs into leads to that top."""
    (folder / "home").mkdir(parents=True)
    (folder / "home/pauskern-c").symlink_to(top)
    try_lines(tally, "docs/C.md", blocks(top / "docs/C.md"), top, folder, path)


def try_moved(top, folder, path):
    """All of the README's lines, at that top."""
    folder.mkdir()
    try_lines(tally, top.name, blocks(top / "README.md"), top, folder, path)


def use(archive, folder, has_server):
    """The archive, unpacked into the folder, and the folder moved."""
    path = path_without_rattle()
    tally.result(shutil.which("rt", path=path) is None, "Rattle's command is not to be found")
    command = ["tar", "-xzf", archive]
    subprocess.run(command, cwd=folder, env=environment(folder, path), check=True)
    top = folder / archive.name.removesuffix(".tar.gz")
    try_contents(top)
    try_man_pages(top)
    try_pages(top, folder)
    try_message(top, folder / "without", path)
    shutil.copytree(top, folder / "moved", symlinks=True)
    try_moved(top, folder / "first", path)
    if has_server:
        try_server(top, path)
    else:
        missing = "Cargo does not get the crate serde_json (Debian's package librust-serde-json-dev)"
        tally.leave_out(1, f"the language server, as {missing}")
    try_c_page(top, folder / "page", path)
    shutil.rmtree(top)
    try_moved(folder / "moved", folder / "second", path)


def main():
    if not shutil.which("cmake"):
        tally.leave_out(least("test_release.py"), "cmake is not on the path")
        return tally.end()
    with tempfile.TemporaryDirectory() as folder:
        folder = pathlib.Path(folder)
        for name in ["one", "another", "empty"]:
            (folder / name).mkdir()
        has_server = has_crates_of_server()
        flags = [] if has_server else ["--without-server"]
        archive = build(folder / "one", flags)
        if archive and "--twice" in sys.argv:
            other = build(folder / "another", flags)
            same = other is not None and other.read_bytes() == archive.read_bytes()
            tally.result(same, "two builds in two folders give the same bytes")
        if archive:
            use(archive, folder / "empty", has_server)
    return tally.end()


if __name__ == "__main__":
    sys.exit(main())
