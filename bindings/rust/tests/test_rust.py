#!/usr/bin/env python3
"""Builds and runs what Rust has of the library, as a user would.

The tests and the doc examples of bindings/rust, by each half of the library, and once over the library without its wide
half, and the message where a library is missing; outside the repository, over installed libraries which pkg-config
finds; those of bindings/positions, of bindings/rope, of bindings/index, of bindings/original and of the benchmark; each
function of str_indices exchanged for each other one of its shape, which a worked answer must see; the example of a project
that uses bindings/rust; the programs to start from of bindings/rope and bindings/index; a program without std; and the
benchmarks, the functions, checks of UTF-8 and each buffer that people know beside a B-tree, once over small texts, whose
times nobody looks at. The original is compared where the environment variable
STR_INDICES_ORIGINAL names its folder. Where cargo is not on the path nothing is tried. The last line printed is 'N passed, M
failed', with what is left out.
"""
import json
import os
import pathlib
import re
import shutil
import subprocess
import sys
import tempfile

from c_exports import build, declared, pairs
from exchanges import exchanging_library, try_exchanges
from halves import ASKED, halves, missing
from line_and_column import check_example
from tally import Tally, least

ROOT = pathlib.Path(__file__).resolve().parents[3]

BINDINGS = ROOT / "bindings/rust"
POSITIONS = ROOT / "bindings/positions"
EXAMPLE = ROOT / "examples/rust"
NO_STD = BINDINGS / "tests/no_std"
ROPE = ROOT / "bindings/rope"
INDEX = ROOT / "bindings/index"

# each folder with tests of its own, beside that of the library's functions, which has them by each half
OTHERS = ["bindings/positions", "bindings/rope", "bindings/index", "bindings/original", "bench"]

# a text, and what the program diagnostics prints of a file with it, worked by hand; NAME stands for the file
CHECKED = "f(a[0);\n\tx  \r\n\n🐸]"
DIAGNOSTICS = """\
NAME:1:4: no `]` closes this bracket
1 | f(a[0);
  |    ^
NAME:2:3: white space at the end of the line
2 |     x\u0020\u0020
  |      ^^
NAME:4:2: `]` closes nothing
4 | 🐸]
  |  ^
"""

# a stand-in of build_library, which lists its calls, and makes a library with nothing in it where there is none
LISTING = """#!/bin/sh
cd "$(dirname "$0")/../.." && mkdir -p out && echo "$1" >> calls && { test -f "out/lib$1.a" || ar rcs "out/lib$1.a"; }
"""

TEST_RESULT = re.compile(r"^test result: \w+\. (\d+) passed; (\d+) failed", re.MULTILINE)
COMPARED = re.compile(r"^random texts: .* (\d+) answers, none differs.*", re.MULTILINE)
BYTES_COMPARED = re.compile(r"^random bytes: (\d+) inputs, .* none differs.*", re.MULTILINE)
NOT_COMPARED = "STR_INDICES_ORIGINAL names no folder"
NO_PACKAGE = re.compile(r"\w+ needs Debian's package .*")

tally = Tally()


def cargo(folder, *words, **options):
    return subprocess.run(["cargo", *words, "--offline"], cwd=folder, capture_output=True, text=True, **options)


def enough_tests(name, done, how=""):
    """Whether as many tests and doc examples passed as the folder of that name should have, and none failed."""
    passed = sum(int(right) for right, wrong in TEST_RESULT.findall(done.stdout)) if done.returncode == 0 else 0
    tally.enough(f"tests of {name}", passed, f"{name}{how}, tests and doc examples", done.stdout + done.stderr)


def compare_with_original(output):
    """The comparison with the original on random texts, which is left out where that is not at hand."""
    if NOT_COMPARED in output:
        tally.leave_out(1, f"the comparison with the original, as {NOT_COMPARED}")
        return
    compared = COMPARED.search(output)
    tally.enough("answers of random_texts.rs", int(compared[1]) if compared else 0, "answers compared with the original's")


def compare_with_rust(output):
    """The comparison of what is UTF-8 with Rust's own library on random bytes."""
    compared = BYTES_COMPARED.search(output)
    tally.enough("inputs of random_bytes.rs", int(compared[1]) if compared else 0, "inputs, UTF-8 or not as for Rust's library")


def test_bindings(environment, texts):
    """The tests, where the wide half is to answer for those texts."""
    done = cargo(BINDINGS, "test", env=environment)
    enough_tests("bindings/rust", done, f" where the wide half answers for {texts}")
    told = f"random texts: the wide half answers for {texts}" in done.stdout
    tally.result(told, f"the wide half answers for {texts}")
    compare_with_original(done.stdout)
    compare_with_rust(done.stdout)


def test_without_the_wide_half():
    library = build(tally, "str_indices", "--narrow")
    if library:
        test_bindings(dict(os.environ, STR_INDICES_LIB_DIR=str(library.parent)), "no text")


def test_others():
    for name in OTHERS:
        enough_tests(name, cargo(ROOT / name, "test", "--all-features"))


def install(library, prefix):
    """A library below the prefix, with a file for pkg-config, as CMake installs them."""
    name = library.stem.removeprefix("lib")
    (prefix / "lib/pkgconfig").mkdir(parents=True, exist_ok=True)
    shutil.copy(library, prefix / "lib")
    told = f"libdir=${{pcfiledir}}/..\nName: {name}\nDescription: proved\nVersion: 0.4.4\nLibs: -l{name}\n"
    (prefix / f"lib/pkgconfig/{name}.pc").write_text(told, encoding="utf-8")


def test_outside(libraries, folder):
    """The workspace in a folder where there is nothing else of the repository, over the installed libraries."""
    if not shutil.which("pkg-config"):
        tally.leave_out(3, "the crates over installed libraries, as pkg-config is not on the path")
        return
    for name in ["bindings", "bench"]:
        shutil.copytree(ROOT / name, folder / name)
    shutil.copy(ROOT / "Cargo.toml", folder)
    for library in libraries:
        install(library, folder / "a prefix")
    named = dict(os.environ, PKG_CONFIG_PATH=str(folder / "a prefix/lib/pkgconfig"), CARGO_TARGET_DIR=str(folder / "target"))
    for name in OTHERS[:3]:
        enough_tests(name, cargo(folder / name, "test", env=named), " outside the repository, by pkg-config")


def test_program(folder, name, environment):
    """The program that cargo makes of a file of tests; None where it makes none."""
    done = cargo(folder, "test", "--no-run", "--test", name, "--message-format", "json", env=environment)
    made = [json.loads(line).get("executable") for line in done.stdout.splitlines() if line.startswith("{")]
    programs = [program for program in made if program and pathlib.Path(program).name.startswith(f"{name}-")]
    tally.result(bool(programs), f"the program of tests {name}, over a library that exchanges", done.stdout + done.stderr)
    return programs[-1] if programs else None


def test_exchanges(library, folder):
    """Each function that the crates take exchanged for each other one of its shape."""
    copy = exchanging_library(library, folder)
    named = dict(os.environ, STR_INDICES_LIB_DIR=str(copy.parent))
    sources = "".join(path.read_text(encoding="utf-8") for path in sorted(ROOT.glob("bindings/*/src/*.rs")))
    taken = {name for name in declared() if re.search(rf"\bfn {name}\(", sources)}
    untaken = [name for name in declared() if name not in taken]
    missed = [name for name in untaken if not re.search("_(is_utf8|valid_up_to|is_wide|version)$", name)]
    tally.result(not missed, f"the crates take each function{''.join(f', but not {name}' for name in missed)}")
    programs = [test_program(BINDINGS, "worked_answers", named), test_program(POSITIONS, "positions", named)]
    if all(programs):
        of_both = [(one, other) for one, other in pairs() if {one.name, other.name} <= taken]
        try_exchanges(tally, programs, of_both, "", "the Cargo crates", "exchanges of the Cargo crates")


def test_missing_library(crate, folder, missed):
    """What a crate says where the environment variable names a folder without its library."""
    named = dict(os.environ, STR_INDICES_LIB_DIR=str(folder))
    done = cargo(crate, "build", env=named)
    said = f"STR_INDICES_LIB_DIR names {folder}, which has no {missed}" in done.stderr
    tally.result(done.returncode != 0 and said, f"{crate.relative_to(ROOT)} says what is missing")


def test_other_version(library, folder):
    """What the crate says of a library that has another version behind its name."""
    version = (ROOT / "VERSION").read_text(encoding="utf-8").strip()
    named = f"str_indices {version}\0".encode()
    other = folder / "other version" / library.name
    other.parent.mkdir()
    other.write_bytes(library.read_bytes().replace(named, named[:-2] + b"?\0"))
    done = cargo(BINDINGS, "build", env=dict(os.environ, STR_INDICES_LIB_DIR=str(other.parent)))
    said = f"{other} is not of version {version}" in done.stderr
    tally.result(done.returncode != 0 and said, "bindings/rust refuses a library of another version", done.stderr)


def test_sources(folder):
    """The crate in a repository of few sources: the library is looked at again where one has changed, and only there."""
    for name in ["bindings", "bench"]:
        shutil.copytree(ROOT / name, folder / name)
    shutil.copy(ROOT / "Cargo.toml", folder)
    source = folder / "crates/byte_chunk/src/lib.rt"
    source.parent.mkdir(parents=True)
    source.write_text("one\n", encoding="utf-8")
    (folder / "bindings/c/build_library").write_text(LISTING, encoding="utf-8")
    # with the target folder of the workspace, cargo would run the build script that it compiled there
    own = dict(os.environ, CARGO_TARGET_DIR=str(folder / "target"))
    calls = []
    # the second build finds the library newer than the first
    for text in ["one\n", None, None, "two\n"]:
        if text:
            source.write_text(text, encoding="utf-8")
        done = cargo(folder / "bindings/rust", "build", env=own)
        listed = done.returncode == 0 and (folder / "calls").read_text(encoding="utf-8")
        calls.append(listed.count("str_indices\n") if listed else done.stderr)
    tally.result(calls == [1, 2, 2, 3], f"bindings/rust has its library looked at where a source has changed: {calls}")
    source.write_text("three\n", encoding="utf-8")
    path = os.pathsep.join(part for part in os.environ["PATH"].split(os.pathsep) if not shutil.which("rt", path=part))
    done = cargo(folder / "bindings/rust", "build", env=dict(own, PATH=path))
    said = "may have been built from other sources" in done.stderr and "build_library str_indices with" in done.stderr
    tally.result(done.returncode != 0 and said, "bindings/rust takes no library that it cannot have looked at", done.stderr)


def test_example(target):
    done = cargo(EXAMPLE, "build")
    if not tally.result(done.returncode == 0, "examples/rust builds"):
        print(done.stderr)
        return
    check_example(tally, target / "debug/line_and_column", "of examples/rust")


def run_program(crate, name, target, word):
    """An example of a crate, built and run with one word; where it is not built, the run of cargo."""
    built = cargo(crate, "build", "--example", name)
    if built.returncode != 0:
        return built
    return subprocess.run([target / "debug/examples" / name, word], capture_output=True, text=True)


def test_programs(target, folder):
    """The programs to start from: the editor over a small text, which compares by itself, and the checker of files."""
    done = run_program(ROPE, "editor", target, "300000")
    right = done.returncode == 0 and done.stdout.endswith("all right\n")
    tally.result(right, f"the editor of bindings/rope: {done.stdout.strip()}", done.stderr)
    checked = folder / "checked"
    checked.write_bytes(CHECKED.encode())
    done = run_program(INDEX, "diagnostics", target, checked)
    right = done.returncode == 0 and done.stdout == DIAGNOSTICS.replace("NAME", str(checked))
    tally.result(right, "the checker of bindings/index tells what is wrong", done.stdout + done.stderr)


def test_no_std(target):
    """A program without std: nothing of the compiler's library is linked, which only std asks for."""
    for profile, words in [("debug", []), ("release", ["--release"])]:
        done = cargo(NO_STD, "build", *words)
        built = done.returncode == 0
        status = subprocess.run([target / profile / "no_std"]).returncode if built else None
        tally.result(status == 0, f"a program without std, {profile}: status {status}", done.stderr)


def test_benchmark():
    done = subprocess.run([ROOT / "bench/functions", "--small", "--rounds", "1"], capture_output=True, text=True)
    if not tally.result(done.returncode == 0 and "chars::count" in done.stdout, "bench/functions, one round over small texts"):
        print(done.stdout + done.stderr)


def test_checks_of_utf8():
    done = subprocess.run([ROOT / "bench/utf8", "--small"], capture_output=True, text=True)
    if not tally.result(done.returncode == 0 and "| CJK, " in done.stdout, "bench/utf8, small texts"):
        print(done.stdout + done.stderr)


def test_buffer(way):
    """A buffer that people know has the text of a B-tree after the same changes, and its answers where both are in bytes."""
    done = subprocess.run([ROOT / "bench/rope", "--small", "btree", way], capture_output=True, text=True)
    missed = NO_PACKAGE.search(done.stderr)
    if missed:
        tally.leave_out(1, f"bench/rope, {way} beside a B-tree, as {missed[0]}")
    elif not tally.result(done.returncode == 0 and "insert" in done.stdout, f"bench/rope, {way} beside a B-tree, small texts"):
        print(done.stdout + done.stderr)


def test_all(library, rope, index, folder):
    empty = folder / "empty"
    empty.mkdir()
    os.environ["CARGO_TARGET_DIR"] = str(folder / "target")
    for environment, texts in halves(library):
        test_bindings(environment, texts)
    if missing(library):
        tally.leave_out(3 * (len(ASKED) - 1), f"the wide half, as {missing(library)}")
    test_without_the_wide_half()
    test_missing_library(BINDINGS, empty, library.name)
    test_missing_library(ROPE, library.parent / "narrow", rope.name)
    test_missing_library(INDEX, library.parent / "narrow", index.name)
    test_other_version(library, folder)
    test_sources(folder / "repository")
    test_others()
    test_outside([library, rope, index], folder)
    test_exchanges(library, folder)
    test_example(folder / "target")
    test_programs(folder / "target", folder)
    test_no_std(folder / "target")
    test_benchmark()
    test_checks_of_utf8()
    for way in ["scintilla", "gtk", "qt"]:
        test_buffer(way)


def main():
    if not shutil.which("cargo"):
        tally.leave_out(least("test_rust.py"), "cargo is not on the path")
    else:
        libraries = [build(tally, name) for name in ["str_indices", "str_rope", "str_index"]]
        if all(libraries):
            with tempfile.TemporaryDirectory() as folder:
                test_all(*libraries, pathlib.Path(folder))
    return tally.end()


if __name__ == "__main__":
    sys.exit(main())
