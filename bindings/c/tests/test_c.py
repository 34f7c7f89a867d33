#!/usr/bin/env python3
"""Builds, tests and installs by CMake what C and C++ have of the library, and uses it as a user would.

CTest runs the programs of tests/CMakeLists.txt; these tell in their last line how much they tried, which is compared here.
Then the examples, a read past a text, the headers and the types of the functions, which half answers on which processor,
what is installed, what index.c declares, and each function exchanged for each other of its shape, as the modules tell which
try that. The last line printed is 'N passed, M failed', with what is left out.
"""
import pathlib
import shutil
import signal
import subprocess
import sys
import tempfile

from c_exports import LIBRARIES, STR_INDEX, STR_INDICES, STR_ROPE, pairs
from c_halves import copy_for_builds, try_builds, try_halves
from c_headers import try_headers
from c_indexes import try_glue
from c_install import try_install
from c_programs import TESTS, build, compiles, try_tests
from exchanges import exchanging_library, try_exchanges
from halves import missing
from line_and_column import ROWS, check_example
from report_span import check_reports
from tally import Tally, least

ROOT = pathlib.Path(__file__).resolve().parents[3]

# the programs in which an exchange of functions is to be seen, the halves that are tried, and how many exchanges are wanted
EXCHANGED = {
    STR_INDICES: (["worked_answers", "positions"], ["narrow", "wide"], "exchanges"),
    STR_ROPE: (["ropes"], [""], "exchanges of the rope"),
    STR_INDEX: (["indexes"], [""], "exchanges of the index"),
}

tally = Tally()


def try_examples(programs):
    """What the examples print, and a read past a text, which must end the program."""
    for how in [f"{language}{watched}" for language in ["c", "cpp"] for watched in ["", "_sanitized", "_threads"]]:
        if not (programs / f"line_and_column_{how}").exists():
            tally.leave_out(len(ROWS) + 2, f"examples as {how}, as the compiler has no such sanitizers")
            continue
        check_example(tally, programs / f"line_and_column_{how}", f"as {how}")
        check_reports(tally, [programs / f"report_span_{how}"], f"as {how}")
    done = subprocess.run([programs / "guarded_texts_c", "past"], capture_output=True)
    tally.result(done.returncode == -signal.SIGSEGV, f"a read past a text ends guarded_texts: {done.returncode}")


def run_exchanged(library, archive, folder):
    """Each function of the library exchanged for each other one of its shape."""
    names, halves, wanted = EXCHANGED[library]
    copy = exchanging_library(archive, folder, library)
    programs = [folder / f"exchanged_{name}" for name in names]
    if not all([compiles(tally, TESTS / f"{name}.c", copy, program) for name, program in zip(names, programs)]):
        return
    for half in halves:
        why = missing(archive) if half == "wide" else None
        if why:
            tally.leave_out(2, f"exchanges by the wide half, as {why}")
        else:
            try_exchanges(tally, programs, pairs(library), half, f"{library.name} {half}", wanted)


def run_all(built, archives, folder):
    """All of it, of what is built in a folder."""
    library, narrow = archives[STR_INDICES], ROOT / "out/narrow/libstr_indices.a"
    try_tests(tally, built, library)
    try_examples(built / "tests")
    try_headers(tally, archives)
    try_install(tally, built, folder / "narrow", folder / "installed")
    try_halves(tally, library, narrow, built / "tests/worked_answers_c", folder)
    (folder / "builds").mkdir()
    try_builds(tally, folder / "builds", copy_for_builds(folder / "builds"))
    try_glue(tally)
    for each, archive in archives.items():
        run_exchanged(each, archive, folder)


def main():
    if not shutil.which("cmake"):
        tally.leave_out(least("test_c.py"), "cmake is not on the path")
        return tally.end()
    with tempfile.TemporaryDirectory() as folder:
        folder = pathlib.Path(folder)
        if build(tally, folder / "build", "-DBUILD_TESTING=ON"):
            run_all(folder / "build", {library: ROOT / f"out/lib{library.name}.a" for library in LIBRARIES}, folder)
    return tally.end()


if __name__ == "__main__":
    sys.exit(main())
