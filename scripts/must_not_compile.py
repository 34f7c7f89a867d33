#!/usr/bin/env python3
"""Shows that some programs do not compile.

Each folder refusals/must-not-compile/CRATE has a program over that crate that compiles, and edits of one line of it. The
program must be proved as it stands, before and after, and each edited program must be refused with the compiler's own
error that the edit names. Beside the program over `byte_chunk` lies a copy of the chunk type `Wide` of `idx`. A folder in
which all was so is kept, as kept.py says. The last line printed is 'N passed, M failed'.
"""
import pathlib
import shutil
import subprocess
import sys
import tempfile

from crate_copies import copy_crate
from kept import Kept, crate_sum, scripts_sum, sum_of, sums_of_files
from tally import Tally

ROOT = pathlib.Path(__file__).resolve().parents[1]

CASES = ROOT / "refusals/must-not-compile"

# files of other crates that a program takes in
BESIDE = {"byte_chunk": [ROOT / "crates/idx/src/wide.rt"]}


def read_edit(path):
    fields = {}
    for line in path.read_text(encoding="utf-8").splitlines():
        name, _, value = line.partition(": ")
        fields[name] = value
    return fields["error"], fields["old"], fields["new"]


def check(crate, program):
    (crate / "src" / "lib.rt").write_text(program, encoding="utf-8")
    run = subprocess.run(["rt", "check"], cwd=crate, capture_output=True, text=True)
    return run.returncode, run.stdout + run.stderr


def name_of(cases):
    """The name under which a folder is kept."""
    scripts = scripts_sum("kept.py", "must_not_compile.py", "crate_copies.py")
    files = [*cases.iterdir(), *BESIDE.get(cases.name, [])]
    return sum_of(crate_sum(ROOT, cases.name), scripts, sums_of_files(ROOT, files))


def left():
    """The folders that no earlier run has tried as they are."""
    kept = Kept()
    return [cases for cases in sorted(CASES.iterdir()) if kept.told(name_of(cases)) is None]


def try_folder(cases, folder):
    """Each program of the folder: its name, whether the check says what it should, and what it says."""
    program = (cases / "program.rt.txt").read_text(encoding="utf-8")
    copy_crate(cases.name, folder, f"program: {cases.name}\n")
    crate = folder / "crates" / "program"
    (crate / "src").mkdir(parents=True)
    for source in BESIDE.get(cases.name, []):
        shutil.copy(source, crate / "src")
    status, output = check(crate, program)
    yield "program", status == 0, output
    for path in sorted(cases.glob("*.edit")):
        error, old, new = read_edit(path)
        once = program.count(old + "\n") == 1
        status, output = check(crate, program.replace(old + "\n", new + "\n"))
        yield path.stem, once and status == 1 and f"error[{error}]" in output, output
    status, output = check(crate, program)
    yield "program after that", status == 0, output


def results(cases):
    """What is told of the folder; where all is right, it is kept."""
    kept = Kept()
    known = kept.told(name_of(cases))
    if known is not None:
        print(f"kept {len(known.splitlines())}: an earlier run tried {cases.name}, and nothing has changed", flush=True)
        return [(name, True, "") for name in known.splitlines()]
    with tempfile.TemporaryDirectory() as folder:
        found = list(try_folder(cases, pathlib.Path(folder)))
    if all(right for _, right, _ in found):
        kept.keep(name_of(cases), "\n".join(name for name, _, _ in found))
    return found


def main():
    tally = Tally()
    for cases in sorted(CASES.iterdir()):
        for name, right, output in results(cases):
            if not tally.result(right, f"must-not-compile {cases.name} {name}"):
                print(output)
    return tally.end()


if __name__ == "__main__":
    sys.exit(main())
