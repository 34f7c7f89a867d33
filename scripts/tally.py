"""Counts what passed, what failed and what was left out, for a script whose last line is 'N passed, M failed'.

Where something was left out for want of a tool, the last line is 'N passed, M failed, K skipped'. A sum of nothing is a
failure. scripts/least.txt has the least number of what is tried, of each script and of each table and folder of tests.
"""
import os
import pathlib
import re
import shutil
import subprocess
from typing import Optional, Sequence, Tuple

LEAST = pathlib.Path(__file__).resolve().parent / "least.txt"
SUMS = re.compile(r"([0-9]+) passed, ([0-9]+) failed(?:, ([0-9]+) skipped)?")


def least(name: str) -> int:
    """The least number of what is tried under that name; a name that the table has not is an error."""
    lines = LEAST.read_text(encoding="utf-8").splitlines()
    numbers = {line.partition(" ")[2]: line.partition(" ")[0] for line in lines if not line.startswith("#")}
    return int(numbers[name])


def sums_of(output: str) -> Optional[Tuple[int, ...]]:
    """What passed, failed and was left out, by the last line of an output; None where that says nothing of it."""
    lines = output.rstrip().splitlines()
    found = SUMS.fullmatch(lines[-1]) if lines else None
    return tuple(int(number or 0) for number in found.groups()) if found else None


class Tally:
    def __init__(self) -> None:
        self.passed = 0
        self.failed = 0
        self.skipped = 0

    def result(self, right: bool, line: str, output: str = "") -> bool:
        """Tells and counts one result, with the output where it is wrong, and answers whether it is right."""
        self.passed += right
        self.failed += not right
        print(f"{'ok' if right else 'FAILED'}: {line}" + (f"\n{output}" if output and not right else ""), flush=True)
        return right

    def enough(self, name: str, number: int, line: str, output: str = "") -> bool:
        """One result: whether as many were right as the table wants under that name."""
        return self.result(number >= least(name), f"{line}: {number} of at least {least(name)}", output)

    def leave_out(self, number: int, line: str) -> None:
        """Tells and counts results that are left out, with the reason."""
        self.skipped += number
        print(f"skipped {number}: {line}", flush=True)

    def by_pytest(self, files: Sequence[pathlib.Path], number: int) -> None:
        """Counts the tests of files, which the command pytest runs; where it is missing, that number is left out."""
        if not shutil.which("pytest"):
            self.leave_out(number, "pytest is not on the path (Debian's package python3-pytest)")
            return
        command = ["pytest", "--quiet", "-rs", "-p", "no:cacheprovider", *map(str, files)]
        paths = dict(os.environ, PYTHONPATH=str(LEAST.parent))
        done = subprocess.run(command, cwd=LEAST.parents[1], env=paths, stdout=subprocess.PIPE, text=True)
        print(done.stdout)
        sums = done.stdout.splitlines()[-1] if done.stdout else ""
        found = {what: int(number) for number, what in re.findall("([0-9]+) (passed|failed|error)", sums)}
        self.passed += found.get("passed", 0)
        self.failed += found.get("failed", 0) + found.get("error", 0) or int(done.returncode != 0)
        for skipped, why in re.findall(r"^SKIPPED \[([0-9]+)\] \S+ (.*)", done.stdout, re.MULTILINE):
            self.leave_out(int(skipped), why)

    def end(self) -> int:
        """The last line; the answer is the script's exit status."""
        left_out = f", {self.skipped} skipped" if self.skipped else ""
        print(f"{self.passed} passed, {self.failed} failed{left_out}")
        return int(self.failed != 0 or self.passed + self.skipped == 0)
