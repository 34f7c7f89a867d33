#!/usr/bin/env python3
"""Refuses each growth of a text in pieces, of a rope and of an index in turn, and wants all as it was.

The programs refused_growths.rt.txt, refused_runs.rt.txt and refused_rope_growths.rt.txt beside this file make a text grow,
step by step; the second does so at several numbers of pieces. refused_index_growths.rt.txt makes indexes. `rt try` builds
each once, beside a copy of its library, and refuses the same allocation in each of its runs. In each run the program has
taken less memory before its first step, so that a later growth is refused. It must answer `NoMemory` then, with every other
answer as before, and succeed at the second try. The second program compares the runs too, which a text tells in that copy
alone. The last runs come to an end with no growth refused. The rope is changed once more with a snapshot held before each
step, which must keep its text.

Then small_chunks.rt.txt changes a rope at random beside a plain text, and compares what is answered of both, with no growth
refused. The copy of its library has small numbers for the rope's chunks and leaves, so that the tree is deep.
The last line printed is 'N passed, M failed'.
"""
import pathlib
import re
import shutil
import subprocess
import sys
import tempfile
from typing import Dict, NamedTuple, Tuple

from crate_copies import copy_program
from tally import Tally

ROOT = pathlib.Path(__file__).resolve().parents[3]

Numbers = Tuple[Tuple[str, int], ...]


class Program(NamedTuple):
    """A program, the library that it stands on, what it prints at its end, and how many growths it has at least.

    Of a program that has many, the first growths are not refused. It may have numbers to be put in for those in its text, and
    what its library does not tell, to be put at the end of the library's sources, by the name of the file.
    """

    name: str
    library: str
    made: str
    least: int
    passed_over: int = 0
    numbers: Numbers = ()
    told: Dict[str, str] = {}
    runs: int = 40


class Small(NamedTuple):
    """Small numbers for those in the rope's sources, by the name of the file, and those of the program that changes it."""

    sources: Dict[str, Numbers]
    numbers: Numbers


# what the rope has at the end
ROPE_MADE = "3204 bytes, 480 breaks, the number 8730228837852749474\n"

INDEXES_MADE = "3500 bytes in the last text, 947 breaks in all\n"

# what a text in pieces tells in the copy: how many pieces each run has, from which its sums follow, and the room of its lists
RUNS_TOLD = {
    "view/runs": """
impl Runs {
    pub(crate) fn room(&self) -> usize {
        self.runs.capacity()
    }
}
""",
    "list": """
impl PieceText {
    pub fn runs(&self) -> [usize; 8] {
        let mut told = [0; 8];
        for (i, run) in self.runs.as_slice().iter().enumerate() {
            told[i] = run.pieces;
        }
        told
    }

    pub fn room(&self) -> [usize; 2] {
        [self.pieces.capacity(), self.runs.room()]
    }
}
""",
}


def of_runs(made, passed_over, *numbers):
    """The program that changes a text with runs."""
    return Program("refused_runs", "piece_text", made, 25, passed_over, numbers, RUNS_TOLD)


PROGRAMS = (
    # each of the six pieces that are put in takes its copy and its place, each of the three splits two of both, and the list
    # is longer at times
    Program("refused_growths", "piece_text", "9 pieces, 16 bytes, 5 breaks\n", 24),
    # each of the five pieces that are put in takes its copy and its place, and the two halves of one too. Beside them grow:
    # the list of pieces, and that of runs, which gets its first
    of_runs("132 pieces, 136 bytes, 2 breaks\n", 250),
    # both grow where a piece is split
    of_runs("130 pieces, 134 bytes, 2 breaks\n", 248, ("PIECES", 126)),
    # that of four runs, which gets one more after them
    of_runs("388 pieces, 392 bytes, 2 breaks\n", 764, ("PIECES", 384)),
    # and one more of a run that is cut
    of_runs("389 pieces, 393 bytes, 2 breaks\n", 766, ("PIECES", 321), ("FRONT", 64)),
    # each piece that is written takes its text and its place, each block its list and its place, and what comes in between two
    # parts of pieces is put together first
    Program("refused_rope_growths", "text_rope", ROPE_MADE, 50, runs=160),
    Program("refused_rope_growths", "text_rope", ROPE_MADE, 50, numbers=(("HELD", 1),), runs=160),
    # each index takes its marks, and the text before them its bytes
    Program("refused_index_growths", "text_index", INDEXES_MADE, 2, passed_over=1, runs=5),
)

SMALL = (
    # the deepest trees: no two blocks go into one
    Small({"chunk": (("MAX_CHUNK", 16), ("STEP", 4)), "leaf": (("LEAF_CAPACITY", 2),), "loads": (("LOADED_LEAF", 2),)}, ()),
    Small({"chunk": (("MAX_CHUNK", 64), ("STEP", 8)), "leaf": (("LEAF_CAPACITY", 8),)}, (("CHANGES", 600), ("LONG", 2800))),
)

REFUSED = "no memory, and all as before\n"

LEFT_OUT = ("out",)


def with_numbers(source, numbers):
    """A source with the numbers in the place of its own."""
    for name, number in numbers:
        source, made = re.subn(f"(const {name}: usize =) [^;]+;", rf"\1 {number};", source)
        assert made == 1, name
    return source


def source_of(name, numbers):
    """The text of the program of that name, with the numbers."""
    source = (ROOT / f"crates/text_rope/tests/{name}.rt.txt").read_text(encoding="utf-8")
    return with_numbers(source, numbers)


def run_all(program, crate, cases):
    """Runs the program so often that in run N its growth N is refused, of those not passed over, where it has as many."""
    cases.mkdir()
    for number in range(1, program.runs + 1):
        (cases / str(number)).write_bytes(bytes(program.runs - number))
    # one step of the interpreter, which makes of these runs twice the time: only the built program runs
    command = ["rt", "try", "--steps", "1", "--fail-alloc", str(program.runs + program.passed_over), "--cases", cases]
    return subprocess.run(command, cwd=crate, capture_output=True, text=True)


def outputs_of(done):
    """What the program printed in each run, by the run's number."""
    parts = re.split(r"^== ([0-9]+)\n", done.stdout, flags=re.MULTILINE)
    return dict(zip(map(int, parts[1::2]), parts[2::2]))


def try_program(program, tally):
    """Refuses each growth of the program in turn."""
    with tempfile.TemporaryDirectory() as folder:
        folder = pathlib.Path(folder)
        source = source_of(program.name, program.numbers)
        crate = copy_program(program.name, [program.library], source, folder, left_out=LEFT_OUT)
        for name, told in program.told.items():
            with open(folder / f"crates/{program.library}/src/{name}.rt", "a", encoding="utf-8") as library:
                library.write(told)
        done = run_all(program, crate, folder / "cases")
    ended = f"{program.name} is built once, and comes to an end in {program.runs} runs"
    tally.result(done.returncode == 0, ended, done.stdout + done.stderr)
    outputs = outputs_of(done)
    refused = [number for number in range(1, program.runs + 1) if outputs.get(number) != program.made]
    for number in refused:
        output = outputs.get(number, "")
        tally.result(output == REFUSED + program.made, f"{program.name}, growth {number} is refused: {output!r}")
    growths = len(refused)
    told = f"{growths} growths were refused, one after the other, and then none"
    tally.result(program.least < growths == max(refused) < program.runs, told)


def try_small(small, tally):
    """Changes a rope of small chunks and leaves beside a plain text, and tells how many answers were compared."""
    with tempfile.TemporaryDirectory() as folder:
        folder = pathlib.Path(folder)
        source = source_of("small_chunks", small.numbers)
        crate = copy_program("small_chunks", ["positions", "text_rope"], source, folder, left_out=LEFT_OUT)
        shutil.copy(ROOT / "crates/text_tests/src/random.rt", crate / "src")
        for name, numbers in small.sources.items():
            path = folder / f"crates/text_rope/src/{name}.rt"
            path.write_text(with_numbers(path.read_text(encoding="utf-8"), numbers), encoding="utf-8")
        command = ["rt", "try", "--steps", "1", "--seconds", "900"]
        done = subprocess.run(command, cwd=crate, capture_output=True, text=True)
    told = re.match("([0-9]+) answers, .*", done.stdout)
    right = done.returncode == 0 and told is not None
    tally.result(right, f"small chunks: {told[0] if told else 'no answers'}", done.stdout + done.stderr)
    return int(told[1]) if told else 0


def main():
    tally = Tally()
    for program in PROGRAMS:
        try_program(program, tally)
    answers = sum(try_small(small, tally) for small in SMALL)
    tally.enough("answers of small_chunks.rt.txt", answers, "answers of ropes with small chunks")
    return tally.end()


if __name__ == "__main__":
    sys.exit(main())
