#!/usr/bin/env python3
"""Changes a rope by positions and asks it, and compares each answer with the model's, over random lists of changes.

Each change is made in the text that the one before left. The rope is that of the program position_changes.rt.txt, which
`rt try` builds once, beside a copy of the crates, and runs once for each list. Some lists change a text of several pieces.
The last line printed is 'N passed, M failed'.
"""
import pathlib
import random
import re
import subprocess
import sys
import tempfile

from crate_copies import copy_program
from position_model import CHARACTERS, ENCODINGS, GREATEST, Lines
from tally import Tally

ROOT = pathlib.Path(__file__).resolve().parents[3]

SEED = 733
LISTS = 50
CHANGES = 100
# how many characters a text begins with, in the first lists and in each fifth one
SHORT, LONG = 24, 4000
# after how many changes of a long text all of it is printed
SELDOM = 20


class Asked:
    """The lines that a list gives the program, and those that it should answer."""

    def __init__(self, source, characters):
        self.source = source
        self.characters = characters
        self.lines = []
        self.answers = []
        text = self.random_text(characters)
        self.ask(f"whole {digits(text)}", "changed")
        self.text = Lines(text)

    def ask(self, line, answer):
        self.lines.append(line)
        self.answers.append(answer)

    def random_text(self, most):
        return "".join(self.source.choices(CHARACTERS, k=self.source.randint(0, most)))

    def random_position(self):
        """A position on a line that is there or not, mostly on its content or a little past that."""
        index = self.source.choice([self.source.randint(0, len(self.text.lines)), GREATEST, 0])
        _, content = self.text.line(index)
        character = self.source.choice([self.source.randint(0, 4 * len(content) + 1), self.source.randint(0, 3), GREATEST])
        return index, character

    def random_range(self):
        """A range that is mostly in order."""
        positions = self.random_position(), self.random_position()
        return tuple(sorted(positions)) if self.source.random() < 0.9 else positions

    def change(self, encoding):
        put = self.random_text(8)
        start, end = self.random_range()
        if self.characters == LONG:
            # a long text stays long
            end = (start[0] + self.source.randint(0, 2), end[1]) if start[0] < GREATEST else start
        if self.source.random() < 0.02:
            put = self.random_text(self.characters)
            self.ask(f"whole {digits(put)}", "changed")
            self.text = Lines(put)
            return
        text = self.text.changed(start, end, encoding, put)
        self.ask(f"range {encoding} {words(start)} {words(end)} {digits(put)}", "refused" if text is None else "changed")
        if text is not None:
            self.text = Lines(text)

    def questions(self, encoding):
        byte = self.source.choice([self.source.randint(0, len(self.text.data) + 1), GREATEST])
        self.ask(f"at {encoding} {byte}", words(self.text.position(byte, encoding)))
        position = self.random_position()
        self.ask(f"byte {encoding} {words(position)}", str(self.text.byte(position, encoding)))
        exact = self.text.exact_byte(position, encoding)
        self.ask(f"exact {encoding} {words(position)}", "none" if exact is None else str(exact))
        start, end = self.random_range()
        found = self.text.byte_range(start, end, encoding)
        self.ask(f"bytes {encoding} {words(start)} {words(end)}", "none" if found is None else words(found))
        self.ask(f"end {position[0]}", str(self.text.end(position[0])))


def words(pair):
    return f"{pair[0]} {pair[1]}"


def digits(text):
    return f"-{text.encode().hex()}"


def asked(source, number):
    """A list of changes, each with questions after it."""
    case = Asked(source, LONG if number % 5 == 4 else SHORT)
    for made in range(CHANGES):
        case.change(source.choice([*ENCODINGS]))
        case.questions(source.choice([*ENCODINGS]))
        if case.characters == SHORT or made % SELDOM == SELDOM - 1:
            case.ask("text", case.text.data.hex())
    return case


def run(lists, folder):
    """What the program prints for each list, by its number."""
    libraries = ["text_rope", "positions"]
    source = (ROOT / "crates/text_rope/tests/position_changes.rt.txt").read_text(encoding="utf-8")
    crate = copy_program("rope_changes", libraries, source, folder, left_out=("out",))
    cases = folder / "cases"
    cases.mkdir()
    for number, case in enumerate(lists):
        (cases / str(number)).write_text("".join(f"{line}\n" for line in case.lines))
    # one step of the interpreter, which makes of these runs twice the time: only the built program runs
    command = ["rt", "try", "--steps", "1", "--cases", cases]
    done = subprocess.run(command, cwd=crate, capture_output=True, text=True)
    parts = re.split(r"^== ([0-9]+)\n", done.stdout, flags=re.MULTILINE)
    return dict(zip(map(int, parts[1::2]), parts[2::2])), done


def faults(number, case, said):
    """The answers to a list of changes in which the program differs from the model."""
    rows = zip(case.lines, said, case.answers)
    wrong = [f"list {number}, {line}: {answer}, not {expected}" for line, answer, expected in rows if answer != expected]
    return wrong + [f"list {number}: {len(said)} lines, not {len(case.answers)}"] * (len(said) != len(case.answers))


def main():
    tally = Tally()
    source = random.Random(SEED)
    lists = [asked(source, number) for number in range(LISTS)]
    with tempfile.TemporaryDirectory() as folder:
        outputs, done = run(lists, pathlib.Path(folder))
    ended = f"position_changes is built once, and comes to an end in {LISTS} runs"
    tally.result(done.returncode == 0, ended, (done.stdout + done.stderr)[-2000:])
    said = [outputs.get(number, "").splitlines() for number in range(LISTS)]
    wrong = [fault for number, case in enumerate(lists) for fault in faults(number, case, said[number])]
    answers = sum(min(len(lines), len(case.answers)) for lines, case in zip(said, lists))
    told = f"{answers} answers for {LISTS * CHANGES} random changes of a rope, of which {len(wrong)} are not the model's"
    tally.result(not wrong, told, "\n".join(line[:300] for line in wrong[:10]))
    tally.enough("answers of position_changes.py", answers, "answers of changes by positions")
    return tally.end()


if __name__ == "__main__":
    sys.exit(main())
