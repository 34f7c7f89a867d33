#!/usr/bin/env python3
"""Compares the positions of the library with a model of the Language Server Protocol, over random texts.

position_model.py is the model, whose lines end as in the protocol; random_ropes.cpp asks about the other kinds. The texts come
from a fixed seed and are of the characters that matter; each is asked in each encoding at every byte index and at every
position, past the end of each line and of the text too, and for ranges and spans between such. The static library is linked as
a shared object, in a temporary folder. The last line printed is 'N passed, M failed'.
"""
import ctypes
import pathlib
import random
import subprocess
import sys
import tempfile

from c_exports import build
from position_model import CHARACTERS, ENCODINGS, GREATEST, Lines, units
from tally import Tally

SEED = 317
TEXTS = 4000
MOST_CHARACTERS = 24
RANGES = 12
# what C is answered where there is no byte
NONE = GREATEST

# the numbers of the header: the protocol's kind of line, and of each encoding
CRLF = 3
NUMBERS = {8: 5, 16: 1, 32: 0}

tally = Tally()


class Position(ctypes.Structure):
    _fields_ = [("line", ctypes.c_size_t), ("character", ctypes.c_size_t)]


class Range(ctypes.Structure):
    _fields_ = [("start", Position), ("end", Position)]


class Bytes(ctypes.Structure):
    _fields_ = [("start", ctypes.c_size_t), ("end", ctypes.c_size_t)]


# each question, with the type of its argument and the type of its answer
QUESTIONS = {
    "position_of": (ctypes.c_size_t, Position), "exact_position_of": (ctypes.c_size_t, Position),
    "range_of": (Bytes, Range), "byte_of": (Position, ctypes.c_size_t), "exact_byte_of": (Position, ctypes.c_size_t),
    "byte_range": (Range, Bytes),
}
QUESTIONS_OF_LINES = {"line": Bytes, "line_end": ctypes.c_size_t}


def link(library, folder):
    """The static library, as one that Python can load."""
    shared = folder / "libpositions.so"
    whole = ["-Wl,--whole-archive", library, "-Wl,--no-whole-archive"]
    done = subprocess.run(["cc", "-shared", *whole, "-o", shared], capture_output=True, text=True)
    if not tally.result(done.returncode == 0, "the library links as a shared object"):
        print(done.stderr)
        return None
    loaded = ctypes.CDLL(str(shared))
    text = [ctypes.c_char_p, ctypes.c_size_t, ctypes.c_int]
    for name, (given, answered) in QUESTIONS.items():
        function = getattr(loaded, f"str_indices_{name}")
        function.argtypes, function.restype = [*text, ctypes.c_int, given], answered
    for name, answered in QUESTIONS_OF_LINES.items():
        function = getattr(loaded, f"str_indices_{name}")
        function.argtypes, function.restype = [*text, ctypes.c_size_t], answered
    return loaded


def plain(answer):
    """An answer of C as numbers and pairs of them."""
    if not isinstance(answer, ctypes.Structure):
        return answer
    return tuple(plain(getattr(answer, name)) for name, _ in answer._fields_)


class Asked:
    """The answers for a text that are not the model's, and how many there were in all."""

    def __init__(self, library, text):
        self.library = library
        self.model = Lines(text)
        self.wrong = []
        self.calls = 0

    def compare(self, name, given, expected, encoding=None):
        """Asks a question, of an encoding where the question has one, and compares the answer."""
        self.calls += 1
        numbers = [CRLF] if encoding is None else [CRLF, NUMBERS[encoding]]
        function = getattr(self.library, f"str_indices_{name}")
        answer = plain(function(self.model.data, len(self.model.data), *numbers, given))
        if answer != expected:
            self.wrong.append(f"{encoding}: {name} {plain(given)} of {self.model.data!r}: {answer}, not {expected}")

    def lines(self):
        for index in [*range(len(self.model.lines) + 1), GREATEST]:
            end = self.model.end(index)
            self.compare("line", index, (self.model.line(index)[0], end))
            self.compare("line_end", index, end)

    def places(self, encoding):
        for byte in [*range(len(self.model.data) + 2), GREATEST]:
            position = self.model.position(byte, encoding)
            is_place = self.model.exact_byte(position, encoding) == byte
            self.compare("position_of", byte, position, encoding)
            self.compare("exact_position_of", byte, position if is_place else (NONE, NONE), encoding)

    def positions(self, encoding):
        """The positions of each line, up to three past its end, and past the last line."""
        for index in [*range(len(self.model.lines) + 1), GREATEST]:
            _, content = self.model.line(index)
            for character in [*range(units(content, *ENCODINGS[encoding]) + 3), GREATEST]:
                yield index, character

    def bytes(self, encoding):
        for position in self.positions(encoding):
            exact = self.model.exact_byte(position, encoding)
            self.compare("byte_of", Position(*position), self.model.byte(position, encoding), encoding)
            self.compare("exact_byte_of", Position(*position), NONE if exact is None else exact, encoding)

    def ranges(self, encoding, source):
        positions = list(self.positions(encoding))
        for start, end in (source.choices(positions, k=2) for _ in range(RANGES)):
            expected = self.model.byte_range(start, end, encoding) or (NONE, NONE)
            self.compare("byte_range", Range(Position(*start), Position(*end)), expected, encoding)
        for span in (source.choices(range(len(self.model.data) + 2), k=2) for _ in range(RANGES)):
            self.compare("range_of", Bytes(*span), tuple(self.model.position(byte, encoding) for byte in span), encoding)


def compare(library):
    source = random.Random(SEED)
    wrong = []
    calls = 0
    for _ in range(TEXTS):
        asked = Asked(library, "".join(source.choices(CHARACTERS, k=source.randint(0, MOST_CHARACTERS))))
        asked.lines()
        for encoding in ENCODINGS:
            asked.places(encoding)
            asked.bytes(encoding)
            asked.ranges(encoding, source)
        wrong += asked.wrong
        calls += asked.calls
    tally.result(not wrong, f"{calls} answers for {TEXTS} random texts, of which {len(wrong)} are not the model's")
    tally.enough("answers of test_positions.py", calls, "answers of positions")
    for line in wrong[:10]:
        print(line)


def main():
    archive = build(tally, "str_indices")
    if archive:
        with tempfile.TemporaryDirectory() as folder:
            library = link(archive, pathlib.Path(folder))
            if library is not None:
                compare(library)
    return tally.end()


if __name__ == "__main__":
    sys.exit(main())
