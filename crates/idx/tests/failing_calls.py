#!/usr/bin/env python3
"""Makes each allocation, read and write of the program fail, each in a run of its own.

The built program runs over failing_calls.c: each allocation is refused, alone and with all after it; each read
fails, is interrupted, or moves one byte; each write fails, is interrupted, or moves one byte or none. It reads files,
since a pipe brings a text in as many reads as it happens to take. Then `rt try` builds the program once more, so that it
stops at an index out of bounds and at a bad access, and refuses the last allocation of the longest text: a growth of what
is read.

A run must end in the fault's status and line, and nothing is written but a beginning of the answer where a write
failed. It may end in the right answer where a call moved less, or where less memory was enough, but not where the last
allocation is refused. It never ends in another number. The last line printed is 'N passed, M failed'.
"""
import os
import pathlib
import re
import subprocess
import sys
import tempfile
import typing

from tally import Tally
from test_program import CRATE, NO_MEMORY, NOT_UTF8, PROGRAM, READ, USAGE, WRITE, build, number, run, told

SOURCE = CRATE / "tests/failing_calls.c"
COMPILER = ["cc", "-std=c99", "-Wall", "-Wextra", "-Werror", "-pedantic", "-O2", "-shared", "-fPIC"]


class Kind(typing.NamedTuple):
    """What a call does, of which functions, and how the program ends then, where that is a fault."""

    name: str
    functions: str
    fault: typing.Optional[tuple]


class Case(typing.NamedTuple):
    """Words, a text and its name, how the program ends over it, and what it calls on the way."""

    words: list
    text: bytes
    text_name: str
    right: tuple
    functions: list


KINDS = [
    Kind("memory", "memory", NO_MEMORY),
    Kind("memory_from", "memory", NO_MEMORY),
    Kind("read", "read", READ),
    Kind("interrupted_read", "read", READ),
    Kind("short_read", "read", None),
    Kind("write", "write", WRITE),
    Kind("interrupted_write", "write", WRITE),
    Kind("empty_write", "write", WRITE),
    Kind("short_write", "write", None),
]

SHORT = ("せa".encode(), "short")
LONG = ("せ".encode() * 25000, "long")
UNFINISHED = ("🐸".encode()[:3], "unfinished")

COUNT = ["chars.count"]
CASES = [
    Case(COUNT, *SHORT, number(2), ["memory", "read", "write"]),
    Case(COUNT, *LONG, number(25000), ["memory", "read", "write"]),
    Case(COUNT, *UNFINISHED, NOT_UTF8, ["memory", "read"]),
    Case(["chars.to_byte_idx", "24999"], *LONG, number(74997), ["memory", "read", "write"]),
    Case(["chars.to_byte_idx", "1", "wide", "3"], *SHORT, number(3), ["memory", "read", "write"]),
    Case(["chars.counts"], *SHORT, USAGE, ["memory"]),
]


def write_texts(folder):
    """Each text in a file of its name."""
    for text, name in [SHORT, LONG, UNFINISHED]:
        (folder / name).write_bytes(text)


def run_failing(library, case, one_byte, kind, at):
    """Whether there was a call of this number and kind, and how the program ends; the texts lie beside the library."""
    reading, writing = os.pipe()
    env = dict(os.environ, LD_PRELOAD=str(library), FAULT=kind.name, FAULT_AT=str(at), FAULT_TOLD=str(writing))
    if one_byte:
        env["ONE_BYTE"] = "1"
    with open(library.parent / "texts" / case.text_name, "rb") as text:
        ending = run([PROGRAM, *case.words], stdin=text, env=env, pass_fds=[writing])
    os.close(writing)
    came = os.read(reading, 1) != b""
    os.close(reading)
    return came, ending


def allowed(case, one_byte, kind, at):
    """How the program may end where the call of this number is of the kind."""
    if kind.fault is None:
        return [case.right]
    if kind.name == "memory":
        return [kind.fault, case.right]
    if kind.fault == WRITE and one_byte:
        status, _, errors = WRITE
        return [(status, case.right[1][: at - 1], errors)]
    return [kind.fault]


def try_kind(library, case, one_byte, kind):
    """How many calls there are, whether the run in which the last one fails ends in the fault, and what was wrong."""
    at_last = False
    at = 1
    while True:
        came, ending = run_failing(library, case, one_byte, kind, at)
        if not came:
            return at - 1, at_last, "" if ending == case.right else f"with no fault {told(ending)}"
        if ending not in allowed(case, one_byte, kind, at):
            return at, at_last, f"at call {at} {told(ending)}"
        at_last = ending != case.right
        at += 1


def try_case(tally, library, case, one_byte):
    """Each call of each kind; the answer is how many allocations there are."""
    counts = {}
    wrongs = []
    for kind in KINDS:
        calls, at_last, wrong = try_kind(library, case, one_byte, kind)
        if (calls > 0) != (kind.functions in case.functions):
            wrong = wrong or "not as many calls as there should be"
        if at_last != (calls > 0 and kind.fault is not None):
            wrong = wrong or f"at the last call {'the fault' if at_last else 'no fault'}"
        counts[kind.name] = calls
        wrongs += [f"{kind.name}: {wrong}"] if wrong else []
    how = "one byte a call" if one_byte else "each of these calls"
    line = f"{' '.join(case.words)}, {case.text_name} text, {how}: "
    line += ", ".join(f"{name} {calls}" for name, calls in counts.items() if calls > 0)
    tally.result(not wrongs, "; ".join([line, *wrongs]))
    return counts["memory"]


def endings_of(done):
    """How each case of `rt try` ends, by what it prints."""
    outputs = re.split(r"^== (\w+)\n", done.stdout, flags=re.MULTILINE)
    output_of = dict(zip(outputs[1::2], outputs[2::2]))
    blocks = re.split(r"^case=(\w+) run=ended status=(\d+) .*\n", done.stderr, flags=re.MULTILINE)
    endings = {}
    for errors, name, status in zip(blocks[0::3], blocks[1::3], blocks[2::3]):
        errors = re.sub(r"^allocations: .*\n", "", errors)
        endings[name] = (int(status), output_of.get(name, ""), errors)
    return endings


def try_last_allocation(tally, texts, at):
    """The last allocation of the longest text is refused, in a run with checks, and so none of the other texts."""
    wanted = {SHORT[1]: number(2), LONG[1]: NO_MEMORY, UNFINISHED[1]: NOT_UTF8}
    command = ["rt", "try", "--fail-alloc", str(at), "--cases", texts, "--", *COUNT]
    done = subprocess.run(command, cwd=CRATE, capture_output=True, text=True)
    endings = endings_of(done)
    line = "; ".join(f"{name} {told(ending)}" for name, ending in endings.items())
    tally.result(endings == wanted, f"rt try --fail-alloc {at}: {line}", done.stdout + done.stderr)


def main():
    tally = Tally()
    with tempfile.TemporaryDirectory() as folder:
        library = pathlib.Path(folder) / "failing_calls.so"
        texts = pathlib.Path(folder) / "texts"
        texts.mkdir()
        write_texts(texts)
        compiled = subprocess.run([*COMPILER, SOURCE, "-o", library])
        if tally.result(compiled.returncode == 0, "failing_calls.c compiles") and build(tally):
            allocations = 0
            for case in CASES:
                count = try_case(tally, library, case, one_byte=False)
                allocations = max(allocations, count if case.words == COUNT else 0)
                if case.text != LONG[0]:
                    try_case(tally, library, case, one_byte=True)
            try_last_allocation(tally, texts, allocations)
    return tally.end()


if __name__ == "__main__":
    sys.exit(main())
