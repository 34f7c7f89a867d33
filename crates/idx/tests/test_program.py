#!/usr/bin/env python3
"""Runs the program as a shell does, and compares its status and both of its outputs.

The program is proved and built first. Then come texts from a file and from a pipe, 64 MiB among them; streams that are
closed, a full device, a folder as input, and a pipe that nobody reads; words and text that are not UTF-8; and limits on
memory and on the stack. So each fault has its line and its status once through `main`. The last line printed is
'N passed, M failed'.
"""
import os
import pathlib
import subprocess
import sys
import tempfile

from tally import Tally

ROOT = pathlib.Path(__file__).resolve().parents[3]

CRATE = ROOT / "crates/idx"
PROGRAM = CRATE / "out/idx"
# no time is judged: a program that hangs ends the script, also on a slow machine
SECONDS = 600

# four bytes, three characters and one break, so often in 64 MiB
LINE = "é\r\n".encode()
LINES_IN_LARGE = 16 * 1024 * 1024

# how the program ends: its status, its standard output and its standard error
USAGE = (2, "", "idx: bad usage\n")
NOT_UTF8 = (3, "", "idx: input is not UTF-8\n")
READ = (1, "", "idx: cannot read input\n")
WRITE = (1, "", "idx: cannot write output\n")
NO_MEMORY = (1, "", "idx: out of memory\n")


def number(n):
    return 0, f"{n}\n", ""


# what a shell runs that finds `idx` on its path, in a folder with the file `large`, and how that ends
COMMANDS = [
    ("printf 'Hello \\343\\201\\233' | idx chars.count", number(7)),
    ("{ printf '\\343\\201'; sleep 0.1; printf '\\233'; } | idx chars.count", number(1)),
    ("idx lines.count_breaks < /dev/null", number(0)),
    ("idx chars.count < large", number(3 * LINES_IN_LARGE)),
    ("cat large | idx lines_crlf.count_breaks", number(LINES_IN_LARGE)),
    (f"idx lines.to_byte_idx {LINES_IN_LARGE} wide 1 < large", number(4 * LINES_IN_LARGE)),
    # closed streams; where standard error cannot be written to, the status tells
    ("idx chars.count <&-", READ),
    ("printf a | idx chars.count >&-", WRITE),
    ("idx chars.count <&- >&-", READ),
    ("idx chars.count <&- 2>&-", (1, "", "")),
    ("idx chars.count <&- 2>/dev/full", (1, "", "")),
    # a folder, and a full device
    ("idx chars.count < .", READ),
    ("printf a | idx chars.count > /dev/full", WRITE),
    # other words: what was not read is left to the next command
    ("idx", USAGE),
    ("idx chars.counts <&-", USAGE),
    ("idx \"$(printf '\\377')\" <&-", USAGE),
    ("idx chars.to_byte_idx \"$(printf '1\\377')\" <&-", USAGE),
    ("printf abc | { idx chars; status=$?; cat; exit $status; }", (2, "abc", USAGE[2])),
    # one unfinished character, alone and after a long text
    ("printf '\\360\\237\\220' | idx chars.count", NOT_UTF8),
    ("{ cat large; printf '\\360\\237\\220'; } | idx chars.count", NOT_UTF8),
    # 64 MiB of memory for all that the program holds
    ("ulimit -v 65536; idx chars.count < large", NO_MEMORY),
    ("ulimit -v 65536; printf abc | idx chars.count", number(3)),
    # 64 KiB of stack, the words and the environment among it
    ("ulimit -s 64; idx chars.count < large", number(3 * LINES_IN_LARGE)),
    ("ulimit -s 64; cat large | idx lines.to_byte_idx 1 wide 1", number(4)),
]


def run(command, **options):
    """How the command ends; its standard output is captured where the options say nothing of it."""
    options.setdefault("stdout", subprocess.PIPE)
    done = subprocess.run(command, stderr=subprocess.PIPE, timeout=SECONDS, **options)
    return done.returncode, (done.stdout or b"").decode(), done.stderr.decode()


def build(tally):
    """Proves, builds and runs the program once; whether all of that went well."""
    words = ["rt", "run", "--", "chars.count"]
    done = subprocess.run(words, cwd=CRATE, input="Hello せかい!".encode(), capture_output=True)
    right = done.returncode == 0 and done.stdout == b"10\n" and PROGRAM.is_file()
    tally.result(right, f"the program is built, and its first run prints {done.stdout}", done.stderr.decode())
    return right


def told(ending):
    status, output, errors = ending
    return f"status {status}, {output!r}, {errors!r}"


def try_commands(tally, folder):
    (folder / "large").write_bytes(LINE * LINES_IN_LARGE)
    path = f"{PROGRAM.parent}:{os.environ['PATH']}"
    for command, wanted in COMMANDS:
        found = run(["sh", "-c", command], cwd=folder, stdin=subprocess.DEVNULL, env=dict(os.environ, PATH=path))
        tally.result(found == wanted, f"{command}: {told(found)}")


def try_unread_pipe(tally):
    """The answer is written to a pipe whose other end is closed."""
    reading, writing = os.pipe()
    os.close(reading)
    found = run([PROGRAM, "chars.count"], input=b"abc", stdout=writing)
    os.close(writing)
    tally.result(found == WRITE, f"a pipe that nobody reads: {told(found)}")


def main():
    tally = Tally()
    if build(tally):
        with tempfile.TemporaryDirectory() as folder:
            try_commands(tally, pathlib.Path(folder))
        try_unread_pipe(tally)
    return tally.end()


if __name__ == "__main__":
    sys.exit(main())
