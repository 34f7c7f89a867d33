"""Times ways to keep a text, in turns, and prints a table. bench/rope and bench/index say of which ways.

The program of what is proved lies beside this file: as any program it is proved before it runs, in a copy of the crates.
The programs of the buffers that people know stand in peers/, in C++, and the program of the other ways in plain/, in Rust. Each
buffer needs a package of Debian. Where the package is missing, the way is left out, or is an error where it is named. Where two
ways answer otherwise, the status is 1.
"""
import argparse
import os
import pathlib
import random
import shutil
import statistics
import subprocess
import sys
import tempfile
from typing import NamedTuple

import picture

BENCH = pathlib.Path(__file__).resolve().parent
sys.path.insert(0, str(BENCH.parent / "scripts"))

from crate_copies import copy_program  # noqa: E402

# The rows in which more is better, and the rows of memory.
RATES = ("load", "read")
WEIGHTS = ("loaded", "inserted", "removed")

TURNS = 5


class Size(NamedTuple):
    """A text's size, and how much is done with it: the questions, of some ways fewer, and the words of each job after them. A
    short text is changed alone. Of a buffer that people know the memory after a load is told, and no more."""

    name: str
    length: int
    questions: int = 0
    fewer_questions: dict = {}
    times: tuple = ()
    short: tuple = ()
    edges: tuple = ()
    memory: tuple = None
    one_line: bool = False

    def jobs(self, way, is_weighed):
        """The words of each job that the way has here."""
        is_peer = way in PEERS
        if self.short:
            return [] if is_peer else [("short", *self.short)]
        jobs = [("times", self.fewer_questions.get(way, self.questions), *self.times)]
        if self.edges and not is_peer:
            jobs.append(("edges", *self.edges))
        if is_weighed and self.memory is not None:
            jobs.append(("memory", *([0] if is_peer else self.memory)))
            jobs += [("removals",)] if self.memory and not is_peer else []
        return jobs


class Peer(NamedTuple):
    """A buffer that people know: Debian's package, the name that pkg-config has for it or for what it stands on, a header, and
    libraries that the name does not bring."""

    package: str
    name: str
    header: str
    libraries: tuple = ()


PEERS = {
    "scintilla": Peer("libqscintilla2-qt5-dev", "Qt5Widgets", "Qsci/qsciscintillabase.h", ("-lqscintilla2_qt5",)),
    "gtk": Peer("libgtk-3-dev", "gtk+-3.0", "gtk-3.0/gtk/gtk.h"),
    "qt": Peer("qtbase5-dev", "Qt5Gui", "QtGui/QTextDocument"),
}


class Table(NamedTuple):
    """What is timed: the proved program with its modules, what it stands on, and its ways; what the table calls each way; the
    ways that take so long that they run once, and those whose memory is told; rows by the first word of the program's lines,
    and sizes; and the rows that are drawn, which every size has but the short ones."""

    program: str
    modules: tuple
    libraries: list
    proved: tuple
    ways: dict
    slow: tuple
    weighed: tuple
    rows: dict
    sizes: tuple
    small: tuple
    drawn: tuple = ()


# The words from which a text is drawn.
WORDS = (
    "the ", "rope ", "keeps ", "a ", "long ", "text ", "in ", "fn insert(", "&mut self", "); ", "let x = ", "return ", "0x1f ",
    "// ", "if ", "über ", "naïve ", "– ", "せかい ", "文字列 ", "日本 ", "Привет ", "🐸 ",
)

# No line has more bytes than this.
LONGEST = 80

# A shorter text is the beginning of a text of this size.
SHORT = 1_000


def line_of(chosen):
    """A line of 20 bytes to about 60."""
    least = chosen.randint(20, 60)
    line = ""
    while len(line.encode()) < least:
        line += chosen.choice(WORDS)
    return line.encode() + b"\n"


def text_of(size):
    """Returns lines of almost `size.length` bytes, equal in each run. After a megabyte the lines repeat."""
    if size.length < SHORT:
        return text_of(size._replace(length=SHORT))[:size.length].decode(errors="ignore").encode()
    chosen = random.Random(size.length)
    lines = bytearray()
    while len(lines) < min(size.length, 1_000_000) - LONGEST:
        lines += line_of(chosen)
    lines = bytes(lines).replace(b"\n", b" ") if size.one_line else bytes(lines)
    return lines * (size.length // len(lines))


def program_of(name, libraries, folder):
    """Puts the program beside this file into the folder, with copies of what it stands on; answers where it is."""
    source = (BENCH / f"{name}.rt.txt").read_text(encoding="utf-8")
    return copy_program(f"bench_{name}", libraries, source, folder)


def proved(table, folder):
    """Proves and builds a table's program, with its modules; answers it."""
    crate = program_of(table.program, table.libraries, folder)
    for module in table.modules:
        (crate / f"src/{module}.rt").write_text((BENCH / f"{module}.rt.txt").read_text(encoding="utf-8"), encoding="utf-8")
    (folder / "none").touch()
    first = ["rt", "run", "--", table.proved[0], str(folder / "none"), "memory", *("0" for _ in table.sizes[-1].memory)]
    subprocess.run(first, cwd=crate, stdout=subprocess.DEVNULL, stderr=subprocess.DEVNULL, check=True)
    return crate / "out" / crate.name


def plain():
    """Builds the program in Rust; answers it."""
    build = ["cargo", "build", "--release", "--offline", "--quiet"]
    # The processors for which the proved program is built.
    processors = dict(os.environ, RUSTFLAGS="-C target-cpu=x86-64-v2")
    subprocess.run(build, cwd=BENCH / "plain", env=processors, check=True)
    return BENCH / "plain" / os.environ.get("CARGO_TARGET_DIR", "../../target") / "release" / "plain"


def is_missing(way):
    """Whether the way is a buffer that cannot be built here."""
    if way not in PEERS:
        return False
    if not all(map(shutil.which, ["c++", "pkg-config"])):
        return True
    asked = ["pkg-config", "--variable=includedir", PEERS[way].name]
    headers = subprocess.run(asked, stdout=subprocess.PIPE, stderr=subprocess.DEVNULL, text=True).stdout.strip()
    return not headers or not (pathlib.Path(headers) / PEERS[way].header).exists()


def peer(way, folder):
    """Builds the program of a buffer, in C++; answers it."""
    asked = ["pkg-config", "--cflags", "--libs", PEERS[way].name]
    flags = subprocess.run(asked, stdout=subprocess.PIPE, text=True, check=True).stdout.split()
    sources = [BENCH / "peers" / f"{name}.cpp" for name in ("main", "calls", "twin", way)]
    build = ["c++", "-std=c++17", "-O2", "-fPIC", *sources, *flags, *PEERS[way].libraries, "-o", folder / way]
    subprocess.run(build, check=True)
    # Qt wants such a folder, and would make one.
    os.environ.setdefault("XDG_RUNTIME_DIR", str(folder))
    return folder / way


def told(program, way, file, *job):
    """The lines that a program prints: figure and check sum, each by its name. `-` stands for a sum that is not compared."""
    ran = subprocess.run([str(word) for word in (program, way, file, *job)], stdout=subprocess.PIPE, text=True)
    if ran.returncode:
        sys.exit(f"bench: the program of the {way} ends with status {ran.returncode}")
    lines = [line.split() for line in ran.stdout.splitlines()]
    return {name: (int(figure), None if check == "-" else int(check)) for name, figure, check in lines}


def measured(table, programs, size, file):
    """The figures of each row, by row and way, of all turns; and the check sums, by row."""
    figures = {name: {way: [] for way in programs} for name in table.rows}
    sums = {name: set() for name in table.rows}
    for turn in range(TURNS):
        for way, program in programs.items():
            if turn and way in table.slow:
                continue
            for job in size.jobs(way, is_weighed=not turn and way in table.weighed):
                for name, (figure, check) in told(program, way, file, *job).items():
                    figures[name][way].append(figure)
                    sums[name] |= {check} - {None}
    differ = [name for name, checks in sums.items() if len(checks) > 1]
    if differ:
        sys.exit(f"bench: at {size.name} the answers differ: {', '.join(differ)}")
    return figures, sums


def rows(table, size, figures, sums):
    """The rows of a size: medians of the turns, and memory over the bytes of the text. A way without a figure has a dash."""
    for name, title in table.rows.items():
        found = [figures[name][way] for way in figures[name]]
        if not any(found):
            continue
        if name in WEIGHTS:
            cells = [f"{turns[0] / max(sums[name]):.2f}" if turns else "–" for turns in found]
        else:
            cells = [f"{statistics.median(turns):,.0f}" if turns else "–" for turns in found]
        yield f"| {size.name}: {title} | " + " | ".join(cells) + " |"


def ratios(table, figures):
    """Yields, for each row that is drawn, the rope's time over the B-tree's time."""
    for name in table.drawn:
        rope, btree = (statistics.median(figures[name][way]) for way in ("rope", "btree"))
        yield table.rows[name].rpartition(",")[0], btree / rope if name in RATES else rope / btree


def main(table):
    needs = [f"{way} needs Debian's package {known.package}" for way, known in PEERS.items() if way in table.ways]
    told_of = f"{', '.join(needs)}; each needs c++ and pkg-config." if needs else None
    parser = argparse.ArgumentParser(prog=f"bench/{table.program}", epilog=told_of)
    parser.add_argument("--small", action="store_true")
    if table.drawn:
        parser.add_argument("--picture", type=pathlib.Path, metavar="FILE")
    parser.add_argument("ways", nargs="*", metavar="WAY", help=", ".join(table.ways))
    words = parser.parse_args()
    drawn_into = table.drawn and words.picture
    if not set(words.ways) <= set(table.ways):
        parser.error(f"the ways are {', '.join(table.ways)}")
    for way in filter(is_missing, words.ways):
        parser.error(f"{way} needs Debian's package {PEERS[way].package}, c++ and pkg-config")
    ways = [way for way in table.ways if (way in words.ways if words.ways else not is_missing(way))]
    if drawn_into and not {"rope", "btree"} <= set(ways):
        parser.error("the picture is of the rope and the B-tree")
    tables = []
    with tempfile.TemporaryDirectory() as name:
        folder = pathlib.Path(name)
        ours = proved(table, folder) if set(ways) & set(table.proved) else None
        others = plain() if set(ways) - set(table.proved) - set(PEERS) else None
        programs = {
            way: ours if way in table.proved else peer(way, folder) if way in PEERS else others for way in ways
        }
        print("| | " + " | ".join(table.ways[way] for way in ways) + " |")
        print("|---|" + "---:|" * len(ways), flush=True)
        for size in table.small if words.small else table.sizes:
            (folder / "text").write_bytes(text_of(size))
            figures, sums = measured(table, programs, size, folder / "text")
            for row in rows(table, size, figures, sums):
                print(row, flush=True)
            if drawn_into and not size.short:
                tables.append((size.name, list(ratios(table, figures))))
    if drawn_into:
        drawn = picture.draw("Our rope's time / a plain B-tree's", f"medians of {TURNS} turns", tables, "as fast as the B-tree")
        drawn_into.write_text(f"{drawn}\n", encoding="utf-8")
