"""Shows by their texts that what is said once more is the same: clauses, and what the benchmark calls.

A wrong body is tried at one implementation of a call of `ByteChunk` or `Utf8Chunk`. That stands for the others where these have
the same clauses. So no implementation of these traits may state a clause of its own, which would take the place of the trait's.

The workloads are timed over the sources of the start too, the commit of bench/start.txt, with another file in the place of
the one that has all of the libraries' names. So each name in that file must be public there, and no workload may call what is
public now and was not then. Without the history of the start this is left out.

All searches are tried on edited texts too, in which they must find the fault.
"""
import re
import subprocess

from crate_copies import ROOT

START = ROOT / "bench/start.txt"
PERF = ROOT / "docs/PERF.md"
WORKLOADS = ROOT / "crates/workloads/src"
LIBRARY = WORKLOADS / "library.rt"
LIBRARY_AT_START = ROOT / "bench/start.rt.txt"

IMPL = re.compile(r"^impl (?:ByteChunk|Utf8Chunk) for [^\n]*\{\n.*?^\}", re.MULTILINE | re.DOTALL)
# the head of a call that each of these has
HEAD = re.compile(r"^    fn (?:zero|faults)\(.*\) -> Self(?= \{$)", re.MULTILINE)
CLAUSE = re.compile(r"^\s+(requires|ensures)\b", re.MULTILINE)
NAMED = re.compile(r"^pub\(crate\) use (\w+)::([^;]+);", re.MULTILINE)
PUBLIC = re.compile(r"^ *pub (?:use|fn|mod|enum|struct|type|const|trait) ([^;({]+(?:\{[\w, \n]*\};)?)", re.MULTILINE)
# public functions with the name of one of `std` that the workloads call
NAMES_OF_STD = {"get"}


def read(*paths):
    """The texts of files, one after another."""
    return "".join(path.read_text(encoding="utf-8") for path in paths)


def sources(folder="*"):
    """The source files of a crate, or of all."""
    return sorted(ROOT.glob(f"crates/{folder}/src/**/*.rt"))


def own_clauses(text):
    """How many clauses the implementations of the traits in the text state."""
    return sum(len(CLAUSE.findall(block)) for block in IMPL.findall(text))


def try_chunks(tally):
    texts = {path.relative_to(ROOT): read(path) for path in sources() if IMPL.search(read(path))}
    tally.result(len(texts) > 5, f"{len(texts)} files implement ByteChunk or Utf8Chunk")
    for name, text in texts.items():
        tally.result(own_clauses(text) == 0, f"{name} states no clause of a call")
        edited = HEAD.sub(r"\g<0>\n        ensures { result ≡ result }\n   ", text)
        tally.result(own_clauses(edited) > 0, f"{name} with a clause is refused")


def sources_of(start, crates):
    """The sources of crates at the start, one after another; None where git does not have it."""
    command = ["git", "grep", "-h", "", start, "--", f"crates/{crates}/src/*"]
    found = subprocess.run(command, cwd=ROOT, capture_output=True, text=True)
    return found.stdout if found.returncode < 2 else None


def not_public(library, start):
    """The names that a file has of the libraries, and that are not public in these at the start."""
    for crate, names in NAMED.findall(library):
        public = set(re.findall(r"\w+", " ".join(PUBLIC.findall(sources_of(start, crate)))))
        names = re.sub(r" as \w+", "", names)
        yield from (f"{crate}::{name}" for name in re.findall(r"\w+", names) if name not in public)


def called_later(texts, then, now):
    """What the texts call, do not define, and what is a public function now, and was none then."""
    own, called = re.findall(r"\bfn (\w+)", texts), re.findall(r"(?:\.|::)(\w+)\(", texts)
    later = {*re.findall(r"\bpub fn (\w+)", now)} - {*re.findall(r"\bpub fn (\w+)", then)}
    return sorted((later & {*called}) - {*own} - NAMES_OF_STD)


def try_start(tally):
    start = read(START).strip()
    first, _, _ = read(PERF).partition("\n")
    tally.result(start in first, f"{PERF.name} names the start in its first line")
    then = sources_of(start, "*")
    if then is None:
        tally.leave_out(4, f"what the workloads call at the start, as git has no {start}")
        return
    paths = [path for path in sources() if WORKLOADS not in path.parents]
    now, crates = read(*paths), "|".join(sorted({path.relative_to(ROOT).parts[1] for path in paths}))
    workloads = read(*(path for path in sources("workloads") if path != LIBRARY))
    tally.result(not re.search(rf"\b({crates})::", workloads), f"{LIBRARY.relative_to(ROOT)} alone names a library")
    names = LIBRARY_AT_START.relative_to(ROOT)
    library = read(LIBRARY_AT_START)
    astray = list(not_public(library, start))
    tally.result(not astray, f"the start has all that {names} names {' '.join(astray)}")
    later = called_later(workloads + library, then, now)
    tally.result(not later, f"the start has all that the workloads call {' '.join(later)}")
    library = read(LIBRARY)
    found = [*not_public(library, start)], called_later(workloads + library, then, now)
    tally.result(all(found), f"what the start has not is found: {' '.join([*found[0], *found[1]])}")


def check(tally):
    try_chunks(tally)
    try_start(tally)
