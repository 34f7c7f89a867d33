"""Shows by the text of its file that a chunk which is a number works on all its lanes at once.

A loop over lanes would meet the same contracts. So a file that implements `ByteChunk` for an integer type has no loop,
no branch and no test, and brackets of an array or a slice in `load` alone. Each such file is searched, and then edited
texts of it, in which the search must find the fault: a search that finds nothing anywhere would pass. The last line
printed is 'N passed, M failed'.
"""
import re

from crate_copies import ROOT

# the chunk types that are numbers, each in a file of its own
NUMBERS = ["u128", "usize"]

IMPL = re.compile(r"^impl ByteChunk for (usize|u\d+) \{$", re.MULTILINE)
LOAD = re.compile(r"    fn load\(.*?\n    \}\n", re.DOTALL)
# what such a file has not, and how it is found; the last is allowed in `load`
FORBIDDEN = {
    "a loop": r"\b(for|while|loop|map|fold|iter|into_iter|from_fn)\b", "a branch": r"\b(if|match)\b",
    "a test": r"#\[(test|cfg\(test\))\]|\bmod tests\b", "an array outside of load": r"(?<!#)\[|\bVec\b",
}

# a fault each, put in at the first line of a call that every chunk type has
FIRST_LINE = "    fn sum_bytes(&self) -> usize {\n"
FAULTS = {
    "a loop": "for lane in 0..8 {}", "a loop without a word of its own": "(0..8).into_iter();",
    "a branch": "if *self == 0 { return 0; }", "an array": "let lanes = self.to_le_bytes()[0];", "a test": "#[test]",
}


def faults(text):
    """What the text has that it should not have."""
    code = IMPL.sub("", re.sub(r"//.*", "", text))
    looked_at = {what: LOAD.sub("", code) if "load" in what else code for what in FORBIDDEN}
    found = {what: re.search(pattern, looked_at[what]) for what, pattern in FORBIDDEN.items()}
    return [f"{what}: {hit[0]}" for what, hit in found.items() if hit]


def check(tally):
    texts = {path: path.read_text(encoding="utf-8") for path in sorted(ROOT.glob("crates/*/src/**/*.rt"))}
    files = [path for path, text in texts.items() if IMPL.search(text)]
    types = [IMPL.findall(texts[path]) for path in files]
    right = sorted(types) == [[number] for number in NUMBERS]
    tally.result(right, f"a file each has the chunks that are numbers: {types}")
    for path in files:
        name = path.relative_to(ROOT)
        text = texts[path]
        found = faults(text)
        tally.result(not found, f"{name} works on all lanes at once" + "".join(f", but has {fault}" for fault in found))
        for what, line in FAULTS.items():
            edited = text.replace(FIRST_LINE, f"{FIRST_LINE}        {line}\n")
            tally.result(edited != text and bool(faults(edited)), f"{name} with {what} is refused")
