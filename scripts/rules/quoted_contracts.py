"""Compares what the pages for callers quote of Rattle with the source.

The pages are the README and each CALLING.md. In a block of Rattle the first line names a file, in a comment. What comes
after it is a quote of that file: it stands there to the letter but for blanks and line breaks, as whole lines, in the
file's order, and no clause or line of what it shows is missing. Where some is, a comment `// ..` says so. The crate `mine`
is the caller's own: what comes after one of its files is what a caller writes, and no quote. So is a block of
statements, which declares nothing; but a formula in a comment there is that of a clause. A block that is none of these
fails, and so does a contract in a block of another language.

The search is tried on edited blocks too, in which it must find the fault: each quoted line with another word in it, each
that is left out, each block with no file named, and some that break the other rules.
"""
import functools
import re

from crate_copies import ROOT

RATTLE = {"rust", "antt"}
# what else the pages show: commands, C, JavaScript, and files that list or configure
OTHERS = {"sh", "c", "js", "toml", "text"}

BLOCK = re.compile(r"^```(\w*)\n(.*?)^```$", re.MULTILINE | re.DOTALL)
FENCE = re.compile(r"^\s*(?:```|~~~)", re.MULTILINE)
FILE = re.compile(r"^ *(?://|--) (crates/[\w/+.-]+) *$", re.MULTILINE)
LEFT_OUT = re.compile(r" *(?://|--) \.\.(?: .*)?")
# lines that part what is quoted, and a line of a source: how far in it is, and its first word
GAP = re.compile(rf"^((?:(?:{LEFT_OUT.pattern}| *)\n)+)", re.MULTILINE)
LINE = re.compile(r"^( *)(\S+)", re.MULTILINE)
ITEM = re.compile(r"^\s*(?:pub(?:\([\w ]+\))? )?(?:fn|impl|struct|enum|trait|const|mod|use|ghost)\b", re.MULTILINE)
CLAUSE = re.compile(r"\b(?:ensures|requires)\b")
# the crate of the caller's own
OWN = "crates/mine/"

# blocks, and whether each is right
ROWS = [
    ("rust", "// crates/mine/src/lib.rt\npub fn f() {}\n", True),
    ("rust", "pub fn f() {}\n", False),
    ("rust", "// crates/str_indices/src/chars.rt\n", False),
    ("rust", "// crates/str_indices/src/characters.rt\npub fn f() {}\n", False),
    ("rust", "let n = chars::count(text);   // result ≡ count Chars (chars text.now)\n", True),
    ("rust", "let n = chars::count(text);   // result ≡ count Utf8 (chars text.now)\n", False),
    ("rust", "let n = chars::count(text);\n    ensures { result ≡ count Chars (chars text.now) }\n", False),
    ("antt", "pub returns : goal.returns\n", False),
    ("text", "str_indices: byte_chunk\n", True),
    ("text", "fn count(text: &str) -> usize\n", False),
    ("text", "count: ensures the number of characters\n", False),
    ("text", "count: result ≡ count Chars cs\n", False),
    ("", "count\n", False),
]


@functools.cache
def read(path):
    return path.read_text(encoding="utf-8")


@functools.cache
def contracts():
    """All sources of crates, in words."""
    return [" ".join(read(path).split()) for path in ROOT.glob("crates/*/src/**/*.rt")]


def indentation(line):
    return len(line[1])


def goes_on(text, least, end):
    """The word after a place of a source that belongs to lines of that indentation: it is further in, or closes them."""
    line = LINE.search(text, end)
    is_closing = line and indentation(line) == least and line[2][0] in "})]"
    return line[2] if line and (indentation(line) > least or is_closing) else None


def is_inside(text, at):
    """Whether a line is a part of what begins before it: the line before is not as far in."""
    before = [*LINE.finditer(text, 0, at)]
    return bool(before) and indentation(before[-1]) < indentation(LINE.search(text, at))


def fault_in(text, paragraphs):
    """What is wrong with paragraphs that are quoted of one source."""
    # where the last one ends, and the least indentation of what is quoted and not over, or None where all is
    end, open_from = 0, None
    is_after_gap = False
    for words, leaves_out in paragraphs:
        told = f"{' '.join(words[:8])} .."
        found = re.compile(r"^ *" + r"\s+".join(map(re.escape, words)) + " *$", re.MULTILINE).search(text, end)
        if not found:
            return f"it has no such lines: {told}"
        if text[end:found.start()].strip() and not is_after_gap:
            more = open_from is not None and goes_on(text, open_from, end)
            if more:
                return f"it goes on with {more} before {told}"
            if is_inside(text, found.start()):
                return f"what {told} belongs to is left out"
            open_from = None
        is_after_gap, end = leaves_out, found.end()
        indented = map(indentation, LINE.finditer(text, found.start(), end))
        open_from = min([*indented, *([] if open_from is None else [open_from])])
    more = not is_after_gap and goes_on(text, open_from, end)
    return f"it goes on with {more} after {' '.join(words[-6:])}" if more else None


def fault_of_quote(name, body):
    """What is wrong with what a block quotes of a file: of its paragraphs, each with whether something is left out after it."""
    texts = [*GAP.split(f"{body}\n"), ""]
    paragraphs = [(text.split(), ".." in gap) for text, gap in zip(texts[::2], texts[1::2]) if text.split()]
    if not paragraphs:
        return f"nothing is quoted of {name}"
    return fault_in(read(ROOT / name), paragraphs) if (ROOT / name).is_file() else f"there is no {name}"


def fault_of_statements(block):
    """What is wrong with a block of a caller's own statements."""
    if ITEM.search(block):
        return "its first line names no file"
    if CLAUSE.search(block):
        return "it has a clause, and its first line names no file"
    comments = [line.partition("//")[2].strip() for line in block.splitlines()]
    return next((f"no clause is {comment}" for comment in comments if "≡" in comment and not is_clause(comment)), None)


def is_clause(formula):
    """Whether some clause of the source is this formula."""
    wanted = f"{{ {' '.join(formula.split())} }}"
    return any(wanted in words for words in contracts())


def fault_of(language, block):
    """What is wrong with a block; None where it is a quote of the source, a caller's own, or no Rattle."""
    if language in OTHERS:
        is_contract = CLAUSE.search(block) or "≡" in block or language == "text" and ITEM.search(block)
        return "it has a contract, and is no block of Rattle" if is_contract else None
    if language not in RATTLE:
        return f"nothing is known of the language {language!r}"
    head, *parts = FILE.split(block)
    if head or not parts:
        return "its first line names no file" if language == "antt" else fault_of_statements(block)
    quotes = [quote for quote in zip(parts[::2], parts[1::2]) if not quote[0].startswith(OWN)]
    return next(filter(None, (fault_of_quote(*quote) for quote in quotes)), None)


def edits_of(block):
    """Blocks that are wrong, made of one that quotes, and what was done to it."""
    lines = block.splitlines()
    yield "no file named", "\n".join(lines[1:])
    for number in quoted_lines(lines):
        before, line, after = lines[:number], lines[number], lines[number + 1:]
        exchanged = re.sub(r"\w+", "another", line, count=1)
        if exchanged != line:
            yield f"a word exchanged in {line.strip()}", "\n".join([*before, exchanged, *after])
        if is_needed(lines, number):
            yield f"{line.strip()} left out", "\n".join([*before, *after])


def quoted_lines(lines):
    """The numbers of the lines that are quoted of the source."""
    own = True
    for number, line in enumerate(lines):
        named = FILE.fullmatch(line)
        own = named[1].startswith(OWN) if named else own
        if line.strip() and not (own or named or LEFT_OUT.fullmatch(line)):
            yield number


def is_needed(lines, number):
    """Whether a line is a part of something that a block shows, or its head, where nothing else is left out beside it."""
    before = next(line for line in reversed(lines[:number]) if line.strip())
    after = next((line for line in lines[number + 1:] if line.strip()), "")
    is_in_gap = LEFT_OUT.fullmatch(before) or LEFT_OUT.fullmatch(after)
    return not is_in_gap and (lines[number].startswith((" ", "}")) or [*lines, ""][number + 1].startswith(" "))


def try_page(tally, path):
    name = path.relative_to(ROOT)
    text = read(path)
    blocks = BLOCK.findall(text)
    tally.result(len(FENCE.findall(text)) == 2 * len(blocks), f"{name} has no fences but those of {len(blocks)} blocks")
    for number, (language, block) in enumerate(blocks, start=1):
        fault = fault_of(language, block)
        if language in RATTLE or fault:
            tally.result(fault is None, f"{name}, block {number}" + (f": {fault}" if fault else ""))
        if language in RATTLE and any(quoted_lines(block.splitlines())):
            missed = [f", but not: {what}" for what, edited in edits_of(block) if fault_of(language, edited) is None]
            tally.result(not missed, f"{name}, block {number}, is refused where it is edited{''.join(missed)}")


def check(tally):
    pages = [ROOT / "README.md", *sorted(ROOT.glob("crates/*/CALLING.md"))]
    tally.result(len(pages) > 5, f"{len(pages)} pages are for callers")
    for path in pages:
        try_page(tally, path)
    for language, block, is_right in ROWS:
        tally.result((fault_of(language, block) is None) == is_right, f"{'right' if is_right else 'refused'} is {block!r}")
