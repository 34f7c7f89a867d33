"""Searches names and words: a thing has one, and a function that is no test is named by no bare participle.

The words of docs/DEFINITIONS.md are the ones to use. A name that was given up for one of them is searched in the sources,
the definitions, the headers and the pages. A wrong body names a function that its crate has.
"""
import pathlib
import re
import subprocess

from crate_copies import ROOT

ROPE = r"^(crates/(text_rope|text_rope_c)/(src|specs|[A-Z])|bindings/rope/|bindings/c/include/str_rope)"
SOURCES = r"^(crates|bindings|examples)/.*(/src/|/specs/|/include/|\.md$)|^README\.md$|^docs/[A-CE-Z].*\.md$"
# where a word is searched, the word, what finds it, and the one that is used
GIVEN_UP = [
    (ROPE, "row", r"(?<!\.)[Rr]ows?", "chunk"), (ROPE, "block", r"[Bb]locks (?=of)", "leaf"),
    (ROPE, "fork", r"[Ff]orks?", "branch"),
    (SOURCES, "MAX_PIECE", r"(MAX|MIN)_PIECE", "MAX_CHUNK"),
    (SOURCES, "exchange", r"[Ee]xchange[sd]?(_\w+)?", "replace, splice or update"),
    (r"^crates/(?!str_indices/).*/(src|specs)/", "behind", r"\w*behind\w*(?! a reference)", "after"),
    (r"^crates/.*/src/.*\.rt$", "character", r"(?<=// ).*characters(?! of the Unicode)", "char"),
]
# what ends like a participle, and is none, or is a name of ropey or serde
NOUNS = {"encoding", "expecting", "feed", "heading", "reversed", "seed", "string"}
IRREGULAR = {"begun", "built", "found", "given", "held", "kept", "known", "left", "lent", "lost", "made", "shown", "taken",
             "written"}
DECLARED = re.compile(r"\b(?:struct|enum|trait) (\w+)")
REFUSED = re.compile(r"^refuses: ([\w:]+)", re.MULTILINE)
FUNCTION = re.compile(r"^ *(?:pub(?:\(crate\))? )?fn ([a-z]+)\b", re.MULTILINE)


def files():
    """The text of each file that git knows, or would, by its name."""
    endings = ["*.rt", "*.antt", "*.rs", "*.h", "*.hpp", "*.md", "*.edits"]
    listed = ["git", "ls-files", "--cached", "--others", "--exclude-standard", *endings]
    names = subprocess.run(listed, cwd=ROOT, capture_output=True, text=True, check=True).stdout.splitlines()
    return {name: (ROOT / name).read_text(encoding="utf-8") for name in names if (ROOT / name).is_file()}


def is_participle(name):
    """Whether a name is one word that says what was done, or is being done."""
    return name not in NOUNS and (name in IRREGULAR or name.endswith(("ed", "ing")))


def lines_with(found, where, pattern):
    """Each line of the files of a place in which a pattern is."""
    for name, text in found.items():
        if re.search(where, name):
            for number, line in enumerate(text.splitlines(), 1):
                if re.search(pattern, line):
                    yield f"{name}:{number}: {line.strip()}"


def has_function(text, function):
    """Whether a crate's text declares a function, and the type, with a trait or not, that its name begins with."""
    *path, name = function.split("::")
    declared = DECLARED.findall(text)
    types = [part for part in path if part[0].isupper()]
    known = [part for part in types if any(part.startswith(of) or part.endswith(of) for of in declared)]
    return known == types and re.search(rf"\bfn {name}\b", text)


def unknown_functions(found):
    """The functions that wrong bodies name, and that their crates do not have."""
    for edits in [name for name in found if name.endswith(".edits")]:
        crate = pathlib.Path(edits).stem
        text = "\n".join(text for name, text in found.items() if name.startswith(f"crates/{crate}/src/"))
        yield from [f"{edits}: {function}" for function in REFUSED.findall(found[edits]) if not has_function(text, function)]


def check(tally):
    found = files()
    for where, word, pattern, used in GIVEN_UP:
        lines = list(lines_with(found, where, rf"\b({pattern})\b"))
        tally.result(not lines, "\n".join([f"no {word} where it is {used}", *lines]))
    named = [f"{name}: {function}" for name, text in found.items() if re.match(r"(crates|bindings|examples)/.*/src/", name)
             for function in FUNCTION.findall(text) if is_participle(function)]
    tally.result(not named, "\n".join(["no function is named by a bare participle", *named]))
    unknown = list(unknown_functions(found))
    tally.result(not unknown, "\n".join(["each wrong body names a function of its crate", *unknown]))
