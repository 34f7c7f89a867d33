"""Lists each `unsafe` in the source of the crates, and compares the list with the table of docs/DIFFERENCES.md.

A row has the crate, the function or the impl by its path, and what is unsafe: the body of a block, or the head of an item. An
attribute, as `#[unsafe(no_mangle)]` of each export, is not listed. It tries its search
on edited texts too: it must find each planted `unsafe`, and none in a sound text.
"""
import re

from crate_copies import ROOT

PAGE = ROOT / "docs/DIFFERENCES.md"
HEAD = "| crate | place | `unsafe` |\n|---|---|---|\n"
TABLE = re.compile(re.escape(HEAD) + r"((?:\|.*\|\n)*)")

# what is no code: comments, literals and attributes
NO_CODE = re.compile(r'//.*|/\*(?s:.*?)\*/|"(?:\\.|[^"\\])*"|\'(?:\\.|[^\'\\])\'|#!?\[[^\]]*\]')
UNSAFE = re.compile(r"\bunsafe\b")
# what a plain count leaves out, by which the search is compared
NOT_COUNTED = re.compile(r"//.*|#\[unsafe\(")
IMPL = re.compile(r"^impl\b(?:<[^{]*?>)?\s+(?:[^{]*?\bfor\s+)?(\w+)[^{]*\{.*?^\}", re.MULTILINE | re.DOTALL)
FUNCTION = re.compile(r"\bfn (\w+)")

# what the search must find in a text, as it must stand in a row, and what it must not find
FAULTS = {
    "fn a() {\n    unsafe { b() }\n}\n": "| `crate` | `a` | `b()` |",
    "fn a() {\n    let c = unsafe\n    {\n        { b() }\n    };\n}\n": "| `crate` | `a` | `{ b() }` |",
    "struct D;\nimpl<T> E for D<T> {\n    fn a() { unsafe { b() } }\n}\n": "| `crate` | `D::a` | `b()` |",
    "unsafe impl Send for D {}\n": "| `crate` | `D` | `impl Send for D` |",
    "pub unsafe fn a(b: *mut u8)\n    requires { c }\n{\n}\n": "| `crate` | `a` | `fn a(b: *mut u8)` |",
    "unsafe extern \"C\" {\n    fn a();\n}\n": "| `crate` | | `extern` |",
}
NO_FAULTS = ["#[unsafe(no_mangle)]\nfn a() {}\n", "// unsafe { b() }\nfn a() {}\n", "const A: &str = \"unsafe { b() }\";\n",
             "/* unsafe\nimpl */ fn not_unsafe() {}\n"]


def blanked(text):
    """The text with blanks in the place of what is no code, so that each place stays where it is."""
    return NO_CODE.sub(lambda found: re.sub(r"[^\n]", " ", found[0]), text)


def body(code, at):
    """What stands between a brace and the one that closes it."""
    depth = 0
    for end in range(at, len(code)):
        depth += {"{": 1, "}": -1}.get(code[end], 0)
        if depth == 0:
            return code[at + 1:end]
    return code[at + 1:]


def unsafe_parts(text):
    """Each `unsafe` of a text: the function or the type that has it, and what is unsafe."""
    code = blanked(text)
    for found in UNSAFE.finditer(code):
        rest = code[found.end():].lstrip()
        if rest.startswith("{"):
            functions = FUNCTION.findall(code[:found.start()])
            types = [impl[1] for impl in IMPL.finditer(code) if impl.start() < found.start() < impl.end()]
            yield "::".join([*types, *functions[-1:]]), body(rest, 0)
        else:
            head = re.split(r"[{;]|\b(?:requires|ensures)\b", rest)[0]
            named = re.match(r"impl\b.*\bfor\s+(\w+)|(?:fn|trait)\s+(\w+)", head, re.DOTALL)
            yield (named[1] or named[2]) if named else "", head


def rows(crate, module, text):
    """The rows of a file."""
    for place, what in unsafe_parts(text):
        path = "::".join(filter(None, [*module, place]))
        yield f"| `{crate}` | {f'`{path}` ' if path else ''}| `{' '.join(what.split())}` |"


def files():
    """The sources of the crates."""
    return sorted(ROOT.glob("crates/*/src/**/*.rt"))


def all_rows():
    """The rows of all crates, as the table has them."""
    found = []
    for path in files():
        _, crate, _, *module = path.relative_to(ROOT).with_suffix("").parts
        found += rows(crate, [name for name in module if name not in ("lib", "main", "mod")], path.read_text(encoding="utf-8"))
    return found


def write():
    """Writes the table anew."""
    table = HEAD + "".join(f"{row}\n" for row in all_rows())
    PAGE.write_text(TABLE.sub(lambda _: table, PAGE.read_text(encoding="utf-8")), encoding="utf-8")


def check(tally):
    found = all_rows()
    table = TABLE.search(PAGE.read_text(encoding="utf-8"))
    told = table[1].splitlines() if table else []
    differing = [f"only in the code: {row}" for row in found if row not in told]
    differing += [f"only on the page: {row}" for row in told if row not in found]
    tally.result(told == found, f"{PAGE.name} lists each of {len(found)} `unsafe`", "\n".join(differing) or "not in this order")
    words_of_code = len(UNSAFE.findall("".join(NOT_COUNTED.sub("", path.read_text(encoding="utf-8")) for path in files())))
    tally.result(len(found) == words_of_code, f"there are {words_of_code} such words outside of comments and attributes")
    for text, row in FAULTS.items():
        tally.result(list(rows("crate", [], text)) == [row], f"the search finds {row}", f"{list(rows('crate', [], text))}")
    tally.result(not any(list(rows("crate", [], text)) for text in NO_FAULTS), "the search finds nothing in what is no code")
