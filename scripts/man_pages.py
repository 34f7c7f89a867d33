"""Writes the manual pages of a library for C by its headers, which say all that they say: man_pages.py LIBRARY FOLDER

The folder then has the page of the library, and for each function one that leads there, in the place of what it had.
"""
import pathlib
import re
import sys
import textwrap

ROOT = pathlib.Path(__file__).resolve().parents[1]
INCLUDE = ROOT / "bindings/c/include"

# each library: a title, and its headers
PAGES = {
    "str_indices": ("counts and converts the indices of a text", ["str_indices.h", "str_indices_positions.h"]),
    "str_rope": ("a text that changes, and its indices", ["str_rope.h"]),
    "str_index": ("an index beside a text that does not change", ["str_index.h"]),
}
SECTION = 3
# a comment at the left, and the lines that follow it up to an empty one
BLOCK = re.compile(r"^/\*(.*?)\*/\n((?:[^\n]+\n)*)", re.MULTILINE | re.DOTALL)
FUNCTION = re.compile(r"\b(\w+)\([^(){}]*\);")
# a field of a struct or a name of an enum that has a comment
FIELD = re.compile(r"^ +([\w *]*?\w)(?: = \d+)?[,;]? +/\*(.*?)\*/", re.MULTILINE | re.DOTALL)
INNER = re.compile(r" */\*.*?\*/", re.DOTALL)
QUOTED = re.compile(r"`([^`]+)`")
ITEM = "  - "
# how wide a declaration is at most, since a page has 80 columns and a margin
WIDTH = 72


def escaped(text):
    """The text as it is to be seen, line by line."""
    lines = text.replace("\\", "\\e").replace("-", "\\-").splitlines()
    return "\n".join(f"\\&{line}" if line.startswith((".", "'")) else line for line in lines)


def bare(comment):
    """What a comment says, without what marks it as one."""
    return "\n".join(re.sub(r"^ *\* ?", "", line).rstrip() for line in comment.strip("\n").splitlines()).strip("\n")


def as_it_stands(text):
    return f".nf\n{escaped(text)}\n.fi\n"


def paragraph(text):
    """One paragraph: a list, lines that stand as they are, or running text."""
    if text.startswith(ITEM):
        items = re.split(r"^  - ", text, flags=re.MULTILINE)[1:]
        return "".join(f".IP \\(bu 2\n{running(textwrap.dedent('    ' + item))}" for item in items)
    if text.startswith("  "):
        return f".PP\n.RS 2\n{as_it_stands(textwrap.dedent(text))}.RE\n"
    return f".PP\n{running(text)}"


def running(text):
    """Text that is filled, where what stands in backticks is bold."""
    return QUOTED.sub(r"\\fB\1\\fR", escaped(text.strip())) + "\n"


def paragraphs(text):
    return "".join(paragraph(one) for one in re.split(r"\n\n+", text))


def declaration(code):
    """Wraps a declaration of functions to the width of a page."""
    lines = []
    for one in " ".join(code.split()).replace("; ", ";\n").splitlines():
        bound = ", ".join(part.replace(" ", "\0") for part in re.sub(r"^\w+_CHECKED ", "", one).split(", "))
        lines += textwrap.wrap(bound, WIDTH, subsequent_indent="    ", break_long_words=False)
    return "\n".join(lines).replace("\0", " ")


def part(code, said):
    """What a comment and the code below it say, as the section that it goes to and its text."""
    if code.startswith("typedef"):
        fields = FIELD.findall(code)
        told = "".join(f".TP\n{name.split()[-1].lstrip('*')}\n{running(' '.join(what.split()))}" for name, what in fields)
        return "TYPES", f".PP\n{as_it_stands(INNER.sub('', code).strip())}.RS 2\n{paragraphs(said)}{told}.RE\n"
    if code.startswith("#"):
        names = dict.fromkeys(re.findall(r"#define (\w+)", code))
        return "MACROS", f".TP\n{escaped(', '.join(names))}\n{running(said)}"
    if FUNCTION.search(code):
        return "FUNCTIONS", f".PP\n{as_it_stands(declaration(code))}.RS 2\n{paragraphs(said)}.RE\n"
    return "FUNCTIONS", paragraphs(said)


def parts(text):
    """The sections of a header, each with the texts that go there; the first comment is the description."""
    found = {"DESCRIPTION": [], "MACROS": [], "TYPES": [], "FUNCTIONS": []}
    for number, (comment, code) in enumerate(BLOCK.findall(text)):
        section, page = part(code, bare(comment).strip()) if number else ("DESCRIPTION", paragraphs(bare(comment)))
        found[section].append(page)
    return found


def functions(text):
    """The names of the functions of a header."""
    declared = [code for _, code in BLOCK.findall(text) if not code.startswith(("#", "typedef"))]
    return [name for code in declared for name in FUNCTION.findall(code)]


def man_page(library, title, headers, version):
    """The page of a library, by the texts of its headers."""
    sections = {}
    for text in headers.values():
        for section, pages in parts(text).items():
            sections.setdefault(section, []).extend(pages)
    includes = "".join(f"#include <{header}>\n" for header in headers)
    page = [f'.TH {library.upper()} {SECTION} "" "pauskern {version}"\n.nh\n.ad l\n.SH NAME\n{library} \\- {title}\n',
            f".SH SYNOPSIS\n{as_it_stands(includes)}.PP\nLink with \\fI\\-l{library}\\fR.\n",
            *(f".SH {section}\n{''.join(pages)}" for section, pages in sections.items() if pages)]
    return re.sub(r"^(\.(?:SH|RS|TP).*\n)\.PP\n", r"\1", "".join(page), flags=re.MULTILINE)


def pages(library, version):
    """All pages of a library, by the names of their files."""
    title, names = PAGES[library]
    headers = {name: (INCLUDE / name).read_text(encoding="utf-8") for name in names}
    found = {name: f".so man{SECTION}/{library}.{SECTION}\n" for text in headers.values() for name in functions(text)}
    found[library] = man_page(library, title, headers, version)
    return {f"{name}.{SECTION}": page for name, page in found.items()}


def main(library, folder):
    folder = pathlib.Path(folder)
    folder.mkdir(parents=True, exist_ok=True)
    for path in folder.glob(f"*.{SECTION}"):
        path.unlink()
    version = (ROOT / "VERSION").read_text(encoding="utf-8").strip()
    for name, page in pages(library, version).items():
        (folder / name).write_text(page, encoding="utf-8")


if __name__ == "__main__":
    main(*sys.argv[1:])
