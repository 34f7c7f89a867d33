"""Each link of a page leads to a file of the repository, and to a heading where it names one.

The pages are all that git knows which end in .md, and the page for a browser, whose links go from the folder in which it
is built. The files that the recipes of CONTRIBUTING.md name must be there. The recipe for a scheme must list exactly those
that name every scheme, and that for a question those that name one. Each search is tried on what it must find too.
"""
import pathlib
import re
import subprocess

from crate_copies import ROOT

WEB_PAGE = "bindings/web/index.html"
BUILT_WEB_PAGE = "out/web/index.html"

CODE = re.compile(r"^```.*?^```$|`[^`\n]*`", re.MULTILINE | re.DOTALL)
LINK = re.compile(r"\]\(([^)\s]+)\)|<a href=\"([^\"]+)\"")
HEADING = re.compile(r"^#+ (.*)$", re.MULTILINE)

# an item of a recipe's list, which starts with a folder, and a path in it
ITEM = re.compile(r"^(-|\d\.) (`[\w./]+/`.*(?:\n .*)*)", re.MULTILINE)
PATH = re.compile(r"`([\w./{},+-]*[./][\w./{},+-]*)`")
BRACES = re.compile(r"\{([^}]*)\}")

# where each scheme stands beside its module, a name in code, and what is no code; and the question whose files a recipe lists
SCHEMES = ROOT / "crates/str_indices/src/schemes.rt"
SCHEME = re.compile(r"Scheme::(\w+) => (\w+)::count")
NAME = re.compile(r"[A-Za-z]\w*")
QUESTION = re.compile(r"^These files name `(\w+)`", re.MULTILINE)
NO_CODE = {".md", ".svg", ".png", ".csv", ".edit", ".edits"}

# links of the README, and whether each leads somewhere
ROWS = {"docs/GATE.md": True, "docs/GATE.md#what-is-kept": True, "#use-it": True, "docs": True, "docs/GATES.md": False,
        "docs/GATE.md#what-is-lost": False, "#use": False, "../README.md": False}


def files(*patterns):
    """The files that git knows, by their paths from the top."""
    command = ["git", "ls-files", "--", *patterns]
    return subprocess.run(command, cwd=ROOT, capture_output=True, text=True, check=True).stdout.splitlines()


def pages():
    """The pages, by their paths from the top, and where each is read."""
    return {**{page: page for page in files("*.md")}, WEB_PAGE: BUILT_WEB_PAGE}


def anchors(path):
    """The names of the headings of a page."""
    headings = HEADING.findall(path.read_text(encoding="utf-8"))
    return {re.sub(r"[^\w\- ]", "", heading.lower()).replace(" ", "-") for heading in headings}


def leads_somewhere(link, read_at):
    """Whether a link of a page that is read there leads to a file of the repository, and to its heading."""
    path, _, heading = link.partition("#")
    target = (ROOT / read_at).parent.joinpath(path).resolve() if path else ROOT / read_at
    inside = target.is_relative_to(ROOT) and target.exists()
    return inside and (not heading or heading in anchors(target))


def links(text):
    """The links of a page but those to elsewhere."""
    found = [first or second for first, second in LINK.findall(CODE.sub("", text))]
    return [link for link in found if not re.match(r"\w+:", link)]


def listed(text, marks):
    """The files and the folders that items with one of these marks list, each below the folder that its item starts with."""
    found = []
    for mark, item in ITEM.findall(text):
        folder, *paths = PATH.findall(item)
        if mark[-1] in marks:
            found += [folder + one for path in paths for one in expanded(path)] or [folder]
    return found


def expanded(path):
    """The paths that one with braces stands for."""
    braces = BRACES.search(path)
    return [path.replace(braces[0], word) for word in braces[1].split(",")] if braces else [path]


def snakes_of(names):
    """The names, a line each, in the case of Rust's functions."""
    return "\n".join(re.sub(r"(?<=[a-z])(?=[A-Z])", "_", name).lower() for name in names)


def names_every(schemes, text):
    """Whether a text names each of the schemes in one way: as variants, fields, constants, or modules and their functions."""
    names = {*NAME.findall(text)}
    constants = "\n".join(name for name in names if name.isupper())
    snakes = snakes_of(names)
    ways = (
        lambda variant, module: variant in names,
        lambda variant, module: variant.lower() in names,
        lambda variant, module: re.search(rf"(?:^|_){variant.upper()}$", constants, re.MULTILINE),
        lambda variant, module: re.search(rf"(?:^|_){module}(?:$|_count|_from|_to)", snakes, re.MULTILINE),
    )
    return any(all(way(*scheme) for scheme in schemes) for way in ways)


def code():
    """The files of code, each with its text."""
    names = [name for name in files() if pathlib.Path(name).suffix not in NO_CODE]
    return {name: (ROOT / name).read_text(encoding="utf-8", errors="replace") for name in names}


def with_every_scheme():
    """The files of code that name every scheme."""
    schemes = {*SCHEME.findall(SCHEMES.read_text(encoding="utf-8"))}
    return [name for name, text in code().items() if names_every(schemes, text)]


def with_question(name_of_it):
    """The files of code that name a question, as each language names it."""
    question = re.compile(rf"(?:^|_){name_of_it}$", re.MULTILINE)
    return [name for name, text in code().items() if question.search(snakes_of({*NAME.findall(text)}))]


def differing(found, names):
    """What is found and not listed, and what is listed, a file or a folder, where nothing is found."""
    unlisted = [file for file in found if not file.startswith(tuple(names))]
    return [*unlisted, *(name for name in names if not any(file.startswith(name) for file in found))]


def try_recipes(tally, text):
    """The recipes name files that are there, and two of them exactly those that name what they add to."""
    gone = [path for path in listed(text, "-.") if not (ROOT / path).exists()]
    tally.result(not gone, f"the recipes name {len(listed(text, '-.'))} files {' '.join(gone)}")
    try_list(tally, text, "A scheme", with_every_scheme())
    try_list(tally, text, "A question about lines or positions", with_question(QUESTION.search(text)[1]))


def try_list(tally, text, heading, found):
    """The recipe of that heading lists exactly these files, but for pages."""
    recipe = text.partition(f"\n## {heading}\n")[2].partition("\n## ")[0]
    names = [path for path in listed(recipe, "-") if not path.endswith(".md")]
    wrong = differing(found, names)
    tally.result(not wrong, f"{heading}: the recipe lists the {len(found)} files that name it {' '.join(wrong)}")
    right = differing(found, names[1:]) and differing(found, [*names, "VERSION"])
    tally.result(bool(right), f"{heading}: the search finds a file that is not listed, and one that does not name it")


def check(tally):
    for page, read_at in pages().items():
        found = links((ROOT / page).read_text(encoding="utf-8"))
        astray = [link for link in found if not leads_somewhere(link, read_at)]
        if found:
            tally.result(not astray, f"{page}: {len(found)} links {' '.join(astray)}")
    contributing, = files("*CONTRIBUTING.md")
    try_recipes(tally, (ROOT / contributing).read_text(encoding="utf-8"))
    found = {link: leads_somewhere(link, "README.md") for link in ROWS}
    tally.result(found == ROWS, "the search finds a link that leads nowhere")
