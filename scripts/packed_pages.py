"""Makes of a page of the repository that of a release: without what is for the repository alone, and with the archive's paths.

A page says `<!-- repository -->` before what is left out, and `<!-- end -->` after it, both within a line or each as a line.
A part for the archive alone is a comment, `<!-- archive: .. -->`.
"""
import os
import pathlib
import re

LEFT_OUT = re.compile(r"^<!-- repository -->\n.*?^<!-- end -->\n|<!-- repository -->.*?<!-- end -->", re.MULTILINE | re.DOTALL)
ADDED = re.compile(r"<!-- archive: (.*?) -->", re.DOTALL)
LINK = re.compile(r"\]\(([^)\s#]*)(#[^)\s]*)?\)")
HEADING = re.compile(r"^#+ (.*)$", re.MULTILINE)
CODE = re.compile(r"^```.*?^```$", re.MULTILINE | re.DOTALL)
# a path in running text, and a file that is named without its folder
PATH = re.compile(r"`((?:\.{0,2}[\w-]+/)+[\w.-]*|[\w-]+\.(?:antt|[ch]|cpp|hpp|html|md|mjs|mts|py|rs|rt|supp|wasm))`")


def place_of(path, places):
    """Where a path of the repository stands in the archive, by the places of what is copied; None where it does not."""
    found = [name for name in places if path == name or path.startswith(f"{name}/")]
    name = max(found, key=len, default=None)
    return None if name is None else places[name] + path[len(name):]


def with_links(text, page, places):
    """The text with each link as it leads from the page's place in the archive; one that leads nowhere stays."""
    folder = pathlib.PurePath(places[page]).parent

    def led(match):
        target = os.path.normpath(pathlib.PurePath(page).parent / match[1])
        place = place_of(target, places)
        if not match[1] or ":" in match[1] or place is None:
            return match[0]
        return f"]({os.path.relpath(place, folder)}{match[2] or ''})"

    return LINK.sub(led, text)


def with_paths(text, places):
    """The text with each path from the top of the repository as one from that of the archive."""
    for name in sorted(places, key=len, reverse=True):
        if places[name] != name and "/" in name:
            text = re.sub(rf"(?<![\w./-]){re.escape(name)}(?=/|[\s`\"')]|$)", places[name], text)
    return text


def packed(text, page, places):
    """The page of that path as it stands in the archive."""
    text = ADDED.sub(r"\1", LEFT_OUT.sub("", text))
    return with_paths(with_links(text, page, places), places)


def is_there(page, anchor):
    """Whether there is a file or folder, and where an anchor is named, as `#use-it`, its heading."""
    if not anchor or not page.is_file():
        return page.exists()
    names = HEADING.findall(page.read_text(encoding="utf-8"))
    return anchor in ["#" + re.sub(r"[^\w\- ]", "", name.lower()).replace(" ", "-") for name in names]


def astray(top, page):
    """What a page of the archive at that top names that is not in the archive."""
    text = CODE.sub("", page.read_text(encoding="utf-8"))
    links = [(path, anchor) for path, anchor in LINK.findall(text) if not re.match(r"\w+:", path)]
    wrong = [path + anchor for path, anchor in links if not is_there(page.parent / path if path else page, anchor)]
    for path in PATH.findall(text):
        there = [page.parent / path, top / path] if "/" in path else top.rglob(path)
        if not any(one.exists() for one in there):
            wrong.append(path)
    return wrong
