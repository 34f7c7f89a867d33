"""All parts say the one version that the file VERSION has.

The places that say it are listed here by file and pattern; the headers for C say it as three numbers too. All but
CHANGELOG.md can be written. The search is tried on another version too, which each place must miss.
"""
import re

from crate_copies import ROOT

BY_HAND = "CHANGELOG.md"
LIBRARIES = ["str_indices", "str_rope", "str_index"]
NUMBERS = ["MAJOR", "MINOR", "PATCH"]
PLACES = {
    "Cargo.toml": [r'^version = "(.*)"$'],
    **{f"bindings/c/include/{name}.h": [rf'^#define {name.upper()}_VERSION "(.*)"$',
                                        *(rf"^#define {name.upper()}_VERSION_{number} (\d+)$" for number in NUMBERS)]
       for name in LIBRARIES},
    BY_HAND: [r"^## ([0-9.]+)"],
}


def wanted(number, patterns):
    """What each pattern of a file is to find: the version, and where there are more its numbers, one by one."""
    return [number, *number.split(".")[:len(patterns) - 1]]


def write():
    """Writes the version wherever it is not written by hand."""
    for name, patterns in PLACES.items():
        text = (ROOT / name).read_text(encoding="utf-8")
        for pattern, number in zip(patterns, wanted(version(), patterns)) if name != BY_HAND else []:
            start, end = re.search(pattern, text, re.MULTILINE).span(1)
            text = text[:start] + number + text[end:]
        (ROOT / name).write_text(text, encoding="utf-8")


def version():
    return (ROOT / "VERSION").read_text(encoding="utf-8").strip()


def differing(number):
    """The files in which what says the version first says another, or nothing does."""
    found = {}
    for name, patterns in PLACES.items():
        text = (ROOT / name).read_text(encoding="utf-8")
        matches = [re.search(pattern, text, re.MULTILINE) for pattern in patterns]
        found[name] = [match and match[1] for match in matches] == wanted(number, patterns)
    return [name for name, is_right in found.items() if not is_right]


def check(tally):
    others = differing(version())
    for name in PLACES:
        tally.result(name not in others, f"{name} says {version()}")
    tally.result(differing(f"{version()}1") == list(PLACES), "the search finds another version")
