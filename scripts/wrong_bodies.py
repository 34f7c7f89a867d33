#!/usr/bin/env python3
"""Tries wrong bodies: each must be refused by the function, and at the clause, that it names.

A wrong body is an edit of refusals/bodies/CRATE.edits, as refusals.py reads them. It fails where another function alone is
refused, where none is, where another goal is open, and where only a name in a proof file is no longer there.

Wrong bodies of several functions are tried at once, each by its own function: of another function a proof sees the
contract alone. What changes more than the body of the named function is tried alone. A list of names tries those alone.
The last line printed is 'N passed, M failed'.
"""
import pathlib
import re
import sys

from crate_copies import stands_on
from refusals import Trial, apply_together, edits_in
from tally import Tally

ROOT = pathlib.Path(__file__).resolve().parents[1]

# how many are tried at once
MOST = 36

# what may stand at the head of a changed line outside of a body
NO_BODY = re.compile(r"\s*(ensures|requires|ghost|const|static|use|type|#\[|///)")
HEAD = re.compile(r"\bfn (\w+)")


def edits_of(crate):
    """The wrong bodies of a crate."""
    path = ROOT / "refusals/bodies" / f"{crate}.edits"
    return edits_in(path) if path.is_file() else []


def changes_a_body(crate, edit):
    """Whether the edit changes nothing but the body of the function that it names."""
    for file, old, _ in edit.changes:
        if not file.startswith("src/"):
            return False
        before, _, _ = (ROOT / "crates" / crate / file).read_text(encoding="utf-8").partition(old)
        heads = HEAD.findall(before)
        line = before.rsplit("\n", 1)[-1] + old
        if not heads or heads[-1] != edit.function.split("::")[-1] or NO_BODY.match(line):
            return False
    return True


def fits(crate, group, edit):
    """Whether the edit can be tried with the group: not too many, none of the same function, and each can be made."""
    is_alone = edit.function not in [other.function for other in group]
    return len(group) < MOST and is_alone and apply_together(ROOT / "crates" / crate, [*group, edit])


def grouped(crate, edits):
    """The edits in groups that are tried at once, of one edit a function, and each other one alone."""
    groups = []
    for edit in [edit for edit in edits if changes_a_body(crate, edit)]:
        group = next((group for group in groups if fits(crate, group, edit)), None)
        if group is None:
            group = []
            groups.append(group)
        group.append(edit)
    return groups + [[edit] for edit in edits if not changes_a_body(crate, edit)]


def trial(names=()):
    """The edits that are tried: all, or those of these names."""
    groups = {}
    for crate in stands_on():
        edits = [edit for edit in edits_of(crate) if not names or edit.name in names]
        if edits:
            groups[crate] = grouped(crate, edits)
    return Trial(groups)


def of_no_crate():
    """The files of wrong bodies that no crate has."""
    return [path.name for path in sorted((ROOT / "refusals/bodies").glob("*.edits")) if path.stem not in stands_on()]


def main(names):
    tally = Tally()
    for name in of_no_crate():
        tally.result(False, f"{name} has the name of a crate")
    known = {edit.name for crate in stands_on() for edit in edits_of(crate)}
    for name in sorted(set(names) - known):
        tally.result(False, f"no wrong body has the name {name}")
    for good, told in trial(names).run():
        tally.result(good, told)
    return tally.end()


if __name__ == "__main__":
    sys.exit(main(sys.argv[1:]))
