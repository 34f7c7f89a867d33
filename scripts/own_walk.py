#!/usr/bin/env python3
"""Shows that each public function has its answer from the function that it calls, and from no walk of its own.

A public function of str_indices calls its kernel. A question of piece_text, text_rope or text_index calls a function over a
view. Each edit of a file refusals/own-walk/CRATE.edits names a public function of that crate and a clause of it, and strikes
the answer out of the contract of the function that is called: the clause there keeps its name and says nothing. Then the
public function and all that it calls are checked. A public function with a walk of its own would still be proved. An answer
in the proof of the called function may prove the clause as it was, and not the struck one: the edit then writes another
answer in its place. Edits of several files are tried at once, one edit of each file. The check must refuse each public
function at the clause that its edit names, and nothing else. The last line printed is 'N passed, M failed'.
"""
import pathlib
import sys

from refusals import Trial, edits_in
from tally import Tally

ROOT = pathlib.Path(__file__).resolve().parents[1]

CASES = ROOT / "refusals/own-walk"


def grouped(edits):
    """The edits in groups that are tried at once, of one edit a file, so that each answer misses its own clause alone."""
    by_file = {}
    for edit in edits:
        (file, _, _), *_ = edit.changes
        by_file.setdefault(file, []).append(edit)
    most = max(map(len, by_file.values()))
    return [[of_file[at] for of_file in by_file.values() if at < len(of_file)] for at in range(most)]


def edits_of():
    """The edits of each crate."""
    return {path.stem: edits_in(path) for path in sorted(CASES.glob("*.edits"))}


def trial(cases):
    return Trial({crate: grouped(edits) for crate, edits in cases.items()}, nothing_else=True)


def main():
    tally = Tally()
    cases = edits_of()
    for crate, edits in cases.items():
        for edit in edits:
            (_, old, new), *answers = edit.changes
            keeps = old.split("{")[0] == new.split("{")[0] and new.endswith("{ result ≡ result }")
            of_proofs = all(file.startswith("proofs/") for file, _, _ in answers)
            tally.result(keeps and of_proofs, f"own-walk {crate} {edit.name} strikes a clause and keeps its name")
    for good, told in trial(cases).run():
        tally.result(good, f"own-walk {told}")
    return tally.end()


if __name__ == "__main__":
    sys.exit(main())
