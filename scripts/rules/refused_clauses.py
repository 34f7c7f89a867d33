"""Compares the clauses of public contracts with what wrong bodies are refused at.

Each clause that a public function ensures is named by an edit of refusals/bodies, or stands in refusals/no-edit.txt with the
reason. A clause of a trait is named by an edit of one implementation. An edit of a function that other crates cannot name
says why it is there. Crates of tests have no public contract. The comparison is tried on edited lists too, in which it must
find the fault.
"""
import fnmatch
from typing import Dict, Iterator, List, NamedTuple, Set, Tuple

from contracts import Crate, Function
from crate_copies import ROOT, stands_on
from refusals import Edit
from wrong_bodies import edits_of

WITHOUT = ROOT / "refusals/no-edit.txt"
# crates without a public contract of their own: tests, and what is timed
LEFT_OUT = {"str_indices_tests", "text_tests", "rope_tests", "workloads"}


class Clause(NamedTuple):
    """A clause by its crate, its function's path, and its name."""

    crate: str
    function: str
    name: str


def public_functions() -> Dict[str, List[Function]]:
    """The public functions of each crate that has a public contract."""
    return {name: [function for function in Crate(name).functions() if function.is_public]
            for name in stands_on() if name not in LEFT_OUT}


def implemented(function: str, traits: Dict[Tuple[str, str], Tuple[str, str]]) -> Tuple[str, str]:
    """The crate and the path of the trait's function that this one implements, if it does; nothing else."""
    *_, place, name = ["", *function.split("::")]
    return next((of for (trait, call), of in traits.items() if call == name and place.endswith(trait)), ("", ""))


class Lists(NamedTuple):
    """Public clauses, what edits name of them, and which edits name a private function and say no reason."""

    clauses: Set[Clause]
    named: Set[Clause]
    unfounded: List[str]


def lists(public: Dict[str, List[Function]], edits: Dict[str, List[Edit]]) -> Lists:
    clauses = {Clause(crate, it.path, name) for crate, functions in public.items() for it in functions for name in it.clauses}
    traits = {(it.trait, it.path.rpartition("::")[2]): (crate, it.path)
              for crate, functions in public.items() for it in functions if it.trait}
    known = {(crate, it.path): it.clauses for crate, functions in public.items() for it in functions}
    named, unfounded = set(), []
    for crate, of_crate in edits.items():
        for edit in of_crate:
            at = (crate, edit.function)
            at = at if at in known else implemented(edit.function, traits)
            # the checker calls a contract's only clause `returns` even where it has a name
            goals = known[at] if edit.goals == ["returns"] and len(known.get(at, [])) == 1 else edit.goals
            named |= {Clause(*at, goal) for goal in goals} & clauses
            if (at in known) == bool(edit.reason):
                unfounded.append(f"{crate} {edit.name}: {edit.function}")
    return Lists(clauses, named, unfounded)


def without() -> List[List[str]]:
    """The lines on clauses that have no edit, each as a crate, a function, clauses and the reason."""
    lines = WITHOUT.read_text(encoding="utf-8").splitlines()
    return [[*line.partition(": ")[0].split(maxsplit=2), line.partition(": ")[2]] for line in lines if not line.startswith("#")]


def faults(found: Lists, reasons: List[List[str]]) -> Iterator[str]:
    """What the lists lack, and what they say for nothing."""
    left = found.clauses - found.named
    for crate, function, names, reason in reasons:
        told = {clause for clause in left if fnmatch.fnmatch(clause.function, function) and clause.crate == crate}
        for name in names.split():
            of_name = {clause for clause in told if fnmatch.fnmatch(clause.name, name)}
            if not of_name or not reason:
                yield f"a reason for no clause without an edit, or none: {crate} {function} {name}"
            left = left - of_name
    yield from (f"no edit, and no reason: {' '.join(clause)}" for clause in sorted(left))
    yield from (f"an edit of a private function without a reason, or of a public one with it: {line}" for line in found.unfounded)


def check(tally):
    public = public_functions()
    edits = {crate: edits_of(crate) for crate in stands_on()}
    found, reasons = lists(public, edits), without()
    wrong = list(faults(found, reasons))
    tally.result(not wrong, f"{len(found.named)} of {len(found.clauses)} public clauses have an edit, and the others a reason",
                 "\n".join(wrong))
    for crate in public:
        fewer = list(faults(lists(public, {**edits, crate: []}), reasons))
        tally.result(len(fewer) > len(wrong), f"without the edits of {crate} there are faults")
    clause = min(found.named)
    more = list(faults(found, [*reasons, [*clause, "a reason"]]))
    tally.result(len(more) > len(wrong), "a reason beside an edit is a fault")
