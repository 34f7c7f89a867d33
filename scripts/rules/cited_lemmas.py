"""Shows by their texts that a crate's proofs cite of another crate what that one's file `Callers` passes on.

The other lemma files are a crate's own, and may move. So where a file of one crate names the proofs of another, it names
`proofs/lemmas/Callers`. The search is tried on edited texts too, in which it must find the fault.
"""
import re

from crate_copies import ROOT, stands_on

CITED = re.compile(r"\bRattle\.\w+\.proofs[\w.]*|\b\w+::proofs[\w:]*")
CALLERS = re.compile(r"\w+\.proofs\.lemmas\.Callers\b.*")


def cited(text, own, others):
    """What the text cites of the proofs of others, with the crate first."""
    found = [match[0].replace("::", ".").removeprefix("Rattle.") for match in CITED.finditer(text)]
    return [path for path in found if path.partition(".")[0] in others and path.partition(".")[0] != own]


def faults(text, own, others):
    """What the text cites of others that their callers may not."""
    return [path for path in cited(text, own, others) if not CALLERS.fullmatch(path)]


def try_crate(tally, own, others):
    files = [path for path in sorted((ROOT / "crates" / own).rglob("*")) if path.suffix in (".antt", ".rt")]
    texts = {path: path.read_text(encoding="utf-8") for path in files if "out" not in path.relative_to(ROOT).parts}
    found = [f"{path.relative_to(ROOT)}: {fault}" for path, text in texts.items() for fault in faults(text, own, others)]
    tally.result(not found, f"{own} cites of other crates what they pass on" + "".join(f"\n  {line}" for line in found))
    citing = [text for text in texts.values() if cited(text, own, others)]
    edited = [re.sub(r"lemmas(\.|::)Callers\b", r"lemmas\1Common", text) for text in citing]
    if citing:
        tally.result(all(faults(text, own, others) for text in edited), f"{own} with lemmas of other files is refused")


def check(tally):
    names = list(stands_on())
    tally.result(len(names) > 15, f"{len(names)} crates are listed")
    for own in names:
        try_crate(tally, own, names)
