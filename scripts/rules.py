#!/usr/bin/env python3
"""Tries the rules of the house, each a file of scripts/rules: rules.py [NAME ..]

Each search is tried on edited texts too, in which it must find the fault. 'rules.py --write' first writes what the tree says
twice: the version and the table of unsafe code. The last line printed is 'N passed, M failed'.
"""
import sys

from rules import (
    cited_lemmas, links, names, quoted_contracts, refused_clauses, same_clauses, unsafe_code, version, word_chunks,
)
from tally import Tally

RULES = {
    rule.__name__.rpartition(".")[2]: rule
    for rule in [names, same_clauses, quoted_contracts, word_chunks, cited_lemmas, unsafe_code, refused_clauses, links, version]
}


def main(words):
    if words == ["--write"]:
        version.write()
        unsafe_code.write()
        words = []
    unknown = sorted({*words} - {*RULES})
    if unknown:
        print(f"no such rule: {' '.join(unknown)}", file=sys.stderr)
        return 2
    tally = Tally()
    for name in words or RULES:
        RULES[name].check(tally)
    return tally.end()


if __name__ == "__main__":
    sys.exit(main(sys.argv[1:]))
