#!/usr/bin/env python3
"""Tries the scripts that decide, by the tests of test_scripts.py, which the command `pytest` runs.

Where that is missing all is left out. The last line printed is 'N passed, M failed'.
"""
import pathlib
import sys

from tally import Tally, least


def main() -> int:
    tally = Tally()
    tally.by_pytest([pathlib.Path(__file__).with_name("test_scripts.py")], least("unit_tests.py"))
    return tally.end()


if __name__ == "__main__":
    sys.exit(main())
