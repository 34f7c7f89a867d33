"""Tells whether a library was built from what stands here: built_from.py LIBRARY CRATE..., or with --keep SUM first.

A sum stands beside the library, of all that a check of the crates reads, of what build_library compiles besides, and of the
tools by which it does; and one of the library itself. The sum of what stands here now is printed, and the exit status is 0
where both have not changed. With --keep a sum that was printed before the library was built is written beside it. CC is the
compiler, cc where it is not set.
"""
import os
import pathlib
import sys
from typing import List, NamedTuple, Sequence

from kept import crate_sum, sum_of, sum_of_file, sums_of_files
from parts import tool

ROOT = pathlib.Path(__file__).resolve().parents[1]


class Built(NamedTuple):
    """A file that is built; the crates and other files that it is built from, and the tools beside the toolchain."""

    file: pathlib.Path
    crates: Sequence[str]
    others: Sequence[pathlib.Path]
    tools: Sequence[str] = ()
    root: pathlib.Path = ROOT

    @property
    def beside(self) -> pathlib.Path:
        """Where the sums stand."""
        return self.file.with_name(f"{self.file.name}.sum")

    def sum(self) -> str:
        """The sum of what it is to be built from."""
        crates = [crate_sum(self.root, crate) for crate in self.crates]
        return sum_of(crates, sums_of_files(self.root, self.others), [tool(name) for name in self.tools])

    def is_of(self, found: str) -> bool:
        """Whether the file is there as it was built, and from what has that sum."""
        try:
            return self.beside.read_text(encoding="utf-8") == self.told(found)
        except OSError:
            return False

    def keep(self, found: str) -> None:
        """Writes what the file was built from, by a sum that was taken before."""
        self.beside.write_text(self.told(found), encoding="utf-8")

    def told(self, found: str) -> str:
        return f"{found}\n{sum_of_file(self.file)}\n"


def library_for_c(file: str, *crates: str) -> Built:
    """A library that build_library builds."""
    here = ROOT / "bindings/c"
    others = [here / "build_library", *here.glob("*.c"), *here.glob("include/*.h")]
    return Built(pathlib.Path(file), crates, others, (os.environ.get("CC") or "cc", "ar", "ld", "objcopy"))


def main(words: List[str]) -> int:
    if words[0] == "--keep":
        library_for_c(*words[2:]).keep(words[1])
        return 0
    library = library_for_c(*words)
    found = library.sum()
    print(found)
    return 0 if library.is_of(found) else 1


if __name__ == "__main__":
    sys.exit(main(sys.argv[1:]))
