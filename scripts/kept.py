"""Keeps what passed between runs on one machine, under the sum of all that it was made from.

A result stands in a small file of its own, in a folder outside of each checkout that is the user's alone. Its name is the
sum of all that was read: the sources, the toolchain, the scripts and the tools. So it never goes stale: what changed has
another name, and is tried again. What did not pass is never kept. A file that is damaged, of another name, or in a folder
that others may open, is not taken. Whoever can write to the folder can make the gate pass, as with the toolchain's own
store of proofs; with 'GATE_ANEW=1' nothing is taken from it.
"""
import functools
import hashlib
import json
import os
import pathlib
import shutil
import stat
import tempfile
from typing import Iterable, Optional

from crate_copies import crate_lines, stands_on, with_all_below

# what a check reads of a crate
PARTS = ("src", "specs", "proofs", "c")
# what lies in a kit beside its programs, and is told by size and time, since it is large
LARGE = ("rlibs", "logic_built", "rattle/logic", "rattle/antt", "toolchain", "c")
# entries that no run took in so many days are removed
DAYS = 60


def folder() -> Optional[pathlib.Path]:
    """The folder of what is kept, or None where there is none that is this user's alone."""
    base = os.environ.get("XDG_CACHE_HOME") or os.path.expanduser("~/.cache")
    path = pathlib.Path(base) / "pauskern-gate"
    try:
        path.mkdir(mode=0o700, parents=True, exist_ok=True)
        found = path.lstat()
    except OSError:
        return None
    is_ours = stat.S_ISDIR(found.st_mode) and found.st_uid == os.geteuid() and not found.st_mode & 0o077
    return path if is_ours else None


def tries_anew() -> bool:
    """Whether nothing is to be taken from what is kept."""
    return bool(os.environ.get("GATE_ANEW"))


def sum_of(*parts: object) -> str:
    return hashlib.sha256(repr(parts).encode()).hexdigest()


def sum_of_file(path: pathlib.Path) -> str:
    """A sum of the file's bytes; of a link, of what it names as well."""
    with path.open("rb") as file:
        found = hashlib.file_digest(file, "sha256").hexdigest()
    return sum_of(os.readlink(path), found) if path.is_symlink() else found


def sums_of_files(root: pathlib.Path, paths: Iterable[pathlib.Path]) -> list:
    """Each file by its path below the root, whether it may be run, and its sum."""
    files = sorted(path for path in paths if not path.is_dir())
    return [(str(path.relative_to(root)), os.access(path, os.X_OK), sum_of_file(path)) for path in files]


@functools.lru_cache(maxsize=None)
def toolchain() -> str:
    """A sum of the toolchain: its programs and what names it, and the size and time of each other file that a check reads."""
    kit = pathlib.Path(os.path.realpath(shutil.which("rt") or "rt")).parents[1]
    named = [kit / name for name in ("KIT-ID", "WHAT") if (kit / name).is_file()]
    programs = sums_of_files(kit, [*named, *(kit / "bin").glob("*")])
    others = []
    for part in LARGE:
        for at, folders, files in os.walk(kit / part):
            folders.sort()
            for name in sorted(files):
                found = os.lstat(os.path.join(at, name))
                others.append((os.path.relpath(os.path.join(at, name), kit), found.st_size, found.st_mtime_ns))
    return sum_of(programs, others)


def files_of_crate(root: pathlib.Path, crate: str) -> list:
    """The files of a crate that a check may read."""
    return [path for part in PARTS for path in (root / "crates" / crate / part).rglob("*") if not path.is_dir()]


def words_for_the_toolchain() -> list:
    """The environment variables by which the toolchain is told something."""
    return sorted((name, value) for name, value in os.environ.items() if name.startswith(("RT_", "RATTLE_")))


def crate_sum(root: pathlib.Path, crate: str) -> str:
    """A sum of all that a check of the crate reads: its files and those of all crates below, with their lines, HANDLES, and
    the toolchain with what it is told."""
    crates = with_all_below(crate, stands_on())
    files = [sums_of_files(root, files_of_crate(root, name)) for name in crates]
    lines = [crate_lines()[name] for name in crates]
    return sum_of(files, lines, sum_of_file(root / "HANDLES"), words_for_the_toolchain(), toolchain())


@functools.lru_cache(maxsize=None)
def scripts_sum(*names: str) -> str:
    """A sum of scripts, by their paths from scripts/."""
    here = pathlib.Path(__file__).parent
    return sum_of(sums_of_files(here, [here / name for name in names]))


class Kept:
    """The results that are kept. Where there is no folder of the user's alone, nothing is taken and nothing is kept."""

    def __init__(self) -> None:
        self.at = folder()

    def told(self, name: str) -> Optional[str]:
        """What an earlier run told under that name, or None."""
        if not self.at or tries_anew():
            return None
        try:
            found = json.loads((self.at / name).read_text(encoding="utf-8"))
            if found["name"] != name or not isinstance(found["told"], str):
                return None
            os.utime(self.at / name)
        except (OSError, ValueError, KeyError, TypeError):
            return None
        return found["told"]

    def keep(self, name: str, told: str) -> None:
        """Keeps a result whole: written apart, and then renamed."""
        if not self.at:
            return
        try:
            with tempfile.NamedTemporaryFile("w", dir=self.at, prefix="new-", delete=False, encoding="utf-8") as file:
                json.dump({"name": name, "told": told}, file)
            os.replace(file.name, self.at / name)
        except OSError as fault:
            print(f"not kept: {fault}", flush=True)

    def remove_old(self, now: float) -> None:
        """Removes the results that no run took for long, and what a run left that was ended while it wrote."""
        for path in self.at.glob("*") if self.at else ():
            if path.is_file() and path.stat().st_mtime < now - DAYS * 86400:
                path.unlink(missing_ok=True)
