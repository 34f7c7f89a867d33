"""Copies of crates and of all that they stand on, in a repository of their own, for a script that changes them."""
import os
import pathlib
import shutil
import subprocess
from typing import Dict, Iterable, List, Tuple

ROOT = pathlib.Path(__file__).resolve().parents[1]


def crate_lines() -> Dict[str, str]:
    """The line of each crate in crates.txt, by the crate's name."""
    lines = (ROOT / "crates.txt").read_text(encoding="utf-8").splitlines()
    return {line.split()[0].rstrip(":"): line for line in lines if ":" in line and not line.startswith("#")}


def stands_on() -> Dict[str, List[str]]:
    """Each crate of crates.txt, with the crates that its line names."""
    return {name: line.partition(":")[2].split() for name, line in crate_lines().items()}


def with_all_below(name: str, below: Dict[str, List[str]]) -> List[str]:
    """The crate and all that it stands on, lowest first."""
    crates = [crate for other in below[name] for crate in with_all_below(other, below)]
    return list(dict.fromkeys([*crates, name]))


def copy_or_link(file: str, other: str) -> str:
    """Copies a file. What was proved gets a second name: the toolchain puts another file in its place, and writes into none."""
    if file.endswith(".oantt"):
        try:
            os.link(file, other)
            return other
        except OSError:
            pass
    return shutil.copy2(file, other)


def copy_crates(
    names: Iterable[str], folder: pathlib.Path, *more_lines: str, root: pathlib.Path = ROOT,
    left_out: Tuple[str, ...] = (),
) -> None:
    """Copies the crates and all below them into the folder, with their lines of crates.txt and more."""
    below = stands_on()
    crates = dict.fromkeys(crate for name in names for crate in with_all_below(name, below))
    for crate in crates:
        ignored = shutil.ignore_patterns(*left_out)
        place = folder / "crates" / crate
        shutil.copytree(root / "crates" / crate, place, ignore=ignored, copy_function=copy_or_link)
    lines = [f"{crate_lines()[crate]}\n" for crate in crates]
    (folder / "crates.txt").write_text("".join([*lines, *more_lines]), encoding="utf-8")
    shutil.copy(ROOT / "HANDLES", folder)
    subprocess.run(["git", "init", "-q", "."], cwd=folder, check=True)


def copy_crate(name: str, folder: pathlib.Path, *more_lines: str, **how) -> pathlib.Path:
    """Copies the crate and all below it, with their lines of crates.txt and more; answers where it is."""
    copy_crates([name], folder, *more_lines, **how)
    return folder / "crates" / name


def copy_program(name: str, libraries: List[str], source: str, folder: pathlib.Path, **how) -> pathlib.Path:
    """Puts a program of that name and source beside copies of the libraries that it stands on; answers where it is. The
    toolchain has the libraries that are no crates of the repository."""
    copy_crates([library for library in libraries if library in stands_on()], folder, f"{name}: {' '.join(libraries)}\n", **how)
    (folder / "crates" / name / "src").mkdir(parents=True)
    (folder / "crates" / name / "src/main.rt").write_text(source, encoding="utf-8")
    return folder / "crates" / name
