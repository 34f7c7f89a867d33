"""The parts of the gate that build and run what users have.

They run in one copy of the repository. One that passed with nothing left out is kept, as kept.py says, by a name that is the
sum of the files, of the toolchain, of the tools, and of the environment, which has no other variables than those named here.
"""
import fnmatch
import functools
import os
import pathlib
import shutil
import subprocess
import sys
from typing import Dict, Iterator, List, NamedTuple, Tuple

from kept import sum_of, sum_of_file, sums_of_files, toolchain, words_for_the_toolchain

HERE = pathlib.Path(__file__).resolve().parent
# what is made, and what no part reads: some folders, and pages that it does not name
IGNORED = {".git", "out", "target", "__pycache__", "Cargo.lock"}
UNREAD = tuple(map(pathlib.Path, ("refusals", "scripts/rules", "scripts/tests")))
PAGE = ".md"
ALL_PAGES = ("*",)
# the variables that a part has; beside them those by which the toolchain is told something
VARIABLES = ["PATH", "HOME", "USER", "LANG", "LC_ALL", "TMPDIR", "RUSTUP_HOME", "CARGO_HOME", "STR_INDICES_ORIGINAL"]
ORIGINAL = "STR_INDICES_ORIGINAL"
# which packages there are, and which version of each
PACKAGES = pathlib.Path("/var/lib/dpkg/status")
# those of cargo say what they are, since the files on the path only hand on to them; the others are those of packages
SAY_VERSIONS = ("cargo", "rustc")
TOOLS = ("bash", "sh", "install", "cmp", "git", "tar", *SAY_VERSIONS)


class Part(NamedTuple):
    """A script by its path, after how many minutes it is taken to hang, and the pages that it reads."""

    script: str
    minutes: int
    pages: Tuple[str, ...] = ()

    @property
    def name(self) -> str:
        """What the part is called: its script, without the folder."""
        return pathlib.PurePath(self.script).name


# the crates that they build; each stands on others
CRATES = ("str_indices_c", "text_rope_c", "text_index_c", "idx")

PARTS = (
    Part("crates/text_rope/tests/refused_growths.py", 60),
    Part("crates/idx/tests/test_program.py", 60),
    Part("crates/idx/tests/failing_calls.py", 60),
    Part("bindings/c/tests/test_c.py", 60, ("bindings/c/README.md",)),
    Part("docs/tests/test_pages.py", 60, ALL_PAGES),
    Part("release/tests/test_release.py", 90, ALL_PAGES),
    Part("bindings/rust/tests/test_rust.py", 60),
    Part("bindings/web/tests/test_browser.py", 60, ("bindings/web/README.md",)),
    Part("bindings/c/tests/test_positions.py", 30),
    Part("crates/text_rope/tests/position_changes.py", 30),
    Part("examples/language_server/tests/test_editor.py", 60, ("examples/language_server/README.md",)),
)


def files(root: pathlib.Path, part: Part) -> Iterator[pathlib.Path]:
    """All files that the part may read."""
    for at, folders, names in os.walk(root):
        below = pathlib.Path(at).relative_to(root)
        folders[:] = [name for name in folders if name not in IGNORED and below / name not in UNREAD]
        for path in [below / name for name in names if name not in IGNORED]:
            if path.suffix != PAGE or any(fnmatch.fnmatch(str(path), page) for page in part.pages):
                yield root / path


def environment() -> Dict[str, str]:
    """The variables that a part has."""
    return {
        name: value for name, value in os.environ.items()
        if name in VARIABLES or name.startswith(("LC_", "RT_", "RATTLE_"))
    }


def packages() -> Dict[str, List[str]]:
    """Debian's packages that the gate uses, each with the commands that it has."""
    lines = (HERE / "packages.txt").read_text(encoding="utf-8").splitlines()
    return {package: commands for package, *commands in map(str.split, lines) if package != "#"}


@functools.lru_cache(maxsize=None)
def tool(name: str) -> Tuple[str, ...]:
    """What a tool is: where it lies, a sum of it, and what it says of itself; nothing where it is not on the path."""
    if not shutil.which(name):
        return ()
    found = os.path.realpath(shutil.which(name))
    said = subprocess.run([name, "-vV"], capture_output=True, text=True).stdout if name in SAY_VERSIONS else ""
    return found, sum_of_file(pathlib.Path(found)), said


@functools.lru_cache(maxsize=None)
def machine() -> str:
    """A sum of the tools, of what is installed, of the interpreter of the scripts, and of what the processor has."""
    tools = [tool(name) for name in [*TOOLS, *(command for commands in packages().values() for command in commands)]]
    installed = sum_of_file(PACKAGES) if PACKAGES.is_file() else ""
    told = pathlib.Path("/proc/cpuinfo").read_text(encoding="utf-8").splitlines()
    return sum_of(tools, installed, sys.version, next((line for line in told if line.startswith("flags")), ""))


@functools.lru_cache(maxsize=None)
def original() -> list:
    """The files of the original's source, where a variable names its folder."""
    folder = pathlib.Path(os.environ.get(ORIGINAL, ""))
    return sums_of_files(folder, folder.rglob("*")) if os.environ.get(ORIGINAL) else []


def name_of(root: pathlib.Path, part: Part) -> str:
    """The name under which the part is kept, as it stands below that root."""
    variables = sorted((name, value) for name, value in environment().items() if name != "TMPDIR")
    told = [toolchain(), words_for_the_toolchain(), machine(), variables, original()]
    return sum_of(part.script, sums_of_files(root, files(root, part)), told)
