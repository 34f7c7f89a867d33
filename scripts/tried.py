"""Says of what a run of the gate is: the commit, whether anything differs from it, and the toolchain."""
import pathlib
import subprocess


def tried(root: pathlib.Path) -> str:
    """The line that scripts/test prints before its last one, and that scripts/release wants to find there."""
    commit = told(root, "git", "rev-parse", "HEAD")
    changes = told(root, "git", "status", "--porcelain")
    return f"tried: commit {commit}, {'with changes' if changes else 'clean'}; toolchain {told(root, 'rt', 'version')}"


def told(root: pathlib.Path, *command: str) -> str:
    """What a command prints; nothing where it cannot be run."""
    try:
        return subprocess.run(command, cwd=root, stdout=subprocess.PIPE, stderr=subprocess.DEVNULL, text=True).stdout.strip()
    except OSError:
        return ""
