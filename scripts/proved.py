"""Hands on what was proved in one copy of the repository to another, so that it is not proved anew."""
import pathlib
import shutil

from crate_copies import copy_or_link


def hand_on(root: pathlib.Path, folder: pathlib.Path) -> None:
    """Puts what proofs left beside the crates below the root beside those of them that the folder has. The toolchain takes
    nothing of what has changed."""
    for made in root.glob("crates/*/out"):
        crate = folder / "crates" / made.parent.name
        if crate.is_dir():
            shutil.copytree(made, crate / "out", copy_function=copy_or_link)
