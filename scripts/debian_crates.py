"""Where Debian's packages have the source of crates, and how cargo takes it from there."""
import pathlib

REGISTRY = pathlib.Path("/usr/share/cargo/registry")


def source_flags():
    """The flags by which cargo takes crates from there; none where there is no serde_json."""
    if not any(REGISTRY.glob("serde_json-1.*")):
        return []
    settings = ['source.crates-io.replace-with="debian"', f'source.debian.directory="{REGISTRY}"']
    return [word for setting in settings for word in ["--config", setting]]
