"""Which half of the C library is to answer, for the tests that run both."""
import os
import pathlib
import subprocess

# what a processor of the level x86-64-v3 has beside that of v2, as Linux names it
WANTED = {"avx", "avx2", "bmi1", "bmi2", "f16c", "fma", "abm", "movbe"}

# what STR_INDICES_HALF may say, and the texts that the wide half then answers for
ASKED = {"narrow": "no text", "": "texts from 256 bytes on", "wide": "every text"}


def has_wide_half(library):
    """Whether the wide half is in the library."""
    members = subprocess.run(["ar", "t", library], capture_output=True, text=True).stdout.split()
    return "str_indices_c_wide.o" in members


def missing(library):
    """Why the wide half cannot answer, or None where it can."""
    if not has_wide_half(library):
        return "the library was built without it"
    told = pathlib.Path("/proc/cpuinfo").read_text(encoding="utf-8")
    flags = next((line for line in told.splitlines() if line.startswith("flags")), "")
    return None if WANTED <= set(flags.split()) else "the processor is below x86-64-v3"


def halves(library):
    """The environments to run in, each with the texts that the wide half is to answer for there."""
    why = missing(library)
    if why:
        print(f"not tried: the wide half, as {why}")
        return [(dict(os.environ, STR_INDICES_HALF="wide"), "no text")]
    return [(dict(os.environ, STR_INDICES_HALF=half), texts) for half, texts in ASKED.items()]
