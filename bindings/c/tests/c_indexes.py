"""Compares what index.c declares for itself with Rattle's.

The structs and the three functions of index.c are those of Rattle's, and one with another field or parameter is seen.
"""
import re

from c_exports import ROOT

# where Rattle has the structs and functions of index.c
GLUE = ROOT / "bindings/c/index.c"
PROVED = [ROOT / "crates" / path
          for path in ["str_indices/src/by_scheme.rt", "text_index/src/mark.rt", "text_index_c/src/handle.rt",
                       "text_index_c/src/making.rt"]]
STRUCTS = {"counts": "Counts", "mark": "Mark", "str_index": "IndexHandle"}
FUNCTIONS = ["index_marks", "index_fill", "index_fill_utf8"]
C_TYPES = {
    "usize": ["size_t"], "u32": ["uint32_t"], "[usize; 5]": ["size_t[5]"], "Counts": ["struct counts"],
    "Mark": ["struct mark"], "&mut IndexHandle": ["struct str_index *"],
    "&[u8]": ["const char *", "size_t"], "&[Mark]": ["const struct mark *", "size_t"],
    "&mut [Mark]": ["struct mark *", "size_t"],
}


def rattle_types(fields):
    """How C says the types of fields or parameters of Rattle's."""
    named = re.findall(r"\w+: ((?:&'?\w* ?)?(?:mut )?(?:\[\w+(?:; \d+)?\]|\w+)(?:<'\w>)?)", fields)
    return [name for rattle in named for name in C_TYPES[re.sub(r"'\w |<'\w>", "", rattle)]]


def c_fields(fields):
    """The types and the names of fields or parameters of C's."""
    typed = [re.match(r"(.*?[ *])((?:\w+, )*\w+)(\[\d+\])?$", " ".join(field.split())) for field in fields]
    pairs = [(match[1].strip() + (match[3] or ""), name) for match in typed for name in match[2].split(", ")]
    return [kind for kind, _ in pairs], [name for _, name in pairs]


def shapes(glue, proved):
    """Each struct and function of index.c, by its name: its types and fields there, and in Rattle."""
    for name, rattle in STRUCTS.items():
        own = re.search(rf"^struct {name} \{{(.*?)\}};", glue, re.MULTILINE | re.DOTALL)[1]
        other = re.search(rf"pub struct {rattle}(?:<'a>)? \{{(.*?)\}}", proved, re.DOTALL)[1]
        fields = re.findall(r"(\w+): ", other)
        types, names = c_fields(own.strip(" \n;").split(";"))
        yield name, [*types, *[each for each in names if each in fields]], [*rattle_types(other), *fields]
    for name in FUNCTIONS:
        result, own = re.search(rf"^(\w+) {name}\(([^)]*)\);", glue, re.MULTILINE).groups()
        other, answer = re.search(rf"fn {name}(?:<'a>)?\(([^)]*)\) -> (\w+)", proved).groups()
        yield name, [result, *c_fields(own.split(","))[0]], [*C_TYPES[answer], *rattle_types(other)]


def try_glue(tally):
    """What index.c has in common with the proved side."""
    glue, proved = GLUE.read_text(encoding="utf-8"), "".join(path.read_text(encoding="utf-8") for path in PROVED)
    for name, own, other in shapes(glue, proved):
        tally.result(own == other, f"{name} of index.c has the types of Rattle's: {', '.join(own)}")
    for old, new in [("numbers[5]", "numbers[4]"), ("size_t many;", "uint32_t many;"), ("*room, size_t many", "*room")]:
        edited = glue.replace(old, new, 1)
        seen = edited != glue and any(own != other for _, own, other in shapes(edited, proved))
        tally.result(seen, f"index.c with {new} in the place of {old} is refused")
