"""Builds the libraries for C; what they declare, by their headers, and have, by the exports in Rattle and their symbols.

The headers are read and not listed, so what is added to them is tried by itself.
"""
import pathlib
import re
import subprocess
from typing import NamedTuple

ROOT = pathlib.Path(__file__).resolve().parents[1]

COMMENT = re.compile(r"/\*.*?\*/|^#.*?$", re.MULTILINE | re.DOTALL)
PARAMETER = re.compile(r"(\w+): ([^,]+)")
DOT_ALL = re.MULTILINE | re.DOTALL
# the clause of a question
SAME = "ensures same { rope.new ≡ rope.old }"

# how C says a type of Rattle's; a struct has its name in C after the library's, and the allocator takes no bytes
C_TYPES = {
    "&[u8]": "const char *, size_t", "&mut [u8]": "char *, size_t", "usize": "size_t", "bool": "bool", "()": "void",
    "&mut Slot": "str_rope *", "&IndexHandle<'_>": "const str_index *",
}
ALLOCATOR = "Global"
# a number of 32 bits is an enum, by the parameter's name; of a result it is the library's status
ENUMS = {"scheme": "str_indices_scheme", "encoding": "str_indices_encoding", "lines": "str_indices_line_type"}


class Function(NamedTuple):
    """A function of a header: its name, and its types as C says them."""

    name: str
    result: str
    parameters: str

    def pointer(self, name):
        """The declaration of a pointer to such a function."""
        return f"{self.result} (*{name})({self.parameters})"

    def shape(self):
        return self.result, self.parameters


class Library(NamedTuple):
    """A library for C: its name, with which its headers and functions begin, the crate of its exports, and its file in C."""

    name: str
    crate: str
    source: str

    def headers(self):
        return sorted((ROOT / "bindings/c/include").glob(f"{self.name}*.h"))


def build(tally, *words):
    """The archive that build_library builds, by the last line that it prints; None where it fails."""
    done = subprocess.run([ROOT / "bindings/c/build_library", *words], stdout=subprocess.PIPE, text=True)
    right = tally.result(done.returncode == 0, " ".join(["build_library", *words]))
    return pathlib.Path(done.stdout.splitlines()[-1]) if right else None


STR_INDICES = Library("str_indices", "str_indices_c", "choose_half.c")
STR_ROPE = Library("str_rope", "text_rope_c", "rope.c")
STR_INDEX = Library("str_index", "text_index_c", "index.c")

LIBRARIES = [STR_INDICES, STR_ROPE, STR_INDEX]
HEADERS = STR_INDICES.headers()
PREFIX = "str_indices_"


def types_of(parameters):
    """The types of parameters, without their names."""
    words = [" ".join(parameter.split()) for parameter in parameters.split(",")]
    return ", ".join(re.sub(r"(?<=[ *])\w+$", "", word).rstrip() for word in words)


def functions_in(library, text, end):
    """The functions of the library that a text in C has, by name; after the parameters it has `end`."""
    function = re.compile(rf"^([a-z][\w ]*?[ *\n]+)({library.name}_\w+)\(([^)]*)\){end}", re.MULTILINE)
    found = function.findall(COMMENT.sub("", text))
    return {name: Function(name, result.strip(), types_of(parameters)) for result, name, parameters in found}


def declared(library=STR_INDICES):
    """The functions of the library's headers, by name."""
    texts = "\n".join(header.read_text(encoding="utf-8") for header in library.headers())
    return functions_in(library, texts.replace(f"{library.name.upper()}_CHECKED ", ""), ";")


def c_type(library, name, rattle):
    """How C says a type of Rattle's, of a parameter of that name or of the result."""
    if rattle == "u32":
        return ENUMS.get(name, f"{library.name}_status")
    return C_TYPES.get(rattle, "str_indices_" + re.sub(r"(?<!^)(?=[A-Z])", "_", rattle).lower())


def c_types(library, parameters):
    """How C says the types of an export's parameters."""
    named = [(name, rattle.strip()) for name, rattle in PARAMETER.findall(parameters)]
    return ", ".join(c_type(library, name, rattle) for name, rattle in named if rattle != ALLOCATOR)


def exported(library=STR_INDICES):
    """The functions that the exports in Rattle give to C, by name, and what is added to them in C. A question, which leaves its
    rope as it is, takes it as const.
    """
    functions = functions_in(library, (ROOT / "bindings/c" / library.source).read_text(encoding="utf-8"), "\n{")
    export = re.compile(rf'^pub extern "C" fn {library.name}_(?:narrow_)?(\w+)\(([^)]*)\)(?: -> (.*?))?$(.*?)^{{', DOT_ALL)
    for path in sorted((ROOT / "crates" / library.crate / "src").glob("**/*.rt")):
        for word, parameters, result, clauses in export.findall(path.read_text(encoding="utf-8")):
            name = f"{library.name}_{word}"
            types = c_types(library, parameters)
            if SAME in clauses:
                types = f"const {types}"
            functions[name] = Function(name, c_type(library, "result", result.strip() or "()"), types)
    return functions


def symbols(archive, library=STR_INDICES):
    """All names that a library gives to a linker, but for those of the two halves of str_indices: choose_half.o calls these in
    two other objects, in whose place a test links stand-ins."""
    told = subprocess.run(["nm", "-g", "--defined-only", archive], capture_output=True, text=True, check=True).stdout
    names = {line.split()[-1] for line in told.splitlines() if len(line.split()) == 3}
    return {name for name in names if not re.match(f"{PREFIX}(narrow|wide)_", name)}


def pairs(library=STR_INDICES):
    """Each function with each other one of its shape. A function named `.._utf8` is not answered by the one that checks: it
    is only handed UTF-8, for which both do the same.
    """
    functions = declared(library).values()
    of_one_shape = [(one, other) for one in functions for other in functions if one.shape() == other.shape()]
    return [(one, other) for one, other in of_one_shape if one.name not in (other.name, f"{other.name}_utf8")]
