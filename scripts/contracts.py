"""The functions of the crates, by the paths that the checker gives them, each with the clauses that its contract ensures."""
import pathlib
import re
from typing import Dict, Iterator, List, NamedTuple, Optional, Set

ROOT = pathlib.Path(__file__).resolve().parents[1]

# the head of an impl: of which trait, if of one, and for which type
IMPL = re.compile(r"(?:unsafe )?impl\b(?:<.*?>(?= ))? (?:(\w+)(?:<.*>)? for )?(\w+)")
TRAIT = re.compile(r"(pub )?(?:pub\([\w: ]+\) )?trait (\w+)")
TYPE = re.compile(r"^pub(?:\([\w: ]+\))? (?:struct|enum) (\w+)", re.MULTILINE)
FUNCTION = re.compile(r'( *)(pub )?(?:pub\([\w: ]+\) )?(?:const )?(?:unsafe )?(extern "C" )?fn (\w+)')
CLAUSE = re.compile(r"\s*(?:ensures|requires|ghost)\b")
ENSURES = re.compile(r"\s*ensures\*? (?:(\w+) )?\{")
USED = re.compile(r"^pub use [\w:]+?::(?:(\w+)|\{([\w\s,:]+)\});", re.MULTILINE)
MODULE = re.compile(r"^pub mod (\w+);", re.MULTILINE)


class Function(NamedTuple):
    """A function: its path, the trait that declares it, if one does, whether code of other crates can name it, and the names
    of its clauses. A clause without a name is called `returns`, as in an edit."""

    path: str
    trait: Optional[str]
    is_public: bool
    clauses: List[str]


def head(lines: List[str], at: int) -> List[str]:
    """The lines of a function's head, from the one that names it to the one before its body."""
    body = re.match(" *", lines[at])[0] + "{"
    has_clauses = False
    for end in range(at, len(lines)):
        line = lines[end]
        has_clauses = has_clauses or bool(CLAUSE.match(line))
        if line in (body, body + "}"):
            return lines[at:end]
        if line.endswith("};") if has_clauses else line.endswith((" {", ";", "}")):
            return lines[at:end + 1]
    return lines[at:]


class Crate:
    """The sources of a crate, and what of them other crates can name."""

    def __init__(self, name: str) -> None:
        folder = ROOT / "crates" / name / "src"
        self.is_program = (folder / "main.rt").is_file()
        self.texts: Dict[str, str] = {}
        for path in sorted(folder.rglob("*.rt")):
            parts = path.relative_to(folder).with_suffix("").parts
            self.texts["::".join(part for part in parts if part not in ("lib", "main"))] = path.read_text(encoding="utf-8")
        self.home = {name: module for module, text in self.texts.items() for name in TYPE.findall(text)}
        self.used: Set[str] = set()
        self.modules = {""}
        self.open_module("")

    def open_module(self, module: str) -> None:
        """Notes what a public module makes public."""
        text = self.texts.get(module, "")
        for one, several in USED.findall(text):
            self.used.update(re.findall(r"\w+", re.sub(r"\w+ as ", "", one or several)))
        for name in MODULE.findall(text):
            path = f"{module}::{name}".removeprefix("::")
            self.modules.add(path)
            self.open_module(path)

    def is_open(self, module: str, name: str) -> bool:
        """Whether code of other crates can name what a module declares as public. Of a program all counts that other modules
        can name."""
        return self.is_program or module in self.modules or name in self.used

    def functions(self) -> Iterator[Function]:
        """Each function that has a clause."""
        for module, text in self.texts.items():
            yield from (function for function in self.of_module(module, text.splitlines()) if function.clauses)

    def of_module(self, module: str, lines: List[str]) -> Iterator[Function]:
        """The functions of a module, also without a clause."""
        place, trait, is_open = module, None, True
        for at, line in enumerate(lines):
            impl, declared, found = IMPL.match(line), TRAIT.match(line), FUNCTION.match(line)
            if line == "}":
                place, trait, is_open = module, None, True
            elif line.endswith("{}") and (impl or declared):
                continue
            elif impl:
                trait, name = impl.groups()
                place = f"{module if trait else self.home.get(name, module)}::{name}{trait or ''}"
                is_open = not trait and self.is_open(module, name)
            elif declared:
                place, trait = f"{module}::{declared[2]}", declared[2]
                is_open = bool(declared[1]) and self.is_open(module, trait)
            elif found:
                indent, said, exported, name = found.groups()
                is_named = said and (indent or self.is_open(module, name)) or exported or trait
                ensured = filter(None, map(ENSURES.match, head(lines, at)))
                clauses = [clause[1] or "returns" for clause in ensured]
                yield Function(f"{place}::{name}".removeprefix("::"), trait, bool(is_named and is_open), clauses)
