"""Tries edits of crates: each must be refused by the function, and at the goal, that it names.

A file CRATE.edits has the edits of a crate. Each edit begins with its name in brackets, and has lines of a word and a text:

- 'refuses:' names a function and the goals that the edit must leave open there, with commas between. A goal is a clause of the
  contract, by its name or as 'returns'; 'invariant', of a type whose value the function leaves; 'CALL asks CLAUSE', of a call;
  'LABEL keeps', of a loop; 'lemma NAME', of a changed definition; or 'proof', where the file Proof.antt names no clause;
- 'kept:' gives the reason for an edit of a function that other crates cannot name;
- 'file:' names a file of the crate, 'old:' a text that stands there once, and 'new:' the text that replaces it. The sign ⏎
  stands for a line's end.

The tools skip lines that begin with '#'.

Each crate is copied with all below it, and proved as it stands, before and after. What a script puts into one group is
tried in one check of a copy, each edit by the function that it names and no other. What was refused where it should be, in
a copy that was proved before and after, is kept, as kept.py says: a later run tries only what changed since.
"""
import concurrent.futures
import contextlib
import os
import pathlib
import re
import shutil
import subprocess
import tempfile
import time
from typing import Dict, Iterable, Iterator, List, NamedTuple, Optional, Set, Tuple

from crate_copies import ROOT, copy_crate, copy_crates, stands_on, with_all_below
from kept import Kept, crate_sum, scripts_sum, sum_of

# side by side; of more than two processors one is left to whatever runs beside, and more of them would each take longer
JOBS = max(2, min(3, (os.cpu_count() or 1) - 1))
# how many groups are tried in one copy
MOST_GROUPS = 5

# A declaration by what is nowhere. Where a function's answers have it, a check tells which goals of the function are open,
# and does not go on to offer answers for them, which takes a quarter of its time
NO_OFFER = "\n\nleft-out : nowhere\nleft-out = nowhere\n"

# what the checker says where a proof file names what is no longer there, which tells nothing of the contract
STALE_NAME = re.compile(r"has no field|is not in scope(?! here, so what is shown)|has no `|was not admitted")


# the words that a line of an edit may begin with
WORDS = {"refuses", "kept", "file", "old", "new"}


class Edit:
    def __init__(self, name: str, lines: Iterable[str]) -> None:
        self.name = name
        self.lines = list(lines)
        self.changes: List[Tuple[str, str, str]] = []
        fields = {}
        for line in self.lines:
            word, _, text = line.partition(":")
            if word not in WORDS:
                raise ValueError(f"{name}: a line that no edit has: {line}")
            fields[word] = text.removeprefix(" ").replace("⏎", "\n")
            if word == "new":
                self.changes.append((fields["file"], fields["old"], fields["new"]))
        self.function, _, goals = fields.get("refuses", "").partition(" ")
        self.goals = goals.split(", ")
        self.reason = fields.get("kept", "")

    def edited(self, texts: Dict[str, str]) -> Tuple[Dict[str, str], str]:
        """The texts of its files after the changes, from what they are before; where an old text does not stand once, why not."""
        after = {}
        for file, old, new in self.changes:
            text = after.get(file, texts[file])
            if text.count(old) != 1:
                return {}, f"the old text stands {text.count(old)} times in {file}, and not once: {old}"
            after[file] = text.replace(old, new)
        return after, ""

    def files(self) -> List[str]:
        return list(dict.fromkeys(file for file, _, _ in self.changes))

    def apply(self, crate: pathlib.Path) -> Tuple[Dict[str, str], str]:
        """Makes the changes, and answers the texts as they were; where a text does not stand once, why nothing is made."""
        before = read(crate, self.files())
        after, fault = self.edited(before)
        write(crate, after)
        return ({}, fault) if fault else (before, "")

    def is_refused(self, goals: List[str]) -> bool:
        """Whether all that it names is open."""
        return all(any(pattern_of(wanted).match(goal) for goal in goals) for wanted in self.goals)


def pattern_of(wanted: str) -> "re.Pattern[str]":
    """The checker's names of what an edit names; a clause that is owed at several ends has a goal for each."""
    call, asks, clause = wanted.partition(" asks")
    if asks:
        unnamed, end = ("", f"-clause-{re.escape(clause.strip())}") if clause else ("(?!.*-clause-)", "")
        return re.compile(rf"{unnamed}{re.escape(call)}(-\w+)*-requires(-.*)?{end}$")
    if wanted.endswith(" keeps"):
        return re.compile(rf"{re.escape(wanted.removesuffix(' keeps'))}-preserved(-.*)?$")
    if wanted == "returns":
        return re.compile(r"returns(?!.*-clause-)")
    if wanted == "invariant":
        return re.compile(r"invariant_of-")
    if wanted == "proof":
        return re.compile(r"\w+_spec$")
    if wanted.startswith("lemma "):
        return re.compile(rf"{re.escape(wanted.removeprefix('lemma '))}$")
    return re.compile(rf"returns(-.*)?-clause-{re.escape(wanted)}$")


def edits_in(path: pathlib.Path) -> List[Edit]:
    """The edits of a file CRATE.edits, in its order."""
    lines = [line for line in path.read_text(encoding="utf-8").splitlines() if line and not line.startswith("#")]
    heads = [at for at, line in enumerate(lines) if line.startswith("[")]
    edits = [Edit(lines[at][1:-1], lines[at + 1:end]) for at, end in zip(heads, [*heads[1:], len(lines)])]
    names = [edit.name for edit in edits]
    if heads[:1] != [0] or len(set(names)) < len(names):
        raise ValueError(f"{path}: a line before the first name, or two edits of one name")
    return edits


def read(crate: pathlib.Path, files: List[str]) -> Dict[str, str]:
    return {file: (crate / file).read_text(encoding="utf-8") for file in files}


def apply_together(crate: pathlib.Path, edits: List[Edit]) -> bool:
    """Whether the edits can be made one after another, so that they can be tried at once."""
    texts = read(crate, [file for edit in edits for file in edit.files()])
    for edit in edits:
        after, fault = edit.edited(texts)
        if fault:
            return False
        texts.update(after)
    return True


def write(crate: pathlib.Path, texts: Dict[str, str]) -> None:
    for file, text in texts.items():
        (crate / file).write_text(text, encoding="utf-8")


def check(crate: pathlib.Path, functions: List[str], *flags: str) -> Tuple[int, str]:
    """Checks these functions and what they call; the status, and what the check said."""
    only = [word for function in dict.fromkeys(functions) for word in ("--only", function)]
    run = subprocess.run(["rt", "check", "--jobs", "1", *only, *flags], cwd=crate, capture_output=True, text=True)
    return run.returncode, run.stdout + run.stderr


def is_inside(path: str, function: str) -> bool:
    """Whether a path of the checker is the function, or a closure in it."""
    return path == function or path.replace("fn::", "", 1).startswith(f"{function}::") and "fn::" in path


def proofs_of(function: str) -> List[str]:
    """The folders that may have the function's proof files: that of a function which calls itself has a plus, and that of
    methods of several types which call one another, in a cycle of that name, is the module's."""
    *modules, name = function.split("::")
    folders = [(*modules, name), (*modules, f"+{name}"), (*modules[:-1], f"+{name}")]
    return ["/".join(("proofs", *folder, "")) for folder in folders]


def may_call_itself(crate: pathlib.Path, edit: Edit) -> bool:
    """Whether a function of that name calls one of that name, where the edit is made. Its proof may then stand elsewhere."""
    (file, _, _), *_ = edit.changes
    name = re.escape(edit.function.split("::")[-1])
    text = (crate / file).read_text(encoding="utf-8")
    bodies = re.findall(rf"^( *)(?:\S[^\n]*)?\bfn {name}\b(.*?)^\1}}", text, re.MULTILINE | re.DOTALL)
    return any(re.search(rf"\b{name}\(", body) for _, body in bodies)


def place_of_answers(crate: pathlib.Path, edit: Edit) -> Optional[pathlib.Path]:
    """The file for the answers of the edit's function, whether it is there or not; None where there can be no such file."""
    folders = [crate / folder for folder in proofs_of(edit.function)]
    folder = next((folder for folder in folders if any(folder.glob("*.antt"))), None)
    if folder:
        return None if (folder / "Proof.antt").is_file() else folder / "Answers.antt"
    return None if may_call_itself(crate, edit) else folders[0] / "Answers.antt"


@contextlib.contextmanager
def no_offers(crate: pathlib.Path, edits: List[Edit]) -> Iterator[None]:
    """Has a check offer no answers for these functions meanwhile. What is open in them stays so, and nothing else is."""
    files = {place_of_answers(crate, edit) for edit in edits} - {None}
    before = {file: file.read_text(encoding="utf-8") if file.is_file() else None for file in files}
    for file, text in before.items():
        file.parent.mkdir(parents=True, exist_ok=True)
        file.write_text((text or "") + NO_OFFER, encoding="utf-8")
    yield
    for file, text in before.items():
        file.unlink() if text is None else file.write_text(text, encoding="utf-8")


def opened_by_no_offers(crate: pathlib.Path, edit: Edit) -> List[str]:
    """The goals that are open in the edit's function before the edit is made, only since no answers are offered: none."""
    with no_offers(crate, [edit]):
        status, output = check(crate, [edit.function])
    return open_goals(crate, edit.function, output) if status in (0, 1) else [f"no verdict, and status {status}"]


def head_of(function: str) -> str:
    """What the names of the function's goals begin with in a cycle of several types."""
    return "::".join(function.split("::")[-2:]) + "-"


def own_goals(function: str, goals: List[str]) -> List[str]:
    """Of these goals those of the function, without what tells in a cycle whose they are."""
    head = head_of(function)
    return [goal.removeprefix(head) for goal in goals if goal.startswith(head) or "::" not in goal]


def refused_at_proofs(function: str, output: str) -> List[str]:
    """The goals that the check refuses at the function's proof files, and the lemmas, but for those where a name alone is
    stale."""
    error = re.compile(r"^(?:\./)?(proofs/\S+)\.antt:\d+:\d+: error: `([^`]*)`: (.*(?:\n  .*)*)", re.MULTILINE)
    folders = (*proofs_of(function), "proofs/lemmas/")
    found = error.findall(output)
    return [goal for file, goal, said in found if file.startswith(folders) and not STALE_NAME.search(said)]


def open_goals(crate: pathlib.Path, function: str, output: str) -> List[str]:
    """The goals of the function that the check leaves open."""
    goals = refused_at_proofs(function, output)
    notes = []
    for line in output.splitlines():
        note = re.match(r"note: src/\S+: .*\(`([^`]*)`\)", line)
        verdict = re.match(rf"(?:fn|impl) {crate.name}::(\S+): (.*)", line)
        if note:
            notes.append(note[1])
        elif verdict:
            if is_inside(verdict[1], function):
                searched = verdict[2].partition("did not prove ")[2].partition(";")[0]
                goals += notes + re.findall(r"`([^`]*)`", searched)
            notes = []
    return list(dict.fromkeys(own_goals(function, goals)))


def refused_functions(crate: pathlib.Path, output: str) -> Set[str]:
    """The functions that the check refuses, whether for a goal of their own or for what they call."""
    said = re.findall(rf"^fn {crate.name}::(\S+): (.*)$", output, re.MULTILINE)
    return {function for function, verdict in said if re.match("no proof|not proved", verdict)}


def goals_after(crate: pathlib.Path, function: str, goals: List[str]) -> List[str]:
    """The goals open besides these, once their answers are holes: beside a wrong answer the check names none."""
    files = [crate / folder / "Answers.antt" for folder in proofs_of(function)]
    file = next((file for file in files if file.is_file()), None)
    if not file:
        return []
    text = holed = file.read_text(encoding="utf-8")
    for goal in goals:
        name = f"(?:{re.escape(head_of(function))})?{re.escape(goal)}"
        body = re.compile(rf"^({name}( \w+)* =).*?(?=^\S|\Z)", re.MULTILINE | re.DOTALL)
        holed = body.sub(r"\1 ?\n\n", holed)
    file.write_text(holed, encoding="utf-8")
    _, output = check(crate, [function], "--allow-holes")
    file.write_text(text, encoding="utf-8")
    return open_goals(crate, function, output)


def try_together(crate: pathlib.Path, edits: List[Edit], nothing_else: bool) -> Tuple[Dict[Edit, List[str]], str]:
    """The goals that each edit leaves open where all are made at once, and what the check said."""
    before, made = {}, []
    for edit in edits:
        texts, fault = edit.apply(crate)
        made += [] if fault else [edit]
        before = {**texts, **before}
    with no_offers(crate, made):
        status, output = check(crate, [edit.function for edit in made])
    write(crate, before)
    if status != 1 or nothing_else and not refused_functions(crate, output) <= {edit.function for edit in made}:
        return {}, output
    return {edit: open_goals(crate, edit.function, output) for edit in made}, output


def try_alone(crate: pathlib.Path, edit: Edit, nothing_else: bool) -> Tuple[List[str], str]:
    """The goals that the edit leaves open, also those after a wrong answer, and what the check said."""
    texts, fault = edit.apply(crate)
    if fault:
        return [], fault
    with no_offers(crate, [edit]):
        status, output = check(crate, [edit.function])
    counts = status == 1 and not (nothing_else and refused_functions(crate, output) - {edit.function})
    goals = open_goals(crate, edit.function, output) if counts else []
    if goals and not edit.is_refused(goals):
        goals += goals_after(crate, edit.function, goals)
    write(crate, texts)
    return goals, output


# the edits of each crate, in the groups that are tried at once
Groups = Dict[str, List[List[Edit]]]


class Tried(NamedTuple):
    """An edit that was tried: whether it was refused where it should be, and what is told of it."""

    edit: Edit
    right: bool
    told: str


def try_group(crate: pathlib.Path, edits: List[Edit], nothing_else: bool) -> Iterator[Tried]:
    """Tries the edits at once, and alone what is then not refused where it should be."""
    together, output = try_together(crate, edits, nothing_else)
    for edit in edits:
        goals, said = together.get(edit, []), output
        if not edit.is_refused(goals):
            goals, said = try_alone(crate, edit, nothing_else)
        if edit.is_refused(goals):
            yield Tried(edit, True, f"{crate.name} {edit.name}: {edit.function} is open at {', '.join(goals)}")
        else:
            wanted = ", ".join(edit.goals)
            yield Tried(edit, False, f"{crate.name} {edit.name}: {edit.function} is not refused at {wanted}: {goals}\n{said}")


class Copy(NamedTuple):
    """What was tried in a copy of a crate: the sum of what was copied, and what the check said where the copy was not proved
    unedited after that."""

    crate_sum: str
    tried: List[Tried]
    fault: str


def try_copy(first: pathlib.Path, name: str, groups: List[List[Edit]], folder: pathlib.Path, nothing_else: bool) -> Copy:
    """Tries the groups in a copy of the crate, which must be proved as it stands after that. The copy has some 2 GB, and
    goes at once."""
    crate = copy_crate(name, folder, root=first)
    copied = crate_sum(folder, name)
    tried = []
    for group in groups:
        began = time.monotonic()
        tried += try_group(crate, group, nothing_else)
        print(f"{name}: {len(group)} tried in {time.monotonic() - began:.0f} s", flush=True)
    status, output = check(crate, [edit.function for group in groups for edit in group])
    is_as_before = copied == crate_sum(folder, name)
    shutil.rmtree(folder, ignore_errors=True)
    return Copy(copied, tried, "" if status == 0 and is_as_before else output or "the copy is not as it was")


def in_copies(groups: Groups) -> Iterator[Tuple[str, List[List[Edit]]]]:
    """Each crate with as many of its groups as are tried in one copy."""
    for name, of_crate in groups.items():
        copies = -(-len(of_crate) // MOST_GROUPS)
        for number in range(copies):
            yield name, of_crate[number::copies]


def lines_below(name: str) -> int:
    """How many lines the crate and all below it have, which tells about how long a check takes."""
    folders = [ROOT / "crates" / crate / part for crate in with_all_below(name, stands_on()) for part in ("src", "proofs")]
    files = [path for folder in folders for path in folder.rglob("*") if path.is_file()]
    return sum(path.read_text(encoding="utf-8").count("\n") for path in files)


class Trial:
    """The edits of crates in their groups, and what an earlier run told of those that are kept.

    Where nothing else may be refused, an edit counts only where the check refuses no function that is not named.
    """

    def __init__(self, groups: Groups, nothing_else: bool = False) -> None:
        self.kept = Kept()
        self.nothing_else = nothing_else
        self.edits = [edit for of_crate in groups.values() for group in of_crate for edit in group]
        self.known: Dict[Edit, str] = {}
        self.groups: Groups = {}
        for crate, of_crate in groups.items():
            self.take(crate_sum(ROOT, crate), [edit for group in of_crate for edit in group])
            left = [[edit for edit in group if edit not in self.known] for group in of_crate]
            if any(left):
                self.groups[crate] = [group for group in left if group]

    def name(self, of_crate: str, edit: Edit) -> str:
        """The name under which the edit of a crate with that sum is kept."""
        scripts = scripts_sum("kept.py", "refusals.py", "crate_copies.py")
        return sum_of(of_crate, scripts, edit.name, edit.lines, self.nothing_else)

    def take(self, of_crate: str, edits: List[Edit]) -> None:
        """Takes what an earlier run told of these edits of a crate with that sum."""
        for edit in edits:
            told = self.kept.told(self.name(of_crate, edit))
            if told is not None:
                self.known[edit] = told

    def crates(self) -> List[str]:
        """The crates with edits that are to be tried."""
        return list(self.groups)

    def run(self) -> Iterator[Tuple[bool, str]]:
        """Each edit, whether it was refused where it should be, with what is told of it; and what is wrong with a copy.

        A copy of the crates is proved as they stand, and each crate's groups are tried in copies of that, longest first.
        """
        for told in self.known.values():
            yield True, f"{told} (kept)"
        if self.known:
            print(f"kept {len(self.known)}: refused by an earlier run, and nothing that they stand on has changed", flush=True)
        if not self.groups:
            return
        with tempfile.TemporaryDirectory() as folder, concurrent.futures.ThreadPoolExecutor(JOBS) as pool:
            first = pathlib.Path(folder) / "first"
            first.mkdir()
            copy_crates(self.groups, first)
            run = subprocess.run(["rt", "all", "check", "--jobs", str(JOBS)], cwd=first, capture_output=True, text=True)
            if run.returncode != 0:
                yield False, f"the crates are not proved unedited: {run.stdout}"
                return
            opened = pool.map(lambda name: opened_by_no_offers(first / "crates" / name, self.groups[name][0][0]), self.groups)
            yield from ((False, f"open before an edit is made: {goals}") for goals in opened if goals)
            for copy in self.copies(pool, first, pathlib.Path(folder)):
                yield from self.results(copy)

    def copies(
        self, pool: concurrent.futures.Executor, first: pathlib.Path, folder: pathlib.Path
    ) -> Iterator[Copy]:
        """The copies of crates, as they come to an end."""
        tasks = sorted(in_copies(self.groups), key=lambda task: -len(task[1]) * lines_below(task[0]))
        tried = []
        for number, (name, of_copy) in enumerate(tasks):
            place = folder / str(number)
            place.mkdir()
            tried.append(pool.submit(try_copy, first, name, of_copy, place, self.nothing_else))
        for copy in concurrent.futures.as_completed(tried):
            yield copy.result()

    def results(self, copy: Copy) -> Iterator[Tuple[bool, str]]:
        """What was tried in a copy; where it was proved unedited after that, what was refused is kept."""
        for edit, right, told in copy.tried:
            if right and not copy.fault:
                self.kept.keep(self.name(copy.crate_sum, edit), told)
            yield right, told
        if copy.fault:
            yield False, f"a copy is not proved unedited after that: {copy.fault}"
