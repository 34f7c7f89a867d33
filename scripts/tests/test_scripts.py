"""Tries the scripts that decide: what they read in the checker's words, what they keep, and what they count.

What the checker said of edits stands in checker/, as it said it. Nothing is proved here, and what is kept goes into a
folder of its own.
"""
import importlib.machinery
import importlib.util
import os
import pathlib
import re
import shutil
import subprocess

import kept
import man_pages
import parts
import pytest
import refusals
import tally
from built_from import Built
from contracts import Crate
from crate_copies import ROOT, stands_on, with_all_below
from packed_pages import packed
from tried import tried

LOAD = "text_probe::Probe::load"
ADD = "chunks::plain_array::PlainByteChunk::add"
TICK = "counters::Counter::tick"
CHANGE = ("file: src/text_probe.rt", "old: self.loads.tick();", "new:")
COPIED = shutil.ignore_patterns(".git", "out", "target", "__pycache__")


def said(name: str) -> str:
    return (ROOT / f"scripts/tests/checker/{name}.txt").read_text(encoding="utf-8")


def edit_of(*lines: str, name: str = "an_edit") -> refusals.Edit:
    return refusals.Edit(name, lines)


def contents(folder: pathlib.Path) -> dict:
    return {path: path.read_text(encoding="utf-8") for path in folder.rglob("*") if path.is_file()}


@pytest.fixture(autouse=True)
def own_cache(tmp_path, monkeypatch):
    """What is kept goes into a folder of the test's own, and is taken from there also where the gate takes nothing."""
    monkeypatch.setenv("XDG_CACHE_HOME", str(tmp_path / "cache"))
    monkeypatch.delenv("GATE_ANEW", raising=False)


@pytest.fixture
def crate(tmp_path):
    """Files of a crate that an edit can change; the folder's name is the crate's."""
    files = {
        "src/text_probe.rt": "self.loads.tick();\nself.loads.place(at);\n",
        "proofs/text_probe/Probe/load/Answers.antt": "pub returns-clause-text : goal\nreturns-clause-text g c =\n    wrong\n",
    }
    for name, text in files.items():
        (tmp_path / "byte_chunk" / name).parent.mkdir(parents=True, exist_ok=True)
        (tmp_path / "byte_chunk" / name).write_text(text)
    return tmp_path / "byte_chunk"


@pytest.fixture(scope="module")
def copy(tmp_path_factory):
    """A copy of the repository, in which a test may change a file that it restores."""
    folder = tmp_path_factory.mktemp("copied") / "copy"
    shutil.copytree(ROOT, folder, ignore=COPIED)
    return folder


# What the checker says of an edit.

ALONE = {
    "refused at its goal": (f"{LOAD} state", [(1, "at_the_goal")], False, True),
    "refused at another clause than the one that is named": (f"{LOAD} text", [(1, "at_the_goal")], False, False),
    "refused at an answer": (f"{ADD} returns", [(1, "at_an_answer")], False, True),
    "refused elsewhere alone": (f"{TICK} returns", [(1, "elsewhere")], False, False),
    "refused elsewhere, where nothing else may be": (f"{LOAD} state", [(1, "elsewhere")], True, False),
    **{f"not judged, status {status}": (f"{LOAD} state", [(status, "not_judged")], False, False) for status in (1, 2, 3, 0, -9)},
    "a check that did not come to its end": (f"{LOAD} state", [(2, "at_the_goal")], False, False),
    "a name that is no longer there": (f"{ADD} returns", [(1, "stale_name")], False, False),
    # Beside a wrong answer the checker names no other goal: the answer becomes a hole, and it is asked again.
    "a wrong answer that became a hole": (f"{LOAD} state", [(1, "a_wrong_answer"), (1, "at_the_goal")], False, True),
    "a wrong answer, and nothing else is open": (f"{LOAD} state", [(1, "a_wrong_answer"), (0, "")], False, False),
}


@pytest.mark.parametrize("names, answers, nothing_else, is_refused", ALONE.values(), ids=ALONE)
def test_an_edit_alone(names, answers, nothing_else, is_refused, crate, monkeypatch):
    told = [(status, said(name) if name else "") for status, name in answers]
    monkeypatch.setattr(refusals, "check", lambda *_: told.pop(0) if len(told) > 1 else told[0])
    before = contents(crate)
    edit = edit_of(f"refuses: {names}", *CHANGE)
    goals, _ = refusals.try_alone(crate, edit, nothing_else)
    assert edit.is_refused(goals) == is_refused
    assert contents(crate) == before


@pytest.mark.parametrize("function, file", [
    pytest.param(LOAD, "load/Answers.antt", id="answers that there are"),
    pytest.param("text_probe::Probe::peek", "peek/Answers.antt", id="no answers yet"),
    pytest.param("text_probe::Probe::fill", "fill/Proof.antt", id="a proof step by step"),
    pytest.param("text_probe::Probe::down", "+down/Answers.antt", id="a function that calls itself"),
])
def test_no_offers_of_answers(function, file, crate):
    for path in ["fill/Proof.antt", "+down/Invariants.antt"]:
        (crate / "proofs/text_probe/Probe" / path).parent.mkdir()
        (crate / "proofs/text_probe/Probe" / path).write_text("a proof\n")
    before = contents(crate)
    with refusals.no_offers(crate, [edit_of(f"refuses: {function} returns", *CHANGE)]):
        meanwhile = contents(crate)
    changed = {path: text for path, text in meanwhile.items() if before.get(path) != text}
    path = crate / "proofs/text_probe/Probe" / file
    assert changed == ({} if path.name == "Proof.antt" else {path: before.get(path, "") + refusals.NO_OFFER})
    assert contents(crate) == before


@pytest.mark.parametrize("body, has_place", [
    pytest.param("other(at)", True, id="calls another"), pytest.param("self.peek(at)", False, id="calls itself"),
])
def test_answers_of_a_function_without_any(body, has_place, crate):
    (crate / "src/text_probe.rt").write_text(f"    fn peek(&self, at: usize)\n    {{\n        {body}\n    }}\n")
    edit = edit_of("refuses: text_probe::Probe::peek returns", *CHANGE)
    place = crate / "proofs/text_probe/Probe/peek/Answers.antt"
    assert refusals.place_of_answers(crate, edit) == (place if has_place else None)


@pytest.mark.parametrize("names, goal, fits", [
    ("f answer", "returns-clause-answer", True), ("f answer", "returns-tail-clause-answer", True),
    ("f answer", "returns-clause-answers", False), ("f returns", "returns", True), ("f returns", "returns-clause-x", False),
    ("f invariant", "invariant_of-self", True), ("f g asks end", "g-requires-0-clause-end", True),
    ("f g asks end", "h-requires-clause-end", False), ("f g asks", "g-requires", True),
    ("f g asks", "g-requires-clause-end", False), ("f proof", "f_spec", True), ("f proof", "returns", False),
    ("f lemma seam-loss", "seam-loss", True), ("f lemma seam-loss", "seam-loss-same", False),
])
def test_goals_that_fit(names, goal, fits):
    assert edit_of(f"refuses: {names}").is_refused([goal]) == fits


@pytest.mark.parametrize("goals, fits", [
    (["returns-clause-text", "returns-then-clause-low"], True), (["returns-clause-text"], False), ([], False),
])
def test_an_edit_that_names_two_goals(goals, fits):
    assert edit_of("refuses: f text, low").is_refused(goals) == fits


def test_an_old_text_of_two_lines():
    assert edit_of("file: src/lib.rt", "old: a⏎b", "new: c").edited({"src/lib.rt": "a\nb\n"}) == ({"src/lib.rt": "c\n"}, "")


def test_goals_in_a_cycle_of_two_types():
    goals = ["Fork::put-returns-clause-kept", "Tree::put-returns-clause-text", "returns"]
    assert refusals.own_goals("tree::Fork::put", goals) == ["returns-clause-kept", "returns"]


# Where an edit can be made, and how a file of many is read.

ONE = edit_of(f"refuses: {LOAD} state", *CHANGE, name="one")
SAME = edit_of(f"refuses: {LOAD} state", *CHANGE, name="same")
OTHER = edit_of(f"refuses: {LOAD} low", CHANGE[0], "old: place(at)", "new: place(0)", name="other")
TWICE = edit_of(f"refuses: {LOAD} low", CHANGE[0], "old: self.loads", "new: self", name="twice")


@pytest.mark.parametrize("edits, can_be_made", [
    pytest.param([ONE, OTHER], True, id="two edits of other places"),
    pytest.param([ONE, SAME], False, id="two edits of one place"),
    pytest.param([TWICE], False, id="an edit of a text that stands twice"),
])
def test_edits_together(edits, can_be_made, crate):
    assert bool(refusals.apply_together(crate, edits)) == can_be_made


def test_nothing_is_made_of_an_edit_that_cannot_be(crate):
    before = contents(crate)
    texts, fault = TWICE.apply(crate)
    assert fault and not texts and contents(crate) == before


HEAD = f"refuses: {LOAD} state"
TWO = ["# a promise", "", "[one]", HEAD, *CHANGE, "", "# why", "[two]", f"refuses: {LOAD} low", *CHANGE, *CHANGE[1:]]


def edits_in(folder, lines):
    (folder / "crate.edits").write_text("\n".join(lines), encoding="utf-8")
    return [(edit.name, *edit.goals, len(edit.changes)) for edit in refusals.edits_in(folder / "crate.edits")]


def test_a_file_of_two_edits(tmp_path):
    assert edits_in(tmp_path, TWO) == [("one", "state", 1), ("two", "low", 2)]


@pytest.mark.parametrize("lines", [
    pytest.param(["[one]", HEAD, *CHANGE, "[one]", HEAD, *CHANGE], id="two of one name"),
    pytest.param([HEAD, "[one]", HEAD, *CHANGE], id="a line before the first name"),
    pytest.param(["[one]", HEAD, "nwe: x"], id="a word that no edit has"),
])
def test_a_file_of_edits_that_is_refused(lines, tmp_path):
    with pytest.raises(ValueError):
        edits_in(tmp_path, lines)


@pytest.mark.parametrize("path", sorted((ROOT / "refusals").glob("*/*.edits")), ids=lambda path: "/".join(path.parts[-2:]))
def test_each_edit_can_be_made(path):
    crate = ROOT / "crates" / path.stem
    edited = [edit.edited(refusals.read(crate, edit.files())) for edit in refusals.edits_in(path)]
    assert [fault for _, fault in edited if fault] == []


@pytest.mark.parametrize("crate, path, is_public, clauses", [
    ("str_indices", "chars::to_byte_idx", True, ["answer", "boundary"]),
    ("str_indices", "passes::sure_chunks", False, ["within", "sure"]),
    ("text_rope", "rope::Rope::cut", False, ["parts", "err", "inside", "work"]),
    ("text_rope", "rope::views::View::len", True, ["len", "short"]),
    ("text_index", "index::TextIndex::len", True, ["len", "short"]),
    ("positions", "parts::Parts::len", True, ["len", "short", "searched"]),
    ("text_rope_c", "reads::rope_chunk_at", True, ["stays", "chunk", "sized", "some", "none"]),
])
def test_clauses_of_a_function(crate, path, is_public, clauses):
    found = [function for function in Crate(crate).functions() if function.path == path]
    assert [(it.is_public, it.clauses) for it in found] == [(is_public, clauses)]


@pytest.mark.parametrize("crate", stands_on())
def test_each_clause_is_of_a_function(crate):
    sources = Crate(crate)
    clauses = [line for text in sources.texts.values() for line in text.splitlines() if re.match(r"\s*ensures\b", line)]
    assert len(clauses) == sum(len(function.clauses) for function in sources.functions())


# What is counted.

@pytest.mark.parametrize("output, sums", [
    ("ok: a\n3 passed, 0 failed\n", (3, 0, 0)), ("3 passed, 1 failed, 2 skipped", (3, 1, 2)), ("", None),
    ("3 passed, 0 failed\nmore\n", None), ("3 passed, 0 failed and more\n", None),
])
def test_sums_of_an_output(output, sums):
    assert tally.sums_of(output) == sums


@pytest.mark.parametrize("results, status", [([], 1), ([True], 0), ([True, False], 1)])
def test_status_of_a_tally(results, status):
    counted = tally.Tally()
    for right in results:
        counted.result(right, "")
    assert counted.end() == status


def test_a_name_without_a_least_number_is_an_error():
    with pytest.raises(KeyError):
        tally.least("no such name")


# What changes the sum of a crate.

def sums_of_crates(root):
    return {crate: kept.crate_sum(root, crate) for crate in stands_on()}


@pytest.fixture(scope="module")
def sums():
    return sums_of_crates(ROOT)


def test_a_copy_elsewhere_has_the_same_sums(copy, sums):
    assert sums_of_crates(copy) == sums


def others_once_changed(root, path, before, names):
    """What is named otherwise once that file has changed; it is as before after that."""
    file = root / path
    old = file.read_bytes() if file.exists() else None
    file.parent.mkdir(parents=True, exist_ok=True)
    file.write_bytes((old or b"") + b"\n")
    after = names(root)
    file.unlink() if old is None else file.write_bytes(old)
    return {name for name in before if after[name] != before[name]}


@pytest.mark.parametrize("path, lowest", [
    ("docs/GATE.md", None), ("bindings/c/rope.c", None), ("crates/text_rope/out/x", None),
    ("crates/text_rope/src/rope.rt", "text_rope"),
    ("crates/text_rope/proofs/new.antt", "text_rope"), ("crates/str_indices/specs/new.antt", "str_indices"),
    ("crates/byte_chunk/src/lib.rt", "byte_chunk"), ("crates/idx/src/main.rt", "idx"), ("HANDLES", "byte_chunk"),
])
def test_crates_that_are_tried_again(path, lowest, copy, sums):
    above = {crate for crate in sums if lowest in with_all_below(crate, stands_on())}
    assert others_once_changed(copy, path, sums, sums_of_crates) == above


@pytest.mark.parametrize("changed", [
    pytest.param(lambda patch: patch.setenv("RT_SOMETHING", "1"), id="word for it"),
    pytest.param(lambda patch: patch.setattr(kept, "toolchain", lambda: "another"), id="kit"),
])
def test_with_another_toolchain_the_sum_is_another(changed, sums, monkeypatch):
    changed(monkeypatch)
    assert kept.crate_sum(ROOT, "byte_chunk") != sums["byte_chunk"]


# A changed source changes a library's sum.

@pytest.mark.parametrize("path", [
    "crates/str_indices/src/chars.rt", "crates/byte_chunk/specs/new.antt", "bindings/c/rope.c", "out/library",
])
def test_a_library_of_other_sources(path, copy):
    built = Built(copy / "out/library", ["str_indices"], [copy / "bindings/c/rope.c"], root=copy)
    built.file.parent.mkdir(exist_ok=True)
    built.file.write_text("library")
    assert not built.is_of(built.sum())
    built.keep(built.sum())
    assert built.is_of(built.sum())
    assert others_once_changed(copy, path, {"library": True}, lambda _: {"library": built.is_of(built.sum())}) == {"library"}
    shutil.rmtree(built.file.parent)


# What makes another toolchain of one.

@pytest.fixture
def kit(tmp_path):
    for name in ["bin/rt", "bin/rattle", "KIT-ID", "rlibs/std.rlib", "logic_built/a"]:
        (tmp_path / "kit" / name).parent.mkdir(parents=True, exist_ok=True)
        (tmp_path / "kit" / name).write_text(name)
        (tmp_path / "kit" / name).chmod(0o755)
    return tmp_path / "kit"


def kit_sum(kit, monkeypatch):
    """The sum of the toolchain whose command is found in that kit."""
    with monkeypatch.context() as changed:
        changed.setenv("PATH", f"{kit / 'bin'}:{os.environ['PATH']}")
        return kept.toolchain.__wrapped__()


@pytest.mark.parametrize("changed", [None, "bin/rattle", "KIT-ID", "rlibs/std.rlib", "logic_built/a"])
def test_a_kit_elsewhere_has_the_same_sum_unless_a_file_is_another(changed, kit, tmp_path, monkeypatch):
    first = kit_sum(kit, monkeypatch)
    other = shutil.copytree(kit, tmp_path / "other")
    if changed:
        (other / changed).write_text("another")
        assert kit_sum(other, monkeypatch) != first
        shutil.copy2(kit / changed, other / changed)
    assert kit_sum(other, monkeypatch) == first


# Which entries are taken.

@pytest.fixture
def entry():
    """A store, and the name of an entry that it has."""
    store = kept.Kept()
    name = refusals.Trial({}).name("a sum", ONE)
    store.keep(name, "told")
    return store, name


@pytest.mark.parametrize("change, taken", [
    pytest.param(lambda at, patch: None, "told", id="as it was"),
    pytest.param(lambda at, patch: [path.unlink() for path in at.iterdir()], None, id="never kept"),
    pytest.param(lambda at, patch: patch.setenv("GATE_ANEW", "1"), None, id="GATE_ANEW"),
    pytest.param(lambda at, patch: at.chmod(0o750), None, id="in a folder that is open to others"),
    pytest.param(lambda at, patch: (at.chmod(0o750), at.chmod(0o700)), "told", id="in one that is closed again"),
])
def test_what_is_taken(change, taken, entry, monkeypatch):
    store, name = entry
    change(store.at, monkeypatch)
    assert kept.Kept().told(name) == taken


@pytest.mark.parametrize("damage", [
    pytest.param(lambda text, name: text[:20], id="cut off"),
    pytest.param(lambda text, name: "", id="empty"),
    pytest.param(lambda text, name: text.replace(name, "0" * 64), id="of another name"),
    pytest.param(lambda text, name: '{"name": 1}', id="of another kind"),
    pytest.param(lambda text, name: "[]", id="a list"),
])
def test_a_damaged_entry_is_not_taken(damage, entry):
    store, name = entry
    text = (store.at / name).read_text()
    (store.at / name).write_text(damage(text, name))
    assert store.told(name) is None


@pytest.mark.parametrize("other", [
    pytest.param(refusals.Trial({}).name("a sum", edit_of(HEAD, *CHANGE[:-1], "new: other", name="one")), id="text of the edit"),
    pytest.param(refusals.Trial({}, nothing_else=True).name("a sum", ONE), id="rule"),
    pytest.param(refusals.Trial({}).name("another", ONE), id="sum of the crate"),
])
def test_another_one_is_tried_again(other, entry):
    store, _ = entry
    assert store.told(other) is None


def test_what_was_not_refused_is_not_kept():
    trial = refusals.Trial({})
    tried = [refusals.Tried(ONE, True, "a"), refusals.Tried(OTHER, False, "b")]
    assert list(trial.results(refusals.Copy("sum", tried, ""))) == [(True, "a"), (False, "b")]
    assert [trial.kept.told(trial.name("sum", edit)) for edit in (ONE, OTHER)] == ["a", None]


def test_what_was_in_a_copy_that_was_not_proved_after_that_is_not_kept():
    trial = refusals.Trial({})
    told = list(trial.results(refusals.Copy("sum", [refusals.Tried(ONE, True, "c")], "not proved")))
    assert told[0] == (True, "c") and not told[1][0]
    assert trial.kept.told(trial.name("sum", ONE)) is None


# What changes the name of a part.

ALL = " ".join(part.name for part in parts.PARTS)
OF_PAGES = "test_pages.py test_release.py"


def names_of_parts(root):
    return {part.name: parts.name_of(root, part) for part in parts.PARTS}


@pytest.fixture(scope="module")
def names():
    return names_of_parts(ROOT)


def test_a_copy_elsewhere_has_the_same_names(copy, names):
    assert names_of_parts(copy) == names


@pytest.mark.parametrize("path, changed", [
    ("docs/GATE.md", OF_PAGES), ("bindings/c/README.md", f"test_c.py {OF_PAGES}"), ("refusals/no-edit.txt", ""),
    ("scripts/tests/unit_tests.py", ""), ("crates/idx/out/x", ""), ("crates/idx/src/main.rt", ALL), ("bindings/c/rope.c", ALL),
    ("scripts/least.txt", ALL), ("HANDLES", ALL), ("new", ALL),
])
def test_parts_that_run_again(path, changed, copy, names):
    assert others_once_changed(copy, path, names, names_of_parts) == set(changed.split())


def test_without_a_tool_the_name_of_a_part_is_another(copy, names, monkeypatch):
    monkeypatch.setattr(parts, "tool", lambda name: ())
    monkeypatch.setattr(parts, "machine", parts.machine.__wrapped__)
    assert not {*names_of_parts(copy).values()} & {*names.values()}


# Which packages of Debian have the tools.

# these each Debian has, or they come with Rust or with Rattle
ALWAYS_HERE = {"cargo", "rustfmt", "setpriv", "rt"}


def test_each_tool_and_package_that_a_script_names_is_listed(copy):
    lint = (ROOT / "scripts/lint").read_text(encoding="utf-8")
    texts = "".join([lint, *(path.read_text(encoding="utf-8") for path in copy.rglob("*.py"))])
    tools = {*re.findall(r'(?:which|needs)\("([\w+-]+)"', texts), *re.findall(r'": \["([a-z][\w-]*)"', lint)}
    commands = {command for commands in parts.packages().values() for command in commands}
    assert len(tools) > 10 and tools - commands <= ALWAYS_HERE
    named = re.findall(r"Debian's packages? ([\w-]+)(?: and ([\w-]+))?[)\x22]", texts)
    assert len(named) > 5 and {name for names in named for name in names if name} <= {*parts.packages()}


# What the gate makes of what a part says.

@pytest.fixture(scope="module")
def gate():
    """What scripts/test has."""
    loader = importlib.machinery.SourceFileLoader("gate", str(ROOT / "scripts/test"))
    module = importlib.util.module_from_spec(importlib.util.spec_from_loader("gate", loader))
    loader.exec_module(module)
    return module


MOST = tally.least("must_not_compile.py")


@pytest.mark.parametrize("output, status, is_right, is_whole", [
    (f"{MOST} passed, 0 failed\n", 0, True, True), (f"{MOST} passed, 0 failed, 1 skipped\n", 0, True, False),
    (f"{MOST - 1} passed, 0 failed\n", 0, False, False), (f"{MOST - 1} passed, 0 failed, 1 skipped\n", 0, True, False),
    (f"{MOST} passed, 1 failed\n", 1, True, False), (f"{MOST} passed, 0 failed\n", 1, False, False),
    (f"2 passed, 1 failed\n{MOST} passed, 0 failed\n", 0, False, False), ("killed\n", -9, False, False), ("", 0, False, False),
])
def test_verdicts(output, status, is_right, is_whole, gate):
    ended = gate.Ended("must_not_compile.py", status, output)
    assert (ended.wrong() is None, ended.is_whole()) == (is_right, is_whole)


def test_what_was_kept_is_added_up(gate):
    assert gate.Ended("", 0, "kept 12: x\nok\nkept 3: y\n9 passed, 0 failed\n").kept() == 15


def test_a_part_that_is_kept_or_cannot_be_run(gate):
    whole = gate.not_run("must_not_compile.py", 0, f"kept {MOST}: x", f"{MOST} passed, 0 failed")
    assert whole.kept() == MOST and whole.is_whole()
    assert gate.not_run("must_not_compile.py", 1, "FAILED: x", "0 passed, 1 failed").sums() == (0, 1, 0)


# The gate's line about the commit.

@pytest.mark.parametrize("words, before, line", [
    (["--all"], "one", "one"), (["--all"], "two", "two; and at the end one"), ([], "one", None),
])
def test_the_line_before_the_last(words, before, line, gate, monkeypatch, capsys):
    lines = [before]
    part = gate.Ended("must_not_compile.py", 0, f"{MOST} passed, 0 failed\n")
    monkeypatch.setattr(gate, "run_all", lambda _: (None, [part]))
    monkeypatch.setattr(gate, "tried", lambda _: lines.pop() if lines else "one")
    monkeypatch.setattr(gate.signal, "signal", lambda *_: None)
    assert gate.main(words) == 0
    *_, told, last = capsys.readouterr().out.splitlines()
    assert last == f"{MOST} passed, 0 failed" and (told == line or line is None)
    assert line or not re.search("^(one|two)", told)


def test_the_line_of_a_commit(tmp_path):
    commit = ["git", "-c", "user.name=test", "-c", "user.email=test", "commit", "-q", "--allow-empty", "-m", "One"]
    subprocess.run(["git", "init", "-q", "."], cwd=tmp_path, check=True)
    lines = []
    for _ in range(2):
        subprocess.run(commit, cwd=tmp_path, check=True)
        lines.append(tried(tmp_path))
    (tmp_path / "new").write_text("")
    lines.append(tried(tmp_path))
    subprocess.run(["git", "reset", "-q", "--hard", "HEAD~"], cwd=tmp_path, check=True)
    (tmp_path / "new").unlink()
    assert lines[0] == tried(tmp_path) and len(set(lines)) == 3
    assert [re.sub(r"commit \w{40}|; toolchain .*", "", line) for line in lines] == [
        "tried: , clean", "tried: , clean", "tried: , with changes",
    ]


PLACES = {"bindings/c/README.md": "docs/C.md", "bindings/c/examples": "examples/c", "bindings/c/include": "include",
          "CHANGELOG.md": "CHANGELOG.md"}


@pytest.mark.parametrize("text, wanted", [
    ("a<!-- repository --> b<!-- end --> c", "a c"),
    ("a\n<!-- repository -->\nb\n<!-- end -->\nc", "a\nc"),
    ("a <!-- archive: b\nc --> d", "a b\nc d"),
    ("[h](include/a.h) [e](examples) [l](../../CHANGELOG.md#x)", "[h](../include/a.h) [e](../examples/c) [l](../CHANGELOG.md#x)"),
    ("[s](#y) [w](https://a.b/c) [n](tests/d.c)", "[s](#y) [w](https://a.b/c) [n](tests/d.c)"),
    ("`bindings/c/include/a.h` my/bindings/c/include", "`include/a.h` my/bindings/c/include"),
    ("bindings/c/examples2 bindings/c/examples/a.c", "bindings/c/examples2 examples/c/a.c"),
])
def test_a_page_of_the_archive(text, wanted):
    assert packed(text, "bindings/c/README.md", PLACES) == wanted


HEADER = """/*
 * Counts `things`:
 *
 *   - one, which
 *     goes on;
 *   - two.
 *
 *     code(1);
 */
#ifndef A_H
#define A_H

/* The version. */
#define A_VERSION "1"

/* A kind. */
typedef enum kind {
    A_ONE, /* one of
              two */
} kind;

/* Answers -1. */
A_CHECKED int a_call(int one,
                     int two);
int a_other(void);
"""


@pytest.mark.parametrize("part", [
    "Counts \\fBthings\\fR:\n", ".IP \\(bu 2\none, which\ngoes on;\n.IP", ".nf\ncode(1);\n.fi\n", ".SH MACROS\n.TP\nA_VERSION\n",
    ".TP\nA_ONE\none of two\n", ".nf\nint a_call(int one, int two);\nint a_other(void);\n.fi\n", "\nAnswers \\-1.\n",
])
def test_a_manual_page(part):
    assert part in man_pages.man_page("a", "counts", {"a.h": HEADER}, "1.0")


def test_the_functions_of_a_header():
    assert man_pages.functions(HEADER) == ["a_call", "a_other"]
