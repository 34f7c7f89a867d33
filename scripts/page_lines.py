"""Runs the lines of a page as they stand there, in one shell and with nothing set, and reads what they print.

A block of C or C++ is the file that its first line names, in the home folder or below. A comment at the end of a line is what
it prints. A line is left out whose tool the machine does not have.
"""
import os
import pathlib
import re
import shutil
import subprocess

BLOCK = re.compile(r"^```(\w+)\n(.*?)^```$", re.MULTILINE | re.DOTALL)
NAME = re.compile(r"(?:/\*|//) ~/([\w/-]+\.c(?:pp)?)\b")
# what a line may want that not each machine has
TOOLS = ["pkg-config", "cmake", "cargo", "c++", "node"]
# what runs the test itself is not run again: it has to be there
LOOKED_FOR = {"scripts/test": "test -x scripts/test"}


def blocks(page):
    """The blocks of a page, each with its language."""
    return BLOCK.findall(page.read_text(encoding="utf-8"))


def environment(home, path):
    """That of somebody who has set nothing; the toolchains of Rust and of Rattle are found as ever."""
    kept = {name: value for name, value in os.environ.items() if name.startswith(("RT_", "RATTLE_"))}
    for name, folder in [("RUSTUP_HOME", ".rustup"), ("CARGO_HOME", ".cargo")]:
        kept[name] = os.environ.get(name, str(pathlib.Path.home() / folder))
    return dict(kept, HOME=str(home), LANG="C.UTF-8", PATH=path)


def links_statically(folder):
    """Whether there is a C library to link a program with that starts alone."""
    (folder / "empty.c").write_text("int main(void) { return 0; }\n", encoding="utf-8")
    command = ["cc", "-static", "empty.c", "-o", "empty"]
    return subprocess.run(command, cwd=folder, capture_output=True).returncode == 0


def why_not(line, path, is_static):
    """Why the line cannot run here, or None where it can."""
    missing = [tool for tool in TOOLS if f"{tool} " in line and not shutil.which(tool, path=path)]
    if missing:
        return f"{missing[0]} is not on the path"
    return "there is no static C library" if "cc -static" in line and not is_static else None


def run_lines(lines, top, said, environment):
    """Runs the lines in one shell; of each, its status and what it prints go into files, by its number."""
    commands = "".join(
        f"{{ {line}\n}} > '{said}/{at}' 2> '{said}/{at}.errors'; echo $? > '{said}/{at}.status'\n"
        for at, line in enumerate(lines))
    subprocess.run(["sh"], input=commands, cwd=top, env=environment, text=True)


def judge(tally, page, at, line, said):
    """Whether the line ended well, and printed what its comment says."""
    command, _, wanted = line.partition("   # ")
    printed, errors, status = ((said / f"{at}{end}").read_text(encoding="utf-8") for end in ["", ".errors", ".status"])
    right = status == "0\n" and (not wanted or printed.strip() == wanted)
    if not tally.result(right, f"{page}: {command}"):
        print(status, printed[-2000:], errors[-2000:])


def write_programs(found, home):
    """The programs that a page shows, each where its first line says."""
    for text in [text for language, text in found if language in ("c", "cpp")]:
        program = home / NAME.match(text)[1]
        program.parent.mkdir(exist_ok=True)
        program.write_text(text, encoding="utf-8")


def try_lines(tally, page, found, top, folder, path):
    """All lines of those blocks of a page, at that top, with the programs that they show. The folder has at most a home."""
    lines = [LOOKED_FOR.get(line, line) for language, text in found if language == "sh" for line in text.splitlines()]
    home, said = folder / "home", folder / "said"
    home.mkdir(exist_ok=True)
    said.mkdir()
    write_programs(found, home)
    is_static = links_statically(folder)
    reasons = [why_not(line, path, is_static) for line in lines]
    run_lines(["true" if why else line for line, why in zip(lines, reasons)], top, said, environment(home, path))
    for at, (line, why) in enumerate(zip(lines, reasons)):
        if why:
            tally.leave_out(1, f"{page}: {line}, as {why}")
        else:
            judge(tally, page, at, line, said)
