#!/usr/bin/env python3
"""Builds the language server of examples/language_server, speaks with it, and lets editors edit files with it.

By hand, by server_by_hand.py: what the server and its client agree on, and what it does with changes, with what is no
message, and with messages that it cannot serve; and what it takes of memory and time. By wrong_client.py: 300,000 random
messages, right and wrong, where each right one must be answered, and never from a text that the client does not have. In a
headless Neovim, by changes.lua, in each position encoding, with line breaks of LF and of CR LF: random edits, with undo, redo
and a paste of megabytes, and then in small texts that end in every way; and so in Emacs with eglot, by changes.el, also in a
narrowed buffer. The server must have the editor's text, and tell of places and of blanks at the end of lines what the editor
knows. The set-ups of README.md are run too, where their editor is here, and a day of the small server.

The command `pytest` runs the tests, with the server that LANGUAGE_SERVER names. Run as a script this file builds it first;
where cargo, the crate serde_json, pytest or an editor is missing, what needs it is left out. The last line printed is
'N passed, M failed', with what is left out.
"""
import json
import os
import pathlib
import re
import shutil
import subprocess
import sys
import tempfile

ROOT = pathlib.Path(__file__).resolve().parents[3]

from c_exports import build  # noqa: E402
from debian_crates import source_flags  # noqa: E402
from tally import Tally, least  # noqa: E402

FOLDER = pathlib.Path(__file__).resolve().parent
FILES = [FOLDER / name for name in ("server_by_hand.py", "wrong_client.py", "test_editor.py")]


def cargo(folder, *words):
    return subprocess.run(["cargo", *words, "--offline", *source_flags()], cwd=folder, capture_output=True, text=True)


def copy_of(folder):
    """The server with the crates below it in a folder of their own, without what cargo left there."""
    ignored = shutil.ignore_patterns("target", "Cargo.lock")
    for name in ["bindings", "examples/language_server"]:
        shutil.copytree(ROOT / name, folder / name, ignore=ignored)
    shutil.copy(ROOT / "Cargo.toml", folder)
    return folder / "examples/language_server"


def try_own_tests(server, tally):
    """The tests of the server's own, in Rust."""
    done = cargo(server, "test", "--release")
    passed = sum(map(int, re.findall(r"^test result: ok\. (\d+) passed", done.stdout, re.MULTILINE)))
    tally.enough("tests of examples/language_server", passed, "tests of examples/language_server", done.stdout + done.stderr)


def try_server(folder, tally):
    """Builds the server, and tries it."""
    server = copy_of(folder)
    if cargo(server, "generate-lockfile").returncode != 0:
        missing = "the crate serde_json is not at hand (Debian's package librust-serde-json-dev)"
        tally.leave_out(least("test_editor.py"), missing)
        return
    library, rope = build(tally, "str_indices"), build(tally, "str_rope")
    if not library or not rope:
        return
    os.environ.update(STR_INDICES_LIB_DIR=str(library.parent), CARGO_TARGET_DIR=str(folder / "target"))
    done = cargo(server, "build", "--release")
    if not tally.result(done.returncode == 0, "examples/language_server builds"):
        print(done.stderr)
        return
    try_own_tests(server, tally)
    os.environ["LANGUAGE_SERVER"] = str(folder / "target/release/language_server")
    tally.by_pytest(FILES, least("test_editor.py") - tally.passed)


def main():
    tally = Tally()
    if not shutil.which("cargo"):
        tally.leave_out(least("test_editor.py"), "cargo is not on the path")
    else:
        with tempfile.TemporaryDirectory() as folder:
            try_server(pathlib.Path(folder), tally)
    return tally.end()


if __name__ == "__main__":
    # before the imports: the Python that runs this file may have no pytest, and that of the command has it
    sys.exit(main())

import pytest  # noqa: E402
import server_by_hand  # noqa: E402, F401
import wrong_client  # noqa: E402, F401

# how many bytes an editor pastes and takes back at once: in one run of Neovim and those of Emacs, and in the others
LONG_PASTE = 5_000_000
PASTE = 1_000_000
# no time is judged: an editor that hangs is ended, also on a slow machine
SECONDS = 900
LINES = ["let frog = \"🐸\";  ", "é e\u0301 世界\t", "", "  x = 1", "👩\u200d🚀 \u2028 \u0085 \u000b a", "word a b c", "\U0010ffff"]
LF, CR_LF = "\n", "\r\n"
NEOVIM_WITH_NOTHING = ["nvim", "--headless", "-u", "NONE", "-i", "NONE", "-n"]
IN_NEOVIM = [*NEOVIM_WITH_NOTHING, "-c", f"luafile {FOLDER / 'changes.lua'}", "-c", "cquit"]
IN_EMACS = ["emacs", "--batch", "-l", str(FOLDER / "changes.el")]


def needs(editor, what, packages, *words):
    """Leaves out what needs an editor, where it is missing or comes to no good end with words that ask what it has."""
    if not shutil.which(editor) or subprocess.run([editor, *words], stdin=subprocess.DEVNULL, capture_output=True).returncode:
        pytest.skip(f"no {what} is here ({packages})")


@pytest.fixture(scope="session")
def neovim():
    """The first Neovim that computes the changes of a buffer by itself, in each encoding, is 0.7."""
    is_old = "if !has('nvim-0.7') | cquit | endif"
    needs("nvim", "Neovim from 0.7 on", "Debian's package neovim", *NEOVIM_WITH_NOTHING[1:], "-c", is_old, "-c", "qall!")


@pytest.fixture(scope="session")
def emacs():
    needs("emacs", "Emacs with eglot", "Debian's packages emacs-nox and elpa-eglot", "--batch", "--eval", "(require 'eglot)")


@pytest.fixture(scope="session")
def vim():
    has_ale = "try | packadd ale | catch | cquit | endtry"
    needs("vim", "Vim with ALE", "Debian's packages vim and vim-ale", "-N", "-u", "NONE", "-es", "-c", has_ale, "-c", "qall!")


def found_by(command, folder, line_break, **job):
    """What an editor found that ran a script for a job, and told as JSON on a line."""
    file = folder / "text.txt"
    file.write_bytes("".join(line + line_break for line in LINES * 4).encode())
    job = {"program": os.environ["LANGUAGE_SERVER"], "file": str(file), **job}
    homes = {f"XDG_{name}_HOME": str(folder) for name in ["CACHE", "CONFIG", "DATA", "STATE"]}
    done = subprocess.run(
        command, env=dict(os.environ, JOB=json.dumps(job), **homes), stdin=subprocess.DEVNULL, capture_output=True, text=True,
        timeout=SECONDS,
    )
    lines = [line for line in done.stdout.split("\n") if line.startswith("{")]
    assert lines, done.stdout[-500:] + done.stderr[-500:]
    found = json.loads(lines[-1])
    assert found["wrong"][:3] == [] and found["exit"] == 0
    return found


def assert_enough(found, script, *names):
    for name in names:
        assert found[name] >= least(f"{name} of {script}")


# the encodings that the client offers, if any, the one to be agreed on, the line break, and whether it sends whole texts
@pytest.mark.parametrize("offered, encoding, line_break, whole", [
    *[([encoding], encoding, ends, False) for encoding in ["utf-8", "utf-16", "utf-32"] for ends in [LF, CR_LF]],
    (None, "utf-16", CR_LF, False), (["unknown", "utf-8", "utf-16"], "utf-8", LF, True),
])
def test_neovim(neovim, tmp_path, offered, encoding, line_break, whole):
    is_first = (encoding, line_break, whole) == ("utf-8", LF, False)
    found = found_by(
        IN_NEOVIM, tmp_path, line_break, offered=offered, encoding=encoding, seed=1, whole=whole, edits=300, paste_at=240,
        ends=250, paste=LONG_PASTE if is_first else PASTE, debounce=150 if line_break == CR_LF else 0,
    )
    assert_enough(found, "changes.lua", "edits", "texts", "hovers", "ends")
    assert found["encoding"] == encoding


@pytest.mark.parametrize("line_break", [LF, CR_LF])
def test_emacs(emacs, tmp_path, line_break):
    found = found_by(IN_EMACS, tmp_path, line_break, seed=1, edits=300, paste=LONG_PASTE, ends=850, parts=100)
    assert_enough(found, "changes.el", "edits", "texts", "hovers", "ends", "parts")


# What README.md says of editors.

IS_ATTACHED = r"""
local function text()
  local asked = { textDocument = vim.lsp.util.make_text_document_params() }
  for _, answer in pairs(vim.lsp.buf_request_sync(0, "pauskern/text", asked, 1000) or {}) do
    return answer.result and answer.result.text
  end
end
local function has(expected)
  assert(vim.wait(60000, function() return text() == expected end, 10), expected)
end
has("one \n")
vim.cmd("normal! Atwo ")
has("one two \n")
vim.cmd("edit!")
has("one \n")
for _, client in pairs(vim.lsp.get_active_clients()) do
  client.stop(true)
end
assert(vim.wait(60000, function() return #vim.lsp.get_active_clients() == 0 end, 10))
vim.cmd("edit!")
has("one \n")
local name = vim.fn.expand("%")
vim.cmd("saveas! " .. name .. "2.txt")
vim.cmd("normal! Ax")
has("one x\n")
vim.cmd("saveas! " .. name)
vim.cmd("normal! x")
vim.cmd("normal! Atwo ")
has("one two \n")
local asked = vim.lsp.util.make_given_range_params({ 1, 0 }, { 1, 0 })
asked.context = { diagnostics = {} }
for _, answer in pairs(vim.lsp.buf_request_sync(0, "textDocument/codeAction", asked, 60000)) do
  vim.lsp.util.apply_workspace_edit(answer.result[1].edit, "utf-16")
end
has("one two\n")
vim.cmd("normal! A ")
local format = vim.lsp.buf.format or function() vim.lsp.buf.formatting_sync(nil, 60000) end
format()
has("one two\n")
vim.cmd("write")
"""
IN_BATCH = """
(run-hooks 'post-command-hook)
(with-timeout (60) (while (not (eglot-managed-p)) (accept-process-output nil 0.1)))
(defun text ()
  (let ((asked (list :textDocument (eglot--TextDocumentIdentifier))))
    (eglot--signal-textDocument/didChange)
    (plist-get (jsonrpc-request (eglot-current-server) :pauskern/text asked :timeout 60) :text)))
(let ((name buffer-file-name))
  (write-file (concat name "2.txt"))
  (insert "x")
  (unless (string= (text) "xone \n") (error "After a new name: %s" (text)))
  (delete-char -1)
  (write-file name))
(goto-char (point-max))
(insert "two ")
(eglot-format-buffer)
(save-buffer)
"""


IN_VIM = """
call ale#Queue(0, 'lint_file')
for turn in range(1200)
  if !empty(ale#engine#GetLoclist(bufnr(''))) | break | endif
  sleep 50m
endfor
call setline(1, map(ale#engine#GetLoclist(bufnr('')), 'v:val.text'))
noautocmd write
qall!
"""


@pytest.fixture
def text_after(tmp_path):
    """The text of a file after an editor's words, with files of what README.md says in a language, and of what is done then."""
    text, server = tmp_path / "text.txt", os.environ["LANGUAGE_SERVER"]
    page = (ROOT / "examples/language_server/README.md").read_text(encoding="utf-8")

    def run(language, more, *words):
        text.write_text("one \n")
        said = re.search(rf"^```{language}\n(.*?)^```", page, re.MULTILINE | re.DOTALL)[1]
        files = {"SET_UP": tmp_path / "set_up", "THEN": tmp_path / "then", "TEXT": text}
        files["SET_UP"].write_text(re.sub("([\"'])language_server\\1", rf"\1{server}\1", said))
        files["THEN"].write_text(more)
        for name, file in files.items():
            words = [word.replace(name, str(file)) for word in words]
        done = subprocess.run(words, capture_output=True, text=True, timeout=SECONDS, stdin=subprocess.DEVNULL)
        return text.read_text() if done.returncode == 0 else done.stderr
    return run


def test_set_up_of_neovim(neovim, text_after):
    """It attaches, also after `:edit`, and takes blanks out by a code action and by formatting."""
    words = ["-c", "luafile SET_UP", "-c", "edit TEXT", "-c", "luafile THEN", "-c", "qall!"]
    assert text_after("lua", IS_ATTACHED, *NEOVIM_WITH_NOTHING, *words) == "one two\n"


def test_set_up_of_emacs(emacs, text_after):
    words = ["-l", "SET_UP", "TEXT", "-l", "THEN"]
    assert text_after("elisp", IN_BATCH, "emacs", "--batch", *words) == "one\ntwo\n"


def test_set_up_of_vim(vim, text_after):
    """It shows what the server warns of."""
    words = ["-N", "-u", "NONE", "-i", "NONE", "-es", "-S", "SET_UP", "-c", "edit TEXT", "-S", "THEN"]
    assert text_after("vim", IN_VIM, "vim", *words) == "blanks at the end of a line\n"
