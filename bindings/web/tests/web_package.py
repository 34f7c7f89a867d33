"""Tries the module for JavaScript as a package: its types by a compiler of TypeScript, and what bundlers make of it.

A bundle, as a module and as CommonJS, runs in Node in a folder of its own, with nothing beside it but what the page says: the
entry that has the functions inside needs nothing, and the other one wants the WebAssembly beside the bundle.
"""
import pathlib
import shutil
import subprocess
import tempfile

ROOT = pathlib.Path(__file__).resolve().parents[3]
TYPES = ROOT / "bindings/web/tests/types.mts"

# how a project finds modules, by the compiler's names
RESOLUTIONS = {"node16": "node16", "node": "esnext"}
BUNDLERS = {
    "esbuild": ["esbuild", "app.mjs", "--bundle", "--format={format}", "--log-level=error", "--outfile=bundle/{program}"],
    "rollup": ["rollup", "app.mjs", "--format", "{format}", "--silent", "--file", "bundle/{program}"],
}
# the formats of a bundle, each with its file
FORMATS = {"esm": "app.mjs", "cjs": "app.cjs"}
WASM = "str_indices_web.wasm"
RIGHT = "5 null"
# each entry with what its load is handed, what has to lie beside the bundle, and what that prints
ENTRIES = [("str_indices_inline.mjs", "", []), ("str_indices.mjs", "", [WASM]), ("str_indices.mjs", f'"{WASM}"', [WASM])]
# a bundle of this kind does not know where it lies, and says what to do
LOST = ("esbuild", "cjs", ENTRIES[1])
HELP = "hand load the path"
# how many results there are of the compiler, and of each bundler
OF_TYPES = 2 * len(RESOLUTIONS) + 1
OF_BUNDLER = len(ENTRIES) * len(FORMATS)

APP = """import { load } from "./%s";
load(%s).then(({ linesCrlf, exactByteOf }) => {
  const place = { line: 0, character: 4 };
  console.log(linesCrlf.toByteIdx("one\\r\\ntwo", 1), exactByteOf("one\\r\\ntwo", "crlf", "utf16", place));
}, (error) => console.log(error.message));
"""


def compiled(folder, resolution, program):
    """What the compiler says of the program, or nothing."""
    command = ["tsc", "--noEmit", "--strict", "--target", "es2022", "--module", RESOLUTIONS[resolution],
               "--moduleResolution", resolution, program]
    done = subprocess.run(command, cwd=folder, capture_output=True, text=True)
    return done.stdout + done.stderr if done.returncode or done.stdout else ""


def by_name(text):
    """The program, where it takes the modules from the package of that name."""
    return text.replace('"./str_indices.mjs"', '"str_indices"').replace('"./str_indices_inline.mjs"', '"str_indices/inline"')


def try_types(tally, built):
    """The types, where their compiler is."""
    if not shutil.which("tsc"):
        tally.leave_out(OF_TYPES, "the types, as tsc is not on the path (Debian's package node-typescript)")
        return
    with tempfile.TemporaryDirectory() as folder:
        compile_types(tally, built, pathlib.Path(folder))


def compile_types(tally, built, folder):
    """The types, beside the program and as those of an installed package."""
    beside, project = folder / "beside", folder / "project"
    shutil.copytree(built, beside)
    shutil.copytree(built, project / "node_modules/str_indices")
    text = TYPES.read_text(encoding="utf-8")
    (beside / TYPES.name).write_text(text, encoding="utf-8")
    (project / TYPES.name).write_text(by_name(text), encoding="utf-8")
    for place in [beside, project]:
        for resolution in RESOLUTIONS:
            told = compiled(place, resolution, TYPES.name)
            tally.result(not told, f"the types in {place.name}, by {resolution} {told}")
    wrong = "\n".join(line for line in text.splitlines() if "@ts-expect-error" not in line)
    (beside / TYPES.name).write_text(wrong, encoding="utf-8")
    found, marked = compiled(beside, "node16", TYPES.name).count("error TS"), text.count("@ts-expect-error")
    tally.result(found == marked > 0, f"of {marked} lines that are wrong the compiler finds {found}")


def bundled(bundler, form, entry, built, folder, node):
    """What the bundle prints, alone in a folder with the files beside it."""
    module, source, beside = entry
    shutil.copytree(built, folder)
    (folder / "app.mjs").write_text(APP % (module, source), encoding="utf-8")
    command = [word.format(format=form, program=FORMATS[form]) for word in BUNDLERS[bundler]]
    made = subprocess.run(command, cwd=folder, capture_output=True, text=True)
    if made.returncode != 0:
        return made.stdout + made.stderr
    (folder / "bundle").rename(folder / "site")
    for name in beside:
        shutil.move(folder / name, folder / "site")
    for path in built.iterdir():
        (folder / path.name).unlink(missing_ok=True)
    done = subprocess.run([*node, FORMATS[form]], cwd=folder / "site", capture_output=True, text=True)
    return done.stdout.strip() + done.stderr[-500:]


def try_bundles(tally, built, folder, node):
    """Each entry by each bundler; `node` runs a module."""
    for bundler in BUNDLERS:
        if not shutil.which(bundler):
            tally.leave_out(OF_BUNDLER, f"bundles, as {bundler} is not on the path (Debian's package {bundler})")
            continue
        for form in FORMATS:
            for i, entry in enumerate(ENTRIES):
                printed = bundled(bundler, form, entry, built, folder / f"{bundler}_{form}_{i}", node)
                right = HELP in printed if (bundler, form, entry) == LOST else printed == RIGHT
                module, source, beside = entry
                where = f" beside {' and '.join(beside)}" if beside else ""
                tally.result(right, f"a bundle by {bundler}, {form}, of load({source}) of {module}{where}: {printed}")
