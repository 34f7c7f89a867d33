"""Observes which half of the library for C answers, on this processor and on others.

`choose_half.o` of the library is linked with stand-ins of both halves, which do nothing but tell their half. So it is
seen of each function and length, and believed of none. That runs here and, where `qemu-x86_64` is on the path, on
processors below, at and above the level of the wide half, as do the worked answers over the library itself. The
environment variable that chooses is unset, `narrow`, `wide` and another word.

Beside that, how `build_library` answers a compiler that is not there, one that has no `cpuid.h` to ask a processor by,
and a wide half that does not compile, and that it builds anew where anything has changed that a library was built from: in
a copy with a stand-in of `rt`, since nothing of it has to be proved.
"""
import os
import re
import shutil
import subprocess

from c_exports import HEADERS, LIBRARIES, PREFIX, ROOT, declared
from crate_copies import copy_crates
from halves import has_wide_half, missing

NAMES = re.compile(rf"\bU {PREFIX}(narrow|wide)_(\w+)")
LENGTHS = [0, 1, 255, 256, 257, 1535, 1536, 5000, 2**63 - 1]

# from how many bytes on the wide half answers where it may, and what takes it later than the others
WORTH_WIDE = 256
WORTH_WIDE_LATER = 1536
LATER = re.compile("line|line_end|range_of|byte_range|(exact_)?(position|byte)_of")

# what has no half: the choice itself, and the version
WITHOUT = {f"{PREFIX}{name}" for name in ["is_wide", "version"]}
# the first number of a struct that is answered
FIRST = {"str_indices_position": ".line", "str_indices_bytes": ".start", "str_indices_range": ".start.line"}

# what the level of the wide half has and the one below it has not, as qemu names it; and xsave, by which a system keeps
# the vectors
LEVEL = ["avx", "avx2", "bmi1", "bmi2", "f16c", "fma", "abm", "movbe", "xsave"]
# of a processor by its name for qemu, whether it has the wide half's level
PROCESSORS = {
    "Nehalem": False, "SandyBridge": False, "Haswell": True, "max": True,
    **{f"Haswell,-{feature}": False for feature in LEVEL},
}
EMULATOR = "qemu-x86_64"
# the first version whose processors have AVX2
LEAST_VERSION = (7, 2)

# what the environment variable says, None where it is unset, and the texts that the wide half then answers for
LONGER = "texts from 256 bytes on"
ASKED = {None: LONGER, "narrow": "no text", "wide": "every text", "other": LONGER}


# glibc's own functions over AVX2 take instructions of BMI1 without asking for it, so they are not to be taken
WITHOUT_AVX2 = {"GLIBC_TUNABLES": "glibc.cpu.hwcaps=-AVX2,-AVX2_Usable"}


def environment(half):
    """This environment, with the variable that chooses a half."""
    others = {name: value for name, value in os.environ.items() if name != "STR_INDICES_HALF"}
    return dict(others, **WITHOUT_AVX2, **({} if half is None else {"STR_INDICES_HALF": half}))


def on(processor):
    """The words before a program that runs on the processor; None is the one here."""
    return [EMULATOR, "-cpu", processor] if processor else []


def why_no_emulator():
    """Why other processors cannot be tried, or None where they can."""
    if not shutil.which(EMULATOR):
        return f"{EMULATOR} is not on the path (Debian's package qemu-user)"
    told = subprocess.run([EMULATOR, "--version"], capture_output=True, text=True).stdout
    version = re.search(r"version (\d+)\.(\d+)", told)
    if not version or tuple(map(int, version.groups())) < LEAST_VERSION:
        return f"{EMULATOR} is older than {LEAST_VERSION[0]}.{LEAST_VERSION[1]}"
    return None


def is_wide(name, length, half, may):
    """Whether the wide half is to answer."""
    if not may or half == "narrow":
        return False
    return half == "wide" or length >= (WORTH_WIDE_LATER if LATER.fullmatch(name) else WORTH_WIDE)


def value(kind, first):
    """A value of a type, as C: that number, or a struct whose first number it is, and the others 0."""
    inner = f"{{{first}, 0}}"
    fields = f"{{{inner}, {{0, 0}}}}" if kind == "str_indices_range" else inner
    return f"({kind}){fields if kind in FIRST else first}"


def stand_ins(names):
    """Both halves of those functions, as C: the answer is 1 by the wide half, and else 0; and a main that asks each."""
    functions = [declared()[PREFIX + name] for name in names]
    lines = [f"#include <{header.name}>" for header in HEADERS] + ["#include <stdio.h>"]
    for half, answer in [("narrow", 0), ("wide", 1)]:
        for name, function in zip(names, functions):
            words = function.parameters.replace("const char *", "const char *text").split(", ")
            given = ", ".join(word if "*" in word else f"{word} number_{at}" for at, word in enumerate(words))
            unused = " ".join(f"(void){word.split()[-1].lstrip('*')};" for word in given.split(", "))
            lines.append(f"{function.result} {PREFIX}{half}_{name}({given});")
            told = value(function.result, answer)
            lines.append(f"{function.result} {PREFIX}{half}_{name}({given}) {{ {unused} return {told}; }}")
    lengths = ", ".join(f"{length}u" for length in LENGTHS)
    lines.append(f"int main(void)\n{{\n    static const size_t lengths[] = {{{lengths}}};")
    lines.append("    for (size_t at = 0; at < sizeof lengths / sizeof lengths[0]; at++) {")
    for name, function in zip(names, functions):
        rest = "".join(f", {value(kind, 0)}" for kind in function.parameters.split(", ")[2:])
        told = f'(int){PREFIX}{name}("", lengths[at]{rest}){FIRST.get(function.result, "")}'
        lines.append(f'        printf("{name} %zu %d\\n", lengths[at], {told});')
    lines.append(f'        printf("is_wide %zu %d\\n", lengths[at], {PREFIX}is_wide(lengths[at]));\n    }}')
    lines.append(f'    printf("is_wide %zu %d\\n", (size_t)-1, {PREFIX}is_wide((size_t)-1));\n    return 0;\n}}\n')
    return "\n".join(lines)


def wanted_lines(names, half, may):
    """What the program with the stand-ins is to print."""
    lines = {f"{name} {length} {int(is_wide(name, length, half, may))}"
             for name in [*names, "is_wide"] for length in LENGTHS}
    return lines | {f"is_wide {2**64 - 1} {int(may and half != 'narrow')}"}


def link_stand_ins(tally, library, folder):
    """The program over the library's own choice and stand-ins of its halves, and the names of the functions."""
    subprocess.run(["ar", "x", library, "choose_half.o"], cwd=folder, check=True)
    told = subprocess.run(["nm", folder / "choose_half.o"], capture_output=True, text=True, check=True).stdout
    names = sorted({name for _, name in NAMES.findall(told)})
    source, program = folder / "stand_ins.c", folder / f"stand_ins_{library.parent.name}"
    source.write_text(stand_ins(names), encoding="utf-8")
    command = ["cc", "-std=c99", "-Wall", "-Wextra", "-Werror", f"-I{ROOT}/bindings/c/include"]
    done = subprocess.run([*command, source, folder / "choose_half.o", "-o", program], capture_output=True, text=True)
    right = done.returncode == 0 and {PREFIX + name for name in names} == set(declared()) - WITHOUT
    if not tally.result(right, f"{len(names)} functions are linked with stand-ins of the halves"):
        print(done.stdout + done.stderr)
    return program, names


def try_stand_ins(tally, library, program, names, processor):
    """Each function, at each length, on the processor."""
    may = has_wide_half(library) and (PROCESSORS[processor] if processor else missing(library) is None)
    for half in ASKED:
        done = subprocess.run([*on(processor), program], env=environment(half), capture_output=True, text=True)
        found, wanted = set(done.stdout.splitlines()), wanted_lines(names, half, may)
        where = f"on {processor or 'this processor'}, asked for {half}"
        if not tally.result(found == wanted, f"of {len(found)} calls {where} each goes to the half that it should"):
            print(sorted(found - wanted), done.stderr)


def try_worked_answers(tally, library, program, processor):
    """The worked answers over the library itself, on the processor."""
    for half, texts in ASKED.items():
        done = subprocess.run([*on(processor), program], env=environment(half), capture_output=True, text=True)
        texts = texts if PROCESSORS[processor] else "no text"
        told = f"the wide half answers for {texts}"
        right = done.returncode == 0 and f"{told}\n" in done.stdout
        if not tally.result(right, f"worked answers on {processor}, asked for {half}, where {told}"):
            print(done.returncode, done.stdout + done.stderr)


def try_halves(tally, library, narrow, worked_answers, folder):
    """Which half answers, in the library and in that without a wide half; worked_answers is built over the library."""
    program, names = link_stand_ins(tally, library, folder)
    try_stand_ins(tally, library, program, names, None)
    program_without, names_without = link_stand_ins(tally, narrow, folder)
    try_stand_ins(tally, narrow, program_without, names_without, None)
    if why_no_emulator():
        tally.leave_out(2 * len(ASKED) * len(PROCESSORS), f"other processors, as {why_no_emulator()}")
        return
    for processor in PROCESSORS:
        try_stand_ins(tally, library, program, names, processor)
        try_worked_answers(tally, library, worked_answers, processor)


def copy_for_builds(folder):
    """What build_library needs, with the halves as they are built, and a folder with a stand-in of rt, which lists its calls. It
    fails for the wide half where a file says so.
    """
    for name in ["bindings/c", "scripts"]:
        shutil.copytree(ROOT / name, folder / name)
    crates = [library.crate for library in LIBRARIES]
    copy_crates(crates, folder, left_out=("out",))
    proved = [f"crates/{crate}/out/lib{crate}.a" for crate in crates]
    for name in [*proved, f"{PROVED_WIDE}/lib{WIDE}.a"]:
        (folder / name).parent.mkdir(parents=True)
        shutil.copy(ROOT / name, folder / name)
    commands = folder / "commands"
    commands.mkdir()
    stand_in = f'echo "$*" >> "{folder}/{CALLS}"\ncase $PWD in *_wide) ! test -e "{folder}/{REFUSED}" ;; esac'
    for name, text in [("rt", stand_in), ("old_cc", CANNOT_ASK)]:
        (commands / name).write_text(f"#!/bin/sh\n{text}\n", encoding="utf-8")
        (commands / name).chmod(0o755)
    return commands


# the crate of the wide half, and where what is proved of it stays
WIDE, PROVED_WIDE = "str_indices_c_wide", "out/wide"
# where the narrow half names its vectors
LANES = "crates/str_indices_c/src/lib.rt"
# the file that has the stand-in fail for the wide half
REFUSED = "refused"
# the file in which the stand-in lists its calls
CALLS = "calls"
# what a library is built from: a crate, a definition, a proof, the handles, C and the toolchain; and the library itself
CHANGED = [
    "crates/byte_chunk/src/lib.rt", "crates/text_rope_c/specs/Kept.antt", "crates/text_rope/proofs/lemmas/Common.antt",
    "HANDLES", "bindings/c/rope.c", "KIT-ID", "out/libstr_rope.a",
]

# a compiler without the header: it refuses a text that names it
CANNOT_ASK = """for word; do
    case $word in
        -) text=$(cat); case $text in *cpuid.h*) exit 1;; esac; printf '%s\\n' "$text" | exec cc "$@" ;;
        -DSTR_INDICES_WIDE) exit 1 ;;
    esac
done
exec cc "$@"
"""


def build(folder, commands, compiler, name="str_indices"):
    """The run of build_library in the copy, by that compiler."""
    path = dict(os.environ, PATH=f"{commands}:{os.environ['PATH']}", CC=compiler, PYTHONDONTWRITEBYTECODE="1")
    return subprocess.run([folder / "bindings/c/build_library", name], env=path, capture_output=True, text=True)


def try_build(tally, folder, commands, compiler, right, said, what):
    """Whether build_library ends so, and whether there is a library then."""
    library = folder / "out/libstr_indices.a"
    library.unlink(missing_ok=True)
    done = build(folder, commands, compiler)
    if not tally.result((done.returncode == 0) == right == library.is_file() and said in done.stderr, f"build_library, {what}"):
        print(done.returncode, done.stdout + done.stderr)


def builds_anew(folder, commands, compiler="cc"):
    """Whether build_library has something proved before it prints the path of the library for a rope."""
    (folder / CALLS).unlink(missing_ok=True)
    done = build(folder, commands, compiler, "str_rope")
    assert done.returncode == 0 and done.stdout.endswith("/out/libstr_rope.a\n"), done.stdout + done.stderr
    return (folder / CALLS).is_file()


def try_freshness(tally, folder, commands):
    """A library is built anew where a byte of what it was built from has changed, and is taken as it is where none has."""
    builds_anew(folder, commands)
    tally.result(not builds_anew(folder, commands), "build_library, nothing has changed: the library is taken as it is")
    for name in CHANGED:
        with open(folder / name, "a", encoding="utf-8") as file:
            file.write("\n")
        changed = builds_anew(folder, commands)
        tally.result(changed and not builds_anew(folder, commands), f"build_library, {name} has changed: it is built anew")
    tally.result(builds_anew(folder, commands, "old_cc"), "build_library, another compiler: the library is built anew")


def try_wide_faults(tally, folder, commands):
    """A wide half that is not proved, and one whose vectors nothing tells."""
    (folder / REFUSED).touch()
    try_build(tally, folder, commands, "cc", False, "", "a wide half that is not proved: an error")
    (folder / REFUSED).unlink()
    text = (folder / LANES).read_text(encoding="utf-8")
    (folder / LANES).write_text(text.replace("Simd<u8, 16>", "Chunk"), encoding="utf-8")
    try_build(tally, folder, commands, "cc", False, "no vector to widen", "a narrow half that names no vector: an error")
    (folder / LANES).write_text(text, encoding="utf-8")
    try_build(tally, folder, commands, "cc", True, "", "as it stood before")
    is_kept = (folder / PROVED_WIDE / f"lib{WIDE}.a").is_file()
    is_wide = has_wide_half(folder / "out/libstr_indices.a")
    tally.result(is_kept and is_wide, "the wide half is in the library, and what is proved of it stays")


def try_builds(tally, folder, commands):
    """Compilers that cannot do all, and a wide half that does not compile, in the copy in that folder."""
    cannot_ask = "has no cpuid.h to ask a processor by"
    try_build(tally, folder, commands, "cc", True, "", "as it stands")
    try_build(tally, folder, commands, "old_cc", True, cannot_ask, "a compiler without cpuid.h: without the wide half")
    try_wide_faults(tally, folder, commands)
    absent = "no_such_compiler"
    try_build(tally, folder, commands, absent, False, absent, "a compiler that is not there: an error")
    with open(folder / "bindings/c/choose_half.c", "a", encoding="utf-8") as source:
        source.write("#ifdef STR_INDICES_WIDE\n#error a fault\n#endif\n")
    try_build(tally, folder, commands, "cc", False, "a fault", "a wide half that does not compile: an error")
    try_freshness(tally, folder, commands)
