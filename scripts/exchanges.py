"""Exchanges functions of a library for C, and wants the worked answers to see each exchange.

In a copy of the library each function of the headers is hidden under another name, and a small file has the functions
by their own names: each hands a call on to itself, or, where the environment says so, to another function of its shape.
So nothing is linked again for an exchange, and whatever stands on the library is tried as it stands.
"""
import os
import subprocess

from c_exports import ROOT, STR_INDICES, declared
from tally import least

COMPILER = ["cc", "-std=c99", "-Wall", "-Wextra", "-Werror", "-O1", "-fPIC", f"-I{ROOT}/bindings/c/include"]

HEAD = """#include <stdlib.h>
#include <string.h>
typedef void (*any)(void);
"""

# the choice, once, before main runs
CHOOSE = """
static any answers[sizeof functions / sizeof functions[0]];
__attribute__((constructor)) static void choose(void)
{
    const char *one = getenv("EXCHANGED"), *by = getenv("ANSWERED_BY");
    size_t number = sizeof functions / sizeof functions[0], other;
    for (size_t at = 0; at < number; at++) {
        answers[at] = functions[at].itself;
        for (other = 0; one && by && strcmp(one, functions[at].name) == 0 && other < number; other++)
            if (strcmp(by, functions[other].name) == 0)
                answers[at] = functions[other].itself;
    }
}
"""


def exchange_file(library):
    """The small file, as C."""
    functions = list(declared(library).values())
    lines = [f"#include <{header.name}>" for header in library.headers()] + [HEAD]
    lines += [f"{function.result} itself_{function.name}({function.parameters});" for function in functions]
    rows = ", ".join(f'{{"{function.name}", (any)itself_{function.name}}}' for function in functions)
    lines.append(f"static const struct {{ const char *name; any itself; }} functions[] = {{ {rows} }};")
    lines.append(CHOOSE)
    for at, function in enumerate(functions):
        types = [word for word in function.parameters.split(", ") if word != "void"]
        given = ", ".join(f"{word} word_{number}" for number, word in enumerate(types)) or "void"
        words = ", ".join(f"word_{number}" for number in range(len(types)))
        lines.append(f"{function.result} {function.name}({given})")
        lines.append(f"{{ return (({function.pointer('')})answers[{at}])({words}); }}")
    return "\n".join(lines) + "\n"


def exchanging_library(archive, folder, library=STR_INDICES):
    """A copy of the library that can exchange its functions; raises where a tool refuses."""
    copy, name = folder / f"lib{library.name}.a", f"exchange_{library.name}"
    renamed = [f"--redefine-sym={function}=itself_{function}" for function in declared(library)]
    subprocess.run(["objcopy", *renamed, archive, copy], check=True)
    source = folder / f"{name}.c"
    source.write_text(exchange_file(library), encoding="utf-8")
    subprocess.run([*COMPILER, "-c", source, "-o", folder / f"{name}.o"], check=True)
    subprocess.run(["ar", "rs", copy, folder / f"{name}.o"], check=True, capture_output=True)
    return copy


def is_right(program, environment):
    """Whether the program comes to a good end."""
    return subprocess.run([program], env=environment, capture_output=True).returncode == 0


def try_exchanges(tally, programs, pairs, half, name, wanted="exchanges"):
    """Each exchange by one half: one of the programs must fail; without any, none. There are as many as are wanted."""
    asked = dict(os.environ, STR_INDICES_HALF=half)
    right = all(is_right(program, asked) for program in programs)
    tally.result(right, f"{name}: nothing fails where nothing is exchanged")
    unseen = []
    for one, other in pairs:
        environment = dict(asked, EXCHANGED=one.name, ANSWERED_BY=other.name)
        if all(is_right(program, environment) for program in programs):
            unseen.append(f"{one.name} by {other.name}")
    told = "".join(f"; not {one}" for one in unseen)
    right = not unseen and len(pairs) >= least(wanted)
    tally.result(right, f"{name}: each of {len(pairs)} exchanges is seen{told}")
