"""Builds the libraries and the programs that try them by CMake, and reads what CTest says of those that it runs."""
import os
import subprocess
from xml.etree import ElementTree

from c_exports import ROOT
from halves import ASKED, missing
from tally import least, sums_of

TESTS = ROOT / "bindings/c/tests"
WARNINGS = ["-Wall", "-Wextra", "-Werror", "-pedantic", "-O2"]
COMPILER = ["cc", "-std=c99", *WARNINGS]
COMPILER_OF_CLASSES = ["c++", "-std=c++17", "-Wshadow", "-Wsign-conversion", *WARNINGS]
# how CTest names a test by the half that is asked for
HALVES = {"usual": "", "narrow": "narrow", "wide": "wide"}
# programs that do less where each access to memory is watched, and how they are watched
DO_LESS = ["random_ropes", "indexes", "shared_indexes", "shared_ropes"]
WATCHED = ["sanitized", "valgrind", "helgrind", "threads"]
# what a test wants that is left out where that is missing, by how CTest names the test
LACKS = {"sanitized": "the compiler has no sanitizers",
         **dict.fromkeys(["threads", "threads_race"], "the compiler has no sanitizer of threads")}
# programs and tests that end in no sum: CTest compares what they print
WITHOUT_SUM = ["long_text_cpp", "editor_cpp", "shared_indexes_c.race", "own_snapshots_c.race", "own_snapshots_c.threads_race"]


def run(tally, command, what, **options):
    """Whether the command ended well; what it printed is shown where it did not."""
    done = subprocess.run(command, stdout=subprocess.PIPE, stderr=subprocess.STDOUT, text=True, **options)
    if not tally.result(done.returncode == 0, what):
        print(done.stdout)
    return done.returncode == 0


def build(tally, folder, *words):
    """Whether CMake configures and builds in that folder, with those words."""
    configure = ["cmake", "-S", ROOT / "bindings/c", "-B", folder, *words]
    told = " ".join(["bindings/c", *words])
    return run(tally, configure, f"cmake configures {told}") and run(
        tally, ["cmake", "--build", folder, "--parallel", str(os.cpu_count())], f"cmake builds {told} without a warning")


def compiles(tally, source, archive, program):
    """Whether a source compiles over an archive."""
    command = [*COMPILER, f"-I{ROOT}/bindings/c/include", source, archive, "-o", program]
    return run(tally, command, f"{program.name} compiles without a warning")


def is_enough(program, how, said, why):
    """Whether a program's own sum has no failure and as many answers as there should be, by the half that should answer."""
    passed, failed, _ = sums_of(said) or (0, 1, 0)
    [source] = TESTS.glob(f"{program}.c*")
    wanted = 1 if program in DO_LESS and how in WATCHED else least(source.name)
    texts = "no text" if why else ASKED[HALVES.get(how, "")]
    tells = how in HALVES and program != "positions"
    return failed == 0 and passed >= wanted and (not tells or f"the wide half answers for {texts}\n" in said)


def try_tests(tally, folder, archive):
    """Runs the programs by CTest. It leaves out a test whose tool is missing, and a half that this processor does not run."""
    report, why = folder / "report.xml", missing(archive)
    subprocess.run(
        ["ctest", "--test-dir", folder, "--output-junit", report, "--test-output-size-passed", "100000",
         "--parallel", str(os.cpu_count())], stdout=subprocess.DEVNULL)
    for case in ElementTree.parse(report).iter("testcase"):
        name, status, said = case.get("name"), case.get("status"), case.findtext("system-out") or ""
        program, _, how = name.partition(".")
        if status == "disabled":
            tally.leave_out(1, f"{name}, as {LACKS.get(how, 'valgrind is not on the path')}")
        elif why and how in HALVES and how != "wide":
            tally.leave_out(1, f"{name}, as {why}")
        else:
            enough = name in WITHOUT_SUM or program in WITHOUT_SUM or is_enough(program.rpartition("_")[0], how, said, why)
            if not tally.result(status == "run" and enough, f"{name}: {said.splitlines()[-1:]}"):
                print(status, said)
