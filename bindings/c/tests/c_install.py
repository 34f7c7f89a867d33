"""Installs the libraries by CMake, and builds programs over them as their users do, by find_package and by pkg-config.

Each library is a component that stands alone, below a prefix with a blank. All are installed there twice and below DESTDIR,
and without the wide half into lib64. The programs are in C and C++, over the shared and the static library. Each function has
a manual page, and the shared objects ask for no newer C library than the page says.
"""
import os
import re
import shutil
import subprocess

from c_exports import LIBRARIES, ROOT, STR_INDEX, STR_INDICES, STR_ROPE, declared
from c_programs import COMPILER, COMPILER_OF_CLASSES, TESTS, build, is_enough, run
from halves import has_wide_half, missing
from line_and_column import ROWS, check_example
from page_lines import links_statically
from report_span import check_reports

VERSION = (ROOT / "VERSION").read_text(encoding="utf-8").strip()
EXAMPLES = ROOT / "bindings/c/examples"
PAGE = ROOT / "bindings/c/README.md"
# the programs over what is installed, and the libraries of each
PROGRAMS = {
    TESTS / "worked_answers.c": [STR_INDICES], TESTS / "positions.c": [STR_INDICES],
    EXAMPLES / "line_and_column.c": [STR_INDICES], TESTS / "ropes.c": [STR_ROPE], TESTS / "indexes.c": [STR_INDEX],
    EXAMPLES / "report_span.c": [STR_INDEX], TESTS / "classes.cpp": [STR_ROPE, STR_INDEX],
}
# how a program is linked with the library of each kind: the words for pkg-config, and those for the compiler
LINKED = {"shared": ("", ""), "static": ("--static", "-static")}
# versions that a project asks for, and whether it is served
ASKED_FOR = {"0.4": True, VERSION: True, "0.4.99": False, "0.3": False, "0.5": False, "1": False}
PROJECT = """cmake_minimum_required(VERSION 3.16)
project(project NONE)
find_package(pauskern {} REQUIRED COMPONENTS {})
"""


def files(folder):
    """The files and links below a folder, by their paths from there, each with what it says."""
    return {str(path.relative_to(folder)): path.read_bytes() for path in folder.rglob("*") if not path.is_dir()}


def files_of(library):
    """The paths of the files of a library below a prefix."""
    name = library.name
    shared = [f"lib/lib{name}.so{end}" for end in ["", ".0", f".{VERSION}"]]
    found_by = [f"lib/pkgconfig/{name}.pc", *(f"lib/cmake/pauskern/pauskern-config{end}.cmake" for end in ["", "-version"])]
    pages = [f"share/man/man3/{page}.3" for page in [name, *declared(library)]]
    classes = [] if library == STR_INDICES else [f"include/{name}.hpp", "include/str_indices_positions.hpp"]
    told = [f"share/pauskern/{tool}.supp" for tool in ["tsan", "helgrind"] if library == STR_ROPE]
    headers = [f"include/{name}.h", "include/str_indices_positions.h", *classes]
    return {*headers, f"lib/lib{name}.a", *shared, *found_by, *pages, *told}


def install(tally, built, prefix, *words, **options):
    """What stands below the prefix when CMake has installed there."""
    told = " ".join([f"cmake --install --prefix '{prefix.name}'", *words])
    run(tally, ["cmake", "--install", built, "--prefix", prefix, *words], told, **options)
    return files(prefix)


def finds(prefix, version, component, folder):
    """Whether find_package finds that version of a component below the prefix."""
    folder.mkdir()
    (folder / "CMakeLists.txt").write_text(PROJECT.format(version, component), encoding="utf-8")
    command = ["cmake", "-S", folder, "-B", folder / "build", f"-DCMAKE_PREFIX_PATH={prefix}"]
    return subprocess.run(command, capture_output=True).returncode == 0


def try_components(tally, built, folder):
    """Each library alone: its files, the headers that its own header wants, and what find_package finds."""
    for library in LIBRARIES:
        prefix = folder / f"{library.name} alone"
        others = set(install(tally, built, prefix, "--component", library.name)) ^ files_of(library)
        tally.result(not others, f"{library.name} has its files and no other {others or ''}")
        for header in sorted((prefix / "include").iterdir()):
            command = [*COMPILER, "-x", "c"] if header.suffix == ".h" else [*COMPILER_OF_CLASSES, "-x", "c++"]
            done = subprocess.run([*command, f"-I{prefix}/include", "-fsyntax-only", "-"],
                                  input=f"#include <{header.name}>\ntypedef int not_empty;\n", capture_output=True, text=True)
            tally.result(done.returncode == 0, f"{library.name}: {header.name} has the headers that it wants {done.stderr}")
        found = [other for other in LIBRARIES if finds(prefix, "0.4", other.name, prefix / f"finds {other.name}")]
        tally.result(found == [library], f"find_package finds {library.name} and no other component")


def try_again(tally, built, prefix, folder):
    """All of them, the same once more over these, and the same below DESTDIR; and the versions that find_package takes."""
    once = install(tally, built, prefix)
    right = set(once) == set().union(*map(files_of, LIBRARIES)) and install(tally, built, prefix) == once
    tally.result(right, f"{len(once)} files are installed, and the same a second time")
    install(tally, built, folder / "opt", env=dict(os.environ, DESTDIR=str(folder / "stage")))
    tally.result(files(folder / f"stage/{folder}/opt") == once, "the same files stand below DESTDIR")
    for version, right in ASKED_FOR.items():
        found = finds(prefix, version, "str_index", folder / f"finds {version}")
        tally.result(found == right, f"find_package {'finds' if found else 'does not find'} {version}")


def check_shared_object(tally, lib, library):
    """The name that programs ask for, and the functions that the shared object has for them."""
    shared = lib / f"lib{library.name}.so"
    told = subprocess.run(["readelf", "-d", shared], capture_output=True, text=True, check=True).stdout
    named = re.findall(r"\(SONAME\).*\[(.*)\]", told)
    tally.result(named == [f"lib{library.name}.so.0"], f"the shared object is named {' '.join(named)}")
    told = subprocess.run(["nm", "-D", "--defined-only", shared], capture_output=True, text=True, check=True).stdout
    names = {line.split()[-1] for line in told.splitlines()}
    tally.result(names == set(declared(library)), f"it has the {len(names)} functions of the headers and no other")


def version_of_glibc(file):
    """The newest version of the C library that a file asks for."""
    told = subprocess.run(["readelf", "-W", "-V", file], capture_output=True, text=True, check=True).stdout
    return max(tuple(map(int, version.split("."))) for version in re.findall(r"GLIBC_([\d.]+)", told))


def try_glibc(tally, lib):
    """The shared objects ask for the version of the C library that the page names, and for none that is newer."""
    [named] = re.findall(r"glibc from ([\d.]+) on", " ".join(PAGE.read_text(encoding="utf-8").split()))
    newest = max(version_of_glibc(lib / f"lib{library.name}.so") for library in LIBRARIES)
    tally.result(newest == tuple(map(int, named.split("."))), f"the libraries ask for glibc {newest}, and the page names {named}")


def try_pages(tally, prefix):
    """Each manual page leads somewhere, and none is wider than 80 columns."""
    pages = sorted((prefix / "share/man/man3").iterdir())
    astray = [page.name for page in pages for path in re.findall(r"^\.so (.*)", page.read_text(encoding="utf-8"))
              if not (prefix / "share/man" / path).is_file()]
    tally.result(not astray, f"{len(pages)} manual pages lead somewhere {' '.join(astray)}")
    if not shutil.which("groff"):
        tally.leave_out(1, "the width of manual pages, as groff is not on the path")
        return
    wide = []
    for library in LIBRARIES:
        command = ["groff", "-man", "-Tutf8", "-ww", "-rLL=80n", "-P-cbou", prefix / f"share/man/man3/{library.name}.3"]
        done = subprocess.run(command, capture_output=True, text=True)
        wide += [done.stderr] if done.stderr else []
        wide += [line for line in done.stdout.splitlines() if len(line) > 80]
    tally.result(not wide, "groff has no warning about them, and no line is wider than 80 columns", "\n".join(wide))


def check_program(tally, program, source, how, environment, why):
    """What a program prints that is built of a source."""
    if source.stem == "line_and_column":
        check_example(tally, program, how, environment)
    elif source.stem == "report_span":
        check_reports(tally, [program], how, env=environment)
    else:
        half = "wide" if source.stem == "worked_answers" else ""
        done = subprocess.run([program], env=dict(environment, STR_INDICES_HALF=half), capture_output=True, text=True)
        right = done.returncode == 0 and is_enough(source.stem, half, done.stdout, why)
        if not tally.result(right, f"{source.stem} {how}"):
            print(done.returncode, done.stdout + done.stderr)


def try_pkg_config(tally, lib, source, kind, folder):
    """A program that finds its library by pkg-config alone, outside the repository."""
    names, (for_pkg_config, for_compiler) = [library.name for library in PROGRAMS[source]], LINKED[kind]
    compiler = COMPILER if source.suffix == ".c" else COMPILER_OF_CLASSES
    program = folder / f"{kind}_{source.stem}"
    environment = dict(os.environ, PKG_CONFIG_PATH=str(lib / "pkgconfig"), LD_LIBRARY_PATH=str(lib))
    found = f"$(pkg-config {for_pkg_config} --cflags --libs {' '.join(names)})"
    command = f'eval "{" ".join(compiler)} {source} {for_compiler} {found} -o {program}"'
    how = f"by pkg-config over the {kind} library in '{lib.parent.name}'"
    if run(tally, ["sh", "-c", command], f"{source.stem} compiles {how}", env=environment, cwd=folder):
        told = subprocess.run(["readelf", "-d", program], capture_output=True, text=True, check=True).stdout
        needed = re.findall(r"\(NEEDED\).*\[(libstr_.*)\]", told)
        right = needed == ([f"lib{name}.so.0" for name in names] if kind == "shared" else [])
        tally.result(right, f"{source.stem} wants {' '.join(needed) or 'no library of ours'} when it starts")
        check_program(tally, program, source, how, environment, missing(lib / "libstr_indices.a"))


def use(tally, lib, folder):
    """What is installed in a folder, as programs use it that find it by pkg-config."""
    folder.mkdir()
    for library in LIBRARIES:
        check_shared_object(tally, lib, library)
    reasons = {
        "pkg-config is not on the path": [] if shutil.which("pkg-config") else LINKED,
        "there is no static C library": [] if links_statically(folder) else ["static"],
    }
    for kind in LINKED:
        why = [reason for reason, kinds in reasons.items() if kind in kinds]
        if why:
            tally.leave_out(3 * len(PROGRAMS) + len(ROWS), f"programs over the {kind} library by pkg-config, as {why[0]}")
            continue
        for source in PROGRAMS:
            try_pkg_config(tally, lib, source, kind, folder)


def try_find_package(tally, prefix, folder):
    """The project of examples, which finds the libraries by find_package: what its programs print."""
    configure = ["cmake", "-S", EXAMPLES, "-B", folder, f"-DCMAKE_PREFIX_PATH={prefix}"]
    if not run(tally, configure, "the examples find the libraries by find_package"):
        return
    run(tally, ["cmake", "--build", folder], "CMake builds the examples")
    check_reports(tally, [folder / "report_span"], "by find_package")
    done = subprocess.run([folder / "editor", "1000000"], capture_output=True, text=True)
    tally.result(done.returncode == 0, f"editor by find_package: {done.stdout.splitlines()[:1]}")
    for end in ["", "_static"]:
        check_example(tally, folder / f"line_and_column{end}", f"by find_package {end}")
        done = subprocess.run([folder / f"long_text{end}", "1000"], capture_output=True, text=True)
        tally.result(done.stdout.startswith("20000 bytes"), f"long_text{end} by find_package: {done.stdout.splitlines()[:1]}")


def try_install(tally, built, narrow, folder):
    """All of it: what is built in a folder, and in another without the wide half."""
    folder.mkdir()
    prefix = folder / "a prefix"
    try_components(tally, built, folder)
    try_again(tally, built, prefix, folder)
    try_glibc(tally, prefix / "lib")
    try_pages(tally, prefix)
    use(tally, prefix / "lib", folder / "users")
    try_find_package(tally, prefix, folder / "by find_package")
    if build(tally, narrow, "-DPAUSKERN_NARROW=ON", "-DCMAKE_INSTALL_LIBDIR=lib64"):
        install(tally, narrow, folder / "narrow")
        lib = folder / "narrow/lib64"
        tally.result(not has_wide_half(lib / "libstr_indices.a"), "the wide half is left out")
        use(tally, lib, folder / "narrow_users")
