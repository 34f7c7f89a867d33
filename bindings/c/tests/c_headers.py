"""Tries the headers of the libraries for C: each by itself and with the others, and the type of each function.

The types are those of the exports in Rattle, which the compiler compares with the headers' by a pointer to each
function: a call would convert a wrong one. That a fault is seen is tried on faults: types that a function has not. The same
is tried of statuses that nobody looks at, and of what the classes for C++ forbid.
"""
import re
import subprocess

from c_exports import LIBRARIES, ROOT, declared, exported, symbols

STRICT = ["-Wall", "-Wextra", "-Werror", "-pedantic", f"-I{ROOT}/bindings/c/include"]
# how little of a text is compiled; of a dropped answer a compiler tells later
SYNTAX, ALL = ["-fsyntax-only"], ["-S", "-o", "/dev/null"]
HEADERS = [header for library in LIBRARIES for header in library.headers()]
CLASSES = sorted((ROOT / "bindings/c/include").glob("*.hpp"))
COMPILERS = {"C": ["cc", "-std=c99", "-x", "c"], "C++": ["c++", "-std=c++11", "-x", "c++"]}
COMPILERS_OF_CLASSES = {f"C++{year}": ["c++", f"-std=c++{year}", "-x", "c++"] for year in (17, 20)}
# statements in C, and whether the compiler takes each without a warning: a status that nobody looks at is refused
STATUSES = {
    "if (str_rope_insert(&rope, 0, text, 1) != STR_ROPE_OK) return;": True,
    "str_rope_insert(&rope, 0, text, 1);": False,
    "if (str_index_make(&index, text, 1) != STR_INDEX_OK) return;": True,
    "str_index_make(&index, text, 1);": False,
    "str_index_make_in(&index, &rope, 1, text, 1);": False,
}
IN_C = "void f(const char *text)\n{\n    str_rope rope = STR_ROPE_EMPTY;\n    str_index *index;\n" \
    "    str_rope_free(&rope);\n    (void)index;\n    (void)text;\n    %s\n}\n"
# statements in C++, and whether the compiler takes each: one enum given for another is refused, and what would be gone at once
FORBIDDEN = {
    "rope.count(scheme::utf16)": True, "rope.count(encoding::utf16)": False, "rope.count(1)": False,
    "rope.count(STR_INDICES_UTF16)": False, "rope.lines(line_type::lines)": True, "rope.lines(scheme::lines)": False,
    "rope.position_of(line_type::lf, encoding::utf8, 0)": True, "rope.position_of(encoding::utf8, line_type::lf, 0)": False,
    "rope.line(line_type::crlf, 0)": True, "rope.line(0)": False,
    "rope.chunks()": True, "pauskern::rope(text).chunks()": False, "rope.text({0, 1})": True, "rope.text(0, 1)": False,
    "text_index(text).count(scheme::utf16)": True, "text_index(std::string(text)).count(scheme::utf16)": False,
    "rope.insert(0, text)": True, "constant.insert(0, text)": False, "constant.count(scheme::lf)": True,
    "rope = constant": True, "constant = rope": False, "index = std::move(index)": True, "index = constant_index": False,
}
IN_CPP = "using namespace pauskern;\nvoid f(pauskern::rope &rope, const pauskern::rope &constant, text_index &index,\n" \
    "       const text_index &constant_index, const std::string &text)\n{\n" \
    "    (void)rope, (void)constant, (void)index, (void)constant_index, (void)text;\n    %s;\n}\n"


def compiles(language, text, words=SYNTAX):
    """Whether the compiler takes the text, and what it said."""
    command = [*{**COMPILERS, **COMPILERS_OF_CLASSES}[language], *STRICT, *words, "-"]
    done = subprocess.run(command, input=text, capture_output=True, text=True)
    return done.returncode == 0, done.stderr


def includes(headers):
    return "".join(f"#include <{header.name}>\n" for header in headers)


def pointers(functions):
    """A text with a pointer to each function, of the types that the exports have."""
    lines = [f"extern {function.pointer(f'p_{name}')};\n{function.pointer(f'p_{name}')} = {name};\n"
             for name, function in functions.items()]
    return includes(HEADERS) + "".join(lines)


def wrong_types(function):
    """The function with another result, with a parameter of another sign, and with one parameter more."""
    yield function._replace(result="int" if function.result != "int" else "long")
    place = "size_t" if "size_t" in function.parameters else r"[^,]+$"
    yield function._replace(parameters=re.sub(place, " long", function.parameters, count=1))
    yield function._replace(parameters=f"{function.parameters}, size_t")


def try_types(tally, language, functions):
    """The functions have the types of their exports, and each wrong type is seen."""
    right, said = compiles(language, pointers(functions))
    if not tally.result(right, f"{language}: each of {len(functions)} functions has the types of its export"):
        print(said)
    unseen = [f"{wrong.result} {name}({wrong.parameters})" for name, function in functions.items()
              for wrong in wrong_types(function) if compiles(language, pointers({name: wrong}))[0]]
    told = "".join(f"; not {one}" for one in unseen)
    tally.result(not unseen, f"{language}: wrong types of each function are refused{told}")


def try_orders(tally, language, headers):
    """The headers each by itself, in both orders, and twice."""
    for order in [*[[header] for header in headers], headers, headers[::-1], [*headers, *headers]]:
        right, said = compiles(language, includes(order) + "typedef int not_empty;\n")
        if not tally.result(right, f"{language}: {', '.join(header.name for header in order)} compile"):
            print(said)


def try_statements(tally, language, headers, around, statements):
    """The compiler takes each statement that it should, and refuses the others."""
    found = {one: compiles(language, includes(headers) + around % one, ALL)[0] for one in statements}
    wrong = "; ".join(one for one in statements if found[one] != statements[one])
    tally.result(not wrong, f"{language}: {len(statements)} statements are taken or refused as they should be {wrong}")


def try_headers(tally, archives):
    """All of it; the archives, each with its library, are asked for their symbols."""
    for language in COMPILERS:
        try_orders(tally, language, HEADERS)
        try_statements(tally, language, HEADERS, IN_C, STATUSES)
    for language in COMPILERS_OF_CLASSES:
        try_orders(tally, language, CLASSES)
        try_statements(tally, language, CLASSES, IN_CPP, FORBIDDEN)
    for library, archive in archives.items():
        functions, in_headers = exported(library), declared(library)
        names = set(functions)
        tally.result(set(in_headers) == names, f"headers and exports of {library.name} have the same {len(names)} functions")
        others = " ".join(sorted(names ^ symbols(archive, library)))
        tally.result(not others, f"the archive of {library.name} has these functions and no other name {others}")
        for language in COMPILERS:
            try_types(tally, language, functions)
