"""Compiles what is C in this repository with the archive of crates/gihandop_c, and runs the tests in C."""

import os
import re
import shutil

import pytest

from parties.building import is_marked, ran
from parties.compiling import (
    ARCHIVE, FLAGS, FORMS, IS_INSTRUMENTED, LINKED, MADE, PROGRAMS, compile_at, compilers, lacks, need_archive, words_of,
)
from parties.places import ROOT, text_of, write_text

need_archive()
pytestmark = pytest.mark.without_program

UNPROVED_LINE = re.search(r"(?m)^cc -fsanitize=address .*$", text_of(f"{ROOT}/docs/C.md"))[0]
LINES = re.findall(r"(?m)^    (cc -Iinclude -o (\w+) .*)$", text_of(f"{ROOT}/docs/C.md"))


def runs():
    """Each program that ends by itself in each form, and a skip for each form that is not here."""
    for form in FORMS:
        if lacks(form):
            yield pytest.param(form, None, id=form, marks=pytest.mark.skip(lacks(form)))
            continue
        for name, (_, _, words) in PROGRAMS.items():
            # Valgrind and the sanitizers have a stack of their own.
            if words and (name != "stack" or form not in ("valgrind", "sanitized")):
                marks = pytest.mark.long(12) if name == "memory" else ()
                yield pytest.param(form, name, id=f"{form}-{name}", marks=marks)


@pytest.mark.parametrize("name", PROGRAMS)
@pytest.mark.parametrize("compiler", compilers())
def test_compile(folder, compiler, name):
    """Each compiler compiles each program without a warning."""
    compile_at(f"{folder}/{name}", compiler, name, *LINKED)


@pytest.mark.parametrize("name", PROGRAMS)
def test_compile_with_sanitizers(name):
    """Each program is compiled with sanitizers, without a warning."""
    if lacks("sanitized"):
        pytest.skip(lacks("sanitized"))
    assert os.access(words_of("sanitized", name)[0], os.X_OK), "it is there"


@pytest.mark.parametrize("form, name", runs())
def test_run(form, name):
    """Each check of a program holds."""
    words = [*words_of(form, name), *PROGRAMS[name][2]]
    ran(words, f"{name}, {form}")


def test_lines_of_the_page():
    """docs/C.md shows how the two examples are compiled."""
    assert {it[1] for it in LINES} == {"first", "lockd"}, f"the lines of docs/C.md: {LINES}"


@pytest.mark.parametrize("line, name", LINES, ids=[it[1] for it in LINES])
def test_line_of_the_page(folder, line, name):
    """A line of docs/C.md compiles its example."""
    if not shutil.which("cc"):
        pytest.skip("there is no cc here")
    words = line.replace(f"-o {name}", f"-o {folder}/{name}").replace(MADE.removeprefix(f"{ROOT}/"), ARCHIVE)
    ran([*words.split(), *LINKED], line)


def test_unproved_line_of_the_page(folder):
    """The line of docs/C.md for an archive without proofs compiles the example, which runs."""
    if not IS_INSTRUMENTED or not shutil.which("cc"):
        pytest.skip("there is no cc here, or GIHANDOP_ARCHIVE is not the archive of tools/unproved")
    place = "crates/gihandop_c/out/unproved/libgihandop_c.a"
    words = UNPROVED_LINE.replace("-o first", f"-o {folder}/first").replace(place, ARCHIVE)
    assert ARCHIVE in words, "the archive of tools/unproved"
    ran(words.split(), UNPROVED_LINE)
    ran([f"{folder}/first", "examples/door.toml"])


@pytest.mark.parametrize("compiler", compilers())
@pytest.mark.parametrize("flag", ["-O0", "-O2", "-fno-pie"])
def test_version_text(folder, compiler, flag):
    """gh_version_text says of an archive that is compiled without proofs that it is not proved."""
    text = '#include "gihandop.h"\n#include <stdio.h>\nint main(void) { puts(gh_version_text()); return gh_version() != GH_VERSION; }\n'
    source = write_text(f"{folder}/version.c", text)
    no_pie = ["-no-pie"] if flag == "-fno-pie" else []
    words = [compiler, *FLAGS, flag, *no_pie, *LINKED, "-o", f"{folder}/version", source, "c/heap.c", ARCHIVE]
    ran(words, "a program that prints the version")
    version = re.search(r"(?m)^VERSION = (\S+)$", text_of(f"{ROOT}/Makefile"))[1]
    said = f"{version} (not proved)" if is_marked(ARCHIVE) else version
    assert ran([f"{folder}/version"]) == f"{said}\n", "the version as text"


@pytest.mark.parametrize("compiler", compilers())
def test_version_text_of_the_proved(folder, compiler):
    """gh_version_text says nothing more of an archive that has no mark."""
    text = '#include "gihandop.h"\n#include <stdio.h>\nint main(void) { puts(gh_version_text()); return 0; }\n'
    source = write_text(f"{folder}/version.c", text)
    ran([compiler, *FLAGS, "-o", f"{folder}/version", source], "a program that prints the version")
    assert ran([f"{folder}/version"]) == text_of(f"{ROOT}/include/gihandop.h").split("GH_VERSION_TEXT ")[1].split('"')[1] + "\n"


@pytest.mark.parametrize("header", sorted(os.listdir(f"{ROOT}/include")))
def test_header_in_another_language(folder, header):
    """A header is also one of C++, with the first values that it has."""
    if not shutil.which("c++"):
        pytest.skip("there is no c++ here")
    flags = ["-std=c++17", "-Wall", "-Wextra", "-Werror", "-fsyntax-only", "-Iinclude"]
    names = re.findall(r"(?m)^#define GH_(\w+)_INIT\b", text_of(f"{ROOT}/include/{header}"))
    assert names, "first values"
    used = "".join(f"extern struct gh_{it.lower()} a_{it};\nstruct gh_{it.lower()} a_{it} = GH_{it}_INIT;\n" for it in names)
    source = write_text(f"{folder}/used.cc", f'#include "{header}"\n{used}')
    ran(["c++", *flags, source], f"{header} in C++")


def test_serve_in_c99():
    """c/serve.c is C of 1999 without a warning of conversions."""
    if not compilers():
        pytest.skip("there is no compiler here")
    for compiler in compilers():
        words = [compiler, "-std=c99", "-Wall", "-Wextra", "-Wpedantic", "-Wconversion", "-Werror", "-fsyntax-only"]
        ran([*words, "-Iinclude", "c/serve.c"], f"c/serve.c by {compiler}")
