"""The programs in C, compiled with the archive of crates/gihandop_c, and the forms in which tests run them.

The environment variable GIHANDOP_ARCHIVE is the path of the archive. If it is not set, the archive of
`tools/prove gihandop_c` is taken, or else that of `tools/unproved gihandop_c`. One that is compiled with
AddressSanitizer can only be linked with it: such an archive has no plain programs, and none for valgrind.
"""

import functools
import os
import shutil

import pytest

from parties.building import is_instrumented, once, ran, run
from parties.emulated import TARGET, TARGETS, lay_wrapper, missing_for, output
from parties.places import ROOT, text_of, write_text

MADE = f"{ROOT}/crates/gihandop_c/out/libgihandop_c.a"
UNPROVED = f"{ROOT}/crates/gihandop_c/out/unproved/libgihandop_c.a"
ARCHIVE = os.path.realpath(os.environ.get("GIHANDOP_ARCHIVE") or next(filter(os.path.isfile, (MADE, UNPROVED)), MADE))
HAS_ARCHIVE = os.path.isfile(ARCHIVE)
IS_INSTRUMENTED = HAS_ARCHIVE and is_instrumented(ARCHIVE)
MISSING = f"there is no {ARCHIVE}: `tools/prove gihandop_c` makes it, `tools/unproved gihandop_c` one without proofs"
# What a program needs that is linked with the archive.
LINKED = ["-fsanitize=address"] if IS_INSTRUMENTED else []
FLAGS = ["-std=c11", "-O2", "-g", "-Wall", "-Wextra", "-Wpedantic", "-Werror", "-Iinclude", "-Itests/c"]
SANITIZERS = ["-fsanitize=address,undefined", "-fno-sanitize-recover=all"]
VALGRIND = [
    "valgrind", "-q", "--error-exitcode=99", "--leak-check=full", "--errors-for-leak-kinds=definite,possible",
]
POOL = [
    "-include", "tests/c/pool.h",
    "-DGH_MALLOC=pool_take", "-DGH_REALLOC=pool_resize", "-DGH_FREE=pool_give_back",
]
DOOR, KEYS, BELL, PORCH, NEXT = (f"examples/{it}.toml" for it in ("door", "keys", "bell", "porch", "porch_next"))
# Each program: its sources and further flags, and the words that it is run with, if it ends by itself.
PROGRAMS = {
    "first": (["examples/c/first.c"], [], [DOOR]),
    "edges": (["tests/c/edges.c", "tests/c/controller.c"], [], [DOOR, KEYS]),
    "calls": (["tests/c/calls.c", "tests/c/controller.c"], [], [DOOR, KEYS, PORCH]),
    "values": (["tests/c/values.c", "tests/c/controller.c"], [], [DOOR, KEYS]),
    "serve": (["tests/c/serve.c", "tests/c/controller.c", "c/serve.c"], [], [DOOR, KEYS, BELL, PORCH, NEXT]),
    "memory": (["tests/c/memory.c", "tests/c/controller.c"], POOL, [PORCH, KEYS, NEXT]),
    "stack": (["tests/c/stack.c", "tests/c/controller.c"], ["-pthread"], [PORCH, KEYS, NEXT]),
    "obey": (["tests/c/obey.c", "tests/c/controller.c"], [], None),
    "stream": (["tests/c/stream.c", "tests/c/controller.c"], [], None),
    "lockd": (["examples/c/lockd.c", "examples/c/line.c", "examples/c/files.c", "c/serve.c"], [], None),
}


def compilers():
    """The compilers that there are, each once."""
    found = {}
    for name in (os.environ.get("CC", "cc"), "gcc", "clang"):
        path = shutil.which(name)
        if path:
            found.setdefault(os.path.realpath(path), name)
    return list(found.values())


def need_archive():
    """Skips a module of tests if there is no archive."""
    if not HAS_ARCHIVE:
        pytest.skip(MISSING, allow_module_level=True)


def archive_for(target):
    """The path of the archive for another processor."""
    return output("gihandop_c", target, "libgihandop_c.a")


@functools.cache
def has_sanitizers():
    """Tells whether the first compiler has the sanitizers."""

    def build(path):
        empty = write_text(f"{path}.c", "int main(void) { return 0; }\n")
        write_text(path, str(run([compilers()[0], *SANITIZERS, "-o", f"{path}.program", empty]).returncode))

    return text_of(once("has_sanitizers", build)) == "0"


@functools.cache
def lacks(form):
    """What this machine lacks to run the programs in a form, or nothing."""
    if form == TARGET:
        made = f"`tools/prove --target {TARGET} gihandop_c` makes it"
        path = archive_for(TARGET)
        return missing_for(TARGET) or ("" if os.path.isfile(path) else f"there is no {path}: {made}")
    if not compilers():
        return "there is no compiler: Debian's gcc and libc6-dev, or clang, are one"
    if form == "sanitized":
        return "" if has_sanitizers() else f"{compilers()[0]} has no sanitizers here"
    if IS_INSTRUMENTED:
        return f"{ARCHIVE} is compiled with AddressSanitizer"
    return "there is no valgrind here" if form == "valgrind" and not shutil.which(VALGRIND[0]) else ""


# Programs by the first compiler, under valgrind, with sanitizers, and for another processor by an emulator.
FORMS = ["plain", "valgrind", "sanitized", TARGET]


def there():
    """The forms that there are here."""
    return [it for it in FORMS if HAS_ARCHIVE and not lacks(it)]


def comparing():
    """The forms in which a host in C is compared with the program."""
    here = [it for it in ("plain", "sanitized") if it in there()]
    return here[:1] + [it for it in there() if it == TARGET]


def compile_at(path, compiler, name, *flags, archive=ARCHIVE):
    """Compiles a program, without a warning."""
    sources, own, _ = PROGRAMS[name]
    words = [compiler, *FLAGS, *flags, *own, "-o", path, *sources, "c/heap.c", archive]
    ran(words, f"{name} by {' '.join([compiler, *flags])}")


def compile_for(target, path, name):
    """Compiles a program for a target, and makes a script that runs it by the emulator."""
    compile_at(f"{path}.program", TARGETS[target][0], name, archive=archive_for(target))
    lay_wrapper(target, f"{path}.program", path)


def words_of(form, name):
    """The words by which a program runs in a form, compiled once for all tests."""
    if form == TARGET:
        return [once(f"{TARGET}.{name}", lambda path: compile_for(TARGET, path, name))]
    if form == "sanitized":
        return [once(f"{form}.{name}", lambda path: compile_at(path, compilers()[0], name, *SANITIZERS))]
    program = once(f"plain.{name}", lambda path: compile_at(path, compilers()[0], name))
    return [*(VALGRIND if form == "valgrind" else []), program]
