"""Tries what `make install` leaves: the programs, the library for C, and what pkg-config says of it."""

import os
import re
import shutil

import pytest

from parties.building import is_marked, once, ran, run
from parties.compiling import LINKED, PROGRAMS, compilers
from parties.places import ROOT, text_of
from parties.releases import stand_ins
from parties.rust import cargo_env, lacks

FILES = [
    "usr/bin/gatt_shell", "usr/bin/hci_bridge", "usr/bin/gihandop-keys", "usr/include/gihandop.h",
    "usr/include/gihandop_serve.h",
    "usr/lib/libgihandop_c.a", "usr/lib/libgihandop_heap.a", "usr/lib/libgihandop_serve.a",
    "usr/lib/pkgconfig/gihandop.pc", "usr/share/gihandop/heap.c", "usr/share/gihandop/serve.c",
    *(f"usr/share/man/man{it[-1]}/{it}" for it in os.listdir(f"{ROOT}/docs/man")),
]


def make_words(package, build, program, archive):
    """The words that install below a folder."""
    words = ["make", "--no-print-directory", "install", f"DESTDIR={package}", "PREFIX=/usr", f"BUILD={build}"]
    return [*words, f"ARCHIVE={archive}", f"PROGRAM={program}"]


@pytest.fixture
def make():
    if not shutil.which("make"):
        pytest.skip("there is no make here")


@pytest.fixture
def package(make, program):
    """The folder below which everything is installed, once for all tests."""
    outputs = stand_ins(program)

    def install(path):
        ran(make_words(path, f"{path}.build", *outputs), "make install")

    return once("package", install)


@pytest.fixture
def pc(package):
    """The environment in which pkg-config finds what is installed."""
    if not shutil.which("pkg-config") or not compilers():
        pytest.skip("there is no pkg-config, or no compiler")
    return {"PKG_CONFIG_LIBDIR": f"{package}/usr/lib/pkgconfig", "PKG_CONFIG_SYSROOT_DIR": package}


def test_without_an_archive(folder, make, program):
    """Without an archive nothing is installed, and `make install` names what makes one."""
    package = f"{folder}/package"
    ended = run(make_words(package, f"{folder}/build", program, f"{folder}/missing.a"))
    assert ended.returncode != 0, "it fails"
    assert "`tools/prove gihandop_c`" in ended.stdout, "what makes the archive"
    assert not os.path.exists(package), "nothing is installed"


def test_files(package):
    """The programs, the library, its header and the manual pages are installed."""
    found = {os.path.relpath(f"{at}/{it}", package) for at, _, files in os.walk(package) for it in files}
    assert set(FILES) - found == set(), "what make install leaves"


def test_program(package):
    """The program that is installed runs."""
    ran([f"{package}/usr/bin/gatt_shell", "--version"])


def test_keys(package, folder):
    """The tool for keys runs by its name on PATH, which its messages have, and by the one of the documents."""
    path = f"{folder}/keys.toml"
    env = {**os.environ, "PATH": f"{package}/usr/bin:{os.environ['PATH']}"}
    ran(["gihandop-keys", "new", "00:aa:01:00:00:00", "public", "--add", path], env=env)
    assert "1      00:aa:01:00:00:00  public" in ran(["gihandop-keys", "list", path], env=env), "it runs"
    assert ran(["gihandop-keys", "--help"], env=env).startswith("usage: gihandop-keys "), "its help"
    ended = run(["gihandop-keys", "list", f"{folder}/none"], env=env)
    assert (ended.returncode, ended.stdout.startswith("gihandop-keys: ")) == (1, True), "its name in a message"
    assert "tools/keys" not in ran(["gihandop-keys", "new", "--help"], env=env), "only its name"
    assert ran([f"{package}/usr/share/gihandop/tools/keys", "check", path]) == "keys 1\n", "the other name"


def test_programs_in_c(folder, pc):
    """Programs in C are compiled by what pkg-config says, and run."""
    flags = ran(["pkg-config", "--cflags", "--libs", "gihandop"], env={**os.environ, **pc}).split()
    for name in ("first", "serve"):
        sources = [it for it in PROGRAMS[name][0] if it != "c/serve.c"]
        words = [compilers()[0], "-o", f"{folder}/{name}", "-Itests/c", *sources, *flags, *LINKED]
        ran(words, f"{name} by gihandop.pc")
        ran([f"{folder}/{name}", *PROGRAMS[name][2]], "and it runs")


def test_version(pc, program):
    """pkg-config, the program and the header have the same version."""
    number = int(re.search(r"#define GH_VERSION (\d+)", text_of(f"{ROOT}/include/gihandop.h"))[1])
    version = f"{number // 1_000_000}.{number // 1_000 % 1_000}.{number % 1_000}"
    printed = ran(["pkg-config", "--modversion", "gihandop"], env={**os.environ, **pc})
    assert printed == f"{version}\n", "pkg-config"
    said = f"{version} (not proved)" if is_marked(program) else version
    assert ran([program, "--version"]) == f"gatt_shell {said}\n", "the program"


def test_crate(folder, pc):
    """The crate in Rust finds the archive by pkg-config if nothing else says where it is."""
    if lacks():
        pytest.skip(lacks())
    shutil.copytree(f"{ROOT}/rust", f"{folder}/rust", ignore=shutil.ignore_patterns("target"))
    env = cargo_env(CARGO_TARGET_DIR=f"{folder}/target", **pc)
    del env["GIHANDOP_LIB"]
    at = ["--offline", "--locked", "--manifest-path", f"{folder}/rust/Cargo.toml"]
    ran(["cargo", "--quiet", "build", *at], "the crate by gihandop.pc", env=env)
