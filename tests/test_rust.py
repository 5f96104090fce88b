"""Compiles, tests and checks what is Rust in this repository, by cargo."""

import os
import re

import pytest

from parties.building import is_marked, once, ran, run
from parties.compiling import ARCHIVE
from parties.places import ROOT, text_of, write_text
from parties.rust import AT, MANIFEST, cargo_env, need_rust

need_rust()
pytestmark = pytest.mark.without_program

# What the build script prints for a machine, if the folder of the repository has all archives.
BUILT_FOR = {
    ("x86_64", "linux"): "cargo::rustc-link-search=native={}/crates/gihandop_c/out",
    ("aarch64", "linux"):
        "cargo::rustc-link-search=native={}/crates/gihandop_c/out/aarch64-unknown-linux-gnu",
    ("arm", "linux"):
        "cargo::warning=the archive is for Linux on x86_64 or aarch64, not for linux on arm: no program can be linked",
    ("x86_64", "windows"):
        "cargo::warning=the archive is for Linux on x86_64 or aarch64, not for windows on x86_64: no program can be"
        " linked",
}


@pytest.mark.long(25)
def test_tests(folder):
    """Each test of the crate passes, those of its documents and examples too."""
    # Tests of documents need the library after cargo has unlocked its folder, so they have one of their own.
    env = cargo_env(CARGO_TARGET_DIR=f"{folder}/target")
    ended = run(["cargo", "test", "--no-fail-fast", *AT], env=env)
    found = re.findall(r"(?m)^test (.+?) \.\.\. (ok|FAILED|ignored)", ended.stdout)
    for name, result in found:
        assert result == "ok", f"{name}\n{ended.stdout}"
    assert ended.returncode == 0, ended.stdout
    assert found, "there are tests"


def test_documents():
    """The crate's documents are made without a warning."""
    assert ran(["cargo", "--quiet", "doc", "--no-deps", *AT], env=cargo_env()) == "", "cargo doc"


@pytest.mark.parametrize("name, words", [
    ("clippy", ["--all-targets", *AT, "--", "-D", "warnings"]),
    ("fmt", ["--check", *MANIFEST]),
], ids=["clippy", "fmt"])
def test_tool(name, words):
    """A tool of cargo finds nothing."""
    if run(["cargo", name, "--version"]).returncode:
        pytest.skip(f"there is no cargo {name} here")
    ran(["cargo", "--quiet", name, *words], env=cargo_env())


def test_package():
    """The crate can be packed."""
    ran(["cargo", "--quiet", "package", "--allow-dirty", *AT], env=cargo_env())


@pytest.mark.parametrize("words", [["doc", "--no-deps"], ["check", "--all-targets"], ["clippy"], ["build"]], ids=" ".join)
def test_without_an_archive(folder, words):
    """What links no program needs no archive: a warning says how it is made."""
    if run(["cargo", words[0], "--help"]).returncode:
        pytest.skip(f"there is no cargo {words[0]} here")
    env = cargo_env(CARGO_TARGET_DIR=f"{folder}/target", GIHANDOP_LIB=folder)
    said = ran(["cargo", *words, *AT], env=env)
    for wanted in (f"there is no {folder}/libgihandop_c.a", "`tools/prove gihandop_c`", "`tools/unproved gihandop_c`"):
        assert wanted in said, "what makes the archive"


def test_program_without_an_archive(folder):
    """A program is not linked without an archive, and the warning comes before what the linker says."""
    env = cargo_env(CARGO_TARGET_DIR=f"{folder}/target", GIHANDOP_LIB=folder)
    ended = run(["cargo", "build", "--example", "lockd", *AT], env=env)
    assert ended.returncode != 0, "it is not linked"
    assert "no program can be linked" in ended.stdout.partition("gh_open")[0], "why"


def test_first():
    """The first example prints what a client reads, as docs/C.md says."""
    words = ["cargo", "--quiet", "run", "--example", "first", *AT, "--", "examples/door.toml"]
    said = ran(words, env=cargo_env()).splitlines()
    assert said[-1] == "0b4c6f636b", said
    assert "prints what the client reads, `0b4c6f636b`" in text_of(f"{ROOT}/docs/C.md"), "the page"


def test_version_text():
    """The crate says of an archive that is compiled without proofs that it is not proved."""
    code = "println!(\"{}\", gihandop::version_text())"
    path = write_text(f"{os.environ['BUILT_ONCE']}/version_text.rs", f"fn main() {{ {code} }}\n")
    env = cargo_env()
    flags = [it for it in env.get("RUSTFLAGS", "").split() if it]
    ran(["cargo", "--quiet", "build", *AT], env=env)
    folder = f"{env['CARGO_TARGET_DIR']}/debug"
    words = ["rustc", "--edition", "2024", *flags, "-L", f"{folder}/deps", "-L", f"native={env['GIHANDOP_LIB']}"]
    ran([*words, "--extern", f"gihandop={folder}/libgihandop.rlib", "-o", f"{path}.program", path], env=env)
    said = ran([f"{path}.program"]).split(" ", 1)
    assert said[1:] == (["(not proved)\n"] if is_marked(ARCHIVE) else []), said


@pytest.mark.parametrize("machine", BUILT_FOR, ids=["-".join(it) for it in BUILT_FOR])
def test_build_script(folder, machine):
    """In a folder that has all archives, the build script finds that of a machine, or warns of the machine."""
    tree = f"{folder}/tree"
    for target in ("", "aarch64-unknown-linux-gnu"):
        os.makedirs(f"{tree}/crates/gihandop_c/out/{target}", exist_ok=True)
        write_text(f"{tree}/crates/gihandop_c/out/{target}/libgihandop_c.a", "")
    words = ["rustc", "--edition", "2024", "-D", "warnings", "rust/build.rs", "-o"]
    script = once("build_script", lambda path: ran([*words, path], "build.rs"))
    env = dict(zip(("CARGO_CFG_TARGET_ARCH", "CARGO_CFG_TARGET_OS"), machine))
    env["HOST"] = "x86_64-unknown-linux-gnu"
    env.update({"CARGO_MANIFEST_DIR": f"{tree}/rust", "PATH": os.environ["PATH"]})
    assert BUILT_FOR[machine].format(tree) in run([script], env=env).stdout.splitlines(), "what it prints"
