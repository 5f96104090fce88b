"""The crate in Rust over the archive of crates/gihandop_c, by cargo."""

import os
import re
import shutil

import pytest

from parties.building import once, ran, run
from parties.compiling import ARCHIVE, HAS_ARCHIVE, IS_INSTRUMENTED, MISSING
from parties.places import ROOT

# The first that knows the edition of the crate.
LEAST = (1, 85)
MANIFEST = ["--manifest-path", f"{ROOT}/rust/Cargo.toml"]
AT = ["--offline", "--locked", *MANIFEST]
FOLDER = os.path.dirname(ARCHIVE)
# An archive with AddressSanitizer has all of its runtime beside it.
ASAN = f"{FOLDER}/asan.a"
LINKED = [f"-Clink-arg={it}" for it in ("-Wl,--whole-archive", ASAN, "-Wl,--no-whole-archive", "-lm")]


def lacks():
    """What this machine lacks to compile the crate, or nothing."""
    version = run(["cargo", "--version"]).stdout if shutil.which("cargo") else ""
    found = re.match(r"cargo (\d+)\.(\d+)", version)
    if not found or tuple(map(int, found.groups())) < LEAST:
        return "there is no cargo here of at least 1.85"
    if not HAS_ARCHIVE:
        return MISSING
    is_complete = not IS_INSTRUMENTED or os.path.isfile(ASAN)
    return "" if is_complete else f"there is no {ASAN}: `tools/unproved gihandop_c` makes it"


def need_rust():
    """Skips a module of tests if this machine cannot compile the crate."""
    if lacks():
        pytest.skip(lacks(), allow_module_level=True)


def cargo_env(**more):
    """The environment in which cargo compiles the crate, for all tests in one folder."""
    flags = LINKED if IS_INSTRUMENTED else []
    env = {**os.environ, "CARGO_TARGET_DIR": f"{os.environ['BUILT_ONCE']}/cargo", "GIHANDOP_LIB": FOLDER}
    env["RUSTDOCFLAGS"] = " ".join(["-D warnings", *flags])
    if flags:
        env["RUSTFLAGS"] = " ".join(flags)
    return {**env, **more}


def build_lockd(path):
    """Compiles rust/examples/lockd.rs."""
    ran(["cargo", "--quiet", "build", "--example", "lockd", *AT], "lockd in Rust", env=cargo_env())
    shutil.copy(f"{os.environ['BUILT_ONCE']}/cargo/debug/examples/lockd", path)


def rust_lockd():
    """The path of rust/examples/lockd.rs, compiled once for all tests."""
    return once("rust_lockd", build_lockd)
