"""Tries the function by which a program that is compiled without proofs fills its variables (tools/unproved)."""

import importlib.machinery
import importlib.util
import os

import pytest

from parties.building import ran, run
from parties.compiling import compilers
from parties.places import ROOT, write_text

pytestmark = pytest.mark.without_program


def fill():
    """The source of the function."""
    loader = importlib.machinery.SourceFileLoader("unproved", f"{ROOT}/tools/unproved")
    module = importlib.util.module_from_spec(importlib.util.spec_from_loader(loader.name, loader))
    loader.exec_module(module)
    return module.FILL


def test_fill(folder):
    """It fills what AddressSanitizer fills, and nothing besides, and whatever that reports is reported."""
    compiler = next(iter(compilers()), None)
    if compiler is None:
        pytest.skip("there is no compiler: Debian's gcc and libc6-dev, or clang, are one")
    empty = write_text(f"{folder}/empty.c", "#include <sanitizer/asan_interface.h>\nint main(void) { return 0; }\n")
    sanitized = [compiler, "-std=c11", "-O1", "-g", "-fsanitize=address"]
    if run([*sanitized, "-o", f"{folder}/empty", empty]).returncode:
        pytest.skip(f"{compiler} has no AddressSanitizer here")
    source = write_text(f"{folder}/fill.c", fill())
    ran([compiler, "-std=gnu11", "-O1", "-fPIE", "-ffreestanding", "-c", source, "-o", f"{folder}/fill.o"])
    words = [*sanitized, "-Wall", "-Wextra", "-Werror", "-Wl,--wrap=__asan_memset", "-o", f"{folder}/fill"]
    ran([*words, f"{ROOT}/tests/c/fill.c", f"{folder}/fill.o"])
    goes_on = {**os.environ, "ASAN_OPTIONS": "halt_on_error=0:suppress_equal_pcs=0:symbolize=0"}
    ran([f"{folder}/fill"], "fill.c", env=goes_on)
