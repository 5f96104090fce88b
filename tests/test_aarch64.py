"""Runs the program on an emulated aarch64. The library for C is tried there by the tests of what is C.

`tools/prove --target aarch64-unknown-linux-gnu` makes the program and the archive of the library.
"""

import os
import re
import sys

import pytest

from parties.building import ran
from parties.emulated import TARGET, lay_wrapper, missing_for, output
from parties.places import ROOT

pytestmark = pytest.mark.without_program

# Tests of a device, and of the commands that the documents show.
FILES = ["test_device", "test_examples", "test_shown_commands", "test_shown_devices", "test_words"]


@pytest.fixture
def emulated(folder):
    """A script that runs the program for aarch64 by the emulator."""
    program = output("gatt_shell", TARGET, "gatt_shell")
    if missing_for(TARGET):
        pytest.skip(missing_for(TARGET))
    if not os.path.isfile(program):
        pytest.skip(f"there is no {program}: `tools/prove --target {TARGET} gatt_shell` makes it")
    lay_wrapper(TARGET, program, f"{folder}/gatt_shell")
    return f"{folder}/gatt_shell"


@pytest.mark.parametrize("name", FILES)
def test_file(emulated, name):
    """The program does there what it does here."""
    words = [sys.executable, "-B", "-m", "pytest", "-q", f"{ROOT}/tests/{name}.py"]
    printed = ran(words, timeout=1_800, env={**os.environ, "GATT_SHELL": emulated})
    assert re.search(r"\d+ passed", printed), printed
