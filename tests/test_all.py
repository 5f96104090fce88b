"""Tries how tests/all names the tests that fail: by words that play each of them alone."""

import importlib.machinery
import importlib.util
import re
import shlex
import sys

import pytest

from parties.building import run
from parties.places import ROOT
from parties.releases import write

pytestmark = pytest.mark.without_program

# What a shell, pytest or a reader of its lines may take for something else.
TEXTS = [
    "a b", "P - 257", "x] - y", "[", "it's", '"quoted"', "$HOME", "`id`", "a;b", "a::b", "a\nb", "a\\b", "-k", "é", "\x1b", "<&>",
]
TESTS = f"""import pytest

@pytest.mark.parametrize("text", {TEXTS!r})
def test_a_text(text):
    assert text == ""

@pytest.fixture
def broken():
    raise OSError

def test_a_fixture(broken):
    pass

def test_that_passes():
    pass
"""


def loaded():
    """Returns tests/all as a module."""
    loader = importlib.machinery.SourceFileLoader("all_tests", f"{ROOT}/tests/all")
    module = importlib.util.module_from_spec(importlib.util.spec_from_loader("all_tests", loader))
    loader.exec_module(module)
    return module


def test_names(folder):
    """Each test that fails, and each file that cannot be read, is named once, and a shell plays it by its name."""
    for name, text in (("pytest.ini", "[pytest]\n"), ("tests/test_odd.py", TESTS), ("tests/test_unread.py", "import nothing\n")):
        write(f"{folder}/{name}", text)
    call = f"{shlex.quote(sys.executable)} -B -m pytest -q -p no:cacheprovider"
    run(["sh", "-c", f"{call} -n 2 --junitxml=results --continue-on-collection-errors tests"], cwd=folder)
    found = loaded().failed_in(f"{folder}/results")
    assert sorted(it for it in found if "[" not in it) == ["tests/test_odd.py::test_a_fixture", "tests/test_unread.py"]
    assert len(found) == len(TEXTS) + 2, found
    named = [shlex.quote(it) for it in found if it != "tests/test_unread.py"]
    said = run(["sh", "-c", f"{call} {' '.join(named)}"], cwd=folder).stdout
    assert re.search(rf"(?m)^{len(TEXTS)} failed, 1 error in ", said), said
    assert "1 error in " in run(["sh", "-c", f"{call} tests/test_unread.py"], cwd=folder).stdout
