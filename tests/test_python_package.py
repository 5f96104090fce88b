"""Installs the module of python/ by pip, without the network, and checks its types by mypy, if these are there."""

import glob
import os
import re
import shutil
import subprocess
import sys

import pytest

from parties.building import once, ran, run
from parties.places import PATIENCE, ROOT, text_of, write_text

pytestmark = pytest.mark.without_program

MYPY = [sys.executable, "-m", "mypy"]
# A program that uses the module.
APPLICATION = """import gihandop


async def serve(path: str) -> bytes:
    async with gihandop.Device(path) as device:
        async for notice in device:
            if isinstance(notice, gihandop.Written):
                await device.update(notice.handle, notice.value)
            elif isinstance(notice, gihandop.Away):
                break
        return await device.value(6)
"""


def pip_of(python):
    """The words of pip for a Python, if it has it."""
    words = [python, "-m", "pip"]
    if subprocess.run([*words, "--version"], capture_output=True, timeout=PATIENCE).returncode:
        pytest.skip("there is no pip: Debian's python3-pip is one")
    return [*words, "--disable-pip-version-check", "--no-cache-dir"]


def install_module(path):
    """Makes a virtual environment in which pip has installed the module, without the network."""
    subprocess.run([sys.executable, "-m", "venv", "--without-pip", path], check=True, timeout=PATIENCE)
    (site,) = glob.glob(f"{path}/lib/python3.*/site-packages")
    # pip builds in the folder of the sources.
    shutil.copytree(f"{ROOT}/python", f"{path}/python", ignore=shutil.ignore_patterns("__pycache__", "build"))
    words = [*pip_of(sys.executable), "install", "--no-index", "--target", site, "./python"]
    # As somebody without a network runs it.
    ran(words, cwd=path, env={**os.environ, "PIP_INDEX_URL": "http://127.0.0.1:9/"})


@pytest.fixture
def environment():
    """A virtual environment with the module."""
    pip_of(sys.executable)
    return once("module", install_module)


def test_package(environment, folder):
    """pip installs the module and its types, with the version of the program, and it is imported."""
    code = "import gihandop, importlib.metadata as it; print(gihandop.__file__, it.version('gihandop'))"
    said = ran([f"{environment}/bin/python3", "-B", "-I", "-c", code], cwd=folder).split()
    version = re.search(r"(?m)^VERSION = (\S+)$", text_of(f"{ROOT}/Makefile"))[1]
    assert said[1] == version, "its version"
    at = os.path.dirname(said[0])
    assert at.startswith(f"{environment}/"), "where it is"
    assert {"__init__.py", "py.typed"} <= set(os.listdir(at)), "its files"
    assert text_of(said[0]) == text_of(f"{ROOT}/python/gihandop/__init__.py"), "its text"


def checked_types(folder, python, text):
    """What mypy says of a program that imports the installed module."""
    if subprocess.run([*MYPY, "--version"], capture_output=True, timeout=PATIENCE).returncode:
        pytest.skip("mypy is not there: Debian's mypy is one")
    path = write_text(f"{folder}/application.py", text)
    words = [*MYPY, "--strict", "--python-executable", python, "--cache-dir", f"{folder}/mypy", path]
    return run(words, cwd=folder, timeout=300).stdout


def test_types_of_the_module(folder):
    """mypy finds nothing in the module, if it is there."""
    if subprocess.run([*MYPY, "--version"], capture_output=True, timeout=PATIENCE).returncode:
        pytest.skip("mypy is not there: Debian's mypy is one")
    words = [*MYPY, "--strict", "--cache-dir", f"{folder}/mypy", f"{ROOT}/python/gihandop"]
    ran(words, "mypy --strict", timeout=300)


def test_types_where_it_is_installed(folder, environment):
    """mypy knows the types of the installed module."""
    said = checked_types(folder, f"{environment}/bin/python3", APPLICATION)
    assert said.startswith("Success"), said
    wrong = APPLICATION.replace("notice.value)", '"1")')
    assert 'Argument 2 to "update" of "Device" has incompatible type "str"' in checked_types(
        folder, f"{environment}/bin/python3", wrong
    ), "a str as a value"
