"""Installs everything below a prefix by `make install`, and removes it again."""

import glob
import os
import re

import pytest

from parties.building import once, ran, run
from parties.places import ROOT, text_of
from parties.releases import broken_links, copied, files_below, need, stand_ins, write

PREFIXES = ["/usr", "/opt/lock"]
UNITS = [f"lib/systemd/system/{os.path.basename(it)}" for it in glob.glob(f"{ROOT}/bridge/*.service")]
DOOR_UNIT = "share/doc/gihandop/examples/device/door.service"
FILES = [
    "bin/gatt_shell", "bin/hci_bridge", "bin/gihandop-keys", "include/gihandop.h", "include/gihandop_serve.h",
    "lib/libgihandop_c.a", "lib/libgihandop_heap.a", "lib/libgihandop_serve.a", "lib/pkgconfig/gihandop.pc", "share/gihandop/heap.c",
    "share/gihandop/serve.c", "share/gihandop/tools/keys",
    "share/man/man1/gatt_shell.1", "share/man/man1/gihandop-keys.1", "share/bash-completion/completions/gatt_shell",
    "share/bash-completion/completions/gihandop-keys", "share/zsh/site-functions/_gatt_shell",
    *(f"share/fish/vendor_completions.d/{it}.fish" for it in ("gatt_shell", "hci_bridge", "gihandop-keys")), *UNITS,
]
DOCUMENTS = [
    "README.md", "VERDICTS", "LICENSE-THIRD-PARTY", "docs/C.md", "examples/door.toml", "examples/device/lock.py",
    "python/gihandop/__init__.py", "python/gihandop/py.typed", "python/pyproject.toml",
]


class Installed:
    """What is installed below a prefix in a folder."""

    def __init__(self, room, prefix, program):
        self.folder, self.prefix = f"{room}/package", prefix
        self.top = f"{self.folder}{prefix}"
        self.words = [f"DESTDIR={self.folder}", f"PREFIX={prefix}", f"BUILD={room}/build"]
        self.words += [f"{name}={path}" for name, path in zip(("PROGRAM", "ARCHIVE"), stand_ins(program))]

    def make(self, what):
        ran(["make", "--no-print-directory", what, *self.words])


@pytest.fixture
def make(program):
    need("make install", "make, gcc, binutils", "make", "cc", "ar")
    stand_ins(program)


@pytest.fixture(params=PREFIXES, ids=["usr", "opt"])
def installed(request, make, program):
    """What is installed below each prefix, once for all tests, none of which changes it."""
    prefix = request.param

    def install(room):
        Installed(room, prefix, program).make("install")

    return Installed(once(f"prefix{prefix.replace('/', '-')}", install), prefix, program)


def test_files(installed):
    """All files are there, and below the prefix."""
    found = files_below(installed.folder)
    below = installed.prefix[1:]
    wanted = [f"{below}/{it}" for it in (*FILES, *(f"share/doc/gihandop/{it}" for it in DOCUMENTS))]
    assert [it for it in wanted if it not in found] == [], "files"
    assert [it for it in found if not it.startswith(f"{below}/")] == [], "only below it"


@pytest.mark.parametrize("unit", [*UNITS, DOOR_UNIT], ids=os.path.basename)
def test_unit(installed, unit):
    """A unit starts the programs that are installed."""
    text = text_of(f"{installed.top}/{unit}")
    programs = re.findall(r"(?m)^Exec\w+=(\S+)/(?:gatt_shell|hci_bridge) ", text)
    assert set(programs) == {f"{installed.prefix}/bin"}, "the folder of its programs"


def test_links(installed):
    """Each link of a document leads to a file."""
    assert broken_links(f"{installed.top}/share/doc/gihandop") == [], "links"


def test_uninstall(installed, program, folder):
    """`make uninstall` removes what is installed, and nothing else."""
    own = f"{folder}/own"
    os.makedirs(own)
    copied(installed.folder, f"{own}/package")
    copy = Installed(own, installed.prefix, program)
    write(f"{copy.top}/bin/other", "")
    copy.make("uninstall")
    folders = [it for it, _, _ in os.walk(copy.folder) if "gihandop" in os.path.basename(it)]
    left = files_below(copy.folder) + folders
    assert left == [f"{copy.prefix[1:]}/bin/other"], "what it leaves"


@pytest.mark.parametrize("name", ["PROGRAM", "ARCHIVE"])
def test_without(make, program, folder, name):
    """Without one of the outputs nothing is installed, and `make install` names what makes it."""
    copy = Installed(folder, "/usr", program)
    copy.words.append(f"{name}={folder}/missing")
    ended = run(["make", "--no-print-directory", "install", *copy.words])
    assert ended.returncode != 0, "it fails"
    assert "tools/prove" in ended.stdout, "what makes it"
    assert not os.path.exists(copy.folder), "nothing is installed"


@pytest.mark.parametrize("destination, prefix", [
    ("{}/my package", "/usr"), ("{}/package ", "{}/usr"), ("", "{}/usr /local"),
], ids=["within", "behind", "prefix"])
@pytest.mark.parametrize("what", ["install", "uninstall"])
def test_white_space(folder, destination, prefix, what):
    """A folder whose name has white space is refused: the files that its words name stay."""
    need("make uninstall", "make", "make")
    others = [f"{folder}/{it}" for it in ("my", "package", "usr/bin/gatt_shell")]
    for it in others:
        write(it, "")
    words = [f"DESTDIR={destination.format(folder)}", f"PREFIX={prefix.format(folder)}", f"BUILD={folder}/build"]
    ended = run(["make", "-k", what, *words])
    assert (ended.returncode, "has white space" in ended.stdout) == (2, True), ended.stdout
    assert [os.path.exists(it) for it in others] == [True] * 3, "they stay"
