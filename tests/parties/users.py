"""A program that root runs as another user."""

import os
import shutil
import subprocess

import pytest

from parties.places import DOOR

# A user that no machine gives to a person.
NOBODY = 65534
AS_NOBODY = ["setpriv", f"--reuid={NOBODY}", f"--regid={NOBODY}", "--clear-groups"]


def as_nobody(folder):
    """The words by which root runs a program as another user, for which it makes the way free."""
    if os.geteuid() != 0:
        pytest.skip("only root can run a program as another user")
    if shutil.which(AS_NOBODY[0]) is None:
        pytest.skip(f"there is no {AS_NOBODY[0]} here")
    os.chmod(folder, 0o755)
    for path in DOOR:
        if subprocess.run([*AS_NOBODY, "test", "-r", path], stderr=subprocess.DEVNULL).returncode != 0:
            pytest.skip(f"another user cannot read {path}")
    return AS_NOBODY


def given_to_nobody(home):
    """The words by which root runs a program as another user, to whom a home then belongs."""
    through = as_nobody(home.folder)
    for it in (home.folder, home.place):
        os.chown(it, NOBODY, NOBODY)
    return through
