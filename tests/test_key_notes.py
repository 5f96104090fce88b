"""Tries the notes about a key file: in the log of a start, and of `show`."""

import os
import subprocess

import pytest

from parties import DOOR, PROGRAM, Device
from parties.doors import LISTEN
from parties.places import write_text

ENTRY = """
[[key]]
address = "%s"
kind = "%s"
rand = "%016x"
ediv = 257
ltk = "00112233445566778899aabbccddeeff"
size = 16
authenticated = false
"""
SHARED = "{} can be used by others than its owner: run `chmod 600 {}`"
PRIVATE = "{} is a private address, which its client changes"


def notes(folder, entries, mode):
    """The lines about keys in the log of a start, and those of `show` on standard error."""
    path = write_text(f"{folder}/keys.toml", "".join(ENTRY % it for it in entries))
    os.chmod(path, mode)
    device = Device(DOOR[0], path, *LISTEN)
    device.said("ready")
    shown = subprocess.run([PROGRAM, "show", DOOR[0], path], capture_output=True, text=True)
    assert shown.returncode == 0, "show"
    lines = [it for it in shown.stderr.splitlines() if "NOT PROVED" not in it]
    return [it for it in device.log if it.startswith("keys: ")], lines


@pytest.mark.parametrize("mode", [0o644, 0o640, 0o602, 0o601, 0o600, 0o400], ids=oct)
def test_a_file_of_others(folder, mode):
    """A key file that others may read, write or execute is one line of each."""
    path = f"{folder}/keys.toml"
    words = [SHARED.format(path, path)] if mode & 0o77 else []
    entries = [("c0:00:00:00:00:01", "random", 1), ("40:00:00:00:00:01", "public", 1)]
    wanted = [f"keys: {it}" for it in words], [f"note: {it}" for it in words]
    assert notes(folder, entries, mode) == wanted


def test_private_addresses(folder):
    """Each peer with a private address is one line of the log, however many keys it has."""
    entries = [
        ("7f:ff:ff:ff:ff:ff", "random", 1), ("bf:00:00:00:00:01", "random", 1), ("7f:ff:ff:ff:ff:ff", "random", 2),
        ("c0:00:00:00:00:01", "random", 1), ("00:00:00:00:00:01", "random", 1), ("00:00:00:00:00:01", "public", 1),
    ]
    logged, _ = notes(folder, entries, 0o600)
    peers = ["1 7f:ff:ff:ff:ff:ff", "1 bf:00:00:00:00:01", "1 00:00:00:00:00:01"]
    assert logged == ["keys: " + PRIVATE.format(it) for it in peers]
