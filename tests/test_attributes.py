"""Tries `gatt_shell show --attributes`: a line for each attribute, the names of common types, and refused files."""

import os
import subprocess

import pytest

from parties.places import ROOT

DOOR = """\
   1  service         1800 Generic Access
   2  characteristic  2a00 Device Name
   3  value           2a00 Device Name                          0-4   read
   4  service         180f Battery
   5  characteristic  2a19 Battery Level
   6  value           2a19 Battery Level                        1     read notify
   7  configuration   2902 Client Characteristic Configuration  2     read write
   8  service         fff0
   9  characteristic  fff1
  10  value           fff1                                      1     read notify if encrypted; write if authenticated
  11  configuration   2902 Client Characteristic Configuration  2     read; write if encrypted
  12  characteristic  fff2
  13  value           fff2                                      0-8   read write if authenticated, key of 16, authorized
  14  characteristic  fff3
  15  value           fff3                                      0-1   read
  16  characteristic  fff3
  17  value           fff3                                      0-1   read if encrypted
  18  characteristic  fff3
  19  value           fff3                                      0-1   read
  20  characteristic  fff4
  21  value           fff4                                      0-512 read write command
"""
BELL = """\
   1  service         fff8
   2  characteristic  fff9
   3  value           fff9                                      0-1   read notify indicate
   4  configuration   2902 Client Characteristic Configuration  2     read write
   5  characteristic  12345678-9abc-def0-0123-456789abcdef
   6  value           12345678-9abc-def0-0123-456789abcdef      0-1   indicate
   7  configuration   2902 Client Characteristic Configuration  2     read write
   8  secondary       fffa
   9  include         fff8 at 1
"""
# Types, and their names.
NAMES = {
    "1800": "Generic Access",
    "180f": "Battery",
    "2902": "Client Characteristic Configuration",
    "2a19": "Battery Level",
    "2b3a": "Server Supported Features",
    "0000": "",
    "fff0": "",
    "ffff": "",
}
EMPTY = b"service = []"
# A table, keys, rows, the status, the output, and the fault.
FILES = [
    (EMPTY, None, b"", 0, "no attributes\n", ""),
    (EMPTY, b"key = []", b"", 0, "no attributes\n", ""),
    (b"", b"key", b"none", 1, "", "table: fault 2: service: the key is missing\n"),
    (EMPTY, b"bell = 1", b"none", 1, "", "keys: fault 9: bell: there is no such key\n"),
    (EMPTY, b"\n \xff", b"none", 1, "", "keys: fault 1: line 2, column 2: it is not UTF-8\n"),
    (EMPTY, None, b"\nnone", 1, "", "rows: fault 1: line 2 says nothing that a rows file may say\n"),
]


@pytest.fixture
def show(program, folder):
    """Shows a table by its path. Returns the status, the output and the fault."""

    def shown(table, *words):
        words = [program, "show", table, *words, "--attributes"]
        ran = subprocess.run(words, cwd=folder, capture_output=True, text=True)
        return ran.returncode, ran.stdout, ran.stderr

    return shown


@pytest.mark.parametrize(("table", "lines"), [("door", DOOR), ("bell", BELL)])
def test_a_line_for_each_attribute(show, table, lines):
    assert show(f"{ROOT}/examples/{table}.toml") == (0, lines, "")


def test_names_of_types(show, folder):
    """A service of each type is shown with the name of the type."""
    types = [it for it in NAMES if it != "2902"]
    with open(f"{folder}/table", "w", encoding="ascii") as file:
        for it in types:
            file.write(f'[[service]]\nuuid = "{it}"\n')
    lines = "".join(f"{at:4}  service         {it} {NAMES[it]}".rstrip() + "\n" for at, it in enumerate(types, 1))
    assert show("table") == (0, lines, "")
    assert all(f"2902 {NAMES['2902']} " in line for line in DOOR.splitlines() if "configuration" in line)


@pytest.mark.parametrize(("table", "keys", "rows", "status", "lines", "fault"), FILES)
def test_files(show, folder, table, keys, rows, status, lines, fault):
    files = {"table": table, "rows": rows} if keys is None else {"table": table, "rows": rows, "keys": keys}
    for name, octets in files.items():
        with open(f"{folder}/{name}", "wb") as file:
            file.write(octets)
        os.chmod(f"{folder}/{name}", 0o600)
    words = ["--rows", "rows"] if keys is None else ["keys", "--rows", "rows"]
    assert show("table", *words) == (status, lines, fault)
