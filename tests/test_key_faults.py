"""Tries key and rows files with one fault each: what `gatt_shell show` prints of the fault, and where it is."""

import os
import subprocess

import pytest

from parties.places import ROOT

# A correct key, and texts behind it, with their first faults.
ENTRY = """
[[key]]
address = "c0:00:00:00:00:01"
kind = "random"
rand = "0101010101010101"
ediv = 257
ltk = "00112233445566778899aabbccddeeff"
size = 16
authenticated = false
"""
NO_ADDRESS = "it is not six pairs of hexadecimal digits joined by colons"
KEYS = [
    ("", ""),
    (
        "[[key]]\nsize =",
        "line 11, column 7: invalid value, expected a string, number, boolean, date-time, array or inline table",
    ),
    ("[keys]", "keys: there is no such key"),
    (
        """\
[[key]]
address = "c0:00:00:00:00:01"
kind = "random"
rand = "0101010101010101"
ediv = 257
ltk = "ff112233445566778899aabbccddeeff"
size = 16
authenticated = true
""",
        "key 2: an earlier entry has the same peer, rand and ediv",
    ),
    (
        """\
[[key]]
address = "c0:00:00:00:00:02"
kind = "random"
rand = "0101010101010101"
ediv = 257
size = 16
authenticated = true
""",
        "key 2, ltk: the key is missing",
    ),
    (
        """\
[[key]]
kind = "random"
rand = "0101010101010101"
ltk = "ff112233445566778899aabbccddeeff"
size = 16
authenticated = true
""",
        "key 2, address: the key is missing",
    ),
    (
        """\
[[key]]
address = "c0:00:00:00:02"
kind = "random"
rand = "0101010101010101"
ediv = 257
ltk = "ff112233445566778899aabbccddeeff"
size = 16
authenticated = true
""",
        "key 2, address: it is not six pairs of hexadecimal digits joined by colons",
    ),
    (
        """\
[[key]]
address = "c0:00:00:00:00:02"
kind = "private"
rand = "0101010101010101"
ediv = 257
ltk = "ff112233445566778899aabbccddeeff"
size = 16
authenticated = true
""",
        "key 2, kind: it is neither public nor random",
    ),
    (
        """\
[[key]]
address = "c0:00:00:00:00:02"
kind = "random"
rand = "010101010101010"
ediv = 257
ltk = "ff112233445566778899aabbccddeeff"
size = 16
authenticated = true
""",
        "key 2, rand: it is not 16 hexadecimal digits",
    ),
    (
        """\
[[key]]
address = "c0:00:00:00:00:02"
kind = "random"
rand = "0101010101010101"
ediv = 257
ltk = "ff112233445566778899aabbccddee"
size = 16
authenticated = true
""",
        "key 2, ltk: it is not 32 hexadecimal digits",
    ),
    (
        """\
[[key]]
address = "c0:00:00:00:00:02"
kind = "random"
rand = "01"
ediv = 257
ltk = "00"
size = 16
authenticated = true
""",
        "key 2, rand: it is not 16 hexadecimal digits",
    ),
    (
        """\
[[key]]
address = "c0:00:00:00:00:02"
kind = "random"
rand = "0101010101010101"
ediv = 65536
ltk = "ff112233445566778899aabbccddeeff"
size = 16
authenticated = true
""",
        "key 2, ediv: it has to be from 0 to 65535",
    ),
    (
        """\
[[key]]
address = "c0:00:00:00:00:02"
kind = "random"
rand = "0101010101010101"
ediv = 257
ltk = "ff112233445566778899aabbccddeeff"
size = 6
authenticated = true
""",
        "key 2, size: it has to be from 7 to 16",
    ),
    (
        """\
[[key]]
address = "c0:00:00:00:00:02"
kind = "random"
rand = "0000000000000000"
ediv = 257
ltk = "ff112233445566778899aabbccddeeff"
size = 16
authenticated = true
secure = true
""",
        "key 2: a secure key with another rand or ediv than 0",
    ),
    ('[[key]]\nediv = "1"', "key 2, ediv: it has to be an integer"),
    (
        """\
[[key]]
ediv = 65536
more = 1""",
        "key 2, ediv: it has to be from 0 to 65535",
    ),
    ("[[key]]\nediv = -1", "key 2, ediv: it has to be from 0 to 65535"),
    ('[[key]]\n"\\u001b" = 1', "key 2, \\u{1b}: there is no such key"),
    ("[[key]]\nffeeddccbbaa99887766554433221100 = 1", "key 2, [hexadecimal digits]: there is no such key"),
    ("ffeeddccbbaa99887766554433221100 = 1", "key 1, [hexadecimal digits]: there is no such key"),
    ('[ffeeddccbbaa99887766554433221100]', "[hexadecimal digits]: there is no such key"),
    (ENTRY.replace("00:01", "00:02") + "\n[[key]]\nsize = 17", "key 3, address: the key is missing"),
    *(
        (ENTRY.replace("c0:00:00:00:00:01", it), f"key 2, address: {NO_ADDRESS}")
        for it in ("", "00:11:22:33:44:5", "00:11:22:33:44:55:", "00 11:22:33:44:55", "g0:00:00:00:00:01")
    ),
    (ENTRY.replace("00:01", "00:02") + "\n[[key]]\nsize = 16.5", "key 3, size: it has to be an integer"),
    ("[[key]]\nsize = 16.5\n[[key]]\nmore = 1", "key 2, size: it has to be an integer"),
    ("[other]\na = [[1], [2, 3]]", "other: there is no such key"),
]

# Rows files, with the faults of their lines.
ROWS = [
    (
        """\
1 c0:00:00:00:00:01 4 2
! 1 c0:00:00:00:00:01
""",
        "",
    ),
    (
        """\
1 c0:00:00:00:00:01 4 2

1 c0:00:00:00:00:01 07 1
""",
        "line 3 says nothing that a rows file may say",
    ),
    (
        """\
1 c0:00:00:00:00:01 4 2
1 c0:00:00:00:00:01 4 1
""",
        "line 2 says what an earlier one has said",
    ),
]


def shown(program, folder, keys, rows=None):
    """The status of `show` of the door with these files, and what it prints of a fault without its number."""
    words = [program, "show", f"{ROOT}/examples/door.toml", f"{folder}/keys.toml"]
    files = {"keys.toml": keys} if rows is None else {"keys.toml": keys, "rows": rows}
    for name, text in files.items():
        with open(f"{folder}/{name}", "w", encoding="utf-8") as file:
            file.write(text)
        os.chmod(f"{folder}/{name}", 0o600)
    if rows is not None:
        words += ["--rows", f"{folder}/rows"]
    ran = subprocess.run(words, capture_output=True, text=True)
    front, number, text = (ran.stderr.rstrip("\n").split(": ", 2) + ["", "", ""])[:3]
    named = "keys" if rows is None else "rows"
    assert (front, number.rstrip("0123456789")) in (("", ""), (named, "fault ")), ran.stderr
    return ran.returncode, text


@pytest.mark.parametrize(("text", "fault"), KEYS)
def test_a_fault_of_keys(program, folder, text, fault):
    assert shown(program, folder, ENTRY + text) == (1 if fault else 0, fault)


@pytest.mark.parametrize(("text", "fault"), ROWS)
def test_a_fault_of_rows(program, folder, text, fault):
    assert shown(program, folder, ENTRY, text) == (1 if fault else 0, fault)
