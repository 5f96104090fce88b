"""Tries scripts and rows: the bad line of a script, the faults of rows, and the rows that fit a table and keys."""

import subprocess

import pytest

from parties.places import ROOT, text_of

# Scripts, and the number of the first bad line of each.
SCRIPTS = [
    ("\n# here\nU < 0a0300\nbad\nbad", 4),
    ("drop U\n\r\n", 2),
]
BAD_LINES = [
    "bad", " ", " # no comment", "\r", "\r\n", "drop U\r\n", "drop U\r", "replace\r\n", "connect", "connect U",
    "connect U 1", "connect U 1 c0:00:00:00:00:0a ", "connect U 1 c0:00:00:00:00:0a x",
    "connect  U 1 c0:00:00:00:00:0a", " connect U 1 c0:00:00:00:00:0a", "connect U 2 c0:00:00:00:00:0a",
    "connect U 01 c0:00:00:00:00:0a", "connect U random c0:00:00:00:00:0a", "connect U 1 c0:00:00:00:00:0",
    "connect U 1 c000000000000a", "connect drop 1 c0:00:00:00:00:0a", "connect U\t1 c0:00:00:00:00:0a",
    "Connect U 1 c0:00:00:00:00:0a", "drop", "drop ", "drop U ", "drop U V", "drop connect", "drop drop",
    "drop encrypt", "drop clear", "drop hold", "drop done", "drop update", "drop allow", "drop deny", "drop tick",
    "drop replace", "drop U_1", "drop é", "drop 123456789", "encrypt P 0101010101010101",
    "encrypt P 010101010101010 257", "encrypt P 01010101010101010 257", "encrypt P 010101010101010g 257",
    "encrypt P - 257", "encrypt P 0101010101010101 65536", "encrypt P 0101010101010101 0x1",
    "encrypt P 0101010101010101 -", "clear", "U", "U <", "U < ", "U < 0", "U < 0g", "U < 0a 03", "U < --",
    "U <4 0a0300", "U <7 0a0300", "U > 0a0300", "U <50a0300", "U  < 0a0300", "drop < 0a0300", "replace < 0a0300",
    "123456789 < 0a0300", "hold", "done U", "done U 65536", "done U +1", "done U -1", "done U 1.0", "done U 1 1",
    "update 10", "update x 00", "update 65536 00", "update 10 0", "update U 00", "allow", "allow U -1",
    "allow U 18446744073709551616", "deny U 0", "tick", "tick -1", "tick 18446744073709551616", "replace U",
    "Replace",
]
NINE = (
    "drop A\nhold B\nC < 1e\nclear D\nallow E\ndeny F\ndone G 0\nconnect H 0 00:11:22:33:44:55\n# I\ndrop A\n"
)
# What is printed of it: of each act of a phone that is not connected, and of the calls for one.
PRINTED = "A refused 1\nB refused 1\nC refused 1\nD refused 1\nfault 4\nfault 4\nG refused 1\nA refused 1\n"

NOTHING = "line 1 says nothing that a rows file may say"
# Rows, and the number and the text of their fault.
ROWS = [
    ("1 c0:00:00:00:00:01 7 1\n1 c0:00:00:00:00:01 7 1\n", 2, "line 2 says what an earlier one has said"),
    ("\n1 c0:00:00:00:00:0a 7 1\n1 C0:00:00:00:00:0A 7 2\nbad", 2, "line 3 says what an earlier one has said"),
    ("! 1 c0:00:00:00:00:01\n! 1 c0:00:00:00:00:01\n", 2, "line 2 says what an earlier one has said"),
    ("\n\nbad\n! \n", 1, "line 3 says nothing that a rows file may say"),
    ("1 c0:00:00:00:00:01 07 1\n", 1, NOTHING),
    ("1 c0:00:00:00:00:01 +7 1\n", 1, NOTHING),
    ("1 c0:00:00:00:00:01 0 1\n", 1, NOTHING),
    ("1 c0:00:00:00:00:01 65536 1\n", 1, NOTHING),
    ("1 c0:00:00:00:00:01 7 0\n", 1, NOTHING),
    ("1 c0:00:00:00:00:01 7 4\n", 1, NOTHING),
    ("1 c0:00:00:00:00:01 7 01\n", 1, NOTHING),
    ("1 c0:00:00:00:00:01 7 1\r\n", 1, NOTHING),
    ("1 c0:00:00:00:00:01 7 1 \n", 1, NOTHING),
    ("1 c0:00:00:00:00:01  7 1\n", 1, NOTHING),
    (" 1 c0:00:00:00:00:01 7 1\n", 1, NOTHING),
    ("1 c0:00:00:00:00:01 7\n", 1, NOTHING),
    ("2 c0:00:00:00:00:01 7 1\n", 1, NOTHING),
    ("1 c0:00:00:00:00:1 7 1\n", 1, NOTHING),
    ("! 2 c0:00:00:00:00:01\n", 1, NOTHING),
    ("! 1 c0:00:00:00:00:01 7\n", 1, NOTHING),
    ("!1 c0:00:00:00:00:01\n", 1, NOTHING),
    (" \n", 1, NOTHING),
]
# Rows, a table, and the rows that are written behind a script without lines.
FITTED = [
    ("1 c0:00:00:00:00:01 7 1\n", "door", "1 c0:00:00:00:00:01 7 1\n"),
    ("1 c0:00:00:00:00:01 8 1\n", "door", ""),
    ("1 c0:00:00:00:00:01 7 2\n", "door", ""),
    ("1 c0:00:00:00:00:01 7 3\n", "door", ""),
    ("1 c0:00:00:00:00:09 7 1\n", "door", ""),
    ("0 c0:00:00:00:00:01 7 1\n", "door", ""),
    (
        "1 c0:00:00:00:00:01 11 1\n1 c0:00:00:00:00:01 7 1\n0 00:11:22:33:44:55 11 1\n",
        "door",
        "0 00:11:22:33:44:55 11 1\n1 c0:00:00:00:00:01 7 1\n1 c0:00:00:00:00:01 11 1\n",
    ),
    ("1 c0:00:00:00:00:01 4 2\n! 1 c0:00:00:00:00:01\n", "porch", "1 c0:00:00:00:00:01 4 2\n! 1 c0:00:00:00:00:01\n"),
    ("! 1 c0:00:00:00:00:01\n1 c0:00:00:00:00:01 8 1\n", "porch", "1 c0:00:00:00:00:01 8 1\n"),
    ("! 1 c0:00:00:00:00:01\n", "porch", ""),
    ("! 1 c0:00:00:00:00:09\n", "porch", ""),
    ("1 c0:00:00:00:00:01 4 2\n! 1 c0:00:00:00:00:01\n", "door", ""),
]


@pytest.fixture
def run(program, folder):
    """Runs a script of an empty table, perhaps with a next one. Returns the status, the output and the fault."""

    def runs(script, has_next=True):
        for name, text in (("table", "service = []"), ("keys", ""), ("script", script)):
            with open(f"{folder}/{name}", "w", encoding="utf-8", newline="") as file:
                file.write(text)
        words = [program, "run", "table", "keys", "script"] + (["--next", "table"] if has_next else [])
        ran = subprocess.run(words, cwd=folder, capture_output=True, text=True)
        return ran.returncode, ran.stdout, ran.stderr

    return runs


def bad(line):
    return 1, "", f"script: line {line}\n"


@pytest.mark.parametrize(("script", "line"), SCRIPTS)
def test_a_bad_script(run, script, line):
    assert run(script) == bad(line)


@pytest.mark.parametrize("line", BAD_LINES)
def test_a_bad_line(run, line):
    assert run(line) == bad(1)


def test_no_next_table(run):
    """Without a next table, a replacement is a bad line."""
    assert run("tick 1\nreplace\nbad", has_next=False) == bad(2)
    assert run("tick 1\nreplace\nbad") == bad(3)


def test_names(run):
    """A script has at most eight names: a ninth is a fault of its line."""
    assert run(NINE) == (0, PRINTED, "")
    assert run(NINE + "hold I\n") == bad(11)


@pytest.mark.parametrize("begin", ["U < ", "update 1 "])
def test_a_long_payload(run, begin):
    """A line has at most 517 octets of payload."""
    assert run(begin + 517 * "a5")[0] == 0
    assert run(begin + 518 * "a5") == bad(1)


@pytest.mark.parametrize(("rows", "number", "text"), ROWS)
def test_a_fault_of_rows(program, folder, rows, number, text):
    for name, it in (("table", "service = []"), ("keys", ""), ("rows", rows)):
        with open(f"{folder}/{name}", "w", encoding="utf-8", newline="") as file:
            file.write(it)
    words = [program, "show", "table", "keys", "--rows", "rows"]
    ran = subprocess.run(words, cwd=folder, capture_output=True, text=True)
    assert (ran.returncode, ran.stdout, ran.stderr) == (1, "", f"rows: fault {number}: {text}\n")


@pytest.mark.parametrize(("rows", "table", "written"), FITTED)
def test_rows_that_fit(program, folder, rows, table, written):
    for name, it in (("script", ""), ("rows", rows)):
        with open(f"{folder}/{name}", "w", encoding="utf-8") as file:
            file.write(it)
    words = [program, "run", f"{ROOT}/examples/{table}.toml", f"{ROOT}/examples/keys.toml", "script", "--rows", "rows"]
    ran = subprocess.run(words, cwd=folder, capture_output=True, text=True)
    assert (ran.returncode, ran.stdout, ran.stderr) == (0, "", "")
    assert text_of(f"{folder}/rows") == written
