"""Tries `gatt_shell run`: what each script of cases/runs.txt prints, long scripts, and refused files."""

import re
import shutil
import subprocess

import pytest

from parties.places import ROOT, text_of

EXAMPLES = ("door.toml", "bell.toml", "porch.toml", "porch_next.toml", "post.toml", "keys.toml")
# What the program prints of a line: a packet, the end of a connection, a refusal, a fault, or a notice.
PRINTED = re.compile(r"\w+ (?:>[56]? |ended |refused )|fault |\+ ")
STRANGER = "connect U 1 c0:00:00:00:00:0a\n"
SUBSCRIBED = "1 c0:00:00:00:00:01 7 1\n"
GUEST = "connect P 1 c0:00:00:00:00:01\nencrypt P 0101010101010101 257\n"


def cases():
    text = text_of(f"{ROOT}/tests/cases/runs.txt")
    for name, words, lines in re.findall(r"(?ms)^=== (.*?)\n\$ (.*?)\n(.*?)(?=\n=== |\Z)", text):
        yield pytest.param(words.split(), f"{lines.strip()}\n" if lines.strip() else "", id=name)


@pytest.fixture
def run(program, folder):
    """Runs a script by the words of a command, with files. Returns the status, the output and the fault."""
    for name in EXAMPLES:
        shutil.copy(f"{ROOT}/examples/{name}", folder)

    def runs(words, script, **files):
        for name, text in {"script": script, **files}.items():
            with open(f"{folder}/{name}", "w", encoding="utf-8") as file:
                file.write(text)
        ran = subprocess.run([program, *words], cwd=folder, capture_output=True, text=True)
        return ran.returncode, ran.stdout, ran.stderr

    return runs


@pytest.mark.parametrize(("words", "echoed"), cases())
def test_a_script(run, words, echoed):
    lines = echoed.splitlines(keepends=True)
    script = "".join(it for it in lines if not PRINTED.match(it))
    printed = "".join(it for it in lines if PRINTED.match(it))
    assert run([*words, "--echo"], script) == (0, echoed, "")
    # The last line needs no line feed.
    assert run(words, script.removesuffix("\n")) == (0, printed, "")


def test_an_echo_ends_each_line(run):
    """A line precedes its notices, the last line may lack its line feed, and what is behind it is not printed."""
    words = ["run", "door.toml", "keys.toml", "script", "--echo", "--notices"]
    echoed = f"{STRANGER}+ connected 64 1 c0:00:00:00:00:0a\ndrop U\n+ disconnected 64\n"
    assert run(words, f"{STRANGER}drop U") == (0, echoed, "")
    assert run(words, f"{STRANGER}drop U\n\n# That was all.\n") == (0, echoed, "")


SIGN = """
[[service]]
uuid = "fff0"
[[service.characteristic]]
uuid = "fff1"
value = ""
max = 512
properties = ["read", "notify"]
"""
EIGHT = "4142434445464748"
NAMES = "ABCD"
# The longest value, of which the last two octets are read.
LONGEST = (
    f"{STRANGER}update 21 {64 * EIGHT}\nU < 0c1500fe01\nU < 0c15000002\nU < 0c15000102\n",
    "U > 0d4748\nU > 0d\nU > 010c150007\n",
)
# Each of four phones is notified of the prefix of a value, in ten packets.
MANY_PACKETS = (
    "".join(f"connect {it} 1 c0:00:00:00:00:0{it.lower()}\n{it} < 02f700\n{it} < 1204000100\n" for it in NAMES)
    + f"update 3 {64 * EIGHT}\n",
    "".join(f"{it} > 03f700\n{it} > 13\n" for it in NAMES)
    + "".join(f"{it} > 1b0300{30 * EIGHT}41424344\n" for it in NAMES),
)
# Two packets of 27 octets may be unacknowledged. A response with 49 octets of a value fills them, and one octet more
# waits for a third packet.
PACKET_ROOM = (
    f"{STRANGER}U < 02f700\nupdate 21 {49 * '41'}\nhold U\nU < 0a1500\nupdate 99 01\ndone U 2\n"
    f"update 21 {50 * '41'}\nU < 0a1500\nupdate 99 01\ndone U 1\nupdate 99 01\n",
    f"U > 03f700\nU > 0b{49 * '41'}\nfault 1\nfault 1\nU > 0b{50 * '41'}\nfault 1\n",
)


@pytest.mark.parametrize(
    ("table", "script", "printed"),
    [
        ("door.toml", STRANGER + 1_000 * "U < 0a0300\n", 1_000 * "U > 0b4c6f636b\n"),
        ("door.toml", *LONGEST),
        ("sign.toml", *MANY_PACKETS),
        ("door.toml", *PACKET_ROOM),
    ],
    ids=["a thousand lines", "the longest value", "many packets", "packets of 27 octets"],
)
def test_a_long_script(run, table, script, printed):
    assert run(["run", table, "keys.toml", "script"], script, **{"sign.toml": SIGN}) == (0, printed, "")


READS = f"{STRANGER}U < 0a0300\n"
# Rows, a script, what it prints, and the rows afterwards: those of phones with keys, new and old.
WRITTEN = [
    (SUBSCRIBED, READS, "U > 0b4c6f636b\n", SUBSCRIBED),
    ("", f"{GUEST}P < 1207000100\n", "P > 13\n", SUBSCRIBED),
    (SUBSCRIBED, f"{GUEST}update 6 41\nP < 1207000000\n", "P > 1b060041\nP > 13\n", ""),
    (
        "1 c0:00:00:00:00:01 11 1\n0 00:11:22:33:44:55 7 1\n",
        "connect Q 0 00:11:22:33:44:55\nencrypt Q 0202020202020202 514\nQ < 120b000100\n",
        "Q > 13\n",
        "0 00:11:22:33:44:55 7 1\n0 00:11:22:33:44:55 11 1\n1 c0:00:00:00:00:01 11 1\n",
    ),
]
WITH_ROWS = ["run", "door.toml", "keys.toml", "script", "--rows", "rows"]


@pytest.mark.parametrize(("rows", "script", "printed", "written"), WRITTEN)
def test_rows(run, folder, rows, script, printed, written):
    assert run(WITH_ROWS, script, rows=rows) == (0, printed, "")
    assert text_of(f"{folder}/rows") == written


def test_rows_of_a_replacement(run, folder):
    """A client with a key is not connected at a replacement. Its row has a mark until it confirms the indication."""
    words = ["run", "porch.toml", "keys.toml", "script", "--next", "porch_next.toml", "--rows", "rows"]
    row = "1 c0:00:00:00:00:01 4 2\n"
    rows = ""
    for script, printed, written in (
        (f"{GUEST}P < 1204000200\ndrop P\nreplace\n", "P > 13\n", f"{row}! 1 c0:00:00:00:00:01\n"),
        (GUEST, "P > 1d030000000000\n", f"{row}! 1 c0:00:00:00:00:01\n"),
        (f"{GUEST}P < 1e\n", "P > 1d030000000000\n", row),
        (GUEST, "", row),
    ):
        assert run(words, script, rows=rows) == (0, printed, "")
        rows = text_of(f"{folder}/rows")
        assert rows == written


# All files are bad at first, and then one after the other is corrected.
BAD = {
    "table": ("service", "table: fault 1"),
    "next": ("", "next: fault 2"),
    "keys": ("bell = 1", "keys: fault 9"),
    "rows": ("1 c0:00:00:00:00:01 07 1\n", "rows: fault 1"),
    "script": ("replace\nreplace \n", "script: line 2"),
}


def test_files_are_refused_in_turn(run, folder):
    good = {it: text_of(f"{ROOT}/examples/{name}.toml")
            for it, name in (("table", "porch"), ("next", "porch_next"), ("keys", "keys"))}
    files = {name: text for name, (text, _) in BAD.items()}
    for name, (_, fault) in BAD.items():
        words = ["run", "table", "keys", "script", "--next", "next", "--rows", "rows"]
        assert run(words, **files) == (1, "", f"{fault}\n")
        assert text_of(f"{folder}/rows") == files["rows"]
        files[name] = good.get(name, SUBSCRIBED)


# Scripts with a bad line, and its number, which counts blank lines and comments.
BAD_LINES = [
    (f"{STRANGER}\n# A phone.\nU < 0a030\n", 4),
    ("connect U 2 c0:00:00:00:00:0a\n", 1),
    ("U < 0a0300\nreplace\n", 2),
    ("tick -1\n", 1),
    ("connect connect 1 c0:00:00:00:00:0a\n", 1),
]


@pytest.mark.parametrize(("script", "line"), BAD_LINES)
def test_a_bad_line(run, folder, script, line):
    """Nothing is printed of a script with a bad line, and the rows stay."""
    assert run(WITH_ROWS, script, rows=SUBSCRIBED) == (1, "", f"script: line {line}\n")
    assert text_of(f"{folder}/rows") == SUBSCRIBED


def test_runs_one_after_the_other(run, folder):
    """The rows file is made at the end of a run, but not if a file is refused."""
    for script, answer, rows in (
        ("", (0, "", ""), ""),
        (f"{GUEST}P < 1207000100\n", (0, "P > 13\n", ""), SUBSCRIBED),
        ("replace\n", (1, "", "script: line 1\n"), SUBSCRIBED),
        ("# Nothing happens.\n", (0, "", ""), SUBSCRIBED),
    ):
        assert run(WITH_ROWS, script) == answer
        assert text_of(f"{folder}/rows") == rows
