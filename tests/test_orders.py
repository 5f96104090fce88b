"""Tries `gatt_shell run`: two phones in several orders of their lines, and the order of octets of their names.

In the first test no phone writes a value that the other reads or is notified of. In the second, the writes that a
phone sees keep their places among its own lines.
"""

import re
import subprocess

import pytest

from parties.places import ROOT, text_of

EXAMPLE_KEYS = f"{ROOT}/examples/keys.toml"
# A level (handles 3 and 9) and a note (6 and 12) for each of the phones U and V.
TABLE = """
[[service]]
uuid = "fff0"
[[service.characteristic]]
uuid = "fff1"
value = "00"
fixed = true
properties = ["read", "write", "notify", "indicate"]
[[service.characteristic]]
uuid = "fff4"
value = ""
max = 64
properties = ["read", "write"]

[[service]]
uuid = "fff0"
[[service.characteristic]]
uuid = "fff1"
value = "00"
fixed = true
properties = ["read", "write", "notify"]
[[service.characteristic]]
uuid = "fff4"
value = ""
max = 64
properties = ["read", "write"]
write = { encrypted = true }
"""
LINES_OF_U = """\
connect U 1 c0:00:00:00:00:0a
U < 021900
U < 1204000100
U < 0a0300
U < 12030001
U < 1606000000000102030405060708090a0b0c0d0e0f10111213
U < 160600140018191a1b1c1d
U < 1801
U < 0a0600
U < 0c06001800
update 3 02
U < 1204000200
update 3 03
update 3 04
U < 0a0300
U < 1e
U < 1e
"""
# The packets to U. With an ATT_MTU of 25, a Read Response has 24 octets. U is not notified of its own writes. The last
# level waits for the confirmation of the indication before it.
SENT_TO_U = """\
U > 03f700
U > 13
U > 0b00
U > 13
U > 1706000000000102030405060708090a0b0c0d0e0f10111213
U > 170600140018191a1b1c1d
U > 19
U > 0b000102030405060708090a0b0c0d0e0f1011121318191a1b
U > 0d1c1d
U > 1b030002
U > 13
U > 1d030003
U > 0b04
U > 1d030004
"""
# V also prepares and cancels a write of U's note. Its write of U's level is refused.
LINES_OF_V = """\
connect V 1 c0:00:00:00:00:01
encrypt V 0101010101010101 257
V < 026400
V < 120a000100
V < 12090007
V < 160600000074776f
V < 1800
V < 160c0000006f6e65
V < 160c0003002074776f
V < 1801
V < 0a0c00
V < 12030000ff
update 9 08
hold V
V < 0a0900
V < 0e09000c00
V < 0a0a00
update 9 09
done V 2
drop V
"""
# While packets are held, two are sent and the others wait.
SENT_TO_V = """\
V > 03f700
V > 13
V > 13
V > 170600000074776f
V > 19
V > 170c0000006f6e65
V > 170c0003002074776f
V > 19
V > 0b6f6e652074776f
V > 011203000d
V > 1b090008
V > 0b08
V > 0f086f6e652074776f
V > 0b0100
V > 1b090009
"""
# The phone whose line comes next: 17 lines of U, and 20 of V.
ORDERS = [
    "UUUUUUUUUUUUUUUUUVVVVVVVVVVVVVVVVVVVV",
    "VVVVVVVVVVVVVVVVVVVVUUUUUUUUUUUUUUUUU",
    "VUVUVVUVUUVUVUVVUVUUVUVVUUVVVUVUVUUVV",
]
# All lines that U can see. It is notified of both writes of its level.
SEEN_BY_U = """\
connect U 1 c0:00:00:00:00:0a
U < 021900
U < 1204000100
V < 12030005
U < 0a0300
update 3 06
V < 12030007
"""
# The lines of V that U cannot see.
UNSEEN_BY_U = """\
connect V 1 c0:00:00:00:00:01
V < 026400
V < 0a0900
V < 160600000061
V < 1800
V < 0aff00
"""
NOTIFIED_U = """\
U > 03f700
U > 13
U > 1b030005
U > 0b05
U > 1b030006
U > 1b030007
"""
# The lines that U sees keep their order.
UNSEEN_ORDERS = ["VVVVVVUUUUUUU", "UUUVUVUVUVVVU", "VUVUVUVUVVUUU"]

# A table of keys with more than the example has.
KEYS = """
[[key]]
address = "c0:00:00:00:00:01"
kind = "random"
rand = "0101010101010101"
ediv = 257
ltk = "00112233445566778899aabbccddeeff"
size = 16
authenticated = false

[[key]]
address = "00:11:22:33:44:55"
kind = "public"
rand = "0202020202020202"
ediv = 514
ltk = "ffeeddccbbaa99887766554433221100"
size = 16
authenticated = true

[[key]]
address = "00:11:22:33:44:55"
kind = "public"
rand = "0303030303030303"
ediv = 771
ltk = "a1a2a3a4a5a6a7000000000000000000"
size = 7
authenticated = true

[[key]]
address = "c1:02:03:04:05:06"
kind = "random"
rand = "1112131415161718"
ediv = 4660
ltk = "0f0e0d0c0b0a09080706050403020100"
size = 16
authenticated = false

[[key]]
address = "00:11:22:33:44:55"
kind = "public"
rand = "0102030405060708"
ediv = 258
ltk = "000102030405060708090a0b0c0d0e0f"
size = 16
authenticated = false
"""
# There is a key only in this order and for this type of address. Otherwise a read reports insufficient encryption only
# if the peer has another key.
NONE_HAS_A_KEY = (
    """\
connect A 0 00:11:22:33:44:55
encrypt A 0807060504030201 258
A < 0a0a00
connect B 0 00:11:22:33:44:55
encrypt B 0102030405060708 513
B < 0a0a00
connect C 1 00:11:22:33:44:55
encrypt C 0102030405060708 258
C < 0a0a00
connect D 0 55:44:33:22:11:00
encrypt D 0102030405060708 258
D < 0a0a00
""",
    """\
A > 010a0a000f
B > 010a0a000f
C > 010a0a0005
D > 010a0a0005
""",
    "",
)
BOTH_HAVE_A_KEY = (
    """\
connect P 1 c1:02:03:04:05:06
encrypt P 1112131415161718 4660
P < 0a0a00
P < 1207000100
connect Q 0 00:11:22:33:44:55
encrypt Q 0102030405060708 258
Q < 0a0a00
Q < 120b000100
""",
    """\
P > 0b00
P > 13
Q > 0b00
Q > 13
""",
    "0 00:11:22:33:44:55 11 1\n1 c1:02:03:04:05:06 7 1\n",
)


@pytest.fixture
def run(program, folder):
    """Runs a script with a table and keys. Returns what it prints, and the rows that it leaves."""

    def runs(table, keys, script):
        for name, text in (("table", table), ("keys", keys), ("script", script), ("rows", "")):
            with open(f"{folder}/{name}", "w", encoding="utf-8") as file:
                file.write(text)
        words = [program, "run", "table", "keys", "script", "--rows", "rows"]
        ran = subprocess.run(words, cwd=folder, capture_output=True, text=True)
        assert (ran.returncode, ran.stderr) == (0, "")
        with open(f"{folder}/rows", encoding="ascii") as file:
            return ran.stdout, file.read()

    return runs


def interleaved(order, **lines):
    """The lines of two phones, in an order of their names."""
    left = {name: iter(text.splitlines()) for name, text in lines.items()}
    script = "".join(f"{next(left[name])}\n" for name in order)
    assert [list(it) for it in left.values()] == [[], []]
    return script


def sent_to(name, printed):
    """What is printed of a phone."""
    return "".join(re.findall(rf"(?m)^{name} .*\n", printed))


@pytest.mark.parametrize("order", ORDERS)
def test_each_receives_the_same_in_each_order(run, order):
    printed, _ = run(TABLE, text_of(EXAMPLE_KEYS), interleaved(order, U=LINES_OF_U, V=LINES_OF_V))
    assert (sent_to("U", printed), sent_to("V", printed)) == (SENT_TO_U, SENT_TO_V)


@pytest.mark.parametrize("order", UNSEEN_ORDERS)
def test_who_sees_the_same_receives_the_same(run, order):
    printed, _ = run(TABLE, text_of(EXAMPLE_KEYS), interleaved(order, U=SEEN_BY_U, V=UNSEEN_BY_U))
    assert sent_to("U", printed) == NOTIFIED_U


@pytest.mark.parametrize(("script", "printed", "rows"), [NONE_HAS_A_KEY, BOTH_HAVE_A_KEY], ids=["none", "both"])
def test_a_line_names_the_key(run, script, printed, rows):
    """Addresses, random numbers and diversifiers are other ones if their octets are reversed."""
    assert run(text_of(f"{ROOT}/examples/door.toml"), KEYS, script) == (printed, rows)
