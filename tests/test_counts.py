"""Tries table and key files: what `gatt_shell check` counts in them, or the number of the first fault."""

import subprocess

import pytest

from parties.places import ROOT, text_of

DOOR = text_of(f"{ROOT}/examples/door.toml")
KEYS = text_of(f"{ROOT}/examples/keys.toml")
SECURE_KEY = text_of(f"{ROOT}/examples/secure_key.toml")

# A table, and the number of its attributes or of its fault.
TABLES = [
    ("service = []", 0, None),
    ("", None, 2),
    ("service", None, 1),
    ("service = ", None, 1),
    ("other = 1", None, 11),
    ("service = 1", None, 11),
    ("[[service]]", None, 2),
    ("[[service]]\nuuid = 1", None, 11),
    ('[[service]]\nuuid = "18"', None, 3),
    ('[[service]]\nuuid = "1800"\ninclude = [0]', None, 9),
    ('[[service]]\nuuid = "1800"\ninclude = [-1]', None, 9),
]
NAME = 'value = "4c6f636b"\nproperties = ["read"]\n'
# A change of the door, and the number of its attributes or of its fault then.
CHANGES = [
    ("", "", 21, None),
    ('"1800"', "1", None, 11),
    ('"1800"', '"1800"\ninclude = [5]', None, 9),
    ('"180f"', '"18zz"', None, 3),
    ('"180f"', '"180f"\ninclude = [0]', 22, None),
    ('"180f"', '"180f"\ninclude = [1]', None, 9),
    ('"2a00"', '"12345678-9abc-def0-0123-456789abcdef"', 21, None),
    ('"2a00"', '"2800"', None, 3),
    ('"2a00"', '"2801"', None, 3),
    ('"2a00"', '"2802"', None, 3),
    ('"2a00"', '"2803"', None, 3),
    ('"2a00"', '"2902"', None, 3),
    ('"2a00"', '"00002902-0000-1000-8000-00805f9b34fb"', None, 3),
    ('"4c6f636b"', '"4c6f636"', None, 4),
    ('"4c6f636b"', '"4c6f63zz"', None, 4),
    ('"4c6f636b"', '" 4c6f636b"', None, 4),
    ('"4c6f636b"', '"0x4c"', None, 4),
    ('"4c6f636b"', '"4c6f636b"\nmax = 3', None, 5),
    ('"4c6f636b"', '"4c6f636b"\nmax = 513', None, 5),
    ('"4c6f636b"', '"4c6f636b"\nmax = -1', None, 5),
    ('"4c6f636b"', '"4c6f636b"\nmax = 65540', None, 5),
    ('"4c6f636b"', '"4c6f636b"\nmax = 5\nfixed = true', None, 5),
    ('"4c6f636b"', '"4c6f636b"\nmax = "8"', None, 11),
    ('"4c6f636b"', '"4c6f636b"\nread = { key_size = 6 }', None, 6),
    ('"4c6f636b"', '"4c6f636b"\nread = { key_size = 17 }', None, 6),
    ('"4c6f636b"', '"4c6f636b"\nread = { key_size = -7 }', None, 6),
    ('"4c6f636b"', '"4c6f636b"\nread = { key_size = 263 }', None, 6),
    ('"4c6f636b"', '"4c6f636b"\nread = { other = 6 }', None, 6),
    ('"4c6f636b"', '"4c6f636b"\nconfig = {}', None, 7),
    ('"4c6f636b"', '"4c6f636b"\nother = 1', None, 11),
    (NAME, 'value = "4c6f636b"\n', None, 2),
    (NAME, 'properties = ["read"]\n', None, 2),
    (NAME, 'value = "4c6f636b"\nproperties = ["Read"]\n', None, 7),
    (NAME, 'value = "4c6f636b"\nproperties = ["broadcast"]\n', None, 7),
    (NAME, 'value = "4c6f636b"\nproperties = [""]\n', None, 7),
    (
        NAME,
        'value = "4c6f636b"\nproperties = ["read"]\n[[service.characteristic.descriptor]]\nuuid = "2902"\n',
        None, 3,
    ),
    ('properties = ["read", "write", "command"]\n', "", None, 2),
]
EMPTY = '[[service]]\nuuid = "1800"\n'
SERVICE = '[[service]]\nuuid = "180f"\n'
NOTIFYING = """\
[[service.characteristic]]
uuid = "2a19"
value = ""
properties = ["notify"]
"""
LARGE = """\
[[service.characteristic]]
uuid = "2a19"
value = ""
max = 512
properties = []
"""
LONG = (
    '[[service]]\nuuid = "180f"\n'
    '[[service.characteristic]]\nuuid = "2a19"\nproperties = []\nvalue = "'
)
# A text, a piece that is repeated so many times, the end, and the number of attributes or of the fault.
REPEATED = [
    ("", EMPTY, 1024, "", 1024, None),
    ("", EMPTY, 1025, "", None, 8),
    (SERVICE, NOTIFYING, 64, "", 193, None),
    (SERVICE, NOTIFYING, 65, "", None, 8),
    (SERVICE, LARGE, 128, "", 257, None),
    (SERVICE, LARGE, 129, "", None, 8),
    (LONG, "aa", 512, '"\n', 3, None),
    (LONG, "aa", 512, 'a"\n', None, 4),
    (LONG, "aa", 513, '"\n', None, 5),
]

# Keys, and the number of them or of their fault.
KEY_FILES = [
    ("", 0, None),
    ("key = []", 0, None),
    ("key = ", None, 1),
    ("[[key]]", None, 2),
    ("other = 1", None, 9),
    ("key = 1", None, 9),
    ("key = [1]", None, 9),
]
# The lines of a key.
LINES = [
    '[[key]]\n',
    'address = "c0:00:00:00:00:01"\n',
    'kind = "random"\n',
    'rand = "0101010101010101"\n',
    'ediv = 257\n',
    'ltk = "00112233445566778899aabbccddeeff"\n',
    'size = 16\n',
    'authenticated = false\n',
]
# A line in the place of another.
KEY_LINES = [
    (1, "", None, 2),
    (1, 'address = "c0:00:00:00:01"\n', None, 3),
    (1, 'address = "c0-00-00-00-00-01"\n', None, 3),
    (1, 'address = "C0:00:00:00:00:0A"\n', 1, None),
    (1, 'address = "g0:00:00:00:00:01"\n', None, 3),
    (2, 'kind = "static"\n', None, 3),
    (2, 'kind = "public"\n', 1, None),
    (2, "kind = 1\n", None, 9),
    (3, 'rand = "010101010101010"\n', None, 4),
    (3, 'rand = "010101010101010101"\n', None, 4),
    (4, "", None, 2),
    (4, "ediv = 65536\n", None, 9),
    (4, "ediv = 65535\n", 1, None),
    (4, "ediv = -1\n", None, 9),
    (5, "", None, 2),
    (5, 'ltk = "00112233445566778899aabbccddeef"\n', None, 4),
    (6, "size = 6\n", None, 5),
    (6, "size = 7\n", 1, None),
    (6, "size = 17\n", None, 5),
    (6, "size = 272\n", None, 5),
    (7, "", None, 2),
    (7, "authenticated = 1\n", None, 9),
    (7, "authenticated = true\nother = 1\n", None, 9),
    (7, "authenticated = true\nsecure = false\n", 1, None),
    (7, "authenticated = true\nsecure = true\n", None, 10),
]
# The same behind the door's keys, of which the first is the key of these lines.
KEY_LINES_AGAIN = [
    (0, "[[key]]\n", None, 6),
    (4, "ediv = 65536\n", None, 9),
    (6, "size = 6\n", None, 5),
    (6, "size = 6\nsecure = true\n", None, 5),
    (6, "size = 16\nsecure = true\n", None, 10),
]
# A change of a key of LE Secure Connections.
SECURE_CHANGES = [
    ("", "", 1, None),
    ("ediv = 0", "ediv = 1", None, 10),
    ('"0000000000000000"', '"0000000000000001"', None, 10),
]


@pytest.fixture
def check(program, folder):
    """Checks a table and keys. Returns what is counted, or the fault."""

    def checked(table, keys):
        for name, text in (("table", table), ("keys", keys)):
            with open(f"{folder}/{name}", "w", encoding="utf-8") as file:
                file.write(text)
        ran = subprocess.run([program, "check", "table", "keys"], cwd=folder, capture_output=True, text=True)
        assert ran.returncode == (1 if ran.stderr else 0) and not (ran.stderr and ran.stdout)
        return ran.stdout + ran.stderr

    return checked


def of_table(count, fault):
    return f"attributes {count}\nkeys 0\n" if fault is None else f"table: fault {fault}\n"


def of_keys(count, fault):
    return f"attributes 0\nkeys {count}\n" if fault is None else f"keys: fault {fault}\n"


@pytest.mark.parametrize(("table", "count", "fault"), TABLES)
def test_a_table(check, table, count, fault):
    assert check(table, "") == of_table(count, fault)


@pytest.mark.parametrize(("old", "new", "count", "fault"), CHANGES)
def test_a_change_of_the_door(check, old, new, count, fault):
    assert check(DOOR.replace(old, new, 1), "") == of_table(count, fault)


@pytest.mark.parametrize(("begin", "piece", "times", "end", "count", "fault"), REPEATED)
def test_a_repeated_piece(check, begin, piece, times, end, count, fault):
    assert check(begin + times * piece + end, "") == of_table(count, fault)


@pytest.mark.parametrize(("keys", "count", "fault"), [*KEY_FILES, (KEYS, 3, None)])
def test_keys(check, keys, count, fault):
    assert check("service = []", keys) == of_keys(count, fault)


def with_line(place, line):
    """A key with another line."""
    return "".join(line if at == place else it for at, it in enumerate(LINES))


@pytest.mark.parametrize(("place", "line", "count", "fault"), KEY_LINES)
def test_a_line_of_a_key(check, place, line, count, fault):
    assert check("service = []", with_line(place, line)) == of_keys(count, fault)


@pytest.mark.parametrize(("place", "line", "count", "fault"), KEY_LINES_AGAIN)
def test_a_line_of_a_repeated_key(check, place, line, count, fault):
    assert check("service = []", KEYS + with_line(place, line)) == of_keys(count, fault)


@pytest.mark.parametrize(("old", "new", "count", "fault"), SECURE_CHANGES)
def test_a_secure_key(check, old, new, count, fault):
    assert check("service = []", SECURE_KEY.replace(old, new, 1)) == of_keys(count, fault)


@pytest.mark.parametrize(("more", "count", "fault"), [("", 64, None), ("[[key]]\nother = 1\n", None, 7)])
def test_many_keys(check, more, count, fault):
    keys = "".join(with_line(4, f"ediv = {it}\n") for it in range(64))
    assert check("service = []", keys + more) == of_keys(count, fault)
