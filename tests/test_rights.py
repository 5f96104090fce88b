"""Checks what `gatt_shell show` says of rights: the matrix, its columns and widths, and what to look at twice.

The rights are proved to be those of the server; here stand whole outputs, and slips of an author that the
program has to name.
"""

import os
import subprocess
import time

import pytest

from parties import ROOT, late, text_of

DOOR = text_of(f"{ROOT}/examples/door.toml")
KEYS = text_of(f"{ROOT}/examples/keys.toml")

# A key of LE Secure Connections, and one that is neither authenticated nor long.
SECURE = """[[key]]
address = "c0:00:00:00:00:02"
kind = "random"
rand = "0000000000000000"
ediv = 0
ltk = "0f0e0d0c0b0a09080706050403020100"
size = 16
authenticated = true
secure = true
"""
WEAK = """[[key]]
address = "00:11:22:33:44:66"
kind = "public"
rand = "0404040404040404"
ediv = 4
ltk = "a1a2a3a4a5a6a7000000000000000000"
size = 7
authenticated = false
"""

SHORT_KEY = "   10  a key of 7 may write it: `key_size = 16` in `write` would exclude it"
LASTING = "   10  who subscribed once is sent it as long as `read` permits: `config` needs more"
EASY = "   10  to subscribe needs less than to be sent it: compare `config` and `read`"
OPEN = "   21  everybody may write it: `write` has no rule"
SHORTEST = "       a key of 7, authenticated is shorter than all others"

NO_CHANGED = "       no Service Changed (1801, 2a05): after another table clients use old handles"

# Slips in the table of the door: a text, another one in its place, and what to look at twice besides OPEN,
# NO_CHANGED and SHORTEST.
LAST = """uuid = "fff4"
value = ""
max = 512
properties = ["read", "write", "command"]
"""
FIRST_FFF3 = 'value = "01"\nproperties = ["read"]\n'
SLIPS = {
    "no rule for writing": (
        "write = { authenticated = true }\n", "",
        [
            "   10  everybody may write it: `write` has no rule",
            "   10  to write it needs less than to read it: compare `write` and `read`",
        ],
    ),
    "a rule for writing without its property": (
        FIRST_FFF3, FIRST_FFF3 + "write = { authenticated = true }\n",
        [SHORT_KEY, "   15  `write` has no effect: there is no property write or command"],
    ),
    "a rule for reading without its property": (
        FIRST_FFF3, 'value = "01"\nproperties = ["write"]\nread = { encrypted = true }\n',
        [
            SHORT_KEY,
            "   15  everybody may write it: `write` has no rule",
            "   15  `read` has no effect: there is no property read, notify or indicate",
        ],
    ),
    "a short key where a long one was meant": (
        "write = { authenticated = true, key_size = 16, authorized = true }",
        "write = { authenticated = true, key_size = 7, authorized = true }",
        [
            SHORT_KEY,
            "   13  a key of 7 may write it: `key_size = 16` in `write` would exclude it",
            "   13  to write it needs less than to read it: compare `write` and `read`",
        ],
    ),
    "a subscription that no key permits": (
        "config = { encrypted = true }", "config = { secure = true }",
        [SHORT_KEY, "   10  nobody with a key of the file may subscribe to it and be sent it", LASTING],
    ),
    "a subscription that asks for more than reading": (
        "config = { encrypted = true }", "config = { authenticated = true }",
        [SHORT_KEY, LASTING],
    ),
    "a subscription without a rule": ("config = { encrypted = true }", "", [SHORT_KEY, EASY]),
    "a rule for a subscription that asks for nothing": (
        "config = { encrypted = true }", "config = { encrypted = false }", [SHORT_KEY, EASY],
    ),
    "a subscription by an address that can be forged": (
        "config = { encrypted = true }", "config = { authorized = true }",
        [
            SHORT_KEY, LASTING, EASY,
            "   10  `authorized` without `encrypted`: a stranger can use the address of another",
        ],
    ),
    "no property": (
        'value = "02"\nproperties = ["read"]\nread = { encrypted = true }\n', 'value = "02"\nproperties = []\n',
        [SHORT_KEY, "   17  nobody may use it: `properties` is empty"],
    ),
    "the rules for reading and writing exchanged": (
        "read = { encrypted = true }\nwrite = { authenticated = true }\n",
        "read = { authenticated = true }\nwrite = { encrypted = true }\n",
        ["   10  to write it needs less than to read it: compare `write` and `read`", EASY],
    ),
    "an authorization without encryption": (
        FIRST_FFF3, FIRST_FFF3 + "read = { authorized = true }\n",
        [SHORT_KEY, "   15  `authorized` without `encrypted`: a stranger can use the address of another"],
    ),
    "a rule that no key meets": (
        FIRST_FFF3, FIRST_FFF3 + "read = { secure = true }\n",
        [SHORT_KEY, "   15  nobody with a key of the key file may use it"],
    ),
    "a service that is not finished": (
        LAST, LAST + '\n[[service]]\nuuid = "fffa"\n',
        [SHORT_KEY, "   22  a service without characteristics"],
    ),
}

# The value Service Changed, the last one of a table.
CHANGER = """[[service]]
uuid = "1801"
[[service.characteristic]]
uuid = "2a05"
value = "00000000"
fixed = true
properties = ["indicate"]
"""

# Values, and what is shown of them.
VALUES = {
    "": "empty",
    "41": "41",
    "4142": "4142",
    "414243": '"ABC"',
    "41424344454647484950": '"ABCDEFGHIP"',
    "4142434445464748495051": '"ABCDEFGH"..',
    "414222": "414222",
    "41425c": "41425c",
    "41427f": "41427f",
    "000102030405": "000102030405",
    "00010203040506": "0001020304..",
}

# A table of 112 services with 498 attributes, and 20 keys of four kinds.
LARGE = "".join(
    f"""[[service]]
uuid = "{0xA000 + number:04x}"
[[service.characteristic]]
uuid = "{0xB000 + number:04x}"
value = "00"
{'properties = ["read", "write", "notify"]' if number < 50 else 'properties = ["read", "write"]'}
read = {{ encrypted = true }}
write = {{ authenticated = true, key_size = 16 }}
{"config = { encrypted = true }" if number < 50 else ""}
[[service.characteristic.descriptor]]
uuid = "2901"
value = "6261"
properties = ["read"]
"""
    for number in range(112)
)
MANY_KEYS = "".join(
    f"""[[key]]
address = "00:00:00:00:01:{number:02x}"
kind = "public"
rand = "{number + 1:016x}"
ediv = {number}
ltk = "{number:032x}"
size = {16 if number % 2 else 7}
authenticated = {str(number % 4 < 2).lower()}
"""
    for number in range(20)
)


@pytest.fixture
def show(program, folder):
    """Shows texts of a table and of keys, with further words. Returns the lines of the output."""

    def shown(table, keys, *words):
        paths = []
        for name, text in (("table.toml", table), ("keys.toml", keys)):
            if text is not None:
                paths.append(f"{folder}/{name}")
                with open(paths[-1], "w", encoding="utf-8") as file:
                    file.write(text)
                os.chmod(paths[-1], 0o600)
        ran = subprocess.run([program, "show", *paths, *words], capture_output=True, text=True)
        assert (ran.returncode, ran.stderr) == (0, "")
        return ran.stdout.splitlines()

    return shown


def findings_in(lines):
    if lines[-1] == "Nothing to look at twice.":
        return []
    return lines[lines.index("Look twice:") + 1 :]


def rows_in(lines):
    """The rows of a matrix of one block, without its header and the headings."""
    return [line for line in lines[1 : lines.index("")] if line.startswith(" ")]


def kinds_in(lines):
    """The letters of the legend, with the kinds of keys of each."""
    kinds = {}
    for line in lines[: [*lines, "Look twice:"].index("Look twice:")]:
        if line[1:3] == "  " and line[0] != " " and line[3:].startswith(("no key", "key of")):
            kinds.setdefault(line[0], []).append(line[3:].partition(":")[0])
    return kinds


def cells_in(lines):
    """For each kind of key its cells in a matrix of one block."""
    names = lines[0].split()[3:]
    rows = [row.split()[-len(names) :] for row in rows_in(lines)]
    kinds = kinds_in(lines)
    assert list(kinds) == names
    return {kind: [row[at] for row in rows] for at, name in enumerate(names) for kind in kinds[name]}


@pytest.mark.parametrize("name", ["door", "bell", "porch"])
def test_an_example(program, name):
    words = [program, "show", f"{ROOT}/examples/{name}.toml", f"{ROOT}/examples/keys.toml"]
    assert subprocess.run(words, capture_output=True, text=True).stdout == text_of(f"{ROOT}/examples/{name}.shown")


def test_the_rights_of_the_door(show):
    everybody, encrypted, long_key, short_key = zip(*(row.split()[-4:] for row in rows_in(show(DOOR, KEYS))))
    assert everybody == ("r", "rns", ".", ".", "r", ".", "r", "rwc")
    assert encrypted == ("r", "rns", "rns", ".", "r", "r", "r", "rwc")
    assert long_key == ("r", "rns", "rwns", "(rw)", "r", "r", "r", "rwc")
    assert short_key == ("r", "rns", "rwns", ".", "r", "r", "r", "rwc")


@pytest.mark.parametrize("slip", SLIPS)
def test_a_slip_is_named(show, slip):
    before, after, findings = SLIPS[slip]
    assert DOOR.count(before) == 1
    assert sorted(findings_in(show(DOOR.replace(before, after), KEYS))) == sorted(
        [*findings, OPEN, NO_CHANGED, SHORTEST]
    )


def test_a_table_without_findings(show):
    table = DOOR.replace(LAST, "").replace("[[service.characteristic]]\n\n", "").rstrip()
    table = table.removesuffix("[[service.characteristic]]") + CHANGER
    assert show(table, KEYS.rpartition("[[key]]")[0])[-1] == "Nothing to look at twice."


def test_a_key_that_permits_nothing(show):
    table = DOOR.replace("encrypted = true", "authenticated = true")
    assert "       a key of 16 permits no more than no key" in findings_in(show(table, KEYS))


def test_no_key_makes_a_difference(show):
    bell = text_of(f"{ROOT}/examples/bell.toml")
    lines = show(bell, KEYS)
    assert findings_in(lines) == [NO_CHANGED, "       no key makes a difference to this table", SHORTEST]
    assert (lines[0].split()[3:], list(kinds_in(lines))) == (["A"], ["A"])


def test_without_a_key_file_there_is_one_column(show):
    lines = show(DOOR, None)
    assert lines[0].split() == ["size", "at", "first", "A"]
    assert "A  no key: everybody, and each peer until its link is encrypted" in lines
    # Nobody is known who might use the other values, and that is no finding.
    assert findings_in(lines) == [OPEN, NO_CHANGED]


def test_the_shortest_key_is_named(show):
    keys = KEYS + WEAK.replace("authenticated = false", "authenticated = true").replace("size = 7", "size = 10")
    keys = keys.replace("a1a2a3a4a5a6a7000000000000000000", "a1a2a3a4a5a6a7a8a9aa000000000000")
    other_order = "[[key]]".join(["", *reversed(keys.split("[[key]]")[1:])])
    assert SHORT_KEY in findings_in(show(DOOR, keys))
    assert SHORT_KEY in findings_in(show(DOOR, other_order))


@pytest.mark.parametrize("first, is_private", [("3f", True), ("7f", True), ("bf", True), ("c0", False), ("ff", False)])
def test_a_key_for_a_private_address(show, first, is_private):
    found = f"       random {first}:00:00:00:00:02 is a private address, which its client changes"
    lines = findings_in(show(DOOR, KEYS + SECURE.replace("c0:00", f"{first}:00")))
    assert (found in lines, len(lines)) == (is_private, 4 + is_private)
    public = SECURE.replace("c0:00", f"{first}:00").replace('"random"', '"public"')
    assert len(findings_in(show(DOOR, KEYS + public))) == 4


# A right to be sent a value is the need of `read`, and one to subscribe that of `config`.
FOLLOWED = """[[service]]
uuid = "fff0"
[[service.characteristic]]
uuid = "fff1"
value = "00"
fixed = true
properties = ["read", "notify"]
"""


@pytest.mark.parametrize(
    "rules, cells",
    [
        ("", ["rns"] * 4),
        ("config = { authorized = true }\n", ["rn(s)"] * 4),
        ("config = { authenticated = true, key_size = 16 }\n", ["rn", "rn", "rns", "rn"]),
        ("read = { encrypted = true }\n", ["s", "rns", "rns", "rns"]),
        ("read = { authorized = true }\nconfig = { encrypted = true }\n", ["(rn)", "s(rn)", "s(rn)", "s(rn)"]),
    ],
)
def test_to_be_sent_a_value_and_to_subscribe(show, rules, cells):
    kinds = ["no key", "key of 16", "key of 16, authenticated", "key of 7, authenticated"]
    assert cells_in(show(FOLLOWED + rules, KEYS)) == {kind: [cell] for kind, cell in zip(kinds, cells)}


def test_keys_of_one_kind_share_a_column(show):
    table = DOOR.replace(FIRST_FFF3, FIRST_FFF3 + "read = { secure = true }\n")
    table = table.replace("config = { encrypted = true }", "config = { key_size = 16 }")
    lines = show(table, KEYS + SECURE + WEAK + WEAK.replace("44:66", "44:77").replace("0404", "0505"))
    assert lines[0].split()[-6:] == ["A", "B", "C", "D", "E", "F"]
    legend = lines[lines.index("F  key of 7") :]
    assert legend[:3] == ["F  key of 7", "     public 00:11:22:33:44:66", "     public 00:11:22:33:44:77"]
    assert "E  key of 16, authenticated, secure connections" in lines


def test_kinds_with_equal_rights_share_a_column(show):
    middle = WEAK.replace("44:66", "44:55").replace("0404", "0606").replace("size = 7", "size = 15")
    middle = middle.replace("a1a2a3a4a5a6a7000000000000000000", "a1a2a3a4a5a6a7a8a9aaabacadaeaf00")
    lines = show(DOOR, KEYS + SECURE + WEAK + middle)
    assert lines[0].split()[3:] == ["A", "B", "C", "D"]
    begin = lines.index("A  no key: everybody, and each peer until its link is encrypted")
    assert lines[begin + 1 : lines.index("Look twice:") - 1] == [
        "B  key of 16",
        "     random c0:00:00:00:00:01",
        "B  key of 7",
        "     public 00:11:22:33:44:66",
        "B  key of 15",
        "     public 00:11:22:33:44:55 (also C) (also D)",
        "C  key of 16, authenticated",
        "     public 00:11:22:33:44:55 (also B) (also D)",
        "C  key of 16, authenticated, secure connections",
        "     random c0:00:00:00:00:02",
        "D  key of 7, authenticated",
        "     public 00:11:22:33:44:55 (also B) (also C)",
    ]


@pytest.mark.parametrize(
    ("rule", "columns"), [("", 4), ("read = { secure = true }\n", 5), ("read = { secure = true, authorized = true }\n", 5)]
)
def test_one_row_that_differs_separates_columns(show, rule, columns):
    table = DOOR.replace(FIRST_FFF3, FIRST_FFF3 + rule)
    assert show(table, KEYS + SECURE)[0].split()[3:] == list("ABCDE"[:columns])


def test_one_peer_with_two_keys(show):
    lines = show(DOOR, KEYS)
    assert "     public 00:11:22:33:44:55 (also D)" in lines
    assert "     public 00:11:22:33:44:55 (also C)" in lines


def test_one_peer_with_two_keys_of_a_kind(show):
    lines = show(DOOR, KEYS + WEAK + WEAK.replace("0404", "0505"))
    assert lines.count("     public 00:11:22:33:44:66") == 1


@pytest.mark.parametrize(
    "keys, found",
    [
        (KEYS, SHORTEST),
        (KEYS + WEAK, None),
        (SECURE, None),
        (WEAK, None),
        (WEAK + WEAK.replace("44:66", "44:77"), None),
        (SECURE + WEAK, "       a key of 7 is shorter than all others"),
        (WEAK + SECURE, "       a key of 7 is shorter than all others"),
        (SECURE + WEAK + WEAK.replace("44:66", "44:77"), "       a key of 7 is shorter than all others"),
    ],
)
def test_a_key_that_is_shorter_than_all_others(show, keys, found):
    lines = [line for line in findings_in(show(DOOR, keys)) if "shorter" in line]
    assert lines == ([found] if found else [])


def test_a_secure_key_that_is_not_authenticated(show):
    keys = SECURE.replace("authenticated = true", "authenticated = false")
    table = DOOR.replace(FIRST_FFF3, FIRST_FFF3 + "read = { secure = true }\n")
    assert "   15  nobody with a key of the key file may use it" in findings_in(show(table, keys))


@pytest.mark.parametrize("width", [1, 40, 60, 80, 132, 65_535])
def test_a_width(show, width):
    table = DOOR.replace(FIRST_FFF3, FIRST_FFF3 + "read = { secure = true }\n")
    lines = show(table, KEYS + SECURE, "--width", str(width))
    blocks = "\n".join(lines).split("\n\nr read")[0].split("\n\n")
    names = [block.split("\n")[0].split()[3:] for block in blocks]
    assert sum(names, []) == ["A", "B", "C", "D", "E"]
    assert all(len(block.split("\n")) == len(blocks[0].split("\n")) for block in blocks)
    if width >= 60:
        assert max(map(len, "\n".join(blocks).split("\n"))) <= width


@pytest.mark.parametrize("width", ["0", "-1", "65536", "wide", ""])
def test_a_wrong_width(program, width):
    words = [program, "show", f"{ROOT}/examples/door.toml", f"--width={width}"]
    ran = subprocess.run(words, capture_output=True, text=True)
    assert (ran.returncode, ran.stdout) == (64, "")
    assert "width" in ran.stderr


def test_attributes(show):
    lines = show(DOOR, KEYS, "--attributes")
    assert len(lines) == 21
    assert lines[0] == "   1  service         1800 Generic Access"
    assert lines[9].endswith("1     read notify if encrypted; write if authenticated")


def test_values_and_names(show):
    table = """[[service]]
uuid = "12345678-9abc-def0-0123-456789abcdef"
"""
    for value in VALUES:
        table += f'[[service.characteristic]]\nuuid = "fff1"\nvalue = "{value}"\nproperties = ["read"]\n'
    assert [row.split()[3] for row in rows_in(show(table, None))] == list(VALUES.values())


LONG_UUID = "12345678-9abc-def0-0123-456789abcdef"


@pytest.mark.parametrize(
    "keys, rule, width, is_whole",
    [
        (None, "", 80, True),
        (None, "", 63, True),
        (None, "", 62, False),
        (KEYS, "", 63, True),
        (KEYS, "read = { encrypted = true }\n", 66, True),
        (KEYS, "read = { encrypted = true }\n", 65, False),
        (KEYS, "read = { key_size = 16, authorized = true }\n", 70, True),
        (KEYS, "read = { key_size = 16, authorized = true }\n", 69, False),
    ],
)
def test_a_long_uuid_is_whole_if_there_is_space(show, keys, rule, width, is_whole):
    table = f'[[service]]\nuuid = "180f"\n[[service.characteristic]]\nuuid = "{LONG_UUID}"\n'
    table += 'value = "00"\nproperties = ["read"]\n' + rule
    (row,) = rows_in(show(table, keys, "--width", str(width)))
    assert row.split()[1] == (LONG_UUID if is_whole else "12345678-9abc..-456789abcdef")


def test_a_long_name_is_whole_if_there_is_space(show):
    table = text_of(f"{ROOT}/examples/door.toml") + """[[service.characteristic.descriptor]]
uuid = "2901"
value = "00"
properties = ["read"]
"""
    whole = "2901 Characteristic User Description"
    assert any(whole in row for row in rows_in(show(table, KEYS, "--width", "84")))
    assert any("2901 Characteristic User D.." in row for row in rows_in(show(table, KEYS, "--width", "83")))


def test_a_long_uuid_is_cut_in_its_middle(show):
    table = ""
    for end in ("ef", "f0"):
        table += '[[service]]\nuuid = "180f"\n[[service.characteristic]]\nvalue = "00"\nproperties = ["read"]\n'
        table += f'uuid = "12345678-9abc-def0-0123-456789abcd{end}"\n'
    assert [row.split()[1] for row in rows_in(show(table, None, "--width", "60"))] == [
        "12345678-9abc..-456789abcdef", "12345678-9abc..-456789abcdf0",
    ]


def test_a_large_table(show):
    begun = time.monotonic()
    lines = show(LARGE, MANY_KEYS, "--width", "120")
    assert time.monotonic() - begun < late(10)
    assert lines[0].split()[3:] == ["A", "B", "C"]
    assert [len(kinds) for kinds in kinds_in(lines).values()] == [1, 3, 1]
    assert len(rows_in(lines)) == 224
