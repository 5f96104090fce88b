"""Tries tables that differ from an example by an edit: what `show` prints of the name of the door, which types a
service has, which handle Service Changed has, and which configurations a replacement keeps.
"""

import subprocess

import pytest

from parties.places import ROOT, text_of

# Lines for the name of the door, and what is shown of its value: its length, and what a client may do.
NAMES = [
    ('properties = ["read"]', "0-4   read"),
    ('properties = ["command"]', "0-4   command"),
    ('properties = ["write"]', "0-4   write"),
    ('properties = ["notify"]', "0-4   notify"),
    ('properties = ["indicate"]', "0-4   indicate"),
    ("properties = []\nfixed = true", "4     nothing"),
    ("properties = []\nmax = 4\nfixed = true", "4     nothing"),
    ("properties = []\nmax = 4", "0-4   nothing"),
    ("properties = []\nmax = 512", "0-512 nothing"),
    ("properties = []\nread = {}", "0-4   nothing"),
    ('properties = ["read"]\nread = { key_size = 7 }', "0-4   read if encrypted, key of 7"),
    ('properties = ["read"]\nread = { key_size = 16 }', "0-4   read if encrypted, key of 16"),
    ('properties = ["read", "write", "read"]', "0-4   read write"),
    ('properties = ["notify", "indicate"]\nconfig = {}', "0-4   notify indicate"),
]

LONG = "12345678-9abc-def0-0123-456789abcdef"
LONG_OCTETS = "efcdab8967452301f0debc9a78563412"
# Texts of types, and the octets of a service of this type; None if the table is refused.
TYPES = [
    ("180f", "0f18"),
    ("180F", "0f18"),
    ("0000180f-0000-1000-8000-00805f9b34fb", "0f18"),
    ("2800", "0028"),
    ("00000000-0000-1000-8000-00805f9b34fb", "0000"),
    (LONG, LONG_OCTETS),
    (LONG.replace("-", "").upper(), LONG_OCTETS),
    ("18zz", None),
    ("180", None),
    ("0000180f", None),
    (LONG[:-1], None),
    ("", None),
]

CHANGES = 'uuid = "1801"'
NEXT = '[[service]]\nuuid = "fff0"'
TWICE = """\
[[service.characteristic]]
uuid = "2a05"
value = "00000000"
fixed = true
properties = ["indicate"]
"""
# An example with an edit, and the handle of its Service Changed value, or None if it has none.
CHANGERS = [
    ("door", "", "", None),
    ("bell", "", "", None),
    ("porch", "", "", 3),
    ("porch", CHANGES, 'uuid = "00001801-0000-1000-8000-00805f9b34fb"', 3),
    ("porch", CHANGES, 'uuid = "00001801-0000-1000-8000-00805f9b34fc"', None),
    ("porch", CHANGES, 'uuid = "1800"', None),
    ("porch", CHANGES, f"{CHANGES}\nsecondary = true", None),
    ("porch", CHANGES, f'{CHANGES}\n[[service]]\nuuid = "fff7"', None),
    ("porch", CHANGES, f'{CHANGES}\n[[service]]\nuuid = "fff7"\nsecondary = true', None),
    ("porch", CHANGES, f'uuid = "fff7"\n[[service]]\n{CHANGES}', 4),
    ("porch", '"2a05"', '"2a06"', None),
    ("porch", '"2a05"', '"00002a05-0000-1000-8000-00805f9b34fb"', 3),
    ("porch", '["indicate"]', '["read", "notify", "indicate"]', 3),
    ("porch", '["indicate"]', '["read", "notify"]', None),
    ("porch", "fixed = true", "max = 4", None),
    ("porch", '"00000000"', '"000000"', None),
    ("porch", NEXT, f"{TWICE}\n{NEXT}", 3),
]

NO_INDICATION = ('"notify", "indicate"', '"notify"')
# A table, the one that replaces it, an edit of that, and configurations: handle, bits, and what is read behind the
# replacement. The service with Service Changed is before those of the door and the bell: its handles are 1 to 4.
KEPT = [
    ("porch", "porch_next", ("", ""), [(4, 2, "0200"), (8, 1, "0000")]),
    ("porch", "porch", ("", ""), [(8, 1, "0100"), (4, 2, "0200")]),
    ("bell", "bell", NO_INDICATION, [(8, 3, "0000"), (11, 2, "0200")]),
    ("bell", "bell", NO_INDICATION, [(8, 1, "0100"), (11, 2, "0200")]),
    ("bell", "bell", NO_INDICATION, [(8, 2, "0000")]),
    ("bell", "bell", ('"fff9"', '"0000fff9-0000-1000-8000-00805f9b34fb"'), [(8, 3, "0300"), (11, 2, "0200")]),
    ("bell", "bell", ('"fff9"', '"fff7"'), [(8, 3, "0000"), (11, 2, "0200")]),
    ("bell", "door", ("", ""), [(8, 1, "0f18"), (11, 2, "0000")]),
    ("door", "bell", ("", ""), [(11, 1, "0000"), (15, 1, None)]),
]


def example(name):
    return text_of(f"{ROOT}/examples/{name}.toml")


def handle(number):
    """A handle as a PDU has it."""
    return number.to_bytes(2, "little").hex()


@pytest.fixture
def play(program, folder):
    """Plays lines of a script with a table and the next one. Returns the status, the lines printed and the fault."""

    def plays(table, following, lines):
        for name, text in (("table", table), ("next", following), ("script", "\n".join(lines))):
            with open(f"{folder}/{name}", "w", encoding="utf-8") as file:
                file.write(text)
        words = ["run", "table", f"{ROOT}/examples/keys.toml", "script", "--next", "next"]
        ran = subprocess.run([program, *words], cwd=folder, capture_output=True, text=True)
        return ran.returncode, ran.stdout.splitlines(), ran.stderr

    return plays


@pytest.mark.parametrize(("lines", "shown"), NAMES)
def test_a_name(program, folder, lines, shown):
    with open(f"{folder}/table", "w", encoding="utf-8") as file:
        file.write(example("door").replace('properties = ["read"]', lines, 1))
    ran = subprocess.run([program, "show", "table", "--attributes"], cwd=folder, capture_output=True, text=True)
    assert (ran.returncode, ran.stderr) == (0, "")
    assert ran.stdout.splitlines()[2] == f"   3  value           2a00 Device Name                          {shown}"


@pytest.mark.parametrize(("text", "octets"), TYPES)
def test_a_type(play, text, octets):
    table = f'[[service]]\nuuid = "{text}"\n'
    printed = play(table, "service = []", ["connect U 1 c0:00:00:00:00:0a", "U < 0a0100"])
    assert printed == ((1, [], "table: fault 3\n") if octets is None else (0, [f"U > 0b{octets}"], ""))


@pytest.mark.parametrize(("name", "old", "new", "changer"), CHANGERS)
def test_service_changed(play, name, old, new, changer):
    """A client that asked for Service Changed is indicated of it. A table without it is not replaced."""
    table = example(name).replace(old, new, 1) if old else example(name)
    lines, printed = ["connect U 1 c0:00:00:00:00:0a", "replace"], ["fault 7"]
    if changer:
        lines.insert(1, f"U < 12{handle(changer + 1)}0200")
        printed = ["U > 13", f"U > 1d{handle(changer)}0100ffff"]
    assert play(table, table, lines) == (0, printed, "")


@pytest.mark.parametrize(("name", "following", "edit", "rows"), KEPT)
def test_kept_configurations(play, name, following, edit, rows):
    changes = example("porch").split(NEXT)[0]

    def table(name):
        return example(name) if name.startswith("porch") else changes + example(name).replace("[0]", "[1]")

    lines = ["connect P 1 c0:00:00:00:00:01", f"encrypt P {8 * '01'} 257"]
    lines += [f"P < 12{handle(number)}{bits:02x}00" for number, bits, _ in rows]
    asked = [f"P < 0a{handle(number)}" for number, _, _ in rows]
    answers = [f"P > 0b{octets}" if octets else f"P > 010a{handle(number)}01" for number, _, octets in rows]
    changed = ["P > 1d03000100ffff"] if any(number == 4 for number, _, _ in rows) else []
    printed = [*(["P > 13"] * len(rows)), *changed, *answers]
    assert play(table(name), table(following).replace(*edit, 1), [*lines, "replace", *asked]) == (0, printed, "")
