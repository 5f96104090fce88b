"""Checks that slips of an author of a table are named, without any key file: by `compare` or `expect`, or both.

Each slip is an edit of the table of the door, whose meaning examples/door.expect.toml states.
"""

import subprocess

import pytest

from parties import ROOT, text_of

DOOR = text_of(f"{ROOT}/examples/door.toml")
MEANT = f"{ROOT}/examples/door.expect.toml"

CODE = "{ authenticated = true, key_size = 16, authorized = true }"
LOCK = 'properties = ["read", "write", "notify"]\nread = { encrypted = true }\nwrite = { authenticated = true }\n'
SENSORS = (
    'value = "02"\nproperties = ["read"]\nread = { encrypted = true }\n',
    'value = "03"\nproperties = ["read"]\n',
)

# A text of the table and another one in its place, the section of `compare` that names it, and whether `expect`
# finds a difference.
SLIPS = {
    "no rule for writing the lock": ("write = { authenticated = true }\n", "", "Opened", True),
    "no rule for reading the lock": (LOCK, LOCK.replace("read = { encrypted = true }\n", ""), "Opened", True),
    "no rule for subscribing to the lock": ("config = { encrypted = true }\n", "", "Opened", True),
    "a rule for subscribing that asks for nothing": (
        "config = { encrypted = true }", "config = { encrypted = false }", "Opened", True,
    ),
    "a subscription that asks for more than reading": (
        "config = { encrypted = true }", "config = { authenticated = true }", "Closed", True,
    ),
    "the rules for reading and writing the lock exchanged": (
        LOCK, LOCK.replace("read = ", "x = ").replace("write = ", "read = ").replace("x = ", "write = "),
        "Opened", True,
    ),
    "a lock for keys that are not authenticated": (
        "write = { authenticated = true }", "write = { encrypted = true }", "Opened", True,
    ),
    "a need of the lock that is false": (
        "write = { authenticated = true }", "write = { encrypted = true, authenticated = false }", "Opened", True,
    ),
    "a lock by commands": ('["read", "write", "notify"]', '["read", "write", "command", "notify"]', "Opened", True),
    "an indication in place of a notification": (
        '["read", "write", "notify"]', '["read", "write", "indicate"]', "Opened", True,
    ),
    "no key size for reading the code": (
        f"read = {CODE}", f"read = {CODE.replace('key_size = 16, ', '')}", "Opened", True,
    ),
    "no key size for writing the code": (
        f"write = {CODE}", f"write = {CODE.replace('key_size = 16, ', '')}", "Opened", True,
    ),
    "a key size of the code that is one too small": (
        f"write = {CODE}", f"write = {CODE.replace('16', '15')}", "Opened", True,
    ),
    "no authorization for reading the code": (
        f"read = {CODE}", f"read = {CODE.replace(', authorized = true', '')}", "Opened", True,
    ),
    "no authorization for writing the code": (
        f"write = {CODE}", f"write = {CODE.replace(', authorized = true', '')}", "Opened", True,
    ),
    "a code that is notified": (
        'max = 8\nproperties = ["read", "write"]', 'max = 8\nproperties = ["read", "write", "notify"]', "Opened", True,
    ),
    "a private sensor that everybody reads": (
        SENSORS[0], SENSORS[0].replace("read = { encrypted = true }\n", ""), "Opened", True,
    ),
    "the rules of two sensors exchanged": (
        SENSORS[1], SENSORS[1] + "read = { encrypted = true }\n", "Closed", True,
    ),
    "a door for a key that nobody has yet": (
        'uuid = "fff4"', 'uuid = "fff9"\nvalue = "00"\nproperties = ["write"]\nwrite = { secure = true }\n'
        '[[service.characteristic]]\nuuid = "fff4"', "Opened", True,
    ),
    "a battery that asks for a key": (
        'fixed = true\nproperties = ["read", "notify"]\n',
        'fixed = true\nproperties = ["read", "notify"]\nread = { encrypted = true }\n', "Closed", True,
    ),
    "a message that nobody writes": ('["read", "write", "command"]', '["read"]', "Closed", True),
    "a descriptor that everybody writes": (
        'max = 512\nproperties = ["read", "write", "command"]\n',
        'max = 512\nproperties = ["read", "write", "command"]\n[[service.characteristic.descriptor]]\nuuid = "2901"\n'
        'value = "00"\nproperties = ["read", "write"]\n', "Opened", True,
    ),
    "another type of the code": ('uuid = "fff2"', 'uuid = "fff5"', "Opened", True),
    # The right of no client is another one, so `compare` names nothing.
    "another service": ('uuid = "180f"', 'uuid = "180a"', None, True),
    # These change no right, so no expectation speaks of them.
    "a code of any length": ("max = 8", "max = 512", "Changed", False),
    "an empty code at first": ('value = "31323334"', 'value = ""', "Changed", False),
    "a lock of no fixed length": (
        'uuid = "fff1"\nvalue = "00"\nfixed = true', 'uuid = "fff1"\nvalue = "00"', "Changed", False,
    ),
    "a secondary service": ('uuid = "180f"', 'uuid = "180f"\nsecondary = true', "Changed", False),
}


@pytest.mark.parametrize("slip", SLIPS)
def test_a_slip_is_named(program, folder, slip):
    before, after, section, is_found = SLIPS[slip]
    assert DOOR.count(before) == 1
    path = f"{folder}/slip.toml"
    with open(path, "w", encoding="utf-8") as file:
        file.write(DOOR.replace(before, after))
    compared = subprocess.run([program, "compare", f"{ROOT}/examples/door.toml", path], capture_output=True, text=True)
    assert (compared.returncode, compared.stderr) == (3 if section == "Opened" else 0, "")
    if section is not None:
        assert f"{section}:" in compared.stdout.splitlines()
    expected = subprocess.run([program, "expect", path, MEANT], capture_output=True, text=True)
    assert (expected.returncode, expected.stderr) == (3 if is_found else 0, "")


def test_no_slip(program):
    door = f"{ROOT}/examples/door.toml"
    compared = subprocess.run([program, "compare", door, door], capture_output=True, text=True)
    assert compared.returncode == 0
    assert not any(f"{it}:" in compared.stdout.splitlines() for it in ("Opened", "Closed", "Changed", "New", "Gone"))
    assert subprocess.run([program, "expect", door, MEANT], capture_output=True).returncode == 0
