"""Tries table files with one fault each: what `gatt_shell show` prints of the fault, and where it is."""

import subprocess

import pytest

from parties.places import ROOT, text_of

# Texts with faults in the keys of the file and of services.
SERVICES = [
    (
        "service = ",
        "line 1, column 11: invalid value, expected a string, number, boolean, date-time, array or inline table",
    ),
    ('service = []\na = "é" b', "line 2, column 9: unexpected key or value, expected newline, `#`"),
    ("", "service: the key is missing"),
    ("services = []", "services: there is no such key"),
    ("service = 1", "service: it has to be an array of tables; write [[service]]"),
    ('[service]\nuuid = "1800"', "service: it has to be an array of tables; write [[service]]"),
    (
        '[[service]]\nuuid = "1800"\n[[characteristic]]\nuuid = "2a00"',
        "characteristic: there is no such key; write [[service.characteristic]]",
    ),
    (
        '[[service]]\nuuid = "1800"\n[[service.descriptor]]\nuuid = "2901"',
        "service 1, descriptor: there is no such key; write [[service.characteristic.descriptor]]",
    ),
    ('service = [{ uuid = "1800" }, 1]', "service 2: it has to be a table"),
    ('[[service]]\nuuid = "18zz"', "service 1, uuid: this is no UUID, or this UUID is not allowed here"),
    ("[[service]]\nuuid = 1", "service 1, uuid: it has to be a string"),
    (
        """\
[[service]]
uuid = "1800"
[[service]]
uuid = "1801"
include = [0, 1]""",
        "service 2, include 2: an include of a service that is not before it",
    ),
]

# Types that the server adds by itself.
CONFIGURATION = "the server adds 2902 for notify and indicate; write its rules as config = { .. }"
DECLARATION = "the server adds the declarations by itself"
ADDED = [
    ("2902", CONFIGURATION),
    ("00002902-0000-1000-8000-00805F9B34FB", CONFIGURATION),
    ("2800", DECLARATION),
    ("2803", DECLARATION),
    ("00002801-0000-1000-8000-00805f9b34fb", DECLARATION),
    ("10002902-0000-1000-8000-00805f9b34fb", ""),
    ("29020", "this is no UUID, or this UUID is not allowed here"),
    ("00002902", "this is no UUID, or this UUID is not allowed here"),
    ("\u00e9\u00e92902", "this is no UUID, or this UUID is not allowed here"),
]

# Names with what may be the digits of a key, and without.
NAMES = [
    ("ffeeddccbbaa99887766554433221100", "[hexadecimal digits]"),
    ("FFEEDDCCBBAA9988", "[hexadecimal digits]"),
    ('"ff:ee:dd:cc:bb:aa:99:88"', "[hexadecimal digits]"),
    ('"ltk ffeeddcc bbaa9988 77665544 33221100"', "[hexadecimal digits]"),
    ("x_ffeeddccbbaa9988776655443322110g", "[hexadecimal digits]"),
    ("ffeeddccbbaa998", "ffeeddccbbaa998"),
    ("deadbeef_authenticated", "deadbeef_authenticated"),
]

# Texts with faults in characteristics and descriptors.
CHARACTERISTICS = [
    (
        """\
[[service]]
uuid = "1800"
[[service]]
uuid = "180f"
[[service.characteristic]]
uuid = "2a19"
value = "64"
properties = ["read", "notfy", "write"]
""",
        'service 2, characteristic 1, properties "notfy": it is none of read, command, write, notify, indicate',
    ),
    (
        """\
[[service]]
uuid = "180f"
[[service.characteristic]]
uuid = "2a19"
value = "64"
properties = ["read"]
config = { encrypted = true }
""",
        "service 1, characteristic 1, config: there is nothing to configure without notify or indicate",
    ),
    (
        """\
[[service]]
uuid = "180f"
[[service.characteristic]]
uuid = "2a19"
value = "64"
properties = ["read"]
[[service.characteristic]]
uuid = "2a1a"
value = "64"
propertise = ["read"]
""",
        "service 1, characteristic 2, propertise: there is no such key",
    ),
    (
        """\
[[service]]
uuid = "180f"
[[service.characteristic]]
uuid = "2a19"
properties = ["read"]
""",
        "service 1, characteristic 1, value: the key is missing",
    ),
    (
        """\
[[service]]
uuid = "180f"
[[service.characteristic]]
uuid = "2a19"
value = "4c6"
properties = ["read"]
""",
        "service 1, characteristic 1, value: a value is not an even number of hexadecimal digits",
    ),
    (
        """\
[[service]]
uuid = "180f"
[[service.characteristic]]
uuid = "2a19"
value = "01020304"
max = 3
properties = ["read"]
""",
        "service 1, characteristic 1, max: it has to be from 4 to 512",
    ),
    (
        """\
[[service]]
uuid = "180f"
[[service.characteristic]]
uuid = "2a19"
value = "64"
properties = ["read", "notify"]
read = { key_size = 6 }
write = { key_size = 6 }
config = { key_size = 6 }
""",
        "service 1, characteristic 1, read, key_size: it has to be from 7 to 16",
    ),
    (
        """\
[[service]]
uuid = "180f"
[[service.characteristic]]
uuid = "2a19"
value = "64"
properties = ["read", "notify"]
write = { encrypt = true }
config = { key_size = 6 }
""",
        "service 1, characteristic 1, write, encrypt: there is no such key",
    ),
    (
        """\
[[service]]
uuid = "180f"
[[service.characteristic]]
uuid = "2a19"
value = "64"
properties = ["read", "notify"]
config = { key_size = 17 }
""",
        "service 1, characteristic 1, config, key_size: it has to be from 7 to 16",
    ),
    (
        """\
[[service]]
uuid = "180f"
[[service.characteristic]]
uuid = "2a19"
value = "64"
properties = ["read"]
[[service.characteristic.descriptor]]
uuid = "2901"
value = "62"
properties = ["read"]
[[service.characteristic.descriptor]]
uuid = "2902"
value = "62"
properties = ["read"]
[[service]]
uuid = "zz"
""",
        "service 1, characteristic 1, descriptor 2, uuid: the server adds 2902 for notify and indicate; "
        "write its rules as config = { .. }",
    ),
    (
        """\
[[service]]
uuid = "1800"
include = ["0"]""",
        "service 1, include: it has to be an array of integers",
    ),
    (
        """\
[[service]]
uuid = "1800"
include = 0""",
        "service 1, include: it has to be an array of integers",
    ),
    (
        """\
[[service]]
uuid = "1800"
characteristic = [1]""",
        "service 1, characteristic 1: it has to be a table",
    ),
    ("[[service]]", "service 1, uuid: the key is missing"),
    (
        r"""
[[service]]
uuid = "180f"
[[service.characteristic]]
uuid = "2a19"
value = "64"
properties = ["read", "\u001b\u202e\n"]
""",
        'service 1, characteristic 1, properties "\\u{1b}\\u{202e}\\n": it is none of read, command, write, notify, indicate',
    ),
    (
        """\
[[service]]
uuid = "180f"
[[service.characteristic]]
uuid = "2a19"
value = "64"
properties = ["read"]
[[service.characteristic.descriptor]]
uuid = "2901"
value = "62"
properties = ["read", "notify"]
""",
        'service 1, characteristic 1, descriptor 1, properties "notify": it is none of read, write',
    ),
]

# A table up to the end of a correct characteristic, and lines with a fault of it.
CHARACTERISTIC = """
[[service]]
uuid = "180f"
[[service.characteristic]]
uuid = "2a19"
value = "64"
properties = ["read"]
"""
FIELDS = [
    ("write = { encrypted = 1 }", "write, encrypted: it has to be a boolean"),
    ("read = 1", "read: it has to be a table"),
    ("read = { key_size = 6, more = 1 }", "read, key_size: it has to be from 7 to 16"),
    ('write = { key_size = "7" }', "write, key_size: it has to be an integer"),
    ("max = 513", "max: it has to be from 1 to 512"),
    ("max = -1", "max: it has to be from 1 to 512"),
    ("fixed = true\nmax = 2", "max: it has to be 1"),
    ("max = 2.5", "max: it has to be an integer"),
    ('fixed = "no"', "fixed: it has to be a boolean"),
    (
        "descriptor = {}",
        "descriptor: it has to be an array of tables; write [[service.characteristic.descriptor]]",
    ),
    ('"\\u001b[2J" = 1', "\\u{1b}[2J: there is no such key"),
    ('"\\u009b\\u202e" = 1', "\\u{9b}\\u{202e}: there is no such key"),
    ('"a\\nb\\\\" = 1', "a\\nb\\\\: there is no such key"),
    ('"é" = 1', "\\u{e9}: there is no such key"),
    ('write = { "\\u001b" = 1 }', "write, \\u{1b}: there is no such key"),
    (
        "a234567g9b12345g789c1234g6789d123g56789e12g456789f1g3456789 = 1",
        "a234567g9b12345g789c1234g6789d123g56789e12g456789f1g3456789: there is no such key",
    ),
    (
        "a234567g9b12345g789c1234g6789d123g56789e12g456789f1g3456789g = 1",
        "a234567g9b12345g789c1234g6789d123g56789e12g456789f1g3456789g: there is no such key",
    ),
    (
        "a234567g9b12345g789c1234g6789d123g56789e12g456789f1g3456789gh = 1",
        "a234567g9b12345g789c1234g6789d123g56789e12g456789f1g3456789g..: there is no such key",
    ),
]


def shown(program, folder, octets):
    """The status of `show` of a table, and what it prints of a fault without its number."""
    with open(f"{folder}/table.toml", "wb") as file:
        file.write(octets)
    ran = subprocess.run([program, "show", f"{folder}/table.toml"], capture_output=True, text=True)
    front, number, text = (ran.stderr.rstrip("\n").split(": ", 2) + ["", "", ""])[:3]
    assert (front, number.rstrip("0123456789")) in (("", ""), ("table", "fault ")), ran.stderr
    return ran.returncode, text


def test_no_fault(program, folder):
    assert shown(program, folder, text_of(f"{ROOT}/examples/door.toml").encode()) == (0, "")


@pytest.mark.parametrize(("text", "fault"), SERVICES + CHARACTERISTICS)
def test_a_fault(program, folder, text, fault):
    assert shown(program, folder, text.encode()) == (1, fault)


@pytest.mark.parametrize(("line", "fault"), FIELDS)
def test_a_fault_of_a_characteristic(program, folder, line, fault):
    text = f"service 1, characteristic 1, {fault}"
    assert shown(program, folder, f"{CHARACTERISTIC}{line}".encode()) == (1, text)


@pytest.mark.parametrize(("uuid", "words"), ADDED)
def test_a_type_that_the_server_adds(program, folder, uuid, words):
    text = CHARACTERISTIC.replace("2a19", uuid)
    fault = (1, f"service 1, characteristic 1, uuid: {words}") if words else (0, "")
    assert shown(program, folder, text.encode()) == fault


@pytest.mark.parametrize(("name", "named"), NAMES)
def test_a_name_with_digits(program, folder, name, named):
    text = f"service 1, characteristic 1, {named}: there is no such key"
    assert shown(program, folder, f"{CHARACTERISTIC}{name} = 1".encode()) == (1, text)


def test_no_text(program, folder):
    assert shown(program, folder, b"#\n\xff") == (1, "line 2, column 1: it is not UTF-8")
