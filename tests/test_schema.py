"""Checks the JSON schemas of the table file, the key file and the expectations file, which editors read.

Each example names its schema in its first line, by a path from its folder, and the schema accepts it. Each
file of REFUSED differs from a good one in one place, and the schema refuses it for that place. `gatt_shell
show` and `gatt_shell expect` have to refuse the same files and to accept the good ones.

The schemas are of draft 07. Each file is also checked with the rules of draft 2020-12: the verdict has to be
the same, so that it does not matter which of them an editor knows.
"""

import glob
import json
import os
import re
import subprocess

import pytest

from parties import DOOR, PROGRAM, ROOT, text_of

SCHEMAS = {kind: f"{ROOT}/docs/schema/{kind}.schema.json" for kind in ("table", "keys", "expectations")}
EXAMPLES = ["examples/*.toml", "examples/*/*.toml", "interop/*.toml"]
DIRECTIVE = "#:schema "

# A good file of each kind. A file of REFUSED and of ACCEPTED has one text in place of another.
BASE = {
    "table": """[[service]]
uuid = "180f"
secondary = false
[[service.characteristic]]
uuid = "2a19"
value = "64"
max = 1
fixed = true
properties = ["read", "notify"]
read = { encrypted = true, key_size = 7 }
config = { authenticated = true }
[[service.characteristic.descriptor]]
uuid = "2901"
value = "6261"
max = 4
properties = ["read"]

[[service]]
uuid = "1800"
include = [0]
""",
    "keys": """[[key]]
address = "c0:00:00:00:00:01"
kind = "random"
rand = "0101010101010101"
ediv = 257
ltk = "00112233445566778899aabbccddeeff"
size = 16
authenticated = false

[[key]]
address = "00:11:22:33:44:55"
kind = "public"
rand = "0000000000000000"
ediv = 0
ltk = "ffeeddccbbaa99887766554433221100"
size = 16
authenticated = true
secure = true
""",
    "expectations": """[[expect]]
service = "fff0"
characteristic = "fff1"
number = 1
read = "everybody"
write = { authenticated = true, key_size = 16 }

[[expect]]
characteristic = "2a19"
descriptor = "2901"
notify = "nobody"
""",
}

LONG = "-0000-1000-8000-00805f9b34fb"
# What is changed, and the name of the place that the schema has to tell: the last part of its path, or the
# name of the key that is missing or unknown.
REFUSED = {
    "table": [
        (BASE["table"], "services = []\n", "services"),
        (BASE["table"], "# nothing\n", "service"),
        (BASE["table"], "service = {}\n", "service"),
        ('[[service]]\nuuid = "180f"', '[[service]]\nuid = "180f"', "uid"),
        ('uuid = "180f"\n', "", "uuid"),
        ('uuid = "180f"', "uuid = 6159", "uuid"),
        ('uuid = "180f"', 'uuid = "180"', "uuid"),
        ('uuid = "180f"', 'uuid = "18zz"', "uuid"),
        ('uuid = "180f"', 'uuid = "0x180f"', "uuid"),
        ('uuid = "180f"', f'uuid = "0000180f{LONG[:-1]}"', "uuid"),
        ('uuid = "180f"', f'uuid = "{{0000180f{LONG}"', "uuid"),
        ("secondary = false", 'secondary = "no"', "secondary"),
        ("include = [0]", "include = 0", "include"),
        ("include = [0]", "include = [-1]", "include"),
        ("include = [0]", 'include = ["180f"]', "include"),
        ('uuid = "2a19"', 'uuid = "2902"', "uuid"),
        ('uuid = "2a19"', f'uuid = "00002803{LONG}"', "uuid"),
        ('uuid = "2901"', 'uuid = "2800"', "uuid"),
        ('value = "64"\n', "", "value"),
        ('value = "64"', "value = 64", "value"),
        ('value = "64"', 'value = "6"', "value"),
        ('value = "64"', 'value = "0x"', "value"),
        ('value = "6261"\nmax = 4', f'value = "{"00" * 513}"', "value"),
        ('properties = ["read", "notify"]\n', "", "properties"),
        ('properties = ["read", "notify"]', 'properties = "read"', "properties"),
        ('properties = ["read", "notify"]', 'properties = ["read", "notfy"]', "properties"),
        ('properties = ["read", "notify"]', 'properties = ["read"]', "properties"),
        ('properties = ["read"]', 'properties = ["read", "notify"]', "properties"),
        ("max = 4", "max = 513", "max"),
        ("max = 4", "max = -1", "max"),
        ("max = 4", 'max = "4"', "max"),
        ("fixed = true", "fixed = 1", "fixed"),
        ("max = 4", "config = {}", "config"),
        ("key_size = 7", "key_size = 6", "key_size"),
        ("key_size = 7", "key_size = 17", "key_size"),
        ("key_size = 7", 'key_size = "7"', "key_size"),
        ("encrypted = true", "encrypted = 1", "encrypted"),
        ("encrypted = true", "encrypt = true", "encrypt"),
        ("read = { encrypted = true, key_size = 7 }", "read = true", "read"),
        ("[[service.characteristic.descriptor]]", "[[service.characteristic.descriptors]]", "descriptors"),
    ],
    "keys": [
        (BASE["keys"], "keys = []\n", "keys"),
        (BASE["keys"], "key = {}\n", "key"),
        ('address = "00:11:22:33:44:55"\n', "", "address"),
        ('"00:11:22:33:44:55"', '"00:11:22:33:44"', "address"),
        ('"00:11:22:33:44:55"', '"00-11-22-33-44-55"', "address"),
        ('"00:11:22:33:44:55"', '"00:11:22:33:44:5g"', "address"),
        ('kind = "public"\n', "", "kind"),
        ('kind = "public"', 'kind = "static"', "kind"),
        ('kind = "public"', "kind = 0", "kind"),
        ('rand = "0101010101010101"', 'rand = "010101010101010"', "rand"),
        ('rand = "0101010101010101"', "rand = 72340172838076673", "rand"),
        ("ediv = 257", "ediv = -1", "ediv"),
        ("ediv = 257", "ediv = 65536", "ediv"),
        ("ediv = 257", 'ediv = "257"', "ediv"),
        ('ltk = "00112233445566778899aabbccddeeff"\n', "", "ltk"),
        ('"00112233445566778899aabbccddeeff"', '"00112233445566778899aabbccddee"', "ltk"),
        ('"00112233445566778899aabbccddeeff"', '"00112233445566778899aabbccddeefg"', "ltk"),
        ("size = 16\nauthenticated = false", "size = 6\nauthenticated = false", "size"),
        ("size = 16\nauthenticated = false", "size = 17\nauthenticated = false", "size"),
        ("authenticated = false\n", "", "authenticated"),
        ("authenticated = false", 'authenticated = "no"', "authenticated"),
        ("secure = true", "secure = 1", "secure"),
        ("secure = true", "secured = true", "secured"),
        ("ediv = 0", "ediv = 1", "ediv"),
        ('rand = "0000000000000000"', 'rand = "0000000000000001"', "rand"),
    ],
    "expectations": [
        (BASE["expectations"], "expected = []\n", "expected"),
        (BASE["expectations"], "expect = {}\n", "expect"),
        ('characteristic = "fff1"\n', "", "characteristic"),
        ('characteristic = "fff1"', "characteristic = 6159", "characteristic"),
        ('characteristic = "fff1"', 'characteristic = "fff"', "characteristic"),
        ('service = "fff0"', f'service = "0000fff0{LONG[:-1]}"', "service"),
        ('service = "fff0"', "service = true", "service"),
        ('descriptor = "2901"', 'descriptor = "29"', "descriptor"),
        ("number = 1", "number = 0", "number"),
        ("number = 1", "number = 1025", "number"),
        ("number = 1", 'number = "1"', "number"),
        ('read = "everybody"', 'read = "all"', "read"),
        ('read = "everybody"', "read = true", "read"),
        ('read = "everybody"', 'reed = "everybody"', "reed"),
        ('notify = "nobody"', "notify = []", "notify"),
        ("key_size = 16", "key_size = 6", "write"),
        ("key_size = 16", "key_size = 17", "write"),
        ("authenticated = true", "authenticated = 1", "write"),
        ("authenticated = true", "authentic = true", "write"),
    ],
}
ACCEPTED = {
    "table": [
        ('uuid = "180f"', 'uuid = "180F"'),
        ('uuid = "180f"', f'uuid = "0000180F{LONG}"'),
        ('uuid = "180f"', f'uuid = "{{0000180f{LONG}}}"'),
        ('uuid = "180f"', f'uuid = "urn:uuid:0000180f{LONG}"'),
        ('uuid = "180f"', 'uuid = "0000180f00001000800000805f9b34fb"'),
        ('value = "6261"\nmax = 4', f'value = "{"00" * 512}"'),
        ('properties = ["read", "notify"]', 'properties = ["indicate", "write", "command"]'),
        ('properties = ["read"]', "properties = []"),
        ("key_size = 7", "secure = true, authorized = true"),
        ("include = [0]", "include = []"),
        (BASE["table"], "service = []\n"),
    ],
    "keys": [
        ('"00112233445566778899aabbccddeeff"', '"00112233445566778899AABBCCDDEEFF"'),
        ('"c0:00:00:00:00:01"', '"C0:00:00:00:00:0A"'),
        ("secure = true", "secure = false"),
        (BASE["keys"], ""),
    ],
    "expectations": [
        ('characteristic = "fff1"', f'characteristic = "0000FFF1{LONG}"'),
        ('service = "fff0"', f'service = "urn:uuid:0000fff0{LONG}"'),
        ("number = 1", "number = 1024"),
        ('read = "everybody"', "read = {}"),
        ('read = "everybody"', 'command = "secure"'),
        ('notify = "nobody"', 'indicate = "authorized"'),
        ("key_size = 16", "key_size = 7, secure = true, encrypted = false, authorized = true"),
        (BASE["expectations"], "expect = []\n"),
        (BASE["expectations"], ""),
    ],
}


def files():
    """Returns files of each kind: the kind, what is changed, and the place that is refused, or None."""
    for kind in SCHEMAS:
        for old, new, place in [("", "", None), *((*it, None) for it in ACCEPTED[kind]), *REFUSED[kind]]:
            what = re.sub(r"\W+", "_", new[:40]).strip("_") or f"no_{place}"
            does = "refuses" if place else "accepts"
            yield pytest.param(kind, old, new, place, id=f"{kind}-{does}-{what if old else 'good'}")


def changed(kind, old, new):
    """Returns a good file with one text in place of another."""
    assert old in BASE[kind], "the good file has this text"
    return BASE[kind].replace(old, new, 1)


def loads(text):
    tomllib = pytest.importorskip("tomllib", reason="no tomllib: Python 3.11 has it")
    return tomllib.loads(text)


@pytest.fixture(scope="session")
def validators():
    """Those of each draft for each kind of file."""
    jsonschema = pytest.importorskip("jsonschema", reason="no jsonschema: Debian's python3-jsonschema is it")
    schemas = {kind: json.loads(text_of(path)) for kind, path in SCHEMAS.items()}
    for schema in schemas.values():
        jsonschema.Draft7Validator.check_schema(schema)
    drafts = jsonschema.Draft7Validator, jsonschema.Draft202012Validator
    return {kind: [draft(schema) for draft in drafts] for kind, schema in schemas.items()}


def places_of(errors):
    """Returns the places that errors of a schema name: the keys of their paths, and those that they quote."""
    found = set()
    for error in errors:
        found.update(it for it in error.absolute_path if isinstance(it, str))
        found.update(error.message.split("'")[1::2])
        found.update(places_of(error.context))
    return found


def verdict(validators, document):
    """Returns the places that each draft refuses in a document: none if it accepts it."""
    return [places_of(it.iter_errors(document)) for it in validators]


@pytest.mark.parametrize("path", sorted(
    os.path.relpath(it, ROOT) for form in EXAMPLES for it in glob.glob(f"{ROOT}/{form}")
))
def test_examples(validators, path):
    """Each example is accepted by the schema that its first line names."""
    text, folder = text_of(f"{ROOT}/{path}"), os.path.dirname(f"{ROOT}/{path}")
    first = text.split("\n", 1)[0]
    assert first.startswith(DIRECTIVE), "its first line names a schema"
    schema = os.path.normpath(os.path.join(folder, first.removeprefix(DIRECTIVE)))
    kinds = [it for it, where in SCHEMAS.items() if where == schema]
    assert len(kinds) == 1, "which is there"
    assert verdict(validators[kinds[0]], loads(text)) == [set(), set()], "the schema accepts it"


@pytest.mark.parametrize("kind, old, new, place", files())
def test_schema(validators, kind, old, new, place):
    """A schema refuses a file for the place that is wrong, or accepts it, by the rules of both drafts."""
    found = verdict(validators[kind], loads(changed(kind, old, new)))
    assert found[0] == found[1], "drafts"
    if place:
        assert place in found[0], "the schema refuses it"
    else:
        assert found[0] == set(), "the schema accepts it"


@pytest.mark.parametrize("kind, old, new, place", files())
def test_show(folder, kind, old, new, place):
    """The program refuses the files that the schema refuses, and accepts the others."""
    path = f"{folder}/file.toml"
    with open(path, "w", encoding="utf-8") as file:
        file.write(changed(kind, old, new))
    words = {"table": ["show", path], "keys": ["show", DOOR[0], path], "expectations": ["expect", *DOOR, path]}[kind]
    how = {"stdin": subprocess.DEVNULL, "capture_output": True, "text": True, "timeout": 60}
    ran = subprocess.run([PROGRAM, *words], **how)
    # The good expectations are not those of the door.
    accepted = 3 if kind == "expectations" else 0
    assert ran.returncode == (1 if place else accepted), f"{words[0]}: {ran.stderr.strip()}"


@pytest.mark.parametrize("kind", SCHEMAS)
def test_documented(kind):
    """Each key of each table has a title and a description, and no table has others than its own."""
    schema = json.loads(text_of(SCHEMAS[kind]))
    tables = {"root": schema, **{k: v for k, v in schema["definitions"].items() if v.get("type") == "object"}}
    assert [name for name, it in tables.items() if it.get("additionalProperties") is not False] == [], "closed"
    keys = {f"{name}, {key}": it for name, table in tables.items() for key, it in table["properties"].items()}
    assert [key for key, it in keys.items() if not (it.get("title") and it.get("description"))] == [], "documented"
