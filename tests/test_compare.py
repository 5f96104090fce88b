"""Checks what `gatt_shell compare` says of two tables and key files: what is opened, closed, moved and dropped.

The rights are proved to be those of the server; here stand whole lines, the slips of an author that open a
right, and the exit statuses.
"""

import copy
import os
import random
import subprocess

import pytest

from comparing import NOTHING, compared, toml_of
from parties import ROOT, text_of
from test_rights import DOOR, FIRST_FFF3, KEYS, LARGE, LAST, MANY_KEYS, SECURE, SLIPS

PORCH = text_of(f"{ROOT}/examples/porch.toml")
PORCH_NEXT = text_of(f"{ROOT}/examples/porch_next.toml")
NAME = '[[service.characteristic]]\nuuid = "2a00"\n'
APPEARANCE = '[[service.characteristic]]\nuuid = "2a01"\nvalue = "0000"\nproperties = ["read"]\n'
LAST_KEY = KEYS[KEYS.rindex("[[key]]") :]

# Kinds of keys in words.
PLAIN = "key of 7 to 16"
SECURE_ONLY = "key of 7 to 16, secure connections"
SHORT = "key of 7 to 15, authenticated"
SHORT_SECURE = "key of 7 to 15, authenticated, secure connections"
UNAUTHENTICATED = f"{PLAIN}; {SECURE_ONLY}"
NOT_BEST = f"{PLAIN}; key of 7 to 16, authenticated; {SECURE_ONLY}; {SHORT_SECURE}"
NOT_LONG = f"{PLAIN}; {SHORT}; {SECURE_ONLY}; {SHORT_SECURE}"

# What each slip of test_rights opens and closes.
CHANGES = {
    "no rule for writing": ([f"   10  fff1  w  no key; {UNAUTHENTICATED}  A B"], []),
    "a rule for writing without its property": ([], []),
    "a rule for reading without its property": (
        ["   15  fff3  w  everybody  A B C D"],
        ["   15  fff3  r  everybody  A B C D"],
    ),
    "a short key where a long one was meant": ([f"   13  fff2  (w)  {SHORT}; {SHORT_SECURE}  D"], []),
    "a subscription that no key permits": ([], [f"   10  fff1  s  {NOT_BEST}  B C D"]),
    "a subscription that asks for more than reading": ([], [f"   10  fff1  s  {UNAUTHENTICATED}  B"]),
    "the rules for reading and writing exchanged": (
        [f"   10  fff1  w  {UNAUTHENTICATED}  B"],
        [f"   10  fff1  rn  {UNAUTHENTICATED}  B"],
    ),
    "an authorization without encryption": ([], ["   15  fff3  r  everybody  A B C D"]),
    "a rule that no key meets": ([], [f"   15  fff3  r  no key; {NOT_BEST}  A B C D"]),
    "a service that is not finished": ([], []),
    "a subscription without a rule": (["   10  fff1  s  no key  A"], []),
    "a rule for a subscription that asks for nothing": (["   10  fff1  s  no key  A"], []),
    "a subscription by an address that can be forged": (
        ["   10  fff1  (s)  no key  A"],
        ["   10  fff1  s  every key  B C D"],
    ),
    "no property": ([], ["   17  fff3  r  every key  B C D"]),
}

NO_CHANGER = "No peer is reached: neither table has a Service Changed characteristic."
OTHER_CHANGER = "Service Changed reaches no peer: it is not at the same handle in both tables."
CHANGER = "Service Changed reaches the peers that subscribed to it."


@pytest.fixture
def compare(program, folder):
    """Compares texts of two tables and of up to two key files. Returns the status and the lines of the output."""

    def run_compare(old, new, keys=KEYS, new_keys=None):
        words = [program, "compare"]
        files = [("old.toml", old), ("new.toml", new), ("keys.toml", keys), ("new_keys.toml", new_keys)]
        for name, text in files:
            if text is None:
                continue
            with open(f"{folder}/{name}", "w", encoding="utf-8") as file:
                file.write(text)
            words += ["--new-keys"] * (name == "new_keys.toml") + [f"{folder}/{name}"]
        ran = subprocess.run(words, capture_output=True, text=True)
        assert ran.stderr == ""
        return ran.returncode, ran.stdout.splitlines()

    return run_compare


def section_of(heading, lines):
    """The lines below a heading."""
    if heading not in lines:
        return []
    below = lines[lines.index(heading) + 1 :]
    return below[: next((at for at, line in enumerate(below) if not line.startswith("  ")), len(below))]


def test_the_same_table(compare):
    assert compare(DOOR, DOOR) == (0, [NOTHING % "opened", NOTHING % "closed", NO_CHANGER])


def test_whom_service_changed_reaches(compare):
    bare = PORCH.partition("[[service]]")[0] + "[[service]]" + PORCH.rpartition("[[service]]")[2]
    moved = bare + "[[service]]" + PORCH.split("[[service]]")[1]
    texts = {CHANGER, NO_CHANGER, OTHER_CHANGER}
    for old, new, text in (
        (PORCH, PORCH, CHANGER),
        (bare, bare, NO_CHANGER),
        (PORCH, bare, OTHER_CHANGER),
        (bare, PORCH, OTHER_CHANGER),
        (PORCH, moved, OTHER_CHANGER),
    ):
        assert texts & set(compare(old, new)[1]) == {text}


@pytest.mark.parametrize("slip", SLIPS)
def test_a_slip(compare, slip):
    before, after, _ = SLIPS[slip]
    status, lines = compare(DOOR, DOOR.replace(before, after))
    assert (section_of("Opened:", lines), section_of("Closed:", lines)) == CHANGES[slip]
    assert status == (3 if CHANGES[slip][0] else 0)


@pytest.mark.parametrize("slip", SLIPS)
def test_a_slip_undone(compare, slip):
    before, after, _ = SLIPS[slip]
    status, lines = compare(DOOR.replace(before, after), DOOR)
    opened, closed = CHANGES[slip]
    assert (section_of("Opened:", lines), section_of("Closed:", lines)) == (closed, opened)
    assert status == (3 if closed else 0)


def test_letters_and_columns_are_explained(compare):
    lines = compare(DOOR, DOOR.replace("read = { encrypted = true }\nwrite", "write"))[1]
    changed = ["Changed:", "   10  fff1  read for everybody, was if encrypted"]
    assert lines[:7] == ["Opened:", "   10  fff1  rn  no key  A", NOTHING % "closed", *changed, NO_CHANGER, ""]
    assert lines[7].startswith("r read  w write  c write without response")
    at = lines.index("A  no key: everybody, and each peer until its link is encrypted")
    assert lines[at - 1 : at + 2] == ["", lines[at], "B  key of 16"]


@pytest.mark.parametrize("keys", [None, ""], ids=["no_file", "no_keys"])
def test_without_a_key_file_letters_alone_are_explained(compare, keys):
    lines = compare(DOOR, DOOR.replace("read = { encrypted = true }\nwrite", "write"), keys)[1]
    assert lines[1] == "   10  fff1  rn  no key"
    assert lines[7].startswith("r read  w write  c write without response")
    assert lines[-1].startswith("( ) only while the application authorizes the connection")


def test_an_attribute_before_the_others(compare):
    status, lines = compare(DOOR, DOOR.replace(NAME, APPEARANCE + NAME))
    assert status == 3
    assert section_of("Opened:", lines) == ["    3  2a01 Appearance  r  everybody  A B C D"]
    assert section_of("New:", lines) == ["    3  2a01 Appearance"]
    assert section_of("Moved to another handle:", lines)[:2] == [
        "    5  2a00 Device Name was 3",
        "    8  2a19 Battery Level was 6",
    ]
    assert len(section_of("Moved to another handle:", lines)) == 8
    assert section_of("Subscriptions that are dropped:", lines) == ["    6  2a19 Battery Level", "   10  fff1"]
    assert "Gone:" not in lines


def test_an_attribute_less(compare):
    status, lines = compare(DOOR, DOOR.replace("[[service.characteristic]]\n" + LAST, ""))
    assert status == 0
    assert section_of("Closed:", lines) == ["   21  fff4  rwc  everybody  A B C D"]
    assert section_of("Gone:", lines) == ["   21  fff4"]
    assert "Moved to another handle:" not in lines and "New:" not in lines


def test_another_type(compare):
    status, lines = compare(PORCH, PORCH_NEXT)
    assert (status, CHANGER in lines) == (3, True)
    assert section_of("Opened:", lines) == ["    7  fff2  rns  everybody  A B C D"]
    assert section_of("Closed:", lines) == ["    7  fff1  rns  everybody  A B C D"]
    assert section_of("New:", lines) == ["    7  fff2"]
    assert section_of("Gone:", lines) == ["    7  fff1"]
    assert section_of("Subscriptions that are dropped:", lines) == ["    7  fff1"]


def test_the_second_of_a_type_corresponds_to_the_second(compare):
    order = [FIRST_FFF3, 'value = "02"\nproperties = ["read"]\nread = { encrypted = true }\n']
    one, other = (f'[[service.characteristic]]\nuuid = "fff3"\n{text}' for text in order)
    lines = compare(DOOR, DOOR.replace(one + other, other + one))[1]
    assert section_of("Opened:", lines) == ["   17  fff3  r  no key  A"]
    assert section_of("Closed:", lines) == ["   15  fff3  r  no key  A"]


def test_one_of_a_type_less_is_compared_with_all(compare):
    # The first fff3 has another type now. Each of the two others may be any of the three, of which one needs a key.
    status, lines = compare(DOOR, DOOR.replace(f'uuid = "fff3"\n{FIRST_FFF3}', f'uuid = "fff5"\n{FIRST_FFF3}'))
    assert status == 3
    assert section_of("Opened:", lines) == ["   15  fff5  r  everybody  A B C D", "   19  fff3  r  no key  A"]
    assert section_of("Closed:", lines) == ["   15  fff3  r  no key  A", "   19  fff3  r  no key  A"]
    assert section_of("Moved to another handle:", lines) == ["   17  fff3 was 15", "   19  fff3 was 17"]
    assert section_of("New:", lines) == ["   15  fff5"]
    assert section_of("Gone:", lines) == ["   19  fff3"]


def value(uuid, properties, **data):
    return {"uuid": uuid, "value": "01", "properties": properties, **data}


ENCRYPTED, AUTHENTICATED = {"encrypted": True}, {"authenticated": True}
PUBLIC, PRIVATE = value("fff3", ["read"]), value("fff3", ["read"], read=AUTHENTICATED)
NAMED = {"uuid": "2901", "value": "61", "properties": ["read"]}
NAMED_FOR_KEYS = {**NAMED, "read": ENCRYPTED}
OTHER = value("fff1", [])

# Tables with a right that is opened, and the line that says so, without a key file.
HIDDEN = {
    # Services change places: what was secret is in another service.
    "the services exchanged": (
        [("fff0", [PUBLIC]), ("fff1", [PRIVATE])],
        [("fff1", [PUBLIC]), ("fff0", [PRIVATE])],
        f"    3  fff3  r  no key; {UNAUTHENTICATED}",
    ),
    "the public service removed and the private one opened": (
        [("fff0", [PUBLIC]), ("fff7", [PRIVATE])],
        [("fff7", [PUBLIC])],
        f"    3  fff3  r  no key; {UNAUTHENTICATED}",
    ),
    "the public value removed and the private one opened": (
        [("fff0", [PUBLIC, PRIVATE])],
        [("fff0", [PUBLIC])],
        f"    3  fff3  r  no key; {UNAUTHENTICATED}",
    ),
    "one service of a type removed": (
        [("fff0", [PRIVATE]), ("fff0", [PUBLIC])],
        [("fff0", [PUBLIC])],
        f"    3  fff3  r  no key; {UNAUTHENTICATED}",
    ),
    "a private descriptor opened and a public one removed": (
        [("fff0", [{**OTHER, "descriptors": [NAMED, NAMED_FOR_KEYS]}])],
        [("fff0", [{**OTHER, "descriptors": [NAMED]}])],
        "    4  2901 Characteristic User Description  r  no key",
    ),
    "a descriptor in another characteristic": (
        [("fff0", [{**OTHER, "descriptors": [NAMED]}, {**value("fff2", []), "descriptors": [NAMED_FOR_KEYS]}])],
        [("fff0", [{**value("fff2", []), "descriptors": [NAMED]}, {**OTHER, "descriptors": [NAMED_FOR_KEYS]}])],
        "    4  2901 Characteristic User Description  r  no key",
    ),
    "a value in place of a descriptor of its type": (
        [("fff0", [value("fff2", [], descriptors=[{**value("fff3", ["read"]), "read": ENCRYPTED}])])],
        [("fff0", [PUBLIC])],
        "    3  fff3  r  no key",
    ),
    "a value for a key that nobody has": (
        [("fff0", [])],
        [("fff0", [value("fff9", ["write"], write={"secure": True})])],
        "    3  fff9  w  key of 16, authenticated, secure connections",
    ),
    "a configuration without a rule": (
        [("fff0", [value("fff1", ["read", "notify"], read=ENCRYPTED, config=ENCRYPTED)])],
        [("fff0", [value("fff1", ["read", "notify"], read=ENCRYPTED)])],
        "    3  fff1  s  no key",
    ),
    "a subscription for shorter keys": (
        [("fff0", [value("fff1", ["indicate"], config={"key_size": 16})])],
        [("fff0", [value("fff1", ["indicate"], config={"key_size": 12})])],
        "    3  fff1  s  key of 12 to 15; key of 12 to 15, authenticated; key of 12 to 15, secure connections;"
        " key of 12 to 15, authenticated, secure connections",
    ),
    "an authorization that is no longer needed": (
        [("fff0", [value("fff1", ["write"], write={"authorized": True})])],
        [("fff0", [value("fff1", ["write"])])],
        "    3  fff1  w  everybody",
    ),
}


@pytest.mark.parametrize("case", HIDDEN)
def test_what_would_hide_is_opened(compare, case):
    old, new, line = HIDDEN[case]
    status, lines = compare(toml_of(old), toml_of(new), None)
    assert (status, section_of("Opened:", lines)) == (3, [line])


# Changes of the door without an effect on rights, and the lines that name them.
FACT_CHANGES = {
    "another code": (('value = "31323334"', 'value = "31323300"'), ["   13  fff2  value 31323300, was 31323334"]),
    "no code": (('value = "31323334"', 'value = ""'), ["   13  fff2  value empty, was 31323334"]),
    "a longer code": (("max = 8", "max = 512"), ["   13  fff2  length 0-512, was 0-8"]),
    "an open length": (
        ('value = "00"\nfixed = true', 'value = "00"\nmax = 1'),
        ["   10  fff1  length 0-1, was 1"],
    ),
    "a secondary service": (
        ('uuid = "1800"', 'uuid = "1800"\nsecondary = true'),
        ["    3  2a00 Device Name  service secondary, was primary"],
    ),
    "a rule that has no effect": (
        ('max = 512', 'max = 512\nread = { encrypted = true }\nwrite = { authorized = true }\n'),
        ["   21  fff4  read if encrypted, was for everybody", "   21  fff4  write if authorized, was for everybody"],
    ),
    "other rules": (
        ("write = { authenticated = true }\nconfig = { encrypted = true }", "write = { secure = true }\nconfig = { key_size = 16 }"),
        [
            "   10  fff1  write if secure connections, was if authenticated",
            "   10  fff1  config if encrypted, key of 16, was if encrypted",
        ],
    ),
    "no notifications": (
        ('properties = ["read", "write", "notify"]', 'properties = ["read", "write"]'),
        ["   10  fff1  config none, was if encrypted", "   10  fff1  properties read write, was read notify write"],
    ),
}


@pytest.mark.parametrize("case", FACT_CHANGES)
def test_a_change_is_printed(compare, case):
    words, changes = FACT_CHANGES[case]
    assert DOOR.count(words[0]) == 1
    table = DOOR.replace(*words)
    if "no notifications" == case:
        table = table.replace("config = { encrypted = true }\n", "")
    assert section_of("Changed:", compare(DOOR, table, None)[1]) == changes


@pytest.mark.parametrize("case", ["another code", "no code", "a longer code", "an open length", "a secondary service"])
def test_a_change_without_an_effect_opens_nothing(compare, case):
    status, lines = compare(DOOR, DOOR.replace(*FACT_CHANGES[case][0]))
    assert (status, lines[:2]) == (0, [NOTHING % "opened", NOTHING % "closed"])


def test_one_descriptor_less_moves_no_other(compare):
    descriptors = [{**OTHER, "descriptors": [NAMED]}, {**value("fff2", []), "descriptors": [NAMED_FOR_KEYS]}]
    status, lines = compare(toml_of([("fff0", descriptors)]), toml_of([("fff0", [OTHER, descriptors[1]])]), None)
    named = "2901 Characteristic User Description"
    assert status == 0
    assert section_of("Closed:", lines) == [f"    4  {named}  r  no key"]
    assert section_of("Gone:", lines) == [f"    4  {named}"]
    assert section_of("Moved to another handle:", lines) == ["    5  fff2 was 6", f"    6  {named} was 7"]


# Slips in the door that no key of the example shows.
DOOR_SLIPS = {
    "reading and writing exchanged": (
        ("read = { encrypted = true }\nwrite = { authenticated = true }\n", "write = { encrypted = true }\nread = { authenticated = true }\n"),
        [f"   10  fff1  w  {UNAUTHENTICATED}"],
    ),
    "shorter keys read and write": (
        ("authenticated = true, key_size = 16, authorized", "authenticated = true, authorized"),
        [f"   13  fff2  (rw)  {SHORT}; {SHORT_SECURE}"],
    ),
    "shorter keys read": (
        ("read = { authenticated = true, key_size = 16,", "read = { authenticated = true,"),
        [f"   13  fff2  (r)  {SHORT}; {SHORT_SECURE}"],
    ),
    "no rule for the configuration": (("config = { encrypted = true }\n", ""), ["   10  fff1  s  no key"]),
}


@pytest.mark.parametrize("slip", DOOR_SLIPS)
def test_a_slip_without_a_key_file(compare, slip):
    words, opened = DOOR_SLIPS[slip]
    status, lines = compare(DOOR, DOOR.replace(*words), None)
    assert (status, section_of("Opened:", lines)) == (3, opened)


def closed_by(rule):
    """A table, and it with a rule more."""
    table = toml_of([("fff0", [value("fff1", ["read", "notify"])])])
    return table, table + rule + "\n"


def test_a_subscription_that_lasts_although_it_is_closed(compare):
    status, lines = compare(*closed_by("config = { authenticated = true, key_size = 16 }"), KEYS)
    assert status == 0
    assert section_of("Closed:", lines) == [f"    3  fff1  s  no key; {NOT_LONG}  A B D"]
    lasting = "Subscriptions that last although they are closed:"
    assert section_of(lasting, lines) == [f"    3  fff1  no key; {NOT_LONG}  A B D"]
    # With the rule in `read` they are closed indeed, and dropped with another type.
    lines = compare(*closed_by("read = { authenticated = true, key_size = 16 }"), KEYS)[1]
    assert section_of("Closed:", lines) == [f"    3  fff1  rn  no key; {NOT_LONG}  A B D"]
    assert lasting not in lines


def test_a_key_that_permits_more(compare):
    table = DOOR.replace(FIRST_FFF3, FIRST_FFF3 + "read = { secure = true }\n")
    status, lines = compare(table, table, KEYS, KEYS + SECURE)
    assert status == 3
    assert lines[:2] == [
        "Opened:",
        "       random c0:00:00:00:00:02: key of 16, authenticated, secure connections",
    ]
    assert lines[-2:] == [
        "E  key of 16, authenticated, secure connections",
        "     random c0:00:00:00:00:02",
    ]


def test_keys_in_place_of_others(compare):
    """Only a key that permits more than all keys of its peer before opens something."""
    first, second, third = ("[[key]]" + part for part in KEYS.split("[[key]]")[1:])
    short = second.replace("size = 16", "size = 15")
    assert compare(DOOR, DOOR, first + second, first + short)[0] == 0
    assert compare(DOOR, DOOR, first + second, first + second + third)[0] == 0
    status, lines = compare(DOOR, DOOR, first + third, first + third + second)
    assert (status, lines[1]) == (3, "       public 00:11:22:33:44:55: key of 16, authenticated")


def test_a_key_less(compare):
    status, lines = compare(DOOR, DOOR, KEYS, KEYS.replace(LAST_KEY, ""))
    assert status == 0
    assert lines[1] == NOTHING % "closed"
    status, lines = compare(DOOR, DOOR, KEYS, KEYS.replace(LAST_KEY, "").rpartition("[[key]]")[0])
    assert section_of("Closed:", lines) == [
        "       public 00:11:22:33:44:55: key of 16, authenticated",
        "       public 00:11:22:33:44:55: key of 7, authenticated",
    ]


def test_a_key_of_the_same_kind(compare):
    other = LAST_KEY.replace("0303", "0404").replace("a1a2", "a2a1")
    assert compare(DOOR, DOOR, KEYS, KEYS.replace(LAST_KEY, other))[0] == 0
    assert compare(DOOR, DOOR, KEYS, KEYS + other)[0] == 0


def test_a_key_that_permits_nothing(compare):
    table = DOOR.replace("encrypted = true", "authenticated = true")
    key = KEYS[KEYS.index("[[key]]") : KEYS.index("[[key]]", KEYS.index("[[key]]") + 1)]
    status, lines = compare(table, table, KEYS, KEYS + key.replace("00:00:01", "00:00:02").replace("0101", "0909"))
    assert (status, lines[0]) == (0, NOTHING % "opened")


def test_a_kind_of_key_that_is_only_in_one_file(compare):
    table = DOOR.replace(FIRST_FFF3, FIRST_FFF3 + "read = { secure = true }\n")
    lines = compare(table, DOOR, KEYS, KEYS + SECURE)[1]
    assert section_of("Opened:", lines) == [
        f"   15  fff3  r  no key; {NOT_BEST}  A B C D",
        "       random c0:00:00:00:00:02: key of 16, authenticated, secure connections",
    ]


@pytest.mark.parametrize("which", ["old.toml", "new.toml", "keys.toml", "new_keys.toml"])
@pytest.mark.parametrize("text", [None, "key = 1\n"])
def test_a_refused_file(program, folder, which, text):
    words = [program, "compare"]
    for name, good in (("old.toml", DOOR), ("new.toml", DOOR), ("keys.toml", KEYS), ("new_keys.toml", KEYS)):
        content = text if name == which else good
        if content is not None:
            with open(f"{folder}/{name}", "w", encoding="utf-8") as file:
                file.write(content)
        words += ["--new-keys"] * (name == "new_keys.toml") + [f"{folder}/{name}"]
    ran = subprocess.run(words, capture_output=True, text=True)
    assert (ran.returncode, ran.stdout) == (1, "")
    fault = "table: fault 11" if "key" not in which else "keys: fault 9"
    assert ran.stderr.startswith(f"file: unreadable: {folder}/{which}: " if text is None else f"{fault}: {folder}/{which}: ")


def test_a_large_table(compare):
    begun = os.times().children_user
    status, lines = compare(LARGE, LARGE.replace("write = { authenticated = true, key_size = 16 }", ""), MANY_KEYS)
    assert (status, len(section_of("Opened:", lines))) == (3, 112)
    # Without proofs it takes some seconds of a processor.
    assert os.times().children_user - begun < 20


KINDS = ("fff1", "fff2", "fff3", "fffa")
FACTS = ("uuid", "value", "max", "fixed", "properties", "read", "write", "config", "descriptors")


def some_need(rng):
    need = {
        "encrypted": rng.random() < 0.5, "authenticated": rng.random() < 0.4, "secure": rng.random() < 0.2,
        "authorized": rng.random() < 0.3,
    }
    size = {"key_size": rng.choice((7, 10, 15, 16))} if rng.random() < 0.3 else {}
    return {**{key: True for key, asked in need.items() if asked}, **size} if rng.random() < 0.6 else {}


def some_attribute(rng, is_value):
    """A characteristic with up to two descriptors, or a descriptor."""
    names = ("read", "command", "write", "notify", "indicate") if is_value else ("read", "write")
    properties = [name for name in names if rng.random() < 0.5]
    rules = ["read", "write"] + ["config"] * bool({"notify", "indicate"} & set(properties))
    found = {**value(rng.choice(KINDS), properties), **{rule: some_need(rng) for rule in rules}}
    found["value"] = rng.choice(("", "00", "0102"))
    found.update(rng.choice(({}, {"max": 2}, {"max": 512}, {"fixed": True})))
    if is_value:
        found["descriptors"] = [some_attribute(rng, False) for _ in range(rng.choice((0, 0, 0, 1, 2)))]
    return found


def some_service(rng, most):
    return rng.choice(("fff0", "fff7")), [some_attribute(rng, True) for _ in range(rng.randrange(most))]


def changed(rng, services):
    """The services with one change: one more or less, another order, or another characteristic or descriptor."""
    services = copy.deepcopy(services)
    what = rng.randrange(8)
    if what == 0 and services:
        services.pop(rng.randrange(len(services)))
    elif what == 1:
        services.insert(rng.randrange(len(services) + 1), some_service(rng, 2))
    elif what == 2:
        rng.shuffle(services)
    elif services:
        characteristics = rng.choice(services)[1]
        at = rng.randrange(len(characteristics) + 1)
        if what == 3:
            characteristics.insert(at, some_attribute(rng, True))
        elif what == 4:
            rng.shuffle(characteristics)
        elif at < len(characteristics):
            one, other = characteristics[at], some_attribute(rng, True)
            keys = {5: ["descriptors"], 6: ["properties", "read", "write", "config"], 7: FACTS}[what]
            for key in keys:
                one.pop(key, None)
                if key in other:
                    one[key] = other[key]
            if not {"notify", "indicate"} & set(one["properties"]):
                one.pop("config", None)
    return services


@pytest.mark.parametrize("part", range(10))
def test_some_tables(compare, part):
    for number in range(53 * part, 53 * part + 53):
        rng = random.Random(number)
        old = [some_service(rng, 4) for _ in range(rng.randrange(4))]
        new = old
        for _ in range(rng.choice((1, 1, 2, 3))):
            new = changed(rng, new)
        status, lines = compare(*(toml_of(table) or "service = []\n" for table in (old, new)), None)
        expected = compared(old, new)
        assert lines[: len(expected) + 1] == [*expected, NO_CHANGER], number
        assert status == (3 if expected[0] == "Opened:" else 0)
