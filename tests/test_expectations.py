"""Checks `gatt_shell expect`: whole outputs, each kind of difference, and each fault of an expectations file.

The comparison is proved. Here stand slips of an author of a table, with the lines that name them, and slips
in the file of expectations.
"""

import random
import re
import resource
import subprocess

import pytest

from parties import ROOT, text_of

DOOR = text_of(f"{ROOT}/examples/door.toml")
KEYS = text_of(f"{ROOT}/examples/keys.toml")
MEANT = text_of(f"{ROOT}/examples/door.expect.toml")

KEYS_OF_ONE = """[[key]]
address = "c0:00:00:00:00:01"
kind = "random"
rand = "0101010101010101"
ediv = 257
ltk = "00112233445566778899aabbccddeeff"
size = 16
authenticated = true
"""
LAST = 'properties = ["read", "write", "command"]\n'
FIRST_FFF3 = 'value = "01"\nproperties = ["read"]\n'
CODE = "write = { authenticated = true, key_size = 16, authorized = true }\n"
READ_CODE = "read = { authenticated = true, key_size = 16, authorized = true }\n"
NEW = """[[service.characteristic]]
uuid = "fff5"
value = "00"
properties = ["read", "notify"]
"""
BACK_DOOR = """[[service.characteristic]]
uuid = "fff9"
value = "00"
properties = ["write"]
write = { secure = true }
"""
DESCRIBED = """[[service.characteristic.descriptor]]
uuid = "2901"
value = "6f6e65"
properties = ["read", "write"]
write = { encrypted = true }
"""

# Kinds of keys, as the lines name them.
PLAIN = "key of 7 to 16; key of 7 to 16, secure connections"
ALL_AUTHENTICATED = "key of 7 to 16, authenticated; key of 7 to 16, authenticated, secure connections"
SHORT_AUTHENTICATED = "key of 7 to 15, authenticated; key of 7 to 15, authenticated, secure connections"
LONG_AUTHENTICATED = "key of 16, authenticated; key of 16, authenticated, secure connections"
CODE_IS_MEANT = "authenticated, key_size = 16, authorized is meant"
TODAY_AUTHENTICATED = "(today: key of 7, authenticated; key of 16, authenticated)"

# A slip in the table of the door: a text, another one in its place, and the differences.
TABLE_SLIPS = {
    "no rule for writing": (
        "write = { authenticated = true }\n", "",
        [f"   10  fff1 write: no key; {PLAIN} (today: key of 16) may, but should not: authenticated is meant"],
    ),
    "the rules for reading and writing exchanged": (
        "read = { encrypted = true }\nwrite = { authenticated = true }\n",
        "read = { authenticated = true }\nwrite = { encrypted = true }\n",
        [
            f"   10  fff1 read: {PLAIN} (today: key of 16) should, but may not: encrypted is meant",
            f"   10  fff1 write: {PLAIN} (today: key of 16) may, but should not: authenticated is meant",
            f"   10  fff1 notify: {PLAIN} (today: key of 16) should, but may not: encrypted is meant",
        ],
    ),
    "a short key where a long one is meant": (
        CODE, CODE.replace("16", "7"),
        [
            f"   13  fff2 write: {SHORT_AUTHENTICATED} (today: key of 7, authenticated), once authorized, "
            f"may, but should not: {CODE_IS_MEANT}",
        ],
    ),
    "no size of the key at all": (
        READ_CODE + CODE, (READ_CODE + CODE).replace(", key_size = 16", ""),
        [
            f"   13  fff2 {use}: {SHORT_AUTHENTICATED} (today: key of 7, authenticated), once authorized, "
            f"may, but should not: {CODE_IS_MEANT}"
            for use in ("read", "write")
        ],
    ),
    "no size of the key for reading": (
        READ_CODE, READ_CODE.replace(", key_size = 16", ""),
        [
            f"   13  fff2 read: {SHORT_AUTHENTICATED} (today: key of 7, authenticated), once authorized, "
            f"may, but should not: {CODE_IS_MEANT}",
        ],
    ),
    "no authorization": (
        READ_CODE, READ_CODE.replace(", authorized = true", ""),
        [
            f"   13  fff2 read: {LONG_AUTHENTICATED} (today: key of 16, authenticated) "
            f"may, but should not: {CODE_IS_MEANT}",
        ],
    ),
    "an authorization and no key": (
        READ_CODE, "read = { authorized = true }\n",
        [
            "   13  fff2 read: no key; key of 7 to 16; key of 7 to 15, authenticated; "
            "key of 7 to 16, secure connections; key of 7 to 15, authenticated, secure connections "
            "(today: key of 16; key of 7, authenticated), once authorized, "
            f"may, but should not: {CODE_IS_MEANT}",
        ],
    ),
    "an authorization that is not meant": (
        FIRST_FFF3, FIRST_FFF3 + "read = { authorized = true }\n",
        ["   15  fff3 read: everybody should, but may not: everybody is meant"],
    ),
    "a use that only secure keys have": (
        FIRST_FFF3, 'value = "01"\nproperties = ["read", "command"]\nwrite = { secure = true, authorized = true }\n',
        [
            "   15  fff3 command: key of 16, authenticated, secure connections, once authorized, "
            "may, but should not: nobody is meant",
        ],
    ),
    "a use that somebody has once authorized": (
        FIRST_FFF3,
        'value = "01"\nproperties = ["read", "command"]\nwrite = { authenticated = true, authorized = true }\n',
        [
            f"   15  fff3 command: {ALL_AUTHENTICATED} {TODAY_AUTHENTICATED}, once authorized, "
            "may, but should not: nobody is meant",
        ],
    ),
    "a property that is missing": (
        LAST, 'properties = ["read", "write"]\n',
        ["   21  fff4 command: everybody should, but may not: everybody is meant"],
    ),
    "a subscription that few keys permit": (
        "config = { encrypted = true }", "config = { secure = true }",
        [
            "   10  fff1 subscribe: key of 7 to 16; key of 7 to 16, authenticated; "
            "key of 7 to 16, secure connections; key of 7 to 15, authenticated, secure connections "
            "(today: key of 16; key of 7, authenticated; key of 16, authenticated) "
            "should, but may not: encrypted is meant",
        ],
    ),
    "a subscription without a rule": (
        "config = { encrypted = true }\n", "",
        ["   10  fff1 subscribe: no key may, but should not: encrypted is meant"],
    ),
    "notifications that only the subscription protects": (
        "read = { encrypted = true }\nwrite = { authenticated = true }\n", "write = { authenticated = true }\n",
        [
            "   10  fff1 read: no key may, but should not: encrypted is meant",
            "   10  fff1 notify: no key may, but should not: encrypted is meant",
        ],
    ),
    "indications in place of notifications": (
        'fixed = true\nproperties = ["read", "notify"]', 'fixed = true\nproperties = ["read", "indicate"]',
        [
            "    6  2a19 Battery Level notify: everybody should, but may not: everybody is meant",
            "    6  2a19 Battery Level indicate: everybody may, but should not: nobody is meant",
        ],
    ),
    "a characteristic that is new": (
        LAST, LAST + NEW, ["   23  fff5: it can be used, but no expectation names it"],
    ),
    "one that only an authenticated key may use": (
        LAST, LAST + NEW + "read = { authenticated = true, authorized = true }\n",
        ["   23  fff5: it can be used, but no expectation names it"],
    ),
    "one that only a secure key may write": (
        LAST, LAST + BACK_DOOR, ["   23  fff9: it can be used, but no expectation names it"],
    ),
    "one to which somebody may only subscribe": (
        LAST, LAST + NEW.replace('"read", ', "") + "read = { secure = true }\n",
        ["   23  fff5: it can be used, but no expectation names it"],
    ),
    "one that nobody may use": (LAST, LAST + NEW.replace('"read", "notify"', ""), []),
    "a descriptor that is new": (
        LAST, LAST + DESCRIBED,
        ["   22  2901 Characteristic User Description: it can be used, but no expectation names it"],
    ),
    "a characteristic that is gone": (
        '[[service]]\nuuid = "180f"\n[[service.characteristic]]\nuuid = "2a19"\nvalue = "64"\nfixed = true\n'
        'properties = ["read", "notify"]\n\n', "",
        ["       expectation 2, 2a19 Battery Level: it names no attribute"],
    ),
    "a characteristic in another service": (
        'uuid = "fff0"', 'uuid = "ffe0"',
        [
            *(f"       expectation {3 + at}, {kind}: it names no attribute"
              for at, kind in enumerate(["fff1", "fff2", "fff3", "fff3", "fff3", "fff4"])),
            *(f"   {handle}  {kind}: it can be used, but no expectation names it"
              for handle, kind in ((10, "fff1"), (13, "fff2"), (15, "fff3"), (17, "fff3"), (19, "fff3"), (21, "fff4"))),
        ],
    ),
}

FFF1 = 'characteristic = "fff1"\nread = "encrypted"\nwrite = "authenticated"\nnotify = "encrypted"\n'
SECOND = 'number = 2\nread = "encrypted"\n'
BATTERY = 'characteristic = "2a19"\nread = "everybody"\nnotify = "everybody"\n'
NAME = 'characteristic = "2a00"\nread = "everybody"\n'
PRIVATE = """[[expect]]
service = "fff0"
characteristic = "fff3"
number = 1
read = "everybody"

[[expect]]
service = "fff0"
characteristic = "fff3"
number = 2
read = "encrypted"

[[expect]]
service = "fff0"
characteristic = "fff3"
number = 3
read = "everybody"
"""

# A change of the expectations, and the differences of the door then.
MEANT_SLIPS = {
    "a word as a table": ('write = "authenticated"', "write = { authenticated = true }", []),
    "everybody as a table": (NAME, NAME.replace('"everybody"', "{}"), []),
    "nobody as a word": (NAME, NAME + 'write = "nobody"\nindicate = "nobody"\n', []),
    "a UUID of 128 bits": ('"fff4"', '"0000FFF4-0000-1000-8000-00805F9B34FB"', []),
    "a service of 128 bits": (
        'service = "fff0"\ncharacteristic = "fff4"',
        'service = "0000fff0-0000-1000-8000-00805f9b34fb"\ncharacteristic = "fff4"', [],
    ),
    "no service": ('service = "fff0"\ncharacteristic = "fff4"', 'characteristic = "fff4"', []),
    "another service": (
        'service = "fff0"\ncharacteristic = "fff4"', 'service = "180f"\ncharacteristic = "fff4"',
        [
            "       expectation 8, fff4: it names no attribute",
            "   21  fff4: it can be used, but no expectation names it",
        ],
    ),
    "a number too many": (
        "number = 3", "number = 4",
        [
            "       expectation 7, fff3: it names no attribute",
            "   19  fff3: it can be used, but no expectation names it",
        ],
    ),
    "all of them": (
        PRIVATE, '[[expect]]\ncharacteristic = "fff3"\nread = "encrypted"\n',
        [
            "   15  fff3 read: no key may, but should not: encrypted is meant",
            "   19  fff3 read: no key may, but should not: encrypted is meant",
        ],
    ),
    "the numbers exchanged": (
        "number = 1", "number = 2",
        [
            "   17  fff3 read: no key should, but may not: everybody is meant",
            "   15  fff3: it can be used, but no expectation names it",
        ],
    ),
    "less than is permitted": (
        FFF1, FFF1.replace('"authenticated"', "{ authenticated = true, key_size = 16 }"),
        [
            f"   10  fff1 write: {SHORT_AUTHENTICATED} (today: key of 7, authenticated) "
            "may, but should not: authenticated, key_size = 16 is meant",
        ],
    ),
    "more than is permitted": (
        FFF1, FFF1.replace('write = "authenticated"', 'write = "encrypted"'),
        [f"   10  fff1 write: {PLAIN} (today: key of 16) should, but may not: encrypted is meant"],
    ),
    "an authorization": (
        FFF1, FFF1.replace('write = "authenticated"', "write = { authenticated = true, authorized = true }"),
        [
            f"   10  fff1 write: {ALL_AUTHENTICATED} {TODAY_AUTHENTICATED} "
            "may, but should not: authenticated, authorized is meant",
        ],
    ),
    "secure connections": (
        FFF1, FFF1.replace('write = "authenticated"', 'write = "secure"'),
        [
            "   10  fff1 write: key of 7 to 16, authenticated; key of 7 to 15, authenticated, secure connections "
            f"{TODAY_AUTHENTICATED} may, but should not: secure is meant",
        ],
    ),
    "authorization alone": (
        NAME, NAME.replace('"everybody"', '"authorized"'),
        ["    3  2a00 Device Name read: everybody may, but should not: authorized is meant"],
    ),
    "a use that is missing": (
        BATTERY, BATTERY.replace('notify = "everybody"\n', ""),
        [
            f"    6  2a19 Battery Level {use}: everybody may, but should not: nobody is meant"
            for use in ("notify", "subscribe")
        ],
    ),
    "a subscription of its own": (BATTERY, BATTERY + 'subscribe = "everybody"\n', []),
    "a subscription for nobody": (
        BATTERY, BATTERY + 'subscribe = "nobody"\n',
        ["    6  2a19 Battery Level subscribe: everybody may, but should not: nobody is meant"],
    ),
    "a subscription as indications are": (
        FFF1, FFF1.replace("notify", "indicate"),
        [
            "   10  fff1 notify: every key (today: key of 16; key of 7, authenticated; key of 16, authenticated) "
            "may, but should not: nobody is meant",
            "   10  fff1 indicate: every key (today: key of 16; key of 7, authenticated; key of 16, authenticated) "
            "should, but may not: encrypted is meant",
        ],
    ),
    "fewer subscriptions than notifications": (
        FFF1, FFF1 + "subscribe = { authenticated = true }\n",
        [f"   10  fff1 subscribe: {PLAIN} (today: key of 16) may, but should not: authenticated is meant"],
    ),
    "all parts of a need": (
        NAME,
        NAME.replace(
            '"everybody"',
            "{ encrypted = true, authenticated = true, key_size = 7, secure = true, authorized = true }",
        ),
        [
            "    3  2a00 Device Name read: everybody may, but should not: "
            "encrypted, authenticated, key_size = 7, secure, authorized is meant",
        ],
    ),
    "a descriptor that is not there": (
        NAME, NAME + 'descriptor = "2901"\n',
        [
            "       expectation 1, 2a00 Device Name: it names no attribute",
            "    3  2a00 Device Name: it can be used, but no expectation names it",
        ],
    ),
    "the client configuration": (
        BATTERY, BATTERY + 'descriptor = "2902"\n',
        [
            "       expectation 2, 2a19 Battery Level: it names no attribute",
            "    6  2a19 Battery Level: it can be used, but no expectation names it",
        ],
    ),
    "an expectation that contradicts another": (
        NAME, NAME + '\n[[expect]]\ncharacteristic = "2a00"\nread = "encrypted"\n',
        ["    3  2a00 Device Name read: no key may, but should not: encrypted is meant"],
    ),
    "none at all": (
        MEANT, "",
        [
            f"   {handle:2}  {kind}: it can be used, but no expectation names it"
            for handle, kind in (
                (3, "2a00 Device Name"), (6, "2a19 Battery Level"), (10, "fff1"), (13, "fff2"),
                (15, "fff3"), (17, "fff3"), (19, "fff3"), (21, "fff4"),
            )
        ],
    ),
}

# A change of the expectations that makes the file wrong, and what is printed of it.
REFUSED = {
    "no TOML": (MEANT, "[[expect]]\nread = \n", "line 2, column 8: "),
    "no text": (MEANT, "[[expect]]\nread = '\udcff'\n", "line 2, column 9: it is not UTF-8"),
    "an unknown key": ("[[expect]]", "[[expected]]", "expected: there is no such key"),
    "no array": (MEANT, "expect = 1\n", "expect: it has to be an array of tables"),
    "a table": (MEANT, "[expect]\n", "expect: it has to be an array of tables"),
    "no table": (MEANT, "expect = [1]\n", "expectation 1: it has to be a table"),
    "an unknown key of an expectation": (
        'notify = "encrypted"', 'notfy = "encrypted"', "expectation 3, notfy: there is no such key",
    ),
    "a key with a line feed": (
        'notify = "encrypted"', '"no\\n" = "encrypted"', "expectation 3, no\\n: there is no such key",
    ),
    "a long key": (
        'notify = "encrypted"', f'{"n" * 70} = "encrypted"',
        f'expectation 3, {"n" * 60}..: there is no such key',
    ),
    "no characteristic": ('characteristic = "fff2"\n', "", "expectation 4, characteristic: the key is missing"),
    "a number for a type": ('"2a00"', "10752", "expectation 1, characteristic: it has to be a string"),
    "a type of three digits": (
        '"2a00"', '"2a0"', "expectation 1, characteristic: it is neither four hexadecimal digits nor a UUID",
    ),
    "a bad service": (
        'service = "fff0"\ncharacteristic = "fff2"', 'service = "fffg"\ncharacteristic = "fff2"',
        "expectation 4, service: it is neither four hexadecimal digits nor a UUID",
    ),
    "a bad descriptor": (NAME, NAME + "descriptor = 1\n", "expectation 1, descriptor: it has to be a string"),
    "no integer": ("number = 2", 'number = "2"', "expectation 6, number: it has to be an integer"),
    "a number of 0": ("number = 2", "number = 0", "expectation 6, number: it has to be from 1 to 1024"),
    "a number of 1025": ("number = 2", "number = 1025", "expectation 6, number: it has to be from 1 to 1024"),
    "a negative number": ("number = 2", "number = -1", "expectation 6, number: it has to be from 1 to 1024"),
    "an unknown word": (
        'write = "authenticated"', 'write = "auth"',
        "expectation 3, write: it is none of everybody, encrypted, authenticated, secure, authorized, nobody",
    ),
    "a boolean for a need": (
        'write = "authenticated"', "write = true", "expectation 3, write: it has to be a string or a table",
    ),
    "an unknown key of a need": (
        'write = "authenticated"', "write = { authentic = true }",
        "expectation 3, write, authentic: there is no such key",
    ),
    "a string for a boolean": (
        'write = "authenticated"', 'write = { authenticated = "true" }',
        "expectation 3, write, authenticated: it has to be a boolean",
    ),
    "a string for a size": (
        'write = "authenticated"', 'write = { key_size = "16" }',
        "expectation 3, write, key_size: it has to be an integer",
    ),
    "a size of 6": (
        'write = "authenticated"', "write = { key_size = 6 }",
        "expectation 3, write, key_size: it has to be from 7 to 16",
    ),
    "a size of 17": (
        'write = "authenticated"', "write = { key_size = 17 }",
        "expectation 3, write, key_size: it has to be from 7 to 16",
    ),
    "too many": (MEANT, '[[expect]]\ncharacteristic = "2a00"\n' * 1025, "expect: there are more than 1,024"),
    "too large": (MEANT, "#" * 2_097_153, "more than 2,097,152 octets"),
}

DESCRIPTORS = """[[service]]
uuid = "180f"
[[service.characteristic]]
uuid = "2a19"
value = "64"
properties = ["notify"]
[[service.characteristic.descriptor]]
uuid = "2901"
value = "6f6e65"
properties = ["read"]
[[service.characteristic.descriptor]]
uuid = "2904"
value = "00"
properties = ["read"]
read = { encrypted = true }
[[service.characteristic]]
uuid = "2a19"
value = "64"
properties = ["read"]
[[service.characteristic.descriptor]]
uuid = "2901"
value = "74776f"
properties = ["read", "write"]
write = { encrypted = true }

[[service]]
uuid = "1800"
[[service.characteristic]]
uuid = "2a00"
value = "00"
properties = ["read"]
[[service.characteristic.descriptor]]
uuid = "2901"
value = "6f6e65"
properties = ["read"]
"""
DESCRIPTORS_MEANT = """[[expect]]
characteristic = "2a19"
number = 1
notify = "everybody"
[[expect]]
characteristic = "2a19"
number = 2
read = "everybody"
[[expect]]
characteristic = "2a19"
descriptor = "2904"
read = "encrypted"
[[expect]]
characteristic = "2a19"
number = 1
descriptor = "2901"
read = "everybody"
[[expect]]
characteristic = "2a19"
number = 2
descriptor = "2901"
read = "everybody"
write = "encrypted"
[[expect]]
characteristic = "2a00"
read = "everybody"
[[expect]]
characteristic = "2a00"
descriptor = "2901"
read = "everybody"
"""

# A table of 112 services with 498 attributes, 20 keys of four kinds, and what is meant.
LARGE = "".join(
    f"""[[service]]
uuid = "{0xA000 + number:04x}"
[[service.characteristic]]
uuid = "{0xB000 + number:04x}"
value = "00"
{'properties = ["read", "write", "notify"]' if number < 50 else 'properties = ["read", "write"]'}
read = {{ encrypted = true }}
write = {{ authenticated = true, key_size = 16 }}
{"config = { encrypted = true }" if number < 50 else ""}
[[service.characteristic.descriptor]]
uuid = "2901"
value = "6261"
properties = ["read"]
"""
    for number in range(112)
)
MANY_KEYS = "".join(
    f"""[[key]]
address = "00:00:00:00:01:{number:02x}"
kind = "public"
rand = "{number + 1:016x}"
ediv = {number}
ltk = "{number:032x}"
size = {16 if number % 2 else 7}
authenticated = {str(number % 4 < 2).lower()}
"""
    for number in range(20)
)
OTHER_KEYS = {
    "no key file": None,
    "no key": "",
    "one authenticated key of 16": KEYS_OF_ONE,
}

# A value that is written, with a need in place of NEED.
ONE = """[[service]]
uuid = "fff0"
[[service.characteristic]]
uuid = "fff1"
value = "00"
properties = ["write"]
write = { NEED }
"""
# A value that is notified, what is meant of it, and the differences.
SENT = """[[service]]
uuid = "fff0"
[[service.characteristic]]
uuid = "fff1"
value = "00"
fixed = true
properties = ["read", "notify"]
"""
SENT_MEANT = '[[expect]]\ncharacteristic = "fff1"\n'
LONG = "{ authenticated = true, key_size = 16 }"
STAYING = {
    "an authorization": (
        "config = { authorized = true }\n", 'read = "everybody"\nnotify = "authorized"\n',
        ["    3  fff1 notify: everybody may, but should not: authorized is meant"],
    ),
    "an authorization of the subscription alone": (
        "config = { authorized = true }\n", 'read = "everybody"\nnotify = "everybody"\nsubscribe = "authorized"\n', [],
    ),
    "an authorization of both": (
        "read = { authorized = true }\nconfig = { authorized = true }\n",
        'read = "authorized"\nnotify = "authorized"\n', [],
    ),
    "a weaker key": (
        f"read = {{ encrypted = true }}\nconfig = {LONG}\n", f'read = "encrypted"\nnotify = {LONG}\n',
        [
            "    3  fff1 notify: key of 7 to 16; key of 7 to 15, authenticated; key of 7 to 16, secure connections; "
            "key of 7 to 15, authenticated, secure connections "
            "may, but should not: authenticated, key_size = 16 is meant",
        ],
    ),
    "a table that closes it": (
        f"config = {LONG}\n", f'read = "everybody"\nnotify = {LONG}\n',
        [
            "    3  fff1 notify: no key; key of 7 to 16; key of 7 to 15, authenticated; "
            "key of 7 to 16, secure connections; key of 7 to 15, authenticated, secure connections "
            "may, but should not: authenticated, key_size = 16 is meant",
        ],
    ),
}
LARGE_MEANT = "".join(
    f"""[[expect]]
service = "{0xA000 + number:04x}"
characteristic = "{0xB000 + number:04x}"
number = 1
read = "encrypted"
write = {{ authenticated = true, key_size = 16 }}
{'notify = "encrypted"' if number < 50 else ''}
[[expect]]
characteristic = "{0xB000 + number:04x}"
descriptor = "2901"
read = "everybody"
"""
    for number in range(112)
)


# A model of needs and of the lines, independent of the program: a need is a dictionary, or None for nobody's.
SIDES = ((False, True), (False, False), (True, True), (True, False))
FLAGS = ((False, False), (True, False), (False, True), (True, True))
KINDS = [None, *((size, *flags) for flags in FLAGS for size in range(7, 17))]
PARTS = ("encrypted", "authenticated", "key_size", "secure", "authorized")
RIGHTS = ("read", "write", "command", "notify", "indicate", "subscribe")


def is_met(need, key, is_authorized):
    """Whether a client with this key, or none, meets a need; None is nobody's."""
    if need is None or need.get("authorized") and not is_authorized:
        return False
    size, authenticated, secure = key or (0, False, False)
    least = 16 if need.get("secure") else need.get("key_size", 0)
    return (
        not (key is None and any(need.get(part) for part in PARTS[:4]))
        and (authenticated or not (need.get("authenticated") or need.get("secure")))
        and (secure or not need.get("secure"))
        and size >= least
    )


def need_of(value, right):
    """What a right of a value in a table requires."""
    if right == "subscribe":
        return value["config"] if {"notify", "indicate"} & set(value["properties"]) else None
    place = "write" if right in ("write", "command") else "read"
    return value[place] if right in value["properties"] else None


def kinds_words(kinds):
    """Kinds of keys in words, sizes that follow each other as one."""
    if len(kinds) > 39 and (None in kinds) == (len(kinds) == 41):
        return "everybody" if None in kinds else "every key"
    words = ["no key"] if None in kinds else []
    for flags in FLAGS:
        runs = []
        for size in sorted(kind[0] for kind in kinds if kind and kind[1:] == flags):
            if runs and runs[-1][1] == size - 1:
                runs[-1][1] = size
            else:
                runs.append([size, size])
        named = ", authenticated" * flags[0] + ", secure connections" * flags[1]
        words += [f"key of {first}{f' to {last}' * (first < last)}{named}" for first, last in runs]
    return "; ".join(words)


def need_words(need):
    if need is None:
        return "nobody"
    parts = [f"key_size = {need[part]}" if part == "key_size" else part for part in PARTS if need.get(part)]
    return ", ".join(parts) or "everybody"


def lines_of(name, value, meant):
    """The lines of a value, for what is meant of each right."""
    lines = []
    for right in RIGHTS:
        need, wanted = need_of(value, right), meant[right]
        for side in SIDES:
            kinds = [
                key for key in KINDS
                if next(((late, is_met(need, key, late)) for late in (False, True)
                         if is_met(need, key, late) != is_met(wanted, key, late)), None) == side
            ]
            if kinds:
                lines.append(
                    f"{name} {right}: {kinds_words(kinds)}{', once authorized,' * side[0]} "
                    f"{'may, but should not' if side[1] else 'should, but may not'}: {need_words(wanted)} is meant"
                )
    return lines


def random_need(choose):
    """A need of a table: one in three asks for nothing."""
    if choose.random() < 1 / 3:
        return {}
    need = {part: True for part in PARTS if part != "key_size" and choose.random() < 0.3}
    return need if need.get("secure") or choose.random() < 0.5 else {**need, "key_size": choose.randint(7, 16)}


def toml_of(need):
    if need is None:
        return '"nobody"'
    return "{ " + ", ".join(f"{part} = {str(of).lower()}" for part, of in need.items()) + " }"


def random_value(choose):
    properties = [right for right in RIGHTS[:5] if choose.random() < 0.5]
    return {"properties": properties, **{place: random_need(choose) for place in ("read", "write", "config")}}


def table_of(values):
    """A table of values; those without a configuration have no rule for one."""
    text = '[[service]]\nuuid = "fff0"\n'
    for at, value in enumerate(values):
        text += f'[[service.characteristic]]\nuuid = "{0xA000 + at:04x}"\nvalue = "00"\nfixed = true\n'
        text += f"properties = {str(value['properties']).replace(chr(39), chr(34))}\n"
        text += f"read = {toml_of(value['read'])}\nwrite = {toml_of(value['write'])}\n"
        if {"notify", "indicate"} & set(value["properties"]):
            text += f"config = {toml_of(value['config'])}\n"
    return text


def meant_of(values, choose):
    """What is meant of values, without each right that a missing key means, mostly."""
    text = ""
    for at, meant in enumerate(values):
        text += f'[[expect]]\ncharacteristic = "{0xA000 + at:04x}"\n'
        sent = meant["indicate"] if meant["notify"] is None else meant["notify"]
        for right in RIGHTS:
            if meant[right] != (sent if right == "subscribe" else None) or choose.random() < 0.1:
                text += f"{right} = {toml_of(meant[right])}\n"
    return text


def lines_of_all(values, meant):
    """The lines of values, whose handles follow each other with the declarations and configurations."""
    lines, handle = [], 1
    for at, (value, wanted) in enumerate(zip(values, meant)):
        handle += 2
        lines += lines_of(f"{handle:5}  {0xA000 + at:04x}", value, wanted)
        handle += bool({"notify", "indicate"} & set(value["properties"]))
    return lines


def changed(values, meant, choose):
    """Values with one change of a property or of a need, or what is meant with one."""
    values, meant = [dict(value) for value in values], [dict(wanted) for wanted in meant]
    value, wanted = choose.choice(values), choose.choice(meant)
    what = choose.choice((*RIGHTS, "a need", "a need", "a property"))
    if what == "a property":
        value["properties"] = sorted({*value["properties"]} ^ {choose.choice(RIGHTS[:5])}, key=RIGHTS.index)
    elif what == "a need":
        value[choose.choice(("read", "write", "config"))] = random_need(choose)
    else:
        wanted[what] = choose.choice((None, random_need(choose)))
    return values, meant


def written(folder, name, text):
    with open(f"{folder}/{name}", "w", encoding="utf-8", errors="surrogateescape") as file:
        file.write(text)
    return f"{folder}/{name}"


@pytest.fixture
def expect(program, folder):
    """Compares texts of a table, keys (or None) and expectations. Returns the status, the lines, and standard error."""

    def compared(table, keys, meant):
        names = zip(("table.toml", "keys.toml", "expect.toml"), (table, keys, meant))
        paths = [written(folder, name, text) for name, text in names if text is not None]
        ran = subprocess.run([program, "expect", *paths], capture_output=True, text=True)
        return ran.returncode, ran.stdout.splitlines(), ran.stderr.replace(paths[-1], "FILE")

    return compared


def verdict(differences, count):
    """What is printed, and the status."""
    hold = f"{count} expectations hold" if count > 1 else "1 expectation holds"
    return (3, differences, "") if differences else (
        0, [f"{hold}, for clients with every kind of key and without one."], "",
    )


def without_today(lines):
    """The lines as they are without a key file."""
    return [re.sub(r" \(today: [^)]*\)", "", line) for line in lines]


def test_the_example(program):
    paths = [f"{ROOT}/examples/{name}" for name in ("door.toml", "keys.toml", "door.expect.toml")]
    ran = subprocess.run([program, "expect", *paths], capture_output=True, text=True)
    assert (ran.returncode, ran.stdout, ran.stderr) == (
        0, "8 expectations hold, for clients with every kind of key and without one.\n", "",
    )


def test_the_example_of_the_page(expect):
    """The expectations in docs/TABLE.md hold for the table there."""
    examples = re.findall(r"```toml\n(.*?)```", text_of(f"{ROOT}/docs/TABLE.md"), re.DOTALL)
    table, meant = (next(text for text in examples if text.startswith(head)) for head in ("[[service]]", "[[expect]]"))
    assert expect(table, None, meant) == verdict([], 2)


@pytest.mark.parametrize("slip", TABLE_SLIPS)
def test_a_slip_in_a_table(expect, slip):
    before, after, differences = TABLE_SLIPS[slip]
    assert DOOR.count(before) == 1
    assert expect(DOOR.replace(before, after), KEYS, MEANT) == verdict(differences, 8)


@pytest.mark.parametrize("slip", MEANT_SLIPS)
def test_other_expectations(expect, slip):
    before, after, differences = MEANT_SLIPS[slip]
    assert MEANT.count(before) == 1
    assert expect(DOOR, KEYS, MEANT.replace(before, after)) == verdict(differences, 8)


@pytest.mark.parametrize("fault", REFUSED)
def test_a_refused_file(expect, fault):
    before, after, text = REFUSED[fault]
    assert before in MEANT
    status, lines, error = expect(DOOR, KEYS, MEANT.replace(before, after))
    assert (status, lines) == (1, [])
    assert error.startswith(f"expect: FILE: {text}") and error.endswith("\n")
    if not text.endswith(": "):
        assert error == f"expect: FILE: {text}\n"


@pytest.mark.parametrize("keys", OTHER_KEYS)
@pytest.mark.parametrize("slip", TABLE_SLIPS)
def test_a_slip_whatever_the_keys_are(expect, slip, keys):
    """The keys of a file are named in the lines, and change nothing else."""
    before, after, differences = TABLE_SLIPS[slip]
    status, lines, error = expect(DOOR.replace(before, after), OTHER_KEYS[keys], MEANT)
    assert (status, without_today(lines), error) == verdict(without_today(differences), 8)
    assert OTHER_KEYS[keys] or lines == without_today(lines)


@pytest.mark.parametrize("rule", ["secure = true", "encrypted = true, key_size = 16"])
def test_a_lost_rule(expect, rule):
    """A rule that no key of the file would miss is missed all the same."""
    meant = f'[[expect]]\ncharacteristic = "fff1"\nwrite = {{ {rule} }}\n'
    kinds = {
        "secure = true": "key of 7 to 16; key of 7 to 16, authenticated; key of 7 to 16, secure connections; "
        "key of 7 to 15, authenticated, secure connections",
        "encrypted = true, key_size = 16": "key of 7 to 15; key of 7 to 15, authenticated; "
        "key of 7 to 15, secure connections; key of 7 to 15, authenticated, secure connections",
    }[rule]
    line = f"    3  fff1 write: {kinds} may, but should not: {rule.replace(' = true', '')} is meant"
    assert expect(ONE.replace("NEED", "encrypted = true"), "", meant) == verdict([line], 1)
    assert expect(ONE.replace("NEED", rule), "", meant) == verdict([], 1)


@pytest.mark.parametrize("table", STAYING)
def test_a_subscription_that_stays(expect, table):
    """What guards only the subscription is not what is needed for being sent the value."""
    rules, meant, lines = STAYING[table]
    assert expect(SENT + rules, None, SENT_MEANT + meant) == verdict(lines, 1)


def test_no_expectations(expect):
    assert expect('[[service]]\nuuid = "fff0"\n', None, "") == (
        0, ["There are no expectations, and nobody can use a value or a descriptor."], "",
    )


def test_descriptors(expect):
    assert expect(DESCRIPTORS, KEYS, DESCRIPTORS_MEANT) == verdict([], 7)


@pytest.mark.parametrize("number, differences", [
    (
        1,
        [
            "    5  2901 Characteristic User Description write: every key "
            "(today: key of 16; key of 7, authenticated; key of 16, authenticated) "
            "should, but may not: encrypted is meant",
            "    9  2901 Characteristic User Description: it can be used, but no expectation names it",
        ],
    ),
    (2, ["    9  2901 Characteristic User Description write: no key may, but should not: encrypted is meant"]),
])
def test_a_descriptor_by_number(expect, number, differences):
    """A number counts the characteristics, whose descriptors are named."""
    table = DESCRIPTORS.replace("write = { encrypted = true }\n", "")
    meant = DESCRIPTORS_MEANT.replace('number = 2\ndescriptor', f"number = {number}\ndescriptor")
    assert expect(table, KEYS, meant) == verdict(differences, 7)


def test_a_refused_table(expect):
    status, lines, error = expect(DOOR.replace('"read"', '"raed"', 1), KEYS, "expect = 1")
    assert (status, lines) == (1, [])
    assert error.startswith("table: fault 7: service 1, characteristic 1, properties")


def test_refused_keys(expect):
    status, lines, error = expect(DOOR, KEYS.replace("size = 16", "size = 17", 1), "expect = 1")
    assert (status, lines, error) == (1, [], "keys: fault 5: key 1, size: it has to be from 7 to 16\n")


@pytest.mark.parametrize("place", range(3))
def test_a_file_that_is_not_there(program, folder, place):
    paths = [f"{ROOT}/examples/{name}" for name in ("door.toml", "keys.toml", "door.expect.toml")]
    paths[place] = f"{folder}/gone"
    ran = subprocess.run([program, "expect", *paths], capture_output=True, text=True)
    assert (ran.returncode, ran.stdout) == (1, "")
    assert ran.stderr.startswith(f"file: unreadable: {folder}/gone: ")


@pytest.mark.parametrize("place", range(3))
def test_a_folder_in_the_place_of_a_file(program, folder, place):
    paths = [f"{ROOT}/examples/{name}" for name in ("door.toml", "keys.toml", "door.expect.toml")]
    paths[place] = folder
    ran = subprocess.run([program, "expect", *paths], capture_output=True, text=True)
    assert (ran.returncode, ran.stdout) == (1, "")
    assert ran.stderr == f"file: unreadable: {folder}: Is a directory (os error 21)\n"


def test_a_large_table(expect):
    before = resource.getrusage(resource.RUSAGE_CHILDREN).ru_utime
    assert expect(LARGE, MANY_KEYS, LARGE_MEANT) == verdict([], 224)
    # Seconds of a processor; without proofs it took 2, most of them for reading the files.
    assert resource.getrusage(resource.RUSAGE_CHILDREN).ru_utime - before < 10


def test_many_expectations(expect):
    """250 expectations, each of 511 values, take no time for each kind of key."""
    value = '[[service.characteristic]]\nuuid = "fff1"\nvalue = "00"\nproperties = ["read", "write"]\n'
    rules = "read = { encrypted = true }\nwrite = { authenticated = true, key_size = 16 }\n"
    meant = '[[expect]]\ncharacteristic = "fff1"\nread = "encrypted"\nwrite = { authenticated = true, key_size = 16 }\n'
    before = resource.getrusage(resource.RUSAGE_CHILDREN).ru_utime
    assert expect('[[service]]\nuuid = "fff0"\n' + (value + rules) * 511, None, meant * 250) == verdict([], 250)
    # Seconds of a processor; without proofs it took 4, and 200 with a comparison for each kind of key.
    assert resource.getrusage(resource.RUSAGE_CHILDREN).ru_utime - before < 20


def test_few_lines(expect):
    """A right of an attribute has at most four lines, however many kinds of keys differ."""
    value = '[[service.characteristic]]\nuuid = "fff1"\nvalue = "00"\nproperties = ["read", "write"]\n'
    rules = "read = { authorized = true }\nwrite = { authenticated = true, authorized = true }\n"
    table = '[[service]]\nuuid = "fff0"\n' + (value + rules) * 200
    meant = '[[expect]]\ncharacteristic = "fff1"\nread = { key_size = 12 }\nwrite = "secure"\n' * 4
    status, lines, error = expect(table, None, meant)
    assert (status, len(lines), error) == (3, 4 * 200 * 4, "")
    one = [
        "read: key of 12 to 16; key of 12 to 16, authenticated; key of 12 to 16, secure connections; "
        "key of 12 to 16, authenticated, secure connections should, but may not: key_size = 12 is meant",
        "read: no key; key of 7 to 11; key of 7 to 11, authenticated; key of 7 to 11, secure connections; "
        "key of 7 to 11, authenticated, secure connections, once authorized, may, but should not: "
        "key_size = 12 is meant",
        "write: key of 16, authenticated, secure connections should, but may not: secure is meant",
        "write: key of 7 to 16, authenticated; key of 7 to 15, authenticated, secure connections, once authorized, "
        "may, but should not: secure is meant",
    ]
    assert lines == [
        f"{handle:5}  fff1 {line}" for _ in range(4) for handle in range(3, 403, 2) for line in one
    ]


def test_many_of_one_type(expect):
    """Each of many characteristics of one type is found by its number."""
    one = '[[service.characteristic]]\nuuid = "fff1"\nvalue = "00"\nproperties = ["read"]\n'
    table = '[[service]]\nuuid = "fff0"\n' + one * 100
    meant = "".join(
        f'[[expect]]\nservice = "fff0"\ncharacteristic = "fff1"\nnumber = {number}\nread = "everybody"\n'
        for number in range(1, 101)
    )
    assert expect(table, MANY_KEYS, meant) == verdict([], 100)
    table += "read = { encrypted = true }\n"
    assert expect(table, "", meant) == verdict(
        ["  201  fff1 read: no key should, but may not: everybody is meant"], 100
    )


@pytest.mark.parametrize("part", range(10))
def test_random_tables(expect, part):
    """True files hold, and a change is reported by the lines of the model."""
    choose = random.Random(part)
    for _ in range(33):
        values = [random_value(choose) for _ in range(choose.randint(1, 6))]
        meant = [{right: need_of(value, right) for right in RIGHTS} for value in values]
        assert expect(table_of(values), None, meant_of(meant, choose)) == verdict([], len(values))
        for _ in range(3):
            others, wanted = changed(values, meant, choose)
            keys = choose.choice((None, "", KEYS_OF_ONE))
            status, lines, error = expect(table_of(others), keys, meant_of(wanted, choose))
            assert (status, without_today(lines), error) == verdict(lines_of_all(others, wanted), len(values))
