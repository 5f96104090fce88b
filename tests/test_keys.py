"""Tries tools/keys: new keys, keys from BlueZ and to it, lists, what it refuses, and a Python without tomllib."""

import os
import re

import pytest

from parties import ROOT, text_of
from parties.key_tool import (
    CENTRAL, CONFIRMED, DEVICE, INFO, KEYS, LEGACY, LEGACY_INFO, SECURE, SHORT, accepted, begun, fields_of,
    from_info, keys, own_file, put, refused,
)

pytestmark = pytest.mark.without_program

# The entries of examples/keys.toml and one of LE Secure Connections.
LISTED = f"""entry  address            kind    rand              ediv  size  authenticated  secure
1      c0:00:00:00:00:01  random  0101010101010101  257   16    false          false
2      00:11:22:33:44:55  public  0202020202020202  514   16    true           false
3      00:11:22:33:44:55  public  0303030303030303  771   7     true           false
4      {CENTRAL}  public  0000000000000000  0     16    false          true
"""
BONDS = {"secure": SECURE, "legacy": LEGACY, "confirmed": CONFIRMED, "short": SHORT}
LEGACY_CENTRAL = text_of(f"{INFO}/legacy-central.info")
SECURE_PERIPHERAL = text_of(f"{INFO}/secure-peripheral.info")


@pytest.mark.parametrize("words", [
    "--help", *(f"{it} --help" for it in ("new", "add", "list", "check", "remove", "from-bluez")), "to-bluez -h",
])
def test_help(words):
    """A command says how it is called."""
    status, printed, told = keys(*words.split())
    assert (status, told, "usage: tools/keys" in printed) == (0, "", True), words


@pytest.mark.parametrize("words, why", [
    ([], "COMMAND"),
    (["make"], "'make'"),
    (["new", CENTRAL, "public", "--size", "6"], "from 7 to 16"),
    (["new", CENTRAL[1:], "public"], "is no address"),
    (["new", CENTRAL, "static"], "'static'"),
    (["from-bluez", f"{INFO}/legacy-central.info", CENTRAL, "public"], "--role"),
    (["add"], "KEYS"),
    (["list"], "KEYS"),
    (["check", "a", "b"], "b"),
    (["remove", "a", CENTRAL], "KIND"),
    (["remove", "a", CENTRAL[1:], "public"], "is no address"),
    (["remove", "a", CENTRAL, "public", "--entry", "one"], "'one'"),
    (["remove", "a", CENTRAL, "public", "--entry", "1", "--all"], "not allowed with argument"),
], ids=[
    "no_words", "command", "size", "address", "kind", "no_role", "add", "list", "check", "remove", "remove_address",
    "remove_entry", "remove_all",
])
def test_words(words, why):
    """Words that are not understood are refused."""
    refused(why, *words, status=64)


@pytest.mark.parametrize("size", [7, 15, 16])
@pytest.mark.parametrize("worth", ["", "--authenticated", "--secure", "--secure --authenticated"])
def test_new(folder, worth, size):
    """A new key is of the kind that is asked for, and stays the same to BlueZ and back."""
    made = accepted("new", CENTRAL.upper(), "public", *worth.split(), "--size", str(size))
    it = fields_of(made)
    found = it["address"], it["kind"], it["size"], it["authenticated"], it.get("secure", "false")
    values = [str(word in worth).lower() for word in ("--authenticated", "--secure")]
    assert found == (CENTRAL, "public", str(size), *values), "what it is"
    assert it["ltk"][2 * size:] == "00" * (16 - size), "the bytes that do not count"
    assert ((it["rand"], it["ediv"]) == ("0" * 16, "0")) == ("--secure" in worth), "rand and ediv are 0"
    path = put(f"{folder}/there.toml", made)
    info = put(f"{folder}/there.info", accepted("to-bluez", path, CENTRAL, "public"))
    assert accepted(*from_info(info, "central")) == made, "there and back"


def test_new_keys():
    """Each new key is another."""
    many = [fields_of(keys("new", CENTRAL, "random")[1]) for _ in range(12)]
    others = {field: len({it[field] for it in many}) for field in ("ltk", "rand")}
    assert others == {"ltk": len(many), "rand": len(many)}


def test_a_private_address():
    """A key for a private address is made with a note."""
    status, printed, told = keys("new", "7f:00:00:00:00:01", "random")
    assert (status, printed.startswith("[[key]]")) == (0, True), "is made"
    assert told.startswith("note: 7f:00:00:00:00:01 is a private address"), "a note"


def test_list(folder):
    """A line for each entry has all of it except the key, and the numbers are those of --entry."""
    path = own_file(f"{folder}/keys.toml", text_of(f"{ROOT}/examples/keys.toml") + SECURE)
    assert accepted("list", path) == LISTED, "the lines"
    heads = accepted("list", own_file(f"{folder}/none.toml", ""))
    assert heads.split() == LISTED.splitlines()[0].split() and heads.count("\n") == 1, "no entries"


def test_check(folder):
    """A file that the device accepts is counted, and what a user has to know of it is noted."""
    path = own_file(f"{folder}/keys.toml", f"{SECURE}\n{LEGACY}")
    assert accepted("check", path) == "keys 2\n", "two keys"
    assert accepted("check", own_file(f"{folder}/none.toml", "")) == "keys 0\n", "none"
    os.chmod(put(path, LEGACY.replace("public", "random")), 0o640)
    status, printed, told = keys("check", path)
    wanted = [f"note: {CENTRAL} is a private address", f"note: {path} can be used by others than its owner"]
    assert (status, printed) == (0, "keys 1\n"), "a private address, and a file that others may read"
    assert [it[:len(due)] for it, due in zip(told.splitlines(), wanted)] == wanted, "two notes"


def test_no_output():
    """What cannot be printed is a refusal, and no trace of Python."""
    with open("/dev/full", "w", encoding="utf-8") as full:
        with begun("new", CENTRAL, "public", stdout=full) as call:
            told = call.communicate()[1]
    assert (call.returncode, told) == (1, "tools/keys: standard output: No space left on device\n"), "a full disk"


@pytest.mark.parametrize("role", ["central", "peripheral"])
@pytest.mark.parametrize("bond", BONDS)
def test_samples(bond, role):
    """Both sides' files of a bond have its key."""
    assert accepted(*from_info(f"{INFO}/{bond}-{role}.info", role)) == BONDS[bond], "the key"


@pytest.mark.parametrize("bond", BONDS)
def test_there_and_back(folder, bond):
    """The key of a bond stays the same to BlueZ and back."""
    path = put(f"{folder}/bond.toml", BONDS[bond])
    info = put(f"{folder}/bond.info", accepted("to-bluez", path, CENTRAL, "public"))
    assert accepted(*from_info(info, "central")) == BONDS[bond], "there and back"


def test_to_bluez(folder):
    """The file for BlueZ is one that BlueZ writes, also for a device with a random address."""
    path = put(f"{folder}/legacy.toml", LEGACY)
    assert accepted("to-bluez", path, CENTRAL, "public") == LEGACY_INFO, "the file of to-bluez"
    found = accepted("to-bluez", path, CENTRAL, "public", "--device-kind", "random")
    assert found == LEGACY_INFO.replace("=public", "=static"), "a random device"


@pytest.mark.parametrize("text, old, new, field, due", [
    (LEGACY_CENTRAL, "Rand=13167216544897419883", "Rand=9223372036854775809", "rand", "0100000000000080"),
    (LEGACY_CENTRAL, "Rand=13167216544897419883", "Rand=0x0102030405060708", "rand", "0102030405060708"),
    (LEGACY_CENTRAL, "EDiv=24400", "EDiv=1", "ediv", "1"),
    (LEGACY_CENTRAL, "Key=5904", "Key=0x5904", "ltk", "5904c4364001b31d930ffda4cfa84386"),
    (LEGACY_CENTRAL, "EncSize=16", "EncSize=7", "size", "7"),
    (LEGACY_CENTRAL, "EncSize=16", "EncSize=7", "ltk", "5904c4364001b3" + "00" * 9),
    (LEGACY_CENTRAL, "Authenticated=0", "Authenticated=1", "authenticated", "true"),
    (SECURE_PERIPHERAL, "Authenticated=2", "Authenticated=3", "authenticated", "true"),
    (SECURE_PERIPHERAL, "Authenticated=2", "Authenticated=3", "secure", "true"),
    (SECURE_PERIPHERAL, "[PeripheralLongTermKey]", "[Other]", "ltk", "39b1d0615459de97b92445105423c671"),
], ids=[
    "rand", "rand_in_hexadecimal_digits", "ediv", "key_with_0x", "size", "bytes_that_do_not_count",
    "authenticated_1", "authenticated_3", "authenticated_3_secure", "the_old_name_alone",
])
def test_changed(folder, text, old, new, field, due):
    """A file with another text in one place has another key: the order of the bytes, and what it is worth."""
    assert old in text, "what is changed"
    info = put(f"{folder}/changed.info", text.replace(old, new, 1))
    found = accepted(*from_info(info, "central" if text == LEGACY_CENTRAL else "peripheral"))
    assert fields_of(found).get(field) == due, field


def test_a_static_address(folder):
    """The key for a device with a static random address is taken with a note."""
    info = put(f"{folder}/static.info", LEGACY_CENTRAL.replace("=public", "=static"))
    status, printed, told = keys(*from_info(info, "central"))
    found = status, printed, "start the host with --address" in told
    assert found == (0, LEGACY, True), "a device with a static random address"


def test_private_addresses(folder):
    """The key of a client with private addresses is taken with a note."""
    text = SECURE_PERIPHERAL + "\n[IdentityResolvingKey]\nKey=00000000000000000000000000000000\n"
    status, printed, told = keys(*from_info(put(f"{folder}/private.info", text), "peripheral"))
    found = status, printed, "private addresses" in told
    assert found == (0, SECURE, True), "a client with private addresses"


@pytest.mark.parametrize("end", "\v\f\x1c\x1d\x1e\x85\u2028\u2029", ids=lambda it: f"U+{ord(it):04X}")
def test_a_name_is_one_line(folder, end):
    """A client's name with an end of a line that BlueZ does not know is no line, and gives no key."""
    group = "[LongTermKey]\nKey=00112233445566778899AABBCCDDEEFF\nAuthenticated=3\nEncSize=16\nEDiv=0\nRand=0\n"
    real = text_of(f"{INFO}/legacy-peripheral.info")
    own = real[real.index("[LongTermKey]") : real.index("[PeripheralLongTermKey]")]
    name = "Name=x" + f"\n{group}[General]".replace("\n", end)
    info = put(f"{folder}/named.info", real.replace(own, "").replace("Name=", name, 1))
    assert accepted(*from_info(info, "peripheral")) == LEGACY, "the key of the bond alone"


def refused_info():
    """Returns files `info` that are refused: name, text, role, and what has to be told of each."""
    received = LEGACY_CENTRAL[: LEGACY_CENTRAL.index("[PeripheralLongTermKey]")]
    handed_out = LEGACY_CENTRAL.replace("[LongTermKey]", "[Other]")
    # A key that to-bluez made, and a bond after it.
    both = text_of(f"{INFO}/secure-central.info").replace(
        "[PeripheralLongTermKey]\nKey=39B1", "[LongTermKey]\nKey=0000"
    )
    return [
        ("opposite_role", handed_out, "central", "did a peripheral write it?"),
        ("opposite_role_of_peripheral", received, "peripheral", "did a central write it?"),
        ("no_key", "[General]\nName=x\n", "central", "has no long-term key"),
        ("short_key", received.replace("Key=5904", "Key=59"), "central", "[LongTermKey]: Key has to be"),
        ("no_key_in_the_group", received.replace("Key=5904", "Kay=5904"), "central", "Key is missing"),
        ("no_rand", received.replace("Rand=", "Rnd="), "central", "Rand is missing"),
        ("large_rand", received.replace("Rand=1", "Rand=9"), "central",
         "Rand has to be a decimal number of at most 64 bits"),
        ("large_ediv", received.replace("EDiv=", "EDiv=9"), "central",
         "EDiv has to be a decimal number of at most 16 bits"),
        ("small_key", received.replace("EncSize=16", "EncSize=6"), "central",
         "EncSize has to be from 7 to 16"),
        ("debug_key", received.replace("Authenticated=0\nEnc", "Authenticated=4\nEnc"), "central",
         "Authenticated=4"),
        ("secure_key_with_ediv", received.replace("Authenticated=0\nEnc", "Authenticated=2\nEnc"), "central",
         "have to be 0"),
        ("two_secure_keys", both, "central", "[SlaveLongTermKey] and [LongTermKey] have different keys"),
        ("another_file", "key = 1\n", "central", "line 1 is none"),
    ]


@pytest.mark.parametrize("text, role, why", [pytest.param(*it[1:], id=it[0]) for it in refused_info()])
def test_refused_info(folder, text, role, why):
    """A file `info` with a fault in one place is refused for that place."""
    refused(why, *from_info(put(f"{folder}/bad.info", text), role))


def test_no_info(folder):
    """A file `info` that is not there, or that is for another kind of address, is refused."""
    refused("cannot be read", *from_info(f"{folder}/nothing", "central"))
    refused("AddressType", *from_info(f"{INFO}/legacy-peripheral.info", "peripheral", "random"))


def test_the_folders_of_info(folder):
    """The folders of a file `info` say whose it is, and those of others are refused."""
    folders = put(f"{folder}/{CENTRAL.upper()}/{DEVICE.upper()}/info", LEGACY_CENTRAL)
    assert accepted(*from_info(folders, "central")) == LEGACY, "the folders of the client"
    why = f"the client is {DEVICE}, and ADDRESS is {CENTRAL}: if ADDRESS is right, use --role central"
    refused(why, *from_info(folders, "peripheral"))
    others = put(f"{folder}/{DEVICE.upper()}/00:00:00:00:00:01/info", LEGACY_CENTRAL)
    refused(f"and ADDRESS is {CENTRAL}\n", *from_info(others, "central"))


# `keys` checks that no message has it.
PASTED = "FFeeddccbbaa99887766554433221100"
LEGACY_FILE = f"{INFO}/legacy-central.info"


@pytest.mark.parametrize("words", [
    [PASTED], ["new", PASTED, "public"], ["new", CENTRAL, PASTED], ["new", CENTRAL, "public", PASTED],
    ["new", CENTRAL, "public", "--size", PASTED],
    ["to-bluez", LEGACY_FILE, CENTRAL, "public", "--entry", PASTED],
    ["remove", LEGACY_FILE, PASTED, "public"], ["remove", LEGACY_FILE, CENTRAL, "public", "--entry", PASTED],
], ids=["command", "address", "kind", "another_word", "size", "entry", "remove", "remove_entry"])
def test_a_pasted_word(words):
    """A key in the place of another word is not printed."""
    refused("[hexadecimal digits]", *words, status=64)


def test_a_pasted_name():
    """A key in the place of a file's name is not printed."""
    refused("[hexadecimal digits]: cannot be read", "to-bluez", PASTED, CENTRAL, "public")
    refused("[hexadecimal digits]: is no file", "remove", PASTED, CENTRAL, "public")
    for words in (["list", PASTED], ["check", PASTED], ["add", LEGACY_FILE, PASTED]):
        refused("[hexadecimal digits]: cannot be read", *words)


@pytest.mark.parametrize("text", [
    f'"{PASTED}" = 1\n', f"[{PASTED}]\na = 1\n[{PASTED}]\n", LEGACY + f"{PASTED} = 1\n",
    LEGACY + f'"{PASTED[1:]}" = 1\n', LEGACY.replace("5904", PASTED),
    *(LEGACY + f'"{it.join(re.findall("..", PASTED))}" = 1\n' for it in ":-_."),
], ids=["root", "table", "key", "quoted", "value", "colons", "hyphens", "underscores", "dots"])
def test_a_pasted_key(folder, text):
    """A key in the place of another name of a key file is not printed."""
    status, printed, message = keys("to-bluez", put(f"{folder}/pasted.toml", text), CENTRAL, "public")
    assert (status, printed) == (1, ""), "is refused"
    assert PASTED not in re.sub("[-:_.]", "", message), "prints no key"


needs_tomllib = pytest.mark.skipif(KEYS.tomllib is None, reason="this Python has no tomllib to compare with")


@needs_tomllib
@pytest.mark.parametrize("text", [
    text_of(f"{ROOT}/examples/keys.toml"), text_of(f"{ROOT}/examples/secure_key.toml"), LEGACY, SECURE,
    "# a\n[[key]] # b\nediv = 1 # c\nkind = 'public'\n", "", LEGACY.replace("\n", "\r\n"),
    LEGACY + f"# \x85{SECURE}".replace("\n", "\x85") + "\n", LEGACY + f"# \u2028{SECURE}".replace("\n", "\u2028") + "\n",
], ids=["keys.toml", "secure_key.toml", "legacy", "secure", "comments", "none", "carriage returns", "U+0085", "U+2028"])
def test_without_tomllib(text):
    """A Python without tomllib reads key files as one with it does."""
    assert KEYS.plain_toml(text) == KEYS.tomllib.loads(text), "without tomllib"


@needs_tomllib
@pytest.mark.parametrize("text", [
    "key = [{ ediv = 1 }]\n", "ediv = 1\n", "[[key]]\nediv = 1\nediv = 2\n", '[[key]]\nltk = "\\u0030"\n',
    "[[key]]\nediv = 0x1\n", "[[key]]\nediv = 01\n", "[[key]]\nediv\xa0= 1\n", "# a\x0c[[key]]\n", "# a\r[[key]]\n",
], ids=["inline", "root", "twice", "escape", "hexadecimal", "zero", "space", "form feed", "carriage return"])
def test_refused_without_tomllib(text):
    """A Python without tomllib refuses what it does not understand."""
    with pytest.raises(ValueError):
        KEYS.plain_toml(text)
