"""Tries the key files of tools/keys: those that it refuses, who may read them, and their locks."""

import fcntl
import os
import re
import resource
import subprocess

import pytest

from parties import DOOR, PROGRAM, text_of
from parties.key_tool import (
    CENTRAL, DEVICE, INFO, KEYS, LEGACY, LEGACY_INFO, SECURE, SHORT, TAKEN, accepted, begun, from_info, keys, mode_of,
    own_file, put, refused,
)


def changed_entry(old, new):
    """Returns a key file with an entry of which one text is another."""
    assert old in LEGACY
    return SECURE + "\n" + LEGACY.replace(old, new)


def refused_files():
    """Returns key files that the program refuses: name, text, and what has to be told of each."""
    of_root = "there is no such key" if KEYS.tomllib else "is not TOML"
    many = "\n".join(LEGACY.replace("24400", str(it)) for it in range(65))
    return [
        ("no_toml", "key = \n", "is not TOML"),
        ("unknown_key_of_the_root", "keys = []\n", of_root),
        ("root_that_is_no_array", "key = 1\n", of_root),
        ("unknown_key", changed_entry("size", "sise"), "key 2, 'sise': there is no such key"),
        ("text_for_a_number", changed_entry("16", '"16"'), "key 2, size: it has to be an integer"),
        ("number_for_a_boolean", changed_entry("false", "0"), "key 2, authenticated: it has to be a boolean"),
        ("boolean_for_a_number", changed_entry("24400", "true"), "key 2, ediv: it has to be an integer"),
        ("large_ediv", changed_entry("24400", "65536"), "key 2, ediv: it has to be from 0 to 65535"),
        ("no_ltk", changed_entry("ltk", "#ltk"), "key 2, ltk: the key is missing"),
        ("short_address", changed_entry(CENTRAL, CENTRAL[3:]), "key 2, address"),
        ("another_kind", changed_entry("public", "static"), "key 2, kind"),
        ("short_rand", changed_entry("6bca", "6bc"), "key 2, rand: it has to be 16 hexadecimal digits"),
        ("long_ltk", changed_entry("5904", "59044"), "key 2, ltk: it has to be 32 hexadecimal digits"),
        ("small_size", changed_entry("16", "6"), "key 2, size: it has to be from 7 to 16"),
        ("secure_with_ediv", LEGACY + "secure = true\n", "key 1, secure: rand and ediv"),
        ("key_twice", f"{LEGACY}\n{SECURE}\n{LEGACY}", "key 3: key 1 has the same"),
        ("65_keys", many, "key 65, a key file may have 64 keys"),
        ("large_file", LEGACY + "#" * 2_097_152, "a key file may have 2,097,152"),
    ]


@pytest.mark.parametrize("text, why", [pytest.param(*it[1:], id=it[0]) for it in refused_files()])
def test_refused_keys(folder, text, why):
    """A key file is refused by tools/keys and by the program, and is not changed."""
    path = put(f"{folder}/bad.toml", text)
    refused(why, "to-bluez", path, CENTRAL, "public")
    refused(why, "new", CENTRAL, "public", "--add", path)
    other = own_file(f"{folder}/other.toml", LEGACY)
    for words in (["list", path], ["check", path], ["remove", path, CENTRAL, "public"], ["add", path, other], ["add", other, path]):
        refused(why, *words)
    assert (text_of(path), text_of(other)) == (text, LEGACY), "is not changed"
    ran = subprocess.run([PROGRAM, "check", DOOR[0], path], capture_output=True)
    assert ran.returncode == 1, "gatt_shell"


@pytest.mark.parametrize("nested", ["[" * 100_000, "{a=" * 100_000], ids=["arrays", "tables"])
def test_a_nested_file(folder, nested):
    """A file that is nested deeply is refused as any other."""
    refused("is nested too deeply" if KEYS.tomllib else "is not TOML", "check", put(f"{folder}/deep.toml", f"key = {nested}\n"))


@pytest.mark.parametrize("words", [["check", "/dev/zero"], from_info("/dev/zero", "central")], ids=["check", "from-bluez"])
def test_an_endless_file(words):
    """A file without an end is refused once it is larger than a key file may be."""
    limit = lambda: resource.setrlimit(resource.RLIMIT_AS, (1 << 29, 1 << 29))
    with begun(*words, preexec_fn=limit) as call:
        told = call.communicate(timeout=60)[1]
    assert (call.returncode, told) == (1, "tools/keys: /dev/zero: is too large: a key file may have 2,097,152 bytes\n")


def test_the_program(folder):
    """The program accepts what tools/keys makes."""
    path = f"{folder}/checked.toml"
    for words in (
        ["new", CENTRAL, "public"], ["new", DEVICE, "random", "--secure"],
        ["new", DEVICE, "public", "--authenticated", "--size", "7"],
        *(from_info(f"{INFO}/{bond}-central.info", "central") for bond in ("secure", "legacy")),
    ):
        keys(*words, "--add", path)
    ran = subprocess.run([PROGRAM, "check", DOOR[0], path], capture_output=True, text=True)
    assert (ran.returncode, ran.stdout, ran.stderr) == (0, "attributes 21\nkeys 5\n", ""), "gatt_shell check"


def test_two_keys(folder):
    """One of two keys of a client has to be chosen."""
    path = put(f"{folder}/two.toml", SECURE + "\n" + LEGACY)
    refused("choose one of 1, 2 by --entry", "to-bluez", path, CENTRAL, "public")
    assert accepted("to-bluez", path, CENTRAL, "public", "--entry", "2") == LEGACY_INFO, "the second"
    refused("those are: 1, 2", "to-bluez", path, CENTRAL, "public", "--entry", "3")
    refused(f"has no key of random {CENTRAL}", "to-bluez", path, CENTRAL, "random")


# A key file with comments, three entries of two clients, and an entry that is its last.
FIRST = LEGACY.replace("24400", "1")
SECOND = "# The second key.\n  # It is old.\n" + LEGACY.replace(CENTRAL, DEVICE) + "# of the second key\n"
THIRD = LEGACY.replace("24400", "2").replace("[[key]]", "[[ key ]] # the third")
HEAD = "# All keys.\n"


@pytest.mark.parametrize("words, left", [
    ([CENTRAL, "public", "--entry", "1"], HEAD + f"{SECOND}\n{THIRD}"),
    ([CENTRAL.upper(), "public", "--entry", "3"], f"{HEAD}{FIRST}\n{SECOND}"),
    ([DEVICE, "public"], f"{HEAD}{FIRST}\n{THIRD}"),
    ([DEVICE, "public", "--entry", "2"], f"{HEAD}{FIRST}\n{THIRD}"),
    ([DEVICE, "public", "--all"], f"{HEAD}{FIRST}\n{THIRD}"),
    ([CENTRAL, "public", "--all"], HEAD + SECOND),
], ids=["first", "last", "only", "only_entry", "only_all", "all"])
def test_remove(folder, words, left):
    """An entry is removed with its comments, and the rest stays as it is written."""
    path = own_file(f"{folder}/keys.toml", f"{HEAD}{FIRST}\n{SECOND}\n{THIRD}")
    accepted("remove", path, *words)
    assert text_of(path) == left, "what is left"
    assert mode_of(path) == 0o600, "the permission stays"
    assert sorted(os.listdir(folder)) == ["keys.toml", "keys.toml.lock"], "no other file is left"


def test_remove_the_last(folder):
    """A file of which the only entry is removed is a key file without keys, also through a link."""
    path = own_file(f"{folder}/keys.toml", LEGACY.rstrip("\n"))
    os.symlink("keys.toml", f"{folder}/link")
    accepted("remove", f"{folder}/link", CENTRAL, "public")
    assert (os.path.islink(f"{folder}/link"), text_of(path)) == (True, "\n"), "nothing is left"
    ran = subprocess.run([PROGRAM, "check", DOOR[0], path], capture_output=True, text=True)
    assert (ran.returncode, ran.stdout) == (0, "attributes 21\nkeys 0\n"), "gatt_shell check"


@pytest.mark.parametrize("words, why", [
    ([CENTRAL, "public"], f"has several keys of public {CENTRAL}: choose one of 1, 3 by --entry, or all by --all"),
    ([CENTRAL, "public", "--entry", "2"], f"key 2 is none of public {CENTRAL}: those are: 1, 3"),
    ([CENTRAL, "public", "--entry", "0"], f"key 0 is none of public {CENTRAL}: those are: 1, 3"),
    ([CENTRAL, "random"], f"has no key of random {CENTRAL}"),
    ([CENTRAL, "random", "--all"], f"has no key of random {CENTRAL}"),
    ([CENTRAL, "random", "--entry", "1"], f"key 1 is none of random {CENTRAL}: those are: none"),
], ids=["two", "another", "zero", "kind", "kind_all", "kind_entry"])
def test_refused_remove(folder, words, why):
    """A removal that is not clear is refused, and changes nothing."""
    text = f"{HEAD}{FIRST}\n{SECOND}\n{THIRD}"
    path = own_file(f"{folder}/keys.toml", text)
    refused(why, "remove", path, *words)
    assert text_of(path) == text, "nothing is changed"


@pytest.mark.skipif(KEYS.tomllib is None, reason="this Python reads no such file")
@pytest.mark.parametrize("text", [
    "key = [{ " + ", ".join(LEGACY.strip().splitlines()[1:]) + " }]\n",
    LEGACY.replace("[[key]]", '[["key"]]'),
], ids=["inline", "quoted"])
def test_remove_of_other_forms(folder, text):
    """An entry that does not begin with a line [[key]] is not removed."""
    path = own_file(f"{folder}/keys.toml", text)
    assert accepted("check", path) == "keys 1\n", "it is a key file"
    refused("remove the entry in an editor", "remove", path, CENTRAL, "public")
    assert text_of(path) == text, "nothing is changed"


def test_add(folder):
    """The entries of another file, or of standard input, are added, or none of them."""
    path, other = f"{folder}/keys.toml", own_file(f"{folder}/other.toml", f"{SECURE}\n{LEGACY}")
    accepted("add", path, other)
    assert (text_of(path), mode_of(path)) == (f"{SECURE}\n{LEGACY}", 0o600), "to a file that is not there"
    refused("key 3: key 1 has the same", "add", path, other)
    own_file(other, f"{SHORT}\n{SECURE}")
    refused("key 4: key 1 has the same", "add", path, other)
    refused("has no key", "add", path, own_file(f"{folder}/none.toml", "# none\n"))
    refused("cannot be read", "add", path, f"{folder}/nothing.toml")
    assert text_of(path) == f"{SECURE}\n{LEGACY}", "nothing is changed"
    for words in (["add", path], ["add", path, "-"]):
        with begun(*words, stdin=subprocess.PIPE) as call:
            told = call.communicate(SHORT)[1]
        found = call.returncode, told.replace("/dev/stdin", "-")
        due = (0, "") if words == ["add", path] else (1, f"tools/keys: {path}: key 4: key 3 has the same address, kind, rand and ediv\n")
        assert found == due, "of standard input, once"
    assert text_of(path) == f"{SECURE}\n{LEGACY}\n{SHORT}", "three keys"


def test_add_notes(folder):
    """A key of a private address is added with a note."""
    other = own_file(f"{folder}/other.toml", LEGACY.replace("public", "random"))
    status, _, told = keys("add", f"{folder}/keys.toml", other)
    assert (status, told.startswith(f"note: {CENTRAL} is a private address")) == (0, True), "a note"


@pytest.fixture
def path(folder):
    """A key file that only its owner may read."""
    return own_file(f"{folder}/keys/keys.toml", LEGACY)


def test_new_files(folder):
    """Only its owner may read a new file, and a file that is there is never replaced."""
    path = f"{folder}/keys.toml"
    mask = os.umask(0)
    try:
        accepted("new", CENTRAL, "public", "--add", path)
        accepted("new", CENTRAL, "public", "--output", f"{path}.new")
        accepted("to-bluez", path, CENTRAL, "public", "--output", f"{path}.info")
    finally:
        os.umask(mask)
    for name in (path, f"{path}.new", f"{path}.info", f"{path}.lock"):
        assert mode_of(name) == 0o600, f"{os.path.basename(name)}: only its owner may use it"
    refused("is there already", "new", CENTRAL, "public", "--output", path)
    refused("is there already", "to-bluez", path, CENTRAL, "public", "--output", path)
    left = ["keys.toml", "keys.toml.info", "keys.toml.lock", "keys.toml.new"]
    assert sorted(os.listdir(folder)) == left, "no other file is left"


def test_a_second_key(folder):
    """A key is added after those that are there, unless it is one of them."""
    path = own_file(f"{folder}/keys.toml", SECURE)
    accepted(*TAKEN, "--add", path)
    assert text_of(path) == f"{SECURE}\n{LEGACY}", "the keys before it stay"
    assert mode_of(path) == 0o600, "the permission stays"
    refused("key 3: key 2 has the same", *TAKEN, "--add", path)
    assert text_of(path) == f"{SECURE}\n{LEGACY}", "the same key: nothing is changed"
    os.chmod(path, 0o640)
    os.symlink("keys.toml", f"{folder}/link")
    status, _, told = keys("new", DEVICE, "public", "--add", f"{folder}/link")
    found = status, f"chmod 600 {os.path.realpath(path)}" in told
    assert found == (0, True), "a link to a file that others may read"
    found = os.path.islink(f"{folder}/link"), mode_of(path)
    assert found == (True, 0o640), "the link and the permission stay"
    assert text_of(path).count("[[key]]") == 3, "three keys"
    left = ["keys.toml", "keys.toml.lock", "link"]
    assert sorted(os.listdir(folder)) == left, "no other file is left"
    assert mode_of(f"{path}.lock") == 0o600, "only its owner may use the lock file"


def test_places(folder):
    """A file that cannot be written, and two places for a key, are refused."""
    refused("cannot be written", "new", CENTRAL, "public", "--output", f"{folder}/none/keys.toml")
    refused("not allowed with", "new", CENTRAL, "public", "--output", "a", "--add", "b", status=64)


def test_no_line_feed(folder):
    """A key is added on a line of its own to a file without a line feed at its end."""
    path = put(f"{folder}/bare.toml", LEGACY.rstrip("\n"))
    keys("new", DEVICE, "public", "--add", path)
    text = text_of(path)
    assert (text[: len(LEGACY) + 1], text.count("[[key]]")) == (LEGACY + "\n", 2), "no line feed at the end"


@pytest.mark.parametrize("before", [None, LEGACY], ids=["a_new_file", "a_file"])
def test_at_once(folder, before):
    """Twelve calls at once add their keys to a file."""
    path = f"{folder}/keys.toml"
    if before:
        own_file(path, before)
    addresses = [f"00:00:00:00:00:{it:02x}" for it in range(12)]
    calls = [begun("new", it, "public", "--add", path) for it in addresses]
    # A note that a call waits is no fault.
    messages = [it.communicate()[1] for it in calls]
    # On a slow machine a call may have to wait for too long, and says so.
    busy = [it for it, call in zip(addresses, calls) if call.returncode == 75]
    assert {it.returncode for it in calls} - {75} == {0}, "the others end well"
    assert len([it for it in messages if "tools/keys:" in it]) == len(busy), "no other fault"
    for it in busy:
        accepted("new", it, "public", "--add", path)
    found = re.findall(r'(?m)^address = "(.*)"$', text_of(path))
    assert sorted(found) == sorted(addresses + [CENTRAL] * bool(before)), "all keys are there"
    assert sorted(os.listdir(folder)) == ["keys.toml", "keys.toml.lock"], "what is left"


@pytest.fixture
def lock(path):
    """The lock of the key file, which another program has."""
    lock = os.open(f"{path}.lock", os.O_RDWR | os.O_CREAT, 0o600)
    fcntl.flock(lock, fcntl.LOCK_EX)
    yield lock
    os.close(lock)


def test_a_lock(path, lock):
    """A call waits for the lock, says so, and goes on."""
    with begun("new", DEVICE, "public", "--add", path) as call:
        note = f"note: waiting for another call that has {path}.lock\n"
        assert call.stderr.readline() == note, "says what it waits for"
        assert (call.poll(), text_of(path)) == (None, LEGACY), "waits"
        fcntl.flock(lock, fcntl.LOCK_UN)
        told = call.communicate()[1]
        assert (told, call.returncode, text_of(path).count("[[key]]")) == ("", 0, 2), "goes on"


def test_a_lock_that_is_held(path, lock, monkeypatch):
    """A call that waits for too long ends, and changes nothing."""
    monkeypatch.setattr(KEYS, "PATIENCE", 0.2)
    monkeypatch.setattr(KEYS, "QUIET", 10)
    why = f"{path}: is not changed: another call has had {path}.lock for"
    refused(why, "new", DEVICE, "public", "--add", path, status=75)
    refused(why, "remove", path, CENTRAL, "public", status=75)
    assert text_of(path) == LEGACY, "nothing is changed"


@pytest.mark.parametrize("has_file", [False, True], ids=["nowhere", "to_a_file"])
def test_a_lock_that_is_a_link(path, has_file):
    """A link in the place of the lock is refused, and not followed."""
    os.symlink("victim", f"{path}.lock")
    victim = f"{os.path.dirname(path)}/victim"
    if has_file:
        put(victim, "")
    refused(f"{path}.lock: is a link", "new", DEVICE, "public", "--add", path)
    found = text_of(path), text_of(victim) if os.path.exists(victim) else None
    assert found == (LEGACY, "" if has_file else None), "nothing is changed"


def test_a_lock_that_is_a_pipe(path):
    """A pipe in the place of the lock is refused."""
    os.mkfifo(f"{path}.lock")
    refused(f"{path}.lock: is no plain file", "new", DEVICE, "public", "--add", path)


@pytest.mark.parametrize("make", [lambda it: os.symlink("nothing", it), os.mkfifo], ids=["link", "pipe"])
def test_no_key_file(folder, make):
    """A link to nothing, or a pipe, is no key file, and gets no lock."""
    make(f"{folder}/place")
    refused(f"{folder}/place: is no file", "new", DEVICE, "public", "--add", f"{folder}/place")
    refused(f"{folder}/place: is no file", "remove", f"{folder}/place", DEVICE, "public")
    refused(f"{folder}/missing: is no file", "remove", f"{folder}/missing", DEVICE, "public")
    assert os.listdir(folder) == ["place"], "no lock is made"
