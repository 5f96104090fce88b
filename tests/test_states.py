"""Tries the files that a device saves: faulty, changed, linked, and those that must not be changed."""

import os
import socket
import time

import pytest

from parties import Device, text_of
from parties.homes import Home, end, is_refused, read, write
from parties.places import write_text
from parties.tables import (
    GUEST_NAME, KEYS, LONG, OWNER_NAME, SENSOR, TABLE, UUID, VALUE, VALUE_CONFIG, sealed, sealed_octets, state_text,
)

LINE = f"{OWNER_NAME} {VALUE_CONFIG} 1\n"


@pytest.mark.parametrize("saved", ["state", "rows"])
def test_a_changed_file(folder, saved):
    """A file that another program changed is written again at the next change, also back to the same text."""
    home = Home(folder, saved=saved)
    _, controller = home.start()
    assert write(controller, VALUE_CONFIG, "0100") == "13", "a subscription"
    text = home.state()
    for what, change in (
        ("emptied", lambda: write_text(home.path, "")),
        ("of the same length", lambda: write_text(home.path, "x" * len(text))),
        ("replaced", lambda: os.replace(write_text(f"{home.folder}/new", "y" * len(text)), home.path)),
        ("removed", lambda: os.remove(home.path)),
    ):
        # The time of the last change differs: file systems count in steps of some milliseconds.
        time.sleep(0.1)
        change()
        assert write(controller, VALUE_CONFIG, "0100") == "13", f"{what}: the same again"
        assert home.state() == text, f"{what}: it is saved"
    before = os.stat(home.path)
    assert write(controller, VALUE_CONFIG, "0100") == "13", "the same again"
    assert os.stat(home.path).st_ino == before.st_ino, "is not written"


ROWS = f"{GUEST_NAME} {VALUE_CONFIG} 1\n1 c0:00:00:00:00:09 {VALUE_CONFIG} 1\n"
OTHER_STATE = state_text("# Another table.\n" + TABLE, ROWS.splitlines(), [f"{VALUE} fff1 77"])


@pytest.mark.parametrize("saved, text", [
    pytest.param("rows", ROWS, id="rows"),
    pytest.param("state", OTHER_STATE, id="a-state"),
    pytest.param("state", None, id="no-state"),
])
def test_no_place_to_listen(folder, saved, text):
    """A start that cannot listen changes no file."""
    home = Home(folder, saved=saved)
    if text:
        write_text(home.path, text)
    before = os.stat(home.path).st_ino if text else None
    with socket.create_server(("127.0.0.1", 0)) as taken:
        address = "{}:{}".format(*taken.getsockname())
        second = Device(home.table, KEYS, "--listen", address, *home.saved, "--drop-unknown")
        is_refused(f"listen, {saved}", home, second, [], 2)
    assert (os.stat(home.path).st_ino if home.state() else None) == before, "the file is the same one"
    assert not os.path.exists(f"{home.path}.before"), "no old state is kept"


GOOD = state_text(TABLE, [LINE.strip()], [f"{VALUE} fff1 01", f"{LONG} {UUID} -"])
BODY = GOOD[: GOOD.index("[end]")]
LINES = BODY.splitlines(keepends=True)
# The numbers of the first lines of subscriptions and of values.
FIRST, FIRST_VALUE = (LINES.index(it) + 2 for it in ("[subscriptions]\n", "[values]\n"))


def with_line(number, text):
    """The state with another line of a number, sealed again."""
    return sealed("".join([*LINES[: number - 1], text, *LINES[number:]]))


# Of each the text, the line that is wrong, if it is one, and what the message has.
FAULTY = {
    "nothing": ("", None, ""),
    "half of it": (GOOD[: len(GOOD) // 2], None, "it is cut"),
    "no last line": (BODY, None, "it is cut"),
    "no last line feed": (GOOD[:-1], None, ""),
    "a line too many": (GOOD + "\n", None, "text follows that line"),
    "a state twice": (GOOD + GOOD, None, "sha256sum"),
    "another checksum": (BODY + "[end] " + "0" * 64 + "\n", None, "sha256sum"),
    "a short checksum": (BODY + "[end] 00\n", None, ""),
    "one digit of a value": (GOOD.replace("fff1 01", "fff1 02"), None, "sha256sum"),
    "another format": (with_line(1, "gihandop state 2\n"), 1, ""),
    "carriage returns": (sealed(BODY.replace("\n", "\r\n")), 1, ""),
    "no table": (with_line(2, "[tables]\n"), 2, ""),
    "a line of the table": (with_line(4, "no bar\n"), 4, ""),
    "a subscription": (with_line(FIRST, "0 00:11:22:33:44 4 1\n"), FIRST, ""),
    "a subscription twice": (with_line(FIRST, 2 * LINE), FIRST + 1, ""),
    "a value": (with_line(FIRST_VALUE, f"{VALUE} fff1 0\n"), FIRST_VALUE, ""),
    "no octets": (with_line(FIRST_VALUE, f"{VALUE} fff1 \n"), FIRST_VALUE, ""),
    "no type": (with_line(FIRST_VALUE, f"{VALUE} 01\n"), FIRST_VALUE, ""),
    "no handle": (with_line(FIRST_VALUE, "x fff1 01\n"), FIRST_VALUE, ""),
    "a large handle": (with_line(FIRST_VALUE, "65536 fff1 01\n"), FIRST_VALUE, ""),
    "a word too many": (with_line(FIRST_VALUE, f"{VALUE} fff1 01 02\n"), FIRST_VALUE, ""),
    "no values": (sealed("".join(LINES[: FIRST_VALUE - 2])), FIRST_VALUE - 1, ""),
    "its last line alone": (sealed(""), None, ""),
    "its first line alone": ("gihandop state 1\n", None, "it is cut"),
    "more values behind it": (GOOD + "[values]\n", None, "text follows that line"),
    "no line feed before the last line": (sealed(BODY[:-1]), None, ""),
    "a checksum of capital letters": (BODY + "[end] " + GOOD[-65:].upper(), None, "sha256sum"),
    "another format, and the checksum of this one": (GOOD.replace("state 1", "state 2"), None, "sha256sum"),
    "a line without bytes": (sealed("\n"), 1, ""),
    "a line before the first": (sealed("\n" + BODY), 1, ""),
    "values in place of the table": (sealed("gihandop state 1\n[values]\n"), 2, ""),
    "nothing behind its second line": (sealed("".join(LINES[:2])), 3, ""),
    "a table without lines": (sealed("".join([*LINES[:2], *LINES[FIRST - 2 :]])), 3, ""),
    "a line without bytes in the table": (with_line(FIRST - 1, "\n[subscriptions]\n"), FIRST - 1, ""),
    "no subscriptions": (sealed("".join([*LINES[: FIRST - 2], *LINES[FIRST_VALUE - 2 :]])), FIRST - 1, ""),
    "nothing behind the table": (sealed("".join(LINES[: FIRST - 2])), FIRST - 1, ""),
    "nothing behind the line of subscriptions": (sealed("".join(LINES[: FIRST - 1])), FIRST, ""),
    "a bad subscription behind a good one": (with_line(FIRST + 1, "0 4 1\n[values]\n"), FIRST + 1, ""),
    "a subscription that is there": (
        with_line(FIRST + 1, LINE + "[values]\n"), FIRST + 1, "this line repeats an earlier one",
    ),
    "a value without bytes": (with_line(FIRST_VALUE, "\n"), FIRST_VALUE, ""),
    "a bad value behind a good one": (with_line(FIRST_VALUE + 1, f"{LONG} {UUID}\n"), FIRST_VALUE + 1, ""),
    "two spaces": (with_line(FIRST_VALUE, f"{VALUE} fff1  01\n"), FIRST_VALUE, ""),
    "a handle with a sign": (with_line(FIRST_VALUE, f"+{VALUE} fff1 01\n"), FIRST_VALUE, ""),
    "a type of three digits": (with_line(FIRST_VALUE, f"{VALUE} fff 01\n"), FIRST_VALUE, ""),
    "values twice": (with_line(FIRST_VALUE, "[values]\n"), FIRST_VALUE, ""),
}


@pytest.mark.parametrize("text, line, words", FAULTY.values(), ids=FAULTY)
def test_a_faulty_state(home, text, line, words):
    """A state that cannot be read stops the start, which says where, and it stays as it is."""
    write_text(home.path, text)
    parts = [home.path, words] + ([f"line {line}:"] if line else [])
    is_refused("a faulty state", home, home.device(), parts)


# Values that do not fit the table, as a handle, a type and octets: there is no such handle, it is of a declaration or
# of a configuration, it has another type, or the value another length.
UNFIT = [
    "0 fff1 01", "14 fff1 01", "5 2800 f0ff", f"6 2803 0a0{VALUE}00f1ff", f"{VALUE} fff2 01",
    f"{VALUE} fff1 {9 * '01'}", f"{VALUE} {UUID} 01", f"{VALUE_CONFIG} 2902 -", "3 2a05 000000", "3 2a05 0000000000",
]


def test_values_that_do_not_fit(home):
    """Each is dropped by itself, and the others are restored."""
    write_text(home.path, state_text(TABLE, [], [*UNFIT, f"{SENSOR} fff2 05"]))
    device, controller = home.start("--save-updates")
    assert [it.split()[2] for it in device.logged("value dropped")] == [f"{it.split()[0]}:" for it in UNFIT]
    assert [read(controller, it) for it in (VALUE, SENSOR)] == ["00", "05"]


DESCRIBED = """\
# A table with a descriptor, and with a value that is written by command.
[[service]]
uuid = "fff0"
[[service.characteristic]]
uuid = "fff1"
value = "00"
properties = ["write"]
[[service.characteristic]]
uuid = "6e400002-b5a3-f393-e0a9-e50e24dcca9e"
value = "31"
max = 4
properties = ["command", "notify"]
[[service.characteristic]]
uuid = "fff3"
value = "05"
fixed = true
properties = ["read"]
[[service.characteristic.descriptor]]
uuid = "2901"
value = "6f6e65"
properties = ["read"]
"""


def test_saved_descriptors(folder):
    """A start saves again what it may save: values by request and by command, or with all values any."""
    home = Home(folder, DESCRIBED)
    subscriptions = [f"{OWNER_NAME} 6 1", f"{GUEST_NAME} 6 1"]
    values = ["3 fff1 01", f"5 {UUID} -", "8 fff3 06", "9 2901 74776f"]
    write_text(home.path, state_text(DESCRIBED, subscriptions, values))
    for words, saved, dropped in ((["--save-updates"], values, []), ([], values[:2], ["8:", "9:"])):
        device, controller = home.start(*words)
        assert [it.split()[2] for it in device.logged("value dropped")] == dropped
        end(device, controller)
        assert home.state() == state_text(DESCRIBED, subscriptions, saved)


def test_a_state_that_is_no_text(home):
    """A state that is no text stops the start; the good one in its place is read."""
    with open(home.path, "wb") as file:
        file.write(sealed_octets(BODY.encode().replace(b"A table", b"A \xfft\xc3")))
    status, told = home.device().refusal()
    assert (status, home.path in told and "UTF-8" in told) == (1, True), "no text"
    write_text(home.path, GOOD)
    _, controller = home.start()
    assert read(controller, VALUE) == "01", "the good one"


@pytest.mark.parametrize("saved", ["state", "rows"])
@pytest.mark.parametrize("kind", ["file", "link", "dangling-link"])
def test_a_file_left_there(folder, saved, kind):
    """The new file is created exclusively: one that was left there is removed, and no link is followed."""
    home = Home(folder, saved=saved)
    other = f"{folder}/other"
    if kind != "dangling-link":
        write_text(other, "precious")
    if kind == "file":
        write_text(f"{home.path}.new", "half of a st")
    else:
        os.symlink(other, f"{home.path}.new")
    _, controller = home.start()
    assert write(controller, VALUE_CONFIG, "0100") == "13", "a write"
    assert LINE in home.state(), "is saved"
    assert not os.path.lexists(f"{home.path}.new"), "nothing is left"
    found = text_of(other) if os.path.exists(other) else None
    assert found == (None if kind == "dangling-link" else "precious"), "its target"
    assert not os.path.islink(home.path), "no link"


@pytest.mark.parametrize("saved, text", [("state", state_text()), ("rows", "")], ids=["state", "rows"])
@pytest.mark.parametrize("kind", ["absolute", "relative"])
@pytest.mark.parametrize("is_there", [True, False], ids=["a-file", "no-file-yet"])
def test_a_linked_file(folder, saved, text, kind, is_there):
    """The file behind a link is replaced, and the link stays."""
    home = Home(folder, saved=saved)
    real = f"{folder}/real"
    os.mkdir(real)
    if is_there:
        write_text(f"{real}/state", text)
    os.symlink(f"{real}/state" if kind == "absolute" else "../real/state", home.path)
    device, controller = home.start()
    assert write(controller, VALUE_CONFIG, "0100") == "13", "a write"
    assert os.path.islink(home.path), "the link stays"
    assert LINE in text_of(f"{real}/state"), "the file is replaced"
    end(device, controller)
    _, controller = home.start()
    assert read(controller, VALUE_CONFIG) == "0100", "it is read again"


@pytest.mark.parametrize("name", ["none", "table.toml"])
def test_no_folder(home, name):
    """A folder that is not there is refused, and is not made."""
    place = f"{home.folder}/{name}"
    is_refused("no folder", home, home.second("--state", place), [place])
    assert sorted(os.listdir(home.folder)) == ["saved", "table.toml"], "it is not made"


@pytest.mark.parametrize("words, named", [
    (["--state", "FOLDER/saved", "--rows", "FOLDER/rows"], "--rows"), (["--state", ""], "--state"),
    (["--save-updates"], "--state"), (["--wait-for-application"], "--application"),
], ids=["state-and-rows", "no-name", "save-updates", "wait-for-application"])
def test_refused_words(home, words, named):
    """Words that cannot be followed together are refused, and nothing is made."""
    second = home.second(*[it.replace("FOLDER", home.folder) for it in words])
    is_refused(" ".join(words), home, second, [named], 64)
    assert sorted(os.listdir(home.folder)) == ["saved", "table.toml"], "nothing is made"
