"""Tries the lines of an application of `gatt_shell host`: commands, questions, and `tell`."""

import subprocess

import pytest

from parties import DISCONNECT, OWNER, PATIENCE, PROGRAM, ROOT, STRANGER, look, text_of
from parties.homes import Home

NO_HANDLE = "fault 1: there is no attribute with the handle"
NO_CHARACTERISTIC = "fault 1: there is no such characteristic"
TOO_LONG = "fault 3: the value is longer than its largest length, or a fixed one has another length"
NO_CONNECTION = "fault 4: no connection with the handle serves"
LONG = "12345678-9abc-def0-0123-456789abcdef"
STRANGER_CAME = "+ connected 1 1 c0:00:00:00:00:0a"


def test_commands(door):
    """What an application may ask, and what it is answered if a word is wrong."""
    application = door.application()
    application.line()
    for line, answer in [
        ("find 180f 2a19", "handle 6"), ("find fff0 fff3", "handle 15"), ("find fff0 fff3 1", "handle 15"),
        ("find FFF0 fff3 2", "handle 17"), ("find fff0 fff3 3", "handle 19"),
        ("find 0000fff0-0000-1000-8000-00805f9b34fb fff1", "handle 10"),
        ("find fff0 fff3 4", NO_CHARACTERISTIC), ("find 180f fff3", NO_CHARACTERISTIC),
        ("find 0x180f 2a19", 'bad: "0x180f" is no UUID'), ("find 180f 2a1", 'bad: "2a1" is no UUID'),
        ("find 180f 2a19 0", 'bad: "0" is no number from 1 on'),
        ("find 180f 2a19 x", 'bad: "x" is no number from 1 on'),
        ("find 180f", 'bad: "find" needs more words'), ("find 180f 2a19 1 2", 'bad: "2" is a word too many'),
        ("alow 7", 'bad: "alow" is no command'), ("", 'bad: "" is no command'),
        ("allow 7x", 'bad: "7x" is no connection'), ("allow 7 -1", 'bad: "-1" is no time'),
        ("allow", 'bad: "allow" needs more words'), ("allow 7 1 x", 'bad: "x" is a word too many'),
        ("update 10 0g", 'bad: "0g" is no value'), ("update 70000 00", 'bad: "70000" is no handle'),
        ("value  10", 'bad: "10" is a word too many'), ("stop now", 'bad: "now" is a word too many'),
        ("\x07\u00e9\"" + 40 * "a", 'bad: "???"' + 28 * "a" + '" is no command'),
        ("value 10\r", "value 10 00"), ("update 21 0102\r", "ok"), ("subscriptions 1", NO_CONNECTION),
    ]:
        assert application.ask(line) == answer, f"{line!r}"
    application.stream.sendall(b"value \xff\n")
    assert application.line() == "bad: the line is no text", "no text"


# Questions for values of the door, and of the bell: by types, and by handle.
OF_THE_DOOR = [
    ("find 1800 2a00", "handle 3"), ("find 180f 2a19", "handle 6"), ("find fff0 fff1", "handle 10"),
    ("find fff0 fff4", "handle 21"), ("find 1800 2a19", NO_CHARACTERISTIC), ("find fff0 2a00", NO_CHARACTERISTIC),
    ("find 180f fff7", NO_CHARACTERISTIC), ("find 180f 2803", NO_CHARACTERISTIC),
    ("find 180f 2902", NO_CHARACTERISTIC), ("find fff1 fff1", NO_CHARACTERISTIC),
    ("find 2800 2a00", NO_CHARACTERISTIC), (f"find {LONG} {LONG}", NO_CHARACTERISTIC),
    ("value 0", NO_HANDLE), ("value 1", "value 1 0018"), ("value 3", "value 3 4c6f636b"), ("value 6", "value 6 64"),
    ("value 7", "value 7 -"), ("value 13", "value 13 31323334"), ("value 21", "value 21 -"), ("value 22", NO_HANDLE),
    ("value 65535", NO_HANDLE),
]
OF_THE_BELL = [
    ("find fff8 fff9", "handle 3"), ("find fffa fff9", NO_CHARACTERISTIC), (f"find fff8 {LONG}", "handle 6"),
    (f"find {LONG} {LONG}", NO_CHARACTERISTIC), ("value 6", "value 6 07"), ("value 8", "value 8 faff"),
    ("value 10", NO_HANDLE),
]
# Two services fff0 and one of a long type, with values and a descriptor of equal types.
ALIKE = f"""\
[[service]]
uuid = "fff0"
[[service.characteristic]]
uuid = "fff1"
value = "01"
properties = ["read"]
[[service.characteristic.descriptor]]
uuid = "fff2"
properties = ["read"]
value = "02"
[[service.characteristic]]
uuid = "fff2"
value = "03"
properties = ["read"]
[[service.characteristic]]
uuid = "fff2"
value = "04"
properties = ["read"]
[[service]]
uuid = "fff0"
[[service.characteristic]]
uuid = "fff5"
value = "05"
properties = ["read"]
[[service]]
uuid = "{LONG}"
secondary = true
[[service.characteristic]]
uuid = "fff5"
value = "06"
properties = ["read"]
"""
OF_ALIKE = [
    ("find fff0 fff1 1", "handle 3"), ("find fff0 fff1 2", NO_CHARACTERISTIC), ("find fff0 fff2 1", "handle 6"),
    ("find fff0 fff2 2", "handle 8"), ("find fff0 fff2 3", NO_CHARACTERISTIC),
    ("find fff0 fff2 65535", NO_CHARACTERISTIC), ("find fff0 fff5 1", "handle 11"),
    ("find fff0 fff5 2", NO_CHARACTERISTIC), (f"find {LONG} fff5", "handle 14"), ("value 4", "value 4 02"),
    ("value 6", "value 6 03"), ("value 14", "value 14 06"),
]


@pytest.mark.parametrize(
    ("table", "asked"),
    [
        (text_of(f"{ROOT}/examples/door.toml"), OF_THE_DOOR), (text_of(f"{ROOT}/examples/bell.toml"), OF_THE_BELL),
        (ALIKE, OF_ALIKE),
    ],
    ids=["door", "bell", "alike"],
)
def test_values_by_types(folder, table, asked):
    home = Home(folder, table)
    home.device().said("ready")
    application = home.application()
    for line, answer in asked:
        assert application.ask(line) == answer, line


def test_a_long_value(door):
    """An update of 512 octets arrives whole."""
    value = bytes(it % 251 for it in range(512)).hex()
    application = door.application("application")
    assert application.lines(2) == ["+ serving", "ok"], "its state"
    assert application.ask(f"update 21 {value}") == "ok", "a long update"
    assert application.ask("value 21") == f"value 21 {value}", "is stored whole"


def test_subscriptions(door):
    """An application reads of subscriptions, and may ask which are in force."""
    controller, application = door.controller, door.application()
    application.line()
    controller.connect(64, STRANGER)
    assert application.line() == STRANGER_CAME, "a stranger"
    assert application.ask("subscriptions 1") == "ok", "has subscribed to nothing"
    assert controller.ask(64, "1207000100") == "13", "it subscribes"
    assert application.line() == "+ configured 1 7 1", "which is told"
    found = [application.ask("subscriptions 1"), application.line()]
    assert found == ["+ subscribed 1 7 1", "ok"], "its subscriptions"
    door.owner_comes(65)
    owner_came = ["+ connected 2 0 00:11:22:33:44:55", "+ secured 2 16 1 0"]
    assert application.lines(2) == owner_came, "the owner"
    for pdu, line in (
        ("1207000100", "+ configured 2 7 1"), ("120b000100", "+ configured 2 11 1"),
        ("1207000000", "+ configured 2 7 0"),
    ):
        assert controller.ask(65, pdu) == "13", "configures"
        assert application.line() == line, "which is told"
    found = [application.ask("subscriptions 2"), application.line()]
    assert found == ["+ subscribed 2 11 1", "ok"], "in force"
    assert look(door.path, "subscriptions 2") == ["+ subscribed 2 11 1", "ok"], "a look"
    controller.event(0x05, b"\0\x40\0\x13")
    controller.event(0x05, b"\0\x41\0\x13")
    assert application.lines(2) == ["+ disconnected 1", "+ disconnected 2"], "both leave"
    controller.connect(64, STRANGER)
    assert application.line() == "+ connected 3 1 c0:00:00:00:00:0a", "the stranger is back"
    assert application.ask("subscriptions 3") == "ok", "with nothing"
    controller.connect(65, OWNER)
    assert application.line() == "+ connected 4 0 00:11:22:33:44:55", "the owner is back"
    assert application.ask("subscriptions 4") == "ok", "without a key"
    controller.encrypt(65)
    assert application.lines(2) == ["+ secured 4 16 1 0", "+ subscribed 4 11 1"], "what is in force"


def test_lines_of_others(door):
    """A line of another connection displaces no application, and an application reads of its updates."""
    path, controller, application = door.path, door.controller, door.application("application")
    assert application.lines(2) == ["+ serving", "ok"], "its state"
    for line, answer, told in (
        ("update 21 0102", "ok", "+ updated 21 0102"), ("update 21 -", "ok", "+ updated 21 -"),
        ("update 10 0102", TOO_LONG, None), ("update 99 01", NO_HANDLE, None),
        ("allow 9", NO_CONNECTION, None), ("deny 9", NO_CONNECTION, None),
        ("disconnect 9", NO_CONNECTION, None), ("value 21", "value 21 -", None),
        ("vale 21", 'bad: "vale" is no command', None),
    ):
        assert look(path, line) == [answer], f"{line}, of another connection"
        if told:
            assert application.line() == told, f"{line}: the application reads of it"
    assert application.ask("update 21 0003") == "ok", "its own update"
    controller.connect(64, OWNER)
    assert application.line() == "+ connected 1 0 00:11:22:33:44:55", "a phone"
    controller.encrypt(64)
    assert application.line() == "+ secured 1 16 1 0", "with a key"
    assert look(path, "allow 1 60000") == ["ok"], "another allows it"
    assert controller.ask(64, "0a0d00") == "0b31323334", "the code is read"
    assert look(path, "deny 1") == ["ok"], "another denies it"
    assert controller.ask(64, "0a0d00") == "010a0d0008", "the code is not read"
    assert look(path, "disconnect 1") == ["ok"], "another disconnects it"
    controller.until(lambda: any(it[0] == DISCONNECT for it in controller.commands))
    assert set(application.lines(2)) == {"+ ending 1 13", "+ disconnected 1"}, "its end"
    assert look(path, *(f"update 21 00{it:02x}" for it in range(40))) == ["ok"] * 40, "many at once"
    assert application.lines(40) == [f"+ updated 21 00{it:02x}" for it in range(40)], "each is told"
    assert application.ask("value 21") == "value 21 0027", "it is the application still"


def tell(*words):
    """The status of `tell`, what it prints, and its lines on standard error."""
    how = {"stdin": subprocess.DEVNULL, "capture_output": True, "text": True, "timeout": 2 * PATIENCE}
    ran = subprocess.run([PROGRAM, "tell", *words], **how)
    # The first line on standard error may be that of a program without proofs.
    return ran.returncode, ran.stdout, [it for it in ran.stderr.splitlines() if "NOT PROVED" not in it]


def test_answers_of_a_tell(door):
    """`tell` sends one line and prints its answer, of which an application reads nothing."""
    door.controller.connect(64, STRANGER)
    application = door.application()
    assert application.lines(2) == ["+ serving", STRANGER_CAME], "its state"
    for words, wanted in [
        (["value", "10"], (0, "value 10 00\n", [])), (["connections"], (0, f"{STRANGER_CAME}\nok\n", [])),
        (["find", "fff0", "fff3", "2"], (0, "handle 17\n", [])), (["subscriptions", "1"], (0, "ok\n", [])),
        (["value", "99"], (1, f"{NO_HANDLE}\n", [])), (["alow", "1"], (1, 'bad: "alow" is no command\n', [])),
        (["value 10"], (0, "value 10 00\n", [])),
        (["value", "10\nstop"], (64, "", ["tell: a word has a line feed"])),
    ]:
        assert tell(door.path, *words) == wanted, f"tell {words}"
    assert application.line(0.2) is None, "the application hears nothing of that"


@pytest.mark.parametrize("words, wanted", [
    ([], "error: the following required arguments were not provided:"),
    (["a", "b", "c", "d", "e"], "error: unexpected argument 'e' found"),
], ids=["no-words", "five-words"])
def test_words_of_a_tell(door, words, wanted):
    """`tell` with too few words or too many of them sends nothing."""
    status, output, lines = tell(door.path, *words)
    assert (status, output, lines[0]) == (64, "", wanted), f"tell {words}"


def test_updates_of_a_tell(door):
    """`tell` updates a value, of which an application reads, if it is not refused."""
    application = door.application("application")
    assert application.lines(2) == ["+ serving", "ok"], "its state"
    assert tell(door.path, "update", "21", "-") == (0, "ok\n", []), "an update"
    assert application.line() == "+ updated 21 -", "of which the application reads"
    assert tell(door.path, "update", "10", "0102") == (1, f"{TOO_LONG}\n", []), "a refused one"
    assert application.line(0.2) is None, "of which it does not"
    assert tell(door.path, "value", "21") == (0, "value 21 -\n", []), "the value"


def test_the_end_by_a_tell(door):
    """`tell` ends a device; without one it says where none is."""
    path, gone = door.path, f"{door.path}.gone"
    assert tell(gone, "value", "10") == (2, "", [f"tell: {gone}: there is no such socket"]), "no socket"
    door.controller.close()
    assert tell(path, "stop") == (0, "ok\n", []), "the end"
    assert door.device.process.wait(PATIENCE) == 0, "of the device"
    assert tell(path, "value", "10") == (2, "", [f"tell: {path}: no device listens there"]), "no device"
