"""Tries how `gatt_shell host` starts, and why it does not: words, files, slots and disks."""

import os
import shutil
import time

import pytest

from parties import DISCONNECT, DOOR, OWNER, PATIENCE, STRANGER, Application, Device, controller_at, late, text_of
from parties.doors import Door
from parties.places import write_text


def start(*words):
    """A device of examples/door.toml that waits for a controller at some port."""
    return Device(*DOOR, "--listen", "127.0.0.1:0", *words)


def test_a_file_in_the_way(folder):
    """A file where an application is to connect stays what it is."""
    path = write_text(f"{folder}/way", "kept")
    assert start("--application", path).process.wait(PATIENCE) == 2, "a file in the way"
    assert text_of(path) == "kept", "is kept"


def test_a_socket_in_the_way(folder):
    """A socket that a killed device left behind goes."""
    for _ in range(2):
        device = start("--application", f"{folder}/way")
        device.said("ready")
        assert Application(f"{folder}/way").line() == "+ waiting", "a socket that was left behind"
        device.end()


@pytest.mark.parametrize("make", [os.mkfifo, os.mkdir], ids=["a-pipe", "a-folder"])
@pytest.mark.parametrize("name", ["state", "lock"])
def test_no_file_of_a_state(folder, name, make):
    """A pipe or a folder in the place of a state or a lock is refused at once."""
    make(f"{folder}/{name}")
    found = start("--state", folder).refusal()
    assert found == (1, f"{folder}/{name}: not a file"), f"{make.__name__} as {name}"


def test_a_link_as_lock(folder):
    """A link in the place of a lock is refused at once, and not followed."""
    state = f"{folder}/state"
    os.mkdir(state)
    os.symlink(f"{folder}/other", f"{state}/lock")
    assert start("--state", state).refusal() == (1, f"{state}/lock: not a file"), "a link as lock"
    assert not os.path.exists(f"{folder}/other"), "is not followed"


@pytest.mark.parametrize("make", [os.mkfifo, os.mkdir], ids=["a-pipe", "a-folder"])
def test_no_file_of_rows(folder, make):
    """A pipe or a folder in the place of subscriptions is refused at once."""
    make(f"{folder}/rows")
    found = start("--rows", f"{folder}/rows").refusal()
    assert found == (1, f"{folder}/rows: not a file"), f"{make.__name__} as rows"


@pytest.mark.parametrize("words, status", [
    ([], 64), (["--listen", "x"], 64),
    (["--listen", "127.0.0.1:0", "--slots", "9"], 64), (["--listen", "127.0.0.1:0", "--advertise", "0"], 64),
    (["--listen", "127.0.0.1:0", "--advertise", "180f,fff0"], 64),
    (["--listen", "127.0.0.1:0", *["--advertise", "180f"] * 14], 64),
    (["--listen", "127.0.0.1:0", *["--advertise", "180f"] * 40], 64),
    (["--listen", "127.0.0.1:0", "--address", "00:11:22:33:44:55"], 64),
    (["--listen", "127.0.0.1:0", "--address", "ff:ff:ff:ff:ff:ff"], 64),
    (["--listen", "127.0.0.1:0", "--rows", "FOLDER/none/rows"], 1),
    (["--listen", "127.0.0.1:0", "--capture", "FOLDER/none/capture"], 1),
    (["--listen", "127.0.0.1:0", "--application", "FOLDER/none/socket"], 2),
], ids=[
    "no-words", "no-port", "9-slots", "no-uuid", "two-uuids-in-one", "14-uuids", "40-uuids",
    "a-public-address", "all-ones", "rows-without-a-folder", "a-capture-without-a-folder",
    "a-socket-without-a-folder",
])
def test_words(folder, words, status):
    """What is no command ends with a status."""
    words = [it.replace("FOLDER", folder) for it in words]
    assert Device(*DOOR, *words).process.wait(PATIENCE) == status, f"{words}"


@pytest.mark.parametrize("line, peer", [
    ("1 c0:00:00:00:00:0a 7 1\n", "1 c0:00:00:00:00:0a"), ("! 0 00:11:22:33:44:56\n", "0 00:11:22:33:44:56"),
    ("1 00:11:22:33:44:55 7 1\n", "1 00:11:22:33:44:55"),
], ids=["a-stranger", "a-pending-one", "another-type"])
def test_unknown(folder, line, peer):
    """Rows of a peer without a key are refused, and the file is as it was, unless they are to be dropped."""
    text = "0 00:11:22:33:44:55 7 1\n" + line
    rows = write_text(f"{folder}/unknown.rows", text)
    device = start("--rows", rows)
    assert device.process.wait(PATIENCE) == 1, f"{peer} is refused"
    assert peer in device.said("no key"), "and told of"
    assert text_of(rows) == text, "the rows stay"
    start("--rows", rows, "--drop-unknown").said("ready")
    assert text_of(rows) == "0 00:11:22:33:44:55 7 1\n", f"{peer} is dropped"


def test_values(folder):
    """Values are logged where that is asked for."""
    door = Door(folder, "--log-values")
    door.owner_comes(65)
    assert door.controller.ask(65, "120a0001") == "13", "a value is written"
    assert door.device.said("+ written") == " 1 10 01", "and logged"


def test_slots(folder):
    """A phone may connect in the place of one that is gone. Each gets a number of its own."""
    door = Door(folder, "--slots", "3")
    for handle in (64, 65, 66):
        door.controller.connect(handle, STRANGER)
    door.controller.event(0x05, b"\0" + (65).to_bytes(2, "little") + b"\x13")
    door.controller.connect(67, OWNER)
    door.device.said("+ connected", 4)
    found = [door.device.said("+ connected", count).split() for count in range(1, 5)]
    assert [(it[0], it[4]) for it in found] == [("1", "64"), ("2", "65"), ("3", "66"), ("4", "67")], "slots"


def test_a_full_disk(folder):
    """A capture that cannot be written is told of, and phones are served."""
    door = Door(folder, "--capture", "/dev/full")
    door.device.said("capture: not written")
    door.controller.connect(64, STRANGER)
    assert door.controller.ask(64, "0a0300") == "0b4c6f636b", "phones are served"


def test_rows_without_a_folder(folder):
    """A configuration that cannot be saved is not answered, its phone is sent away, and it is saved later."""
    place, both = f"{folder}/rows", "0 00:11:22:33:44:55 7 1\n0 00:11:22:33:44:55 11 1\n"
    os.mkdir(place)
    device = start("--rows", f"{place}/door.rows")
    controller = controller_at(device)
    controller.is_advertised()
    controller.connect(64, STRANGER)
    controller.connect(65, OWNER)
    controller.encrypt(65)
    assert controller.ask(65, "1207000100") == "13", "the first rows"
    assert text_of(f"{place}/door.rows") == "0 00:11:22:33:44:55 7 1\n", "are written"
    shutil.rmtree(place)
    controller.say(65, "120b000100")
    assert controller.command(DISCONNECT) == "410013", "the phone is sent away"
    assert controller.hears(65, 0.2) is None, "it is not answered"
    begin = f" {place}/door.rows: No such file"
    assert device.said("not saved:")[:len(begin)] == begin, "it is logged"
    assert controller.ask(64, "0a0300") == "0b4c6f636b", "another phone is served"
    os.mkdir(place)
    begun = time.monotonic()
    assert device.said("saved again:") == f" {place}/door.rows", "which is logged too"
    assert time.monotonic() - begun < late(2), "within two seconds"
    # In the order in which the phone configured them first.
    assert text_of(f"{place}/door.rows") == both, "all is written"
    controller.connect(65, OWNER)
    controller.encrypt(65)
    assert controller.ask(65, "0a0b00") == "0b0100", "the phone is served again"
