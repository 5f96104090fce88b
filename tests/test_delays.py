"""Tries a device that is held up: by a disk that is slow or full, or by a signal that stops its process."""

import random
import signal
import time

import pytest

from parties import DISCONNECT, PATIENCE, STRANGER, controller_at, late, stream_to
from parties.disks import Disk
from parties.doors import CODE_READ, LONG, NAME_READ
from parties.homes import AT_OWNER, AT_STRANGER, Home, owner_comes, read
from parties.places import DOOR, text_of
from parties.tables import VALUE, spelled

# The answer to a request for the code that the application does not allow: Insufficient Authorization.
NOT_ALLOWED = "010a0d0008"


def test_tries_once_a_second(home):
    """A save that failed is tried again each second, however much happens meanwhile."""
    disk = Disk(home.folder)
    device = home.device(through=disk.through)
    device.said("ready")
    controller = controller_at(device)
    controller.is_advertised()
    controller.connect(AT_STRANGER, STRANGER)
    application = home.application()
    disk.fill()
    before, begun = disk.syncs(), time.monotonic()
    application.say(f"update {VALUE} 20")
    assert application.up_to("ok")[-1] == "ok", "an update"
    answers = []
    while disk.syncs() < before + 3 and time.monotonic() < begun + PATIENCE:
        answers.append(read(controller, VALUE, AT_STRANGER))
    took = time.monotonic() - begun
    assert (set(answers), len(answers) > 20) == ({"20"}, True), "a phone is served meanwhile"
    assert disk.syncs() == before + 3, "three tries"
    # The device counts whole milliseconds.
    assert 1.99 <= took < late(3), "the third one after two seconds"
    disk.empty()
    device.said("saved again:")


def test_lines_of_one_read(home):
    """One save covers all lines of one read, and the time that it takes is nobody's fault."""
    disk = Disk(home.folder, takes=300)
    device = home.device("--patience", "3", through=disk.through)
    device.said("ready")
    application = home.application()
    before = disk.syncs()
    application.stream.sendall(b"".join(f"update {VALUE} {it:02x}\n".encode() for it in range(100)))
    controller = controller_at(device)
    assert controller.is_advertised(), "a controller is served beside it"
    assert [it for it in application.lines(101) if it == "ok"] == ["ok"] * 100, "100 updates"
    assert disk.syncs() < before + 20, "take some saves"
    assert [it for it in device.log if "given up" in it or "gone" in it] == [], "nobody is given up"
    owner_comes(controller)
    assert controller.ask(AT_OWNER, f"12{spelled(VALUE)}70") == "13", "a write"
    assert f"\n{VALUE} fff1 70\n" in home.state(), "the last one is saved"


def test_saves_within_an_initialisation(home):
    """The time of saves counts for no controller, however many of them there are."""
    device = home.device("--patience", "2", through=Disk(home.folder, takes=600).through)
    device.said("ready")
    application = home.application()
    controller = controller_at(device)
    controller.until(lambda: controller.commands)
    begun = time.monotonic()
    for value in range(6):
        application.say(f"update {VALUE} {value + 1:02x}")
        assert application.up_to("ok")[-1] == "ok", "an update"
    assert time.monotonic() - begun > 5, "they take long"
    assert controller.is_advertised(), "it is served"
    assert [it for it in device.log if "given up" in it] == [], "nobody is given up"


@pytest.mark.long(11)
def test_a_device_that_was_stopped(home):
    """A device that was stopped for longer than its patience gives nobody up for that."""
    device = home.device("--patience", "2")
    device.said("ready")
    application = home.application()
    for moment in ("before it says anything", "within its initialisation"):
        controller = controller_at(device)
        if moment != "before it says anything":
            controller.until(lambda: controller.commands)
        device.process.send_signal(signal.SIGSTOP)
        time.sleep(4)
        device.process.send_signal(signal.SIGCONT)
        assert controller.is_advertised(), f"{moment}: it is served"
        assert application.up_to("+ serving")[-1] == "+ serving", f"{moment}: its application"
        controller.close()
        application.up_to("+ waiting")
    assert [it for it in device.log if "given up" in it] == [], "nobody is given up"
    silent = stream_to(device)
    assert device.said("controller given up: it is not initialised in time") == "", "a silent one is given up"
    silent.close()


@pytest.mark.parametrize("word", ["--idle", "--stranger"])
def test_strangers_while_it_is_stopped(home, word):
    """The time for which a device was stopped counts neither as a phone's silence nor as its stay."""
    device = home.device(word, "3")
    device.said("ready")
    controller = controller_at(device)
    controller.is_advertised()
    controller.connect(AT_STRANGER, STRANGER)
    begun = time.monotonic()
    assert read(controller, VALUE, AT_STRANGER) == "00", "it is served"
    device.process.send_signal(signal.SIGSTOP)
    for _ in range(5):
        controller.say(AT_STRANGER, f"0a{spelled(VALUE)}")
        time.sleep(1)
    device.process.send_signal(signal.SIGCONT)
    began_again = time.monotonic()
    answers = [controller.hears(AT_STRANGER) for _ in range(5)]
    assert answers == ["0b00"] * 5, "what waited is answered"
    controller.until(lambda: any(it[0] == DISCONNECT for it in controller.commands), 1)
    assert [it for it in controller.commands if it[0] == DISCONNECT] == [], "it stays"
    assert controller.command(DISCONNECT) == "400013", "it is disconnected in the end"
    counted = time.monotonic() - began_again + (0 if word == "--idle" else began_again - begun - 5)
    assert 2.2 < counted < late(5), "after three seconds"


@pytest.mark.long(8)
def test_an_authorization_that_ends_in_a_save(folder):
    """A phone is judged by no time before a slow save, in which its authorization has ended."""
    disk = Disk(folder, takes=500)
    home = Home(folder, table=text_of(DOOR[0]))
    device = home.device(through=disk.through)
    device.said("ready")
    controller = controller_at(device)
    controller.is_advertised()
    owner_comes(controller)
    application = home.application()
    disk.fill()
    application.say(f"update {LONG} 00")
    assert application.up_to("ok")[-1] == "ok", "an update, which is not saved"
    for _ in range(5):
        # A try has just ended. The next one begins in a second, and takes half a second.
        tried = disk.syncs()
        application.say("allow 1 1250")
        assert application.up_to("ok")[-1] == "ok", "the owner may read the code"
        has_ended = time.monotonic() + 1.25
        time.sleep(0.9)
        # Some of these requests come when the next try begins. With too many at once a phone is disconnected.
        asked, at = 0, len(controller.heard)
        while disk.syncs() == tried:
            if asked < len(controller.heard) - at + 4:
                controller.say(AT_OWNER, NAME_READ)
                asked += 1
            controller.until(lambda: False, random.random() * 0.001)
        time.sleep(max(0.0, has_ended + 0.05 - time.monotonic()))
        controller.say(AT_OWNER, CODE_READ)
        controller.until(lambda: len(controller.heard) > at + asked)
        assert controller.heard[at + asked:] == [(AT_OWNER, NOT_ALLOWED)], "the code is not read"
