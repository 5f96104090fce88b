"""Plays a controller with phones to examples/c/lockd.c, and looks what the lock does and saves."""

import os
import signal
import socket
import subprocess

import pytest
from phones import OWNER, STRANGER, TABLET

from parties.compiling import need_archive, there, words_of
from parties.lock_daemon import (
    CONFIGURATION, HOST_ENDED, KEYS, NOTE, NOTIFIED, READ, RESET, STATE, TABLE, WRITE, WRITTEN, DoorInC,
    Terminal, connecting, listening, made, row, text_of,
)
from parties.places import PATIENCE, ROOT

need_archive()
pytestmark = pytest.mark.without_program

# Lines that lead to no controller.
LINES = [
    "nowhere", "listen:nowhere", "connect:127.0.0.1:0", "/dev/null:9600", "/dev/null:7", "hcix", "hci99999",
]


@pytest.fixture(params=there())
def lockd(request):
    """The words that start lockd, in each form that is here."""
    return words_of(request.param, "lockd")


def ended(words, *given):
    """The status of a lock that cannot begin, and what it says."""
    how = {"stdin": subprocess.DEVNULL, "capture_output": True, "text": True, "timeout": PATIENCE}
    ran = subprocess.run([*words, *given], **how)
    return ran.returncode, ran.stderr


def first_day(words, folder):
    """Phones come to a lock that was never there."""
    rows, values = f"{folder}/rows", f"{folder}/values"
    door = listening(words, folder)
    assert door.turned() == "motor: shut", "the motor is where the table has it"
    tablet = door.connect(TABLET)
    refused = b"\x01\x12\x0a\x00\x0f"
    assert tablet.ask(WRITE + STATE + b"\x01") == refused, "without its key the tablet may not open"
    assert tablet.encrypt(), "the tablet has its key"
    assert tablet.ask(WRITE + CONFIGURATION + b"\x01\x00") == WRITTEN, "the tablet subscribes"
    assert text_of(rows) == row(TABLET, 11), "that is saved as soon as it is answered"
    assert tablet.ask(WRITE + STATE + b"\x01") == WRITTEN, "the tablet opens"
    assert text_of(values) == "10 fff1 01\n", "that is saved as soon as it is answered, too"
    assert door.turned() == "motor: open", "the motor opens"
    owner = door.connect(OWNER)
    assert owner.encrypt(), "the owner has a key"
    assert owner.ask(WRITE + CONFIGURATION + b"\x01\x00") == WRITTEN, "the owner subscribes"
    assert text_of(rows) == row(TABLET, 11) + row(OWNER, 11), "that is saved too"
    assert owner.ask(WRITE + STATE + b"\x01")[0] == 1, "the owner may not open"
    assert tablet.ask(WRITE + STATE + b"\x00") == WRITTEN, "the tablet shuts"
    assert door.turned() == "motor: shut", "the motor shuts"
    assert owner.receive() == NOTIFIED + STATE + b"\x00", "the owner is told"
    stranger = door.connect(STRANGER)
    assert stranger.ask(READ + b"\x03\x00") == b"\x0bLock", "a stranger reads the name"
    assert stranger.ask(WRITE + STATE + b"\x01") == b"\x01\x12\x0a\x00\x05", "a stranger may not open"
    door.press("open\nnonsense\n")
    assert door.turned() == "motor: open", "the panel opens"
    assert tablet.receive() == NOTIFIED + STATE + b"\x01", "the tablet is told of the panel"
    assert owner.receive() == NOTIFIED + STATE + b"\x01", "the owner is told of the panel"
    assert tablet.ask(READ + STATE) == b"\x0b\x01", "the tablet reads that it is open"
    assert owner.ask(WRITE + CONFIGURATION + b"\x00\x00") == WRITTEN, "the owner wants to hear no more"
    assert text_of(rows) == row(TABLET, 11), "that is saved"
    door.press("shut\n")
    assert door.turned() == "motor: shut", "the panel shuts"
    assert tablet.receive() == NOTIFIED + STATE + b"\x00", "the tablet is told"
    door.serving.send_signal(signal.SIGTERM)
    for name, phone in (("tablet", tablet), ("owner", owner), ("stranger", stranger)):
        found = phone.heard.get(timeout=PATIENCE), phone.reason
        assert found == (None, HOST_ENDED), f"SIGTERM ends the {name}'s connection"
    assert door.ended() == (0, ""), "SIGTERM ends the lock in order"
    assert door.sent[-1] == RESET and door.sent.count(RESET) == 2, "and its controller advertises no more"
    # The controller may have more to tell a lock that is gone.
    faults = [it for it in door.faults if "takes no octets" not in it]
    assert faults == [], f"nothing is wrong with what it sends: {faults}"
    assert text_of(rows) == row(TABLET, 11), "the rows are there"


def next_day(words, folder):
    """The next lock begins with what the first one has saved, and ends with its controller."""
    rows, values = f"{folder}/rows", f"{folder}/values"
    door = connecting(words, folder)
    assert door.turned() == "motor: shut", "the motor is where the panel has left it"
    tablet = door.connect(TABLET)
    assert tablet.encrypt(), "the tablet comes again"
    door.press("open\n")
    assert tablet.receive() == NOTIFIED + STATE + b"\x01", "it hears without subscribing again"
    assert tablet.ask(WRITE + NOTE + b"note") == WRITTEN, "it writes a note"
    assert text_of(values) == "10 fff1 01\n21 fff4 6e6f7465\n", "the values are saved, also that of the panel"
    tablet.drop()
    door.stream.shutdown(socket.SHUT_WR)
    assert door.ended() == (0, ""), "the lock ends with its controller"
    assert text_of(rows) == row(TABLET, 11), "the rows stay"


def last_days(words, folder):
    """The values are there, no other lock may save in their folder, and one that does not fit is left out."""
    values = f"{folder}/values"
    door = listening(words, folder)
    assert door.turned() == "motor: open", "the next lock begins with the values"
    tablet = door.connect(TABLET)
    assert tablet.encrypt() and tablet.ask(READ + STATE) == b"\x0b\x01", "the tablet reads that it is open"
    assert tablet.ask(READ + NOTE) == b"\x0bnote", "and its note"
    status, told = ended(words, TABLE, KEYS, "connect:127.0.0.1:1", folder)
    assert status == 1 and folder in told, "two locks do not save in one folder"
    door.serving.send_signal(signal.SIGTERM)
    assert door.ended() == (0, ""), "it ends in order"
    with open(values, "a", encoding="ascii") as file:
        file.write("99 fff1 01\n")
    door = listening(words, folder)
    tablet = door.connect(TABLET)
    found = tablet.encrypt(), tablet.ask(READ + NOTE)
    assert found == (True, b"\x0bnote"), "a value that does not fit is left out"
    door.serving.send_signal(signal.SIGTERM)
    status, told = door.ended()
    assert status == 0 and "1 values do not fit" in told, "and reported"


def test_days(lockd, folder):
    """Phones come to a lock that was never there, and to the next ones."""
    place = made(f"{folder}/day")
    first_day(lockd, place)
    next_day(lockd, place)
    last_days(lockd, place)


def test_a_disk_that_is_gone(lockd, folder):
    """What cannot be saved is not answered, and costs no other phone its connection."""
    place = made(f"{folder}/disk")
    door = listening(lockd, place)
    door.turned()
    tablet, owner = door.connect(TABLET), door.connect(OWNER)
    assert tablet.encrypt() and owner.encrypt(), "two phones have their keys"
    os.rename(place, f"{place}.away")
    tablet.send(WRITE + STATE + b"\x01")
    found = tablet.receive(), tablet.reason
    assert found == (None, HOST_ENDED), "what cannot be saved is not answered, and its phone is sent away"
    assert owner.ask(READ + b"\x03\x00") == b"\x0bLock", "another phone is served"
    assert door.motor.empty(), "the motor waits"
    os.rename(f"{place}.away", place)
    assert door.turned() == "motor: open", "once it is saved, the motor turns"
    assert text_of(f"{place}/values") == "10 fff1 01\n", "and it is saved"
    tablet = door.connect(TABLET)
    found = tablet.encrypt(), tablet.ask(WRITE + STATE + b"\x00")
    assert found == (True, WRITTEN), "the phone that comes again is answered"
    assert door.turned() == "motor: shut" and text_of(f"{place}/values") == "", "and what it writes is saved"
    door.serving.send_signal(signal.SIGTERM)
    status, told = door.ended()
    assert status == 0 and told.count(place) == 1, "the lock has told of it once, and ends in order"


def test_a_serial_line(lockd, folder):
    """The same over a serial line, for which a pseudo-terminal stands."""
    line = Terminal()
    door = DoorInC(lockd, f"{line.name}:115200", lambda serving: line)
    tablet = door.connect(TABLET)
    every = bytes(range(256))
    assert tablet.encrypt(), "the tablet has its key, over a serial line"
    assert tablet.ask(b"\x02\xf7\x00") == b"\x03\xf7\x00", "the tablet takes longer PDUs"
    assert tablet.ask(WRITE + b"\x15\x00" + every[:230]) == WRITTEN, "no octet of a serial line is another"
    assert tablet.ask(READ + b"\x15\x00") == b"\x0b" + every[:230], "nor back"
    assert tablet.ask(WRITE + b"\x15\x00" + every[26:]) == WRITTEN, "nor the others"
    assert tablet.ask(READ + b"\x15\x00") == b"\x0b" + every[26:], "nor those back"
    door.serving.send_signal(signal.SIGINT)
    assert door.serving.wait(timeout=PATIENCE) == 0, "SIGINT ends the lock in order"


def test_refused(lockd, folder):
    """How the lock ends if it cannot begin or go on."""
    assert ended(lockd)[0] == 64, "no words are not understood"
    status, told = ended(lockd, f"{folder}/nothing", KEYS, "listen:127.0.0.1:1")
    assert status == 1 and "No such file" in told, "a table that is not there"
    status, told = ended(lockd, KEYS, KEYS, "listen:127.0.0.1:1")
    assert status == 1 and "table: key: there is no such key" in told, "a table that is none, and why"
    status, told = ended(lockd, f"{ROOT}/examples/bell.toml", KEYS, "listen:127.0.0.1:1")
    assert status == 1, "a table without a lock"
    for line in LINES:
        status, told = ended(lockd, TABLE, KEYS, line)
        assert status == 1 and line in told, f"the line {line}"
    status, told = ended(lockd, TABLE, KEYS, "listen:127.0.0.1:1", f"{folder}/missing")
    assert status == 1 and "missing" in told, "a folder that is not there"
    with open(f"{made(f'{folder}/bad')}/values", "w", encoding="ascii") as file:
        file.write("10 fff1 01\n10 fff1\n")
    status, told = ended(lockd, TABLE, KEYS, "listen:127.0.0.1:1", f"{folder}/bad")
    assert status == 1 and "values: line 2: " in told, "saved values that are none, and where"
    door = listening(lockd)
    door.give(b"\x07")
    status, told = door.ended()
    assert status == 1 and "begins no packet" in told, "a stream out of step ends the lock"
