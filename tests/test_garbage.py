"""Gives `gatt_shell host` what nobody should: garbage from its controllers and from its applications."""

import random
import re
import socket

import pytest

from parties import (
    DOOR, OWNER, PATIENCE, STRANGER, Application, Controller, Device, Visitor, controller_at, stream_to,
)

# So many sessions go to one device, and so many devices are tried.
SESSIONS = 125
SEEDS = range(8)
# What an application may hear: the answer to a line, or what a phone or a controller does.
ANSWER = re.compile(r"ok|fault [1-5]: .+|value \d+ (-|([0-9a-f]{2})+)|handle \d+|bad: .+")
HAPPENS = re.compile(r"\+ [a-z-]+( .*)?|\+ stopped: .+")
LINES = [
    "update 10 01", "update 6 32", "update 21 -", "value 10", "value 99", "connections", "allow 2 3000",
    "deny 2", "allow 2", "disconnect 2", "disconnect 70", "update 10 " + "00" * 512, "open the door", "",
    "find 180f 2a19", "find fff0 fff3 2", "find 180f fff3", "find fff0 fff1 65535", "subscriptions 2",
    "subscriptions 0",
]


def changed(chance, octets):
    """Octets of which some are flipped, cut out, repeated, inserted or cut off."""
    for _ in range(chance.choice([1, 1, 2, 4, 8])):
        at = chance.randrange(len(octets) + 1)
        end = at + chance.choice([1, 1, 2, 4, 16])
        change = chance.randrange(6)
        if change == 0 and octets[at:end]:
            octets = octets[:at] + bytes([octets[at] ^ 1 << chance.randrange(8)]) + octets[at + 1:]
        elif change == 1:
            octets = octets[:at] + octets[end:]
        elif change == 2:
            octets = octets[:at] + octets[at:end] * chance.choice([2, 20]) + octets[end:]
        elif change == 3:
            octets = octets[:at] + chance.randbytes(chance.choice([1, 3, 20])) + octets[at:]
        elif change == 4:
            octets = octets[:at]
        else:
            octets = octets[:at] + bytes([chance.choice([0, 1, 0x7F, 0xFF])]) + octets[at + 1:]
    return octets


def a_session(device):
    """What a controller sends while a stranger and the owner read, write and subscribe."""
    controller = Controller(stream_to(device))
    controller.is_advertised()
    controller.connect(64, STRANGER)
    controller.connect(65, OWNER)
    controller.encrypt(65)
    said = [(64, "0a0300"), (64, "120a0001"), (65, "1207000100"), (65, "120a0001"), (65, "080100ffff0328")]
    for handle, pdu in said:
        controller.ask(handle, pdu)
    controller.close()
    return controller.sent


class Asking(Application):
    """An application that asks, and keeps all lines up to each answer."""

    def __init__(self, path):
        super().__init__(path)
        self.line()
        self.kept = []

    def asked(self):
        self.say("value 3")
        while True:
            line = self.line()
            self.kept.append(line)
            if line in (None, "END") or not line.startswith("+ "):
                return line


def send_to(device, octets):
    """A controller that sends these octets, and hears whatever comes until it is disconnected."""
    with socket.create_connection(device.port(), PATIENCE) as stream:
        try:
            stream.sendall(octets)
            stream.shutdown(socket.SHUT_WR)
            while stream.recv(65_536):
                pass
        except ConnectionError:
            pass


@pytest.mark.parametrize("seed", SEEDS)
def test_controllers(folder, seed):
    """Each controller sends another session with faults; the application asks all the while."""
    chance = random.Random(seed)
    path = f"{folder}/controllers.socket"
    device = Device(*DOOR, "--listen", "127.0.0.1:0", "--application", path)
    session = a_session(device)
    application = Asking(path)
    answers = set()
    for _ in range(SESSIONS):
        send_to(device, changed(chance, session))
        answers.add(application.asked())
    assert device.process.poll() is None, "it runs"
    controller = controller_at(device)
    assert controller.is_advertised(), "it serves on"
    controller.connect(70, STRANGER)
    assert controller.ask(70, "0a0300") == "0b4c6f636b", "a phone reads"
    answers.add(application.asked())
    heard = application.kept
    # All of the log is read once the device has ended.
    device.end()
    device.refusal()
    served = sum(it.startswith("serving") for it in device.log)
    assert answers == {"value 3 4c6f636b"}, "each question is answered"
    assert [it for it in heard if not (HAPPENS.fullmatch(it) or ANSWER.fullmatch(it))] == [], "what is heard"
    turns = [it for it in heard if it in ("+ serving", "+ waiting")]
    assert all(a != b for a, b in zip(turns, turns[1:])), "controllers come and go in turns"
    assert abs(turns.count("+ serving") - served) <= 1, "each that was initialised is told of"
    # The first controller and the last one send no garbage.
    assert 0 < served - 2 <= SESSIONS, "some of them are"


def said_by(chance, number):
    """What an application says: lines, most of them with faults."""
    lines = "\n".join(chance.choices(LINES, k=chance.choice([1, 5, 20]))).encode() + b"\n"
    said = changed(chance, lines) if number % 10 else lines
    # A connection whose first line is wrong is closed.
    return b"value 10\n" + said if number % 4 else said


def heard_by(path, said):
    """What an application hears that says so, and no more."""
    application = Visitor(path)
    try:
        application.stream.sendall(said)
        application.stream.shutdown(socket.SHUT_WR)
    except OSError:
        pass
    heard = application.up_to("END")
    application.close()
    return heard


def is_answered(said, heard):
    """Whether each line has one answer, until the device closes the connection."""
    *heard, last = heard
    answers = [it for it in heard if not it.startswith("+ ")]
    if last is None or not all(ANSWER.fullmatch(it) for it in answers):
        return False
    is_too_long = any(len(it) > 1_100 for it in said.split(b"\n"))
    is_closed = bool(answers) and answers[0].startswith("bad: ")
    return is_too_long or len(answers) == (1 if is_closed else len(said.split(b"\n")) - 1)


@pytest.mark.parametrize("seed", SEEDS)
def test_applications(folder, seed):
    """Each application says other lines with faults; a phone reads all the while."""
    chance = random.Random(seed)
    path = f"{folder}/applications.socket"
    device = Device(*DOOR, "--listen", "127.0.0.1:0", "--application", path)
    controller = controller_at(device)
    controller.is_advertised()
    controller.connect(3_000, STRANGER)
    wrong = []
    for number in range(SESSIONS):
        said = said_by(chance, number)
        heard = heard_by(path, said)
        if not is_answered(said, heard):
            wrong.append((said, heard))
        read = controller.ask(3_000, "0a0d00")
        if read is None:
            controller.connect(3_000, STRANGER)
        elif read != "010a0d0005":
            wrong.append((said, read))
    assert wrong[:3] == [], "each line has one answer, and the phone its own"
    assert device.process.poll() is None, "it runs"
