"""Tries `gatt_shell host` with applications, phones and controllers that say much, or nothing."""

import socket
import threading
import time

import pytest

from parties import (
    ADVERTISE_ENABLE, DOOR, PATIENCE, STRANGER, Application, Device, controller_at, late, look, soon, text_of,
)
from parties.acts import Act
from parties.doors import Door
from parties.places import write_text

# A phone reads the name of the device, and the controller has sent a packet.
ASKED = bytes.fromhex("024020 0700 0300 0400 0a0300 0413050140000100")
ANSWERED = bytes.fromhex("024000 0900 0500 0400 0b4c6f636b")
# A phone writes nothing to a value of 512 octets by a command: 12 octets, of which a line of 1,041 tells.
COMMAND = bytes.fromhex("0240200700 03000400 520300")
LOUD = """[[service]]
uuid = "fff0"
[[service.characteristic]]
uuid = "fff1"
value = "%s"
fixed = true
properties = ["read", "command"]
""" % ("00" * 512)
# How long a flood may take, in seconds.
LONG = 20 * PATIENCE
PLACES = {"--application": "FOLDER/socket", "--application-port": "127.0.0.1:0"}
CUT_OFF = "application cut off: it does not read"


@pytest.fixture
def application(door):
    """An application that has heard of a stranger."""
    door.controller.connect(64, STRANGER)
    door.controller.command(ADVERTISE_ENABLE, 2)
    application = door.application()
    application.lines(2)
    return application


def loud_device(folder, *words):
    """A device with a value of 512 octets, and its controller with a stranger."""
    table = write_text(f"{folder}/loud.toml", LOUD)
    device = Device(table, DOOR[1], "--listen", "127.0.0.1:0", *words)
    controller = controller_at(device)
    controller.is_advertised()
    controller.connect(64, STRANGER)
    return device, controller


def test_floods(door, application):
    """A controller and an application say all that they can at once: each is answered all of it."""
    count, part = 10_000, 500
    asked, told = b"value 3\n", b"value 3 4c6f636b\n"
    wanted = {"controller": ANSWERED * count, "application": told * count}
    heard = dict.fromkeys(wanted, b"")

    def hear(name, stream):
        stream.settimeout(PATIENCE)
        try:
            while len(heard[name]) < len(wanted[name]) and (octets := stream.recv(65_536)):
                heard[name] += octets
        except TimeoutError:
            # What was heard shows how much is missing.
            pass

    def ask():
        """Asks on while few answers are unread."""
        for said in range(0, count, part):
            soon(lambda: len(heard["application"]) >= (said - 2 * part) * len(told))
            application.stream.sendall(asked * part)

    acts = [
        Act(hear, "controller", door.controller.stream), Act(hear, "application", application.stream),
        Act(door.controller.stream.sendall, ASKED * count), Act(ask),
    ]
    for it in acts:
        it.end(LONG)
    for name in wanted:
        assert heard[name] == wanted[name], f"{name}: all is answered"


@pytest.mark.long(15)
def test_a_loud_phone(folder):
    """No phone has an application cut off that reads, be it slow; one that reads nothing is cut off."""
    path, count, parts = f"{folder}/loud.socket", 1_700, 17
    device, controller = loud_device(folder, "--application", path)
    application = Application(path)
    application.lines(2)
    flood = Act(controller.stream.sendall, COMMAND * count)
    told = [f"+ written 1 3 {'00' * 512}"] * (count // parts)
    for part in range(parts):
        assert application.lines(count // parts) == told, f"all is told to a slow application, part {part}"
        time.sleep(0.05)
    flood.end(LONG)
    begun = time.monotonic()
    flood = Act(controller.stream.sendall, COMMAND * count)
    device.said(CUT_OFF)
    assert 4 < time.monotonic() - begun < 5 + PATIENCE, "one that reads nothing is cut off after five seconds"
    flood.end(LONG)
    # What the phone said before is still to be read.
    controller.say(64, "0a0300")
    assert controller.hears(64, LONG) == "0b" + "00" * 22, "the phone is served"


def floods(controller):
    """Floods a device until it ends."""
    try:
        while True:
            controller.stream.sendall(COMMAND * 1_000)
    except OSError:
        # The device has ended.
        pass


def reads_at_once(stream):
    while stream.recv(65_536):
        pass


@pytest.mark.long(10)
def test_questions_beside_a_flood(folder):
    """A visitor is answered soon, however much a phone has an application told that reads at once."""
    path, waits = f"{folder}/flood.socket", []
    device, controller = loud_device(folder, "--application", path)
    application = Application(path, "application")
    acts = [Act(floods, controller), Act(reads_at_once, application.stream)]
    device.said("+ written ", 100)
    for _ in range(3):
        begun = time.monotonic()
        assert look(path, "value 3") == [f"value 3 {'00' * 512}"], "the answer"
        waits.append(time.monotonic() - begun)
    assert max(waits) < late(5), f"each question waits for about a second: {waits}"
    device.end()
    for it in acts:
        it.end()


def in_pieces(stream):
    """Reads 2 KiB a second."""
    return iter(lambda: stream.recv(512), b"")


def in_larger_pieces(stream):
    """Reads 8 KiB a second."""
    return iter(lambda: stream.recv(2_048), b"")


def by_lines(stream):
    """Reads as a file does, 8 KiB at once, and needs a while for each line."""
    return iter(stream.makefile().readline, "")


def floods_for_long(controller):
    try:
        controller.stream.sendall(COMMAND * 8_000)
    except OSError:
        # The device has ended.
        pass


def application_of(device, word, is_narrow=False):
    """The stream of an application at a path or a port. The system takes little for a narrow one."""
    place = device.said("listening for an application: ")
    if word == "--application":
        stream = socket.socket(socket.AF_UNIX)
        stream.connect(place)
    else:
        host, port = place.rsplit(":", 1)
        stream = socket.socket()
        if is_narrow:
            stream.setsockopt(socket.SOL_SOCKET, socket.SO_RCVBUF, 4096)
            stream.setsockopt(socket.IPPROTO_TCP, socket.TCP_MAXSEG, 536)
        stream.connect((host, int(port)))
    stream.sendall(b"application\n")
    return stream


@pytest.mark.parametrize("word, read, pause", [
    ("--application", in_pieces, 0.25), ("--application", by_lines, 0.3),
    ("--application-port", in_larger_pieces, 0.25),
], ids=["pieces-by-a-path", "lines-by-a-path", "larger-pieces-by-a-port"])
@pytest.mark.long(26)
def test_a_slow_application(folder, word, read, pause):
    """An application at a path that reads anything in five seconds is not cut off, nor is one at a port that
    reads more."""
    device, controller = loud_device(folder, word, PLACES[word].replace("FOLDER", folder))
    stream, seconds = application_of(device, word), 25
    flood, begun = Act(floods_for_long, controller), time.monotonic()
    for _ in read(stream):
        time.sleep(pause)
        if time.monotonic() > begun + seconds:
            break
    assert time.monotonic() > begun + seconds, "it reads for long"
    assert [it for it in device.log if "cut off" in it] == [], "it is not cut off"
    device.end()
    flood.end()


@pytest.mark.long(22)
def test_a_deaf_application_at_a_port(folder):
    """An application at a port has 20 seconds, because the system sees its reads late."""
    word = "--application-port"
    device, controller = loud_device(folder, word, PLACES[word])
    # By default the system takes some megabytes before the device has to wait.
    stream, begun = application_of(device, word, is_narrow=True), time.monotonic()
    flood = Act(floods_for_long, controller)
    stream.recv(512)
    assert soon(lambda: device.logged("application cut off"), LONG) == [CUT_OFF], "it is cut off"
    assert time.monotonic() - begun > 18, "after 20 seconds"
    device.end()
    flood.end()


def test_a_busy_controller(door, application):
    """An application is answered while its controller always has something to say."""
    is_over, stream = threading.Event(), door.controller.stream
    stream.settimeout(PATIENCE)
    asked, heard = [0], [0]

    def until_the_end(act):
        try:
            while not is_over.is_set():
                act()
        except OSError:
            # The device has ended.
            assert is_over.is_set(), "the device serves its controller"

    def says():
        """Asks more while 10,000 answers or fewer are not heard. A controller for which 1 MiB waits is given up."""
        if asked[0] - heard[0] <= 10_000 * len(ANSWERED):
            stream.sendall(ASKED * 100)
            asked[0] += 100 * len(ANSWERED)
        else:
            time.sleep(0.001)

    def hears():
        heard[0] += len(stream.recv(65_536))

    acts = [Act(until_the_end, it) for it in (says, hears)]
    time.sleep(0.2)
    for _ in range(10):
        assert application.ask("value 3") == "value 3 4c6f636b", "the application meanwhile"
    is_over.set()
    door.device.end()
    for it in acts:
        it.end()


@pytest.mark.long(11)
def test_idle(folder):
    """With no phone nothing wakes the program."""
    device = Door(folder, "--idle", "30").device

    def wakes():
        lines = text_of(f"/proc/{device.process.pid}/status").splitlines()
        return [line for line in lines if line.startswith("voluntary_ctxt_switches")]

    def ticks():
        """The processor time that it took, in clock ticks: one that spins is never woken."""
        fields = text_of(f"/proc/{device.process.pid}/stat").rpartition(")")[2].split()
        return int(fields[11]) + int(fields[12])

    time.sleep(0.5)
    before, spent = wakes(), ticks()
    time.sleep(10)
    assert wakes() == before, "no wake-up in 10 seconds"
    assert ticks() - spent <= 1, "nor any processor time"
