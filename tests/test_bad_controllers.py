"""Tries controllers that connect to `gatt_shell host`, or that it connects to, and that do their worst."""

import socket
import time

import pytest

from parties import ADVERTISE_ENABLE, DOOR, PATIENCE, Application, Controller, Device, controller_at, late, stream_to
from parties.doors import RESET, serving, visitor, waiting
from parties.watching import is_idle

# How long a controller may be silent in most scenarios, in seconds.
SHORT = ["--patience", "2"]
GIVEN_UP = "controller given up: it is not initialised in time"
# A socket option of Linux by which a socket is closed without a word to its peer.
TCP_REPAIR = 19
# An event with the number of commands that a controller takes.
TAKES_ONE = bytes.fromhex("040f0400010000")


class Halfway(Controller):
    """A controller that answers only its first commands."""

    def __init__(self, stream, count):
        super().__init__(stream)
        self.left = count

    def take(self, packet):
        if packet[0] == 1:
            if self.left == 0:
                return
            self.left -= 1
        super().take(packet)


@pytest.mark.long(23)
def test_silent_controllers_connect(folder):
    """Ten controllers connect and say nothing, and then a real one."""
    device, application = waiting(folder, *SHORT)
    begun = time.monotonic()
    silent = [stream_to(device) for _ in range(10)]
    real = controller_at(device)
    is_idle("a silent controller", device)
    assert application.ask("value 10") == "value 10 00", "an application is answered"
    assert real.until(lambda: (ADVERTISE_ENABLE, b"\1") in real.commands, 40), "a real one is served"
    assert 19.5 < time.monotonic() - begun < late(40), "within their patience"
    assert application.line() == "+ serving", "which the application reads, and no more"
    device.said(GIVEN_UP, 10)  # another thread reads the log, perhaps later than the lines above were read
    assert len(device.logged(GIVEN_UP)) == 10, "each is given up"
    for one in silent:
        assert (one.recv(100), one.recv(100)) == (RESET, b""), "after a Reset"
        one.close()
    is_idle("a real controller", device)
    device.end()
    real.close()


def test_silent_controllers_listen(folder):
    """A controller that is connected to says nothing: it is connected to again."""
    path, server = f"{folder}/socket", socket.socket()
    server.bind(("127.0.0.1", 0))
    server.settimeout(PATIENCE)
    address = "127.0.0.1:%d" % server.getsockname()[1]
    device = Device(*DOOR, "--connect", address, *SHORT, "--application", path)
    device.said("ready")
    application = Application(path)
    assert application.line() == "+ waiting", "none is initialised"
    server.listen()
    for _ in range(2):
        silent = server.accept()[0]
        begun = time.monotonic()
        assert silent.recv(100) == RESET, "a Reset"
        assert silent.recv(100) == b"", "the end"
        assert 1.8 < time.monotonic() - begun < late(6), "within its patience"
        silent.close()
    real = Controller(server.accept()[0])
    assert real.is_advertised(), "a real one is served"
    assert application.line() == "+ serving", "which the application reads"
    real.close()
    assert application.line() == "+ waiting", "it is gone"
    server.close()
    device.said(f"controller: {address}: Connection refused")
    is_idle("no controller that listens", device)
    device.end()


@pytest.mark.long(12)
def test_a_connection_that_is_never_made(folder):
    """What a device connects to takes no connections and refuses none: applications are answered at once."""
    path, server = f"{folder}/socket", socket.socket()
    server.bind(("127.0.0.1", 0))
    server.listen(0)
    address = server.getsockname()
    # Linux drops what begins a connection if as many wait as may.
    blockers = [socket.socket() for _ in range(3)]
    for one in blockers:
        one.setblocking(False)
        one.connect_ex(address)
    device = Device(*DOOR, "--connect", "%s:%d" % address, "--application", path)
    device.said("ready")
    application, slowest = Application(path), 0
    assert application.line() == "+ waiting", "no controller"
    for _ in range(330):
        since = time.monotonic()
        assert application.ask("value 10") == "value 10 00", "a value"
        slowest = max(slowest, time.monotonic() - since)
        time.sleep(0.02)
    # An attempt to connect takes three seconds, and these were more than six.
    assert slowest < late(2.5), "an application does not wait for an attempt"
    assert len(device.logged("controller: %s:%d: no answer" % address)) == 1, "it is logged once"
    is_idle("a connection that is never made", device)
    for one in blockers:
        one.close()
    server.settimeout(PATIENCE)
    found = None
    while not found:
        stream = server.accept()[0]
        stream.settimeout(2)
        try:
            found = stream.recv(100)
        except TimeoutError:
            pass
    assert found == RESET, "it is made once that can be done"
    device.end()
    server.close()


@pytest.mark.parametrize("has_octets", [False, True], ids=["at_rest", "with_octets_that_wait"])
def test_a_vanished_controller(folder, has_octets):
    """A controller that is gone without an end of its connection is missed, at rest and while octets wait."""
    device, application, controller = serving(folder, *SHORT)
    name = visitor(application, controller)
    controller.until(lambda: False, 0.3)
    try:
        controller.stream.setsockopt(socket.IPPROTO_TCP, TCP_REPAIR, 1)
    except PermissionError:
        pytest.skip("no right to close a socket without a word: root has it")
    controller.close()
    time.sleep(0.2)
    assert application.line(0.2) is None, "there was no end"
    if has_octets:
        assert application.ask(f"disconnect {name}") == "ok", "a command"
        application.line()
    begun = time.monotonic()
    assert application.up_to("+ waiting")[-1] == "+ waiting", "it is gone"
    assert time.monotonic() - begun < late(8), "soon"
    real = controller_at(device)
    assert real.is_advertised(), "the next one is served"
    assert (application.line(), application.line(4)) == ("+ serving", None), "and stays at rest"
    device.end()
    real.close()


@pytest.mark.long(11)
def test_half_an_initialisation(folder):
    """A controller that answers some of the commands only is given up, wherever it stops."""
    device, application = waiting(folder, *SHORT)
    for count in (0, 1, 3, 5):
        half = Halfway(stream_to(device), count)
        assert half.until(lambda: half.is_gone, late(8)), f"one that answers {count}: the end"
        found = half.received.count(b"\1") and len(half.commands) + 1
        assert found == count + 1, f"one that answers {count}: commands"
        half.close()
        device.said(GIVEN_UP, len(device.logged(GIVEN_UP)) or 1)
    talker = stream_to(device)
    begun, heard = time.monotonic(), b"?"
    try:
        while time.monotonic() < begun + 8:
            talker.sendall(TAKES_ONE)
            time.sleep(0.02)
    except OSError:
        heard = b""
    found = heard, time.monotonic() - begun < late(6)
    assert found == (b"", True), "one that talks and answers nothing is given up"
    talker.close()
    real = controller_at(device)
    assert real.is_advertised(), "a real one is served"
    assert application.line() == "+ serving", "which the application reads, and no more"
    device.end()
    real.close()


def test_garbage(folder):
    """A controller that sends what begins no packet is ended, and the next one is served."""
    device, application = waiting(folder)
    for _ in range(3):
        stream = stream_to(device)
        stream.settimeout(PATIENCE)
        try:
            stream.sendall(b"\x07" * 5_000)
            while stream.recv(100):
                pass
        except OSError:
            pass
        assert application.line().startswith("+ stopped: the octet 07 "), "it is told"
        stream.close()
    real = controller_at(device)
    assert real.is_advertised(), "a real one is served"
    assert application.line() == "+ serving", "which the application reads"
    real.send(b"\7")
    assert application.line().startswith("+ stopped: "), "it breaks"
    assert application.line() == "+ waiting", "none is there"
    device.end()
    real.close()
