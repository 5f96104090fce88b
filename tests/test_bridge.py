"""Tries `hci_bridge` between `gatt_shell host` and a simulated controller: hosts and controllers in turn."""

import os
import select
import signal
import stat
import threading
import time

import pytest

from parties import DOOR, OWNER, PATIENCE, STRANGER, Device, is_one_packet, soon
from parties.bridges import is_hung_up, last_packet
from parties.doors import NAME, NAME_READ
from parties.watching import spent

RESET = "01030c00"
# The beginning of an event of the vendor with 200 octets.
LONG_EVENT = bytes([4, 0xFF, 200])


@pytest.fixture
def plugged(bridge):
    """A bridge that runs, with a controller."""
    bridge.plug_in()
    return bridge.begin()


@pytest.fixture
def bridged(plugged):
    """A bridge with a controller, and a device over it that serves."""
    device = Device(*DOOR, "--serial", plugged.line, "--patience", "30")
    controller = plugged.controller()
    assert controller.is_advertised(), "it is advertised"
    return plugged, device, controller


def test_a_host(bridged):
    """A phone reads and writes over the bridge. Nobody else can open the line, and each packet goes alone."""
    bridge, device, controller = bridged
    terminal = os.stat(bridge.line)
    assert oct(stat.S_IMODE(terminal.st_mode)) == "0o600", "only the owner opens the line"
    controller.connect(64, OWNER)
    assert controller.ask(64, NAME_READ) == NAME, "a phone reads"
    assert controller.encrypt(64), "its link is encrypted"
    assert controller.ask(64, "120a0001") == "13", "it writes"
    assert {controller.ask(64, NAME_READ) for _request in range(500)} == {NAME}, "500 answers"
    strange = [it.hex() for it in controller.stream.packets if not is_one_packet(it)]
    assert strange == [], "each packet is one"
    device.end()
    assert last_packet(controller) == RESET, "a killed host leaves a reset"
    assert bridge.end() == 0, "the bridge ends"
    assert not os.path.lexists(bridge.line), "and its line"


def test_hosts_in_turn(plugged):
    """While no host is there, the controller is free. The next host follows one that is killed or ends."""
    assert not plugged.is_opened(), "no host, no controller"
    for how in (signal.SIGKILL, signal.SIGTERM, signal.SIGKILL):
        device = Device(*DOOR, "--serial", plugged.line)
        controller = plugged.controller()
        assert controller.is_advertised(), "it is advertised"
        controller.connect(64, STRANGER)
        assert controller.ask(64, NAME_READ) == NAME, "a phone reads"
        device.process.send_signal(how)
        assert last_packet(controller) == RESET, "the controller is reset"
        device.process.wait(PATIENCE)
        assert not plugged.is_opened(), "the controller is free"
    plugged.end()


def test_a_controller_that_goes(bridged):
    """A controller that goes away ends the host's line, and the host reaches the next one by itself."""
    bridge, device, controller = bridged
    controller.connect(64, STRANGER)
    assert controller.ask(64, NAME_READ) == NAME, "a phone reads"
    bridge.unplug()
    controller.close()
    assert bridge.logs("hci0: gone: it cannot be read"), "the log says so"

    def tried():
        return [it for it in bridge.said() if "refused" in it or "No such file" in it]

    assert soon(tried), "it is tried"
    time.sleep(2)
    assert len(tried()) == 1, "it is tried quietly"
    bridge.plug_in()
    controller = bridge.controller()
    assert controller.is_advertised(), "it is advertised again"
    controller.connect(65, STRANGER)
    assert controller.ask(65, NAME_READ) == NAME, "a phone reads again"
    device.end()
    bridge.end()


def test_a_new_line_for_each_host(plugged):
    """PATH leads to the next line before the old one is closed.

    No other program may get the old one's number while PATH leads to it.
    """
    for times in range(1, 6):
        old = os.readlink(plugged.line)
        host = plugged.host()
        controller = plugged.controller()
        os.close(host)
        assert last_packet(controller) == RESET, "the controller is reset"
        assert plugged.logs("hci0: free", times), "there is a line"
        assert plugged.moved(old), "it is a new one"
    plugged.end()


def is_reset_by(host, controller):
    """Whether a host resets a controller, and reads that it has done so."""
    os.write(host, bytes.fromhex(RESET))
    is_answered = controller.until(lambda: select.select([host], [], [], 0.01)[0])
    return is_answered and os.read(host, 7)[:2] == b"\x04\x0e"


@pytest.mark.parametrize("left", ["", RESET[:4]], ids=["nothing", "a_part"])
def test_a_host_that_comes_at_once(plugged, left):
    """A host that opens the line of the one before, which has just left, gets no packet of it, and a line of its own."""
    old, host = os.readlink(plugged.line), plugged.host()
    controller = plugged.controller()
    assert is_reset_by(host, controller), "a host"
    plugged.process.send_signal(signal.SIGSTOP)
    os.write(host, bytes.fromhex(left))
    os.close(host)
    following = plugged.host()
    plugged.process.send_signal(signal.SIGCONT)
    assert last_packet(controller) == RESET, "the controller is reset, and free"
    assert plugged.moved(old), "there is a new line"
    assert soon(lambda: is_hung_up(following)), "the old one has ended"
    os.close(following)
    host = plugged.host()
    stream = plugged.controller().stream
    os.write(host, bytes.fromhex(RESET))
    assert stream.recv().hex() == RESET, "only the next one's packet goes"
    os.close(host)
    plugged.end()


def test_another_opener(plugged):
    """A program that opens and closes the line of a host, as one that looks at its settings, ends nothing."""
    host = plugged.host()
    controller = plugged.controller()
    assert is_reset_by(host, controller), "the bridge has seen its host"
    for _ in range(3):
        os.close(plugged.host())
    assert not soon(lambda: is_hung_up(host), 1), "it goes on"
    assert is_reset_by(host, controller), "another packet"
    os.close(host)
    assert last_packet(controller) == RESET
    plugged.end()


def test_a_host_that_leaves_early(bridge):
    """What a host has sent before there is a controller is not for the next host."""
    bridge.begin()
    old = os.readlink(bridge.line)
    host = bridge.host()
    assert bridge.logs("hci0: No such file or directory"), "no controller"
    os.write(host, bytes.fromhex(RESET)[:3])
    os.close(host)
    assert bridge.moved(old), "there is a new line"
    bridge.plug_in()
    host = bridge.host()
    stream = bridge.controller().stream
    os.write(host, bytes.fromhex(RESET))
    assert stream.recv().hex() == RESET, "only the next one's packet goes"
    os.close(host)
    bridge.end()


def test_a_host_that_reads_nothing(plugged):
    """A controller that goes away while a host reads nothing is gone at once, and takes no processor time."""
    old = os.readlink(plugged.line)
    host = plugged.host()
    stream = plugged.controller().stream.stream
    stream.setblocking(False)
    while select.select([], [stream], [], 0.3)[1]:
        stream.send(LONG_EVENT + bytes(200))
    plugged.unplug()
    stream.close()
    before = spent(plugged.process.pid)
    assert plugged.logs("hci0: gone: it cannot be read"), "the log says so"
    assert plugged.moved(old), "there is a new line"
    assert soon(lambda: is_hung_up(host)), "the host's line ends"
    time.sleep(1)
    assert spent(plugged.process.pid) - before < 300, "it takes no processor time"
    os.close(host)
    plugged.end()


def test_a_busy_controller(bridge):
    """A host waits for a controller that cannot be opened yet."""
    bridge.begin()
    device = Device(*DOOR, "--serial", bridge.line, "--patience", "30")
    assert bridge.logs("hci0: No such file or directory"), "the first try"
    bridge.plug_in()
    assert bridge.controller().is_advertised(), "it is advertised"
    device.end()
    bridge.end()


def test_garbage(plugged):
    """A host that sends octets that begin no packet is cut off, and the next one is served."""
    host = plugged.host()
    stream = plugged.controller().stream
    os.write(host, b"\x01\x03\x0c\x00\xff")
    found = [stream.recv().hex() for _packet in range(2)]
    assert found == [RESET, ""], "the packet before it goes, and no other"
    assert soon(lambda: is_hung_up(host)), "the line ends"
    os.close(host)
    device = Device(*DOOR, "--serial", plugged.line)
    assert plugged.controller().is_advertised(), "the next host is served"
    device.end()
    plugged.end()


def write_all(descriptor, octets):
    at = 0
    while at < len(octets):
        at += os.write(descriptor, octets[at:])


def test_pieces(plugged):
    """Packets that come octet by octet, and the longest one, go as they are."""
    host = plugged.host()
    stream = plugged.controller().stream
    for octet in bytes.fromhex(RESET):
        os.write(host, bytes([octet]))
        time.sleep(0.01)
    longest = (b"\x02\x40\x20\xff\xff" + bytes(range(251)) * 262)[: 5 + 65_535]
    sender = threading.Thread(target=write_all, args=(host, longest), daemon=True)
    sender.start()
    assert stream.recv().hex() == RESET, "pieces make a packet"
    assert stream.recv() == longest, "the longest packet"
    sender.join(PATIENCE)
    os.close(host)
    plugged.end()


def test_a_slow_host(plugged):
    """A host that reads slowly loses nothing."""
    host = plugged.host()
    stream = plugged.controller().stream
    events = [LONG_EVENT + bytes([number % 256]) * 200 for number in range(300)]
    sender = threading.Thread(target=lambda: [stream.sendall(it) for it in events], daemon=True)
    sender.start()
    time.sleep(1)
    heard, wanted = b"", b"".join(events)
    while len(heard) < len(wanted) and select.select([host], [], [], PATIENCE)[0]:
        heard += os.read(host, 64)
    assert heard == wanted, "a slow host"
    sender.join(PATIENCE)
    os.close(host)
    plugged.end()


def test_an_idle_bridge(bridged):
    """A bridge takes no processor time while no host is there, or while nothing goes by."""
    bridge, device, controller = bridged
    old = os.readlink(bridge.line)
    device.end()
    last_packet(controller)
    assert bridge.moved(old), "there is a new line"
    time.sleep(0.3)
    before = spent(bridge.process.pid)
    time.sleep(2)
    assert spent(bridge.process.pid) == before, "without a host"
    bridge.end()
