"""Tries serial lines of `gatt_shell host`: silence, late answers, old octets, and a broken controller."""

import signal
import time

import pytest

from parties import ADVERTISE_ENABLE, DOOR, OWNER, STRANGER, Application, Controller, Device, SerialLine, late
from parties.doors import CODE_READ, NAME, NAME_READ, RESET, visitor
from parties.watching import is_idle

# How long a controller may be silent, in seconds.
SHORT = ["--patience", "2"]
RESET_CODE = 0x0C03


@pytest.fixture
def line(folder):
    """A serial line, which is closed at the end."""
    line = SerialLine(f"{folder}/line")
    yield line
    line.close()


@pytest.fixture
def served(folder, line):
    """A device that serves by a serial line, its application, and its controller."""
    device = Device(*DOOR, "--serial", line.path, "--application", f"{folder}/socket")
    device.said("ready")
    application, controller = Application(f"{folder}/socket"), Controller(line)
    controller.is_advertised()
    assert application.lines(2) == ["+ waiting", "+ serving"], "served"
    return device, application, controller


def test_a_silent_serial_line(folder, line):
    """A controller at a serial line says nothing: Reset is sent again. Then it is a real one."""
    path = f"{folder}/socket"
    device = Device(*DOOR, "--serial", line.path, *SHORT, "--application", path)
    device.said("ready")
    begun = time.monotonic()
    application = Application(path)
    for count in range(3):
        assert line.recv(len(RESET)) == RESET, "a Reset"
        assert 2 * count - 0.3 < time.monotonic() - begun < late(2 * count + 3), "each within the patience"
    is_idle("a silent line", device)
    real = Controller(line)
    assert real.is_advertised(), "a real one is served"
    assert application.lines(2) == ["+ waiting", "+ serving"], "not before"
    real.connect(64, STRANGER)
    assert real.ask(64, NAME_READ) == NAME, "phones are served"
    is_idle("a line at rest", device)
    device.end()


def test_late_answers(line):
    """A controller answers Reset only after it was sent again: the answers that come late do no harm."""
    device = Device(*DOOR, "--serial", line.path, *SHORT)
    device.said("ready")
    for _ in range(3):
        assert line.recv(len(RESET)) == RESET, "a Reset"
    # Half an event that was interrupted, which the next Reset ends, and then an answer for each Reset.
    real = Controller(line)
    real.send(bytes.fromhex("040e0401030c00") * 2)
    real.take(RESET)
    assert real.is_advertised(), "it is served"
    real.connect(64, STRANGER)
    assert real.ask(64, NAME_READ) == NAME, "phones are served"
    device.end()


def test_old_octets(line):
    """A serial line has octets from before, which begin in the middle of a packet: they are dropped."""
    line.sendall(b"\7" * 3_000)
    device = Device(*DOOR, "--serial", line.path)
    controller = Controller(line)
    assert controller.is_advertised(), "it is initialised"
    assert device.logged("stopped") == [], "at once"
    device.end()


def test_a_full_read(served):
    """A serial line has exactly as many octets as are read at once: the device does not wait for more."""
    device, application, controller = served
    name = visitor(application, controller, OWNER)
    assert controller.encrypt(64), "a key"
    application.line()
    assert application.ask(f"allow {name} 2000") == "ok", "the code is allowed"
    begun = time.monotonic()
    assert controller.ask(64, CODE_READ) == "0b31323334", "and read"
    for size in (512, 1_024, 2_048):
        device.process.send_signal(signal.SIGSTOP)
        # Events that no packet more was sent.
        controller.send(bytes.fromhex("0413050140000000") * (size // 8))
        time.sleep(0.1)
        device.process.send_signal(signal.SIGCONT)
        asked = time.monotonic()
        assert application.ask("value 10") == "value 10 00", f"{size} octets: an application is answered"
        assert time.monotonic() - asked < late(1), f"{size} octets: at once"
    is_idle("after them", device)
    time.sleep(max(0, begun + 2.3 - time.monotonic()))
    assert controller.ask(64, CODE_READ) == "010a0d0008", "the code is not allowed any more"
    device.end()


def test_a_hardware_error(served):
    """A controller says that it is broken: it is ended, reached again and initialised again."""
    device, application, controller = served
    for _ in range(2):
        visitor(application, controller)
        assert controller.ask(64, NAME_READ) == NAME, "a phone"
        before = len(controller.commands)
        controller.event(0x10, b"\x42")
        assert application.line().startswith("+ stopped: "), "it is told"
        assert application.up_to("+ waiting")[-1] == "+ waiting", "none is there"
        is_enabled = controller.until(lambda: (ADVERTISE_ENABLE, b"\1") in controller.commands[before:])
        assert is_enabled, "it is initialised again"
        assert controller.commands[before][0] == RESET_CODE, "it begins with Reset"
        assert application.line() == "+ serving", "served again"
    is_idle("served again", device)
    device.end()
