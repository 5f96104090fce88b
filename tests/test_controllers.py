"""Tries controllers that come and go, how a device reaches them, and the names of their phones."""

import socket

import pytest

from parties import (
    ADVERTISING_DATA, DOOR, OWNER, PATIENCE, RANDOM_ADDRESS, STRANGER, Application, Controller, Device,
    SerialLine, controller_at, look,
)

GONE = "fault 4: no connection with the handle serves"


@pytest.fixture
def device(request, folder):
    """A device of examples/door.toml, with the further words of a parameter."""
    words = ["--listen", "127.0.0.1:0", "--application", f"{folder}/socket"]
    return Device(*DOOR, *words, *getattr(request, "param", ()))


@pytest.fixture
def application(device, folder):
    """An application that waits for a controller."""
    device.port()
    application = Application(f"{folder}/socket", "application")
    assert application.lines(2) == ["+ waiting", "ok"], "its state"
    return application


def served(device, application):
    """A controller that a device has initialised."""
    controller = controller_at(device)
    assert controller.is_advertised(), "it is initialised"
    assert application.line() == "+ serving", "serving"
    return controller


def test_ends_with_a_controller(device, application):
    """If a controller goes, its connections end before the device waits for the next one."""
    for first in (1, 3):
        controller = served(device, application)
        controller.connect(64, STRANGER)
        controller.connect(65, OWNER)
        application.lines(2)
        controller.close()
        ends = [f"+ disconnected {first}", f"+ disconnected {first + 1}", "+ waiting"]
        assert application.lines(3) == ends, "the ends"
        assert device.said(f"+ disconnected {first + 1}") == "", "in the log"
    served(device, application).close()
    assert application.line() == "+ waiting", "without a phone"


@pytest.mark.parametrize("device", [["--slots", "8"]], ids=["eight-slots"], indirect=True)
def test_names_of_an_earlier_controller(device, application, folder):
    """As many phones as a controller may have are named anew with the next one, also under other handles."""
    for first in (1, 9):
        controller = served(device, application)
        for number in range(8):
            controller.connect(64 + 16 * first + number, STRANGER)
        names = [it.split()[:3] for it in application.lines(8)]
        assert names == [["+", "connected", str(first + it)] for it in range(8)], "each is told"
        assert len(look(f"{folder}/socket", "connections")) == 9, "each is there"
        controller.close()
        application.up_to("+ waiting")


def test_names(device, application):
    """A late command is not for the next phone that has the handle, nor for one of the next controller."""
    controller = served(device, application)
    controller.connect(64, OWNER)
    assert application.line() == "+ connected 1 0 00:11:22:33:44:55", "a phone"
    assert application.ask("disconnect 64") == GONE, "its handle is no name"
    controller.event(0x05, b"\0\x40\0\x13")
    assert application.line() == "+ disconnected 1", "leaves"
    controller.connect(64, OWNER)
    assert application.line() == "+ connected 2 0 00:11:22:33:44:55", "another one with its handle"
    assert controller.encrypt(64), "its key"
    assert application.line() == "+ secured 2 16 1 0", "is told"
    for line in (
        "allow 1", "allow 1 5000", "deny 1", "disconnect 1", "allow 0", "allow 3",
        "allow 18446744073709551615",
    ):
        assert application.ask(line) == GONE, f"a late line: {line}"
    found = [application.ask("connections"), *application.lines(2)]
    assert found == ["+ connected 2 0 00:11:22:33:44:55", "+ secured 2 16 1 0", "ok"], "who is connected"
    assert controller.ask(64, "0a0d00") == "010a0d0008", "the code is kept"
    assert application.ask("allow 2") == "ok", "for this one"
    assert controller.ask(64, "0a0d00") == "0b31323334", "the code"
    controller.close()
    assert application.lines(2) == ["+ disconnected 2", "+ waiting"], "the controller goes"
    assert application.ask("allow 2") == GONE, "and its phones"
    controller = served(device, application)
    controller.connect(64, OWNER)
    assert application.line() == "+ connected 3 0 00:11:22:33:44:55", "names go on"
    assert application.ask("disconnect 2") == GONE, "a name of the controller before"


def test_a_listener(folder):
    """The program connects, and connects again; it says what it is."""
    with socket.create_server(("127.0.0.1", 0)) as server:
        server.settimeout(PATIENCE)
        Device(
            *DOOR, "--connect", "127.0.0.1:%d" % server.getsockname()[1], "--name", "Front door of the house",
            "--advertise", "180f", "--advertise", "0000fff0-0000-1000-8000-00805f9b34fb",
            "--address", "c0:11:22:33:44:55", "--application", f"{folder}/listener.socket",
        )
        for _ in range(2):
            controller = Controller(server.accept()[0])
            assert controller.is_advertised(), "it connects"
            data = bytes.fromhex(controller.command(ADVERTISING_DATA))
            assert data[0] == 31, "what a scanner sees"
            assert data[1:10].hex() == "02010605030f18f0ff", "flags and services"
            assert data[10:32] == bytes([21, 8]) + b"Front door of the ho", "a name"
            assert controller.command(RANDOM_ADDRESS) == "5544332211c0", "an address"
            controller.close()


def test_a_serial_line(folder):
    """A controller at the end of a serial line, which is taken off and put on again."""
    path, socket_path = f"{folder}/line", f"{folder}/line.socket"
    device = Device(*DOOR, "--serial", path, "--application", socket_path)
    device.said("ready")
    application = Application(socket_path)
    assert application.line() == "+ waiting", "no line yet"
    device.said(f"controller: {path}: No such file or directory")
    for name in (1, 2):
        line = SerialLine(path)
        controller = Controller(line)
        assert controller.is_advertised(), "has a controller"
        assert application.line() == "+ serving", "a line"
        controller.connect(64, STRANGER)
        assert application.line() == f"+ connected {name} 1 c0:00:00:00:00:0a", "and a phone"
        assert controller.ask(64, "0a0300") == "0b4c6f636b", "which reads"
        line.close()
        assert application.lines(2) == [f"+ disconnected {name}", "+ waiting"], "no line any more"


def test_once():
    """It ends with its first controller."""
    device = Device(*DOOR, "--listen", "127.0.0.1:0", "--once")
    controller = controller_at(device)
    controller.is_advertised()
    controller.close()
    assert device.process.wait(PATIENCE) == 0, "once"


def test_once_with_a_fault():
    """It ends with its first controller, and says that this one is faulty."""
    device = Device(*DOOR, "--listen", "127.0.0.1:0", "--once")
    controller = controller_at(device)
    controller.send(b"\7")
    assert device.process.wait(PATIENCE) == 2, "once, with a fault"
