"""Tries what the log says of a client whose key the device does not have."""

import pytest

from parties import DOOR, KEY, KEY_REFUSAL, OWNER, STRANGER, Application, Device, controller_at


@pytest.fixture
def path(folder):
    return f"{folder}/socket"


@pytest.fixture
def device(path):
    return Device(*DOOR, "--listen", "127.0.0.1:0", "--application", path)


def asks(controller, handle, key=KEY, count=1):
    """A client's controller asks for a key that the device refuses."""
    random_number, diversifier, _ = key
    spelled = handle.to_bytes(2, "little")
    controller.event(0x3E, b"\5" + spelled + random_number + diversifier.to_bytes(2, "little"))
    assert controller.command(KEY_REFUSAL, count) == spelled.hex(), "the key is refused"


def test_no_key(device):
    """The log names the connection of a client without a key, and no other."""
    controller = controller_at(device)
    controller.is_advertised()
    controller.connect(64, OWNER)
    controller.connect(65, STRANGER)
    controller.encrypt(64, KEY)
    asks(controller, 65)
    assert device.said("no key: ") == "connection 2", "the stranger"
    assert controller.ask(65, "0a0300") == "0b4c6f636b", "it is served on"
    assert device.logged("no key") == ["no key: connection 2"], "the owner has a key"


def test_another_rand(device):
    """A peer that is in the key file, but not with this Rand, has no key either."""
    controller = controller_at(device)
    controller.is_advertised()
    controller.connect(64, OWNER)
    asks(controller, 64, (bytes(8), 514, KEY[2]))
    assert device.said("no key: ") == "connection 1", "another random number"


def test_each_connection_once(device):
    """The log names a connection once, however often it asks, and the next one again."""
    controller = controller_at(device)
    controller.is_advertised()
    for name in range(1, 12):
        controller.connect(64, STRANGER)
        for count in range(3 * name - 2, 3 * name + 1):
            asks(controller, 64, count=count)
        controller.event(0x05, b"\0" + (64).to_bytes(2, "little") + b"\x13")
        device.said(f"+ disconnected {name}")
    assert device.logged("no key") == [f"no key: connection {name}" for name in range(1, 12)], "once each"


def test_another_controller(device, path):
    """The names go on with another controller, and the log has no line of the first one again."""
    for name in (1, 2):
        controller = controller_at(device)
        controller.is_advertised()
        controller.connect(64, STRANGER)
        asks(controller, 64)
        assert device.said("no key: ", name) == f"connection {name}", "its name"
        controller.close()
        device.said("controller gone", name)
    assert Application(path).line() == "+ waiting", "the application is not notified"
