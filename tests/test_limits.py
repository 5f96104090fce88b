"""Tries `gatt_shell host` with standard descriptors that are closed, and with files that may not grow."""

import os
import resource
import socket

import pytest

from parties import (
    DISCONNECT, DOOR, OWNER, PATIENCE, STRANGER, Controller, Device, SerialLine, controller_at, look, soon,
    text_of,
)
from parties.doors import Door

NAME_READ, NAME = "0a0300", "0b4c6f636b"
RESET = bytes.fromhex("01030c00")


@pytest.mark.parametrize("closed", ["2>&-", "1>&- 2>&-", "0<&- 2>&-", "0<&- 1>&- 2>&-"],
                         ids=["2", "1-and-2", "0-and-2", "all"])
def test_closed_descriptors(folder, closed):
    """A device whose standard descriptors are closed writes its log into no file and no line."""
    os.mkdir(f"{folder}/state")
    line = SerialLine(f"{folder}/line")
    application = f"{folder}/application"
    words = ["--serial", f"{folder}/line", "--state", f"{folder}/state", "--application", application]
    device = Device(*DOOR, *words, through=["sh", "-c", f'exec "$@" {closed}', "sh"])
    controller = Controller(line)
    assert controller.is_advertised(), "a controller is served"
    assert controller.received[:4] == RESET, "it gets a Reset first"
    assert look(application, "value 6") == ["value 6 64"], "the application too"
    assert text_of(f"{folder}/state/lock") == "", "the lock is empty"
    for number in range(3):
        if f"{number}>&-" in closed or f"{number}<&-" in closed:
            name = os.readlink(f"/proc/{device.process.pid}/fd/{number}")
            assert name == "/dev/null", f"descriptor {number}"
    device.end()
    line.close()


def limited(size):
    """The words that run a program which may write no file beyond a size."""
    return ["prlimit", f"--fsize={size}:unlimited"]


@pytest.mark.parametrize("size", [10, 1024, 1400, 2048])
def test_a_limited_capture(folder, size):
    """A capture ends where no file may be longer, and phones are served."""
    path = f"{folder}/capture"
    door = Door(folder, "--capture", path, through=limited(size))
    door.controller.connect(64, STRANGER)
    found = [door.controller.ask(64, NAME_READ) for _ in range(60)]
    assert found.count(NAME) == 60, "each read is answered"
    door.device.said("capture: full: no more packets are recorded")
    assert os.path.getsize(path) <= size, "the capture is not longer"


def test_a_limited_state(folder):
    """A state that may not be so long is not saved, as on a full disk, and is saved once it may."""
    words, state = ["--listen", "127.0.0.1:0", "--state", folder], f"{folder}/state"
    device = Device(*DOOR, *words)
    device.said("ready")
    size = os.path.getsize(state)
    device.end()
    device = Device(*DOOR, *words, through=limited(size + 4))
    controller = controller_at(device)
    assert controller.is_advertised(), "it is initialised"
    before = text_of(state)
    controller.connect(64, OWNER)
    controller.encrypt(64)
    controller.say(64, "120a0001")
    assert controller.command(DISCONNECT) == "400013", "the phone is disconnected"
    device.said(f"not saved: {state}: File too large")
    assert text_of(state) == before, "the state is the old one"
    controller.connect(65, STRANGER)
    assert controller.ask(65, NAME_READ) == NAME, "another phone is served"
    unlimited = (resource.RLIM_INFINITY, resource.RLIM_INFINITY)
    resource.prlimit(device.process.pid, resource.RLIMIT_FSIZE, unlimited)
    device.said("saved again:")
    assert "10 fff1 01\n" in text_of(state), "it is saved"


@pytest.mark.parametrize("how", [">", ">>"], ids=["written", "appended"])
def test_a_limited_log(folder, how):
    """A log that may not grow loses lines, and the device serves; it says how many once it may."""
    log, path, size = f"{folder}/log", f"{folder}/socket", 1400
    through = [*limited(size), "sh", "-c", f'exec "$@" 2{how}"$0"', log]
    Device(*DOOR, "--listen", "127.0.0.1:0", "--application", path, through=through)
    begun = soon(lambda: os.path.exists(log) and " ready" in text_of(log) and text_of(log))
    port = int(begun.split("controller: 127.0.0.1:")[1].split()[0])
    for _ in range(40):
        socket.create_connection(("127.0.0.1", port), PATIENCE).close()
        assert look(path, "value 6") == ["value 6 64"], "it is there"
    assert size - 100 < os.path.getsize(log) <= size, "the log is full"
    controller = Controller(socket.create_connection(("127.0.0.1", port), PATIENCE))
    assert controller.is_advertised(), "a controller is served"
    os.truncate(log, 0)
    controller.connect(64, STRANGER)
    controller.ask(64, NAME_READ)
    found = soon(lambda: text_of(log))
    assert "lines of the log dropped\n" in found, "what was dropped is told"
    assert "\0" not in found, "the log begins anew"
