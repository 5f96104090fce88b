"""Tries a capture of `gatt_shell host`: its size, one that nobody reads, and one without a controller."""

import os
import time

import pytest

from parties import DOOR, PATIENCE, STRANGER, Application, Device, captured, controller_at, late
from parties.doors import LISTEN, NAME, NAME_READ


def capturing(path, *words):
    """A device with a capture, and its controller with a phone."""
    device = Device(*DOOR, *LISTEN, "--capture", path, *words)
    controller = controller_at(device)
    controller.is_advertised()
    controller.connect(64, STRANGER)
    return device, controller


def test_a_capture_that_is_full(folder):
    """A capture has no more octets than it may have, and the log says so once."""
    path = f"{folder}/capture"
    device, controller = capturing(path, "--capture-size", "4000")
    for _ in range(200):
        controller.ask(64, NAME_READ)
    device.said("capture: full")
    assert 3_800 < os.stat(path).st_size <= 4_000, "its size"
    controller.close()
    controller = controller_at(device)
    assert controller.is_advertised(), "served further"
    assert len(device.logged("capture: full")) == 1, "said once"
    assert os.stat(path).st_size <= 4_000, "its size stays"
    device.end()
    controller.close()


@pytest.mark.parametrize("word", ["0", "x", "-1"])
def test_a_size_that_is_none(folder, word):
    """A size of a capture is a number of octets."""
    device = Device(*DOOR, *LISTEN, "--capture", f"{folder}/capture", "--capture-size", word)
    assert device.process.wait(PATIENCE) == 64, f"--capture-size {word}"


def test_a_capture_that_nobody_reads(folder):
    """A capture that goes into a pipe whose reader does not read stops nothing."""
    path = f"{folder}/pipe"
    os.mkfifo(path)
    reading = os.open(path, os.O_RDONLY | os.O_NONBLOCK)
    device, controller = capturing(path)
    begun = time.monotonic()
    answers = {controller.ask(64, NAME_READ) for _ in range(1_000)}
    assert (answers, time.monotonic() - begun < late(100)) == ({NAME}, True), "phones are served"
    device.said("capture: not written any more")
    device.end()
    controller.close()
    os.close(reading)


def test_a_capture_without_a_controller(folder):
    """A capture has nothing that no controller was given, also where the device has something to send."""
    path, place = f"{folder}/capture", f"{folder}/socket"
    device = Device(*DOOR, *LISTEN, "--application", place, "--capture", path)
    device.port()
    application = Application(place, "application")
    assert application.lines(2) == ["+ waiting", "ok"], "its state"
    assert [application.ask("value 10") for _ in range(3)] == ["value 10 00"] * 3, "it is answered"
    assert captured(path) == [], "before a controller"
    controller = controller_at(device)
    assert controller.is_advertised(), "it is served"
    controller.close()
    application.up_to("+ waiting")
    before = captured(path)
    given = b"".join(it[2] for it in before if not it[0] & 1)
    assert given == controller.received, "what the controller was given"
    application.say("stop")
    application.up_to("ok")
    device.process.wait(PATIENCE)
    assert captured(path) == before, "after it"
