"""Tries the examples of an application and of a controller, with a device."""

import os
import select
import socket
import subprocess
import time

import pytest

from parties import DOOR, PATIENCE, ROOT, Application, Device, text_of
from parties.disks import Disk
from parties.doors import Door
from parties.places import write_text

LOCK, PHONES = f"{ROOT}/examples/device/lock.py", f"{ROOT}/examples/device/phones.py"
SCRIPT = f"{ROOT}/examples/bonded.script"


def test_a_lock(door):
    """The example of an application turns its motor."""
    pipes = dict.fromkeys(("stdin", "stdout", "stderr"), subprocess.PIPE)
    lock = subprocess.Popen([LOCK, door.path], text=True, **pipes)
    assert lock.stdout.readline() == "the door is closed\n", "the door"
    door.owner_comes(65)
    assert door.controller.ask(65, "120a0001") == "13", "it is opened"
    assert lock.stdout.readline() == "the motor opens the door\n", "by the motor"
    assert door.controller.ask(65, "120b000100") == "13", "the owner subscribes"
    lock.stdin.write("\n")
    lock.stdin.flush()
    assert lock.stdout.readline() == "the motor closes the door\n", "the button"
    assert door.controller.hears(65) == "1b0a0000", "is told"
    door.device.end()
    assert lock.wait(PATIENCE) == 1, "the device is gone"
    assert lock.stderr.read() == f"lock.py: {door.path}: the device closed the connection\n", "it says so"


@pytest.fixture
def lock_at():
    """Starts the example of an application at a socket, and ends it."""
    locks = []

    def begin(path):
        locks.append(subprocess.Popen([LOCK, path], text=True, stdin=subprocess.PIPE, stdout=subprocess.PIPE))
        return locks[-1]

    yield begin
    for it in locks:
        it.kill()
        it.communicate()


def test_a_lock_that_was_away(door, lock_at):
    """What phones wrote while the application was not there turns the motor when it comes."""
    door.owner_comes(65)
    assert door.controller.ask(65, "120a0001") == "13", "it is opened"
    lock = lock_at(door.path)
    assert lock.stdout.readline() == "the motor opens the door\n", "it is told that it has missed that"
    assert door.controller.ask(65, "120a0000") == "13", "it is shut"
    assert lock.stdout.readline() == "the motor closes the door\n", "once"


def test_a_lock_at_a_full_disk(folder, lock_at):
    """The motor does not follow a value that is not saved, and does once it is."""
    disk, state = Disk(folder), f"{folder}/state"
    os.mkdir(state)
    door = Door(folder, "--state", state, through=disk.through)
    door.owner_comes(65)
    disk.fill()
    door.controller.say(65, "120a0001")
    assert door.device.said("not saved:"), "the state is not saved"
    lock = lock_at(door.path)
    # The lock says `application`, and then asks for the value.
    door.device.said("application")
    assert not select.select([lock.stdout], [], [], 2)[0], "the motor waits"
    disk.empty()
    assert lock.stdout.readline() in ("the motor opens the door\n", "the door is open\n"), "the state is saved"


def test_a_visit(folder):
    """The example of a controller plays a phone's visit, by a script of `run`."""
    path = f"{folder}/visit.socket"
    device = Device(*DOOR, "--listen", "127.0.0.1:0", "--application", path)
    address = "{}:{}".format(*device.port())
    application = Application(path)
    visit = subprocess.run(
        [PHONES, address, SCRIPT],
        stdout=subprocess.PIPE, stdin=subprocess.DEVNULL, text=True, timeout=2 * PATIENCE,
    )
    # What `run` prints of it, but for the code: that wants the leave of an application, and none gives it.
    heard = ["Q > 01120a000f", "Q > 13", "Q > 0b01", "Q > 010a0d0008", "Q > 010a0d0008", "Q ended 05"]
    assert [it for it in visit.stdout.splitlines() if it.startswith("Q ")] == heard, "what the phone hears"
    said = [it for it in text_of(SCRIPT).splitlines() if not it.startswith("#")]
    shown = [it.strip() for it in visit.stdout.splitlines() if it.startswith("  ") and "(" not in it]
    assert shown == said, "what it does"
    lines = application.lines(6)
    came = ["+ waiting", "+ serving", "+ connected 1 0 00:11:22:33:44:55"]
    assert lines[:3] == came, "the application hears"
    assert lines[3:] == ["+ secured 1 16 1 0", "+ written 1 10 01", "+ unsecured 1"], "of the phone"


WAITING = """connect Q 0 00:11:22:33:44:55
encrypt Q 0202020202020202 514
tick 1000
Q < 0a0d00
tick 5000
Q < 0a0d00
tick 10
Q < 0a0300
"""


@pytest.mark.long(10)
def test_a_time(folder):
    """The example of a controller waits at a `tick`, by which an authorization ends."""
    path = f"{folder}/time.socket"
    device = Device(*DOOR, "--listen", "127.0.0.1:0", "--application", path)
    address = "{}:{}".format(*device.port())
    application = Application(path)
    begun = time.monotonic()
    visit = subprocess.Popen(
        [PHONES, address, write_text(f"{folder}/time.script", WAITING)], stdout=subprocess.PIPE, stdin=subprocess.DEVNULL, text=True
    )
    while not application.line().startswith("+ secured 1"):
        pass
    assert application.ask("allow 1 3000") == "ok", "the phone is authorized"
    printed = visit.communicate(timeout=2 * PATIENCE)[0]
    assert time.monotonic() - begun > 5, "it has waited"
    heard = [it for it in printed.splitlines() if it.startswith("Q ")]
    assert heard == ["Q > 0b31323334", "Q > 010a0d0008", "Q > 0b4c6f636b"], "what the phone hears"
    assert "skipped" not in printed, "no line is skipped"


# Of each the example, its words, and the beginning of its line.
FAILING = {
    "no-words": (PHONES, [], "usage: phones.py HOST:PORT|PATH SCRIPT"),
    "no-port": (PHONES, ["localhost", SCRIPT], "usage: phones.py HOST:PORT|PATH SCRIPT"),
    "no-script": (PHONES, ["ADDRESS", "FOLDER/gone"], "phones.py: the script FOLDER/gone: "),
    "no-device": (PHONES, ["127.0.0.1:1", SCRIPT], "phones.py: the device at 127.0.0.1:1: "),
    "no-line": (PHONES, ["FOLDER/gone", SCRIPT], "phones.py: the device at FOLDER/gone: "),
    "no-serial-line": (PHONES, ["/dev/null", SCRIPT], "phones.py: the device at /dev/null: "),
    "a-line-that-cannot-be-played": (
        PHONES, ["ADDRESS", "FOLDER/faulty"], "phones.py: FOLDER/faulty, line 2: Q is not connected"
    ),
    "no-socket-named": (LOCK, [], "usage: lock.py SOCKET"),
    "no-socket": (LOCK, ["FOLDER/gone"], "lock.py: FOLDER/gone: "),
}


@pytest.mark.parametrize("example, words, line", FAILING.values(), ids=FAILING)
def test_an_example_that_fails(folder, example, words, line):
    """The examples end by one line on standard error if the device, a file or a line of a script fails."""
    write_text(f"{folder}/faulty", "# A phone that never connected.\nQ < 0a0300\n")
    address = "{}:{}".format(*Device(*DOOR, "--listen", "127.0.0.1:0").port())
    words = [it.replace("ADDRESS", address).replace("FOLDER", folder) for it in words]
    how = {"stdin": subprocess.DEVNULL, "capture_output": True, "text": True, "timeout": 2 * PATIENCE}
    ran = subprocess.run([example, *words], **how)
    line = line.replace("FOLDER", folder)
    assert (ran.returncode, ran.stderr[: len(line)], ran.stderr.count("\n")) == (1, line, 1), "its end"


def test_a_device_that_leaves():
    """The example of a controller ends by one line on standard error if the device closes the connection."""
    with socket.create_server(("127.0.0.1", 0)) as leaving:
        leaving.settimeout(PATIENCE)
        address = "{}:{}".format(*leaving.getsockname())
        visit = subprocess.Popen([PHONES, address, SCRIPT], stderr=subprocess.PIPE, text=True)
        leaving.accept()[0].close()
        told = visit.communicate(timeout=PATIENCE)[1]
    line = f"phones.py: the device at {address}: the device closed the connection\n"
    assert (visit.returncode, told) == (1, line), "phones.py, a device that leaves"
