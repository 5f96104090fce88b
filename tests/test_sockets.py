"""Tries the sockets at which `gatt_shell host` listens: permissions, what is in the way, and descriptors."""

import os
import socket
import stat
import threading
import time

import pytest

from parties import DOOR, PATIENCE, Application, Device, late
from parties.doors import LISTEN, NAME, NAME_READ, RESET, serving, visitor
from parties.watching import highest, is_idle, limit

# A user that this machine need not have.
ANOTHER = 12345
MAKE = {
    "file": lambda path: open(path, "w").close(),
    "link": lambda path: os.symlink("/nowhere", path),
    "folder": os.mkdir,
}


def device_at(path):
    return Device(*DOOR, *LISTEN, "--application", path)


def left_behind(path):
    """A socket at which nobody listens any more."""
    left = socket.socket(socket.AF_UNIX)
    left.bind(path)
    left.close()


def last_of(refusal):
    """The status of a device that does not start, and the last line that it says."""
    status, told = refusal
    return status, told.splitlines()[-1]


def is_replaced(path, what):
    """A device listens at a path in place of what is there."""
    device = device_at(path)
    device.said("ready")
    assert Application(path).line() == "+ waiting", what
    device.end()


def test_the_socket(folder):
    """The socket is its owner's alone from its first moment."""
    path, seen, is_over = f"{folder}/first", set(), threading.Event()

    def look():
        while not is_over.is_set():
            for it in (path, f"{path}.new", f"{path}.new/s"):
                try:
                    mode = os.lstat(it).st_mode
                    seen.add((it[len(path):], stat.S_IFMT(mode), stat.S_IMODE(mode)))
                except OSError:
                    pass

    looker = threading.Thread(target=look)
    mask = os.umask(0)
    try:
        looker.start()
        for _ in range(20):
            device = device_at(path)
            device.said("ready")
            device.end()
    finally:
        os.umask(mask)
        is_over.set()
        looker.join()
    assert {it[2] for it in seen if it[0] == ""} == {0o600}, "its modes"
    assert {it[2] for it in seen if it[0] == ".new"} <= {0o700}, "the modes of the folder in which it is made"
    assert not os.path.lexists(f"{path}.new"), "nothing is left of that"


def test_the_longest_path(folder):
    """A socket has a path of at most 101 bytes. For a longer one nothing is made."""
    path = f"{folder}/".ljust(101, "x")
    device = device_at(path + "x")
    assert device.process.wait(PATIENCE) == 64, "a path that is too long"
    assert os.listdir(folder) == [], "nothing is left of it"
    device_at(path).said("ready")
    assert os.listdir(folder) == [os.path.basename(path)], "the longest one"


def test_a_socket_of_another_user(folder):
    """A socket of another user stays as it was."""
    path = f"{folder}/other"
    left_behind(path)
    try:
        os.chown(path, ANOTHER, ANOTHER)
    except PermissionError:
        pytest.skip("no right to make a socket of another user: root has it")
    before = os.lstat(path)
    device = device_at(path)
    assert device.process.wait(PATIENCE) == 2, "a socket of another user"
    assert os.lstat(path).st_ino == before.st_ino, "stays"


def test_a_socket_left_behind(folder):
    """A socket of ours that was left behind is replaced."""
    left_behind(f"{folder}/other")
    is_replaced(f"{folder}/other", "a socket of ours is replaced")


@pytest.mark.parametrize("what", MAKE)
def test_no_socket_in_the_way(folder, what):
    """What is at the path and is no socket stays, and the device does not start."""
    path = f"{folder}/way"
    MAKE[what](path)
    device = device_at(path)
    assert device.process.wait(PATIENCE) == 2, f"a {what} at the path"
    assert os.path.lexists(path), f"the {what} stays"


def test_a_link_in_the_way(folder):
    """A link in the place of the folder in which the socket is made is not followed, and not removed."""
    path, victim = f"{folder}/linked", f"{folder}/victim"
    os.mkdir(victim)
    open(f"{victim}/s", "w").close()
    os.symlink(victim, f"{path}.new")
    told = f"listen: failed: {path}.new: File exists (os error 17)"
    assert last_of(device_at(path).refusal()) == (2, told), "a link in place of the folder"
    assert os.path.exists(f"{victim}/s"), "the file behind it stays"
    assert os.path.islink(f"{path}.new"), "the link stays"


def test_a_file_in_the_folder(folder):
    """A folder with a file in the place of the folder in which the socket is made is not removed."""
    path = f"{folder}/linked"
    os.mkdir(f"{path}.new")
    open(f"{path}.new/s", "w").close()
    told = f"listen: failed: {path}.new: Directory not empty (os error 39)"
    assert last_of(device_at(path).refusal()) == (2, told), "a file in the folder"
    assert os.path.exists(f"{path}.new/s"), "stays"


def test_an_interrupted_start(folder):
    """A device that was interrupted as it made its socket is no obstacle."""
    path = f"{folder}/linked"
    os.mkdir(f"{path}.new", 0o700)
    left_behind(f"{path}.new/s")
    is_replaced(path, "one that was interrupted there is no obstacle")


def is_once_logged(device, line):
    """A device that lacks descriptors logs so once, and does not spin."""
    device.said(line)
    is_idle("no descriptors", device, 3)
    assert len(device.logged(line)) == 1, "one line"


def is_soon_served(device, streams, first):
    """The first of these is served once there are descriptors."""
    limit(device, 1024)
    begun = time.monotonic()
    streams[0].settimeout(PATIENCE)
    assert streams[0].recv(100)[:9] == first, "served"
    assert time.monotonic() - begun < late(5), "soon"
    for one in streams:
        one.close()


def test_no_descriptors_for_controllers(folder):
    """A device without descriptors for controllers goes on once there are some."""
    device = device_at(f"{folder}/socket")
    device.port()
    limit(device, highest(device) + 1)
    streams = [socket.create_connection(device.port(), PATIENCE) for _ in range(5)]
    is_once_logged(device, "controller: not accepted: Too many open files")
    is_soon_served(device, streams, RESET)
    device.end()


def test_no_descriptors_for_applications(folder):
    """A device without descriptors for applications serves phones, and goes on once there are some."""
    device, application, controller = serving(folder)
    limit(device, highest(device) + 1)
    streams = [socket.socket(socket.AF_UNIX) for _ in range(5)]
    for one in streams:
        one.connect(f"{folder}/socket")
    is_once_logged(device, "application: not accepted: Too many open files")
    assert application.ask("value 10") == "value 10 00", "the one that is there is answered"
    visitor(application, controller)
    assert controller.ask(64, NAME_READ) == NAME, "phones are served"
    is_soon_served(device, streams, b"+ started")
    assert Application(f"{folder}/socket").line() == "+ serving", "the next too"
    device.end()
