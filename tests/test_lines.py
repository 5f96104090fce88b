"""Tries the serial lines and addresses at which `gatt_shell host` looks for a controller."""

import fcntl
import os
import select
import socket
import subprocess
import time

import pytest

from parties import DOOR, STRANGER, Controller, Device, SerialLine
from parties.users import NOBODY, as_nobody

NAME_READ, NAME = "0a0300", "0b4c6f636b"
# Some attempts of a device, which tries each half second.
ATTEMPTS = 1.6

@pytest.fixture
def path(folder):
    """Where a device looks for its line."""
    return f"{folder}/line"


@pytest.fixture
def start(path):
    """A function that starts a device at the line."""
    def start(through=()):
        device = Device(*DOOR, "--serial", path, "--patience", "3", through=through)
        device.said("ready")
        return device

    return start


@pytest.fixture
def line(path):
    """The line, which is there."""
    line = SerialLine(path)
    yield line
    line.close()


def is_silent(stream, seconds=ATTEMPTS):
    """Nothing comes from a device."""
    return not select.select([stream], [], [], seconds)[0]


def test_another_users_line(start, path):
    """A line of another user gets no octet, and is served once it belongs to the device's user."""
    if os.geteuid() != 0:
        is_refused_in_a_namespace(start, path)
        return
    line = SerialLine(path)
    os.chown(os.ttyname(line.slave), NOBODY, -1)
    line.sendall(b"what was there")
    device = start()
    assert device.said(f"controller: {path}: belongs to another user") == "", "it is logged"
    assert is_silent(line), "nothing is written"
    assert len(device.logged("controller")) == 1, "it is logged once"
    assert select.select([line.slave], [], [], 0)[0], "nothing is read"
    os.chown(os.ttyname(line.slave), 0, -1)
    assert Controller(line).is_advertised(), "an own line is served"
    line.close()


def is_refused_in_a_namespace(start, path):
    """The same if this test is not root: in a namespace of users root is another user."""
    through = ["unshare", "--user", f"--map-user={os.geteuid()}"]
    if subprocess.run([*through, "true"], stderr=subprocess.DEVNULL).returncode != 0:
        pytest.skip("this is neither root, nor can a namespace of users be made here")
    os.symlink("/dev/ptmx", path)
    device = start(through)
    assert device.said(f"controller: {path}: belongs to another user") == "", "it is logged"


@pytest.mark.parametrize("owner, is_served", [(1, False), (0, True), (NOBODY, True)],
                         ids=["a-third-user", "root", "its-user"])
def test_a_line_for_another_user(folder, start, path, line, owner, is_served):
    """A device that is not root serves a line of root or of its user, and none of a third user."""
    through = as_nobody(folder)
    os.chown(os.ttyname(line.slave), owner, -1)
    os.chmod(os.ttyname(line.slave), 0o666)
    device = start(through)
    if is_served:
        assert Controller(line).is_advertised(), f"a line of {owner}"
    else:
        device.said(f"controller: {path}: belongs to another user")
        assert is_silent(line), f"a line of {owner}"


@pytest.mark.skipif(os.geteuid() != 0, reason="only root can give a line to another user")
def test_a_moved_link(start, folder, path):
    """The path leads to another user's line when the first one is gone: it does not become the controller."""
    first = SerialLine(path)
    device = start()
    assert Controller(first).is_advertised(), "the first line"
    second = SerialLine(f"{folder}/second")
    os.chown(os.ttyname(second.slave), NOBODY, -1)
    os.rename(f"{folder}/second", path)
    os.close(first.slave)
    os.close(first.master)
    device.said(f"controller: {path}: belongs to another user")
    assert is_silent(second), "the second one gets nothing"


def test_a_taken_line(start, path, line):
    """A second device at a line takes no octet of the first one's, and serves once that is gone."""
    first = start()
    controller = Controller(line)
    assert controller.is_advertised(), "the first one serves"
    controller.connect(64, STRANGER)
    second = start()
    found = second.said(f"controller: {path}: another program has it")
    assert found == "", "the second one says why not"
    found = [controller.ask(64, NAME_READ) for _ in range(50)]
    assert found.count(NAME) == 50, "each read is answered"
    time.sleep(ATTEMPTS)
    assert len(second.logged("controller")) == 1, "it is logged once"
    assert first.logged("controller gone") == [], "the first one has noticed nothing"
    first.end()
    assert Controller(line).is_advertised(), "the second one follows"


def test_a_locked_line(start, path, line):
    """A line that another program has locked is served when it is free again."""
    fcntl.flock(line.slave, fcntl.LOCK_EX)
    device = start()
    device.said(f"controller: {path}: another program has it")
    assert is_silent(line), "nothing is written"
    fcntl.flock(line.slave, fcntl.LOCK_UN)
    assert Controller(line).is_advertised(), "a free line"


def test_reasons_of_a_line(start, path):
    """The log names the path and the reason, again only for another reason or after a controller."""
    missing = f"controller: {path}: No such file or directory"
    is_folder = f"controller: {path}: Is a directory"
    device = start()
    device.said(missing)
    time.sleep(ATTEMPTS)
    assert len(device.logged("controller")) == 1, "a missing path, once"
    os.mkdir(path)
    device.said(is_folder)
    os.rmdir(path)
    device.said(missing, 2)
    with open(path, "w") as file:
        file.write("kept")
    device.said(f"controller: {path}: no line or socket that can be waited for")
    with open(path) as file:
        assert file.read() == "kept", "a file is left alone"
    os.remove(path)
    device.said(missing, 3)
    line = SerialLine(path)
    assert Controller(line).is_advertised(), "a line"
    line.close()
    device.said("controller gone")
    device.said(missing, 4)
    time.sleep(ATTEMPTS)
    assert len(device.logged(missing)) == 4, "after a controller, once"
    assert len(device.logged(is_folder)) == 1, "a folder, once"


def test_no_permission(folder, start, path):
    """A line that may not be opened is named with the reason."""
    through = as_nobody(folder) if os.geteuid() == 0 else ()
    with open(path, "w"):
        os.chmod(path, 0)
    start(through).said(f"controller: {path}: Permission denied")


def test_reasons_of_an_address():
    """An address that refuses is named with the reason, once, and again after a controller."""
    server = socket.socket()
    server.bind(("127.0.0.1", 0))
    address = "%s:%d" % server.getsockname()
    refused = f"controller: {address}: Connection refused"
    device = Device(*DOOR, "--connect", address)
    device.said("ready")
    device.said(refused)
    time.sleep(ATTEMPTS)
    assert len(device.logged("controller")) == 1, "once"
    server.listen()
    controller = Controller(server.accept()[0])
    assert controller.is_advertised(), "a controller that listens"
    server.close()
    controller.close()
    device.said(refused, 2)
    time.sleep(ATTEMPTS)
    assert len(device.logged(refused)) == 2, "again, once"
