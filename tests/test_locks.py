"""Tries that of several devices only one saves in a file, by whatever path they have it."""

import os
import shutil
import subprocess
import tempfile
import time

import pytest

from parties import DISCONNECT, controller_at, end_all, soon
from parties.homes import AT_OWNER, Home, end, has_saved, is_refused, owner_comes, read, write
from parties.places import write_text
from parties.tables import SENSOR, VALUE, VALUE_CONFIG, spelled, state_text

TAKEN = "locked: another device uses"


@pytest.mark.parametrize("saved", ["state", "rows"])
def test_a_locked_file(folder, saved):
    """A second device at the same file ends, and the first one serves on; a killed one has no lock."""
    home = Home(folder, saved=saved)
    device, controller = home.start()
    write(controller, VALUE_CONFIG, "0100")
    application = home.application()
    os.symlink(home.place, f"{folder}/other")
    link = f"{folder}/other" + ("" if saved == "state" else "/state")
    socket_before = os.stat(home.socket).st_ino
    word, path = home.saved
    for spelling in (path, link, os.path.relpath(path)):
        second = home.second("--application", home.socket, word, spelling)
        is_refused(f"{word} {spelling}", home, second, ["lock"])
    assert os.stat(home.socket).st_ino == socket_before, "the first one's socket"
    assert application.ask(f"update {SENSOR} 01") == "ok", "its application"
    assert read(controller, VALUE_CONFIG) == "0100", "its phone"
    end(device)
    assert home.device().said("ready") == "", "after a kill"


def test_a_linked_rows_file(folder):
    """A second device that has the rows file by a link is refused."""
    home = Home(folder, saved="rows")
    home.start()
    os.symlink(home.path, f"{folder}/link")
    is_refused("a link", home, home.second("--rows", f"{folder}/link"), ["lock"])


def linked_to(home, target):
    """A folder whose state is a link."""
    place = tempfile.mkdtemp(dir=home.folder)
    os.symlink(target, f"{place}/state")
    return place


@pytest.mark.parametrize("is_there", [True, False], ids=["a-file", "no-file-yet"])
@pytest.mark.parametrize("name", ["state", "other"])
def test_a_state_of_two_folders(home, is_there, name):
    """A second device whose folder has a link to the same state is refused, whatever the first one has."""
    real = f"{home.folder}/real"
    os.mkdir(real)
    if is_there:
        write_text(f"{real}/{name}", state_text())
    one, two = (linked_to(home, f"../real/{name}") for _ in range(2))
    home.saved, home.path = ["--state", one], f"{real}/{name}"
    _, controller = home.start()
    assert write(controller, VALUE, "01") == "13", "a write"
    is_refused(f"two links to {name}", home, home.second("--state", two), ["/real/", TAKEN])
    if name == "state":
        is_refused("its own folder", home, home.second("--state", real), [TAKEN])
    assert write(controller, VALUE, "02") == "13", "the first one saves"
    assert f"{VALUE} fff1 02\n" in home.state(), "its value"


def test_a_link_to_a_state(home):
    """A second device whose folder has a link to the state of the first one is refused."""
    home.start()
    is_refused("a link", home, home.second("--state", linked_to(home, home.path)), [TAKEN])


@pytest.fixture
def small_disk(home):
    """A function that mounts the file system of a home again, with other words."""
    words = ["mount", "-t", "tmpfs", "-o", "size=256k", "none", home.place]
    if subprocess.run(words, stderr=subprocess.DEVNULL).returncode != 0:
        pytest.skip("no file system can be mounted here")
    yield lambda words: subprocess.run(["mount", "-o", f"remount,{words}", home.place], check=True)
    end_all()
    subprocess.run(["umount", home.place], check=True)


def test_a_start_without_a_lock(home, small_disk):
    """Of two devices that started on a read-only disk, one saves once the disk can be written."""
    small_disk("ro")
    devices = []
    for name in "ab":
        home.socket = f"{home.folder}/{name}"
        devices.append(home.device())
        devices[-1].said(f"not saved: {home.path}: Read-only file system")
        devices[-1].said("ready")
    small_disk("rw")
    is_saved = lambda it: bool(it.logged("saved again:"))
    assert soon(lambda: any(map(is_saved, devices))), "one saves"
    one, two = sorted(devices, key=is_saved, reverse=True)
    two.said(f"not saved: {home.path}: locked: another device uses it")
    controllers = [controller_at(it) for it in (one, two)]
    for controller in controllers:
        controller.is_advertised()
        owner_comes(controller)
    assert write(controllers[0], VALUE, "01") == "13", "its phone is answered"
    controllers[1].say(AT_OWNER, f"12{spelled(VALUE)}02")
    assert controllers[1].command(DISCONNECT) == "410013", "the other's is disconnected"
    has_saved("the first one's value", home, values=[f"{VALUE} fff1 01"])
    # The other one tries again each second.
    time.sleep(2.3)
    has_saved("is still there", home, values=[f"{VALUE} fff1 01"])
    assert len(two.logged(f"not saved: {home.path}: locked")) == 1, "the other says it once"
    end(one)
    two.said(f"not saved: {home.path}: another device has saved it: restart this one")
    has_saved("the first one's value stays", home, values=[f"{VALUE} fff1 01"])
    end(two, *controllers)
    home.socket = f"{home.folder}/c"
    _, controller = home.start()
    assert read(controller, VALUE) == "01", "the next start serves it"


def test_a_folder_made_anew(home):
    """A folder that was removed and made again is locked again."""
    _, controller = home.start()
    assert write(controller, VALUE, "01") == "13", "a write"
    shutil.rmtree(home.place)
    os.mkdir(home.place)
    assert write(controller, VALUE, "02") == "13", "another write"
    is_refused("a second device", home, home.second(*home.saved), [f"lock: {TAKEN}"])
    has_saved("the value", home, values=[f"{VALUE} fff1 02"])


def is_overtaken(home, device, controller):
    """A second device, which has the lock that a first one had: that says so, and saves no more."""
    home.socket += "2"
    other = home.device()
    other.said("ready")
    controller.say(AT_OWNER, f"12{spelled(VALUE)}02")
    assert controller.command(DISCONNECT) == "410013", "the phone is disconnected"
    device.said(f"not saved: {home.path}: locked: another device uses it")
    has_saved("the other's state", home)
    return other


def test_a_folder_that_another_takes(home):
    """A device whose folder was removed and made again saves no more if another device is faster."""
    device, controller = home.start()
    assert write(controller, VALUE, "01") == "13", "a write"
    shutil.rmtree(home.place)
    os.mkdir(home.place)
    end(is_overtaken(home, device, controller))
    device.said(f"not saved: {home.path}: another device has saved it: restart this one")
    has_saved("it stays", home)


def test_a_lock_that_is_removed(home):
    """A device whose lock was removed saves no more if a second one has taken its place."""
    device, controller = home.start()
    os.remove(f"{home.place}/lock")
    is_overtaken(home, device, controller)
