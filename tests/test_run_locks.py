"""Tries that `run` and `serve` use no rows file while another program has it."""

import ctypes
import os
import socket
import subprocess
import time

import pytest

from parties import PATIENCE, PROGRAM, Device, soon, text_of
from parties.homes import Home, end, is_refused, read, write
from parties.places import write_text
from parties.ports import port_of
from parties.tables import KEYS, OWNER_NAME, VALUE_CONFIG, spelled

LOCKED = (1, "", "rows: locked\n")
DONE = (0, "Q > 13\n", "")
LINE = f"{OWNER_NAME} {VALUE_CONFIG} 1\n"


@pytest.fixture
def home(folder):
    """A folder where a device saves its subscriptions alone."""
    return Home(folder, saved="rows")


def command(words, rows, **more):
    """The status of a command of the program with this rows file, and what it prints."""
    words = [PROGRAM, *words, "--rows", rows]
    more.update(stdin=subprocess.DEVNULL, capture_output=True, text=True, timeout=2 * PATIENCE)
    ran = subprocess.run(words, **more)
    return ran.returncode, ran.stdout, ran.stderr


def run(home, value):
    """The words of a run in which the owner configures a value."""
    lines = f"connect Q {OWNER_NAME}\nencrypt Q 0202020202020202 514\nQ < 12{spelled(VALUE_CONFIG)}{value}\n"
    script = write_text(f"{home.folder}/{value}.script", lines)
    return ["run", home.table, KEYS, script]


def test_commands_beside_a_device(home):
    """`run` and `serve` end at once while a device has their rows file, and change nothing."""
    device, controller = home.start()
    assert (write(controller, VALUE_CONFIG, "0100"), home.state()) == ("13", LINE), "a subscription"
    forgets = run(home, "0000")
    before, files = os.stat(home.path).st_ino, sorted(os.listdir(home.place))
    os.symlink(home.path, f"{home.folder}/link")
    os.symlink(home.place, f"{home.folder}/other")
    for path in (home.path, f"{home.folder}/link", f"{home.folder}/other/state", os.path.relpath(home.path)):
        for words in (forgets, ["serve", home.table, KEYS, "nowhere"]):
            assert command(words, path) == LOCKED, f"{words[0]} with {path}"
    # No file is read before the lock is taken.
    assert command(["run", "none", "none", "none"], home.path) == LOCKED, "run without files"
    assert command(["serve", "none", "none", "none"], home.path) == LOCKED, "serve without files"
    found = (home.state(), os.stat(home.path).st_ino, sorted(os.listdir(home.place)))
    assert found == (LINE, before, files), "the rows stay"
    assert write(controller, VALUE_CONFIG, "0100") == "13", "the phone is answered"
    end(device, controller)
    device, controller = home.start()
    assert read(controller, VALUE_CONFIG) == "0100", "the subscription is there after a kill"
    end(device, controller)
    assert command(forgets, f"{home.folder}/link") == DONE, "run after the device"
    assert home.state() == "", "the rows are the run's"


def test_two_runs(home):
    """A run has the lock until it ends: another one ends, and so does a device."""
    remembers = run(home, "0100")
    script = f"{home.folder}/script"
    os.mkfifo(script)
    words = [PROGRAM, "run", home.table, KEYS, script, "--rows", home.path]
    first = subprocess.Popen(words, stdout=subprocess.PIPE, stderr=subprocess.PIPE, text=True)
    Device.started.append(first)

    def opened():
        try:
            return os.open(script, os.O_WRONLY | os.O_NONBLOCK)
        except OSError:
            return None

    # The first run reads its script last.
    pipe = soon(opened)
    assert command(remembers, home.path) == LOCKED, "a second run"
    is_refused("a device", home, home.device(), ["lock"])
    os.close(pipe)
    assert (*first.communicate(timeout=PATIENCE), first.returncode) == ("", "", 0), "the first run"
    assert command(remembers, home.path) == DONE, "a run after it"


def test_a_device_beside_serve(home):
    """While `serve` has a rows file, a device and `run` with it end. When it has ended, they start."""
    remembers = run(home, "0100")
    words = [PROGRAM, "serve", home.table, KEYS, "127.0.0.1:0", "--rows", home.path]
    serving = subprocess.Popen(words, stderr=subprocess.PIPE, text=True)
    Device.started.append(serving)
    assert soon(lambda: os.path.exists(f"{home.path}.lock")), "the lock is made"
    assert os.stat(f"{home.path}.lock").st_mode & 0o777 == 0o600, "only its owner may use it"
    # It listens once it has read its files, and has the lock before and after.
    end_of_wait, port = time.monotonic() + PATIENCE, None
    while not port and time.monotonic() < end_of_wait:
        assert command(remembers, home.path) == LOCKED, "run beside serve"
        port = port_of(serving)
    with socket.create_connection(("127.0.0.1", port)):
        is_refused("a device", home, home.device(), ["lock"])
        assert command(remembers, home.path) == LOCKED, "run while a controller is served"
    serving.communicate(timeout=PATIENCE)
    assert command(remembers, home.path) == DONE, "run after serve"
    assert home.state() == LINE, "its rows"
    _, controller = home.start()
    assert read(controller, VALUE_CONFIG) == "0100", "a device after them"


def bound_by_permissions():
    """Has a program of root refused by the permission of a folder, as any other user's."""
    DROP, OVERRIDE = 24, 1
    ctypes.CDLL(None).prctl(DROP, OVERRIDE, 0, 0, 0)


def test_a_folder_that_may_not_be_written(home):
    """`run` works if it can make no lock."""
    path = write_text(f"{home.place}/rows", "")
    os.chmod(home.place, 0o555)
    assert command(run(home, "0100"), path, preexec_fn=bound_by_permissions) == DONE, "a closed folder"
    assert (text_of(path), os.listdir(home.place)) == (LINE, ["rows"]), "its rows"
    os.chmod(home.place, 0o755)


@pytest.mark.parametrize("make", [os.mkdir, os.mkfifo, lambda path: os.symlink("nothing", path)],
                         ids=["a-folder", "a-pipe", "a-link"])
def test_what_is_no_lock(home, make):
    """`run` works if something that is no file is in the place of the lock."""
    make(f"{home.path}.lock")
    assert (command(run(home, "0100"), home.path), home.state()) == (DONE, LINE), "it runs"
    assert not os.path.exists(f"{home.place}/nothing"), "a link as lock is not followed"


def test_a_long_name(home):
    """`run` works if the name of the lock would be too long."""
    path = f"{home.folder}/{'r' * 255}"
    assert (command(run(home, "0100"), path), text_of(path)) == (DONE, LINE), "a long name"


def test_no_file_to_lock(home):
    """`run` makes no lock for what is no file."""
    remembers, unwritten = run(home, "0100"), (1, "Q > 13\n", "file: unwritten\n")
    assert command(remembers, f"{home.folder}/none/rows") == unwritten, "no folder"
    assert command(remembers, "/dev/null") == DONE, "a device"
    assert not os.path.lexists("/dev/null.lock"), "a device has no lock"
    assert command(remembers, f"{home.place}/.") == (1, "", "file: unreadable\n"), "a folder"
    assert command(remembers, "", cwd=home.place) == unwritten, "no name"
    assert os.listdir(home.place) == [], "neither has a lock"


def test_a_link_to_no_file(home):
    """`run` makes the file to which a link leads, and its lock beside it."""
    os.symlink("target", home.path)
    found = (command(run(home, "0100"), home.path), text_of(f"{home.place}/target"))
    assert found == (DONE, LINE), "a link to no file"
    assert sorted(os.listdir(home.place)) == ["state", "target", "target.lock"], "the lock is the target's"
