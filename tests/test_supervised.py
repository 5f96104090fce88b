"""Tries what a device says to its supervisor, as systemd is one, and the units that rest on it."""

import os
import re
import shlex
import shutil
import signal
import subprocess
import time

import pytest

from parties import DOOR, OWNER, PATIENCE, ROOT, STRANGER, Device, controller_at, look, text_of
from parties.homes import write
from parties.places import write_text
from parties.supervised import Supervisor
from parties.tables import VALUE

WAITING = "STATUS=waiting for a controller"
DEVICES = ["bridge/gihandop@.service", "examples/device/door.service"]
UNITS = [
    "bridge/gihandop@.service", "bridge/hci_bridge@.service", "examples/device/door.service",
    "examples/device/lock.service",
]


@pytest.fixture(params=["path", "abstract"])
def supervisor(request, folder):
    """A supervisor at a path, and one with a name that is no file's."""
    found = Supervisor(f"{folder}/notify" if request.param == "path" else f"@gihandop{folder}")
    yield found
    found.socket.close()


def device(folder, supervisor, *words, **variables):
    words = ["--listen", "127.0.0.1:0", "--application", f"{folder}/socket", *words]
    return Device(*DOOR, *words, through=supervisor.through(**variables))


def test_from_start_to_stop(folder, supervisor):
    """It hears that the device is ready, what it waits for, how many clients it serves, and that it stops."""
    served = device(folder, supervisor)
    assert supervisor.hear("READY=1") == ["READY=1"], "the first one"
    assert os.path.exists(f"{folder}/socket"), "the application's socket is there"
    assert supervisor.hear("STATUS") == [WAITING], "no controller"
    controller = controller_at(served)
    assert controller.is_advertised(), "the controller's way is there"
    assert supervisor.hear("STATUS") == ["STATUS=serving 0 clients"], "it is initialised"
    controller.connect(64, STRANGER)
    assert supervisor.hear("STATUS") == ["STATUS=serving 1 client"], "one"
    controller.connect(65, OWNER)
    assert supervisor.hear("STATUS") == ["STATUS=serving 2 clients"], "two"
    controller.ask(64, "0a0300")
    controller.event(0x05, b"\0" + (64).to_bytes(2, "little") + b"\x13")
    assert supervisor.hear("STATUS") == ["STATUS=serving 1 client"], "one is gone, and a question tells nothing"
    controller.close()
    assert supervisor.hear("STATUS") == [WAITING], "the controller is gone"
    assert look(f"{folder}/socket", "stop") == ["ok"]
    assert served.process.wait(PATIENCE) == 0
    assert supervisor.hears(0.2) == ["STOPPING=1"], "the last one"


def test_a_failed_start(folder, supervisor):
    """A device that does not start is never ready."""
    served = device(folder, supervisor, "--state", f"{folder}/nowhere")
    assert served.process.wait(PATIENCE) == 1
    assert supervisor.hears(0.2) == [], "nothing is said"


def test_the_watchdog(folder, supervisor):
    """It is fed twice in its time, also without any other event, and not while the process is stopped."""
    served = device(folder, supervisor, WATCHDOG_USEC=600_000)
    supervisor.hear(WAITING)
    fed = [it for it in supervisor.hears(3) if it == "WATCHDOG=1"]
    assert 8 <= len(fed) <= 11, "each 300 milliseconds"
    served.process.send_signal(signal.SIGSTOP)
    time.sleep(0.2)
    supervisor.hears(0.1)
    assert supervisor.hears(1.5) == [], "a device that hangs"
    served.process.send_signal(signal.SIGCONT)
    assert supervisor.hear("WATCHDOG=1", 2)[-1] == "WATCHDOG=1", "it goes on"


@pytest.mark.parametrize("variables", [
    {}, {"WATCHDOG_USEC": 0}, {"WATCHDOG_USEC": "soon"}, {"WATCHDOG_USEC": 400_000, "WATCHDOG_PID": 1},
], ids=["none", "no-time", "no-number", "another-process"])
def test_no_watchdog(folder, supervisor, variables):
    """Without a time, or with that of another process, it is not fed."""
    device(folder, supervisor, **variables)
    supervisor.hear(WAITING)
    assert supervisor.hears(1) == [], "no food"


@pytest.mark.parametrize("name", ["", "@", "relative/socket", "vsock:2:1234", "/" + 200 * "x"])
def test_no_address(folder, name):
    """A device whose variable names no socket serves as without one."""
    words = ["--listen", "127.0.0.1:0"]
    served = Device(*DOOR, *words, through=["env", f"NOTIFY_SOCKET={name}", "WATCHDOG_USEC=100000"])
    assert controller_at(served).is_advertised(), "it serves"


def test_nobody_hears(folder, supervisor):
    """A supervisor whose socket is full, and one that is gone, hold up nothing."""
    served = device(folder, supervisor, WATCHDOG_USEC=2_000)
    supervisor.hear(WAITING)
    # The socket is full after some datagrams that nobody reads.
    time.sleep(1)
    controller = controller_at(served)
    assert controller.is_advertised(), "a full one"
    controller.connect(64, STRANGER)
    assert controller.ask(64, "0a0300") == "0b4c6f636b", "a client is served"
    supervisor.close()
    assert controller.ask(64, "0a0300") == "0b4c6f636b", "without the socket"
    assert look(f"{folder}/socket", "connections") == ["+ connected 1 1 c0:00:00:00:00:0a", "ok"]
    assert look(f"{folder}/socket", "stop") == ["ok"]


@pytest.mark.without_program
@pytest.mark.parametrize("action", ["verify", "security"])
def test_units(folder, action):
    """systemd accepts the units, and finds little that they could do."""
    if shutil.which("systemd-analyze") is None:
        pytest.skip("there is no systemd-analyze here")
    for unit in UNITS:
        name = os.path.basename(unit).replace("@", "@hci0")
        with open(f"{ROOT}/{unit}") as file:
            text = file.read()
        path = f"{folder}/{name}"
        # The programs are not installed where a test runs.
        for program in ("gatt_shell", "hci_bridge"):
            text = text.replace(f"/usr/bin/{program}", "/bin/true")
        with open(path, "w") as file:
            file.write(text.replace("/opt/door/lock.py", "/bin/true"))
    found = [f"{folder}/{os.path.basename(it).replace('@', '@hci0')}" for it in UNITS]
    options = {"verify": ["--man=no"], "security": ["--offline=yes", "--threshold=25"]}[action]
    ended = subprocess.run(["systemd-analyze", action, *options, *found], capture_output=True, text=True, timeout=60)
    assert (ended.returncode, [it for it in ended.stderr.splitlines() if folder in it]) == (0, []), ended.stderr


@pytest.mark.without_program
@pytest.mark.parametrize("unit", DEVICES)
def test_what_a_unit_says(unit):
    """The units of a device wait until it is ready, have its keys read again, and have a watchdog."""
    with open(f"{ROOT}/{unit}") as file:
        lines = dict(it.split("=", 1) for it in file.read().splitlines() if "=" in it and not it.startswith("#"))
    assert (lines["Type"], lines["NotifyAccess"]) == ("notify", "main")
    assert lines["ExecReload"] == lines["ExecStop"].replace(" stop", " reload"), "the same socket"
    assert int(lines["WatchdogSec"]) >= 30, "a slow disk is no hang"
    begun = lines.get("SyslogIdentifier") or lines["ExecStart"].split()[0].rpartition("/")[2]
    assert begun == "gatt_shell", "its name in the journal"


def files_of(folder, instance):
    """The table and the keys with which the unit of an instance starts its program, below a folder as /etc."""
    text = text_of(f"{ROOT}/{DEVICES[0]}").replace("\\\n", " ")
    line = re.search(r"(?m)^ExecStart=(.*) \$OPTIONS$", text)[1]
    # Specifiers and dollars are of each word, after the quotes.
    words = [it.replace("%i", instance).replace("$$", "$") for it in shlex.split(line)]
    program = write_text(f"{folder}/program", "#!/bin/sh\nprintf '%s\\n' \"$@\"\n")
    os.chmod(program, 0o755)
    words = [it.replace("/usr/bin/gatt_shell", program).replace("/etc/", f"{folder}/") for it in words]
    ended = subprocess.run([*words, "--name", "Two words"], capture_output=True, text=True, check=True)
    host, table, keys, *others = ended.stdout.splitlines()
    assert (host, others[:2]) == ("host", ["--serial", f"/run/gihandop/{instance}"])
    assert others[-2:] == ["--name", "Two words"], "the options"
    return [os.path.relpath(it, f"{folder}/gihandop") for it in (table, keys)]


@pytest.mark.without_program
@pytest.mark.parametrize("instance", ["hci0", "usb\\x2d1", "a:b_c", "-n", "$HOME", "a b"])
def test_files_of_a_unit(folder, instance):
    """Each instance has the files of its own folder, whatever is in it, and without one those of all."""
    shared, own = ["table.toml", "keys.toml"], [f"{instance}/table.toml", f"{instance}/keys.toml"]
    assert files_of(folder, instance) == shared, "not even that of all is there"
    os.makedirs(f"{folder}/gihandop/another")
    assert files_of(folder, instance) == shared, "no folder"
    place = f"{folder}/gihandop/{instance}"
    os.mkdir(place, 0o000)
    assert files_of(folder, instance) == own, "a folder that nobody can read"
    os.rmdir(place)
    for aim in ("another", "nowhere"):
        os.symlink(aim, place)
        assert files_of(folder, instance) == own, "a link"
        os.remove(place)
    write_text(place, "")
    assert files_of(folder, instance) == own, "a file"


def calls_of(name):
    """The system calls of a name in SystemCallFilter: a call, or a group of names."""
    if not name.startswith("@"):
        return {name}
    ended = subprocess.run(["systemd-analyze", "syscall-filter", name], capture_output=True, text=True, check=True)
    names = [it.strip() for it in ended.stdout.splitlines()[1:]]
    return set().union(*(calls_of(it) for it in names if it and not it.startswith("#")))


def allowed_by(unit):
    """The system calls that a unit allows, by its lines in their order."""
    allowed = set()
    for words in re.findall(r"(?m)^SystemCallFilter=(.*)$", text_of(f"{ROOT}/{unit}")):
        named = set().union(*(calls_of(it) for it in words.strip("~").split()))
        allowed = allowed - named if words.startswith("~") else allowed | named
    return allowed


def test_system_calls(home):
    """A device that serves, saves twice and stops does no system call that its unit forbids."""
    for tool in ("strace", "systemd-analyze"):
        if shutil.which(tool) is None:
            pytest.skip(f"there is no {tool} here")
    trace = f"{home.folder}/trace"
    device, controller = home.start(through=["strace", "-f", "-qq", "-o", trace])
    for value in ("0102", "0103"):
        assert write(controller, VALUE, value) == "13", "a value is saved"
    controller.close()
    assert look(home.socket, "reload", "stop") == ["ok", "ok"]
    device.process.wait(PATIENCE)
    done = set(re.findall(r"(?m)^\d+ +(\w+)\(", text_of(trace)))
    assert {"fsync", "rename"} <= done, "the trace has them"
    for unit in DEVICES:
        assert done - allowed_by(unit) == set(), f"{unit}: what it forbids"
