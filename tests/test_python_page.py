"""Runs the lock and the blocking form of docs/PYTHON.md, as they stand there, by each Python from 3.9 on."""

import contextlib
import glob
import os
import re
import shutil
import subprocess
import sys
import threading

import pytest

from parties import DOOR, OWNER, PATIENCE, ROOT, Application, Device, controller_at, text_of
from parties.asynchronous import door

# A service of three attributes.
ANOTHER = """[[service]]
uuid = "fff9"
[[service.characteristic]]
uuid = "fffa"
properties = ["read"]
value = ""
"""
# What asyncio says under -X dev on a slow machine.
SLOW = re.compile(r"Executing <.*> took \d+\.\d+ seconds")
LOCK, METER = re.findall(r"(?ms)^```python\n(.*?)^```$", text_of(f"{ROOT}/docs/PYTHON.md"))[:2]


def pythons():
    """The programs that may be a Python from 3.9 on: this one, those of the path, and those of pyenv."""
    pyenv = os.path.expanduser("~/.pyenv")
    found = [sys.executable, *(shutil.which(f"python3.{it}") for it in range(9, 20))]
    # A shim of pyenv runs one of its versions.
    found = [it for it in found if it and not it.startswith(f"{pyenv}/shims/")]
    found += [
        it for it in sorted(glob.glob(f"{pyenv}/versions/3.*/bin/python3"))
        if int(re.search(r"/versions/3\.(\d+)", it)[1]) >= 9
    ]
    return list(dict.fromkeys(map(os.path.realpath, found)))


@pytest.fixture(params=pythons(), ids=lambda it: "-".join(it.split("/")[-3::2]))
def python(request):
    """A Python from 3.9 on."""
    words = [request.param, "-c", "import sys; sys.exit(sys.version_info < (3, 9))"]
    if subprocess.run(words, capture_output=True, timeout=PATIENCE).returncode:
        pytest.skip(f"{request.param} does not run, or is below 3.9")
    return request.param


@contextlib.contextmanager
def started(folder, python, text):
    """A program in a folder, which ends well and without a warning."""
    with open(f"{folder}/program.py", "w", encoding="utf-8") as file:
        file.write(text)
    words = [python, "-B", "-W", "error", "-X", "dev", "program.py"]
    with open(f"{folder}/told", "w+") as told:
        process = subprocess.Popen(
            words, cwd=folder, env={**os.environ, "PYTHONPATH": f"{ROOT}/python"}, stdin=subprocess.DEVNULL,
            stdout=subprocess.PIPE, stderr=told, text=True,
        )
        Device.started.append(process)
        with process.stdout:
            yield process
            assert process.wait(PATIENCE) == 0, "it ends"
        warned = [it for it in text_of(f"{folder}/told").splitlines() if not SLOW.fullmatch(it)]
        assert warned == [], "without a warning"


def printed(process):
    """The next line of a program. One that prints none is ended."""
    clock = threading.Timer(PATIENCE, process.kill)
    clock.start()
    line = process.stdout.readline()
    clock.cancel()
    return line


def serving(host):
    """The controller of a device that serves, to which the program is connected."""
    controller = controller_at(host)
    controller.is_advertised()
    host.said("application")
    return controller


def lay_other(folder):
    """A table with another service first, so the lock is at 13, and with the lock open. Returns its path."""
    table, mark = text_of(DOOR[0]), 'uuid = "fff1"\nvalue = "00"'
    at = table.index("[[service]]")
    assert table.count(mark) == 1, "the lock of the table"
    with open(f"{folder}/other.toml", "w", encoding="utf-8") as file:
        file.write(table[:at] + ANOTHER + table[at:].replace(mark, mark.replace('"00"', '"01"')))
    return f"{folder}/other.toml"


def test_lengths():
    """The lock and the blocking form are as short as the page says."""
    assert len(LOCK.splitlines()) <= 30, "a lock in 30 lines"
    assert len(METER.splitlines()) <= 10, "ten lines"


def test_a_lock(folder, python):
    """The lock of the page opens and closes a door, and finds it again in another table."""
    path = f"{folder}/door.socket"
    host = door(path)
    with started(folder, python, LOCK) as lock:
        controller = serving(host)
        controller.connect(64, OWNER)
        controller.encrypt(64)
        assert printed(lock) == "the door is closed\n", "the state"
        assert controller.ask(64, "120a0001") == "13", "it writes"
        assert printed(lock) == "the motor opens the door\n", "the page's lock"
        assert controller.ask(64, "0a0d00") == "0b31323334", "it is authorized"
        assert controller.ask(64, "0a0600") == "0b5a", "the battery"
        controller.close()
        host.end()
        host = Device(lay_other(folder), DOOR[1], "--listen", "127.0.0.1:0", "--application", path)
        host.said("ready")
        controller = serving(host)
        assert printed(lock) == "the door is open\n", "the state of the next"
        controller.connect(64, OWNER)
        controller.encrypt(64)
        assert controller.ask(64, "120d0000") == "13", "it writes to the next"
        assert printed(lock) == "the motor closes the door\n", "the lock is there"
        Application(path, "application").close()
        assert lock.stdout.read() == "", "which is all"
    controller.close()
    host.end()


def test_a_meter(folder, python):
    """The blocking form of the page sets the battery, and ends as another application comes."""
    host = door(f"{folder}/door.socket")
    with started(folder, python, METER) as meter:
        assert printed(meter) == "battery: 90 %\n", "the page's blocking form"
        Application(f"{folder}/door.socket", "application").close()
    host.end()
