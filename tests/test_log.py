"""Tries the log of `gatt_shell host`: its reader pauses or is gone, it is a file, or the journal's."""

import fcntl
import os
import pty
import re
import signal
import socket
import subprocess
import time

import pytest

from parties import DOOR, PATIENCE, PROGRAM, Application, Device, late
from parties.doors import LISTEN
from parties.watching import is_idle

TIME = re.compile(r"\d{4}-\d\d-\d\dT\d\d:\d\d:\d\d\.\d{3}Z (.*)")
DROPPED = re.compile(r"\.\. (\d+) lines of the log dropped")


class Unread:
    """A device whose log goes where the test says, and what is in it once it is read."""

    def __init__(self, where, path, **variables):
        words = [PROGRAM, "host", *DOOR, *LISTEN, "--application", path]
        self.process = subprocess.Popen(words, stderr=where, env={**os.environ, **variables})
        Device.started.append(self.process)

    def end(self, how=signal.SIGKILL):
        self.process.send_signal(how)
        return self.process.wait(PATIENCE)


def begun_at(path):
    """An application at a path, once the device is there."""
    end = time.monotonic() + PATIENCE
    while time.monotonic() < end:
        try:
            return Application(path, "application")
        except OSError:
            time.sleep(0.02)
    raise TimeoutError(path)


def visit(path):
    """An application connects, reads the beginning, and is gone."""
    stream = socket.socket(socket.AF_UNIX)
    stream.connect(path)
    stream.settimeout(PATIENCE)
    # It need not wait for a second.
    stream.sendall(b"application\n")
    stream.recv(9)
    stream.close()


def read_some(descriptor, seconds):
    """The octets that come from a descriptor in so many seconds."""
    os.set_blocking(descriptor, False)
    end, octets = time.monotonic() + seconds, b""
    while time.monotonic() < end:
        try:
            octets += os.read(descriptor, 65536)
        except BlockingIOError:
            time.sleep(0.02)
    return octets


def pipe():
    reading, writing = os.pipe()
    fcntl.fcntl(writing, fcntl.F_SETPIPE_SZ, 16384)
    return reading, writing


def pair():
    one, other = socket.socketpair()
    other.setsockopt(socket.SOL_SOCKET, socket.SO_SNDBUF, 16384)
    return one.detach(), other.detach()


# A terminal is as programs find it: it writes a line feed as two characters.
@pytest.mark.parametrize(
    "begin, visits", [(pipe, 600), (pair, 600), (pty.openpty, 2_000)], ids=["pipe", "socket", "terminal"]
)
def test_a_log_that_nobody_reads(folder, begin, visits):
    """A log whose reader does not read loses lines, which are counted, and never stops the device."""
    path, slowest = f"{folder}/socket", 0
    reading, writing = begin()
    device = Unread(writing, path)
    os.close(writing)
    application = begun_at(path)
    application.line()
    for _ in range(visits):
        since = time.monotonic()
        visit(path)
        slowest = max(slowest, time.monotonic() - since)
    application = begun_at(path)
    assert application.line() == "+ waiting", "it serves"
    # A device that waits for the reader waits for ever.
    assert slowest < late(10), "a line of the log stops nothing"
    is_idle("a full log", device)
    first = read_some(reading, 2)
    application.close()
    begun_at(path).line()
    lines = (first + read_some(reading, 2)).decode().splitlines()
    whole = [TIME.fullmatch(it) for it in lines]
    assert [it for it, found in zip(lines, whole) if not found] == [], "each line whole"
    words = [it.group(1) for it in whole if it]
    lost = [DROPPED.fullmatch(it) for it in words]
    counts = [int(it.group(1)) for it in lost if it]
    # A busy system makes space in a terminal late, so it takes further lines meanwhile.
    assert len(counts) == 1 or begin is pty.openpty, "it is told once"
    came = sum(it == "application" for it in words)
    assert came < visits and sum(counts) > 0, "lines were dropped"
    # An application has a line as it comes, and one as it goes or is replaced.
    assert visits + 3 - came <= sum(counts) <= 2 * (visits + 3 - came) + 2, "as many as are missing"
    assert device.end(signal.SIGTERM) == -signal.SIGTERM, "it ends"
    os.close(reading)


def gone():
    """A pipe whose reader is gone."""
    reading, writing = os.pipe()
    os.close(reading)
    return writing


def full():
    return os.open("/dev/full", os.O_WRONLY)


@pytest.mark.parametrize("begin", [gone, full])
def test_a_log_without_a_reader(folder, begin):
    """A log whose reader is gone, or that is full, ends nothing."""
    path, where = f"{folder}/socket", begin()
    device = Unread(where, path)
    application = begun_at(path)
    assert application.line() == "+ waiting", "it serves"
    for _ in range(50):
        visit(path)
    assert begun_at(path).line() == "+ waiting", "it serves further"
    is_idle("a log without a reader", device)
    device.end()
    os.close(where)


def hour():
    return time.strftime("%Y-%m-%dT%H", time.gmtime())


def test_a_log_in_a_file(folder):
    """A log in a file has each line, with the time of day."""
    path, name, before = f"{folder}/socket", f"{folder}/log", hour()
    where = os.open(name, os.O_WRONLY | os.O_CREAT)
    device = Unread(where, path)
    begun_at(path).line()
    for _ in range(300):
        visit(path)
    begun_at(path).line()
    device.end()
    os.close(where)
    with open(name) as file:
        lines = file.read().splitlines()
    whole = [TIME.fullmatch(it) for it in lines]
    assert [it for it, found in zip(lines, whole) if not found] == [], "each line has its time"
    assert sum(it.group(1) == "application" for it in whole if it) == 302, "each line is there"
    assert lines[-1][:13] in (before, hour()), "the time is that of the day"


@pytest.mark.parametrize(
    "named, has_time",
    [(lambda it: f"{it.st_dev}:{it.st_ino}", False), (lambda it: f"{it.st_dev}:{it.st_ino + 1}", True),
     (lambda it: "x" * 100, True)],
    ids=["its_stream", "another_stream", "no_stream"],
)
def test_a_log_for_the_journal(folder, named, has_time):
    """A log that the journal of systemd reads has no time, which the journal notes itself."""
    reading, writing = os.pipe()
    device = Unread(writing, f"{folder}/socket", JOURNAL_STREAM=named(os.fstat(writing)))
    os.close(writing)
    begun_at(f"{folder}/socket").line()
    device.end()
    lines = read_some(reading, 0.5).decode().splitlines()
    os.close(reading)
    found = [TIME.fullmatch(it) is not None for it in lines]
    assert found == [has_time] * len(lines), "lines with a time"
    assert any(it.endswith("ready") for it in lines), "a line"
