"""Tries a socket whose backlog is full, as of a device that is stopped: `tell`, and a second device."""

import contextlib
import socket
import subprocess
import threading
import time

from parties import DOOR, PATIENCE, PROGRAM, late
from parties.doors import LISTEN

# The limit of `tell`, in seconds.
LIMIT = 20


@contextlib.contextmanager
def full(path):
    """A listener whose backlog is full, and the number of connections that wait in it."""
    with contextlib.ExitStack() as stack:
        listener = stack.enter_context(socket.socket(socket.AF_UNIX))
        listener.bind(path)
        listener.listen(0)
        for count in range(8):
            waiting = stack.enter_context(socket.socket(socket.AF_UNIX))
            waiting.setblocking(False)
            try:
                waiting.connect(path)
            except BlockingIOError:
                yield listener, count
                return
        raise AssertionError("the backlog is never full")


def ended(*words):
    """The status of the program, its last line on standard error, and the seconds that it took."""
    start = time.monotonic()
    ran = subprocess.run([PROGRAM, *words], capture_output=True, text=True, timeout=LIMIT + PATIENCE)
    return ran.returncode, ran.stderr.splitlines()[-1], time.monotonic() - start


def in_threads(*calls):
    """The results of calls that run at the same time."""
    results = [None] * len(calls)

    def note(number, call):
        results[number] = call()

    threads = [threading.Thread(target=note, args=it, daemon=True) for it in enumerate(calls)]
    for thread in threads:
        thread.start()
    for thread in threads:
        thread.join(LIMIT + PATIENCE)
    return results


def test_a_full_backlog(folder):
    """`tell` gives up after 20 seconds, and a second device ends at once."""
    path = f"{folder}/full"
    with full(path):
        told, second = in_threads(
            lambda: ended("tell", path, "waiting"),
            lambda: ended("host", *DOOR, *LISTEN, "--application", path),
        )
    assert told[:2] == (2, f"tell: {path}: no answer in 20 seconds"), "tell"
    assert LIMIT - 1 < told[2] < LIMIT + PATIENCE, "the time of tell"
    assert second[:2] == (2, f"listen: failed: {path}: address in use"), "the second device"
    assert second[2] < late(LIMIT / 2), "the second device does not wait"


def test_a_backlog_that_empties(folder):
    """`tell` connects as soon as the socket has capacity again."""
    path = f"{folder}/empties"

    def accept(listener, count):
        time.sleep(0.3)
        with contextlib.ExitStack() as stack:
            for _ in range(count):
                stack.enter_context(listener.accept()[0])
            with listener.accept()[0] as stream:
                line = stream.makefile().readline()
                stream.sendall(b"value 21 05\n")
        return line

    with full(path) as (listener, count):
        told, line = in_threads(
            lambda: subprocess.run([PROGRAM, "tell", path, "value", "21"], capture_output=True, text=True),
            lambda: accept(listener, count),
        )
    assert (told.returncode, told.stdout, line) == (0, "value 21 05\n", "value 21\n")


def test_an_answer_that_drips(folder):
    """The 20 seconds hold for the whole answer, also if a byte of it comes now and then."""
    path, is_over = f"{folder}/drips", threading.Event()
    with socket.socket(socket.AF_UNIX) as listener:
        listener.bind(path)
        listener.listen(1)

        def drip():
            stream, _ = listener.accept()
            with contextlib.suppress(BrokenPipeError):
                while not is_over.wait(2):
                    stream.sendall(b"v")

        threading.Thread(target=drip, daemon=True).start()
        told = ended("tell", path, "value", "21")
        is_over.set()
    assert told[:2] == (2, f"tell: {path}: no answer in 20 seconds")
    assert LIMIT - 1 < told[2] < LIMIT + PATIENCE
