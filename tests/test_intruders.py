"""Tries who does not belong to the sockets of a device: a second device, a browser, an endless asker."""

import os
import socket
import time

import pytest

from parties import DOOR, PATIENCE, STRANGER, Application, Device, controller_at, late, look
from parties.acts import Act

# What a browser sends: the lines of its body would be done if it were an application.
REQUEST = (
    b"POST / HTTP/1.1\r\nHost: 127.0.0.1:7000\r\nOrigin: http://example.org\r\nContent-Type: text/plain\r\n"
    b"Content-Length: 40\r\n\r\nallow 1\nupdate 21 01\nvalue 13\n"
)


def test_a_second_device(folder):
    """A second device at the socket of one that serves ends, and takes nothing from the first."""
    path, capture = f"{folder}/first.socket", f"{folder}/first.btsnoop"
    first = Device(*DOOR, "--listen", "127.0.0.1:0", "--application", path, "--capture", capture)
    controller = controller_at(first)
    controller.is_advertised()
    controller.connect(64, STRANGER)
    controller.ask(64, "0a0300")
    address = "%s:%d" % first.port()
    size = os.stat(capture).st_size
    for words in (["--listen", "127.0.0.1:0", "--application", path], ["--listen", address]):
        second = Device(*DOOR, *words, "--capture", capture)
        assert second.process.wait(PATIENCE) == 2, f"{words[0]} {words[-1]}"
        assert os.stat(capture).st_size >= size > 16, "the capture stays"
    assert Application(path).line() == "+ serving", "the socket stays"
    assert controller.ask(64, "0a0300") == "0b4c6f636b", "the phone stays"


class Place:
    """A device and the place where it listens for an application, a path or a port."""

    def __init__(self, *words):
        self.device = Device(*DOOR, "--listen", "127.0.0.1:0", *words)
        self.device.port()
        self.name = self.device.said("listening for an application: ")
        self.family = socket.AF_UNIX if words[0] == "--application" else socket.AF_INET

    def reach(self):
        """A connection to it."""
        stream = socket.socket(self.family)
        host, _, port = self.name.rpartition(":")
        stream.connect(self.name if self.family == socket.AF_UNIX else (host, int(port)))
        stream.settimeout(PATIENCE)
        return stream

    def answers(self, octets, is_silent=False):
        """The lines that a connection reads that says so; it may have been silent for long before."""
        with self.reach() as stream:
            if is_silent:
                # A browser may connect long before it sends something.
                self.device.said("application", 1)
            stream.sendall(octets)
            try:
                return stream.makefile(errors="replace").read().splitlines()
            except ConnectionResetError:
                return ["reset"]


@pytest.mark.parametrize("word", ["--application", "--application-port"])
def test_a_first_line(folder, word):
    """A connection whose first line is no command is answered and closed, and what follows is not read."""
    place = Place(word, f"{folder}/socket" if word == "--application" else "127.0.0.1:0")
    answers = place.answers
    other_request = b"GET / HTTP/1.1\r\nHost: x\r\n\r\nupdate 21 01\n"
    for octets in (REQUEST, REQUEST[:16] + b"\n" + REQUEST[17:], other_request):
        found = answers(octets)
        # What was not read makes the system reset the connection, perhaps before the answer is read.
        assert len(found) <= 1 and not any(it[:2] == "ok" for it in found), "closed"
    assert answers(b"vale 21\n") == ['bad: "vale" is no command'], "a wrong line alone"
    assert answers(b"\x16\x03\x01\xff\n") == ["bad: the line is no text"], "no text"
    assert answers(b"value 21\n")[:1] == ["value 21 -"], "the value stays"
    assert "ok" not in answers(REQUEST, is_silent=True), "of a connection that was silent for long"
    assert place.device.said("application ended") == ": its first line is no command", "which is closed"
    assert answers(b"value 21\n")[:1] == ["value 21 -"], "nothing was done"
    found = answers(b"value 21\nPOST x\nvalue 21\n")[:3]
    assert found == ["value 21 -", 'bad: "POST" is no command', "value 21 -"], "later lines may be wrong"


@pytest.mark.parametrize(
    "line", [b"value 6\n", b"value 6\nfind 180f 2a19\n"], ids=["one-question", "two-questions"]
)
def test_an_endless_asker(door, line):
    """A connection that asks without a pause is closed after its second, and keeps nobody out."""
    begun = time.monotonic()
    with socket.socket(socket.AF_UNIX) as asker:
        asker.connect(door.path)
        asker.settimeout(PATIENCE)

        def ask():
            try:
                while True:
                    asker.sendall(line * 50)
            except OSError:
                pass

        def listen():
            try:
                while asker.recv(65_536):
                    pass
            except OSError:
                pass

        # Both end if it is closed.
        for it in (Act(ask), Act(listen)):
            it.end()
    # It may be closed before its second, if it does not take an answer at once.
    assert time.monotonic() - begun < late(8), "after its second at the latest"
    assert look(door.path, "value 10") == ["value 10 00"], "others are answered"
