"""An application at the socket of a device, and one that only asks."""

import select
import socket
import time

from parties.places import PATIENCE


class Visitor:
    """A connection to the socket of the application, and the lines that it hears."""

    def __init__(self, path):
        self.stream = socket.socket(socket.AF_UNIX)
        self.stream.connect(path)
        self.octets = b""

    def line(self, seconds=PATIENCE):
        """The next line; `END` at the end, and none where nothing comes."""
        end = time.monotonic() + seconds
        while b"\n" not in self.octets:
            left = end - time.monotonic()
            if left <= 0 or not select.select([self.stream], [], [], left)[0]:
                return None
            try:
                octets = self.stream.recv(4096)
            except ConnectionResetError:
                return "END"
            if not octets:
                return "END"
            self.octets += octets
        line, self.octets = self.octets.split(b"\n", 1)
        return line.decode()

    def lines(self, count):
        return [self.line() for _ in range(count)]

    def up_to(self, last):
        """The lines up to this one, or to the end."""
        lines = [self.line()]
        while lines[-1] not in (last, "END", None):
            lines.append(self.line())
        return lines

    def say(self, line):
        self.stream.sendall(line.encode() + b"\n")

    def ask(self, line):
        self.say(line)
        return self.line()

    def close(self):
        self.stream.close()


class Application(Visitor):
    """An application, which has heard the number of the device's start: after a second of silence, or at
    once if it says a line first that only an application may say."""

    def __init__(self, path, line=None):
        super().__init__(path)
        if line is not None:
            self.say(line)
        first = self.line()
        if first == "END":
            raise ConnectionResetError("the device ended before its first line")
        assert (first or "")[:10] == "+ started ", "an application's first line"
        self.started = (first or "")[10:]


def look(path, *lines):
    """The answers to lines of a connection that sends no more, up to its end."""
    with socket.socket(socket.AF_UNIX) as looker:
        looker.settimeout(PATIENCE)
        looker.connect(path)
        looker.sendall("".join(f"{it}\n" for it in lines).encode())
        looker.shutdown(socket.SHUT_WR)
        return looker.makefile().read().splitlines()
