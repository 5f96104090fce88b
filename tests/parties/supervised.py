"""A supervisor as systemd is one, which a device notifies by datagrams."""

import os
import socket
import time

from parties.places import PATIENCE


class Supervisor:
    """A socket at a path, or with a name that is no file's after `@`."""

    def __init__(self, name):
        self.name = name
        self.socket = socket.socket(socket.AF_UNIX, socket.SOCK_DGRAM)
        self.socket.bind(name.replace("@", "\0", 1) if name.startswith("@") else name)
        self.heard = []

    def through(self, **variables):
        """The words that start a program with this supervisor."""
        variables = {"NOTIFY_SOCKET": self.name, **variables}
        return ["env", *(f"{name}={value}" for name, value in variables.items())]

    def hear(self, text, seconds=PATIENCE):
        """The datagrams up to the one that begins so, which is the last."""
        heard, end = [], time.monotonic() + seconds
        while not heard or not heard[-1].startswith(text):
            self.socket.settimeout(max(end - time.monotonic(), 0.001))
            heard.append(self.socket.recv(4096).decode())
            self.heard.append(heard[-1])
        return heard

    def hears(self, seconds):
        """The datagrams that come in so many seconds."""
        heard, end = [], time.monotonic() + seconds
        while (left := end - time.monotonic()) > 0:
            self.socket.settimeout(left)
            try:
                heard.append(self.socket.recv(4096).decode())
            except TimeoutError:
                break
        self.heard += heard
        return heard

    def close(self):
        self.socket.close()
        if not self.name.startswith("@"):
            os.remove(self.name)
