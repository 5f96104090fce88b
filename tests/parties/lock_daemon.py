"""A daemon that is a lock, and its controller with phones: what the tests of lockd in C and in Rust share."""

import os
import pty
import queue
import socket
import subprocess
import threading
import tty

from controller import Controller

from parties.device import Device
from parties.places import PATIENCE, ROOT
from parties.ports import joined

TABLE, KEYS = f"{ROOT}/examples/door.toml", f"{ROOT}/examples/keys.toml"
# Handles of the door: its state, the configuration of that, its code and its note.
STATE, CONFIGURATION, CODE, NOTE = b"\x0a\x00", b"\x0b\x00", b"\x0d\x00", b"\x15\x00"
READ, FOUND, WRITE, WRITTEN, NOTIFIED = b"\x0a", b"\x0b", b"\x12", b"\x13", b"\x1b"
RESET = 0x0C03
HOST_ENDED = 0x13


def text_of(path):
    """Returns the text of a file, or None if there is no file."""
    try:
        with open(path, encoding="ascii") as file:
            return file.read()
    except FileNotFoundError:
        return None


def made(folder):
    """Makes a folder, and returns its path."""
    os.mkdir(folder)
    return folder


class Terminal:
    """The controller's end of a serial line."""

    def __init__(self, is_raw=False):
        self.descriptor, self.other = pty.openpty()
        self.name = os.ttyname(self.other)
        if is_raw:
            tty.setraw(self.other)

    def recv(self, size):
        return os.read(self.descriptor, size)

    def sendall(self, data):
        while data:
            data = data[os.write(self.descriptor, data) :]


class LockDaemon(Controller):
    """A lock and its controller. `motor` has what the motor did, and `sent` the opcodes of all commands."""

    def start(self, words, more=None):
        """Starts the daemon, with more variables in its environment."""
        self.motor, self.sent = queue.Queue(), []
        pipes = {it: subprocess.PIPE for it in ("stdin", "stdout", "stderr")}
        self.serving = subprocess.Popen(words, env={**os.environ, **(more or {})}, **pipes)
        Device.started.append(self.serving)
        threading.Thread(target=self.hear_motor, daemon=True).start()

    def hear_motor(self):
        for text in self.serving.stdout:
            self.motor.put(text.decode().strip())

    def turned(self):
        try:
            return self.motor.get(timeout=PATIENCE)
        except queue.Empty:
            return "nothing"

    def obey(self, opcode, body):
        self.sent.append(opcode)
        super().obey(opcode, body)

    def press(self, text):
        self.serving.stdin.write(text.encode())
        self.serving.stdin.flush()

    def ended(self):
        """Returns the status of the daemon, when it has ended, and its standard error."""
        status = self.serving.wait(timeout=PATIENCE)
        self.reader.join(PATIENCE)
        self.stream.close()
        return status, self.serving.stderr.read().decode()


class DoorInC(LockDaemon):
    """A lock in C, whose controller is joined to it."""

    def __init__(self, words, line, join, folder=None):
        self.start([*words, TABLE, KEYS, line] + ([folder] if folder else []))
        self.play(join(self.serving))


def listening(words, folder=None):
    """A lock that listens for its controller."""
    return DoorInC(words, "listen:127.0.0.1:0", joined, folder)


def connecting(words, folder=None):
    """A lock that connects to its controller."""
    with socket.create_server(("127.0.0.1", 0)) as server:
        port = server.getsockname()[1]

        def join(serving):
            stream = server.accept()[0]
            stream.setsockopt(socket.IPPROTO_TCP, socket.TCP_NODELAY, 1)
            return stream

        return DoorInC(words, f"connect:127.0.0.1:{port}", join, folder)


def row(phone, handle):
    """A subscription as the lock saves it."""
    return f"{phone.kind} {phone.address} {handle} 1\n"
