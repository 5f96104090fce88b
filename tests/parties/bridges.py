"""`hci_bridge` between its line and a simulated controller."""

import os
import select
import signal
import socket
import subprocess

from parties.controller import Controller
from parties.device import Device
from parties.places import PATIENCE, soon


class Channel:
    """The connection of a bridge to its controller, which has one packet at a time."""

    def __init__(self, stream):
        self.stream = stream
        self.stream.settimeout(PATIENCE)
        self.packets = []

    def fileno(self):
        return self.stream.fileno()

    def sendall(self, octets):
        self.stream.send(octets)

    def recv(self, _count=0):
        packet = self.stream.recv(70_000)
        if packet:
            self.packets.append(packet)
        return packet

    def close(self):
        self.stream.close()


class Bridge:
    """A bridge, its line, and the controller behind it."""

    def __init__(self, program, folder):
        self.program = program
        self.line = f"{folder}/line"
        self.path = f"{folder}/controller"
        self.name = f"{folder}/log"
        self.listener = None
        self.process = None

    def begin(self, *through, log=None):
        """Starts it, by a program that runs it if one does, with its log in a file or elsewhere."""
        with open(self.name, "a") as file:
            self.process = subprocess.Popen(
                [*through, self.program, "hci0", self.line], stderr=file if log is None else log,
                env={**os.environ, "CONTROLLER": self.path},
            )
        Device.started.append(self.process)
        assert soon(lambda: os.path.islink(self.line)), "the line is there"
        return self

    def call(self, *words):
        """The status of another bridge, which ends at once, and what it says."""
        ended = subprocess.run([self.program, *words], capture_output=True, text=True, timeout=PATIENCE)
        return ended.returncode, ended.stderr

    def plug_in(self):
        """There is a controller from now on."""
        self.listener = socket.socket(socket.AF_UNIX, socket.SOCK_SEQPACKET)
        self.listener.bind(self.path)
        self.listener.listen(1)
        self.listener.settimeout(PATIENCE)

    def unplug(self):
        self.listener.close()
        os.remove(self.path)

    def controller(self):
        """The controller that the bridge opens next."""
        return Controller(Channel(self.listener.accept()[0]))

    def host(self):
        """A program that has the line open, and nothing else of a host."""
        return os.open(self.line, os.O_RDWR | os.O_NOCTTY)

    def logs(self, words, count=1):
        """Whether the log says so at last, so often."""
        return bool(soon(lambda: self.said().count(f"hci_bridge: {words}") == count))

    def moved(self, since):
        """Whether there is another line at last."""
        return bool(soon(lambda: os.path.lexists(self.line) and os.readlink(self.line) != since))

    def is_opened(self):
        return bool(select.select([self.listener], [], [], 0.3)[0])

    def said(self):
        with open(self.name) as file:
            return file.read().splitlines()

    def descriptors(self):
        """How many descriptors it has open."""
        return len(os.listdir(f"/proc/{self.process.pid}/fd"))

    def end(self, how=signal.SIGTERM):
        self.process.send_signal(how)
        return self.process.wait(PATIENCE)


def last_packet(controller):
    """What a controller received last, once its channel is closed."""
    controller.until(lambda: controller.is_gone)
    return controller.stream.packets[-1].hex() if controller.is_gone else None


def is_hung_up(host):
    """Whether a line has ended."""
    line = select.poll()
    line.register(host, 0)
    return any(events & select.POLLHUP for _, events in line.poll(0))
