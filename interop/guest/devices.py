"""The devices that the guest tries, which run as an ordinary user, and the emulator of the controllers."""

import fcntl
import os
import re
import shutil
import signal
import socket
import struct
import subprocess
import time

from linux import READ_INFORMATION, SET_POWERED, is_up, manage

HERE = os.path.dirname(os.path.realpath(__file__))
TABLE, KEYS = f"{HERE}/door.toml", "/work/keys.toml"
# The controllers of the emulator: that of a central, of the device, and of another central.
CENTRAL, DEVICE, OTHER = "00:AA:01:00:00:00", "00:AA:01:01:00:01", "00:AA:01:02:00:02"
FOLDER, USER = "/run/device", 990
PATIENCE = 60


def soon(condition, patience=PATIENCE):
    """Waits until a condition holds, and returns what it is then."""
    until = time.monotonic() + patience
    while not (found := condition()) and time.monotonic() < until:
        time.sleep(0.05)
    return found


def as_user(words, capability=None):
    """Returns the words that run a program as an ordinary user who has at most one capability."""
    capabilities = f"-all,+{capability}" if capability else "-all"
    user = [f"--reuid={USER}", f"--regid={USER}", "--clear-groups", f"--bounding-set={capabilities}"]
    return ["setpriv", *user, f"--inh-caps={capabilities}", f"--ambient-caps={capabilities}", *words]


def text_of(path):
    with open(path, errors="replace") as file:
        return file.read()


class Program:
    """A program that runs on, with a file that has what it prints."""

    def __init__(self, name, words, capability=None, before=()):
        self.log = f"{FOLDER}/{name}.log"
        with open(self.log, "w") as log:
            words = [*before, *as_user(words, capability)]
            self.process = subprocess.Popen(words, stdin=subprocess.PIPE, stdout=log, stderr=subprocess.STDOUT, cwd="/")

    def said(self):
        return text_of(self.log)

    def last_line(self):
        return (self.said().splitlines() or [""])[-1]

    def says(self, form, patience=PATIENCE):
        return bool(soon(lambda: re.search(form, self.said()), patience))

    def end(self, how=signal.SIGTERM):
        """Sends a signal, and returns the status with which the program ends."""
        if self.process.poll() is None:
            self.process.send_signal(how)
        return self.process.wait(PATIENCE)


class Emulator:
    """BlueZ's emulator with three controllers, and the kernels of the two centrals."""

    def begin(self):
        with open("/run/btvirt.log", "w") as log:
            words = ["/work/btvirt", "-L", "-l3"]
            self.process = subprocess.Popen(words, stdin=subprocess.DEVNULL, stdout=log, stderr=log)
        # Linux sets each new controller up by itself, and manages it only then.
        for index in range(3):
            soon(lambda: manage(READ_INFORMATION, index) == 0)

    def centrals(self):
        """Powers the controllers of both centrals on, and returns the statuses."""
        return [manage(SET_POWERED, index, b"\1") for index in (0, 2)]

    def end(self):
        self.process.kill()
        self.process.wait()
        soon(lambda: is_up(1) is None)


def fresh_folder():
    """The folder of the device, which belongs to its user, without anything that was saved."""
    shutil.rmtree(FOLDER, ignore_errors=True)
    os.makedirs(f"{FOLDER}/state")
    shutil.copy(KEYS, FOLDER)
    for path, names, files in os.walk(FOLDER):
        for it in (path, *(f"{path}/{name}" for name in files)):
            os.chown(it, USER, USER)


class Application:
    """The application of a device of `gatt_shell host`."""

    def __init__(self, path):
        self.link = socket.socket(socket.AF_UNIX)
        self.link.settimeout(PATIENCE)
        soon(lambda: self.is_connected(path))
        self.lines = self.link.makefile("r", errors="replace")
        self.heard = []
        # This line makes it the application at once.
        self.ask("application")

    def is_connected(self, path):
        try:
            self.link.connect(path)
        except OSError:
            return False
        return True

    def next(self):
        line = self.lines.readline().rstrip("\n")
        self.heard.append(line)
        return line

    def ask(self, line):
        """Sends a line, and returns its answer."""
        self.link.sendall(line.encode() + b"\n")
        while (answer := self.next()).startswith("+"):
            pass
        return answer

    def until(self, form):
        """Waits for a notice of a form, and returns it, or None."""
        while True:
            for at, line in enumerate(self.heard):
                if re.fullmatch(form, line):
                    del self.heard[: at + 1]
                    return line
            try:
                if not self.next():
                    return None
            except OSError:
                return None

    def close(self):
        self.link.close()


class Host:
    """A device of `gatt_shell host`, which hci_bridge connects with the controller."""

    line, socket = f"{FOLDER}/line", f"{FOLDER}/application"

    def __init__(self):
        self.bridge = self.program = self.application = None

    def begin_bridge(self, *words, capability="net_admin", name="hci1", before=()):
        self.bridge = Program("bridge", ["/work/hci_bridge", *words, name, self.line], capability, before)
        soon(lambda: os.path.lexists(self.line))

    def begin_program(self, *controller):
        words = ["--application", self.socket, "--state", f"{FOLDER}/state", *controller]
        self.program = Program("host", ["/work/gatt_shell", "host", TABLE, f"{FOLDER}/keys.toml", *words])
        self.application = Application(self.socket)

    def begin(self):
        """Starts it, and returns whether it serves."""
        if self.bridge is None:
            self.begin_bridge("--down")
        self.begin_program("--serial", self.line)
        return self.serves()

    def begin_proxy(self):
        """Starts it over BlueZ's btproxy in place of the bridge, and returns whether it serves."""
        with socket.socket() as any_socket:
            # The guest has no other network: SIOCSIFFLAGS, IFF_UP.
            fcntl.ioctl(any_socket, 0x8914, struct.pack("16sH14x", b"lo", 1))
        words = ["/work/btproxy", "--listen=127.0.0.1", "--port=5000", "--index=1"]
        self.bridge = Program("btproxy", words, "net_admin")
        self.begin_program("--connect", "127.0.0.1:5000")
        return self.serves()

    def serves(self):
        return self.application.until(r"\+ serving") is not None

    def end(self, how=signal.SIGTERM):
        self.application.close()
        return self.program.end(how)

    def close(self):
        """Ends it with its bridge, and returns the bridge's status."""
        if self.program:
            self.end()
        status = self.bridge.end()
        self.bridge = self.program = None
        return status

    def open_door(self, is_open):
        """The button of the door."""
        return self.application.ask(f"update 10 {int(is_open):02x}")


class Lockd:
    """The example for C, which opens the user channel itself."""

    def __init__(self):
        self.program = None

    def begin_program(self, capability="net_admin", name="hci1", before=()):
        words = ["/work/lockd", TABLE, f"{FOLDER}/keys.toml", name, f"{FOLDER}/state"]
        self.program = Program("lockd", words, capability, before)

    def begin(self):
        self.begin_program()
        return self.serves()

    def serves(self):
        return soon(lambda: is_up(1) or self.program.process.poll() is not None) is True

    def end(self, how=signal.SIGTERM):
        return self.program.end(how)

    def close(self):
        return self.program.end()

    def open_door(self, is_open):
        self.program.process.stdin.write(b"open\n" if is_open else b"shut\n")
        self.program.process.stdin.flush()
        return "ok"
