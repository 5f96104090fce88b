"""The firmware of mcu/firmware/ on an emulated board, or as a process of this PC."""

import re
import select
import socket
import struct
import subprocess
import time

from parties.building import once, ran
from parties.device import Device
from parties.places import DOOR, PATIENCE

EMULATOR = "qemu-system-arm"
# A test at a high load is slower than any controller.
SLOW = 1_000_000
SECTOR, SECTORS = 4096, 2
# The bolt of tests/c/pc_board.c, in the file of the flash.
BOLT = 12_288
# The fields of struct emulated_flash behind its sectors: mcu/firmware/emulated_flash.h.
FIELDS = ("cut_at", "cut", "seed", "fault_at", "fault", "count")
COUNTS = re.compile(
    r"accepted (?P<accepted>\d+), sent (?P<sent>\d+), saved (?P<saved>\d+), stack (?P<stack>\d+) of (?P<stacks>\d+), "
    r"pool (?P<pool>\d+) \(most (?P<most>\d+)\) of (?P<pools>\d+)"
)


class Firmware:
    """The firmware for a processor, made once with variables of the Makefile. `words` are those of `make`."""

    # Of each processor the board, and the address of its LEDs.
    BOARDS = {"cortex-m4": ("mps2-an386", "0x40028000"), "cortex-m33": ("mps2-an505", "0x50302000")}

    def __init__(self, cpu, library, name="lock", **variables):
        self.cpu = cpu
        self.board, self.leds = self.BOARDS[cpu]
        variables = {"CPU": cpu, "LIBRARY": library, "PATIENCE": SLOW, **variables}
        words = ["make", "-s", "-C", "mcu/firmware", *(f"{it}={value}" for it, value in variables.items())]
        out = once(f"firmware.{cpu}.{name}", lambda path: ran([*words, f"OUT={path}"], name))
        self.words = [*words, f"OUT={out}"]
        self.path = f"{out}/lock.elf"

    def words_of(self, files, flash):
        """The words of the emulator, with the files that lead to the test."""
        words = [EMULATOR, "-M", f"{self.board},memory-backend=saved", "-nographic", "-kernel", self.path]
        words += ["-object", f"memory-backend-file,id=saved,size=16M,mem-path={flash},share=on"]
        for name, file in files.items():
            words += ["-chardev", f"socket,id={name},fd={file.fileno()}"]
        words += ["-serial", "chardev:line", "-serial", "chardev:console", "-monitor", "chardev:monitor"]
        return words + (["-gdb", "chardev:debugger"] if "debugger" in files else [])


def lay_flash(path, **fields):
    """Sets fields of the emulated flash, the others to 0. A new one has zeros in its sectors."""
    with open(path, "ab") as file:
        file.truncate(16 << 20)
    with open(path, "r+b") as file:
        file.seek(SECTOR * SECTORS)
        file.write(struct.pack(f"<{len(FIELDS)}I", *(fields.get(it, 0) for it in FIELDS)))


class OnPc:
    """The firmware as a process of this PC, with sanitizers, made once: tests/c/pc_board.c."""

    cpu = "i386"

    def __init__(self, library, name="lock", **variables):
        variables = {"TABLE": DOOR[0], "KEYS": DOOR[1], "POOL": 65536, "PATIENCE": SLOW, **variables}
        flags = ["gcc", "-m32", "-std=c11", "-O1", "-g", "-Wall", "-Wextra", "-Wpedantic", "-Wconversion", "-Werror"]
        flags += ["-fsanitize=address,undefined", "-fno-sanitize-recover=all", "-Iinclude", "-Imcu", "-Imcu/firmware"]
        flags += [f"-DPATIENCE={variables['PATIENCE']}", f"-DPOOL_SIZE={variables['POOL']}"]
        flags += [f'-DTABLE_FILE="{variables["TABLE"]}"', f'-DKEY_FILE="{variables["KEYS"]}"']
        sources = ["tests/c/pc_board.c", "c/serve.c", *(f"mcu/firmware/{it}" for it in ("store.c", "emulated_flash.c", "files.S"))]

        def make(path):
            ran([*flags, "-Dmain=firmware", "-c", "mcu/firmware/lock.c", "-o", f"{path}.o"], name)
            ran([*flags, *sources, f"{path}.o", library, "-o", path], name)

        self.path = once(f"firmware.i386.{name}", make)

    def words_of(self, files, flash):
        return [self.path, str(files["line"].fileno()), str(files["console"].fileno()), flash]


class Board:
    """A board with the firmware. It is a host of Played: `sent` has the packets of the firmware."""

    def __init__(self, firmware, flash, is_debugged=False, more=()):
        """The code of a board that is debugged can be changed. `more` are words of the emulator."""
        self.line, line = socket.socketpair()
        self.console, console = socket.socketpair()
        self.monitor, monitor = socket.socketpair()
        self.debugger, debugger = socket.socketpair()
        files = {"line": line, "console": console, "monitor": monitor}
        if is_debugged:
            files["debugger"] = debugger
        self.firmware, self.flash = firmware, flash
        words = [*firmware.words_of(files, flash), *more]
        self.running = subprocess.Popen(words, pass_fds=[it.fileno() for it in files.values()], stdin=subprocess.DEVNULL)
        Device.started.append(self.running)
        for file in (line, console, monitor, debugger):
            file.close()
        for file in (self.line, self.console, self.monitor, self.debugger):
            file.settimeout(PATIENCE)
        self.text, self.octets = "", b""
        self.sent, self.notices, self.status, self.given, self.taken = [], [], 0, 0, 0

    def hear(self, seconds=0.0):
        """Reads what the console says."""
        while select.select([self.console], [], [], seconds)[0]:
            more = self.console.recv(4096)
            assert more, f"the emulator has ended: {self.text}"
            self.text += more.decode()
            seconds = 0.0

    def says(self, pattern, seconds=PATIENCE):
        """Returns what the console says by a pattern, and drops what is before it."""
        end = time.monotonic() + seconds
        while not (found := re.search(pattern, self.text)) and time.monotonic() < end:
            self.hear(0.05)
        assert found, f"{pattern!r} is not in {self.text!r}"
        self.text = self.text[found.end() :]
        return found

    @property
    def is_stopped(self):
        self.hear()
        return "stopped: " in self.text

    def counts(self):
        """The counts that the console says if it is asked."""
        self.console.sendall(b"?")
        return {name: int(it) for name, it in self.says(COUNTS).groupdict().items()}

    def take(self, octets):
        """Passes octets of a controller, and reads all that the firmware sends for them."""
        self.line.sendall(octets)
        self.given += len(octets)
        self.settle()

    def settle(self):
        """Waits until the firmware has accepted all octets, and reads all that it has sent by then."""
        end = time.monotonic() + PATIENCE
        while (counts := self.counts())["accepted"] != self.given:
            assert time.monotonic() < end, f"it accepts {counts['accepted']} octets of {self.given}"
        while self.taken < counts["sent"]:
            more = self.line.recv(counts["sent"] - self.taken)
            assert more, "the emulator has ended"
            self.taken += len(more)
            self.octets += more
        while self.octets:
            size = 4 + self.octets[3] if self.octets[0] == 1 else 5 + int.from_bytes(self.octets[3:5], "little")
            self.sent.append(self.octets[:size])
            self.octets = self.octets[size:]

    def number(self, command, pattern):
        """A number in what the emulator says of a command."""
        self.monitor.sendall(command.encode() + b"\n")
        text, end = "", time.monotonic() + PATIENCE
        while not (found := re.search(pattern + "([0-9a-f]{8})", text)) and time.monotonic() < end:
            text += self.monitor.recv(4096).decode()
        assert found, text
        return int(found[1], 16)

    def is_bolt_open(self):
        """Tells whether LED 0 is on."""
        if self.firmware.cpu == OnPc.cpu:
            with open(self.flash, "rb") as file:
                file.seek(BOLT)
                return file.read(1) == b"\1"
        return self.number(f"x /1wx {self.firmware.leds}", f"{self.firmware.leds[2:]}: 0x") == 1

    def change_code(self, address, octets):
        """Changes code of the firmware while it runs: by the remote protocol of GDB."""
        commands = f"M{address:x},{len(octets):x}:{octets.hex()}", "D"
        packets = [f"${it}#{sum(it.encode()) % 256:02x}".encode() for it in commands]
        # The first octet only stops the processor, which says so.
        for packet, due in ((b"\3", b"$T02"), *((it, b"$OK#9a") for it in packets)):
            self.debugger.sendall(packet)
            said = b""
            while due not in said or not re.search(b"#..$", said):
                more = self.debugger.recv(100)
                assert more, said
                said += more
            self.debugger.sendall(b"+")

    def stack_pointer(self):
        return self.number("info registers", "R13=")

    def close(self):
        """Ends the emulator at once, as if the power failed."""
        self.running.kill()
        self.running.wait()
        for it in (self.line, self.console, self.monitor, self.debugger):
            it.close()
