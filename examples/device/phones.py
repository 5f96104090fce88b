#!/usr/bin/env python3
"""A controller with clients, for those who have neither: it plays a script against a device.

usage: phones.py HOST:PORT SCRIPT      where `gatt_shell host .. --listen HOST:PORT` listens
       phones.py PATH SCRIPT           a serial line that leads to a host, as that of an emulated board

The script is one of `gatt_shell run`. Of its lines those of clients are played: `connect`, `drop`,
`encrypt`, `clear`, and what a client sends. `tick` waits: `tick 1000`, and then `tick 5000`, wait for one
second, and then for four more. What each client receives is printed as `run` prints it.
The other lines are an application's, and are skipped. If the device or the script fails, one line
on standard error says why, and the status is 1.
"""

import os
import select
import socket
import sys
import termios
import time
import tty

# What a controller returns beside its status, by the command.
RETURNED = {0x1005: bytes.fromhex("fb000008000000"), 0x2002: bytes.fromhex("fb0008")}
DISCONNECT, KEY_REPLY, KEY_REFUSAL = 0x0406, 0x201A, 0x201B
# Nothing more is waited for once nothing has come for so many seconds.
QUIET = 0.3
# A host behind a serial line sends its first command within so many seconds, again if it was not answered.
FIRST = 5


class SerialLine:
    """A serial line, with the methods of a socket that a controller uses."""

    def __init__(self, path):
        self.file = os.open(path, os.O_RDWR | os.O_NOCTTY)
        tty.setraw(self.file)

    def fileno(self):
        return self.file

    def recv(self, count):
        return os.read(self.file, count)

    def sendall(self, octets):
        while octets:
            octets = octets[os.write(self.file, octets) :]


class Controller:
    """Answers each command of the host, and prints what its clients receive."""

    def __init__(self, address):
        self.is_serial = "/" in address
        if self.is_serial:
            self.stream = SerialLine(address)
        else:
            host, port = address.rsplit(":", 1)
            self.stream = socket.create_connection((host.strip("[]"), int(port)))
        self.octets, self.clients = b"", {}
        # The last time of the script, in milliseconds.
        self.time = 0

    def event(self, code, parameters):
        self.stream.sendall(bytes([4, code, len(parameters)]) + parameters)

    def take(self, packet):
        spelled = packet[1:3]
        if packet[0] == 2:
            handle = int.from_bytes(spelled, "little") & 0xFFF
            self.event(0x13, b"\1" + handle.to_bytes(2, "little") + b"\1\0")
            print(f"{self.name(handle)} > {packet[9:].hex() or '-'}", flush=True)
            return
        opcode = int.from_bytes(spelled, "little")
        if opcode == DISCONNECT:
            self.event(0x0F, b"\0\1" + spelled)
            self.event(0x05, b"\0" + packet[4:6] + b"\x16")
            name = self.name(int.from_bytes(packet[4:6], "little"))
            print(f"{name} ended {packet[6]:02x}", flush=True)
            self.clients.pop(name, None)
            return
        handle = packet[4:6] if opcode in (KEY_REPLY, KEY_REFUSAL) else b""
        self.event(0x0E, b"\1" + spelled + b"\0" + RETURNED.get(opcode, b"") + handle)
        if opcode == KEY_REPLY:
            self.event(0x08, b"\0" + handle + b"\1")

    def until_quiet(self, seconds=0.0):
        """Processes the packets of the device for so many seconds, and until no more come."""
        end = time.monotonic() + seconds
        while (is_there := select.select([self.stream], [], [], QUIET)[0]) or time.monotonic() < end:
            if not is_there:
                continue
            more = self.stream.recv(4096)
            if not more:
                raise ConnectionError("the device closed the connection")
            self.octets += more
            while packet := self.next_packet():
                self.take(packet)

    def next_packet(self):
        is_data = self.octets[:1] == b"\2"
        if len(self.octets) < (5 if is_data else 4):
            return None
        size = 5 + int.from_bytes(self.octets[3:5], "little") if is_data else 4 + self.octets[3]
        if len(self.octets) < size:
            return None
        packet, self.octets = self.octets[:size], self.octets[size:]
        return packet

    def name(self, handle):
        return next((name for name, it in self.clients.items() if it == handle), str(handle))

    def spelled(self, name):
        """Returns the handle of a client's connection as its two bytes."""
        if name not in self.clients:
            raise ValueError(f"{name} is not connected")
        return self.clients[name].to_bytes(2, "little")

    def wait(self, milliseconds):
        """Waits as long as the time of the script goes on."""
        self.time, before = max(self.time, milliseconds), self.time
        self.until_quiet((self.time - before) / 1000)

    def play(self, words):
        """Plays a line of a client, or one of the time. Returns whether it is one."""
        match words:
            case ["tick", milliseconds]:
                self.wait(int(milliseconds))
            case ["connect", name, kind, address]:
                handle = self.clients[name] = next(it for it in range(64, 128) if it not in self.clients.values())
                peer = bytes([int(kind)]) + bytes.fromhex(address.replace(":", ""))[::-1]
                self.event(0x3E, b"\1\0" + handle.to_bytes(2, "little") + b"\1" + peer + b"\x18\0\0\0\x48\0\0")
            case ["drop", name]:
                self.event(0x05, b"\0" + self.spelled(name) + b"\x13")
                del self.clients[name]
            case ["encrypt", name, random_number, diversifier]:
                asked = bytes.fromhex(random_number) + int(diversifier).to_bytes(2, "little")
                self.event(0x3E, b"\5" + self.spelled(name) + asked)
            case ["clear", name]:
                self.event(0x08, b"\0" + self.spelled(name) + b"\0")
            case [name, "<", pdu]:
                pdu = bytes.fromhex(pdu.strip("-"))
                frame = len(pdu).to_bytes(2, "little") + b"\4\0" + pdu
                low, high = self.spelled(name)
                head = bytes([low, high | 0x20]) + len(frame).to_bytes(2, "little")
                self.stream.sendall(b"\2" + head + frame)
            case _:
                return False
        return True


def visit(address, script, lines):
    """Plays the lines of a script against the device at an address."""
    controller = Controller(address)
    if controller.is_serial:
        # A line that somebody else closes does not end. If no command comes, an earlier visit has answered all.
        select.select([controller.stream], [], [], FIRST)
    controller.until_quiet()
    for number, line in enumerate(lines, 1):
        words = line.split()
        if not words or line.startswith("#"):
            continue
        print(f"  {line.rstrip()}", flush=True)
        try:
            is_of_a_client = controller.play(words)
        except (ValueError, OverflowError) as error:
            sys.exit(f"phones.py: {script}, line {number}: {error}")
        if not is_of_a_client:
            print("  (an application's line, skipped)", flush=True)
        controller.until_quiet()
    if controller.is_serial:
        for name in list(controller.clients):
            controller.play(["drop", name])
        controller.until_quiet()


def main():
    if len(sys.argv) != 3 or not ("/" in sys.argv[1] or sys.argv[1].rpartition(":")[2].isdigit()):
        sys.exit("usage: phones.py HOST:PORT|PATH SCRIPT")
    address, script = sys.argv[1:]
    try:
        with open(script, encoding="utf-8") as file:
            lines = file.readlines()
    except (OSError, ValueError) as error:
        sys.exit(f"phones.py: the script {script}: {error}")
    try:
        visit(address, script, lines)
    except (OSError, termios.error) as error:
        sys.exit(f"phones.py: the device at {address}: {error}")


if __name__ == "__main__":
    main()
