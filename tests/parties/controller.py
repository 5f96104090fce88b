"""A controller with its phones, at a socket or a serial line."""

import os
import pty
import select
import socket
import time
import tty

from parties.places import KEY, PATIENCE

# What a controller returns beside the status, by the command.
RETURNED = {0x1005: bytes.fromhex("fb000008000000"), 0x2002: bytes.fromhex("fb0008")}
DISCONNECT, KEY_REPLY, KEY_REFUSAL = 0x0406, 0x201A, 0x201B
ADVERTISING_DATA, RANDOM_ADDRESS, ADVERTISE_ENABLE = 0x2008, 0x2005, 0x200A


class Controller:
    """A controller, which answers each command, and its phones by their handles."""

    made = []

    def __init__(self, stream):
        Controller.made.append(self)
        self.stream = stream
        self.octets = b""
        # All that it has sent, and all that it has received.
        self.sent = self.received = b""
        self.commands = []
        self.heard = []
        self.is_gone = False

    def send(self, octets):
        self.sent += octets
        self.stream.sendall(octets)

    def event(self, code, parameters):
        self.send(bytes([4, code, len(parameters)]) + parameters)

    def take(self, packet):
        """Answers a command, or takes in what a phone hears."""
        if packet[0] == 2:
            handle = int.from_bytes(packet[1:3], "little") & 0xFFF
            self.event(0x13, b"\1" + handle.to_bytes(2, "little") + b"\1\0")
            self.heard.append((handle, packet[9:].hex()))
            return
        opcode = int.from_bytes(packet[1:3], "little")
        self.commands.append((opcode, packet[4:]))
        if opcode == DISCONNECT:
            self.event(0x0F, b"\0\1" + packet[1:3])
            self.event(0x05, b"\0" + packet[4:6] + b"\x16")
            return
        handle = packet[4:6] if opcode in (KEY_REPLY, KEY_REFUSAL) else b""
        returned = b"\0" + RETURNED.get(opcode, b"") + handle
        self.event(0x0E, b"\1" + packet[1:3] + returned)

    def next_packet(self):
        if len(self.octets) < 4:
            return None
        size = 4 + self.octets[3] if self.octets[0] == 1 else 5 + int.from_bytes(self.octets[3:5], "little")
        if len(self.octets) < size:
            return None
        packet, self.octets = self.octets[:size], self.octets[size:]
        return packet

    def until(self, is_so, seconds=PATIENCE):
        """Takes in packets until something is so."""
        end = time.monotonic() + seconds
        while not is_so():
            packet = self.next_packet()
            if packet:
                self.take(packet)
                continue
            left = end - time.monotonic()
            if left <= 0:
                return False
            # What is asked may become so without a packet.
            if not select.select([self.stream], [], [], min(left, 0.05))[0]:
                continue
            try:
                octets = self.stream.recv(4096)
            except ConnectionResetError:
                octets = b""
            if not octets:
                self.is_gone = True
                return is_so()
            self.received += octets
            self.octets += octets
        return True

    def command(self, opcode, count=1):
        """The parameters of a command, once it has come so often."""
        found = lambda: [it[1] for it in self.commands if it[0] == opcode]
        self.until(lambda: len(found()) >= count)
        return found()[count - 1].hex() if len(found()) >= count else None

    def is_advertised(self):
        return self.command(ADVERTISE_ENABLE) == "01"

    def connect(self, handle, peer):
        self.event(0x3E, b"\1\0" + handle.to_bytes(2, "little") + b"\1" + peer + b"\x18\0\0\0\x48\0\0")

    def encrypt(self, handle, key=KEY):
        random_number, diversifier, key = key
        before = len([it for it in self.commands if it[0] == KEY_REPLY])
        spelled = handle.to_bytes(2, "little")
        self.event(0x3E, b"\5" + spelled + random_number + diversifier.to_bytes(2, "little"))
        reply = self.command(KEY_REPLY, before + 1)
        self.event(0x08, b"\0" + spelled + b"\1")
        return reply == (spelled + key).hex()

    def say(self, handle, pdu):
        """A phone sends a PDU of the Attribute Protocol."""
        pdu = bytes.fromhex(pdu)
        frame = len(pdu).to_bytes(2, "little") + b"\4\0" + pdu
        head = (0x2000 | handle).to_bytes(2, "little") + len(frame).to_bytes(2, "little")
        self.send(b"\2" + head + frame)

    def hears(self, handle, seconds=PATIENCE):
        """What a phone hears next."""
        mine = lambda: [it for it in self.heard if it[0] == handle]
        self.until(mine, seconds)
        if not mine():
            return None
        first = mine()[0]
        self.heard.remove(first)
        return first[1]

    def ask(self, handle, pdu):
        self.say(handle, pdu)
        return self.hears(handle)

    def close(self):
        self.stream.close()


class SerialLine:
    """A pseudo-terminal at a path, as the stream of a controller."""

    def __init__(self, path):
        self.path = path
        self.master, self.slave = pty.openpty()
        tty.setraw(self.slave)
        os.symlink(os.ttyname(self.slave), path)

    def fileno(self):
        return self.master

    def sendall(self, octets):
        os.write(self.master, octets)

    def recv(self, count):
        return os.read(self.master, count)

    def close(self):
        os.remove(self.path)
        os.close(self.slave)
        os.close(self.master)


def stream_to(device):
    """A connection to a device, by which small packets go at once."""
    stream = socket.create_connection(device.port(), PATIENCE)
    stream.setsockopt(socket.IPPROTO_TCP, socket.TCP_NODELAY, 1)
    return stream


def controller_at(device):
    return Controller(stream_to(device))
