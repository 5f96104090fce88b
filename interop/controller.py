"""A controller for `gatt_shell serve` or `host`, with phones, and a recording of what passes.

The host's side is the program; this side plays the HCI controller over H4 (Core Specification 5.0,
Vol 2 Part E, 7, and Vol 4 Part A), and the radio behind it: each phone is a peer with an address,
and with a long-term key or none.
"""

import queue
import re
import socket
import struct
import subprocess
import sys
import threading
import time

COMMAND, ACL, EVENT = 1, 2, 4
ATT, SIGNALLING, SECURITY_MANAGER = 4, 5, 6
# What the controller's buffers hold, and how many there are.
FRAGMENT = 27
PACKETS = 8
PATIENCE = 20

RESET, DISCONNECT = 0x0C03, 0x0406
LE_READ_BUFFER_SIZE, LE_SET_ADVERTISE_ENABLE = 0x2002, 0x200A
KEY_REPLY, KEY_NEGATIVE_REPLY = 0x201A, 0x201B
# Those that are answered by their status alone: the event masks, and the address, the parameters
# and the data of advertising.
PLAIN = {RESET, 0x0C01, 0x2001, 0x2005, 0x2006, 0x2008}

USER_ENDED, HOST_ENDED, KEY_DIFFERS = 0x13, 0x16, 0x3D
# A Pairing Request of a phone with a keyboard and a display, which wants a bond, and the answer of
# a host that does no pairing.
PAIRING_REQUEST = bytes.fromhex("0104000d100f0f")
PAIRING_NOT_SUPPORTED = bytes.fromhex("0505")


class Recording:
    """A btsnoop file of H4 packets: version 1, data link 1002."""

    # Microseconds from the beginning of the year 0 to that of 1970.
    EPOCH = 0x00DCDDB30F2F8000

    def __init__(self, path):
        self.file = open(path, "wb")
        self.file.write(b"btsnoop\0" + struct.pack(">II", 1, 1002))

    def add(self, packet, from_controller):
        flags = (1 if from_controller else 0) | (0 if packet[0] == ACL else 2)
        moment = int(time.time() * 1_000_000) + self.EPOCH
        self.file.write(struct.pack(">IIIIq", len(packet), len(packet), flags, 0, moment) + packet)
        self.file.flush()


def recorded(path):
    """Returns the packets of a recording, each with whether the controller sent it."""
    with open(path, "rb") as file:
        octets = file.read()
    packets, at = [], 16
    while at < len(octets):
        size, _, flags = struct.unpack_from(">III", octets, at)
        packets.append((octets[at + 24 : at + 24 + size], bool(flags & 1)))
        at += 24 + size
    return packets


class Phone:
    """A peer: its address as people write it, the kind of it, and its key, if it has one.

    The level is what its key is worth to BlueZ: 2 for one that is not authenticated, 3 for one that
    is, and 4 for one of LE Secure Connections.
    """

    def __init__(self, address, kind, rand=None, ediv=0, ltk=None, level=1):
        self.address = address
        self.kind = kind
        self.octets = bytes.fromhex(address.replace(":", ""))[::-1]
        self.rand, self.ltk = (it and bytes.fromhex(it) for it in (rand, ltk))
        self.ediv = ediv
        self.level = level


class Link:
    """A connection of a phone. Frames that it hears come to `heard`, and None where it has gone."""

    def __init__(self, controller, phone, handle):
        self.controller, self.phone, self.handle = controller, phone, handle
        self.heard = queue.Queue()
        self.secured = queue.Queue()
        self.security = queue.Queue()
        self.partial = b""
        self.is_encrypted = False
        self.reason = None

    def send(self, payload, channel=ATT):
        self.controller.send_frame(self.handle, channel, payload)

    def receive(self, timeout=PATIENCE):
        """Returns the next payload on the channel of the Attribute Protocol."""
        return self.heard.get(timeout=timeout)

    def ask(self, payload):
        self.send(payload)
        return self.receive()

    def encrypt(self):
        """Encrypts with the phone's key, and returns whether that succeeds."""
        phone = self.phone
        if phone.ltk is None:
            return self.pair()
        self.controller.event(0x3E, b"\x05" + struct.pack("<H", self.handle) + phone.rand + struct.pack("<H", phone.ediv))
        try:
            return self.secured.get(timeout=PATIENCE)
        except queue.Empty:
            return False

    def pair(self):
        """A phone without a key asks for one, which this host always refuses."""
        self.send(PAIRING_REQUEST, SECURITY_MANAGER)
        try:
            if self.security.get(timeout=PATIENCE) != PAIRING_NOT_SUPPORTED:
                self.controller.faults.append("another answer to a Pairing Request than that it is not supported")
        except queue.Empty:
            self.controller.faults.append("no answer to a Pairing Request")
        return False

    def drop(self):
        self.controller.end(self.handle, USER_ENDED)


def free_port():
    with socket.socket() as free:
        free.bind(("127.0.0.1", 0))
        return free.getsockname()[1]


def joined(port, serving):
    """Returns a connection to the program, once it listens."""
    until = time.monotonic() + PATIENCE
    while time.monotonic() < until and serving.poll() is None:
        try:
            stream = socket.create_connection(("127.0.0.1", port))
            stream.setsockopt(socket.IPPROTO_TCP, socket.TCP_NODELAY, 1)
            return stream
        except OSError:
            time.sleep(0.02)
    raise AssertionError("the program does not listen")


def listening(program, table, keys, port, rows=None):
    """Returns the words by which the command that a part tries listens for a controller."""
    files, address = [table, keys], f"127.0.0.1:{port}"
    more = ["--rows", rows] if rows else []
    command = sys.argv[3] if len(sys.argv) > 3 else "serve"
    if command == "host":
        return [program, "host", *files, "--listen", address, "--once", *more]
    return [program, "serve", *files, address, *more]


def told(errors):
    """Returns what a command tells of itself, without the log of `host`."""
    return "".join(it for it in errors.splitlines(True) if not re.match(r"\d+\.\d{3} ", it))


class Controller:
    """Starts `gatt_shell serve` or `host`, and plays its controller."""

    def __init__(self, program, table, keys, recording=None, rows=None):
        port = free_port()
        words = listening(program, table, keys, port, rows)
        self.serving = subprocess.Popen(words, stdin=subprocess.DEVNULL, stdout=subprocess.DEVNULL, stderr=subprocess.PIPE)
        self.play(joined(port, self.serving), recording)

    def play(self, stream, recording=None):
        """Plays the controller of a host until it advertises, and goes on."""
        self.recording = Recording(recording) if recording else None
        self.lock = threading.RLock()
        self.links = {}
        self.advertising = threading.Event()
        self.faults = []
        self.stream = stream
        self.reader = threading.Thread(target=self.read, daemon=True)
        self.reader.start()
        if not self.advertising.wait(PATIENCE):
            raise AssertionError("the host does not advertise")

    def close(self):
        """Ends the connection, and returns how the program ended and what it told."""
        self.stream.shutdown(socket.SHUT_WR)
        errors = self.serving.communicate(timeout=PATIENCE)[1].decode()
        self.reader.join(PATIENCE)
        self.stream.close()
        return self.serving.returncode, told(errors)

    # What goes to the host.

    def give(self, packet):
        with self.lock:
            if self.recording:
                self.recording.add(packet, True)
            try:
                self.stream.sendall(packet)
            except OSError:
                self.faults.append("the host takes no octets any more")

    def event(self, code, parameters):
        self.give(bytes((EVENT, code, len(parameters))) + parameters)

    def complete(self, opcode, returned=b""):
        self.event(0x0E, b"\x01" + struct.pack("<H", opcode) + b"\x00" + returned)

    def send_frame(self, handle, channel, payload):
        frame = struct.pack("<HH", len(payload), channel) + payload
        with self.lock:
            for at in range(0, len(frame), FRAGMENT):
                part = frame[at : at + FRAGMENT]
                boundary = 0x1000 if at else 0x2000
                self.give(bytes((ACL,)) + struct.pack("<HH", handle | boundary, len(part)) + part)

    def connect(self, phone):
        if not self.advertising.wait(PATIENCE):
            raise AssertionError("the host does not advertise")
        with self.lock:
            handle = next(it for it in range(64, 128) if it not in self.links)
            link = self.links[handle] = Link(self, phone, handle)
            # A controller stops advertising where a connection comes.
            self.advertising.clear()
            self.event(0x3E, struct.pack("<BBHBB6sHHHB", 1, 0, handle, 1, phone.kind, phone.octets, 24, 0, 200, 0))
        return link

    def end(self, handle, reason):
        with self.lock:
            link = self.links.pop(handle, None)
            if link:
                self.event(0x05, struct.pack("<BHB", 0, handle, reason))
                link.heard.put(None)

    # What comes from the host.

    def take(self, size):
        octets = b""
        while len(octets) < size:
            part = self.stream.recv(size - len(octets))
            if not part:
                raise EOFError
            octets += part
        return octets

    def read(self):
        try:
            while True:
                indicator = self.take(1)
                header = self.take(3 if indicator[0] == COMMAND else 4)
                size = header[2] if indicator[0] == COMMAND else struct.unpack("<H", header[2:])[0]
                body = self.take(size)
                with self.lock:
                    if self.recording:
                        self.recording.add(indicator + header + body, False)
                    if indicator[0] == COMMAND:
                        self.obey(struct.unpack("<H", header[:2])[0], body)
                    else:
                        self.hear(struct.unpack("<H", header[:2])[0], body)
        except (EOFError, OSError):
            self.advertising.clear()
            for link in list(self.links.values()):
                link.heard.put(None)

    def obey(self, opcode, body):
        if opcode in PLAIN:
            self.complete(opcode)
        elif opcode == LE_READ_BUFFER_SIZE:
            self.complete(opcode, struct.pack("<HB", FRAGMENT, PACKETS))
        elif opcode == LE_SET_ADVERTISE_ENABLE:
            self.complete(opcode)
            self.advertising.set() if body == b"\x01" else self.advertising.clear()
        elif opcode == DISCONNECT:
            self.event(0x0F, b"\x00\x01" + struct.pack("<H", opcode))
            handle, reason = struct.unpack("<HB", body)
            if handle in self.links:
                self.links[handle].reason = reason
            self.end(handle, HOST_ENDED)
        elif opcode in (KEY_REPLY, KEY_NEGATIVE_REPLY):
            self.complete(opcode, body[:2])
            self.secure(struct.unpack("<H", body[:2])[0], body[2:])
        else:
            self.faults.append(f"an unknown command {opcode:04x}")
            self.event(0x0F, b"\x01\x01" + struct.pack("<H", opcode))

    def secure(self, handle, key):
        link = self.links.get(handle)
        if link is None:
            return
        link.is_encrypted = key == link.phone.ltk
        if link.is_encrypted:
            self.event(0x08, struct.pack("<BHB", 0, handle, 1))
        elif key:
            # Two sides with different keys cannot read each other.
            self.end(handle, KEY_DIFFERS)
        link.secured.put(link.is_encrypted)

    def hear(self, field, body):
        handle, boundary = field & 0x0FFF, field >> 12
        link = self.links.get(handle)
        if link is None:
            return
        self.event(0x13, struct.pack("<BHH", 1, handle, 1))
        if boundary == 0:
            link.partial = b""
        link.partial += body
        if len(body) > FRAGMENT or boundary not in (0, 1):
            self.faults.append("a packet of data that no buffer holds, or with other flags")
        size, channel = struct.unpack("<HH", link.partial[:4])
        if len(link.partial) == size + 4:
            {ATT: link.heard, SECURITY_MANAGER: link.security}.get(channel, queue.Queue()).put(link.partial[4:])


def recorded_frames(path):
    """Returns the frames of a recording: handle, whether the phone sent it, channel and payload."""
    partial, frames = {}, []
    for packet, from_controller in recorded(path):
        if packet[0] != ACL:
            continue
        field = struct.unpack_from("<H", packet, 1)[0]
        key = field & 0x0FFF, from_controller
        partial[key] = (b"" if field >> 12 != 1 else partial.get(key, b"")) + packet[5:]
        frame = partial[key]
        if len(frame) >= 4 and len(frame) == 4 + struct.unpack("<H", frame[:2])[0]:
            frames.append((*key, struct.unpack("<H", frame[2:4])[0], frame[4:]))
    return frames
