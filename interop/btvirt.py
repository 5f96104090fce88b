#!/usr/bin/env -S python3 -B
"""BlueZ's emulator of controllers, `btvirt`, between the program and a central by Scapy.

usage: interop/btvirt.py PROGRAM RECORDINGS

Here the controller is one that nobody here wrote: it takes the commands of the host, makes the
connection, and asks for the key when the other side encrypts. The central is the host of a second
controller of the emulator. btvirt listens at sockets of fixed names in /tmp.
"""

import glob
import os
import queue
import random
import socket
import struct
import subprocess
import sys
import tempfile
import threading
import time

from scapy.layers import bluetooth as scapy
from scapy.packet import Raw

from clients import compiled_socket
from controller import ACL, ATT, COMMAND, EVENT, PAIRING_NOT_SUPPORTED, PAIRING_REQUEST, PATIENCE, SECURITY_MANAGER, Recording, free_port, joined, listening, told
from part import Part
from phones import OWNER, STRANGER
from scapy_central import Central, discover, prepare, read, write
from table_file import Link, Table

ROOT = os.path.dirname(os.path.dirname(os.path.realpath(__file__)))
EMULATED = "/tmp/bt-server-le"
KEYS = "examples/keys.toml"
TABLES = ["examples/door.toml", "examples/conformance/server.toml", "interop/tap.toml"]
# Phone, its key or another one, and what the link is then worth; then whether encrypting succeeds.
VISITS = [
    (STRANGER, None, Link(), None),
    (OWNER, None, Link(is_known=True), None),
    (OWNER, OWNER.ltk, Link(True, 16), (0, 1)),
    # Authentication Failure, where the two sides have different keys.
    (OWNER, bytes(16), Link(is_known=True), (5, 0)),
]


def packets_of(stream):
    """Yields the H4 packets that come over a stream."""
    octets = b""
    while True:
        size = None
        if octets and octets[0] == EVENT and len(octets) >= 3:
            size = 3 + octets[2]
        elif octets and octets[0] == COMMAND and len(octets) >= 4:
            size = 4 + octets[3]
        elif octets and octets[0] == ACL and len(octets) >= 5:
            size = 5 + struct.unpack("<H", octets[3:5])[0]
        if size is not None and len(octets) >= size:
            yield octets[:size]
            octets = octets[size:]
            continue
        try:
            more = stream.recv(4096)
        except OSError:
            return
        if not more:
            return
        octets += more


def emulated():
    """Returns a connection to a new controller of the emulator."""
    until = time.monotonic() + PATIENCE
    while True:
        try:
            stream = socket.socket(socket.AF_UNIX)
            stream.connect(EMULATED)
            return stream
        except OSError:
            if time.monotonic() > until:
                raise
            time.sleep(0.02)


class Server:
    """The program, joined to a controller of the emulator."""

    def __init__(self, program, table, recording):
        port = free_port()
        words = listening(program, f"{ROOT}/{table}", f"{ROOT}/{KEYS}", port)
        self.serving = subprocess.Popen(words, stdin=subprocess.DEVNULL, stdout=subprocess.DEVNULL, stderr=subprocess.PIPE)
        self.recording = Recording(recording)
        self.lock = threading.Lock()
        self.stream, self.device = joined(port, self.serving), emulated()
        self.opcodes = []
        for source, sink, is_from_controller in ((self.stream, self.device, False), (self.device, self.stream, True)):
            threading.Thread(target=self.carry, args=(source, sink, is_from_controller), daemon=True).start()

    def carry(self, source, sink, is_from_controller):
        for packet in packets_of(source):
            with self.lock:
                self.recording.add(packet, is_from_controller)
            if packet[0] == COMMAND:
                self.opcodes.append(struct.unpack("<H", packet[1:3])[0])
            try:
                sink.sendall(packet)
            except OSError:
                return

    def close(self):
        self.stream.shutdown(socket.SHUT_WR)
        errors = self.serving.communicate(timeout=PATIENCE)[1].decode()
        self.device.close()
        return self.serving.returncode, told(errors)


class Host:
    """The host of a central: commands and events by Scapy's classes."""

    def __init__(self):
        self.stream = emulated()
        self.events, self.frames, self.security = queue.Queue(), queue.Queue(), queue.Queue()
        self.handle, self.partial = None, b""
        threading.Thread(target=self.listen, daemon=True).start()
        self.command(scapy.HCI_Cmd_Reset())
        self.command(scapy.HCI_Cmd_Set_Event_Mask(mask=b"\xff\xff\xff\xff\xff\x9f\x00\x20"))
        self.raw_command(0x2001, b"\x1f" + bytes(7))

    def listen(self):
        for packet in packets_of(self.stream):
            seen = scapy.HCI_Hdr(packet)
            if seen.type == ACL:
                self.partial = (b"" if seen[scapy.HCI_ACL_Hdr].PB != 1 else self.partial) + packet[5:]
                frame = scapy.L2CAP_Hdr(self.partial)
                if len(self.partial) == 4 + frame.len:
                    {ATT: self.frames, SECURITY_MANAGER: self.security}[frame.cid].put(self.partial[4:])
            else:
                self.events.put(seen)

    def awaited(self, layer):
        """Returns the next event with a layer; those before it are passed over."""
        until = time.monotonic() + PATIENCE
        while True:
            event = self.events.get(timeout=max(0.01, until - time.monotonic()))
            if layer in event:
                return event[layer]

    def command(self, command):
        self.stream.sendall(bytes(scapy.HCI_Hdr(type=COMMAND) / scapy.HCI_Command_Hdr() / command))

    def raw_command(self, opcode, parameters):
        self.stream.sendall(bytes(scapy.HCI_Hdr(type=COMMAND) / scapy.HCI_Command_Hdr(opcode=opcode) / Raw(parameters)))

    def found(self):
        """Scans until an advertisement comes, and returns its address and its data."""
        self.command(scapy.HCI_Cmd_LE_Set_Scan_Parameters())
        self.command(scapy.HCI_Cmd_LE_Set_Scan_Enable(enable=1, filter_dups=0))
        report = self.awaited(scapy.HCI_LE_Meta_Advertising_Report)
        self.command(scapy.HCI_Cmd_LE_Set_Scan_Enable(enable=0))
        return report

    def connect(self, phone, report):
        self.command(scapy.HCI_Cmd_LE_Set_Random_Address(address=phone.address))
        self.command(scapy.HCI_Cmd_LE_Create_Connection(patype=report.atype, paddr=report.addr, atype=1))
        made = self.awaited(scapy.HCI_LE_Meta_Connection_Complete)
        self.handle = made.handle
        return made.status

    def encrypt(self, phone, key):
        self.command(scapy.HCI_Cmd_LE_Start_Encryption_Request(handle=self.handle, rand=phone.rand, ediv=phone.ediv, ltk=key))
        change = self.awaited(scapy.HCI_Event_Encryption_Change)
        return change.status, change.enabled

    def drop(self):
        self.command(scapy.HCI_Cmd_Disconnect(handle=self.handle, reason=0x13))
        return self.awaited(scapy.HCI_Event_Disconnection_Complete).reason

    # What scapy_central.py asks of a link.

    def send(self, payload, channel=ATT):
        frame = scapy.L2CAP_Hdr(cid=channel) / Raw(payload)
        self.stream.sendall(bytes(scapy.HCI_Hdr(type=ACL) / scapy.HCI_ACL_Hdr(handle=self.handle) / frame))

    def receive(self, timeout=PATIENCE):
        return self.frames.get(timeout=timeout)

    def ask(self, payload):
        self.send(payload)
        return self.receive()


def visit(part, host, path, table, report, phone, key, link, change):
    part.check(f"{path}: the connection of {phone.address}", host.connect(phone, report), 0)
    central = Central(part, f"{path}: {phone.address}", host)
    table.begin({})
    if change:
        part.check(f"{path}: encryption", host.encrypt(phone, key), change)
    central.ask(scapy.ATT_Exchange_MTU_Request(mtu=120), ("mtu", 247))
    table.mtu = 120
    for steps in (discover, read, write, prepare):
        steps(central, table, link)
    host.send(PAIRING_REQUEST, SECURITY_MANAGER)
    part.check(f"{path}: the answer to a Pairing Request", host.security.get(timeout=PATIENCE), PAIRING_NOT_SUPPORTED)
    part.check(f"{path}: the end of the connection", host.drop(), 0x13)


def main():
    program, recordings = sys.argv[1:3]
    part = Part()
    random.seed(20)
    with tempfile.TemporaryDirectory() as room:
        here = dict(os.environ, LD_PRELOAD=compiled_socket(room))
        for number, path in enumerate(TABLES):
            emulator = subprocess.Popen(["btvirt", "-s"], env=here, stdout=subprocess.DEVNULL, stderr=subprocess.DEVNULL)
            try:
                serve(part, program, path, f"{recordings}/btvirt_{number}.btsnoop")
            finally:
                emulator.terminate()
                emulator.wait(PATIENCE)
                for left in glob.glob("/tmp/bt-server-*"):
                    os.unlink(left)
    part.end()


def serve(part, program, path, recording):
    table = Table(f"{ROOT}/{path}")
    server, host = Server(program, path, recording), Host()
    for phone, key, link, change in VISITS:
        # Found anew each time: the host advertises again once a connection has gone.
        report = host.found()
        part.check(f"{path}: what is advertised", (report.type, bytes(report)[9:12]), (0, b"\x02\x01\x06"))
        visit(part, host, path, table, report, phone, key, link, change)
    part.check(f"{path}: the commands that initialise", server.opcodes[:7], [0x0C03, 0x0C01, 0x2001, 0x2002, 0x2006, 0x2008, 0x200A])
    part.check(f"{path}: the program's end", server.close(), (0, ""))


if __name__ == "__main__":
    main()
