"""A simulated controller with phones, which plays a script to a host in C.

It is that of the program once more: crates/sim_controller/specs says what it does.
"""

import struct

FIRST_HANDLE, WAITING, CUT, PACKETS = 64, 64, 27, 8
COMMAND, ACL, EVENT = 1, 2, 4
CHANNELS = {4: ">", 5: ">5", 6: ">6"}
# The lines of an application, and the lines of tests/c/obey.c for them.
CALLS = {"update": "update", "allow": "authorize", "deny": "authorize", "tick": "tick", "replace": "replace"}


class Phone:
    def __init__(self, number):
        self.handle = FIRST_HANDLE + number
        self.is_here = self.is_held = False
        self.partial, self.heard, self.ended = b"", [], None


class Played:
    """A script that is played to a host. `printed` has the lines."""

    def __init__(self, host, script):
        self.host, self.printed = host, []
        self.phones, self.waiting, self.is_advertising = {}, [], False
        self.exchange()
        self.host.notices.clear()
        for line in script.splitlines():
            if line and not line.startswith("#"):
                self.do(line.split(" "))

    # What the controller does.

    def tell(self, *packets):
        """Has packets wait for the host, if there is room for all."""
        if len(self.waiting) + len(packets) > WAITING:
            return False
        self.waiting += packets
        return True

    def tell_all(self, *packets):
        if not self.tell(*packets):
            raise AssertionError("more packets wait for the host than the controller has room for")

    def event(self, code, parameters):
        return bytes((EVENT, code, len(parameters))) + parameters

    def exchange(self):
        while self.host.sent or self.waiting:
            if self.host.sent:
                self.obey(self.host.sent.pop(0))
            else:
                self.host.take(self.waiting.pop(0))

    def phone_with(self, handle):
        return next((it for it in self.phones.values() if it.is_here and it.handle == handle), None)

    def obey(self, packet):
        if packet[0] == ACL:
            return self.hear(*struct.unpack_from("<H", packet, 1), packet[5:])
        opcode, parameters = struct.unpack_from("<H", packet, 1)[0], packet[4:]
        returned, behind = b"", []
        phone = self.phone_with(struct.unpack_from("<H", parameters)[0]) if len(parameters) > 1 else None
        if opcode == 0x2002:
            returned = struct.pack("<HB", CUT, PACKETS)
        elif opcode == 0x200A:
            self.is_advertising = parameters == b"\x01"
        elif opcode in (0x201A, 0x201B):
            returned = parameters[:2]
            if opcode == 0x201A and phone:
                behind = [self.event(0x08, struct.pack("<BHB", 0, phone.handle, 1))]
        if opcode != 0x0406:
            first = self.event(0x0E, b"\x01" + packet[1:3] + b"\x00" + returned)
        else:
            first = self.event(0x0F, b"\x00\x01" + packet[1:3])
            if phone:
                phone.is_here, phone.ended = False, parameters[2]
                behind = [self.event(0x05, struct.pack("<BHB", 0, phone.handle, 0x16))]
        self.tell_all(first, *behind)

    def hear(self, field, octets):
        phone = self.phone_with(field & 0x0FFF)
        if phone is None:
            return
        phone.partial = (b"" if field >> 12 == 0 else phone.partial) + octets
        size, channel = struct.unpack("<HH", phone.partial[:4])
        if len(phone.partial) == size + 4:
            phone.heard.append((channel, phone.partial[4:]))
        if not phone.is_held:
            self.tell_all(self.event(0x13, struct.pack("<BHH", 1, phone.handle, 1)))

    # What a line says.

    def do(self, words):
        if words[0] in CALLS:
            asked = [CALLS[words[0]], *words[1:]]
            if asked[0] == "authorize":
                until = words[2] if len(words) > 2 else 0 if words[0] == "deny" else (1 << 64) - 1
                phone = self.named(words[1])
                asked[1:] = [str(phone.handle), str(until)]
            self.host.ask(" ".join(asked))
            if self.host.status:
                self.printed.append(f"fault {self.host.status - 40}")
        else:
            name = words[0] if words[1].startswith("<") else words[1]
            refused = self.act(self.named(name), words)
            if refused:
                self.printed.append(f"{name} refused {refused}")
        self.exchange()
        for name, phone in self.phones.items():
            for channel, payload in phone.heard:
                self.printed.append(f"{name} {CHANNELS[channel]} {payload.hex() or '-'}")
            if phone.ended is not None:
                self.printed.append(f"{name} ended {phone.ended:02x}")
            phone.heard, phone.ended = [], None
        self.printed += self.host.notices
        self.host.notices.clear()

    def named(self, name):
        return self.phones.setdefault(name, Phone(len(self.phones)))

    def act(self, phone, words):
        """A phone does something. Returns why the controller refuses it, if it does."""
        handle = struct.pack("<H", phone.handle)
        if words[0] == "connect":
            if phone.is_here:
                return 2
            if not self.is_advertising:
                return 3
            peer = bytes((int(words[2]),)) + bytes.fromhex(words[3].replace(":", ""))[::-1]
            parameters = b"\x01" + peer + struct.pack("<HHHB", 24, 0, 72, 0)
            packets = [self.event(0x3E, b"\x01\x00" + handle + parameters)]
        elif not phone.is_here:
            return 1
        elif words[0] == "drop":
            packets = [self.event(0x05, b"\x00" + handle + b"\x13")]
        elif words[0] == "encrypt":
            key = bytes.fromhex(words[2]) + struct.pack("<H", int(words[3]))
            packets = [self.event(0x3E, b"\x05" + handle + key)]
        elif words[0] == "clear":
            packets = [self.event(0x08, b"\x00" + handle + b"\x00")]
        elif words[0] == "hold":
            packets = []
        elif words[0] == "done":
            packets = [self.event(0x13, b"\x01" + handle + struct.pack("<H", int(words[2])))]
        else:
            payload = b"" if words[2] == "-" else bytes.fromhex(words[2])
            frame = struct.pack("<HH", len(payload), int(words[1][1:] or 4)) + payload
            packets = []
            for at in range(0, len(frame), CUT):
                part = frame[at : at + CUT]
                flags = 0x1000 if at else 0x2000
                packets.append(struct.pack("<BHH", ACL, phone.handle | flags, len(part)) + part)
        if not self.tell(*packets):
            return 4
        phone.is_held = words[0] == "hold" or phone.is_held and words[0] != "connect"
        phone.is_here = words[0] != "drop"
        if words[0] == "connect":
            self.is_advertising, phone.partial = False, b""
        return None
