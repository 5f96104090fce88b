"""What a table file promises, worked out from docs/TABLE.md and docs/PROFILE.md.

A second reading of these documents, in no way derived from the host: it takes a table, one peer and
one connection, and tells the answer that is due to a request.
"""

import tomllib
from dataclasses import dataclass, field

BASE = 0x00001000800000805F9B34FB
READ, COMMAND, WRITE, NOTIFY, INDICATE = 0x02, 0x04, 0x08, 0x10, 0x20
BITS = {"read": READ, "command": COMMAND, "write": WRITE, "notify": NOTIFY, "indicate": INDICATE}
PRIMARY, SECONDARY, INCLUDE, CHARACTERISTIC, CONFIGURATION = (it << 96 | BASE for it in (0x2800, 0x2801, 0x2802, 0x2803, 0x2902))


def number(uuid):
    return int(uuid, 16) << 96 | BASE if len(uuid) == 4 else int(uuid.replace("-", ""), 16)


def octets(kind):
    """A type as it stands in a value: 2 octets where it has 16 bits, else 16."""
    is_short = kind & ((1 << 96) - 1) == BASE and kind >> 112 == 0
    return (kind >> 96).to_bytes(2, "little") if is_short else kind.to_bytes(16, "little")


@dataclass
class Attribute:
    handle: int
    kind: int
    value: bytes
    bits: int = READ
    most: int = 0
    is_fixed: bool = False
    read: dict = field(default_factory=dict)
    write: dict = field(default_factory=dict)
    supports: int = 0


@dataclass
class Link:
    """What a connection is worth: the size of its key, if it has one, and what that is."""

    is_known: bool = False
    size: int = 0
    is_authenticated: bool = False
    is_secure: bool = False
    is_authorized: bool = False


class Table:
    def __init__(self, path):
        with open(path, "rb") as file:
            self.attributes = []
            self.ranges = []
            for service in tomllib.load(file)["service"]:
                self.add_service(service)
        self.begin({})

    def begin(self, configured):
        """A connection begins, of a client that has configured this."""
        self.enter({"configured": configured, "mtu": 23, "is_exchanged": False, "queue": []})

    def enter(self, state):
        """The next PDUs come from the connection with this state."""
        self.configured, self.mtu = state["configured"], state["mtu"]
        self.is_exchanged, self.queue = state["is_exchanged"], state["queue"]
        # The values that a PDU has written.
        self.changed = []

    def state(self):
        return {"configured": self.configured, "mtu": self.mtu, "is_exchanged": self.is_exchanged, "queue": self.queue}

    def add(self, kind, value, **more):
        self.attributes.append(Attribute(len(self.attributes) + 1, kind, value, **more))
        return self.attributes[-1]

    def add_value(self, entry):
        value = bytes.fromhex(entry["value"])
        bits = sum(BITS[it] for it in entry["properties"])
        is_fixed = entry.get("fixed", False)
        most = len(value) if is_fixed else entry.get("max", len(value))
        return self.add(number(entry["uuid"]), value, bits=bits, most=most, is_fixed=is_fixed, read=entry.get("read", {}), write=entry.get("write", {}))

    def add_service(self, service):
        first = self.add(SECONDARY if service.get("secondary") else PRIMARY, octets(number(service["uuid"]))).handle
        for place in service.get("include", []):
            begin, end = self.ranges[place]
            kind = self.attributes[begin - 1].value
            self.add(INCLUDE, begin.to_bytes(2, "little") + end.to_bytes(2, "little") + (kind if len(kind) == 2 else b""))
        for entry in service.get("characteristic", []):
            declaration = self.add(CHARACTERISTIC, b"")
            it = self.add_value(entry)
            declaration.value = bytes((it.bits,)) + it.handle.to_bytes(2, "little") + octets(it.kind)
            if it.bits & (NOTIFY | INDICATE):
                supports = (1 if it.bits & NOTIFY else 0) | (2 if it.bits & INDICATE else 0)
                self.add(CONFIGURATION, b"", bits=READ | WRITE, most=2, write=entry.get("config", {}), supports=supports)
            for descriptor in entry.get("descriptor", []):
                self.add_value(descriptor)
        self.ranges.append((first, len(self.attributes)))

    # What is there.

    def at(self, handle):
        return self.attributes[handle - 1] if 0 < handle <= len(self.attributes) else None

    def value(self, it):
        return self.configured.get(it.handle, b"\0\0") if it.kind == CONFIGURATION else it.value

    def among(self, first, last):
        return [it for it in self.attributes if first <= it.handle <= last]

    def end(self, it):
        """The last handle of the group that an attribute begins."""
        ends = (PRIMARY, SECONDARY) if it.kind in (PRIMARY, SECONDARY) else (PRIMARY, SECONDARY, CHARACTERISTIC)
        return next((other.handle - 1 for other in self.attributes[it.handle :] if other.kind in ends), len(self.attributes))

    def refusal(self, handle, link, access):
        """The code of the first rule that is broken, by the table under Policy, or None."""
        it = self.at(handle)
        if it is None:
            return 0x01
        if not it.bits & access:
            return 0x02 if access == READ else 0x03
        return self.unmet(it.read if access == READ else it.write, link)

    @staticmethod
    def unmet(needs, link):
        """The code of the first need that a connection does not meet, or None."""
        size = 16 if needs.get("secure") else needs.get("key_size", 0)
        wants_authenticated = needs.get("authenticated") or needs.get("secure")
        if (needs.get("encrypted") or wants_authenticated or size) and not link.size:
            return 0x0F if link.is_known else 0x05
        if wants_authenticated and not link.is_authenticated:
            return 0x05
        if size > link.size and size:
            return 0x0C
        if needs.get("secure") and not link.is_secure:
            return 0x05
        return 0x08 if needs.get("authorized") and not link.is_authorized else None

    # What is due: a word and what it is about, or an error with its opcode, handle and code.

    @staticmethod
    def error(opcode, handle, code):
        return ("error", opcode, handle, code)

    def find_information(self, first, last):
        rows = [(it.handle, it.kind, len(octets(it.kind))) for it in self.among(first, last)]
        if not rows:
            return self.error(0x04, first, 0x0A)
        size = rows[0][2]
        found = []
        for handle, kind, its_size in rows[: (self.mtu - 2) // (2 + size)]:
            if its_size != size:
                break
            found.append((handle, kind))
        return ("information", found)

    def find_by_type_value(self, first, last, kind, value, link):
        rows = []
        for it in self.among(first, last):
            if it.kind == kind and self.refusal(it.handle, link, READ) is None and self.value(it) == value:
                rows.append((it.handle, self.end(it) if kind in (PRIMARY, SECONDARY, CHARACTERISTIC) else it.handle))
        rows = rows[: (self.mtu - 1) // 4]
        return ("ranges", rows) if rows else self.error(0x06, first, 0x0A)

    def listed(self, opcode, first, last, kind, link, most, head):
        found = []
        for it in self.among(first, last):
            if it.kind != kind:
                continue
            code = self.refusal(it.handle, link, READ)
            if code is not None:
                if not found:
                    return self.error(opcode, it.handle, code)
                break
            value = self.value(it)[:most]
            if found and (len(value) != len(found[0][-1]) or 2 + (len(found) + 1) * (head + len(value)) > self.mtu):
                break
            found.append((it, value))
        return found or self.error(opcode, first, 0x0A)

    def read_by_type(self, first, last, kind, link):
        found = self.listed(0x08, first, last, kind, link, min(self.mtu - 4, 253), 2)
        return found if isinstance(found, tuple) else ("values", [(it.handle, value) for it, value in found])

    def read_by_group_type(self, first, last, kind, link):
        if kind not in (PRIMARY, SECONDARY):
            return self.error(0x10, first, 0x10)
        found = self.listed(0x10, first, last, kind, link, min(self.mtu - 6, 251), 4)
        return found if isinstance(found, tuple) else ("groups", [(it.handle, self.end(it), value) for it, value in found])

    def read(self, handle, link):
        code = self.refusal(handle, link, READ)
        return self.error(0x0A, handle, code) if code else ("value", self.value(self.at(handle))[: self.mtu - 1])

    def read_blob(self, handle, offset, link):
        code = self.refusal(handle, link, READ)
        if code is None and offset > len(self.value(self.at(handle))):
            code = 0x07
        return self.error(0x0C, handle, code) if code else ("part", self.value(self.at(handle))[offset : offset + self.mtu - 1])

    def read_multiple(self, handles, link):
        for handle in handles:
            code = self.refusal(handle, link, READ)
            if code:
                return self.error(0x0E, handle, code)
        return ("joined", b"".join(self.value(self.at(it)) for it in handles)[: self.mtu - 1])

    def fault_of(self, it, value):
        if len(value) > it.most or it.kind == CONFIGURATION and len(value) != 2:
            return 0x0D
        if it.kind == CONFIGURATION and int.from_bytes(value, "little") & ~it.supports:
            return 0xFF
        return None

    def put(self, it, value):
        if it.kind == CONFIGURATION:
            self.configured[it.handle] = value
        else:
            it.value = value + it.value[len(value) :] if it.is_fixed else value
            self.note(it)

    def note(self, it):
        if it not in self.changed:
            self.changed.append(it)

    def write(self, handle, value, link, access=WRITE):
        code = self.refusal(handle, link, access)
        code = code or self.fault_of(self.at(handle), value)
        if code:
            return self.error(0x12, handle, code)
        self.put(self.at(handle), value)
        return ("written",)

    def prepare(self, handle, offset, part, link):
        code = self.refusal(handle, link, WRITE)
        if code is None and (len(self.queue) >= 32 or sum(len(it[2]) for it in self.queue) + len(part) > 1024):
            code = 0x09
        if code:
            return self.error(0x16, handle, code)
        self.queue.append((handle, offset, part))
        return ("prepared", handle, offset, part)

    def execute(self, flags, link):
        queue, self.queue = self.queue, []
        if not flags:
            return ("executed",)
        before = [it.value for it in self.attributes], dict(self.configured)
        for handle, offset, part in queue:
            it = self.at(handle)
            code = self.refusal(handle, link, WRITE)
            if code is None:
                code = 0x07 if offset > (0 if it.kind == CONFIGURATION else len(it.value)) else self.fault_at(it, offset, part)
            if code:
                for other, value in zip(self.attributes, before[0]):
                    other.value = value
                self.configured, self.changed = before[1], []
                return self.error(0x18, handle, code)
            self.put_at(it, offset, part)
        return ("executed",)

    def fault_at(self, it, offset, part):
        return self.fault_of(it, part) if it.kind == CONFIGURATION else (0x0D if offset + len(part) > it.most else None)

    def put_at(self, it, offset, part):
        if it.kind == CONFIGURATION:
            self.put(it, part)
        else:
            it.value = it.value[:offset] + part + (it.value[offset + len(part) :] if it.is_fixed else b"")
            self.note(it)

    # A PDU as it comes, in its own form or not.

    def answer(self, pdu, link):
        """The octets of the answer that is due to a PDU, or None."""
        self.changed = []
        if not pdu or pdu[0] in IGNORED:
            return None
        opcode, body = pdu[0], pdu[1:]
        if opcode == 0x52:
            if len(body) >= 2 and len(pdu) <= self.mtu:
                self.write(int.from_bytes(body[:2], "little"), body[2:], link, COMMAND)
            return None
        if opcode not in FORMS:
            return None if opcode & 0x40 else bytes((1, opcode, 0, 0, 0x06))
        if not FORMS[opcode](body) or len(pdu) > self.mtu:
            return bytes((1, opcode, 0, 0, 0x04))
        return written(self.due(opcode, body, link))

    def due(self, opcode, body, link):
        first, last = int.from_bytes(body[:2], "little"), int.from_bytes(body[2:4], "little")
        if opcode == 0x02:
            if not self.is_exchanged:
                self.mtu, self.is_exchanged = max(23, min(first, RECEIVED)), True
            return ("mtu", RECEIVED)
        if opcode in (0x04, 0x06, 0x08, 0x10) and (first == 0 or first > last):
            return self.error(opcode, first, 0x01)
        if opcode == 0x04:
            return self.find_information(first, last)
        if opcode == 0x06:
            return self.find_by_type_value(first, last, number_of(body[4:6]), body[6:], link)
        if opcode == 0x08:
            return self.read_by_type(first, last, number_of(body[4:]), link)
        if opcode == 0x10:
            return self.read_by_group_type(first, last, number_of(body[4:]), link)
        if opcode == 0x0A:
            return self.read(first, link)
        if opcode == 0x0C:
            return self.read_blob(first, last, link)
        if opcode == 0x0E:
            return self.read_multiple([int.from_bytes(body[at : at + 2], "little") for at in range(0, len(body), 2)], link)
        if opcode == 0x12:
            return self.write(first, body[2:], link)
        if opcode == 0x16:
            return self.prepare(first, last, body[4:], link)
        return self.execute(body[0], link)


# What the program receives, and what it passes over: responses, notifications, indications, confirmations.
RECEIVED = 247
IGNORED = {0x01, 0x03, 0x05, 0x07, 0x09, 0x0B, 0x0D, 0x0F, 0x11, 0x13, 0x17, 0x19, 0x1B, 0x1D, 0x1E}
# The forms of requests, behind the opcode.
FORMS = {
    0x02: lambda it: len(it) == 2,
    0x04: lambda it: len(it) == 4,
    0x06: lambda it: len(it) >= 6,
    0x08: lambda it: len(it) in (6, 20),
    0x0A: lambda it: len(it) == 2,
    0x0C: lambda it: len(it) == 4,
    0x0E: lambda it: len(it) >= 4 and len(it) % 2 == 0,
    0x10: lambda it: len(it) in (6, 20),
    0x12: lambda it: len(it) >= 2,
    0x16: lambda it: len(it) >= 4,
    0x18: lambda it: it in (b"\0", b"\1"),
}


def number_of(kind):
    return int.from_bytes(kind, "little") << 96 | BASE if len(kind) == 2 else int.from_bytes(kind, "little")


def written(due):
    """What is due, as octets."""
    word, *rest = due
    if word == "error":
        return bytes((1, rest[0], *rest[1].to_bytes(2, "little"), rest[2]))
    if word == "mtu":
        return b"\x03" + rest[0].to_bytes(2, "little")
    if word == "information":
        rows = [handle.to_bytes(2, "little") + octets(kind) for handle, kind in rest[0]]
        return bytes((5, 1 if len(rows[0]) == 4 else 2)) + b"".join(rows)
    if word == "prepared":
        return b"\x17" + rest[0].to_bytes(2, "little") + rest[1].to_bytes(2, "little") + rest[2]
    if word in ("value", "part", "joined"):
        return bytes(({"value": 0x0B, "part": 0x0D, "joined": 0x0F}[word],)) + rest[0]
    if word in ("written", "executed"):
        return b"\x13" if word == "written" else b"\x19"
    rows = [b"".join(it if isinstance(it, bytes) else it.to_bytes(2, "little") for it in row) for row in rest[0]]
    if word == "ranges":
        return b"\x07" + b"".join(rows)
    return bytes((0x09 if word == "values" else 0x11, len(rows[0]))) + b"".join(rows)
