#!/usr/bin/env -S python3 -B
"""A central by Scapy: its classes build each request and take each answer apart.

usage: interop/scapy_central.py PROGRAM RECORDINGS

The requests go over all handles of a table. What is due is worked out by table_file.py.
"""

import logging
import os
import random
import struct
import sys

logging.getLogger("scapy").setLevel(logging.ERROR)
from scapy.layers import bluetooth as scapy  # noqa: E402

from controller import Controller  # noqa: E402
from part import Part  # noqa: E402
from phones import PHONES  # noqa: E402
from table_file import CHARACTERISTIC, COMMAND, CONFIGURATION, INCLUDE, INDICATE, NOTIFY, PRIMARY, READ, SECONDARY, Link, Table, octets  # noqa: E402

ROOT = os.path.dirname(os.path.dirname(os.path.realpath(__file__)))
KEYS = "examples/keys.toml"
# Phone, whether it encrypts, what its link is then worth, and the MTU that it asks for, if any.
VISITS = [
    ("stranger", False, Link(), None),
    ("owner", False, Link(is_known=True), None),
    ("owner", True, Link(True, 16), 64),
    ("tablet", True, Link(True, 16, True), 517),
    ("small", True, Link(True, 7, True), None),
]
TABLES = [f"examples/{it}.toml" for it in ("door", "bell", "post", "porch", "conformance/server")] + ["interop/tap.toml"]


class Central:
    """Asks by Scapy, and compares what Scapy finds in the answer with what is due."""

    def __init__(self, part, name, link):
        self.part, self.name, self.link = part, name, link

    def ask(self, request, due):
        pdu = bytes(scapy.ATT_Hdr() / request)
        answer = self.link.ask(pdu)
        answer = b"" if answer is None else answer
        self.part.check(f"{self.name}: {pdu.hex()} brings {answer.hex()}", self.seen(answer), due)

    def tell(self, command):
        self.link.send(bytes(scapy.ATT_Hdr() / command))

    @staticmethod
    def seen(answer):
        """What Scapy finds. An answer that it would not write so again is none."""
        packet = scapy.ATT_Hdr(answer)
        if bytes(packet) != answer:
            return ("written otherwise", bytes(packet))
        layer = packet.payload
        match layer:
            case scapy.ATT_Error_Response():
                return ("error", layer.request, layer.handle, layer.ecode)
            case scapy.ATT_Exchange_MTU_Response():
                return ("mtu", layer.mtu)
            case scapy.ATT_Find_Information_Response():
                return ("information", [(it.handle, it.value.int if layer.format == 2 else it.value << 96 | 0x1000800000805F9B34FB) for it in layer.handles])
            case scapy.ATT_Find_By_Type_Value_Response():
                return ("ranges", [(it.handle, it.value) for it in layer.handles])
            case scapy.ATT_Read_By_Type_Response():
                # A value without octets is 0 to Scapy.
                return ("values", [(it.handle, it.value or b"") for it in layer.handles])
            case scapy.ATT_Read_By_Group_Type_Response():
                rows = [layer.data[at : at + layer.length] for at in range(0, len(layer.data), layer.length)]
                return ("groups", [(*struct.unpack("<HH", it[:4]), it[4:]) for it in rows])
            case scapy.ATT_Read_Response():
                return ("value", layer.value)
            case scapy.ATT_Read_Blob_Response():
                return ("part", layer.value)
            case scapy.ATT_Read_Multiple_Response():
                return ("joined", layer.values)
            case scapy.ATT_Prepare_Write_Response():
                return ("prepared", layer.gatt_handle, layer.offset, layer.data)
            case scapy.ATT_Handle_Value_Notification():
                return ("notified", layer.gatt_handle, layer.value)
            case scapy.ATT_Handle_Value_Indication():
                return ("indicated", layer.gatt_handle, layer.value)
        # Without a payload Scapy makes no layer: the opcode alone says what it is.
        words = {0x0B: ("value", b""), 0x0D: ("part", b""), 0x0F: ("joined", b""), 0x13: ("written",), 0x19: ("executed",)}
        return words.get(packet.opcode, ("unknown", answer)) if not layer else ("unknown", answer)


def by_type(first, last, kind):
    """A Read By Type Request, of the class that Scapy has for the size of the type."""
    if len(octets(kind)) == 2:
        return scapy.ATT_Read_By_Type_Request(start=first, end=last, uuid=kind >> 96)
    return scapy.ATT_Read_By_Type_Request_128bit(start=first, end=last, uuid1=kind & (1 << 64) - 1, uuid2=kind >> 64)


def discover(central, table, link):
    count = len(table.attributes)
    kinds = sorted({it.kind for it in table.attributes} | {PRIMARY, SECONDARY, INCLUDE, CHARACTERISTIC, CONFIGURATION})
    for first in range(1, count + 2):
        last = random.choice((0xFFFF, max(first, count), first, first + 3))
        central.ask(scapy.ATT_Find_Information_Request(start=first, end=last), table.find_information(first, last))
        for kind in (PRIMARY, SECONDARY):
            central.ask(scapy.ATT_Read_By_Group_Type_Request(start=first, end=0xFFFF, uuid=kind >> 96), table.read_by_group_type(first, 0xFFFF, kind, link))
        for kind in kinds:
            central.ask(by_type(first, last, kind), table.read_by_type(first, last, kind, link))
    for value in sorted({it.value for it in table.attributes if it.kind in (PRIMARY, SECONDARY)} | {b"\x0f\x18"}):
        for kind in (PRIMARY, SECONDARY):
            for first in (1, count // 2, count):
                request = scapy.ATT_Find_By_Type_Value_Request(start=first, end=0xFFFF, uuid=kind >> 96, data=value)
                central.ask(request, table.find_by_type_value(first, 0xFFFF, kind, value, link))
    central.ask(scapy.ATT_Read_By_Group_Type_Request(start=1, end=0xFFFF, uuid=0x2803), ("error", 0x10, 1, 0x10))
    central.ask(scapy.ATT_Find_Information_Request(start=0, end=9), ("error", 0x04, 0, 0x01))
    central.ask(by_type(5, 4, CHARACTERISTIC), ("error", 0x08, 5, 0x01))


def read(central, table, link):
    count = len(table.attributes)
    for handle in range(count + 2):
        central.ask(scapy.ATT_Read_Request(gatt_handle=handle), table.read(handle, link))
        size = len(table.value(table.at(handle))) if table.at(handle) else 0
        for offset in sorted({0, 1, size, size + 1, 22}):
            central.ask(scapy.ATT_Read_Blob_Request(gatt_handle=handle, offset=offset), table.read_blob(handle, offset, link))
        handles = [handle, *random.sample(range(1, count + 1), random.randint(1, 3))]
        central.ask(scapy.ATT_Read_Multiple_Request(handles=handles), table.read_multiple(handles, link))
        central.ask(scapy.ATT_Read_Multiple_Request(handles=handles[::-1]), table.read_multiple(handles[::-1], link))


def write(central, table, link):
    for handle in range(len(table.attributes) + 2):
        it = table.at(handle)
        sizes = {0, 1, 2, it.most, it.most + 1} if it else {1}
        values = [random.randbytes(size) for size in sorted(sizes) if size <= table.mtu - 3]
        values += [bytes((bits, 0)) for bits in range(5)] if it and it.kind == CONFIGURATION else []
        for value in values:
            central.ask(scapy.ATT_Write_Request(gatt_handle=handle, data=value), table.write(handle, value, link))
            value = value[::-1]
            table.write(handle, value, link, COMMAND)
            central.tell(scapy.ATT_Write_Command(gatt_handle=handle, data=value))
            central.ask(scapy.ATT_Read_Request(gatt_handle=handle), table.read(handle, link))


def prepare(central, table, link):
    count = len(table.attributes)
    for _ in range(24):
        for _ in range(random.choice((1, 2, 3, 34))):
            handle = random.randint(1, count + 1)
            offset = random.choice((0, 0, 1, 2, 5, 18))
            value = random.randbytes(random.choice((0, 1, 2, table.mtu - 5)))
            central.ask(scapy.ATT_Prepare_Write_Request(gatt_handle=handle, offset=offset, data=value), table.prepare(handle, offset, value, link))
        flags = random.choice((0, 1, 1, 1))
        central.ask(scapy.ATT_Execute_Write_Request(flags=flags), table.execute(flags, link))
    # What was executed, and nothing else, stands in the values.
    for handle in range(1, count + 1):
        central.ask(scapy.ATT_Read_Request(gatt_handle=handle), table.read(handle, link))


def visit(part, controller, path, table, name, encrypts, link, mtu):
    with_link = controller.connect(PHONES[name])
    table.begin({})
    central = Central(part, f"{path}: {name}", with_link)
    if encrypts:
        part.check(f"{path}: {name} encrypts", with_link.encrypt(), True)
    if mtu:
        central.ask(scapy.ATT_Exchange_MTU_Request(mtu=mtu), ("mtu", 247))
        table.mtu = min(mtu, 247)
    for steps in (discover, read, write, prepare):
        steps(central, table, link)
    # What a peer with a key configures stays for its next visit: here nothing is to stay.
    for it in table.attributes:
        if it.kind == CONFIGURATION:
            central.ask(scapy.ATT_Write_Request(gatt_handle=it.handle, data=b"\0\0"), table.write(it.handle, b"\0\0", link))
    with_link.drop()


def hear(part, controller, path, table):
    """A stranger hears of each value that the tablet may write, and of nothing twice."""
    hearing, acting = controller.connect(PHONES["stranger"]), controller.connect(PHONES["tablet"])
    part.check(f"{path}: the tablet encrypts", acting.encrypt(), True)
    table.mtu = 23
    listener, writer = Central(part, f"{path}: stranger", hearing), Central(part, f"{path}: tablet", acting)
    tablet = Link(True, 16, True)
    for it in table.attributes:
        if not it.bits & (NOTIFY | INDICATE) or table.refusal(it.handle, tablet, 0x08) is not None:
            continue
        for bits, word in ((1, "notified"), (2, "indicated"), (3, "indicated")):
            configuration = bytes((bits, 0))
            due = table.write(it.handle + 1, configuration, Link())
            listener.ask(scapy.ATT_Write_Request(gatt_handle=it.handle + 1, data=configuration), due)
            for size in (0, 1, it.most) if due == ("written",) else ():
                value = random.randbytes(size)
                done = table.write(it.handle, value, tablet)
                request = scapy.ATT_Write_Request(gatt_handle=it.handle, data=value) if size < 20 else None
                if request is None:
                    # Longer than one request of 23 octets: in parts.
                    for at in range(0, size, 18):
                        writer.ask(scapy.ATT_Prepare_Write_Request(gatt_handle=it.handle, offset=at, data=value[at : at + 18]), ("prepared", it.handle, at, value[at : at + 18]))
                    request, done = scapy.ATT_Execute_Write_Request(flags=1), ("executed",)
                writer.ask(request, done)
                if table.refusal(it.handle, Link(), READ) in (None, 0x02):
                    told = listener.seen(hearing.receive())
                    part.check(f"{path}: the stranger hears of {it.handle}", told, (word, it.handle, table.value(it)[:20]))
                    if word == "indicated":
                        hearing.send(b"\x1e")
    listener.ask(scapy.ATT_Read_Request(gatt_handle=0), ("error", 0x0A, 0, 0x01))
    part.check(f"{path}: nobody hears more", (hearing.heard.qsize(), acting.heard.qsize()), (0, 0))
    hearing.drop()
    acting.drop()


def main():
    program, recordings = sys.argv[1:3]
    part = Part()
    random.seed(20)
    for number, path in enumerate(TABLES):
        table = Table(f"{ROOT}/{path}")
        controller = Controller(program, f"{ROOT}/{path}", f"{ROOT}/{KEYS}", f"{recordings}/scapy_{number}.btsnoop")
        for entry in VISITS:
            visit(part, controller, path, table, *entry)
        hear(part, controller, path, table)
        part.check(f"{path}: what the controller is given", controller.faults, [])
        part.check(f"{path}: the program's end", controller.close(), (0, ""))
    part.end()


if __name__ == "__main__":
    main()
