#!/usr/bin/env -S python3 -B
"""BlueZ's `gatttool` as the phone: what it prints of the tables of examples/ and of tap.toml.

usage: interop/gatttool.py PROGRAM RECORDINGS

What is expected is written from the table files and docs/PROFILE.md, in the words of gatttool.
"""

import sys
import tempfile

from clients import Kernel, Session, compiled_socket
from part import Part
from phones import PHONES

# gatttool is told some address; who the phone is stands in phones.py.
CLIENT = ["gatttool", "-b", "00:00:00:00:00:99"]
DOOR, SERVER, BELL, POST = "examples/door.toml", "examples/conformance/server.toml", "examples/bell.toml", "examples/post.toml"
PORCH, TAP = "examples/porch.toml", "interop/tap.toml"
KEYS, SECURE_KEY = "examples/keys.toml", "examples/secure_key.toml"


def uuid(text):
    return f"0000{text}-0000-1000-8000-00805f9b34fb" if len(text) == 4 else text


def services(*rows):
    return "".join(f"attr handle = 0x{a:04x}, end grp handle = 0x{b:04x} uuid: {uuid(it)}\n" for a, b, it in rows)


def ranges(*rows):
    return "".join(f"Starting handle: {a:04x} Ending handle: {b:04x}\n" for a, b in rows)


def characteristics(*rows):
    return "".join(
        f"handle = 0x{a:04x}, char properties = 0x{bits:02x}, char value handle = 0x{a + 1:04x}, uuid = {uuid(it)}\n" for a, bits, it in rows
    )


def descriptors(first, *types):
    return "".join(f"handle = 0x{first + at:04x}, uuid = {uuid(it)}\n" for at, it in enumerate(types))


def spaced(octets):
    return bytes.fromhex(octets).hex(" ") + " " if octets else ""


def value(octets):
    return f"Characteristic value/descriptor: {spaced(octets)}\n"


def values(*rows):
    return "".join(f"handle: 0x{a:04x} \t value: {spaced(it)}\n" for a, it in rows)


WRITTEN = "Characteristic value was written successfully\n"
WHY = {
    0x01: "Invalid handle",
    0x02: "Attribute can't be read",
    0x03: "Attribute can't be written",
    0x05: "Attribute requires authentication before read/write",
    0x08: "Attribute requires authorization before read/write",
    0x0A: "No attribute found within the given range",
    0x0C: "Encryption Key Size is insufficient",
    0x0D: "Attribute value length is invalid",
    0x0F: "Encryption required before read/write",
    0xFF: "Unexpected error code",
}


def unread(code):
    return f"Characteristic value/descriptor read failed: {WHY[code]}\n"


def unwritten(code):
    return f"Characteristic Write Request failed: {WHY[code]}\n"


def unfound(what, code):
    return f"{what} failed: {WHY[code]}\n"


LONG = "000102030405060708090a0b0c0d0e0f101112131415161718191a1b1c1d1e1f202122232425262728292a2b2c2d2e2f3031"
LETTER = bytes(it * 7 % 251 for it in range(512)).hex()
WIDE, WIDE_VALUE, WIDE_DESCRIPTOR = (f"12345678-9abc-def0-0123-456789abcd{it}" for it in ("ef", "f0", "f1"))
UNENCRYPTED = "connect to 00:00:00:00:00:99: Permission denied (13)\n"

# Phone, security level, words, what is printed. In the order of lines, against one server for each table.
CASES = {
    (DOOR, KEYS): [
        ("stranger", "low", "--primary", services((1, 3, "1800"), (4, 7, "180f"), (8, 21, "fff0"))),
        ("stranger", "low", "--primary -u 180f", ranges((4, 7))),
        ("stranger", "low", "--primary -u 1801", ""),
        ("stranger", "low", "--characteristics", characteristics((2, 0x02, "2a00"), (5, 0x12, "2a19"), (9, 0x1A, "fff1"), (12, 0x0A, "fff2"), (14, 0x02, "fff3"), (16, 0x02, "fff3"), (18, 0x02, "fff3"), (20, 0x0E, "fff4"))),
        ("stranger", "low", "--characteristics -s 4 -e 7", characteristics((5, 0x12, "2a19"))),
        ("stranger", "low", "--characteristics -u fff3", characteristics((14, 0x02, "fff3"), (16, 0x02, "fff3"), (18, 0x02, "fff3"))),
        ("stranger", "low", "--char-desc", descriptors(1, "2800", "2803", "2a00", "2800", "2803", "2a19", "2902", "2800", "2803", "fff1", "2902", "2803", "fff2", "2803", "fff3", "2803", "fff3", "2803", "fff3", "2803", "fff4")),
        ("stranger", "low", "--char-desc -s 11 -e 11", descriptors(11, "2902")),
        ("stranger", "low", "--char-read -a 3", value("4c6f636b")),
        ("stranger", "low", "--char-read -a 2", value("020300002a")),
        ("stranger", "low", "--char-read -a 8", value("f0ff")),
        ("stranger", "low", "--char-read -a 7", value("0000")),
        ("stranger", "low", "--char-read -a 21", value("")),
        ("stranger", "low", "--char-read -a 22", unread(0x01)),
        ("stranger", "low", "--char-read -u 2a00", values((3, "4c6f636b"))),
        ("stranger", "low", "--char-read -u fff1", unfound("Read characteristics by UUID", 0x05)),
        ("stranger", "low", "--char-read -u 2a01", unfound("Read characteristics by UUID", 0x0A)),
        # The second sensor wants encryption, and ends the list.
        ("stranger", "low", "--char-read -u fff3", values((15, "01"))),
        ("owner", "medium", "--char-read -u fff3", values((15, "01"), (17, "02"), (19, "03"))),
        # A stranger is told of authentication. A peer whose key is known is told of encryption, and
        # BlueZ then encrypts and asks again.
        ("stranger", "low", "--char-read -a 10", unread(0x05)),
        ("owner", "low", "--char-read -a 10", value("00")),
        ("owner", "medium", "--char-read -a 10", value("00")),
        # It asks to pair, which is refused, and so the link cannot be encrypted.
        ("stranger", "medium", "--char-read -a 10", UNENCRYPTED),
        ("owner", "high", "--char-read -a 10", UNENCRYPTED),
        ("owner", "medium", "--char-write-req -a 10 -n 01", unwritten(0x05)),
        ("tablet", "high", "--char-write-req -a 10 -n 01", WRITTEN),
        ("owner", "medium", "--char-read -a 10", value("01")),
        ("tablet", "high", "--char-write-req -a 10 -n 0001", unwritten(0x0D)),
        ("tablet", "high", "--char-read -a 13", unread(0x08)),
        ("small", "high", "--char-read -a 13", unread(0x0C)),
        ("owner", "medium", "--char-read -a 13", unread(0x05)),
        ("stranger", "low", "--char-write-req -a 3 -n 4d", unwritten(0x03)),
        ("stranger", "low", "--char-write-req -a 1 -n 4d", unwritten(0x03)),
        ("stranger", "low", "--char-write-req -a 22 -n 4d", unwritten(0x01)),
        # A client configuration is the client's own: two octets, of bits that the value supports.
        ("stranger", "low", "--char-write-req -a 7 -n 0200", unwritten(0xFF)),
        ("stranger", "low", "--char-write-req -a 7 -n 01", unwritten(0x0D)),
        ("stranger", "low", "--char-write-req -a 7 -n 0100", WRITTEN),
        ("stranger", "low", "--char-read -a 7", value("0000")),
        ("stranger", "low", "--char-write-req -a 11 -n 0100", unwritten(0x05)),
        ("owner", "medium", "--char-write-req -a 11 -n 0100", WRITTEN),
        # Of a peer with a key it stays over its connections.
        ("owner", "medium", "--char-read -a 11", value("0100")),
        ("owner", "medium", "--char-write-req -a 11 -n 0000", WRITTEN),
        ("stranger", "low", "--char-write-req -a 21 -n 68656c6c6f", WRITTEN),
        ("stranger", "low", "--char-read -a 21", value("68656c6c6f")),
        # 512 octets are prepared in 29 parts, and read in 24.
        ("stranger", "low", f"--char-write-req -a 21 -n {LETTER}", WRITTEN),
        ("stranger", "low", "--char-read -a 21", value(LETTER)),
        # What is written at the offset 0 in parts ends with the last of them.
        ("stranger", "low", f"--char-write-req -a 21 -n {LONG}", WRITTEN),
        ("stranger", "low", "--char-read -a 21", value(LONG)),
    ],
    (DOOR, SECURE_KEY): [
        ("secure", "high", "--char-read -a 10", value("00")),
        ("secure", "high", "--char-write-req -a 10 -n 01", WRITTEN),
        ("secure", "low", "--char-read -a 10", value("01")),
    ],
    (SERVER, KEYS): [
        ("stranger", "low", "--primary", services((1, 4, "1801"), (8, 31, "fff0"), (32, 34, WIDE), (35, 37, "fff0"))),
        ("stranger", "low", "--primary -u fff0", ranges((8, 31), (35, 37))),
        ("stranger", "low", f"--primary -u {WIDE}", ranges((32, 34))),
        # A secondary service is none of them.
        ("stranger", "low", "--primary -u ffe0", ""),
        ("stranger", "low", "--characteristics -s 8 -e 31", characteristics((10, 0x0E, "fff1"), (14, 0x0A, "fff2"), (16, 0x08, "fff3"), (18, 0x02, "fff4"), (20, 0x0A, "fff5"), (22, 0x0A, "fff6"), (24, 0x0A, "fff7"), (26, 0x12, "fff8"), (29, 0x22, "fff9"))),
        ("stranger", "low", "--characteristics -s 32", characteristics((33, 0x02, WIDE_VALUE), (36, 0x02, "fff1"))),
        ("stranger", "low", "--char-desc -s 8 -e 13", descriptors(8, "2800", "2802", "2803", "fff1", "2901", "ffd1")),
        ("stranger", "low", "--char-desc -s 32", descriptors(32, "2800", "2803", WIDE_VALUE, "2800", "2803", "fff1")),
        ("stranger", "low", "--char-read -a 11", value("1122")),
        ("stranger", "low", "--char-read -a 9", value("05000700e0ff")),
        ("stranger", "low", "--char-read -a 15", value(LONG)),
        ("stranger", "low", "--char-read -a 12", value("6e616d65")),
        ("stranger", "low", "--char-read -a 13", value(bytes(range(0xA0, 0xBE)).hex())),
        ("stranger", "low", "--char-read -a 34", value("99")),
        ("stranger", "low", f"--char-read -u {WIDE_VALUE}", values((34, "99"))),
        ("stranger", "low", "--char-read -u fff1", values((11, "1122"), (37, "3344"))),
        ("stranger", "low", "--char-read -a 17", unread(0x02)),
        ("stranger", "low", "--char-read -a 21", unread(0x08)),
        ("stranger", "low", "--char-read -a 23", unread(0x05)),
        ("stranger", "low", "--char-read -a 25", unread(0x05)),
        ("owner", "low", "--char-read -a 23", unread(0x05)),
        ("owner", "medium", "--char-read -a 23", unread(0x05)),
        ("owner", "medium", "--char-read -a 25", value("66")),
        ("tablet", "high", "--char-read -a 23", value("55")),
        ("small", "high", "--char-read -a 23", value("55")),
        ("small", "high", "--char-read -a 25", unread(0x0C)),
        ("small", "high", "--char-write-req -a 25 -n 67", unwritten(0x0C)),
        ("tablet", "high", "--char-write-req -a 25 -n 67", WRITTEN),
        ("owner", "medium", "--char-read -a 25", value("67")),
        ("stranger", "low", "--char-write-req -a 17 -n 01", WRITTEN),
        ("stranger", "low", "--char-write-req -a 19 -n 01", unwritten(0x03)),
        ("stranger", "low", "--char-write-req -a 21 -n 01", unwritten(0x08)),
        ("stranger", "low", "--char-write-req -a 23 -n 01", unwritten(0x05)),
        ("stranger", "low", "--char-write-req -a 12 -n 6e6577", WRITTEN),
        ("stranger", "low", "--char-read -a 12", value("6e6577")),
        ("stranger", "low", "--char-write-req -a 11 -n 0102030405", unwritten(0x0D)),
        ("stranger", "low", "--char-write-req -a 11 -n aabbccdd", WRITTEN),
        ("stranger", "low", "--char-read -a 11", value("aabbccdd")),
        ("stranger", "low", f"--char-write-req -a 15 -n {LONG}ff", WRITTEN),
        ("stranger", "low", "--char-read -a 15", value(f"{LONG}ff")),
        ("stranger", "low", f"--char-write-req -a 15 -n {LETTER[:122]}", unwritten(0x0D)),
        ("stranger", "low", f"--char-write-req -a 19 -n {LETTER[:122]}", unwritten(0x03)),
        ("stranger", "low", "--char-read -a 15", value(f"{LONG}ff")),
    ],
    (BELL, KEYS): [
        ("stranger", "low", "--primary", services((1, 7, "fff8"))),
        ("stranger", "low", "--characteristics", characteristics((2, 0x32, "fff9"), (5, 0x20, WIDE))),
        ("stranger", "low", "--char-read -a 6", unread(0x02)),
        ("stranger", "low", "--char-write-req -a 4 -n 0300", WRITTEN),
        ("stranger", "low", "--char-write-req -a 7 -n 0100", unwritten(0xFF)),
    ],
    (POST, KEYS): [
        ("stranger", "low", "--char-read -a 3", unread(0x08)),
        ("tablet", "high", "--char-read -a 3", unread(0x08)),
    ],
    (TAP, KEYS): [
        ("stranger", "low", "--primary", services((1, 3, "1800"), (4, 7, "fff0"), (8, 12, WIDE))),
        ("stranger", "low", "--char-desc -s 8", descriptors(8, "2800", "2802", "2803", WIDE_VALUE, WIDE_DESCRIPTOR)),
        ("stranger", "low", "--char-write-req -a 12 -n 74617073", WRITTEN),
        ("stranger", "low", "--char-read -a 12", value("74617073")),
    ],
}

# Table, who listens, its level, what it configures; who writes, its level and words; what is heard.
HEARD = [
    (DOOR, ("owner", "medium", "-a 11 -n 0100"), ("tablet", "high", "--char-write-req -a 10 -n 01"), "Notification handle = 0x000a value: 01 "),
    (TAP, ("stranger", "low", "-a 7 -n 0100"), ("owner", "low", "--char-write-req -a 6 -n 0102"), "Notification handle = 0x0006 value: 01 02 "),
    (TAP, ("stranger", "low", "-a 7 -n 0200"), ("owner", "low", "--char-write-req -a 6 -n 03"), "Indication   handle = 0x0006 value: 03 "),
    (TAP, ("stranger", "low", "-a 7 -n 0100"), ("owner", "low", f"--char-write-req -a 6 -n {LONG[:60]}"), f"Notification handle = 0x0006 value: {spaced(LONG[:40])}"),
]

# What is said in the interactive mode, where handles are hexadecimal, and what is answered. Without
# it gatttool sends no Write Command: 5.66 hands down a callback, and then refuses its own request.
SAID = [
    ("mtu 100", "MTU was exchanged successfully: 100"),
    ("included", "handle: 0x0009, start handle: 0x0005, end handle: 0x0007 uuid: " + uuid("ffe0")),
    ("primary " + WIDE, "Starting handle: 0x0020 Ending handle: 0x0022"),
    ("char-read-hnd f", "Characteristic value/descriptor: " + spaced(LONG)),
    ("char-write-req f " + LETTER[:120], "Characteristic value was written successfully"),
    ("char-read-hnd f", "Characteristic value/descriptor: " + spaced(LETTER[:120])),
    ("char-read-uuid fff1 25 25", "handle: 0x0025 \t value: 33 44 "),
    ("char-read-hnd 11", "Characteristic value/descriptor read failed: " + WHY[0x02]),
    ("char-write-cmd b 0102", None),
    ("char-read-hnd b", "Characteristic value/descriptor: 01 02 "),
    # Neither takes a command: one may not be written at all, and one by a request alone.
    ("char-write-cmd 13 0102", None),
    ("char-read-hnd 13", "Characteristic value/descriptor: 33 "),
    ("char-write-cmd f 0102", None),
    ("char-read-hnd f", "Characteristic value/descriptor: " + spaced(LETTER[:120])),
    ("sec-level medium", None),
    ("char-read-hnd 19", "Characteristic value/descriptor: 66 "),
]


def main():
    program, recordings = sys.argv[1:3]
    part = Part()
    with tempfile.TemporaryDirectory() as room:
        preload = compiled_socket(room)

        def opened(table, keys, name, rows=None):
            return Kernel(program, room, preload, table, keys, PHONES, f"{recordings}/gatttool_{name}.btsnoop", rows)

        def closed(kernel, name):
            part.check(f"{name}: what the controller is given", kernel.controller.faults, [])
            part.check(f"{name}: the program's end", kernel.close(), (0, ""))

        for number, ((table, keys), cases) in enumerate(CASES.items()):
            kernel = opened(table, keys, f"cases_{number}")
            for phone, level, words, wanted in cases:
                printed = kernel.run(phone, CLIENT + ["-l", level] + words.split())
                part.check(f"{table}: {phone}: {words[:60]}", printed, wanted)
            closed(kernel, table)

        for number, (table, (listener, level, configured), (writer, writer_level, words), wanted) in enumerate(HEARD):
            kernel = opened(table, KEYS, f"heard_{number}")
            session = Session(kernel, listener, CLIENT + ["-l", level, "--char-write-req", "--listen"] + configured.split())
            session.until("written successfully")
            kernel.run(writer, CLIENT + ["-l", writer_level] + words.split())
            part.check(f"{table}: {listener} hears", session.until("handle ="), wanted)
            session.close()
            closed(kernel, table)

        # A peer that is owed the news of a changed table is told when its link is encrypted: the value as
        # it stands, which is that of the table file where the program has begun anew.
        rows = f"{room}/porch.rows"
        with open(rows, "w", encoding="utf-8") as file:
            file.write("1 c0:00:00:00:00:01 4 2\n! 1 c0:00:00:00:00:01\n")
        kernel = opened(PORCH, KEYS, "owed", rows)
        session = Session(kernel, "owner", CLIENT + ["-I"])
        session.say("connect", "Connection successful")
        heard = session.say("sec-level medium", "Indication")
        part.check("porch: what is owed", "Indication   handle = 0x0003 value: 00 00 00 00" in heard or heard, True)
        session.say("char-read-hnd 7", "Characteristic value")
        session.close()
        closed(kernel, PORCH)
        with open(rows, encoding="utf-8") as file:
            part.check("porch: what is owed once that is confirmed", file.read(), "1 c0:00:00:00:00:01 4 2\n")

        kernel = opened(SERVER, KEYS, "said")
        session = Session(kernel, "owner", CLIENT + ["-I"])
        session.say("connect", "Connection successful")
        for line, wanted in SAID:
            printed = session.say(line, wanted.split(":")[0] if wanted else line)
            if wanted:
                part.check(f"{SERVER}: {line[:60]}", wanted in printed or printed, True)
        session.close()
        closed(kernel, SERVER)
    part.end()


if __name__ == "__main__":
    main()
