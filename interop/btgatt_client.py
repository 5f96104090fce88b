#!/usr/bin/env -S python3 -B
"""BlueZ's `btgatt-client` as the phone: the GATT client that bluetoothd is built on.

usage: interop/btgatt_client.py PROGRAM RECORDINGS

Debian ships it as source alone, in the package bluez-source, and so it is compiled here. What is
expected is written from the table files and docs/PROFILE.md, in the words of btgatt-client.
"""

import os
import re
import shutil
import subprocess
import sys
import tempfile

from clients import HERE, ROOT, Kernel, Session, compiled_socket
from controller import ATT, recorded_frames
from part import Part
from phones import PHONES

SOURCE = "/usr/src/bluez.tar.bz2"
SHARED = "mainloop mainloop-notify io-mainloop timeout-mainloop att gatt-client gatt-db gatt-helpers queue util crypto"
FILES = ["tools/btgatt-client.c", "src/uuid-helper.c", *(f"src/shared/{it}.c" for it in SHARED.split()), *(f"lib/{it}.c" for it in ("bluetooth", "uuid", "hci", "sdp"))]

DOOR, SERVER, BELL, POST = "examples/door.toml", "examples/conformance/server.toml", "examples/bell.toml", "examples/post.toml"
PORCH, TAP = "examples/porch.toml", "interop/tap.toml"
KEYS, SECURE_KEY = "examples/keys.toml", "examples/secure_key.toml"
WIDE, WIDE_VALUE, WIDE_DESCRIPTOR = (f"12345678-9abc-def0-0123-456789abcd{it}" for it in ("ef", "f0", "f1"))


def uuid(text):
    return f"0000{text}-0000-1000-8000-00805f9b34fb" if len(text) == 4 else text


def service(first, last, kind, *parts, secondary=False):
    """What is printed of a service: its includes, and its characteristics with their descriptors."""
    lines = [f"service - start: 0x{first:04x}, end: 0x{last:04x}, type: {'secondary' if secondary else 'primary'}, uuid: {uuid(kind)}"]
    return "\n".join(lines + [it for part in parts for it in part])


def include(handle, first, last, kind):
    return [f"include - handle: 0x{handle:04x}, - start: 0x{first:04x}, end: 0x{last:04x},uuid: {uuid(kind)}"]


def characteristic(first, bits, kind, *descriptors):
    lines = [f"charac - start: 0x{first:04x}, value: 0x{first + 1:04x}, props: 0x{bits:02x}, ext_props: 0x0000, uuid: {uuid(kind)}"]
    return lines + [f"descr - handle: 0x{first + 2 + at:04x}, uuid: {uuid(it)}" for at, it in enumerate(descriptors)]


SERVICES = {
    DOOR: [
        service(1, 3, "1800", characteristic(2, 0x02, "2a00")),
        service(4, 7, "180f", characteristic(5, 0x12, "2a19", "2902")),
        service(8, 21, "fff0", characteristic(9, 0x1A, "fff1", "2902"), characteristic(12, 0x0A, "fff2"), characteristic(14, 0x02, "fff3"), characteristic(16, 0x02, "fff3"), characteristic(18, 0x02, "fff3"), characteristic(20, 0x0E, "fff4")),
    ],
    SERVER: [
        service(1, 4, "1801", characteristic(2, 0x20, "2a05", "2902")),
        service(5, 7, "ffe0", characteristic(6, 0x02, "ffe1"), secondary=True),
        service(8, 31, "fff0", include(9, 5, 7, "ffe0"), characteristic(10, 0x0E, "fff1", "2901", "ffd1"), characteristic(14, 0x0A, "fff2"), characteristic(16, 0x08, "fff3"), characteristic(18, 0x02, "fff4"), characteristic(20, 0x0A, "fff5"), characteristic(22, 0x0A, "fff6"), characteristic(24, 0x0A, "fff7"), characteristic(26, 0x12, "fff8", "2902"), characteristic(29, 0x22, "fff9", "2902")),
        service(32, 34, WIDE, characteristic(33, 0x02, WIDE_VALUE)),
        service(35, 37, "fff0", characteristic(36, 0x02, "fff1")),
    ],
    # The secondary service at 8, which nothing includes, is not looked for.
    BELL: [service(1, 7, "fff8", characteristic(2, 0x32, "fff9", "2902"), characteristic(5, 0x20, WIDE, "2902"))],
    POST: [service(1, 4, "fffb", characteristic(2, 0x32, "fffc", "2902"))],
    PORCH: [
        service(1, 4, "1801", characteristic(2, 0x20, "2a05", "2902")),
        service(5, 10, "fff0", characteristic(6, 0x12, "fff1", "2902"), characteristic(9, 0x0A, "fff4")),
    ],
    TAP: [
        service(1, 3, "1800", characteristic(2, 0x02, "2a00")),
        service(4, 7, "fff0", characteristic(5, 0x3E, "fff1", "2902")),
        service(8, 12, WIDE, include(9, 4, 7, "fff0"), characteristic(10, 0x02, WIDE_VALUE, WIDE_DESCRIPTOR)),
    ],
}

TOLD = [
    service(1, 4, "1801", characteristic(2, 0x20, "2a05", "2902")),
    service(5, 10, "fff0", characteristic(6, 0x12, "fff2", "2902"), characteristic(9, 0x0A, "fff4")),
]


def spaced(octets):
    return bytes.fromhex(octets).hex(" ") + " "


def value(octets):
    return f"Read value ({len(octets) // 2} bytes): {spaced(octets)}"


def several(octets):
    return f"Read multiple value ({len(octets) // 2} bytes):{spaced(octets)}"


def decimal(octets):
    return " ".join(str(it) for it in bytes.fromhex(octets))


WRITTEN = "Write successful"
WHY = {
    0x01: "Invalid Handle (0x01)",
    0x02: "Read Not Permitted (0x02)",
    0x03: "Write Not Permitted (0x03)",
    0x05: "Authentication Required (0x05)",
    0x07: "Invalid Offset (0x07)",
    0x08: "Authorization Required (0x08)",
    0x0C: "Insuficient Encryption Key Size (0x0c)",
    0x0D: "Invalid Attribute value len (0x0d)",
    0xFF: "Out of Range (0xff)",
}


def unread(code):
    return f"Read request failed: {WHY[code]}"


def unwritten(code):
    return f"Write failed: {WHY[code]}"


LONG = "000102030405060708090a0b0c0d0e0f101112131415161718191a1b1c1d1e1f202122232425262728292a2b2c2d2e2f3031"
LETTER = bytes(it * 7 % 251 for it in range(240)).hex()

# Table, keys, phone, options; and each line with what it brings. {} is the session that stands.
CASES = [
    (DOOR, KEYS, "stranger", "", [
        ("read-value 3", value("4c6f636b")),
        ("read-value 21", "Read value: 0 bytes"),
        # It takes the refusal as a reason to encrypt, which a phone without a key cannot.
        ("read-value 10", unread(0x05)),
        ("read-value 17", unread(0x05)),
        ("read-value 22", unread(0x01)),
        ("read-long-value 3 1", value("6f636b")),
        ("read-long-value 3 4", "Read value: 0 bytes"),
        ("read-long-value 3 5", unread(0x07)),
        ("read-multiple 3 6", several("4c6f636b64")),
        ("read-multiple 3 10", "Read multiple request failed: 0x05"),
        ("write-value 3 1", unwritten(0x03)),
        ("write-value 10 1", unwritten(0x05)),
        ("write-value 22 1", unwritten(0x01)),
        ("write-value 7 2 0", unwritten(0xFF)),
        ("write-value 7 1", unwritten(0x0D)),
        ("write-value 7 1 0", WRITTEN),
        ("read-value 7", value("0100")),
        ("write-value 21 104 105", WRITTEN),
        ("read-value 21", value("6869")),
        ("write-value -w 21 111 107", "Write command sent"),
        ("read-value 21", value("6f6b")),
        (f"write-long-value 21 0 {decimal(LETTER)}", WRITTEN),
        ("read-long-value 21 0", value(LETTER)),
        ("read-long-value 21 100", value(LETTER[200:])),
        (f"write-long-value -r 21 0 {decimal(LONG)}", WRITTEN),
        ("read-long-value 21 0", value(LONG)),
        ("write-long-value 21 51 1", unwritten(0x07)),
        ("write-long-value 13 0 1 2 3", unwritten(0x05)),
        ("write-prepare 21 0 1 2", WRITTEN),
        ("write-prepare -s {} 21 2 3 4", WRITTEN),
        ("read-long-value 21 0", value(LONG)),
        ("write-execute {} 1", WRITTEN),
        ("read-value 21", value("01020304")),
        ("write-prepare 21 0 9 9", WRITTEN),
        ("write-execute {} 0", None),
        ("read-value 21", value("01020304")),
        ("get-security", "Security level: 1"),
        ("set-security 2", "Could not set sec level"),
    ]),
    (DOOR, KEYS, "owner", "", [
        # The refusal tells that encryption helps: it encrypts by itself, and asks again.
        ("read-value 10", value("00")),
        ("get-security", "Security level: 2"),
        ("read-value 17", value("02")),
        ("write-value 10 1", unwritten(0x05)),
        ("write-value 11 1 0", WRITTEN),
        ("read-value 13", unread(0x05)),
    ]),
    (DOOR, KEYS, "tablet", "-s high", [
        ("write-value 10 1", WRITTEN),
        ("read-value 10", value("01")),
        ("write-value 10 1 1", unwritten(0x0D)),
        ("read-value 13", unread(0x08)),
    ]),
    (DOOR, SECURE_KEY, "secure", "-s fips", [
        ("get-security", "Security level: 4"),
        ("write-value 10 1", WRITTEN),
        ("read-value 10", value("01")),
        ("read-value 13", unread(0x08)),
    ]),
    (SERVER, KEYS, "stranger", "-m 100", [
        ("read-value 15", value(LONG)),
        ("read-value 17", unread(0x02)),
        ("read-value 21", unread(0x08)),
        ("read-value 23", unread(0x05)),
        ("write-value 19 1", unwritten(0x03)),
        ("read-value 13", value(bytes(range(0xA0, 0xBE)).hex())),
        ("read-value 34", value("99")),
        ("read-multiple 37 11", several("33441122")),
        ("write-value 11 1 2 3 4 5", unwritten(0x0D)),
        ("write-value 11 1 2 3 4", WRITTEN),
        ("read-value 11", value("01020304")),
        (f"write-value 15 {decimal(LETTER[:120])}", WRITTEN),
        ("read-value 15", value(LETTER[:120])),
        (f"write-value 15 {decimal(LETTER[:122])}", unwritten(0x0D)),
    ]),
    (SERVER, KEYS, "small", "-s high", [("read-value 23", value("55")), ("read-value 25", unread(0x0C)), ("write-value 25 1", unwritten(0x0C))]),
    (BELL, KEYS, "stranger", "", [("read-value 3", value("00")), ("read-value 6", unread(0x02)), ("write-value 7 2 0", WRITTEN)]),
    (POST, KEYS, "tablet", "-s high", [("read-value 3", unread(0x08))]),
    (PORCH, KEYS, "owner", "-m 517", [("write-value 10 7 8", WRITTEN), ("read-value 10", value("0708"))]),
    (TAP, KEYS, "stranger", "", [("read-value 12", value("7461")), ("write-value 12 116 97 112 115", WRITTEN), ("read-value 12", value("74617073"))]),
]

# Who registers at which value and what the other one writes there; and what is heard.
HEARD = [
    (DOOR, "owner", "-s medium", 10, "tablet", "-s high", "write-value 10 1", "Handle Value Not/Ind: 0x000a - (1 bytes): 01 "),
    (TAP, "stranger", "", 6, "owner", "", "write-value 6 1 2 3", "Handle Value Not/Ind: 0x0006 - (3 bytes): 01 02 03 "),
    (TAP, "stranger", "-m 100", 6, "owner", "-m 100", f"write-value 6 {decimal(LETTER[:80])}", f"Handle Value Not/Ind: 0x0006 - (40 bytes): {spaced(LETTER[:80])}"),
]


def plain(printed):
    return re.sub(r"\x1b\[[0-9;]*m", "", printed)


def listed(printed):
    """Returns the services that are printed, each as its lines."""
    lines = [it.strip() for it in plain(printed).split("\n")]
    found = []
    for line in lines:
        if line.startswith("service - "):
            found.append(line)
        elif found and line.startswith(("include - ", "charac - ", "descr - ")):
            found[-1] += "\n" + line
    return found


def compiled_client(room):
    """Returns the client: the one that is installed, or one that is compiled into a folder, or None."""
    if shutil.which("btgatt-client"):
        return shutil.which("btgatt-client")
    if not os.path.exists(SOURCE):
        return None
    subprocess.run(["tar", "-xjf", SOURCE, "-C", room], check=True)
    options = ["-O1", "-w", "-I.", "-Ilib", "-DHAVE_CONFIG_H", "-o", f"{room}/btgatt-client"]
    subprocess.run(["cc", *options, *FILES], cwd=f"{room}/bluez-source", check=True)
    return f"{room}/btgatt-client"


def main():
    program, recordings = sys.argv[1:3]
    part = Part()
    with tempfile.TemporaryDirectory() as room:
        preload = compiled_socket(room)
        client = compiled_client(room)
        if client is None:
            part.skip("btgatt-client", "it wants the Debian package bluez-source")
            part.end()
        call = [client, "-d", "00:00:00:00:00:99"]

        def opened(table, keys, name, rows=None):
            return Kernel(program, room, preload, table, keys, PHONES, f"{recordings}/btgatt_{name}.btsnoop", rows)

        def begun(kernel, name, options):
            """Starts a client, and returns it with what it prints until it has discovered all."""
            session = Session(kernel, name, call + options.split())
            return session, session.until("GATT discovery procedures complete")

        def closed(kernel, name):
            part.check(f"{name}: what the controller is given", kernel.controller.faults, [])
            part.check(f"{name}: the program's end", kernel.close(), (0, ""))

        for number, (table, keys, phone, options, lines) in enumerate(CASES):
            kernel = opened(table, keys, f"cases_{number}")
            client_session, _ = begun(kernel, phone, options)
            session_number = ""
            found = client_session.say("get-security", "Security level:")
            part.check(f"{table}: what {phone} discovers", listed(found), SERVICES[table])
            for line, wanted in lines:
                line = line.replace("{}", session_number)
                printed = plain(client_session.say(line, wanted, 4)) if wanted else client_session.say(line, "nothing", 0.2)
                session_number = (re.findall(r"Session id: (\d+)", printed) or [session_number])[-1]
                if wanted:
                    part.check(f"{table}: {phone}: {line[:60]}", printed.endswith(wanted) or printed, True)
            client_session.close()
            closed(kernel, table)
            if table == TAP:
                with open(f"{HERE}/cases/linux_tap.script", encoding="utf-8") as file:
                    script = [it.split()[2] for it in file.read().splitlines() if it.startswith("L <")]
                asked = [it[3].hex() for it in recorded_frames(f"{recordings}/btgatt_cases_{number}.btsnoop") if it[1]]
                part.check("cases/linux_tap.script has the order of this client", script, asked)
            if "-m" in options:
                mtu = int(options.split()[-1])
                asked = b"\x02" + mtu.to_bytes(2, "little")
                frames = [it for it in recorded_frames(f"{recordings}/btgatt_cases_{number}.btsnoop") if it[2] == ATT]
                part.check(f"{table}: what the client tells and is told it can receive", [it[3].hex() for it in frames[:2]], [asked.hex(), "03f700"])
                longest = max(len(it[3]) for it in frames)
                part.check(f"{table}: no PDU is longer than the smaller of both", longest <= min(mtu, 247), True)

        for number, (table, listener, options, handle, writer, writing, line, wanted) in enumerate(HEARD):
            kernel = opened(table, KEYS, f"heard_{number}")
            hearing, _ = begun(kernel, listener, options)
            hearing.say(f"register-notify {handle}", "Registered notify handler!")
            acting, _ = begun(kernel, writer, writing)
            acting.say(line, WRITTEN)
            part.check(f"{table}: {listener} hears", plain(hearing.until("Not/Ind:")).strip("\n\t").endswith(wanted), True)
            hearing.say("unregister-notify 1", "Unregistered notify handler")
            acting.close()
            hearing.close()
            closed(kernel, table)

        # A peer that is owed the news of a changed table comes back to a program that has begun anew,
        # with a table file whose Service Changed says that all handles are affected.
        with open(f"{ROOT}/examples/porch_next.toml", encoding="utf-8") as file:
            text = file.read().replace('"00000000"', '"0100ffff"')
        table, rows = f"{room}/porch_told.toml", f"{room}/porch.rows"
        for path, content in ((table, text), (rows, "1 c0:00:00:00:00:01 4 2\n! 1 c0:00:00:00:00:01\n")):
            with open(path, "w", encoding="utf-8") as file:
                file.write(content)
        kernel = opened(table, KEYS, "owed", rows)
        session, _ = begun(kernel, "owner", "")
        session.say("get-security", "Security level:")
        told = "Service Changed handled - start: 0x0001 end: 0xffff"
        printed = plain(session.say("set-security 2", told))
        part.check("porch_told.toml: what is owed", printed.endswith(told) or printed, True)
        part.check("porch_told.toml: what it discovers anew", listed(session.say("get-security", "Security level: 2")), TOLD)
        session.close()
        closed(kernel, "porch_told.toml")
        with open(rows, encoding="utf-8") as file:
            part.check("porch_told.toml: what is owed once that is confirmed", file.read(), "1 c0:00:00:00:00:01 4 2\n")
    part.end()


if __name__ == "__main__":
    main()
