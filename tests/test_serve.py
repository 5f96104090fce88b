"""Tries `gatt_shell serve`: each octet of a controller and of the host, faults, and the rows that it saves.

The file cases/octets.txt has exchanges of octets. Each is played whole, and up to each line that the host answers.
"""

import re
import socket
import subprocess

import pytest

from parties.places import PATIENCE, ROOT, text_of, write_text
from parties.ports import joined

# A controller that is initialised, and what the host sends to it. Then a phone connects.
TOLD = """
    040e0401030c00 040e0401010c00 040e0401012000 040e07010220001b0004 040e0401062000 040e0401082000
    040e04010a2000 043e130100400001010a00000000c018000000480000
"""
WRITTEN = """
    01030c00 01010c08ffffffffff9f0020 010120081f00000000000000 01022000 0106200fa000a0000000000000000000000700
    010820200302010600000000000000000000000000000000000000000000000000000000 010a200101 010a200101
"""
# Four more phones connect, of which three fit. The third one exchanges the MTU, and the first phone reads a value.
TOLD_THEN = """
    040e04010a2000 043e130100410001010b00000000c018000000480000
    040e04010a2000 043e130100420001010c00000000c018000000480000
    040e04010a2000 043e130100430001010d00000000c018000000480000
    043e130100440001010e00000000c018000000480000
    02432007000300040002ffff 0240200700030004000a0300
"""
# The host accepts at most four connections.
WRITTEN_THEN = "010a200101 010a200101 02430007000300040003f700 0240000900050004000b4c6f636b"
# An event that the host does not know, and a phone that reads the name.
UNKNOWN = "04ffff" + 255 * "00"
ASKED, ANSWERED = "0240200700030004000a0300", "0240000900050004000b4c6f636b"
SUBSCRIBED = "1 c0:00:00:00:00:01 7 1\n"
UNORDERED = "1 C0:00:00:00:00:01 7 1\n\n0 00:11:22:33:44:55 11 1"
ORDERED = "0 00:11:22:33:44:55 11 1\n1 c0:00:00:00:00:01 7 1\n"


def octets_of(text):
    return bytes.fromhex("".join(text.split()))


@pytest.fixture
def serve(program, folder):
    """Serves the door to a controller: serve(SENT, ROWS) returns what it receives, the status, the fault and the rows.

    `sent` gets the connection, and sends and closes what it likes, and the program has no path of rows without
    `has_path`.
    """

    def served(sent, rows=SUBSCRIBED, has_path=True):
        write_text(f"{folder}/rows", rows)
        words = [program, "serve", f"{ROOT}/examples/door.toml", f"{ROOT}/examples/keys.toml", "127.0.0.1:0"]
        words += ["--rows", f"{folder}/rows"] if has_path else []
        with subprocess.Popen(words, stdout=subprocess.DEVNULL, stderr=subprocess.PIPE, text=True) as process:
            with joined(process) as stream:
                stream.settimeout(PATIENCE)
                received = sent(stream)
            _, fault = process.communicate(timeout=PATIENCE)
        return received, process.returncode, fault, text_of(f"{folder}/rows")

    return served


def sending(text):
    """Sends octets and then nothing more, and returns all that comes."""

    def send(stream):
        stream.sendall(octets_of(text))
        stream.shutdown(socket.SHUT_WR)
        return b"".join(iter(lambda: stream.recv(4_096), b""))

    return send


def test_the_first_connection(serve):
    assert serve(sending(TOLD)) == (octets_of(WRITTEN), 0, "", SUBSCRIBED)


def test_many_reads(serve):
    """220 unknown events take more than a hundred reads of 512 bytes."""
    told = TOLD + 220 * UNKNOWN + ASKED
    assert serve(sending(told)) == (octets_of(WRITTEN + ANSWERED), 0, "", SUBSCRIBED)


@pytest.mark.parametrize("has_path", [True, False], ids=["rows", "no rows"])
def test_four_phones(serve, has_path):
    """Rows are written in order. Without a path the file stays."""
    received, status, fault, rows = serve(sending(TOLD + TOLD_THEN), UNORDERED, has_path)
    assert (received, status, fault) == (octets_of(WRITTEN + WRITTEN_THEN), 0, "")
    assert rows == (ORDERED if has_path else UNORDERED)


def test_a_fault_of_the_host(serve):
    """The rows are written after a fault, too."""
    assert serve(lambda stream: stream.sendall(b"\x07"), UNORDERED)[1:] == (2, "host: fault 1\n", ORDERED)


def test_a_read_that_fails(serve):
    def go(stream):
        # The host has sent its first command, and waits: the connection is reset.
        assert stream.recv(4) == octets_of("01030c00")
        stream.setsockopt(socket.SOL_SOCKET, socket.SO_LINGER, b"\1\0\0\0\0\0\0\0")

    assert serve(go, UNORDERED)[1:] == (2, "host: fault 5\n", ORDERED)


def spelled(text):
    """Octets in hexadecimal, of which the last one is repeated: `61*3`."""
    text, _, count = text.partition("*")
    octets = octets_of(text)
    return octets + octets[-1:] * (int(count or 1) - 1)


def exchanges():
    """The cases of cases/octets.txt: the lines that a case has from another one, and its own."""
    found = {}
    text = text_of(f"{ROOT}/tests/cases/octets.txt")
    for name, body in re.findall(r"(?ms)^=== (.*?)\n(.*?)(?=^=== |\Z)", text):
        lines = [it for it in body.splitlines() if it and it[0] != "#"]
        first = found[lines.pop(0)[2:]] if lines[0][0] == "=" else []
        found[name] = first + lines
        yield pytest.param(first, lines, id=name)


def split(lines):
    """What the controller sends, what the host sends, and the fault that it ends with."""
    sent, due, fault = b"", b"", ""
    for line in lines:
        if line[0] == "<":
            sent += spelled(line[2:])
        elif line[0] == ">":
            due += spelled(line[2:])
        else:
            fault = f"host: {line}\n"
    return sent, due, fault


@pytest.mark.parametrize(("first", "lines"), exchanges())
def test_octets(serve, first, lines):
    ends = [at - 1 for at, line in enumerate(lines) if line[0] != "<" and lines[at - 1][0] == "<"]
    for end in sorted({*ends, len(lines)}):
        sent, due, fault = split(first + lines[:end])
        received = serve(sending(sent.hex()), "", has_path=False)
        assert received == (due, 2 if fault else 0, fault, ""), f"up to line {end} of the case"
