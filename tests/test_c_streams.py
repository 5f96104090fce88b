"""Gives what controllers sent to a host in C, and compares what it sends back with what hosts sent.

The streams are those of interop/recordings/. The same goes to `gatt_shell serve`, and changed streams too, of
which some stop the host.
"""

import random
import socket
import subprocess
import threading

import pytest
from controller import recorded

from parties.compiling import comparing, need_archive, words_of
from parties.device import Device
from parties.obeying import Host
from parties.places import PATIENCE, PROGRAM, ROOT
from parties.ports import joined

need_archive()

STREAMS = {
    "door": f"{ROOT}/examples/door.toml",
    "door_heard": f"{ROOT}/examples/door.toml",
    "server": f"{ROOT}/examples/conformance/server.toml",
    "server_said": f"{ROOT}/examples/conformance/server.toml",
    "tap": f"{ROOT}/interop/tap.toml",
    "tap_heard": f"{ROOT}/interop/tap.toml",
    "porch": f"{ROOT}/examples/porch.toml",
}
# That host had a rows file, by which a phone was owed something.
WITH_ROWS = {"porch"}
KEYS = f"{ROOT}/examples/keys.toml"
CHANGES = 6


def changed(packets, chance):
    """Returns the packets with one left out, repeated, exchanged with the next, cut, or changed."""
    packets = list(packets)
    at = chance.randrange(len(packets) - 1)
    kind = chance.randrange(5)
    if kind == 0:
        del packets[at]
    elif kind == 1:
        packets.insert(at, packets[at])
    elif kind == 2:
        packets[at], packets[at + 1] = packets[at + 1], packets[at]
    elif kind == 3:
        packets[at] = packets[at][: chance.randrange(len(packets[at]))]
    else:
        octets = bytearray(packets[at])
        octets[chance.randrange(len(octets))] = chance.randrange(256)
        packets[at] = bytes(octets)
    return packets


@pytest.fixture(params=comparing())
def obey(request):
    """The words that start a host in C."""
    return words_of(request.param, "obey")


def packets_of(stream):
    """What the controller of a recording sent, and the octets that its host sent."""
    passed = recorded(f"{ROOT}/interop/recordings/{stream}.btsnoop")
    answers = b"".join(it for it, is_from_controller in passed if not is_from_controller)
    return [it for it, is_from_controller in passed if is_from_controller], answers


def by_program(table, octets):
    """Returns what the program sends, and how it ends: its status and what it prints of a fault."""
    words = [PROGRAM, "serve", table, KEYS, "127.0.0.1:0"]
    serving = subprocess.Popen(words, stdin=subprocess.DEVNULL, stderr=subprocess.PIPE)
    Device.started.append(serving)
    stream = joined(serving)
    sent = b""

    def give():
        try:
            stream.sendall(octets)
            stream.shutdown(socket.SHUT_WR)
        except OSError:
            pass

    giving = threading.Thread(target=give)
    giving.start()
    try:
        while part := stream.recv(1 << 16):
            sent += part
    except ConnectionError:
        pass
    giving.join()
    told = serving.communicate(timeout=PATIENCE)[1].decode()
    stream.close()
    return sent, (serving.returncode, told)


def by_c(obey, table, octets, piece):
    """Returns the same of the host in C, given in pieces, and the notices."""
    host = Host(obey, table, KEYS)
    for at in range(0, len(octets), piece):
        host.take(octets[at : at + piece])
        if host.status:
            break
    stopped = f"host: fault {host.status - 20}\n" if host.status else ""
    host.close()
    return b"".join(host.sent), (2 if stopped else 0, stopped), host.notices


def compare(obey, table, octets):
    """Compares the host in C with the program, and with itself if it has the octets in pieces."""
    wanted, ended = by_program(table, octets)
    first = sent, ended_in_c, _ = by_c(obey, table, octets, 4096)
    assert ended_in_c == ended, "how it ends in C, and by the program"
    # A program that stops leaves octets unread, and then the system may drop what it sent last.
    is_same = sent == wanted or ended[0] != 0 and sent.startswith(wanted)
    assert is_same, f"{len(sent)} octets in C, and {len(wanted)} by the program"
    for piece in (1, 100):
        assert by_c(obey, table, octets, piece) == first, f"in pieces of {piece}"


@pytest.mark.parametrize("stream", [it for it in STREAMS if it not in WITH_ROWS])
def test_recorded(obey, stream):
    """A recorded stream is answered in C as it was when it was recorded."""
    packets, answers = packets_of(stream)
    assert by_c(obey, STREAMS[stream], b"".join(packets), 4096)[0] == answers, "the answers"


@pytest.mark.parametrize("stream", STREAMS)
def test_recorded_by_the_program(obey, stream):
    """A recorded stream is answered in C as by the program."""
    compare(obey, STREAMS[stream], b"".join(packets_of(stream)[0]))


@pytest.mark.parametrize("number", range(CHANGES))
@pytest.mark.parametrize("stream", STREAMS)
def test_changed(obey, stream, number):
    """A changed stream is answered in C as by the program."""
    packets = changed(packets_of(stream)[0], random.Random(f"{stream} {number}"))
    compare(obey, STREAMS[stream], b"".join(packets))
