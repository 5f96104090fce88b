"""Tries controllers that do not read what `gatt_shell host` sends, for a while or any more."""

import socket
import threading
import time

import pytest

from parties import DOOR, Application, Controller, Device, SerialLine, controller_at, late, soon
from parties.doors import LISTEN, LONG, NAME, NAME_READ, visitor
from parties.watching import is_idle, memory

STALLED = "controller given up: it takes no octets"
TOO_MUCH = "controller given up: too many octets wait for it"


class Quiet:
    """A controller that is never read."""

    def __init__(self, stream):
        self.stream = stream
        self.is_over = False

    def read_blob(self, handle, offset):
        """A phone reads the long value from an offset on, and the controller says that the answer is sent."""
        pdu = b"\x0c" + LONG.to_bytes(2, "little") + offset.to_bytes(2, "little")
        frame = len(pdu).to_bytes(2, "little") + b"\4\0" + pdu
        head = (0x2000 | handle).to_bytes(2, "little") + len(frame).to_bytes(2, "little")
        done = b"\4\x13\5\1" + handle.to_bytes(2, "little") + b"\1\0"
        self.stream.sendall(b"\2" + head + frame + done)

    def sends(self, count):
        """A phone reads so often, unless the controller is given up before."""
        try:
            for _ in range(count):
                if self.is_over:
                    break
                self.read_blob(64, 0)
        except OSError:
            pass


def slow_socket(_folder, words):
    """A device, and a connection of a controller of which little is sent at once."""
    device = Device(*DOOR, *LISTEN, *words)
    stream = socket.socket()
    stream.setsockopt(socket.SOL_SOCKET, socket.SO_RCVBUF, 4096)
    stream.setsockopt(socket.IPPROTO_TCP, socket.TCP_MAXSEG, 536)
    stream.setsockopt(socket.IPPROTO_TCP, socket.TCP_NODELAY, 1)
    stream.connect(device.port())
    return device, stream


def slow_line(folder, words):
    """A device, and a serial line, which takes little at once."""
    line = SerialLine(f"{folder}/slow")
    device = Device(*DOOR, "--serial", line.path, *words)
    device.said("ready")
    return device, line


BY_EACH = pytest.mark.parametrize("begin", [slow_socket, slow_line], ids=["socket", "line"])


def slow(folder, begin, patience, value):
    """A device, its application and its slow controller, with a phone that may read a long value at once."""
    path = f"{folder}/socket"
    device, stream = begin(folder, ["--patience", str(patience), "--application", path])
    application, controller = Application(path, "application"), Controller(stream)
    assert application.lines(2) == ["+ waiting", "ok"], "none yet"
    assert controller.is_advertised(), "it is initialised"
    assert application.line() == "+ serving", "served"
    visitor(application, controller)
    assert application.ask(f"update {LONG} {value.hex()}") == "ok", "a value"
    assert controller.ask(64, "02f700") == "03f700", "an MTU"
    return device, application, controller


@BY_EACH
def test_a_reader_who_pauses(folder, begin):
    """A controller that reads nothing for a while: all arrives, in order, nothing lost or twice."""
    value, count = bytes(it % 251 for it in range(512)), 3_000
    device, application, controller = slow(folder, begin, 60, value)
    quiet = Quiet(controller.stream)
    for at in range(count):
        quiet.read_blob(64, at % 251)
    assert application.ask("value 10") == "value 10 00", "an application is answered"
    # A busy machine needs a while for as many requests, and less than the device's patience.
    is_idle("one that reads nothing", device, grace=20)
    controller.take = lambda packet: controller.heard.append((64, packet[9:].hex()))
    controller.until(lambda: len(controller.heard) >= count, 60)
    firsts = [int(it[1][2:4], 16) for it in controller.heard]
    assert len(firsts) == count, "as many answers"
    assert firsts == [it % 251 for it in range(count)], "in order"
    assert {len(it[1]) for it in controller.heard} == {494}, "each whole"
    del controller.take
    controller.heard.clear()
    assert controller.ask(64, NAME_READ) == NAME, "served further"
    is_idle("at rest", device)
    device.end()
    controller.close()


@BY_EACH
def test_a_reader_who_stops(folder, begin):
    """A controller that reads nothing any more is given up; applications are answered meanwhile."""
    device, application, controller = slow(folder, begin, 8, bytes(512))
    quiet, begun, slowest = Quiet(controller.stream), time.monotonic(), 0
    writer = threading.Thread(target=quiet.sends, args=(3_000,), daemon=True)
    writer.start()
    while not device.logged(STALLED) and time.monotonic() < begun + late(20):
        since = time.monotonic()
        answer = application.ask("value 10")
        if answer != "value 10 00":
            # The phone's end comes first.
            if answer[:14] == "+ disconnected":
                answer = application.line()
            assert answer == "+ waiting", "told"
            break
        slowest = max(slowest, time.monotonic() - since)
        time.sleep(0.05)
    device.said(STALLED)
    assert 7.8 < time.monotonic() - begun < late(20), "given up in time"
    # A device that waits for the controller waits for eight seconds.
    assert slowest < late(4), "an application waits for less than four seconds"
    controller.close()
    if begin is slow_socket:
        real = controller_at(device)
        assert real.is_advertised(), "the next one is served"
        real.close()
    device.end()
    writer.join(5)


def test_a_reader_for_whom_too_much_waits(folder):
    """A controller that reads nothing has a bounded number of octets wait, however patient the device is."""
    device, application, controller = slow(folder, slow_line, 300, bytes(512))
    before, quiet = memory(device), Quiet(controller.stream)
    writer = threading.Thread(target=quiet.sends, args=(100_000,), daemon=True)
    writer.start()
    assert soon(lambda: device.logged(TOO_MUCH), 120), "it is given up"
    quiet.is_over = True
    assert application.up_to("+ waiting")[-1] == "+ waiting", "it is told"
    assert memory(device) - before < 8_192, "less than 8 MiB of memory"
    application.say("value 10")
    line = application.line()
    while line and line.startswith("+ stopped: "):
        # The line goes on in the middle of a packet.
        line = application.line()
    assert line == "value 10 00", "an application is answered"
    writer.join(5)
    is_idle("what waits for it", device)
    device.end()
    controller.close()
