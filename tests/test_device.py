"""Plays a day of a device: controllers with phones, and applications, against `gatt_shell host`."""

import os
import shutil
import signal
import socket
import subprocess
import time

import pytest

from parties import (
    BELL, DISCONNECT, DOOR, OWNER, PATIENCE, STRANGER, Application, Controller, Device, captured, controller_at,
    is_one_packet, late, soon, text_of,
)


def is_captured(path, since, went, came):
    """A capture has the packets that were exchanged, each way in their order."""

    def joined(is_from_controller):
        return b"".join(it[2] for it in captured(path) or [] if it[0] % 2 == is_from_controller)

    soon(lambda: (joined(0), joined(1)) == (went, came))
    records = captured(path)
    assert joined(0).hex() == went.hex(), "to the controller"
    assert joined(1).hex() == came.hex(), "from the controller"
    assert [it[2].hex() for it in records if not is_one_packet(it[2])] == [], "one packet a record"
    assert [it for it in records if it[0] // 2 != (it[2][0] in (1, 4))] == [], "its kind"
    times = [since * 1e6, *(it[1] for it in records), time.time() * 1e6]
    assert times == sorted(times), "its time"


def is_read_by_tshark(path):
    """tshark reads each packet of a capture, and complains of nothing."""
    words = ["tshark", "-r", path, "-T", "fields", "-e", "frame.len", "-e", "_ws.malformed"]
    ran = subprocess.run(words, capture_output=True, text=True, timeout=300)
    # What is told of its user is none of the capture's.
    told = [it for it in ran.stderr.splitlines() if it and not it.startswith("Running as user")]
    assert (ran.returncode, told) == (0, []), "tshark complains of nothing"
    lengths = [line.split("\t") for line in ran.stdout.splitlines()]
    assert lengths == [[str(len(it[2])), ""] for it in captured(path)], "tshark reads it"


def play_a_day(folder):
    """Phones, an application, and both of them gone and back: the capture of it."""
    path, rows, capture = f"{folder}/day.socket", f"{folder}/day.rows", f"{folder}/day.btsnoop"
    since, before = time.time(), len(Controller.made)
    device = Device(
        *DOOR, "--listen", "127.0.0.1:0", "--application", path, "--rows", rows, "--capture", capture
    )
    address = device.port()
    assert os.stat(path).st_mode & 0o777 == 0o600, "the socket is its owner's"
    one = Application(path)
    assert one.line() == "+ waiting", "no controller"
    assert one.ask("value 10") == "value 10 00", "a value"
    assert one.ask("update 10 00") == "ok", "an update"
    assert one.ask("update 99 00") == "fault 1: there is no attribute with the handle", "no handle"
    assert one.ask("value 99") == "fault 1: there is no attribute with the handle", "no value"
    assert one.ask("allow 64 1000") == "fault 4: no connection with the handle serves", "nobody"
    assert one.ask("connections") == "ok", "nobody is connected"
    assert one.ask("open the door") == 'bad: "open" is no command', "no words"
    probe = socket.create_connection(address, PATIENCE)
    assert device.said("controller") == "", "a probe"
    probe.close()
    assert device.said("controller gone") is not None, "it closes"

    controller = controller_at(device)
    assert controller.is_advertised(), "it is initialised"
    assert one.line() == "+ serving", "a controller"
    controller.connect(64, STRANGER)
    assert one.line() == "+ connected 1 1 c0:00:00:00:00:0a", "a stranger"
    controller.connect(65, OWNER)
    assert one.line() == "+ connected 2 0 00:11:22:33:44:55", "the owner"
    assert controller.encrypt(65), "the owner's key"
    assert one.line() == "+ secured 2 16 1 0", "is told"
    assert controller.ask(64, "120a0001") == "01120a0005", "the stranger may not open"
    assert controller.ask(65, "120a0001") == "13", "the owner opens"
    assert one.line() == "+ written 2 10 01", "the motor hears"
    assert device.said("+ written") == " 2 10 octets: 1", "the log has no octets"
    logged = [device.said("+ connected", count) for count in (1, 2)]
    handles = [" 1 1 c0:00:00:00:00:0a handle 64", " 2 0 00:11:22:33:44:55 handle 65"]
    assert logged == handles, "the log has handles"
    assert text_of(rows) == "", "no rows yet"
    assert controller.ask(65, "1207000100") == "13", "the owner subscribes"
    assert text_of(rows) == "0 00:11:22:33:44:55 7 1\n", "it is on the disk"
    assert one.line() == "+ configured 2 7 1", "and told"
    assert one.ask("update 6 32") == "ok", "the battery"
    assert controller.hears(65) == "1b060032", "the owner hears"
    assert controller.ask(65, "0a0d00") == "010a0d0008", "the code is kept"
    # A while counts from now, and not from the start of the device.
    time.sleep(max(0, since + 3.2 - time.time()))
    assert one.ask("allow 2 3000") == "ok", "for a while"
    assert controller.ask(65, "0a0d00") == "0b31323334", "the code"
    time.sleep(3.2)
    assert controller.ask(65, "0a0d00") == "010a0d0008", "the while is over"
    assert one.ask("allow 2") == "ok", "for good"
    assert controller.ask(65, "0a0d00") == "0b31323334", "the code again"
    assert one.ask("deny 2") == "ok", "no more"
    assert controller.ask(65, "0a0d00") == "010a0d0008", "denied"
    assert one.ask("disconnect 1") == "ok", "the stranger goes"
    assert one.line() == "+ ending 1 13", "ended"
    controller.command(DISCONNECT)
    assert one.line() == "+ disconnected 1", "gone"

    two = Application(path)
    stands = ["+ serving", "+ connected 2 0 00:11:22:33:44:55", "+ secured 2 16 1 0"]
    assert two.lines(4) == [*stands, "+ subscribed 2 7 1"], "another application"
    assert two.line() == "+ missed 10 01", "the first one may not have read this"
    assert one.lines(2) == ["+ replaced", "END"], "in place of the first"
    assert [two.ask("connections")] + two.lines(2) == stands[1:] + ["ok"], "who is connected"
    two.close()
    assert controller.ask(65, "0a0a00") == "0b01", "none is needed"

    controller.close()
    device.said("controller gone", 2)
    three = Application(path)
    assert three.line() == "+ waiting", "no controller again"
    assert three.ask("value 10") == "value 10 01", "the value is kept"
    controller = controller_at(device)
    assert controller.is_advertised(), "it is initialised too"
    assert three.line() == "+ serving", "another controller"
    controller.connect(70, OWNER)
    assert three.line() == "+ connected 3 0 00:11:22:33:44:55", "the owner is back"
    assert controller.encrypt(70), "with the key"
    assert three.lines(2) == ["+ secured 3 16 1 0", "+ subscribed 3 7 1"], "as before"
    assert three.ask("update 6 31") == "ok", "what was subscribed"
    assert controller.hears(70) == "1b060031", "is heard"

    garbage = b"\7" * 9
    controller.send(garbage)
    stopped = "+ stopped: the octet 07 begins no packet"
    assert three.lines(3) == [stopped, "+ disconnected 3", "+ waiting"], "garbage"
    assert controller.until(lambda: controller.is_gone), "the stream is closed"
    controller.close()
    controller = controller_at(device)
    assert controller.is_advertised(), "it advertises"
    assert three.line() == "+ serving", "and serves on"
    other = controller_at(device)
    controller.close()
    controller = other
    assert controller.is_advertised(), "one that waited already is initialised"
    assert three.lines(2) == ["+ waiting", "+ serving"], "which is told"
    three.say("x" * 1_101)
    assert three.lines(2) == ["bad: the line is too long", "END"], "too long"
    three.close()

    four = Application(path)
    assert four.line() == "+ serving", "one that never reads"
    flood = b"value 21\n" * 100
    four.stream.settimeout(PATIENCE)
    with pytest.raises(OSError):
        for _ in range(20_000):
            four.stream.sendall(flood)
    assert device.said("application cut off") == ": it does not read", "is cut off"
    controller.connect(71, STRANGER)
    assert controller.ask(71, "0a0300") == "0b4c6f636b", "phones are served"
    four.close()
    day = Controller.made[before:]
    # The probe was sent a Reset; and what begins no packet is no packet.
    went = bytes.fromhex("01030c00") + b"".join(it.received for it in day)
    came = b"".join(it.sent for it in day).replace(garbage, b"")
    is_captured(capture, since, went, came)
    assert os.stat(capture).st_mode & 0o777 == 0o600, "the capture is its owner's"
    device.said("capture: no packet")
    assert device.end(signal.SIGTERM) == -signal.SIGTERM, "SIGTERM"
    assert text_of(rows) == "0 00:11:22:33:44:55 7 1\n", "the rows are whole"
    controller.close()
    return capture


@pytest.mark.long(15)
def test_a_day(folder):
    """A day of a device, whose capture has what was exchanged."""
    play_a_day(folder)


def test_a_day_by_tshark(folder):
    """tshark reads the capture of a day."""
    if shutil.which("tshark") is None:
        pytest.skip("there is no tshark here")
    is_read_by_tshark(play_a_day(folder))


@pytest.mark.long(31)
def test_a_late_indication(folder):
    """An indication that is never confirmed is late after 30 seconds, of which the device was stopped for 8."""
    path = f"{folder}/bell.socket"
    device = Device(*BELL, "--listen", "127.0.0.1:0", "--application", path)
    controller = controller_at(device)
    controller.is_advertised()
    bell = Application(path)
    bell.line()
    controller.connect(64, STRANGER)
    bell.line()
    assert controller.ask(64, "1204000200") == "13", "indications"
    assert bell.line() == "+ configured 1 4 2", "are configured"
    assert bell.ask("update 3 01") == "ok", "the bell"
    assert controller.hears(64) == "1d030001", "is indicated"
    begun = time.monotonic()
    device.process.send_signal(signal.SIGSTOP)
    time.sleep(8)
    device.process.send_signal(signal.SIGCONT)
    assert bell.line(40) == "+ timed-out 1", "it is late"
    assert 29 < time.monotonic() - begun < late(35), "after 30 seconds, whatever the device did in them"
    assert bell.ask("update 3 02") == "ok", "nothing more"
    assert controller.hears(64, 0.5) is None, "is told"


@pytest.mark.long(10)
def test_a_stranger(folder):
    """Silent strangers are sent away; phones with a key are not."""
    path = f"{folder}/stranger.socket"
    device = Device(*DOOR, "--listen", "127.0.0.1:0", "--application", path, "--idle", "3")
    controller = controller_at(device)
    controller.is_advertised()
    application = Application(path)
    application.line()
    controller.connect(64, STRANGER)
    controller.connect(65, OWNER)
    application.lines(2)
    controller.encrypt(65)
    application.line()
    begun = time.monotonic()
    for _ in range(3):
        time.sleep(1)
        controller.ask(64, "0a0300")
    assert application.line() == "+ ending 1 13", "silent"
    assert time.monotonic() - begun > 5.8, "for three seconds"
    controller.command(DISCONNECT)
    assert application.line() == "+ disconnected 1", "gone"
    assert application.line(3.5) is None, "the owner stays"
