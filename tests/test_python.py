"""Tries the module of python/ with `gatt_shell host`: a phone's day, restarts, and the blocking form."""

import asyncio
import contextlib
import os
import socket
import threading
import time
import warnings

import pytest

from parties import DOOR, OWNER, PATIENCE, Device, controller_at, late, text_of
from parties.asynchronous import (
    ADDRESS, ADDRESS_OF_STRANGER, apart, door, error_of, gihandop, heard, in_loop, rest_of, timed, within,
)
from parties.places import write_text

# Each warning is an error, also one of a socket that is not closed.
pytestmark = [pytest.mark.filterwarnings("error"), pytest.mark.usefixtures("collected")]


@in_loop
async def test_at_once(folder):
    """It is the application at once: a device waits a second for one that says nothing."""
    path, took = f"{folder}/door.socket", []
    door(path)
    for _ in range(3):
        begun = time.monotonic()
        async with gihandop.Device(path):
            took.append(time.monotonic() - begun)
    assert min(took) < late(0.9), "it is the application at once"


@in_loop
async def test_a_day(folder):
    """The notices of a phone, and what is asked meanwhile."""
    path = f"{folder}/door.socket"
    host = door(path)
    async with gihandop.Device(path) as device:
        started = await heard(device, 1)
        assert started == [gihandop.Started(device.started, True)], "it is started"
        controller = await apart(controller_at, host)
        await apart(controller.is_advertised)
        assert await heard(device, 2) == [gihandop.Waiting(), gihandop.Serving()], "it serves"
        controller.connect(64, OWNER)
        assert await heard(device, 1) == [gihandop.Connected(1, 0, ADDRESS)], "a phone"
        found = await within(device.connections())
        assert found == [gihandop.Connection(1, 0, ADDRESS, None)], "is connected"
        await apart(controller.encrypt, 64)
        secured = gihandop.Secured(1, 16, True, False)
        assert await heard(device, 1) == [secured], "its link has a key"
        found = await within(device.connections())
        assert found == [gihandop.Connection(1, 0, ADDRESS, secured)], "which is told"
        assert await within(device.subscriptions(1)) == [], "no subscription"
        assert await apart(controller.ask, 64, "120a0001") == "13", "it writes"
        assert await heard(device, 1) == [gihandop.Written(1, 10, b"\1")], "the value"
        assert await apart(controller.ask, 64, "120b000100") == "13", "it subscribes"
        assert await heard(device, 1) == [gihandop.Configured(1, 11, 1)], "to it"
        assert await within(device.subscriptions(1)) == [gihandop.Subscribed(1, 11, 1)], "a subscription"
        assert await within(device.value(10)) == b"\1", "the value is asked"
        await within(device.update(10, b"\0"))
        assert await apart(controller.hears, 64) == "1b0a0000", "it is notified"
        assert await apart(controller.ask, 64, "0a0d00") == "010a0d0008", "it may not read"
        await within(device.allow(1, 60_000))
        assert await apart(controller.ask, 64, "0a0d00") == "0b31323334", "it may read"
        await within(device.deny(1))
        assert await apart(controller.ask, 64, "0a0d00") == "010a0d0008", "it may no more"
        await within(device.allow(1))
        assert await apart(controller.ask, 64, "0a0d00") == "0b31323334", "it may for good"
        await within(device.update(21, b""))
        assert await within(device.value(21)) == b"", "no bytes"
        await within(device.update(21, bytes(512)))
        assert await within(device.value(21)) == bytes(512), "many bytes"
        found = await within(device.find("180f", "2a19")), await within(device.find("fff0", "fff3", 2))
        assert found == (6, 17), "a handle"
        for ask, words, error in (
            (device.value, (99,), ("Refused", "fault 1: there is no attribute with the handle")),
            (device.allow, (7,), ("Refused", "fault 4: no connection with the handle serves")),
            (device.subscriptions, (7,), ("Refused", "fault 4: no connection with the handle serves")),
            (device.find, ("180f", "fff3"), ("Refused", "fault 1: there is no such characteristic")),
            (device.find, ("180", "fff3"), ("NotUnderstood", 'bad: "180" is no UUID')),
            (device.allow, (7, -1), ("NotUnderstood", 'bad: "-1" is no time')),
        ):
            assert await error_of(ask(*words)) == error, f"an error of {words}"
        for ask, words in ((device.find, ("180f", "2a19\nvalue 10")), (device.update, (21, bytes(600)))):
            assert (await error_of(ask(*words)))[0] == "ValueError", "no line"
        for value, words in (("1", "str: a text becomes bytes by its method encode"), (1, "int"), ([1], "list")):
            assert await error_of(device.update(21, value)) == ("TypeError", f"a value is bytes, and not {words}")
        await within(device.update(6, bytearray(b"\x63")))
        assert await within(device.value(6)) == b"\x63", "what is like bytes"
        assert await within(device.value(10)) == b"\0", "the next answer"
        await within(device.disconnect(1))
        await apart(controller.until, lambda: False, 0.2)
        assert await heard(device, 2) == [gihandop.Ending(1, 0x13), gihandop.Disconnected(1)], "it is gone"
        stopped = asyncio.ensure_future(device.stop())
        await apart(controller.until, lambda: controller.is_gone)
        await within(stopped)
        assert await apart(host.process.wait, PATIENCE) == 0, "it has ended"
        # The last notice may be lost with the connection.
        assert (await rest_of(device))[-1:] in ([], [gihandop.Waiting()]), "and the notices"
        closed = "Gone", "the connection to the device is closed"
        assert await error_of(device.value(10)) == closed, "after that"
        controller.close()


@in_loop
async def test_reload(folder):
    """It has the device read its key file again, and stays its application."""
    path, keys = f"{folder}/door.socket", write_text(f"{folder}/keys.toml", text_of(DOOR[1]))
    os.chmod(keys, 0o600)
    host = Device(DOOR[0], keys, "--listen", "127.0.0.1:0", "--application", path)
    host.said("ready")
    async with gihandop.Device(path) as device:
        await within(device.reload())
        assert host.said("keys: ") == f"the same as before: {keys}", "the same keys"
        write_text(keys, "[[key]\n")
        kind, words = await error_of(device.reload())
        assert (kind, words.startswith(f"fault 9: not read again: {keys}: ")) == ("Refused", True), "a faulty file"
        write_text(keys, "")
        await within(device.reload())
        assert host.said("keys: ", 3) == f"read again: {keys}", "no keys"
        assert await within(device.value(3)) == b"Lock", "it stays"


@in_loop
async def test_restarts(folder):
    """It waits for a device that is not there yet, and connects to each that follows."""
    path = f"{folder}/late.socket"
    device = gihandop.Device(path, retry=0.05)
    opened = asyncio.ensure_future(device.open())
    await asyncio.sleep(0.3)
    assert not opened.done(), "there is no device"
    host = await apart(door, path)
    await within(opened)
    first = (await heard(device, 2))[0]
    await within(device.update(6, b"\x5a"))
    host.end()
    assert (await error_of(device.update(6, b"\x5b")))[0] == "Gone", "it is gone"
    assert await error_of(device.value(6)) == ("Gone", "the device is not connected"), "it stays gone"
    assert (await error_of(device.connections()))[0] == "Gone", "for a look"
    assert await heard(device, 1) == [gihandop.Away()], "the iteration says that it is gone"
    assert await timed(device.__anext__()) == "TimeoutError", "once"
    host = await apart(door, path)
    second, waiting = await heard(device, 2)
    assert (second.is_new, second.number != first.number) == (True, True), "it is there again"
    assert waiting == gihandop.Waiting(), "as it is"
    assert await within(device.value(6)) == b"\x64", "it has forgotten"
    device._link.abort()
    found = await heard(device, 3)
    wanted = [gihandop.Away(), gihandop.Started(second.number, False), gihandop.Waiting()]
    assert found == wanted, "the same start"
    assert await within(device.value(6)) == b"\x64", "an answer"
    await within(device.close())
    assert await rest_of(device) == [], "the end"
    host.end()


@in_loop
async def test_no_device(folder):
    """It waits for a device as long as it is to, and not at all for a path that cannot be one."""
    path = f"{folder}/never.socket"
    assert await timed(gihandop.Device(path, retry=0.05).open()) == "TimeoutError", "it waits no longer"
    found = await error_of(gihandop.Device(path, retry=None).open())
    assert found[0] == "FileNotFoundError", "one attempt"
    found = await error_of(gihandop.Device("x" * 200).open())
    assert found == ("OSError", "AF_UNIX path too long"), "a path too long"


@in_loop
async def test_replaced(folder):
    """It does not come back after another application has replaced it."""
    path = f"{folder}/replaced.socket"
    host = door(path)
    async with gihandop.Device(path, retry=0.05) as one:
        async with gihandop.Device(path, retry=0.05) as two:
            assert (await rest_of(one))[-1:] == [gihandop.Replaced()], "the last notice"
            assert (await error_of(one.update(6, b"\1")))[0] == "WasReplaced", "no more"
            await asyncio.sleep(0.3)
            assert host.log.count("application") == 2, "it stays away"
            assert await within(two.value(6)) == b"\x64", "the other serves"


@pytest.mark.parametrize("line, notice", [
    ("+ connected 2 1 c0:00:00:00:00:0a", gihandop.Connected(2, 1, ADDRESS_OF_STRANGER)),
    ("+ disconnected 2", gihandop.Disconnected(2)),
    ("+ secured 2 7 0 1", gihandop.Secured(2, 7, False, True)),
    ("+ unsecured 2", gihandop.Unsecured(2)),
    ("+ written 2 10 -", gihandop.Written(2, 10, b"")),
    ("+ configured 2 7 3", gihandop.Configured(2, 7, 3)),
    ("+ subscribed 2 7 3", gihandop.Subscribed(2, 7, 3)),
    ("+ confirmed 2 6", gihandop.Confirmed(2, 6)),
    ("+ timed-out 2", gihandop.TimedOut(2)),
    ("+ ending 2 1f", gihandop.Ending(2, 31)),
    ("+ skipped 2 6", gihandop.Skipped(2, 6)),
    ("+ missed 10 0a0b", gihandop.Missed(10, b"\n\x0b")),
    ("+ updated 10 -", gihandop.Updated(10, b"")),
    ("+ serving", gihandop.Serving()),
    ("+ waiting", gihandop.Waiting()),
    ("+ stopped: Hardware Error: 42", gihandop.Stopped("Hardware Error: 42")),
    ("+ unsaved: door.state: No space left", gihandop.Unsaved("door.state: No space left")),
    ("+ saved", gihandop.Saved()),
    ("+ replaced", gihandop.Replaced()),
    *((it, gihandop.Unknown(it)) for it in (
        "+ ", "+ paired 1", "+ written 1", "+ written x 10 01", "+ written 1 10 0", "+ secured 1 16 2 0",
        "+ saved now",
    )),
], ids=lambda it: it[2:].replace(" ", "_") if isinstance(it, str) else type(it).__name__)
def test_forms(line, notice):
    """Each line is the notice that it says, and what is not known is kept."""
    assert gihandop.notice_of(line) == notice, line


@in_loop
async def test_by_port():
    """A device is reached by TCP too."""
    host = Device(*DOOR, "--listen", "127.0.0.1:0", "--application-port", "127.0.0.1:0")
    host.said("ready")
    name, port = host.said("listening for an application: ").rsplit(":", 1)
    async with gihandop.Device((name, int(port))) as device:
        assert await within(device.value(6)) == b"\x64", "a value"
        assert await within(device.connections()) == [], "nobody"


def test_blocking(folder):
    """The form without asyncio, by threads too."""
    path = f"{folder}/blocking.socket"
    door(path)
    with gihandop.BlockingDevice(path) as device:
        device.update(6, b"\x32")
        assert (device.value(6), device.find("fff0", "fff1")) == (b"\x32", 10), "a value"
        with pytest.raises(gihandop.Refused) as error:
            device.allow(3)
        assert error.value.number == 4, "an error"
        assert device.connections() == [], "nobody"
        notices = iter(device)
        found = [next(notices), next(notices)]
        assert found == [gihandop.Started(device.device.started, True), gihandop.Waiting()], "notices"
        seen = []
        reader = threading.Thread(target=lambda: seen.extend(device), daemon=True)
        reader.start()
        time.sleep(0.1)
    reader.join(PATIENCE)
    assert (reader.is_alive(), seen) == (False, []), "a thread that reads ends"
    with pytest.raises(gihandop.Gone) as error:
        device.value(6)
    assert str(error.value) == "the connection to the device is closed", "after its end"
    with pytest.raises(FileNotFoundError):
        gihandop.BlockingDevice(path + "x", retry=None).__enter__()


def ended(play):
    """What a function returns in a thread of its own, or the kind of its error."""
    found = []

    def run():
        try:
            found.append(play())
        except Exception as error:
            found.append(type(error).__name__)

    thread = threading.Thread(target=run, daemon=True)
    thread.start()
    thread.join(PATIENCE)
    assert found, "it hangs"
    return found[0]


def forked(play):
    """What a function returns in a process that is forked, or the kind of its error."""
    reader, writer = os.pipe()
    with warnings.catch_warnings():
        # Python 3.12 warns of threads.
        warnings.simplefilter("ignore")
        child = os.fork()
    if child == 0:
        with contextlib.suppress(BaseException):
            os.write(writer, repr(ended(play)).encode())
        os._exit(0)
    os.close(writer)
    with open(reader, encoding="ascii") as file:
        said = file.read()
    assert os.waitpid(child, 0)[1] == 0
    return said


def test_not_opened(folder):
    """A device without `with` is a device that is not there."""
    device = gihandop.BlockingDevice(f"{folder}/no.socket")
    for play in (lambda: device.value(6), lambda: next(iter(device)), device.stop):
        assert ended(play) == "Gone"
    assert ended(device.__exit__) is None
    device._loop.close()


def test_another_process(folder):
    """In a process that is forked from that of a device it is not there, and that of the device goes on."""
    path = f"{folder}/blocking.socket"
    door(path)
    with gihandop.BlockingDevice(path) as device:
        for play in (lambda: device.value(6), lambda: next(iter(device)), device.stop):
            assert forked(play) == "'Gone'"
        assert forked(device.__exit__) == "None"
        assert ended(lambda: device.value(6)) == b"\x64"


def test_threads_at_the_end(folder):
    """Threads that ask while another one ends the device get their answer, or that it is gone."""
    path = f"{folder}/blocking.socket"
    door(path)
    others = []

    def ask(device):
        try:
            while True:
                device.value(6)
        except gihandop.Gone:
            pass
        except BaseException as error:
            others.append(error)

    for _ in range(60):
        with gihandop.BlockingDevice(path) as device:
            threads = [threading.Thread(target=ask, args=(device,), daemon=True) for _ in range(6)]
            for it in threads:
                it.start()
            time.sleep(0.01)
        for it in threads:
            it.join(PATIENCE)
        assert [it.is_alive() for it in threads] == [False] * 6, "each thread ends"
    assert others == [], "no other error"


@in_loop
async def test_a_host_of_two_addresses(folder, monkeypatch, caplog):
    """A device at `localhost` is tried again, also if localhost is two addresses. After a second it says so, once."""
    host, port = "localhost", 1
    both = [(socket.AF_INET6, "::1", (0, 0)), (socket.AF_INET, "127.0.0.1", ())]

    def addresses(name, number, *_others, **_named):
        return [(family, socket.SOCK_STREAM, 6, "", (address, number, *rest)) for family, address, rest in both]

    monkeypatch.setattr(socket, "getaddrinfo", addresses)
    device = gihandop.Device((host, port), retry=0.05)
    with pytest.raises(asyncio.TimeoutError):
        await asyncio.wait_for(device.open(), 1.5)
    await device.close()
    (line,) = [it.getMessage() for it in caplog.records if it.name == "gihandop"]
    assert line.startswith("waiting for the device at ('localhost', 1): "), "what it waits for"


@in_loop
async def test_a_flood_of_writes(folder):
    """A phone writes as fast as it can: each write is told, and each answer is found."""
    path = f"{folder}/door.socket"
    host = door(path)
    async with gihandop.Device(path) as device:
        controller = await apart(controller_at, host)
        await apart(controller.is_advertised)
        controller.connect(64, OWNER)
        await apart(controller.encrypt, 64)
        writing = asyncio.ensure_future(
            apart(lambda: [controller.ask(64, f"120a00{at % 2:02x}") for at in range(300)])
        )
        for at in range(300):
            await within(device.update(21, at.to_bytes(2, "big")))
            assert await within(device.value(21)) == at.to_bytes(2, "big"), "the value in a flood"
            if at % 50 == 0:
                assert len(await within(device.connections())) == 1, "who is connected"
        assert await within(writing) == ["13"] * 300, "all are written"
        written = []
        while len(written) < 300:
            notice = await within(device.__anext__())
            if isinstance(notice, gihandop.Written):
                written.append(notice.value[0])
        assert written == [at % 2 for at in range(300)], "all are told, in order"
        controller.close()
