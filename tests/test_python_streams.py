"""Tries the module of python/ with devices that do their worst: lost answers, ends, nonsense, and floods."""

import asyncio
import tracemalloc

import pytest

from parties.asynchronous import error_of, gihandop, heard, in_loop, pretended, rest_of, timed, within

# Each warning is an error, also one of a socket that is not closed.
pytestmark = [
    pytest.mark.without_program, pytest.mark.filterwarnings("error"), pytest.mark.usefixtures("collected"),
]


@in_loop
async def test_cancelled(folder):
    """A question that is cancelled keeps its answer, and the next one has its own."""
    path, go = f"{folder}/cancelled.socket", asyncio.Event()

    async def serve(reader, writer):
        await reader.readline()
        await go.wait()
        writer.write(b"+ written 1 10 01\nvalue 10 01\n+ written 1 10 02\n")
        while await reader.readline():
            writer.write(b"value 11 02\n")

    async with pretended(path, serve), gihandop.Device(path) as device:
        await heard(device, 1)
        assert await timed(device.value(10), 0.1) == "TimeoutError", "no answer"
        assert await timed(device.__anext__(), 0.1) == "TimeoutError", "no notice"
        following = [asyncio.ensure_future(device.value(11)) for _ in range(3)]
        await asyncio.sleep(0)
        following[1].cancel()
        go.set()
        found = [await within(following[0]), await within(following[2])]
        assert found == [b"\2", b"\2"], "the answers"
        found = await heard(device, 2)
        assert found == [gihandop.Written(1, 10, b"\1"), gihandop.Written(1, 10, b"\2")], "the notices"


@pytest.mark.parametrize("retry", [0.05, None])
@in_loop
async def test_an_end(folder, retry):
    """A device that ends in the middle of a question hangs nobody."""
    path, words = f"{folder}/ends.socket", "the device closed the connection"

    async def ends(reader, writer):
        await reader.readline()
        writer.write(b"val")

    async with pretended(path, ends), gihandop.Device(path, retry=retry) as device:
        both = await within(asyncio.gather(error_of(device.value(10)), error_of(device.update(10, b""))))
        assert both == [("Gone", words)] * 2, "both are told"
        if retry is None:
            assert await error_of(rest_of(device)) == ("Gone", words), "one connection"


@in_loop
async def test_nonsense(folder):
    """A device that says no sense is connected to again."""
    path = f"{folder}/raves.socket"

    async def raves(reader, writer):
        writer.write(b"ok\n" if await reader.readline() else b"")
        writer.write(b"ok\nok\n" + bytes(range(256)) * 4)
        await reader.read()

    async with pretended(path, raves), gihandop.Device(path, retry=0.05) as device:
        assert await within(device.update(10, b"")) is None, "an answer"
        started = gihandop.Started(7, True), gihandop.Started(7, False)
        assert await heard(device, 3) == [started[0], gihandop.Away(), started[1]], "two starts"


@pytest.mark.parametrize("answer", [
    "", "ok 1", "hello", "value", "value 10", "value x 00", "value 10 0", "value 10 0g", "value 10 00 00", "value 10 00 ",
    "handle", "handle x", "handle -5", "handle 1_0", "handle 10 11", "fault", "fault 3", "fault x: y", "fault -1: y", "bad",
    f"fault {'9' * 5_000}: y", f"handle {'9' * 5_000}", "\0", "ok\r",
], ids=lambda it: repr(it[:20]))
@in_loop
async def test_a_strange_answer(folder, answer):
    """An answer that no device gives is an error of this module, and no success."""
    path = f"{folder}/strange.socket"

    async def strange(reader, writer):
        while await reader.readline():
            writer.write(f"{answer}\n".encode())

    async with pretended(path, strange), gihandop.Device(path) as device:
        for question in (device.update(10, b""), device.value(10), device.find("fff0", "fff1")):
            kind, words = await error_of(question)
            assert (kind, words.partition(":")[0]) == ("DeviceError", "this is no answer of a device")


@in_loop
async def test_a_line_without_an_end(folder):
    """A device that ends no line is connected to again."""
    path = f"{folder}/never_ends.socket"

    async def never_ends(_reader, writer):
        while not writer.is_closing():
            writer.write(b"+" * 65_536)
            await writer.drain()

    async with pretended(path, never_ends), gihandop.Device(path, retry=0.05) as device:
        started = gihandop.Started(7, True), gihandop.Started(7, False)
        assert await heard(device, 3) == [started[0], gihandop.Away(), started[1]], "a line without an end"


@in_loop
async def test_a_flood(folder):
    """Answers in a flood of notices are found, and notices that nobody reads take bounded memory."""
    path, value = f"{folder}/flood.socket", bytes(range(128))
    line = b"+ written 1 10 %s\n" % value.hex().encode()

    async def serve(reader, writer):
        async def flood():
            while True:
                writer.write(line * 70)
                await writer.drain()
                await asyncio.sleep(0)

        flooding = asyncio.ensure_future(flood())
        try:
            while asked := await reader.readline():
                writer.write(b"value " + asked.split()[1] + b" 02\n")
        finally:
            flooding.cancel()

    async with pretended(path, serve), gihandop.Device(path, capacity=100) as device:
        tracemalloc.start()
        try:
            for at in range(100):
                assert await within(device.value(at + 1)) == b"\2", "an answer in a flood"
            peak = tracemalloc.get_traced_memory()[1]
        finally:
            tracemalloc.stop()
        assert peak < 4_000_000, "its memory"
        for at in range(100, 300):
            assert await within(device.value(at + 1)) == b"\2", "an answer in a flood"
        notices = await heard(device, 101)
        assert notices[0] == gihandop.Started(7, True), "the first"
        assert notices[1:100] == [gihandop.Written(1, 10, value)] * 99, "the next"
        assert isinstance(notices[100], gihandop.Lost) and notices[100].count > 1_000, "how many are lost"
        assert await heard(device, 20) == [gihandop.Written(1, 10, value)] * 20, "and on"
