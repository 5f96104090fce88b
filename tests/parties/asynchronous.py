"""The module of python/ in an event loop: how tests wait for it, and devices that a test plays."""

import asyncio
import contextlib
import functools
import sys

from parties.device import Device
from parties.places import DOOR, PATIENCE, ROOT

sys.path.insert(0, f"{ROOT}/python")
import gihandop  # noqa: E402

ADDRESS, ADDRESS_OF_STRANGER = "00:11:22:33:44:55", "c0:00:00:00:00:0a"


def in_loop(play):
    """Makes a test of a coroutine, which takes at most ten minutes."""

    @functools.wraps(play)
    def test(**fixtures):
        asyncio.run(asyncio.wait_for(play(**fixtures), 600))

    return test


def door(path, *words):
    """A device that serves the door, once its sockets are there."""
    device = Device(*DOOR, "--listen", "127.0.0.1:0", "--application", path, *words)
    device.said("ready")
    return device


async def within(awaited, seconds=PATIENCE):
    return await asyncio.wait_for(awaited, seconds)


async def timed(awaited, seconds=0.3):
    """What something has in a short time, or `TimeoutError`."""
    try:
        return await asyncio.wait_for(awaited, seconds)
    except asyncio.TimeoutError:
        return "TimeoutError"


async def heard(device, count):
    return [await within(device.__anext__()) for _ in range(count)]


async def rest_of(device):
    async def read():
        return [it async for it in device]

    return await within(read())


async def error_of(awaited):
    """The kind of the error that something raises, and its words."""
    try:
        return "no error", await within(awaited)
    except (gihandop.DeviceError, TypeError, ValueError, OSError) as error:
        return type(error).__name__, str(error)


async def apart(play, *words):
    """Does something that waits, while the loop goes on."""
    return await asyncio.get_running_loop().run_in_executor(None, play, *words)


@contextlib.asynccontextmanager
async def pretended(path, serve):
    """A device at a path that is played by a function of its reader and its writer."""
    firsts, errors = [], []

    async def play(reader, writer):
        try:
            firsts.append(await reader.readline())
            writer.write(b"+ started 7\nok\n")
            await serve(reader, writer)
        except ConnectionError:
            pass
        except Exception as error:
            errors.append(error)
        finally:
            writer.close()

    server = await asyncio.start_unix_server(play, path)
    try:
        yield
    finally:
        server.close()
    for first in firsts:
        assert first == b"application\n", "the first line"
    assert errors == [], "what is played"
