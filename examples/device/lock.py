#!/usr/bin/env python3
"""The application of the door lock of examples/door.toml: its motor, its button and its battery.

usage: lock.py SOCKET      where `gatt_shell host .. --application SOCKET` listens

It prints what the motor does. Each line that it reads is a press of the button next to the door,
which opens or closes it by hand. If there is no device, or once it has ended, one line on standard
error says so, and the status is 1.
"""

import asyncio
import os
import sys

sys.path.insert(0, os.path.join(os.path.dirname(os.path.realpath(__file__)), "../../python"))
import gihandop

OPEN, CLOSED = b"\1", b"\0"


class Lock:
    """The lock of a door, with the handles of its state and of its battery's level."""

    def __init__(self, device):
        self.device = device
        self.state = None
        self.saved = asyncio.Event()
        self.saved.set()
        self.presses = asyncio.Queue()

    def turn(self, state):
        """Turns the motor to a state, in which it may be already."""
        self.state = state
        print("the motor opens the door" if state == OPEN else "the motor closes the door", flush=True)

    def press(self):
        """Reads presses of the button."""
        presses = os.read(sys.stdin.fileno(), 4096)
        for _ in range(presses.count(b"\n")):
            self.presses.put_nowait(None)
        if not presses:
            asyncio.get_running_loop().remove_reader(sys.stdin)

    async def serve_button(self):
        """Turns the motor at each press, and notifies the clients."""
        while True:
            await self.presses.get()
            self.turn(CLOSED if self.state == OPEN else OPEN)
            try:
                await self.device.update(self.handle, self.state)
            except gihandop.Gone:
                return

    async def begin(self):
        """Reads the state, and then presses of the button. A state that is not saved may not last."""
        try:
            state = await self.device.value(self.handle)
            while not self.saved.is_set():
                await self.saved.wait()
                state = await self.device.value(self.handle)
        except gihandop.Gone:
            return
        if self.state is None:
            self.state = state
            print("the door is open" if state == OPEN else "the door is closed", flush=True)
        try:
            asyncio.get_running_loop().add_reader(sys.stdin, self.press)
        except PermissionError:
            pass  # A file, or /dev/null, has no presses to wait for.

    def hear(self, notice):
        """Turns the motor as clients have asked, also while this program was not there."""
        if isinstance(notice, gihandop.Unsaved):
            self.saved.clear()
        elif isinstance(notice, gihandop.Saved):
            self.saved.set()
        elif isinstance(notice, (gihandop.Written, gihandop.Missed)) and notice.handle == self.handle:
            self.turn(notice.value)

    async def run(self):
        """Serves the button and the device until the device ends."""
        self.handle = await self.device.find("fff0", "fff1")
        await self.device.update(await self.device.find("180f", "2a19"), bytes([90]))
        tasks = [asyncio.create_task(it) for it in (self.begin(), self.serve_button())]
        try:
            async for notice in self.device:
                self.hear(notice)
        finally:
            for it in tasks:
                it.cancel()


async def serve(path):
    async with gihandop.Device(path, retry=None) as device:
        await Lock(device).run()
    raise gihandop.Gone("another application has taken the place of this one")


def main():
    if len(sys.argv) != 2:
        sys.exit("usage: lock.py SOCKET")
    try:
        asyncio.run(serve(sys.argv[1]))
    except (OSError, gihandop.DeviceError) as error:
        sys.exit(f"lock.py: {sys.argv[1]}: {error}")
    except KeyboardInterrupt:
        sys.exit(1)


if __name__ == "__main__":
    main()
