"""Where the program and its files are, and the peers of phones."""

import os
import time

ROOT = os.path.dirname(os.path.dirname(os.path.dirname(os.path.realpath(__file__))))
PROGRAM = os.path.realpath(os.environ["GATT_SHELL"])
DOOR = [f"{ROOT}/examples/door.toml", f"{ROOT}/examples/keys.toml"]
BELL = [f"{ROOT}/examples/bell.toml", f"{ROOT}/examples/keys.toml"]
# The peers of phones: one without a key, one with an authenticated key, and one with a key that is not
# authenticated. A key has a random number, a diversifier and a value.
STRANGER = bytes.fromhex("010a00000000c0")
OWNER = bytes.fromhex("00554433221100")
GUEST = bytes.fromhex("010100000000c0")
KEY = (bytes.fromhex("0202020202020202"), 514, bytes.fromhex("ffeeddccbbaa99887766554433221100"))
GUEST_KEY = (bytes.fromhex("0101010101010101"), 257, bytes.fromhex("00112233445566778899aabbccddeeff"))


def slowness():
    """How many times as long as on an idle machine something may take, by the load of each processor."""
    return max(1.0, os.getloadavg()[0] / len(os.sched_getaffinity(0)))


def late(seconds):
    """From when on something that takes less than these seconds on an idle machine is too late."""
    return seconds * slowness()


# How long is waited for what has to come, in seconds.
PATIENCE = late(30)


def text_of(path):
    with open(path) as file:
        return file.read()


def write_text(path, text):
    """Writes a file, and returns its path."""
    with open(path, "w") as file:
        file.write(text)
    return path


def soon(look, seconds=PATIENCE):
    """What is so at last, once it is so: None where it is not in so many seconds."""
    end = time.monotonic() + seconds
    while time.monotonic() < end:
        found = look()
        if found:
            return found
        time.sleep(0.02)
    return None
