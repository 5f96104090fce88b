#!/usr/bin/env -S python3 -B
"""Wireshark's `tshark` over the recordings of the parts before.

usage: interop/tshark.py PROGRAM RECORDINGS

Each PDU of the Attribute Protocol in a recording has to be taken apart by it, in the same order,
with the same opcode, and none that the host sends be malformed but what is known. Its own reading of
the errors and of the values is compared with the octets. What a phone writes in a length that its
type forbids is malformed to it, and is meant so.
"""

import glob
import os
import subprocess
import sys

from controller import ATT, recorded_frames
from part import Part

FIELDS = ["btatt.opcode", "btatt.error_code", "_ws.malformed", "btatt.value"]
# Answers and requests whose last field is a value, with how many octets stand before it.
VALUED = {0x0B: 1, 0x0D: 1, 0x12: 3, 0x52: 3, 0x16: 5, 0x17: 5, 0x1B: 3, 0x1D: 3}
# tshark 4.0 wants an octet of value where the Core Specification allows none: behind a Read Blob
# Response at the end of a value (Vol 3 Part F, 3.4.4.6), and behind a Prepare Write Response that
# repeats a request without a part.
KNOWN = {0x0D: 1, 0x17: 5}


def is_known(payload):
    return KNOWN.get(payload[0]) == len(payload)


def decoded(path):
    """Returns what tshark tells of each frame that it takes for the Attribute Protocol."""
    words = ["tshark", "-r", path, "-Y", "btatt", "-T", "fields", "-E", "separator=|", "-E", "occurrence=f"]
    ran = subprocess.run(words + [it for name in FIELDS for it in ("-e", name)], capture_output=True, text=True, timeout=300)
    return [it.split("|") for it in ran.stdout.splitlines()]


def main():
    recordings = sys.argv[2]
    part = Part()
    paths = sorted(glob.glob(f"{recordings}/**/*.btsnoop", recursive=True))
    if not paths:
        part.skip("tshark", "there are no recordings: it judges those of the parts before")
    for path in paths:
        name = os.path.relpath(path, recordings)
        frames = [(payload, is_from_phone) for _, is_from_phone, channel, payload in recorded_frames(path) if channel == ATT]
        rows = decoded(path)
        part.check(f"{name}: opcodes", [int(it[0], 16) for it in rows], [payload[0] for payload, _ in frames])
        for row, (payload, is_from_phone) in zip(rows, frames):
            opcode, error, malformed, value = row
            wanted = f"{payload[4]:#04x}" if payload[0] == 0x01 and len(payload) == 5 else ""
            is_whole = not malformed or is_from_phone or is_known(payload)
            shown = payload[VALUED[payload[0]] :].hex() if payload[0] in VALUED else None
            is_same = shown is None or not value or value.replace(":", "") == shown
            part.check(f"{name}: {payload.hex()}", (error, is_whole, is_same), (wanted, True, True))
    part.end()


if __name__ == "__main__":
    main()
