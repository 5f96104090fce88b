"""What a capture of a device contains, in the form of btsnoop."""

import struct


def captured(path):
    """The records of a capture in the form of btsnoop: of each its flags, its time in microseconds since
    1970, and its packet. None where it is none."""
    with open(path, "rb") as file:
        octets = file.read()
    if octets[:16] != b"btsnoop\0\0\0\0\1\0\0\3\xea":
        return None
    records, at = [], 16
    while at < len(octets):
        length, included, flags, drops, stamp = struct.unpack_from(">IIIIQ", octets, at)
        packet = octets[at + 24 : at + 24 + included]
        if length != included or len(packet) != included or drops:
            return None
        records.append((flags, stamp - 0x00DCDDB30F2F8000, packet))
        at += 24 + included
    return records


def is_one_packet(packet):
    """Whether octets are one packet of H4, all of it."""
    at, size = {1: (3, 1), 2: (3, 2), 3: (3, 1), 4: (2, 1)}.get(packet[0], (0, 0))
    return size > 0 and len(packet) == at + size + int.from_bytes(packet[at : at + size], "little")
