"""Connections to a program that listens at a port of its own choice."""

import os
import socket
import time

from parties.places import PATIENCE, text_of


def port_of(process):
    """The port at which a program listens, or none if it does not listen yet."""
    folder = f"/proc/{process.pid}/fd"
    try:
        files = {os.readlink(f"{folder}/{it}") for it in os.listdir(folder)}
    except FileNotFoundError:
        return None
    for line in text_of("/proc/net/tcp").splitlines()[1:]:
        _, address, _, state, *_, inode = line.split()[:10]
        if state == "0A" and f"socket:[{inode}]" in files:
            return int(address.split(":")[1], 16)
    return None


def joined(process):
    """A connection to a program, once it listens, by which small packets go at once."""
    end = time.monotonic() + PATIENCE
    while time.monotonic() < end and process.poll() is None:
        port = port_of(process)
        if port:
            stream = socket.create_connection(("127.0.0.1", port))
            stream.setsockopt(socket.IPPROTO_TCP, socket.TCP_NODELAY, 1)
            return stream
        time.sleep(0.02)
    raise AssertionError("the program does not listen")
