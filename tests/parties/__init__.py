"""The parties of a test: the program as a device, a controller with its phones, and an application."""

from parties.application import Application, Visitor, look
from parties.captures import captured, is_one_packet
from parties.controller import (
    ADVERTISE_ENABLE,
    ADVERTISING_DATA,
    DISCONNECT,
    KEY_REFUSAL,
    KEY_REPLY,
    RANDOM_ADDRESS,
    Controller,
    SerialLine,
    controller_at,
    stream_to,
)
from parties.device import Device, end_all
from parties.places import (
    BELL,
    DOOR,
    GUEST,
    GUEST_KEY,
    KEY,
    OWNER,
    PATIENCE,
    PROGRAM,
    ROOT,
    STRANGER,
    late,
    soon,
    text_of,
)

__all__ = [
    "ADVERTISE_ENABLE", "ADVERTISING_DATA", "BELL", "DISCONNECT", "DOOR", "GUEST", "GUEST_KEY", "KEY", "KEY_REFUSAL",
    "KEY_REPLY", "OWNER", "PATIENCE", "PROGRAM", "RANDOM_ADDRESS", "ROOT", "STRANGER", "Application", "Controller",
    "Device", "SerialLine", "Visitor", "captured", "controller_at", "end_all", "is_one_packet", "late", "look", "soon",
    "stream_to", "text_of",
]
