"""The tables of a home, and the text of the state that a device saves for them."""

import hashlib

from parties.places import ROOT

KEYS = f"{ROOT}/examples/keys.toml"
HEAD = "# A table of this test.\n"
SERVICE = """
[[service]]
uuid = "fff0"
[[service.characteristic]]
uuid = "fff1"
value = "00"
max = %d
properties = ["read", "write", "notify"]
[[service.characteristic]]
uuid = "fff2"
value = "00"
max = 8
properties = ["read", "notify"]
[[service.characteristic]]
uuid = "6e400002-b5a3-f393-e0a9-e50e24dcca9e"
value = ""
max = 512
properties = ["read", "write", "command"]
"""
CHANGED = """
[[service]]
uuid = "1801"
[[service.characteristic]]
uuid = "2a05"
value = "00000000"
fixed = true
properties = ["indicate"]
"""
OTHER = """
[[service]]
uuid = "180a"
[[service.characteristic]]
uuid = "2a29"
value = "41"
properties = ["read"]
"""
TABLE = HEAD + CHANGED + SERVICE % 8
# The handles of TABLE: the configuration of Service Changed, a value with its configuration, one that
# only the application changes, and a long one.
INDICATED_CONFIG, VALUE, VALUE_CONFIG, SENSOR, SENSOR_CONFIG, LONG = 4, 7, 8, 10, 11, 13
UUID = "6e400002-b5a3-f393-e0a9-e50e24dcca9e"
# What the log says at a start with another table than that of a state.
CHANGED_TO = "the table has changed: the old state is kept as {}.before"
# The peers of the phones, as the subscriptions have them.
OWNER_NAME, GUEST_NAME = "0 00:11:22:33:44:55", "1 c0:00:00:00:00:01"


def sealed_octets(body):
    """Octets with the last line of a state."""
    return body + f"[end] {hashlib.sha256(body).hexdigest()}\n".encode()


def sealed(body):
    """A text with the last line of a state."""
    return sealed_octets(body.encode()).decode()


def state_text(table=TABLE, subscriptions=(), values=()):
    """The state of a device."""
    pieces = ["|" + it for it in table.split("\n")]
    lines = ["gihandop state 1", "[table]", *pieces, "[subscriptions]", *subscriptions, "[values]", *values]
    return sealed("".join(it + "\n" for it in lines))


def after_table(text):
    """A state without the table that it has most often."""
    head = state_text().split("[subscriptions]")[0]
    return text[len(head):] if text and text.startswith(head) else text


def spelled(attribute):
    """A handle as a PDU has it, in hexadecimal digits."""
    return attribute.to_bytes(2, "little").hex()
