"""Tries what the log says of rights that clients are refused."""

import pytest

from parties import OWNER, STRANGER, Device, controller_at, look, soon
from parties.doors import LISTEN, Door
from parties.places import DOOR, write_text

# A phone writes the state of the lock, at 10, and reads the value at 17, and what each hears.
STATE_WRITE, STATE_REFUSED = "120a0001", "01120a0005"
VALUE_READ, VALUE_REFUSED = "0a1100", "010a11000f"
# A phone reads what nobody may, and what the table does not have.
NO_ATTRIBUTE_READ, NO_ATTRIBUTE = "0affff", "010affff01"
MANY = 80


@pytest.fixture
def door(folder):
    return Door(folder, "--log-refusals")


def is_refused(controller, handle, pdu, answer, count=1):
    """A phone is refused what it asks for, so often."""
    for _ in range(count):
        assert controller.ask(handle, pdu) == answer, "it is refused"


def goes(controller, handle):
    controller.event(0x05, b"\0" + handle.to_bytes(2, "little") + b"\x13")


def refusals(device):
    return device.logged("refused")


def test_a_refused_write(door):
    """A write without the right is logged once, at once."""
    door.controller.connect(64, STRANGER)
    is_refused(door.controller, 64, STATE_WRITE, STATE_REFUSED)
    assert door.device.said("refused ") == "1 write 10 05", "who tried what, and why not"
    goes(door.controller, 64)
    door.device.said("+ disconnected 1")
    look(door.path, "connections")
    assert refusals(door.device) == ["refused 1 write 10 05"], "no number of a single one"


def test_many_refusals_of_one_kind(door):
    """A thousand refused writes have two lines."""
    door.controller.connect(64, STRANGER)
    is_refused(door.controller, 64, STATE_WRITE, STATE_REFUSED, 1_000)
    is_refused(door.controller, 64, NO_ATTRIBUTE_READ, NO_ATTRIBUTE)
    goes(door.controller, 64)
    assert door.device.said("refused ", 2) == "1 write 10 05 1000 times", "how many, at the end"
    assert refusals(door.device)[:1] == ["refused 1 write 10 05"], "the first"
    assert len(refusals(door.device)) == 2, "no line for each, nor for other errors"


def test_two_connections(door):
    """The numbers of two connections are apart, also if both end with the controller."""
    door.controller.connect(64, STRANGER)
    door.controller.connect(65, OWNER)
    is_refused(door.controller, 64, STATE_WRITE, STATE_REFUSED, 2)
    is_refused(door.controller, 65, STATE_WRITE, "01120a000f", 3)
    is_refused(door.controller, 65, VALUE_READ, VALUE_REFUSED)
    door.controller.close()
    door.device.said("controller gone")
    assert refusals(door.device) == [
        "refused 1 write 10 05", "refused 2 write 10 0f", "refused 2 read 17 0f",
        "refused 1 write 10 05 2 times", "refused 2 write 10 0f 3 times",
    ], "each alone"


def test_a_handle_used_again(door):
    """A later connection with the same handle has numbers of its own."""
    for name in (1, 2):
        door.controller.connect(64, STRANGER)
        is_refused(door.controller, 64, STATE_WRITE, STATE_REFUSED, 2)
        goes(door.controller, 64)
        assert door.device.said("refused ", 2 * name) == f"{name} write 10 05 2 times", "its own number"


def test_a_client_that_is_gone_at_once(door):
    """A refusal is logged for the client that was refused, also if it is gone when the answer is sent."""
    door.controller.connect(64, STRANGER)
    assert door.device.said("+ connected "), "it is there"
    spelled = bytes.fromhex("02402008000400040012 0a0001")
    door.controller.send(spelled + bytes.fromhex("04050400400013"))
    assert door.device.said("refused ") == "1 write 10 05", "its name"
    # This one is there for a part of a turn, so it has no name left.
    begun = b"\4\x3e\x13\1\0\x41\0\1" + STRANGER + b"\x18\0\0\0\x48\0\0"
    door.controller.send(begun + spelled.replace(b"\x40\x20", b"\x41\x20") + bytes.fromhex("04050400410013"))
    assert door.device.said("refused ", 2).endswith(" write 10 05"), "it is logged"


def test_many_kinds_of_refusals(folder):
    """Of one connection 64 different refusals are counted one by one, and the others together."""
    table = write_text(f"{folder}/many.toml", "".join(
        f'[[service]]\nuuid = "fff{number % 10}"\n[[service.characteristic]]\nuuid = "fff1"\nvalue = "00"\n'
        'properties = ["read", "write"]\nwrite = { encrypted = true }\n' for number in range(MANY)
    ))
    device = Device(table, DOOR[1], *LISTEN, "--log-refusals")
    controller = controller_at(device)
    assert controller.is_advertised()
    controller.connect(64, STRANGER)
    handles = [3 * number + 3 for number in range(MANY)]
    for handle in [*handles, *handles]:
        spelled = handle.to_bytes(2, "little").hex()
        is_refused(controller, 64, f"12{spelled}01", f"0112{spelled}05")
    goes(controller, 64)
    assert soon(lambda: device.logged(f"refused 1 {2 * (MANY - 64)} more")), "the others"
    assert refusals(device) == [
        *(f"refused 1 write {handle} 05" for handle in handles[:64]),
        *(f"refused 1 write {handle} 05 2 times" for handle in handles[:64]),
        f"refused 1 {2 * (MANY - 64)} more",
    ], "each of the first, and all others together"


def test_without_the_option(folder):
    """Without the option the log has no line of a refusal."""
    door = Door(folder)
    door.controller.connect(64, STRANGER)
    is_refused(door.controller, 64, STATE_WRITE, STATE_REFUSED, 2)
    goes(door.controller, 64)
    door.device.said("+ disconnected 1")
    look(door.path, "connections")
    assert refusals(door.device) == [], "none"
