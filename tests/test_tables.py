"""Tries what a device keeps of its state at a start with another table."""

import os

import pytest

from parties import DOOR, GUEST, GUEST_KEY, ROOT, Device, controller_at, soon, text_of
from parties.homes import AT_GUEST, AT_OWNER, Home, end, guest_comes, read, write
from parties.places import write_text
from parties.tables import (
    CHANGED, CHANGED_TO, GUEST_NAME, HEAD, INDICATED_CONFIG, LONG, OTHER, OWNER_NAME, SERVICE, VALUE,
    VALUE_CONFIG,
)

DROPPED = ("the table has changed", "subscription dropped", "value dropped", "clients are not told")
UNTOLD = "clients are not told of the change: "


def start_with(home, table):
    """Two phones subscribe and write, the table is another one at the next start, and both come back."""
    device, controller = home.start()
    guest_comes(controller)
    for attribute, value, at in (
        (VALUE_CONFIG, "0100", AT_OWNER), (INDICATED_CONFIG, "0200", AT_OWNER),
        (VALUE_CONFIG, "0100", AT_GUEST), (VALUE, "0102030405060708", AT_OWNER), (LONG, "aabb", AT_GUEST),
    ):
        assert write(controller, attribute, value, at) == "13", "before"
    end(device, controller)
    write_text(home.table, table)
    device, controller = home.start()
    guest_comes(controller)
    return device, controller


def is_confirmed(home, controller):
    """The owner hears of the changed table once, and confirms it."""
    assert (controller.hears(AT_OWNER) or "").endswith("0100ffff"), "Service Changed"
    controller.say(AT_OWNER, "1e")
    assert soon(lambda: "!" not in home.state()), "it is confirmed"


def test_a_service_in_front(home):
    """Values and subscriptions at other handles are dropped with a line each; who subscribed to Service
    Changed gets it."""
    device, controller = start_with(home, HEAD + CHANGED + OTHER + SERVICE % 8)
    told = device.logged(*DROPPED)
    assert [it for it in told if "changed" in it] == [CHANGED_TO.format(home.path)], "the log"
    assert len([it for it in told if it.startswith("value dropped: ")]) == 2, "values"
    dropped = [f"subscription dropped: {it} {VALUE_CONFIG} 1" for it in (OWNER_NAME, GUEST_NAME)]
    assert [it for it in dropped if it not in told] == [], "subscriptions"
    assert "|uuid = \"180a\"\n" in home.state(), "the state is the new one's"
    is_confirmed(home, controller)
    assert controller.hears(AT_GUEST, 0.2) is None, "the guest did not subscribe to it"
    assert read(controller, VALUE + 3) == "00", "the value of the file"
    home.application().ask(f"update {VALUE + 3} 09")
    assert controller.hears(AT_GUEST, 0.2) is None, "nobody is notified"


def test_a_larger_value(home):
    """A table that differs in the size of a value keeps values and subscriptions."""
    device, controller = start_with(home, HEAD + CHANGED + SERVICE % 12)
    assert device.logged(*DROPPED) == [CHANGED_TO.format(home.path)], "the log"
    assert read(controller, VALUE) == "0102030405060708", "the value"
    assert read(controller, LONG, AT_GUEST) == "aabb", "the other one"
    for at in (AT_OWNER, AT_GUEST):
        assert read(controller, VALUE_CONFIG, at) == "0100", "a subscription"
    assert write(controller, VALUE, "11" * 12) == "13", "a longer one"


def test_a_smaller_value(home):
    """A value that is too long for its place is dropped with a line."""
    device, controller = start_with(home, HEAD + CHANGED + SERVICE % 4)
    told = device.logged(*DROPPED)
    assert [it.split(":")[0] for it in told] == ["value dropped", "the table has changed"], "the log"
    assert told[0].startswith(f"value dropped: {VALUE}: "), "it names the handle"
    assert read(controller, VALUE) == "00", "the value"
    assert read(controller, LONG, AT_GUEST) == "aabb", "the other one"


def test_a_second_restart(home):
    """Who subscribed to Service Changed gets it, with its range, also after another restart."""
    device, controller = start_with(home, HEAD + CHANGED + OTHER + SERVICE % 8)
    assert f"! {OWNER_NAME}\n" in home.state(), "it is pending"
    end(device, controller)
    device, controller = home.start()
    assert device.logged(*DROPPED) == [], "no other change"
    is_confirmed(home, controller)


@pytest.mark.parametrize(
    "table", [HEAD + SERVICE % 8, HEAD + OTHER + CHANGED + SERVICE % 8], ids=["none", "at-another-handle"]
)
def test_no_service_changed(home, table):
    """A table that has no Service Changed any more, or at another handle: the log says so, and names
    what is lost."""
    device, controller = start_with(home, table)
    told = device.logged(*DROPPED)
    assert len([it for it in told if it.startswith(UNTOLD)]) == 1, "it is not told"
    for name, config, bits in (
        (OWNER_NAME, INDICATED_CONFIG, 2), (OWNER_NAME, VALUE_CONFIG, 1), (GUEST_NAME, VALUE_CONFIG, 1),
    ):
        assert f"subscription dropped: {name} {config} {bits}" in told, "what is lost"
    assert "[subscriptions]\n[values]\n[end]" in home.state(), "nothing is left of it"
    for at in (AT_OWNER, AT_GUEST):
        assert controller.hears(at, 0.2) is None, "nothing is heard"


def test_another_value_in_its_place(home):
    """Without Service Changed nobody is subscribed to a value that took the place of another."""
    other = (OTHER + SERVICE % 8).replace("fff", "fee").replace('"read"]\n', '"read", "indicate"]\n', 1)
    device, controller = start_with(home, HEAD + other)
    assert len(device.logged(UNTOLD)) == 1, "it is not told"
    assert read(controller, VALUE_CONFIG) == "0000", "no subscription"
    home.application().ask(f"update {VALUE} 31")
    assert controller.hears(AT_OWNER, 0.2) is None, "nothing is heard"


def test_rows_of_another_table(folder):
    """With a rows file alone the log names each subscription that it drops."""
    home = Home(folder, saved="rows")
    lines = [f"{OWNER_NAME} {VALUE_CONFIG} 1", f"{OWNER_NAME} 90 1", f"{GUEST_NAME} 91 2"]
    write_text(home.path, "".join(it + "\n" for it in lines))
    device = home.device()
    device.said("ready")
    told = device.logged("subscription dropped: ")
    assert told == [f"subscription dropped: {it}" for it in lines[1:]], "the log"
    assert home.state() == lines[0] + "\n", "the file"


def test_a_confirmation(folder):
    """The rows file keeps its permission, and a peer that has confirmed Service Changed waits no more."""
    rows, owner = f"{folder}/confirmed.rows", "1 c0:00:00:00:00:01"
    write_text(rows, f"{owner} 4 2\n! {owner}\n")
    os.chmod(rows, 0o640)
    device = Device(f"{ROOT}/examples/porch.toml", DOOR[1], "--listen", "127.0.0.1:0", "--rows", rows)
    controller = controller_at(device)
    controller.is_advertised()
    controller.connect(64, GUEST)
    assert controller.encrypt(64, GUEST_KEY), "its key"
    assert controller.hears(64) == "1d03000100ffff", "Service Changed, of all handles"
    assert text_of(rows) == f"{owner} 4 2\n! {owner}\n", "is pending"
    controller.say(64, "1e")
    found = soon(lambda: "!" not in text_of(rows) and text_of(rows))
    assert found == f"{owner} 4 2\n", "until it is confirmed"
    assert os.stat(rows).st_mode & 0o777 == 0o640, "its permission"
