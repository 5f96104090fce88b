"""Tries what phones and an application are told while `gatt_shell host` cannot save."""

import os
import time

import pytest

from parties import DISCONNECT, STRANGER, late
from parties.disks import Broken
from parties.homes import (
    AT_GUEST, AT_OWNER, AT_STRANGER, Home, end, guest_comes, has_saved, owner_comes, read,
)
from parties.tables import LONG, OWNER_NAME, SENSOR, VALUE, VALUE_CONFIG, spelled


def changes(lines):
    """The lines about changes of phones, and about saving, without the reason of a failure."""
    begins = ("+ written", "+ configured", "+ missed", "+ saved", "+ unsaved")
    return [it.split(":")[0] for it in lines if it.startswith(begins)]


def heard_until_saved(application):
    """The changes of which an application reads up to `+ saved`, and in half a second after it."""
    lines = application.up_to("+ saved")
    while (line := application.line(0.5)) not in (None, "END"):
        lines.append(line)
    return changes(lines)


def sent_away(controller, at, count=1):
    """Whether a phone was disconnected so often, and its write is not answered."""
    mine = lambda: [it for it in controller.commands if it[0] == DISCONNECT and it[1][:1] == bytes([at])]
    controller.until(lambda: len(mine()) >= count)
    controller.until(lambda: False, 0.1)
    return (len(mine()), (at, "13") in controller.heard) == (count, False)


def test_a_write_that_is_not_saved(home):
    """An application reads of a write only once it is saved."""
    _, controller = home.start()
    application = home.application()
    broken = Broken(home)
    controller.say(AT_OWNER, f"12{spelled(VALUE)}01")
    assert sent_away(controller, AT_OWNER), "the phone is disconnected"
    lines = application.up_to("+ disconnected 1")
    assert changes(lines) == ["+ unsaved"], "the application reads why"
    assert lines[-2:] == ["+ ending 1 13", "+ disconnected 1"], "and of its end"
    assert application.line(1.5) is None, "and of nothing more"
    assert application.ask(f"value {VALUE}") == f"value {VALUE} 01", "the value is there"
    broken.mend()
    assert heard_until_saved(application) == ["+ saved", f"+ written 1 {VALUE} 01"], "then of the write"
    owner_comes(controller)
    application.up_to("+ secured 2 16 1 0")
    controller.say(AT_OWNER, f"12{spelled(VALUE)}02")
    assert application.line() == f"+ written 2 {VALUE} 02", "another write is told at once"


def test_writes_that_no_longer_stand(home):
    """Of the changes that were not saved an application reads the last of each value and subscription."""
    _, controller = home.start()
    guest_comes(controller)
    stranger_comes = lambda controller: controller.connect(AT_STRANGER, STRANGER)
    stranger_comes(controller)
    comes = {AT_OWNER: owner_comes, AT_GUEST: guest_comes, AT_STRANGER: stranger_comes}
    application = home.application()
    broken = Broken(home)
    value, config, long = spelled(VALUE), spelled(VALUE_CONFIG), spelled(LONG)
    for at, pdu, count in (
        (AT_OWNER, f"12{value}01", 1), (AT_GUEST, f"12{config}0100", 1), (AT_STRANGER, f"12{value}02", 1),
        (AT_OWNER, f"12{config}0100", 2), (AT_GUEST, f"12{config}0000", 2), (AT_STRANGER, f"12{long}aa", 2),
    ):
        controller.say(at, pdu)
        assert sent_away(controller, at, count), "the phone is disconnected"
        comes[at](controller)
    application.say(f"update {LONG} bb")
    assert application.up_to("ok")[-1] == "ok", "an update in place of the last write"
    broken.mend()
    assert heard_until_saved(application) == [
        "+ saved", f"+ written 3 {VALUE} 02", f"+ configured 4 {VALUE_CONFIG} 1",
        f"+ configured 5 {VALUE_CONFIG} 0",
    ], "what stands, in order"


def test_nobody_reads_of_it(home):
    """A value that was not saved is no missed one before it is saved."""
    device, controller = home.start()
    broken = Broken(home)
    controller.say(AT_OWNER, f"12{spelled(VALUE)}01")
    assert sent_away(controller, AT_OWNER), "the phone is disconnected"
    one = home.application()
    assert changes(one.welcome) == ["+ unsaved"], "a new application"
    one.close()
    device.said("application gone")
    two = home.application()
    assert changes(two.welcome) == ["+ unsaved"], "the next one"
    broken.mend()
    assert heard_until_saved(two) == ["+ saved", f"+ written 1 {VALUE} 01"], "once it is saved"
    two.close()
    device.said("application gone", 2)
    broken = Broken(home)
    owner_comes(controller)
    controller.say(AT_OWNER, f"12{spelled(VALUE)}02")
    assert sent_away(controller, AT_OWNER, 2), "the phone is disconnected again"
    broken.mend()
    device.said("saved again:", 2)
    three = home.application()
    found = [it for it in changes(three.welcome) if VALUE == int(it.split()[2])][-1:]
    assert found == [f"+ missed {VALUE} 02"], "nobody was there"


def test_lost_with_the_device(home):
    """A write that a restart undoes was never told."""
    device, controller = home.start()
    application = home.application()
    broken = Broken(home)
    controller.say(AT_OWNER, f"12{spelled(VALUE)}01")
    assert sent_away(controller, AT_OWNER), "the phone is disconnected"
    lines = application.up_to("+ disconnected 1")
    end(device, controller)
    lines += application.up_to("END")
    assert changes(lines) == ["+ unsaved"], "nothing was told"
    broken.mend()
    _, controller = home.start()
    assert read(controller, VALUE) == "00", "the value is the old one"


def test_values_beside_rows(folder):
    """With `--rows` values are not saved: a write is told at once, and a subscription once it is saved."""
    home = Home(folder, saved="rows")
    _, controller = home.start()
    controller.connect(AT_STRANGER, STRANGER)
    application = home.application()
    broken = Broken(home)
    controller.say(AT_OWNER, f"12{spelled(VALUE_CONFIG)}0100")
    assert sent_away(controller, AT_OWNER), "the phone is disconnected"
    lines = application.up_to("+ disconnected 1")
    assert changes(lines) == ["+ unsaved"], "the application reads why"
    assert controller.ask(AT_STRANGER, f"12{spelled(VALUE)}01") == "13", "a write"
    assert application.line() == f"+ written 2 {VALUE} 01", "is told"
    controller.say(AT_STRANGER, f"12{spelled(VALUE_CONFIG)}0100")
    found = application.line()
    assert found == f"+ configured 2 {VALUE_CONFIG} 1", "a subscription without a key is never saved"
    broken.mend()
    found = heard_until_saved(application)
    assert found == ["+ saved", f"+ configured 1 {VALUE_CONFIG} 1"], "then of the other"


def test_a_disk_that_fails_for_long(home):
    """A folder is away for some seconds: the last of many writes is told once, after it is saved."""
    device, controller = home.start()
    application = home.application()
    os.rename(home.place, f"{home.folder}/away")
    begun, number = time.monotonic(), 0
    while time.monotonic() < begun + 10:
        number += 1
        controller.say(AT_OWNER, f"12{spelled(VALUE)}{number:02x}")
        assert sent_away(controller, AT_OWNER, number), "the phone is disconnected"
        owner_comes(controller)
        time.sleep(0.5)
    os.rename(f"{home.folder}/away", home.place)
    found = heard_until_saved(application)
    assert found == ["+ unsaved", "+ saved", f"+ written {number} {VALUE} {number:02x}"], "one write"
    assert len(device.logged("not saved:")) == 1, "its line in the log"


@pytest.mark.parametrize("saved", ["state", "rows"])
def test_a_failed_save(folder, saved):
    """A change that cannot be saved is not answered, ends its connection, and is saved later."""
    home = Home(folder, saved=saved)
    device, controller = home.start()
    application = home.application()
    controller.connect(AT_STRANGER, STRANGER)
    application.line()
    os.rename(home.place, f"{folder}/away")
    controller.say(AT_OWNER, f"12{spelled(VALUE_CONFIG)}0100")
    assert controller.command(DISCONNECT) == "410013", "the phone is sent away"
    assert controller.hears(AT_OWNER, 0.2) is None, "it is not answered"
    lines = application.lines(3)
    unsaved = [it for it in lines if it and it.startswith("+ unsaved: ")]
    assert len(unsaved) == 1, "the application reads it once"
    assert unsaved[0].startswith(f"+ unsaved: {home.path}: "), "with the path"
    assert [it for it in lines if it not in unsaved] == ["+ ending 1 13", "+ disconnected 1"], "the others"
    assert read(controller, VALUE, AT_STRANGER) == "00", "another phone reads"
    if saved == "state":
        controller.say(AT_STRANGER, f"12{spelled(VALUE)}0a")
        assert controller.command(DISCONNECT, 2) == "400013", "who writes is sent away"
    # It is tried again each second.
    time.sleep(1.2)
    assert len(device.logged("not saved:")) == 1, "it is logged once"
    os.rename(f"{folder}/away", home.place)
    begun = time.monotonic()
    assert device.said("saved again:") == f" {home.path}", "it is saved again"
    assert time.monotonic() - begun < late(2), "within two seconds"
    assert f"{OWNER_NAME} {VALUE_CONFIG} 1\n" in home.state(), "the subscription is there"
    assert application.up_to("+ saved")[-1] == "+ saved", "the application reads that"
    assert application.line() == f"+ configured 1 {VALUE_CONFIG} 1", "and then of the change"
    if saved == "state":
        assert application.line() == f"+ written 2 {VALUE} 0a", "and of the value"
    owner_comes(controller)
    assert read(controller, VALUE_CONFIG) == "0100", "the phone is back"
    end(device)
    _, controller = home.start()
    assert read(controller, VALUE_CONFIG) == "0100", "after a restart"
    if saved == "state":
        assert read(controller, VALUE) == "0a", "the value too"


def test_updates_that_are_not_saved(home):
    """An application that comes while nothing is saved reads that, and one that updates too."""
    home.device().said("ready")
    one = home.application()
    os.rename(home.place, f"{home.folder}/away")
    assert one.ask(f"update {SENSOR} 01") == "ok", "an update of the sensor"
    one.say(f"update {VALUE} 01")
    lines = one.lines(2)
    assert any((it or "").startswith("+ unsaved: ") for it in lines), "one of a saved value"
    two = home.application()
    assert any(it.startswith("+ unsaved: ") for it in two.welcome), "a new application"
    os.rename(f"{home.folder}/away", home.place)
    assert two.line() == "+ saved", "once it is saved"
    has_saved("the value", home, values=[f"{VALUE} fff1 01"])
