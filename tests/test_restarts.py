"""Tries what outlives the end of a device: values, subscriptions, and the owner of the file."""

import os

import pytest

from parties import STRANGER, soon
from parties.homes import AT_OWNER, AT_STRANGER, ask, end, has_saved, read, write
from parties.places import write_text
from parties.tables import (
    INDICATED_CONFIG, LONG, OWNER_NAME, SENSOR, TABLE, UUID, VALUE, VALUE_CONFIG, spelled,
)
from parties.users import NOBODY, given_to_nobody

READ_ONLY = f"value dropped: {VALUE}: clients may not write it"


@pytest.mark.parametrize(
    "words, sensor", [([], "00"), (["--save-updates"], "0a")], ids=["writable-values", "all-values"]
)
def test_a_restart(home, words, sensor):
    """Values, subscriptions and, if all values are saved, those of the application, outlive a SIGKILL."""
    device, controller = home.start(*words)
    application = home.application()
    has_saved("an empty state", home)
    assert os.stat(home.path).st_mode & 0o777 == 0o600, "its permission"
    assert write(controller, VALUE, "0102") == "13", "a write"
    values = [f"{VALUE} fff1 0102"]
    has_saved("is saved", home, values=values)
    assert write(controller, INDICATED_CONFIG, "0200") == "13", "a subscription"
    assert write(controller, VALUE_CONFIG, "0100") == "13", "another"
    subscriptions = [f"{OWNER_NAME} {INDICATED_CONFIG} 2", f"{OWNER_NAME} {VALUE_CONFIG} 1"]
    has_saved("they are saved", home, subscriptions, values)
    application.lines(3)
    assert application.ask(f"update {VALUE} 0304") == "ok", "an update"
    values = [f"{VALUE} fff1 0304"]
    has_saved("is saved too", home, subscriptions, values)
    assert application.ask(f"update {SENSOR} 0a") == "ok", "one of the sensor"
    if sensor != "00":
        values.append(f"{SENSOR} fff2 {sensor}")
    has_saved("is saved if it is asked for", home, subscriptions, values)
    assert ask(controller, "02f700") == "03f700", "a larger MTU"
    assert write(controller, LONG, "ff" * 200) == "13", "a long one"
    assert write(controller, LONG, "") == "13", "to nothing"
    end(device, controller)
    device, controller = home.start(*words)
    again = home.application()
    assert read(controller, VALUE) == "0304", "the value"
    assert read(controller, SENSOR) == sensor, "the sensor"
    assert read(controller, LONG) == "", "a value like the table's"
    assert read(controller, VALUE_CONFIG) == "0100", "the subscription"
    assert again.ask(f"update {VALUE} 0506") == "ok", "what was subscribed"
    assert controller.hears(AT_OWNER) == f"1b{spelled(VALUE)}0506", "is heard"
    assert write(controller, VALUE, "00") == "13", "the value of the table again"
    values = [it for it in values if it.startswith(f"{SENSOR} ")]
    has_saved("is not saved", home, subscriptions, values)
    assert [it for it in device.log if "changed" in it or "dropped" in it] == [], "a table that is the same"


def test_writes_without_an_answer(home):
    """A value that is written by a command or in parts is saved too."""
    _, controller = home.start()
    controller.say(AT_OWNER, f"52{spelled(LONG)}c0ffee")
    soon(lambda: "c0ffee" in home.state())
    has_saved("a command", home, values=[f"{LONG} {UUID} c0ffee"])
    controller.ask(AT_OWNER, f"16{spelled(LONG)}0000aa")
    controller.ask(AT_OWNER, f"16{spelled(LONG)}0100bb")
    has_saved("nothing is written yet", home, values=[f"{LONG} {UUID} c0ffee"])
    assert controller.ask(AT_OWNER, "1801") == "19", "in parts"
    has_saved("is saved", home, values=[f"{LONG} {UUID} aabb"])


def test_a_stranger(home):
    """What a phone without a key writes is saved; its subscriptions are not."""
    _, controller = home.start()
    controller.connect(AT_STRANGER, STRANGER)
    assert write(controller, VALUE, "11", AT_STRANGER) == "13", "a write"
    assert write(controller, VALUE_CONFIG, "0100", AT_STRANGER) == "13", "a subscription"
    has_saved("one is saved", home, values=[f"{VALUE} fff1 11"])


def test_starts(home):
    """Each start of a device has another number, which each application reads."""
    found = []
    for _ in range(4):
        device = home.device()
        device.said("ready")
        numbers = {home.application().started for _ in range(2)}
        assert len(numbers) == 1, "one start has one number"
        assert all(it.isdigit() for it in numbers), "it is a number"
        found += numbers
        end(device)
    assert len(set(found)) == len(found), "each start has its own"


def test_permission(home):
    """The permission of a state that somebody changed stays."""
    device, controller = home.start()
    os.chmod(home.path, 0o640)
    write(controller, VALUE, "01")
    assert os.stat(home.path).st_mode & 0o777 == 0o640, "after a write"
    end(device, controller)
    _, controller = home.start()
    write(controller, VALUE, "02")
    assert os.stat(home.path).st_mode & 0o777 == 0o640, "after a restart"
    assert os.stat(f"{home.place}/lock").st_mode & 0o777 == 0o600, "the lock is its owner's"


def test_started_by_root(home):
    """A state of another user stays that user's if root runs the device once."""
    through = given_to_nobody(home)
    for number, words in enumerate((through, (), through)):
        home.socket = f"{home.folder}/{number}"
        device, controller = home.start(through=words)
        assert write(controller, VALUE, f"0{number}") == "13", f"start {number}: a write"
        found = os.stat(home.path)
        assert (found.st_uid, found.st_gid) == (NOBODY, NOBODY), f"start {number}: the owner"
        assert found.st_mode & 0o777 == 0o600, f"start {number}: the permission"
        end(device, controller)
    os.chown(home.path, NOBODY, 1)
    home.socket = f"{home.folder}/last"
    _, controller = home.start()
    assert write(controller, VALUE, "05") == "13", "a write"
    assert (os.stat(home.path).st_uid, os.stat(home.path).st_gid) == (NOBODY, 1), "the group"


@pytest.mark.parametrize(
    "words, value, dropped", [([], "05", [READ_ONLY]), (["--save-updates"], "0102", [])],
    ids=["writable-values", "all-values"],
)
def test_a_value_that_is_read_only_now(home, words, value, dropped):
    """A saved value that clients may not write any more is dropped at once, unless all values are saved."""
    device, controller = home.start(*words)
    assert write(controller, VALUE, "0102") == "13", "a write"
    end(device, controller)
    read_only = TABLE.replace('"read", "write", "notify"', '"read", "notify"').replace('"00"', '"05"', 1)
    write_text(home.table, read_only)
    for number, lines in enumerate((dropped, [])):
        device, controller = home.start(*words)
        assert read(controller, VALUE) == value, f"start {number}"
        assert device.logged("value dropped") == lines, f"start {number}: the log"
        end(device, controller)


def test_without_saved_updates(home):
    """A start without `--save-updates` has no values that only the application changes."""
    device, controller = home.start("--save-updates")
    application = home.application()
    assert application.ask(f"update {SENSOR} 0a") == "ok", "an update"
    assert write(controller, VALUE, "01") == "13", "a write"
    end(device, controller)
    device, controller = home.start()
    assert read(controller, SENSOR) == "00", "the sensor"
    lines = [f"value dropped: {SENSOR}: clients may not write it"]
    assert device.logged("value dropped") == lines, "is told"
    assert read(controller, VALUE) == "01", "the value"
