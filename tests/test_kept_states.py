"""Tries the old states that a device keeps at starts with other tables."""

import itertools
import os
import shutil

import pytest

from parties import text_of
from parties.homes import end, is_refused, read, write
from parties.places import write_text
from parties.tables import CHANGED_TO, HEAD, OTHER, TABLE, VALUE, VALUE_CONFIG, state_text
from parties.users import NOBODY, given_to_nobody

STATE = state_text(values=[f"{VALUE} fff1 01"])


def test_a_kept_state(home):
    """A start with a wrong table keeps the old state, which then serves the right one again, however late."""
    kept, older = f"{home.path}.before.2", f"{home.path}.before"
    device, controller = home.start()
    assert write(controller, VALUE, "0102") == "13", "a write"
    assert write(controller, VALUE_CONFIG, "0100") == "13", "a subscription"
    assert not os.path.exists(older), "nothing is kept"
    os.chmod(home.path, 0o640)
    end(device, controller)
    before = home.state()
    # What a device left that was killed while it kept a state.
    write_text(f"{kept}.new", "half of a st")
    write_text(older, "an older one")
    write_text(home.table, HEAD + OTHER)
    for _ in range(2):
        device = home.device()
        device.said("ready")
        assert text_of(kept) == before, "the old state"
        assert text_of(older) == "an older one", "what was kept before"
        assert os.stat(kept).st_mode & 0o777 == 0o640, "its permission"
        assert sorted(os.listdir(home.place)) == ["lock", "state", "state.before", "state.before.2"], "the files"
        end(device)
    assert device.logged("the table has changed") == [], "it is told once"
    wrong = home.state()
    write_text(home.table, TABLE)
    device = home.device()
    device.said("ready")
    device.said(f"a state of this table is in {kept}")
    device.said(f"{CHANGED_TO.format(home.path)}.3")
    assert text_of(kept) == before, "the good state stays"
    assert text_of(f"{older}.3") == wrong, "the wrong one is kept too"
    end(device)
    shutil.copy(kept, home.path)
    device, controller = home.start()
    assert read(controller, VALUE) == "0102", "the value"
    assert read(controller, VALUE_CONFIG) == "0100", "the subscription"
    assert device.logged("the table has changed") == [], "no other table"


def kept_states(home):
    """The texts of all states in the folder, by the names of their files."""
    return {it: text_of(f"{home.place}/{it}") for it in sorted(os.listdir(home.place)) if it.startswith("state")}


# The orders of three tables over five starts, each with another table than the start before.
ORDERS = [it for it in itertools.product("abc", repeat=5) if it[0] == "a" and all(map(str.__ne__, it, it[1:]))]


@pytest.mark.parametrize("order", ORDERS, ids="".join)
def test_each_order_of_tables(home, order):
    """Whatever tables start one after another, each answered write is in a file."""
    written = []
    for number, table in enumerate(order):
        write_text(home.table, f"# {table}\n{TABLE}")
        device, controller = home.start()
        assert write(controller, VALUE, f"a{number}") == "13", "a write"
        end(device, controller)
        written.append((f"|# {table}\n", f"\n{VALUE} fff1 a{number}\n"))
        texts = kept_states(home).values()
        lost = [it for it in written if not any(it[0] in text and it[1] in text for text in texts)]
        assert lost == [], f"after {number + 1} starts"


def test_a_wrong_table_again_and_again(home):
    """A wrong table keeps the right state also if it starts twice, and no state is kept twice."""
    device, controller = home.start()
    assert write(controller, VALUE, "13") == "13", "a write"
    end(device, controller)
    before = home.state()
    for number in range(6):
        write_text(home.table, TABLE if number % 2 else HEAD + OTHER)
        device = home.device()
        device.said("ready")
        end(device)
        assert text_of(f"{home.path}.before") == before, f"the right state after start {number}"
    assert list(kept_states(home)) == ["state", "state.before", "state.before.2", "state.before.3"], "the files"


def test_a_kept_state_behind_a_link(home):
    """The old state is kept beside the file to which the link leads."""
    real = f"{home.folder}/real"
    os.mkdir(real)
    write_text(f"{real}/other", STATE)
    os.symlink("../real/other", home.path)
    write_text(home.table, HEAD + OTHER)
    device = home.device()
    device.said(CHANGED_TO.format(f"{real}/other"))
    device.said("ready")
    assert text_of(f"{real}/other.before") == STATE, "the old state"
    assert "|uuid = \"180a\"\n" in text_of(f"{real}/other"), "the new one"


def test_a_state_that_cannot_be_kept(home):
    """If the old state cannot be kept, the device does not start, and the state stays."""
    kept = f"{home.path}.before"
    write_text(home.path, STATE)
    os.makedirs(f"{kept}.new/full")
    write_text(home.table, HEAD + OTHER)
    status, told = home.device().refusal()
    assert (status, home.state()) == (1, STATE), "the state"
    assert told.splitlines()[-1].startswith(f"{kept}: "), "the reason"
    shutil.rmtree(f"{kept}.new")
    write_text(home.table, TABLE)
    _, controller = home.start()
    assert read(controller, VALUE) == "01", "the right table starts"


def test_too_many_kept_states(home):
    """The device replaces no kept state, however many there are. What is no state takes a name too."""
    kept = f"{home.path}.before"
    write_text(home.path, STATE)
    os.mkdir(kept)
    os.symlink("nowhere", f"{kept}.2")
    for number in range(3, 1_000):
        write_text(f"{kept}.{number}", "a state")
    write_text(home.table, HEAD + OTHER)
    is_refused("999 states", home, home.device(), [f"{kept}: 999 states are kept: delete those you do not need"])
    os.remove(f"{kept}.500")
    device = home.device()
    device.said("ready")
    assert text_of(f"{kept}.500") == STATE, "the free name"


def test_a_state_without_links(home):
    """The old state is copied if no link to it can be made."""
    through = given_to_nobody(home)
    write_text(home.path, STATE)
    os.chmod(home.path, 0o644)
    write_text(home.table, HEAD + OTHER)
    device = home.device(through=through)
    device.said(CHANGED_TO.format(home.path))
    device.said("ready")
    kept = f"{home.path}.before"
    assert text_of(kept) == STATE, "the old state"
    assert os.stat(kept).st_mode & 0o777 == 0o644, "its permission"
    # Linux lets a user link only files that are its own or that it may write, unless told otherwise.
    setting = "/proc/sys/fs/protected_hardlinks"
    if os.path.exists(setting) and text_of(setting).strip() == "1":
        assert os.stat(kept).st_uid == NOBODY, "it is a copy"
    assert [it for it in os.listdir(home.place) if it.endswith(".new")] == [], "nothing else is left"
