"""Tries phones without a key, which `gatt_shell host` ends some time after they came."""

import time

from parties import OWNER, STRANGER, late
from parties.doors import NAME, NAME_READ, serving, visitor
from parties.watching import is_idle

# Another phone without a key.
OTHER = bytes.fromhex("010b00000000c0")


def test_strangers_who_talk(folder):
    """Phones without a key are ended some time after they came, however much they say; others are not."""
    device, application, controller = serving(folder, "--stranger", "3", "--idle", "2")
    owner = visitor(application, controller, OWNER, 70)
    assert controller.encrypt(70), "a key"
    application.line()
    begun = time.monotonic()
    names = {}
    for handle in (64, 65, 66):
        names[visitor(application, controller, STRANGER, handle)] = handle
    ended, gone = {}, set()
    while time.monotonic() < begun + 10 and len(gone) < 3:
        for handle in names.values():
            if handle not in {it[0] for it in ended.values()}:
                # One that is ended now is not answered.
                controller.say(handle, NAME_READ)
                controller.hears(handle, 0.2)
        controller.until(lambda: False, 0.01)
        line = application.line(0.01)
        while line:
            words = line.split()
            if words[1] == "ending":
                ended[words[2]] = names[words[2]], time.monotonic() - begun
            elif words[1] == "disconnected":
                gone.add(words[2])
            line = application.line(0.01)
    assert sorted(ended) == sorted(names), "each is ended"
    assert [it for it in ended.values() if not 2.7 < it[1] < 6] == [], "three seconds after it came"
    assert sorted(gone) == sorted(names), "each is gone"
    assert controller.ask(70, NAME_READ) == NAME, "the owner stays"
    assert owner not in ended, "under its name"
    is_idle("after them", device)
    device.end()
    controller.close()


def test_a_handle_that_is_used_again(folder):
    """A stranger that has the handle of one who just left is given its own time."""
    device, application, controller = serving(folder, "--stranger", "3")
    visitor(application, controller)
    time.sleep(2)
    spelled = (64).to_bytes(2, "little")
    went = b"\4\5\4\0" + spelled + b"\x13"
    controller.send(went + b"\4\x3e\x13\1\0" + spelled + b"\1" + OTHER + b"\x18\0\0\0\x48\0\0")
    begun = time.monotonic()
    lines = application.lines(2)
    assert [it.split()[1] for it in lines] == ["disconnected", "connected"], "one goes and one comes"
    assert (application.line() or "? ?").split()[1] == "ending", "it is ended"
    assert 2.7 < time.monotonic() - begun < late(6), "three seconds after it came"
    device.end()
    controller.close()
