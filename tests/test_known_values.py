"""Tries whether an application that reads its lines in order knows the values of the host."""

import random
import threading
import time

import pytest

from parties.homes import AT_OWNER
from parties.tables import VALUE, spelled


def known_after(lines, updated):
    """The value that an application knows after its lines, and after its update."""
    last = lines[-1]
    return updated if last == "ok" else last.split()[-1]


@pytest.mark.long(10)
@pytest.mark.parametrize("saved", ["state", "nothing"])
def test_a_write_and_an_update_at_once(home, saved):
    """A phone writes a value while the application updates it: the application knows which of them is the last."""
    if saved == "nothing":
        home.saved = []
    _, controller = home.start()
    application = home.application()
    wrong = []
    for number in range(300):
        written, updated = f"00{number:04x}", f"80{number:04x}"
        at = len(controller.heard)
        # Another line before it keeps the device busy, so that the update is there when it reads the write.
        application.say(f"value {VALUE}")
        time.sleep(random.random() * 0.002)
        phone = threading.Thread(target=controller.say, args=(AT_OWNER, f"12{spelled(VALUE)}{written}"))
        phone.start()
        time.sleep(random.random() * 0.001)
        application.say(f"update {VALUE} {updated}")
        phone.join()
        lines = []
        while sorted(it[:5] for it in lines) != ["+ wri", "ok"]:
            line = application.line()
            assert line not in (None, "END"), "both are answered"
            if line == "ok" or line.startswith("+ written"):
                lines.append(line)
        has = application.ask(f"value {VALUE}").split()[-1]
        if known_after(lines, updated) != has:
            wrong.append((number, lines, has))
        controller.until(lambda: (AT_OWNER, "13") in controller.heard[at:])
    assert wrong == [], "the application knows what the host has"
