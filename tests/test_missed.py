"""Tries what an application reads of the time when it was not there, and what waits for it."""

import select

import pytest

from parties import PATIENCE, Application, Visitor, controller_at
from parties.homes import AT_OWNER, owner_comes, read, write
from parties.tables import LONG, VALUE


def missed(application):
    return [it for it in application.welcome if it.startswith("+ missed")]


def test_nobody_there(home):
    """Values that phones wrote while no application was connected are told once, as they are now."""
    device, controller = home.start()
    for value in ("01", "02", "0203"):
        write(controller, VALUE, value)
    write(controller, LONG, "aa")
    write(controller, LONG, "")
    one = home.application()
    assert missed(one) == [f"+ missed {VALUE} 0203", f"+ missed {LONG} -"], "what was missed"
    assert one.welcome[-2:] == missed(one), "it comes last"
    write(controller, VALUE, "04")
    assert one.line() == f"+ written 1 {VALUE} 04", "what is told"
    assert missed(home.application_after(device, one)) == [], "it is not told again"


# 200 lines are more than the socket takes: the device still holds some of them.
@pytest.mark.parametrize("count", [1, 200], ids=["one-line", "many-lines"])
@pytest.mark.parametrize("is_replaced", [False, True], ids=["gone", "replaced"])
def test_unread_lines(home, count, is_replaced):
    """An application is gone, or replaced, and so many lines are unread: what they told is told again."""
    device, controller = home.start()
    one = home.application()
    assert missed(one) == [], "it has missed nothing"
    controller.ask(AT_OWNER, "02f700")
    for number in range(count):
        write(controller, LONG, f"{number:02x}" * 240)
    if not is_replaced:
        one.close()
        device.said("application gone")
    two = home.application()
    assert missed(two) == [f"+ missed {LONG} " + f"{count - 1:02x}" * 240], "what was not read"
    assert missed(home.application_after(device, two)) == [], "it is told once"


def test_missed_again(home):
    """What an application was told that it has missed, and has not read, is told to the next one too."""
    device, controller = home.start()
    write(controller, VALUE, "01")
    one = Visitor(home.socket)
    one.say("application")
    select.select([one.stream], [], [], PATIENCE)
    device.said("application")
    one.close()
    device.said("application gone")
    two = home.application()
    assert missed(two) == [f"+ missed {VALUE} 01"], "what was missed"
    assert missed(home.application_after(device, two)) == [], "it is told once"


def test_waiting_for_an_application(home):
    """A controller is served only while an application is connected."""
    device = home.device("--wait-for-application")
    device.said("ready")
    controller = controller_at(device)
    assert not controller.until(lambda: controller.commands, 0.5), "nobody is advertised"
    application = Application(home.socket)
    assert application.line() == "+ waiting", "none is initialised yet"
    assert controller.is_advertised(), "is initialised"
    assert application.line() == "+ serving", "and served"
    owner_comes(controller)
    assert write(controller, VALUE, "01") == "13", "a phone writes"
    application.lines(3)
    application.close()
    assert controller.until(lambda: controller.is_gone), "without one"
    assert "application" in device.said("controller released"), "the log says why"
    controller.close()
    other = controller_at(device)
    assert not other.until(lambda: other.commands, 0.5), "the next one waits too"
    two = Application(home.socket)
    assert two.line() == "+ waiting", "another application"
    assert other.is_advertised(), "the controller is served"
    owner_comes(other)
    assert read(other, VALUE) == "01", "the value"
