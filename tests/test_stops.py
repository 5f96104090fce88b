"""Tries how `stop` of an application ends `gatt_shell host`."""

import time

import pytest

from parties import DISCONNECT, DOOR, OWNER, PATIENCE, STRANGER, Application, Device, controller_at, late, look
from parties.acts import Act
from parties.disks import Broken
from parties.tables import VALUE


@pytest.fixture
def path(folder):
    """Where the socket of the application is."""
    return f"{folder}/socket"


@pytest.fixture
def device(path):
    return Device(*DOOR, "--listen", "127.0.0.1:0", "--application", path)


def test_without_a_controller(device, path):
    """A device without a controller ends at once."""
    device.port()
    assert look(path, "stop") == ["ok"], "without a controller"
    assert device.process.wait(PATIENCE) == 0, "it ends"


@pytest.mark.parametrize("by_application", [False, True], ids=["by-another", "by-the-application"])
def test_with_phones(device, path, by_application):
    """`stop` ends the connections, resets the controller, is answered, and ends the program with status 0."""
    controller = controller_at(device)
    controller.is_advertised()
    controller.connect(64, STRANGER)
    controller.connect(65, OWNER)
    application = Application(path)
    application.lines(3)
    # The controller answers until its stream ends.
    answering = Act(controller.until, lambda: False)
    if by_application:
        application.say("stop")
    else:
        assert look(path, "stop") == ["ok"], "a look"
    lines = application.up_to("END")[:-1]
    ends = ["+ disconnected 1", "+ disconnected 2", "+ ending 1 13", "+ ending 2 13"]
    assert sorted(it for it in lines if it[:2] == "+ ") == ends, "the phones are sent away"
    found = [it for it in lines if it[:2] != "+ "]
    assert found == (["ok"] if by_application else []), "the answer is last"
    assert device.process.wait(PATIENCE) == 0, "it ends"
    answering.end()
    sent = [opcode for opcode, _ in controller.commands]
    assert (sent.count(DISCONNECT), sent[-1]) == (2, 0x0C03), "a reset is last"
    found = {it[1].hex() for it in controller.commands if it[0] == DISCONNECT}
    assert found == {"400013", "410013"}, "for this reason"


def test_a_silent_controller(device, path):
    """A device whose controller answers no more ends within five seconds."""
    controller = controller_at(device)
    controller.is_advertised()
    controller.connect(64, STRANGER)
    begun = time.monotonic()
    assert look(path, "stop") == ["ok"], "a controller that answers no more"
    assert device.process.wait(PATIENCE) == 0, "it ends"
    assert time.monotonic() - begun < late(5), "within five seconds"


@pytest.mark.parametrize("wait", [0, 0.3, 0.6])
def test_a_last_save(home, wait):
    """`stop` saves once more, whatever the time of the next attempt."""
    device = home.device()
    device.said("ready")
    application = home.application()
    broken = Broken(home)
    application.say(f"update {VALUE} 20")
    assert application.up_to("ok")[-1] == "ok", "an update"
    broken.mend()
    time.sleep(wait)
    assert look(home.socket, "stop") == ["ok"], "stop"
    assert device.process.wait(PATIENCE) == 0, "it ends"
    assert f"\n{VALUE} fff1 20\n" in home.state(), "it is saved"
    assert device.said("stopped") == "", "the log"


@pytest.mark.parametrize("by_application", [False, True], ids=["by-another", "by-the-application"])
def test_a_last_save_that_fails(home, by_application):
    """If `stop` cannot save, its answer, the log and the status say so."""
    device = home.device()
    device.said("ready")
    application = home.application()
    Broken(home)
    application.say(f"update {VALUE} 20")
    assert application.up_to("ok")[-1] == "ok", "an update"
    why = f"not saved: {home.path}: "
    if by_application:
        application.say("stop")
        answer = [it for it in application.up_to("END") if it[:2] != "+ "][0]
    else:
        answer = look(home.socket, "stop")[0]
    assert answer[:len(why) + 9] == f"fault 8: {why}", "the answer"
    assert device.process.wait(PATIENCE) == 1, "its status"
    assert device.said(f"stopped: {why}") != "", "the log"
