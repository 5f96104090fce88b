"""Tries how `hci_bridge` starts and ends: its path and lock, signals, descriptors, and its log."""

import os
import pty
import select
import signal
import stat
import time

import pytest

from parties import DOOR, PATIENCE, Device, is_one_packet, soon, text_of
from parties.bridges import is_hung_up, last_packet

RESET = "01030c00"
USAGE = "usage: hci_bridge [--down] hciN PATH\n"
# A program inherits which signals are ignored, for instance from a test that nohup started.
BY_DEFAULT = ["env", "--default-signal"]


def through_shell(words):
    """The words by which a shell runs a program after or with something else."""
    return ["sh", "-c", words, "sh"]


def test_two_bridges(bridge, folder):
    """A second bridge with the same path ends and changes nothing. What a killed one left is replaced."""
    bridge.begin()
    line, lock = os.readlink(bridge.line), f"{bridge.line}.lock"
    assert oct(stat.S_IMODE(os.stat(lock).st_mode)) == "0o600", "the lock is its user's alone"
    for _times in range(3):
        said = f"hci_bridge: {bridge.line}: another bridge uses it\n"
        assert bridge.call("hci0", bridge.line) == (75, said), "the second one"
        assert os.readlink(bridge.line) == line, "the link stays"
    bridge.end(signal.SIGKILL)
    assert os.path.islink(bridge.line), "a killed one leaves its link"
    os.remove(bridge.line)
    os.symlink("/dev/null", bridge.line)
    bridge.begin()
    assert bridge.moved("/dev/null"), "the next one replaces it"
    other = os.readlink(bridge.line)[:-1] + "x"
    os.remove(bridge.line)
    os.symlink(other, bridge.line)
    assert bridge.end() == 0, "it ends"
    assert os.readlink(bridge.line) == other, "another's link stays"
    assert os.path.exists(lock), "the lock stays"
    os.remove(lock)
    os.symlink(f"{folder}/made", lock)
    assert bridge.call("hci0", bridge.line)[0] == 71, "a lock that is a link"
    assert not os.path.exists(f"{folder}/made"), "it is not followed"


@pytest.mark.parametrize("how", [signal.SIGTERM, signal.SIGINT, signal.SIGHUP], ids=lambda it: it.name)
def test_signals(bridge, how):
    """SIGTERM, SIGINT and SIGHUP end it: the controller is reset, and the line is gone."""
    bridge.plug_in()
    bridge.begin(*BY_DEFAULT)
    host = bridge.host()
    controller = bridge.controller()
    bridge.process.send_signal(how)
    assert last_packet(controller) == RESET, "a reset"
    assert bridge.process.wait(PATIENCE) == 0, "the status"
    assert not os.path.lexists(bridge.line), "the line"
    os.close(host)


def test_nohup(bridge):
    """Under nohup it goes on after SIGHUP."""
    bridge.plug_in()
    bridge.begin("nohup")
    bridge.process.send_signal(signal.SIGHUP)
    host = bridge.host()
    controller = bridge.controller()
    os.write(host, bytes.fromhex(RESET))
    assert controller.stream.recv().hex() == RESET, "it serves"
    os.close(host)
    assert bridge.end() == 0, "it ends"


def test_a_folder_that_is_gone(bridge, folder):
    """If the folder of the path is gone, the bridge goes on. Its line comes back with the folder."""
    os.mkdir(f"{folder}/run")
    bridge.line = f"{folder}/run/line"
    bridge.plug_in()
    bridge.begin()
    missing = f"{bridge.line}.lock: No such file or directory"
    descriptors = bridge.descriptors()
    for times, is_made_again in enumerate((False, True), 1):
        old = os.readlink(bridge.line)
        host = bridge.host()
        controller = bridge.controller()
        os.rename(f"{folder}/run", f"{folder}/away{times}")
        controller.close()
        assert bridge.logs(missing, times), "the log says so"
        time.sleep(1.2)
        assert bridge.said().count(f"hci_bridge: {missing}") == times, "once"
        assert not is_hung_up(host), "the old line is there"
        if is_made_again:
            os.mkdir(f"{folder}/run")
        else:
            os.rename(f"{folder}/away{times}", f"{folder}/run")
        assert bridge.moved(old), "the line is there again"
        assert soon(lambda: is_hung_up(host)), "the old one ends"
        assert soon(lambda: descriptors == bridge.descriptors()), "no descriptor is left"
        os.close(host)
    assert bridge.call("hci0", bridge.line)[0] == 75, "it is locked again"
    device = Device(*DOOR, "--serial", bridge.line)
    controller = bridge.controller()
    assert controller.is_advertised(), "a host is served"
    os.rename(f"{folder}/run", f"{folder}/away3")
    controller.close()
    assert bridge.logs(missing, 3), "the log says so again"
    assert bridge.end() == 0, "it ends while the folder is away"
    device.end()


@pytest.mark.parametrize(
    "closed", ["2>&-", "0<&- 2>&-", "0<&- 1>&- 2>&-"], ids=["error", "input_and_error", "all"]
)
def test_closed_descriptors(bridge, closed):
    """Started without standard descriptors, it has none of them for the line or the controller."""
    bridge.plug_in()
    bridge.begin(*through_shell(f'exec "$@" {closed}'))
    device = Device(*DOOR, "--serial", bridge.line)
    controller = bridge.controller()
    assert controller.is_advertised(), "it is advertised"
    numbers = [it[0] for it in closed.split()]
    has = {os.readlink(f"/proc/{bridge.process.pid}/fd/{it}") for it in numbers}
    assert has == {"/dev/null"}, "what they are"
    strange = [it.hex() for it in controller.stream.packets if not is_one_packet(it)]
    assert strange == [], "each packet is one"
    device.end()
    bridge.end()


def fill(descriptor):
    """Writes to what nobody reads until it takes no more."""
    os.set_blocking(descriptor, False)
    try:
        while True:
            os.write(descriptor, b"x")
    except BlockingIOError:
        os.set_blocking(descriptor, True)


def read_all(descriptor):
    """What can be read, until nothing more comes for two seconds: a busy system fills a terminal late."""
    octets = b""
    while select.select([descriptor], [], [], 2)[0]:
        octets += os.read(descriptor, 4096)
    return octets.decode()


@pytest.mark.parametrize("ends", [os.pipe, pty.openpty], ids=["pipe", "terminal"])
def test_a_log_that_nobody_reads(bridge, ends):
    """A log that takes nothing, or a part of a line, stops nothing. The lines that it lacks are counted."""
    bridge.plug_in()
    reader, writer = ends()
    fill(writer)
    if ends is pty.openpty:
        os.read(reader, 2000)
    bridge.begin(log=writer)
    for host in range(61):
        if host == 60:
            said = read_all(reader)
        old = os.readlink(bridge.line)
        line = bridge.host()
        controller = bridge.controller()
        os.close(line)
        last_packet(controller)
        bridge.moved(old)
    said = (said + read_all(reader)).replace("\r", "").lstrip("x")
    said = [it.removeprefix("hci_bridge: ") for it in said.splitlines()]
    counted = [int(it.split()[0]) for it in said if it.endswith(" lines of the log dropped")]
    # A busy system makes space in a terminal late, so it takes further lines meanwhile, or all of them.
    assert len(counted) == 1 or ends is pty.openpty, "the lines are counted once"
    whole = [it for it in said if it in ("hci0: ready", "hci0: open for a host", "hci0: free")]
    assert len(whole) + sum(counted) == 1 + 61 * 2, "as many as are missing"
    assert len(said) - len(whole) - len(counted) < 2, "at most one is cut"
    fill(writer)
    assert bridge.end() == 0, "it ends"
    assert not os.path.lexists(bridge.line), "its line is gone"


def test_a_log_that_may_not_grow(bridge):
    """A log in a file that may not grow stops neither a host nor the end."""
    bridge.plug_in()
    bridge.begin(*through_shell('ulimit -f 0; exec "$@"'))
    device = Device(*DOOR, "--serial", bridge.line)
    assert bridge.controller().is_advertised(), "it is advertised"
    device.end()
    assert bridge.end() == 0, "it ends"
    assert bridge.said() == [], "the log is empty"


def test_a_file_in_the_way(bridge):
    """A path with a file is refused, and the file stays."""
    with open(bridge.line, "w") as file:
        file.write("mine")
    assert bridge.call("hci0", bridge.line) == (71, f"hci_bridge: {bridge.line}: File exists\n"), "a file"
    assert text_of(bridge.line) == "mine", "it stays"


def test_no_folder(bridge, folder):
    """A path in a folder that is not there is refused."""
    assert bridge.call("hci0", f"{folder}/none/line")[0] == 71, "no folder"


@pytest.mark.parametrize(
    "words", ["", "hci0", "eth0 x", "--up hci0 x", "hci0 x y"], ids=lambda it: it.replace(" ", "_") or "none"
)
def test_words(bridge, words):
    """Words that are not understood say how it is called."""
    assert bridge.call(*words.split()) == (64, USAGE), words
