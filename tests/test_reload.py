"""Tries `reload`, by which a device reads its key file again."""

import os
import socket
import time

import pytest

from parties import (
    ADVERTISE_ENABLE, DISCONNECT, GUEST, GUEST_KEY, KEY, KEY_REFUSAL, OWNER, PATIENCE, STRANGER, Controller,
    Device, SerialLine, Visitor, controller_at, late, look, stream_to, text_of,
)
from parties.acts import Act
from parties.disks import Broken
from parties.homes import AT_GUEST, AT_OWNER, guest_comes, has_saved, owner_comes, read, write
from parties.places import write_text
from parties.supervised import Supervisor
from parties.tables import GUEST_NAME, KEYS, OWNER_NAME, SENSOR, VALUE, VALUE_CONFIG, spelled
from parties.watching import highest, limit, spent

RESET = 0x0C03
SAME = "keys: the same as before: "
NOT_AGAIN = "keys: not read again: "


class Keys:
    """The key file of a device: the entries of the example, by their numbers from 0."""

    def __init__(self, folder):
        self.path = f"{folder}/keys.toml"
        head, *entries = text_of(KEYS).split("[[key]]\n")
        self.head, self.entries = head, ["[[key]]\n" + it for it in entries]
        self.put(0, 1, 2)

    def put(self, *numbers, more=""):
        write_text(f"{self.path}.new", self.head + "".join(self.entries[it] for it in numbers) + more)
        os.chmod(f"{self.path}.new", 0o600)
        os.replace(f"{self.path}.new", self.path)


@pytest.fixture
def keys(folder):
    return Keys(folder)


class Place:
    """A device with its key file, which a test changes, and its socket."""

    def __init__(self, home, keys):
        self.home, self.keys, self.socket = home, keys, home.socket

    def start(self, *words, through=(), saved=True):
        words = ["--listen", "127.0.0.1:0", "--application", self.socket, *(self.home.saved if saved else []), *words]
        self.device = Device(self.home.table, self.keys.path, *words, through=through)
        return self.device

    def controller(self):
        controller = controller_at(self.device)
        assert controller.is_advertised(), "a controller is served"
        return controller

    def reload(self, controller=None):
        """The answer to `reload`, while a controller answers."""
        if controller is None:
            return look(self.socket, "reload")
        visitor = Visitor(self.socket)
        visitor.say("reload")
        controller.until(lambda: controller.is_gone, 6)
        found = [visitor.line()]
        visitor.close()
        return found


@pytest.fixture
def place(home, keys):
    return Place(home, keys)


def test_a_key_that_is_added(place):
    """A key that is added serves: all connections end, and values and the application stay."""
    place.keys.put(1)
    device = place.start()
    controller = place.controller()
    owner_comes(controller)
    application = place.home.application()
    assert application.ask(f"update {SENSOR} 2a") == "ok", "a value that is not saved"
    assert write(controller, VALUE, "0102") == "13" and write(controller, VALUE_CONFIG, "0100") == "13"
    application.lines(2)
    place.keys.put(0, 1)
    assert place.reload(controller) == ["ok"]
    assert [it[1].hex() for it in controller.commands if it[0] == DISCONNECT] == ["410013"], "the owner is ended"
    assert controller.commands[-1][0] == RESET and controller.is_gone, "the controller is reset and released"
    heard = [*application.up_to("+ waiting")]
    assert heard == ["+ ending 1 13", "+ disconnected 1", "+ waiting"], "what an application reads"
    controller = place.controller()
    assert application.line() == "+ serving", "it stays"
    controller.connect(AT_GUEST, GUEST)
    assert controller.encrypt(AT_GUEST, GUEST_KEY), "the new key"
    assert application.lines(2) == ["+ connected 2 1 c0:00:00:00:00:01", "+ secured 2 16 0 0"], "names go on"
    owner_comes(controller)
    found = read(controller, VALUE), read(controller, VALUE_CONFIG)
    assert found == ("0102", "0100"), "the old key, and what it wrote"
    assert read(controller, SENSOR) == "2a", "a value in memory"
    assert device.logged("keys: ") == [f"keys: read again: {place.keys.path}"]
    has_saved("the state", place.home, [f"{OWNER_NAME} {VALUE_CONFIG} 1"], [f"{VALUE} fff1 0102"])


@pytest.mark.parametrize("saved", [True, False], ids=["saved", "in-memory"])
def test_a_key_that_is_gone(place, saved):
    """A key that is gone serves no more. Without `--drop-unknown` a saved subscription of its peer refuses that."""
    device = place.start(saved=saved)
    controller = place.controller()
    guest_comes(controller)
    assert write(controller, VALUE_CONFIG, "0100", AT_GUEST) == "13", "a subscription"
    place.keys.put(1, 2)
    if saved:
        why = f"{place.home.path}: no key of the peer 1 c0:00:00:00:00:01 (--drop-unknown drops it)"
        assert place.reload() == [f"fault 9: not read again: {why}"]
        assert device.said(NOT_AGAIN) == why, "the log"
        assert read(controller, VALUE, AT_GUEST) == "00", "no link is ended"
        return
    assert place.reload(controller) == ["ok"]
    assert device.said("subscription dropped: ").startswith(GUEST_NAME), "the log"
    controller = place.controller()
    controller.connect(AT_GUEST, GUEST)
    controller.event(0x3E, b"\5" + spelled_handle(AT_GUEST) + GUEST_KEY[0] + GUEST_KEY[1].to_bytes(2, "little"))
    assert controller.command(KEY_REFUSAL) == spelled_handle(AT_GUEST).hex(), "no key"
    device.said("no key: connection 2")


def spelled_handle(handle):
    return handle.to_bytes(2, "little")


def test_drop_unknown(place):
    """With `--drop-unknown` the subscriptions of a peer whose key is gone are dropped and saved so."""
    device = place.start("--drop-unknown")
    controller = place.controller()
    guest_comes(controller)
    owner_comes(controller)
    assert write(controller, VALUE_CONFIG, "0100", AT_GUEST) == write(controller, VALUE_CONFIG, "0100") == "13"
    place.keys.put(1, 2)
    assert place.reload(controller) == ["ok"]
    assert device.said("subscription dropped: ").startswith(GUEST_NAME), "the log"
    place.controller()
    has_saved("the state", place.home, [f"{OWNER_NAME} {VALUE_CONFIG} 1"])


def test_saved_before_the_answer(place):
    """What is dropped is saved before `reload` is answered, also without a controller."""
    device = place.start("--drop-unknown")
    controller = place.controller()
    guest_comes(controller)
    assert write(controller, VALUE_CONFIG, "0100", AT_GUEST) == "13", "a subscription"
    controller.close()
    device.said("controller gone")
    has_saved("before", place.home, [f"{GUEST_NAME} {VALUE_CONFIG} 1"])
    place.keys.put(1, 2)
    visitor = Visitor(place.socket)
    assert visitor.ask("reload") == "ok"
    has_saved("the state", place.home)
    visitor.close()


@pytest.mark.parametrize("fault", ["no TOML", "a wrong key", "not there", "a folder", "not to be read"])
def test_a_faulty_file(place, fault):
    """A file that a start would refuse changes nothing and ends no link. Answer and log have path and reason."""
    device = place.start()
    controller = place.controller()
    owner_comes(controller)
    path = place.keys.path
    os.remove(path)
    if fault == "no TOML":
        write_text(path, "[[key]\n")
    elif fault == "a wrong key":
        place.keys.put(0, more="[[key]]\naddress = \"1\"\n")
    elif fault == "a folder":
        os.mkdir(path)
    elif fault == "not to be read":
        os.symlink("/proc/self/mem", path)
    [answer] = place.reload()
    assert answer.startswith(f"fault 9: not read again: {path}: "), answer
    assert device.said(NOT_AGAIN) == answer.split("again: ")[1], "the log"
    assert read(controller, VALUE) == "00", "no link is ended"
    assert [it for it in controller.commands if it[0] == DISCONNECT] == [], "nobody is ended"
    if fault == "a folder":
        os.rmdir(path)
    place.keys.put(0, 1)
    assert place.reload(controller) == ["ok"], "a right one afterwards"


def test_the_place_of_a_fault(place):
    """The place of a fault is searched for in up to 4,096 bytes. Clients do not wait while a device searches more."""
    device = place.start()
    device.port()
    more = "[[key]]\nsize = 17\n"
    place.keys.put(0, more=f"{more}# {'x' * 3_000}\n")
    assert place.reload()[0].endswith(": keys: fault 2: key 2, address: the key is missing"), "a small file"
    device.said(NOT_AGAIN)
    place.keys.put(0, more=f"{more}# {'x' * 4_100}\n")
    assert place.reload()[0].endswith(": keys: fault 2"), "a large one"
    place.keys.put(0, more=f"# {'x' * 2_097_152}\n")
    assert place.reload()[0].endswith(": keys: fault 8"), "one above the limit"
    os.remove(place.keys.path)
    os.symlink("/dev/zero", place.keys.path)
    assert place.reload() == [f"fault 9: not read again: {place.keys.path}: not a file"], "one without an end"


def test_a_key_at_the_place_of_a_name(place):
    """Neither the answer nor the log has the digits of a key that stands at the place of a name."""
    device = place.start()
    device.port()
    secret = "ffeeddccbbaa99887766554433221100"
    place.keys.put(0, more=f"{secret} = 1\n")
    [answer] = place.reload()
    assert answer.endswith("key 1, [hexadecimal digits]: there is no such key"), "the answer"
    device.said(NOT_AGAIN)
    assert secret not in answer + "".join(device.log), "the digits"


@pytest.mark.parametrize("change", ["none", "a comment"])
def test_equal_keys(place, change):
    """A file with the same keys ends no link, and is a line of the log."""
    device = place.start()
    controller = place.controller()
    owner_comes(controller)
    place.keys.put(0, 1, 2, more="" if change == "none" else "\n# A comment.\n")
    assert place.reload() == ["ok"]
    assert device.said(SAME) == place.keys.path
    assert read(controller, VALUE) == "00", "no link is ended"


def test_before_a_controller(place):
    """Before the first controller, and between two, a reload is done at once."""
    place.keys.put(0)
    device = place.start()
    device.port()
    place.keys.put(0, 1)
    begun = time.monotonic()
    assert place.reload() == ["ok"]
    assert time.monotonic() - begun < late(1), "at once"
    controller = place.controller()
    controller.connect(AT_OWNER, OWNER)
    assert controller.encrypt(AT_OWNER, KEY), "the key serves"
    controller.close()
    device.said("controller gone")
    place.keys.put(1)
    assert place.reload() == ["ok"], "between two"
    assert place.controller().is_advertised(), "the next one"


def test_once(place):
    """A device with `--once` goes on after a reload, and ends when the next controller is gone."""
    device = place.start("--once")
    controller = place.controller()
    place.keys.put(0, 1)
    assert place.reload(controller) == ["ok"]
    place.controller().close()
    assert device.process.wait(PATIENCE) == 0, "it ends"


@pytest.mark.parametrize("how, status, words", [
    ("gone", 0, "controller gone"), ("broken", 2, "stopped: "),
], ids=["gone", "broken"])
def test_once_while_it_reloads(place, how, status, words):
    """A device with `--once` ends if its controller goes or breaks while a reload waits, and answers the reload."""
    device = place.start("--once")
    controller = place.controller()
    owner_comes(controller)
    # The connection does not end.
    controller.take = lambda packet: None
    place.keys.put(0, 1)
    visitor = Visitor(place.socket)
    visitor.say("reload")
    device.said("keys: read again: ")
    if how == "gone":
        controller.close()
    else:
        controller.event(0x10, b"\1")
    assert visitor.line() == "fault 9: not read again: the device ends", "the answer"
    device.said(words)
    assert device.process.wait(PATIENCE) == status, "it ends"


@pytest.mark.parametrize("way", ["--serial", "--connect"])
def test_ways_to_a_controller(place, home, way):
    """The device reaches the same controller again by itself."""
    if way == "--serial":
        line = SerialLine(f"{home.folder}/line")
        address, stream = line.path, lambda: line
    else:
        listener = socket.create_server(("127.0.0.1", 0))
        listener.settimeout(PATIENCE)
        address, stream = "%s:%d" % listener.getsockname(), lambda: listener.accept()[0]
    place.device = Device(home.table, place.keys.path, way, address, "--application", home.socket)
    controller = Controller(stream())
    assert controller.is_advertised(), "it is reached"
    place.keys.put(1)
    visitor = Visitor(home.socket)
    visitor.say("reload")
    if way == "--connect":
        controller.until(lambda: controller.is_gone)
        controller = Controller(stream())
        assert controller.is_advertised(), "it is reached again"
    else:
        assert controller.command(ADVERTISE_ENABLE, 2) == "01", "it is reached again"
        assert [it[0] for it in controller.commands].count(RESET) == 3, "one reset more than two starts have"
    assert visitor.line() == "ok"
    controller.connect(AT_OWNER, OWNER)
    assert controller.encrypt(AT_OWNER, KEY), "a key"


def test_a_silent_controller(place):
    """If the controller answers no more, the reload is over within five seconds."""
    place.start()
    controller = place.controller()
    owner_comes(controller)
    place.keys.put(0, 1)
    begun = time.monotonic()
    assert place.reload() == ["ok"]
    assert time.monotonic() - begun < late(5), "within five seconds"
    assert place.controller().is_advertised(), "the next one"


def test_two_at_once(place):
    """Lines that come within a reload are executed after it, in order."""
    place.start()
    controller = place.controller()
    owner_comes(controller)
    application = place.home.application()
    place.keys.put(0, 1)
    visitor = Visitor(place.socket)
    visitor.say("reload")
    application.stream.sendall(f"reload\nupdate {SENSOR} 07\nvalue {SENSOR}\n".encode())
    other = Visitor(place.socket)
    other.say("stop")
    controller.until(lambda: controller.is_gone, 6)
    assert visitor.line() == "ok", "the first one"
    answers = [it for it in application.up_to("END") if it != "END" and not it.startswith("+ ")]
    assert answers == ["ok", "ok", f"value {SENSOR} 07"], "the application's, the same keys"
    assert other.line() == "ok", "the stop is last"
    assert place.device.process.wait(PATIENCE) == 0


def test_while_nothing_is_saved(place):
    """A reload while saving fails loses nothing: what was not saved is saved afterwards."""
    place.keys.put(0, 1)
    device = place.start()
    controller = place.controller()
    owner_comes(controller)
    application = place.home.application()
    broken = Broken(place.home)
    assert application.ask(f"update {VALUE} 2a").startswith("+ unsaved"), "it is not saved"
    assert application.line() == "ok"
    place.keys.put(0, 1, 2)
    assert place.reload(controller) == ["ok"]
    broken.mend()
    device.said("saved again:")
    has_saved("the state", place.home, values=[f"{VALUE} fff1 2a"])
    controller = place.controller()
    owner_comes(controller)
    assert read(controller, VALUE) == "2a", "the value"


def test_an_application_that_comes_meanwhile(place):
    """A connection that is made within a reload is served after it."""
    place.start()
    controller = place.controller()
    owner_comes(controller)
    place.keys.put(0, 1)
    visitor = Visitor(place.socket)
    visitor.say("reload")
    time.sleep(0.2)
    other = Visitor(place.socket)
    other.say("connections")
    controller.until(lambda: controller.is_gone, 6)
    assert (visitor.line(), other.line()) == ("ok", "ok")


def test_an_application_that_is_accepted_later(place):
    """A device that cannot accept an application takes no processor time until it tries again, after a reload too."""
    place.keys.put(0, 1)
    device = place.start()
    controller = place.controller()
    application = place.home.application()
    limit(device, highest(device) + 1)
    with socket.socket(socket.AF_UNIX) as later:
        later.connect(place.socket)
        device.said("application: not accepted: ")
        limit(device, 1024)
        place.keys.put(1)
        application.say("reload")
        controller.until(lambda: controller.is_gone, 6)
        before = spent(device.process.pid)
        time.sleep(0.5)
        assert spent(device.process.pid) - before < 50, "processor time of 0.5 seconds, in milliseconds"
        assert later.recv(9) == b"+ started", "accepted, and the application after a second"


def test_the_supervisor(place, folder):
    """A supervisor hears that the device reloads, and that it is ready again."""
    supervisor = Supervisor(f"{folder}/notify")
    place.start(through=supervisor.through())
    controller = place.controller()
    supervisor.hear("STATUS=serving")
    assert place.reload() == ["ok"], "the same keys"
    place.keys.put(0, 1)
    before = time.monotonic_ns() // 1000
    assert place.reload(controller) == ["ok"]
    begun, *_, last = supervisor.hear("READY=1")
    words = begun.split("\n")
    assert words[0] == "RELOADING=1" and words[1].startswith("MONOTONIC_USEC="), "it reloads"
    assert before <= int(words[1].split("=")[1]) <= time.monotonic_ns() // 1000, "the moment"
    assert last == "READY=1", "it is ready again"


# Four clients by their handles, with the keys that they have.
CLIENTS = [
    (64, OWNER, KEY), (65, GUEST, GUEST_KEY), (66, STRANGER, None), (67, bytes.fromhex("010b00000000c0"), None),
]


class Load:
    """Four clients that write one number after another, each by a Write Request, until they are told to end."""

    def __init__(self, device):
        self.device = device
        self.is_over = False
        # The last number that was written, and the last one that was answered.
        self.written = self.answered = self.controllers = 0

    def run(self):
        while not self.is_over:
            controller = Controller(stream_to(self.device))
            try:
                self.serve(controller)
            except OSError:
                # The device has closed the connection.
                pass
            controller.close()

    def serve(self, controller):
        controller.until(lambda: any(it[0] == ADVERTISE_ENABLE for it in controller.commands), 5)
        self.controllers += 1
        for handle, peer, key in CLIENTS:
            controller.connect(handle, peer)
            if key and not controller.is_gone:
                controller.encrypt(handle, key)
        while not self.is_over and not controller.is_gone:
            for handle, _, _ in CLIENTS:
                self.written += 1
                controller.say(handle, f"12{spelled(VALUE)}{self.written:08x}")
                answer = controller.hears(handle, 4)
                if answer is None:
                    break
                assert answer == "13", "a write"
                self.answered = self.written


@pytest.mark.long(60)
def test_many_reloads(place):
    """200 reloads while four clients write: no answered write is lost, and no line has two answers."""
    device, reloads, answers, heard = place.start("--slots", "4"), 200, [], []
    device.said("ready")
    application = place.home.application()
    load = Load(device)
    loading = Act(load.run)
    for count in range(reloads):
        place.keys.put(*((0, 1) if count % 2 == 0 else (0, 1, 2)))
        answers += look(place.socket, "reload")
        until = time.monotonic() + 0.03
        while time.monotonic() < until and (line := application.line(0.03)):
            heard.append(line)
    load.is_over = True
    loading.end(60)
    assert answers == ["ok"] * reloads, "each reload"
    assert load.controllers > reloads / 2, "they were served in between"
    heard += application.up_to("+ waiting") if heard[-1] != "+ waiting" else []
    while line := application.line(0.2):
        heard.append(line)
    written = [int(it.split()[-1], 16) for it in heard if it.startswith("+ written")]
    assert written == sorted(set(written)), "the application reads each write once, in order"
    controller = place.controller()
    owner_comes(controller)
    found = int(read(controller, VALUE), 16)
    assert load.answered <= found <= load.written, "the last one that was answered is there"
    assert written[-1] == found, "the application knows it"
    assert f"\n{VALUE} fff1 {found:08x}\n" in place.home.state(), "and it is saved"
