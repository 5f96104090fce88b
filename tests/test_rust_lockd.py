"""Plays a controller with phones to rust/examples/lockd.rs, kills it, and checks what it has saved."""

import os
import queue
import random
import signal
import socket
import subprocess
import threading
import time

import pytest
from phones import OWNER, STRANGER, TABLET

from parties.building import once, ran
from parties.compiling import FLAGS, compilers
from parties.lock_daemon import (
    CODE, CONFIGURATION, FOUND, HOST_ENDED, KEYS, NOTE, NOTIFIED, READ, RESET, STATE, TABLE, WRITE, WRITTEN,
    LockDaemon, Terminal, made, row, text_of,
)
from parties.places import PATIENCE, ROOT
from parties.rust import need_rust, rust_lockd

need_rust()
pytestmark = pytest.mark.without_program

# How long the lock lets a phone stay without a key, in seconds.
STAY = 30
# How often each of the tests kills it.
ROUNDS = 25


class Door(LockDaemon):
    """A lock whose controller listens at a Unix socket, unless there is a serial line."""

    def __init__(self, program, state, line=None, more=None):
        path = line.name if line else f"{state}.socket"
        words = [program, TABLE, KEYS, state, path]
        if line:
            self.start(words, more)
            return self.play(line)
        with socket.socket(socket.AF_UNIX) as server:
            server.bind(path)
            server.listen()
            self.start(words, more)
            server.settimeout(PATIENCE)
            stream = server.accept()[0]
            stream.settimeout(None)
        os.remove(path)
        self.play(stream)

    def tablet(self):
        """Returns a connection of the tablet, which has its key."""
        tablet = self.connect(TABLET)
        assert tablet.encrypt(), "the tablet has its key"
        return tablet


@pytest.fixture
def lockd():
    """The path of the lock."""
    return rust_lockd()


@pytest.fixture
def order():
    """The library that writes down the order of saving and sending."""
    if not compilers():
        pytest.skip("there is no C compiler here")
    words = [compilers()[0], *FLAGS, "-shared", "-fPIC", "tests/c/order.c", "-ldl", "-o"]
    return once("order.so", lambda path: ran([*words, path], "order.c"))


def first_day(lockd, state):
    """Phones use a lock."""
    door = Door(lockd, state)
    assert door.turned() == "motor: shut", "the door begins shut"
    tablet = door.connect(TABLET)
    refused = b"\x01\x12\x0a\x00\x0f"
    assert tablet.ask(WRITE + STATE + b"\x01") == refused, "without its key the tablet may not open"
    assert tablet.encrypt(), "the tablet has its key"
    assert tablet.ask(WRITE + CONFIGURATION + b"\x01\x00") == WRITTEN, "the tablet subscribes"
    assert text_of(f"{state}/rows") == row(TABLET, 11), "the subscription is saved once it is answered"
    assert tablet.ask(WRITE + STATE + b"\x01") == WRITTEN, "the tablet opens"
    assert text_of(f"{state}/values") == "10 fff1 01\n", "the value is saved once it is answered"
    assert door.turned() == "motor: open", "the motor opens"
    assert tablet.ask(WRITE + NOTE + b"key") == WRITTEN, "the tablet leaves a note"
    assert tablet.ask(READ + CODE)[0] == 1, "the tablet is not authorized"
    door.press("allow 2\nnonsense\n")
    until = time.monotonic() + PATIENCE
    while (answer := tablet.ask(READ + CODE))[:1] != FOUND and time.monotonic() < until:
        time.sleep(0.01)
    assert answer == FOUND + b"1234", "the tablet is authorized"
    time.sleep(2.1)
    assert tablet.ask(READ + CODE)[0] == 1, "the authorization ends"
    door.press("shut\n")
    assert tablet.receive() == NOTIFIED + STATE + b"\x00", "the tablet is notified of the panel"
    assert door.turned() == "motor: shut", "the panel shuts"
    door.press("open\n")
    assert tablet.receive() == NOTIFIED + STATE + b"\x01", "the tablet is notified again"
    assert door.turned() == "motor: open", "the panel opens"
    stranger = door.connect(STRANGER)
    assert stranger.ask(READ + b"\x03\x00") == FOUND + b"Lock", "a stranger reads the name"
    door.press("stop\n")
    for phone in (tablet, stranger):
        found = phone.heard.get(timeout=PATIENCE), phone.reason
        assert found == (None, HOST_ENDED), "stop ends each connection"
    assert door.ended() == (0, "lockd: unknown: nonsense\n"), "stop ends the lock in order"
    assert door.sent[-1] == RESET and door.sent.count(RESET) == 2, "its controller is reset"
    assert text_of(f"{state}/values") == "10 fff1 01\n21 fff4 6b6579\n", "the values are saved"
    assert sorted(os.listdir(state)) == ["rows", "values"], "nothing else is left"


def next_day(lockd, state):
    """The next lock has what the first one has saved."""
    door = Door(lockd, state)
    assert door.turned() == "motor: open", "the next lock opens the door again"
    tablet = door.tablet()
    assert tablet.ask(READ + NOTE) == FOUND + b"key", "the note is there"
    door.press("shut\n")
    assert tablet.receive() == NOTIFIED + STATE + b"\x00", "the subscription is there"
    tablet.drop()
    door.stream.shutdown(socket.SHUT_WR)
    status, text = door.ended()
    assert status == 1 and "the controller has ended" in text, "the lock ends with its controller"


def test_days(lockd, folder):
    """Phones use a lock, and the next one."""
    state = made(f"{folder}/day")
    first_day(lockd, state)
    next_day(lockd, state)


def test_a_serial_line(lockd, folder):
    """The lock serves a serial line: a pseudo-terminal."""
    door = Door(lockd, made(f"{folder}/line"), Terminal(is_raw=True))
    tablet = door.tablet()
    every = bytes(range(256))
    assert tablet.ask(b"\x02\xf7\x00") == b"\x03\xf7\x00", "the tablet takes longer PDUs"
    for part in (every[:230], every[26:]):
        assert tablet.ask(WRITE + NOTE + part) == WRITTEN, "each byte passes a serial line"
        assert tablet.ask(READ + NOTE) == FOUND + part, "each byte comes back"
    door.press("stop\n")
    assert door.serving.wait(timeout=PATIENCE) == 0, "stop ends the lock in order"


def test_order(lockd, folder, order):
    """Each change is on the disk before its answer is sent: the file, its new name, and the folder."""
    state, log = made(f"{folder}/order"), f"{folder}/order.log"
    door = Door(lockd, state, more={"LD_PRELOAD": order, "ORDER": log})
    tablet = door.tablet()
    changes = [("values", NOTE + b"1"), ("rows", CONFIGURATION + b"\x01\x00"), ("values", STATE + b"\x01")]
    changes += [("values", NOTE + b"2"), ("rows", CONFIGURATION + b"\x00\x00"), ("values", STATE + b"\x00")]
    for _, change in changes:
        assert tablet.ask(WRITE + change) == WRITTEN, "each change is accepted"
    door.press("stop\n")
    assert door.ended()[0] == 0, "stop ends the lock in order"
    saved, answers = [], []
    for event in text_of(log).splitlines():
        word, rest = event.split(" ", 1)
        if word != "send":
            saved.append(event)
        elif rest.startswith("02") and bytes.fromhex(rest)[9:] == WRITTEN:
            answers.append(saved[-3:])
            saved = []
    expected = []
    for it, _ in changes:
        new = f"{state}/{it}.new"
        expected.append([f"sync {new}", f"rename {new} {state}/{it}", f"sync {state}"])
    assert answers == expected, "each change is on the disk before its answer is sent"


def test_no_disk(lockd, folder):
    """A lock that cannot save answers the others, and goes on."""
    state = made(f"{folder}/disk")
    door = Door(lockd, state)
    tablet, owner = door.tablet(), door.connect(OWNER)
    assert tablet.ask(WRITE + NOTE + b"1") == WRITTEN, "the tablet leaves a note"
    os.rename(state, f"{state}.away")
    tablet.send(WRITE + NOTE + b"2")
    found = tablet.receive(), tablet.reason
    assert found == (None, HOST_ENDED), "a write that is not saved is not answered"
    assert owner.ask(READ + b"\x03\x00") == FOUND + b"Lock", "others are served"
    os.rename(f"{state}.away", state)
    until = time.monotonic() + PATIENCE
    while text_of(f"{state}/values") != "21 fff4 32\n" and time.monotonic() < until:
        time.sleep(0.01)
    assert text_of(f"{state}/values") == "21 fff4 32\n", "the lock tries again to save"
    tablet = door.tablet()
    assert tablet.ask(WRITE + NOTE + b"3") == WRITTEN, "the tablet leaves a note again"
    door.serving.kill()
    status, text = door.ended()
    assert "lockd: cannot save: No such file" in text, "the lock reports what it cannot save"
    assert "lockd: all is saved" in text, "and that all is saved again"
    assert text_of(f"{state}/values") == "21 fff4 33\n", "the last note is saved"


def test_a_motor_that_waits(lockd, folder):
    """The motor does not follow a value that cannot be saved, and does once it is saved."""
    state = made(f"{folder}/motor")
    door = Door(lockd, state)
    assert door.turned() == "motor: shut", "the door begins shut"
    tablet = door.tablet()
    os.rename(state, f"{state}.away")
    tablet.send(WRITE + STATE + b"\x01")
    found = tablet.receive(), tablet.reason
    assert found == (None, HOST_ENDED), "a write that is not saved is not answered"
    assert door.motor.empty(), "the motor waits"
    os.rename(f"{state}.away", state)
    assert door.turned() == "motor: open", "once it is saved, the motor turns"
    assert text_of(f"{state}/values") == "10 fff1 01\n", "and it is saved"
    door.press("stop\n")
    assert door.ended()[0] == 0, "stop ends the lock in order"


def test_refused(lockd, folder):
    """How the lock ends if it cannot begin."""
    state = made(f"{folder}/refused")

    def ended(*words):
        how = {"stdin": subprocess.DEVNULL, "capture_output": True, "text": True, "timeout": PATIENCE}
        ended = subprocess.run([lockd, *words], **how)
        return ended.returncode, ended.stderr

    assert ended()[0] == 64, "no words are not understood"
    status, text = ended(f"{folder}/nothing", KEYS, state, "/dev/null")
    assert status == 1 and "nothing: No such file" in text, "a table that does not exist"
    status, text = ended(KEYS, KEYS, state, "/dev/null")
    assert status == 1 and "table: " in text, "a table that is none"
    status, text = ended(TABLE, KEYS, state, f"{folder}/nothing")
    assert status == 1 and "nothing: No such file" in text, "a controller that does not exist"
    status, text = ended(f"{ROOT}/examples/bell.toml", KEYS, state, "/dev/null")
    assert status == 1 and "the table has no lock" in text, "a table without a lock"
    with open(f"{state}/values", "w", encoding="ascii") as file:
        file.write("10 fff1 01\n10 fff1\n")
    status, text = ended(TABLE, KEYS, state, "/dev/null")
    assert status == 1 and "line 2" in text, "values with a fault"


@pytest.mark.parametrize("seed", range(4))
@pytest.mark.long(10)
def test_kills(lockd, folder, seed):
    """A phone writes without an end, until the lock is killed: all that was answered is saved."""
    state = made(f"{folder}/killed")
    chosen = random.Random(seed)
    note, bits, answered, lost = b"", 0, 0, 0
    unanswered = None
    for turn in range(ROUNDS):
        door = Door(lockd, state)
        tablet = door.tablet()
        found = tablet.ask(READ + NOTE)[1:]
        rows = text_of(f"{state}/rows")
        # A write that was not answered may be saved or not.
        expected = [(note, bits)] + ([unanswered] if unanswered else [])
        lost += (found, 1 if rows else 0) not in expected
        note, bits = found, 1 if rows else 0
        killing = threading.Timer(chosen.uniform(0, 0.2), door.serving.send_signal, [signal.SIGKILL])
        killing.start()
        for step in range(1_000_000):
            is_note = chosen.random() < 0.7
            after = (f"{turn} {step}".encode(), bits) if is_note else (note, 1 - bits)
            request = NOTE + after[0] if is_note else CONFIGURATION + bytes((after[1], 0))
            tablet.send(WRITE + request)
            answer = tablet.receive()
            if answer != WRITTEN:
                assert answer is None, f"each write is answered, and not by {answer}"
                unanswered = after
                break
            (note, bits), answered = after, answered + 1
        killing.join()
        status, _ = door.ended()
        assert status == -signal.SIGKILL, f"the lock is killed, and does not end with {status}"
    assert lost == 0, f"each change that was answered is there after SIGKILL: not after {lost} of {ROUNDS}"
    assert answered >= ROUNDS // 2, f"the phone wrote: {answered} writes were answered"


@pytest.mark.long(31)
def test_stay(lockd, folder):
    """A phone without a key may stay for a while, and one with a key stays."""
    door = Door(lockd, made(f"{folder}/silent"))
    began, left = time.monotonic(), queue.Queue()
    stranger, tablet = door.connect(STRANGER), door.tablet()

    def listen():
        left.put((stranger.heard.get(), time.monotonic() - began))

    threading.Thread(target=listen, daemon=True).start()
    told, stayed = left.get(timeout=STAY + PATIENCE)
    assert (told, stranger.reason) == (None, HOST_ENDED), "a phone without a key is disconnected"
    # The lock's clock counts whole milliseconds: seen from outside, the stay may end up to one early.
    assert STAY - 0.001 <= stayed < STAY + PATIENCE, f"after {STAY} s"
    assert tablet.ask(READ + b"\x03\x00") == FOUND + b"Lock", "a phone with a key stays"
