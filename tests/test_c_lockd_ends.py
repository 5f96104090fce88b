"""Ends examples/c/lockd.c at any moment, and looks for what it has to remember."""

import random
import signal
import threading

import pytest
from phones import TABLET

from parties.compiling import need_archive, there, words_of
from parties.lock_daemon import (
    CONFIGURATION, NOTE, READ, STATE, WRITE, WRITTEN, listening, made, row, text_of,
)

need_archive()
pytestmark = pytest.mark.without_program


@pytest.fixture(params=there())
def lockd(request):
    """The words that start lockd, in each form that is here."""
    return words_of(request.param, "lockd")


def is_slow(words):
    """Tells whether another program runs the lock."""
    return len(words) > 1


def test_a_signal(lockd, folder):
    """A phone configures without an end, until SIGTERM ends the lock: what was answered is saved."""
    place = made(f"{folder}/signal")
    rounds = 2 if is_slow(lockd) else 10
    kept = answered = 0
    for turn in range(rounds):
        before = text_of(f"{place}/rows")
        door = listening(lockd, place)
        tablet = door.connect(TABLET)
        tablet.encrypt()
        moment = random.Random(turn).uniform(0.01, 0.2)
        ending = threading.Timer(moment, door.serving.send_signal, [signal.SIGTERM])
        if turn > 0:
            ending.start()
        saved, last = before or "", None
        for step in range(100_000):
            # The first time some answers come before the signal, however slow the machine is.
            if (turn, step) == (0, rounds + 1):
                ending.start()
            bits = step % 2 ^ 1
            tablet.send(WRITE + CONFIGURATION + bytes((bits, 0)))
            last = row(TABLET, 11) if bits else ""
            answer = tablet.receive()
            if answer != WRITTEN:
                break
            saved, answered = last, answered + 1
        ending.join()
        status = door.ended()
        assert status == (0, ""), f"SIGTERM in the middle ends the lock in order, and not with {status}"
        # What was not answered any more may have been taken in, or not.
        kept += (text_of(f"{place}/rows") or "") in (saved, last)
    assert kept == rounds, "after SIGTERM what was answered is saved"
    assert answered > rounds, "something was answered"


@pytest.mark.parametrize("seed", range(4))
@pytest.mark.long(10)
def test_kills(lockd, folder, seed):
    """A phone writes without an end, and the lock is killed at random moments: the next one has each value
    that was acknowledged, or the one that was sent after it."""
    place = made(f"{folder}/kills")
    # The second is the longest time until a kill, in seconds.
    rounds, longest = (2, 4) if is_slow(lockd) else (25, 0.1)
    chosen = random.Random(seed)
    acknowledged = {STATE: b"\0", NOTE: b"", CONFIGURATION: b"\0\0"}
    sent = dict(acknowledged)
    lost, answered = [], 0
    for turn in range(rounds + 1):
        door = listening(lockd, place)
        tablet = door.connect(TABLET)
        tablet.encrypt()
        for handle, value in acknowledged.items():
            found = tablet.ask(READ + handle)[1:]
            if found not in (value, sent[handle]):
                lost.append(f"start {turn}, handle {handle[0]}: {found.hex()} in place of {value.hex()}")
            acknowledged[handle] = sent[handle] = found
        if turn == rounds:
            break
        killing = threading.Timer(chosen.uniform(0, longest), door.serving.kill)
        killing.start()
        for step in range(100_000):
            handle = chosen.choice((STATE, NOTE, CONFIGURATION))
            bit = step % 2
            values = {STATE: bytes((bit,)), NOTE: f"{turn} {step}".encode(), CONFIGURATION: bytes((bit, 0))}
            value = values[handle]
            sent[handle] = value
            tablet.send(WRITE + handle + value)
            if tablet.receive() != WRITTEN:
                break
            acknowledged[handle] = value
            answered += 1
        killing.join()
        door.ended()
    door.serving.send_signal(signal.SIGTERM)
    assert door.ended() == (0, ""), "the last lock ends in order"
    assert lost[:5] == [], f"after SIGKILL each acknowledged value is there, of {answered}"
    assert answered > rounds, "something was answered"
