"""Kills a device at random moments, and looks whether it has saved what it had answered."""

import random
import re
import threading
import time

import pytest

from parties import DOOR, OWNER, Device, controller_at, text_of
from parties.homes import AT_GUEST, AT_OWNER, guest_comes
from parties.tables import (
    GUEST_NAME, LONG, OWNER_NAME, SENSOR, SENSOR_CONFIG, VALUE, VALUE_CONFIG, sealed, spelled,
)

# How often a test kills its device.
KILLS = 25
# How long a round takes at least, in seconds.
LEAST = 0.02


class Killer:
    """Kills devices at random moments within their first rounds."""

    def __init__(self, seed):
        self.draws = random.Random(seed)
        self.round_takes = LEAST
        self.rounds = 0

    def play(self, device, one_round):
        """Plays rounds until a device is killed, and counts those that ended."""
        timer = threading.Timer(self.draws.uniform(0, 4 * self.round_takes), device.end)
        timer.start()
        begun, rounds = time.monotonic(), 0
        try:
            while one_round():
                rounds += 1
        except OSError:
            pass
        timer.join()
        # The moments follow the machine: on a slow one no round would end within those of a fast one.
        self.round_takes = max(LEAST, (time.monotonic() - begun) / (rounds + 1))
        self.rounds += rounds


class Actor:
    """Something that one party changes again and again: which number it was answered last, and which
    it said last."""

    def __init__(self, say, show):
        self.say, self.show = say, show
        self.answered = self.said = 0

    def say_next(self):
        self.said += 1
        self.say(self.said)

    def may_be(self):
        """What may be saved, with the number of each."""
        return {self.show(it): it for it in range(self.said, self.answered - 1, -1)}


class Play:
    """Two phones and an application that change what they can."""

    def __init__(self):
        number = lambda it: it.to_bytes(4, "big").hex()
        bit = lambda it: f"{it % 2:02x}00"
        self.owner = [Actor(self.writes(AT_OWNER, VALUE, number), number),
                      Actor(self.writes(AT_OWNER, SENSOR_CONFIG, bit), bit)]
        self.guest = [Actor(self.writes(AT_GUEST, LONG, number), number),
                      Actor(self.writes(AT_GUEST, VALUE_CONFIG, bit), bit)]
        self.updater = Actor(lambda it: self.application.say(f"update {SENSOR} {number(it)}"), number)

    def writes(self, at, attribute, spell):
        return lambda it: self.controller.say(at, f"12{spelled(attribute)}{spell(it)}")

    def start(self, home):
        device, self.controller = home.start("--save-updates")
        guest_comes(self.controller)
        self.application = home.application()
        return device

    def close(self):
        self.application.close()
        self.controller.close()

    def one_round(self):
        """Each says its next, and those that are answered are noted: whether all were."""
        controller, by_phone = self.controller, {AT_OWNER: self.owner, AT_GUEST: self.guest}
        controller.heard.clear()
        for actor in (*self.owner, *self.guest, self.updater):
            actor.say_next()
        count = lambda at: controller.heard.count((at, "13"))
        controller.until(lambda: all(count(at) >= 2 for at in by_phone), 5)
        for at, actors in by_phone.items():
            for actor in actors[: count(at)]:
                actor.answered = actor.said
            if count(at) != 2:
                return False
        while (line := self.application.line(5)) not in ("ok", "END", None):
            pass
        if line == "ok":
            self.updater.answered = self.updater.said
        return line == "ok"

    def is_saved(self, state):
        """A state is whole, and has of each what was answered, or what was said after it."""
        assert state.endswith("\n") and sealed(state[: state.rindex("[end]")]) == state, "a whole state"
        lines = re.findall(r"^\d+ (?:[0-9a-f]{4}|[0-9a-f-]{36}) \S+$", state, re.M)
        values = dict(it.split(" ", 2)[0::2] for it in lines)
        value = lambda attribute: values.get(str(attribute), "00000000")
        config = lambda name, attribute: f"{int(f'{name} {attribute} 1' in state):02x}00"
        for what, actor, found in (
            ("the owner's value", self.owner[0], value(VALUE)),
            ("the owner's subscription", self.owner[1], config(OWNER_NAME, SENSOR_CONFIG)),
            ("the guest's value", self.guest[0], value(LONG)),
            ("the guest's subscription", self.guest[1], config(GUEST_NAME, VALUE_CONFIG)),
            ("the application's value", self.updater, value(SENSOR)),
        ):
            assert found in actor.may_be(), f"{what}: {actor.answered} was answered, {actor.said} said"
            actor.answered = actor.said = actor.may_be()[found]


@pytest.mark.parametrize("seed", range(8), ids="seed-{}".format)
@pytest.mark.long(10)
def test_a_state(home, seed):
    """Killed at random moments, a device has all that was answered, or what was said after it."""
    killer, play = Killer(seed), Play()
    for _ in range(KILLS):
        killer.play(play.start(home), play.one_round)
        play.close()
        play.is_saved(home.state())
    assert killer.rounds > 0, "there were rounds"


@pytest.mark.parametrize("seed", range(4), ids="seed-{}".format)
def test_subscriptions(folder, seed):
    """Killed at random moments, a device leaves a rows file that is whole."""
    killer, rows, turn = Killer(seed), f"{folder}/rows", 0
    for _ in range(KILLS):
        device = Device(*DOOR, "--listen", "127.0.0.1:0", "--rows", rows)
        controller = controller_at(device)
        controller.is_advertised()
        controller.connect(65, OWNER)
        controller.encrypt(65)

        def one_round():
            nonlocal turn
            turn += 1
            return controller.ask(65, f"120700{turn % 2:02x}00") == "13"

        killer.play(device, one_round)
        assert text_of(rows) in ("", "0 00:11:22:33:44:55 7 1\n"), "rows of one that was killed"
        controller.close()
    assert killer.rounds > 0, "there were rounds"
