"""Has each call by which `gatt_shell host` saves a file fail, be cut short, or be its last.

For each call and each kind of fault a device is played with: phones write and subscribe, and an application
updates. Then it is killed, and started again without faults.
"""

import concurrent.futures
import errno
import json
import os
import re
import shutil
import signal
import subprocess
import tempfile

import pytest

from parties import DISCONNECT, ROOT, STRANGER, controller_at
from parties.building import once, ran
from parties.homes import AT_GUEST, AT_OWNER, AT_STRANGER, Home, guest_comes, owner_comes
from parties.places import text_of, write_text
from parties.tables import GUEST_NAME, LONG, OWNER_NAME, VALUE, VALUE_CONFIG, sealed, spelled

# The kinds of faults, with the number of the error; and whether the program ends by it.
KINDS = [
    ("once", errno.ENOSPC), ("once", errno.EIO), ("from", errno.ENOSPC), ("from", errno.EIO), ("short", 0),
    ("before", 0), ("after", 0),
]
NAMES = ["once-ENOSPC", "once-EIO", "from-ENOSPC", "from-EIO", "short", "before", "after"]
KILLS = ("before", "after")
# So many devices are played with at once, and into so many tests the calls of each fault are divided.
AT_ONCE = 3
PARTS = {"state": 4, "rows": 2}
# The calls of a save in their order, besides the permission of a file that is there already. An empty
# file is not written to.
SAVE = "unlink open write sync rename open-folder sync-folder"


class Promised:
    """What a party said of one thing, in order, and how much of it was answered."""

    def __init__(self, first):
        self.said, self.answered = [first], 0

    def say(self, value):
        self.said.append(value)

    def is_answered(self):
        self.answered = len(self.said) - 1

    def may_be(self):
        return self.said[self.answered:]


class Play:
    """A device with a fault, its phones and its application."""

    def __init__(self, folder, tracer, saved, kind, number, fault):
        self.name = f"{saved} {kind} {number} {errno.errorcode.get(fault, '')}".strip()
        self.home = Home(folder, saved=saved)
        self.report = f"{folder}/report"
        self.through = [tracer, self.report, self.home.place, kind, str(number), str(fault)]
        self.kind, self.saved, self.wrong = kind, saved, []
        self.controller = self.application = None
        self.promised = {
            "owner": Promised(False), "guest": Promised(False),
            "write": Promised("00"), "update": Promised("00"),
        }

    def expect(self, what, wanted, found):
        if wanted != found:
            self.wrong.append(f"{what}: wanted {wanted!r}, found {found!r}")

    def ask(self, at, name, pdu, value):
        """A phone asks for a change: whether it is answered, and not sent away."""
        controller, promised = self.controller, self.promised[name]
        gone = lambda: [it for it in controller.commands if it[0] == DISCONNECT and it[1][:1] == bytes([at])]
        before = len(gone())
        promised.say(value)
        controller.say(at, pdu)
        controller.until(lambda: (at, "13") in controller.heard or len(gone()) > before, 5)
        is_answered = (at, "13") in controller.heard
        controller.heard.clear()
        if is_answered:
            promised.is_answered()
        elif len(gone()) > before:
            (owner_comes if at == AT_OWNER else guest_comes)(controller)
        elif not controller.is_gone:
            self.wrong.append(f"{name}: neither answered nor sent away")
        return is_answered

    def update(self, value):
        """The application updates: `ok` is no promise if it reads that the value is not saved."""
        promised = self.promised["update"]
        promised.say(value)
        self.application.say(f"update {VALUE} {value}")
        lines = []
        while (line := self.application.line(5)) != "ok":
            lines.append(line)
            if line in ("END", None):
                if not (line == "END" and self.kind in KILLS):
                    self.wrong.append(f"update: {lines}")
                return
        while (line := self.application.line(0.1)) and line != "END":
            lines.append(line)
        for line in lines:
            if line.startswith(("+ unsaved", "+ saved")):
                self.is_unsaved = line.startswith("+ unsaved")
        if not self.is_unsaved:
            promised.is_answered()

    def changes(self, written, updated, bits):
        """Each party changes something: whether all of the phones are answered."""
        configure = f"12{spelled(VALUE_CONFIG)}{bits:02x}00"
        answers = [self.ask(AT_OWNER, "owner", configure, bool(bits))]
        if self.saved == "state":
            answers.append(self.ask(AT_GUEST, "write", f"12{spelled(LONG)}{written}", written))
            self.update(updated)
        answers.append(self.ask(AT_GUEST, "guest", configure, bool(bits)))
        return all(answers)

    def with_fault(self):
        """Plays until the device is killed."""
        device = self.home.device(through=self.through)
        try:
            self.serve(device)
        except (OSError, TimeoutError) as error:
            if self.kind not in KILLS:
                self.wrong.append(f"{error!r}")
        finally:
            for it in (self.controller, self.application):
                if it:
                    it.close()
        if self.kind in KILLS:
            self.expect("it is killed", 128 + signal.SIGKILL, device.process.wait(20))
        else:
            self.expect("it runs", None, device.process.poll())
            device.end(signal.SIGTERM)

    def serve(self, device):
        self.is_unsaved = False
        self.controller = controller_at(device)
        self.controller.is_advertised()
        self.application = self.home.application()
        self.is_unsaved = any(it.startswith("+ unsaved") for it in self.application.welcome)
        owner_comes(self.controller)
        guest_comes(self.controller)
        self.controller.connect(AT_STRANGER, STRANGER)
        are_answered = [self.changes("aabb", "01", 1), self.changes("ccdd", "02", 0)]
        if self.kind in ("once", "short"):
            if not all(are_answered) or self.is_unsaved or device.logged("not saved:"):
                device.said("saved again:")
            self.expect("all is answered again", True, self.changes("eeff", "03", 1))
        self.controller.say(AT_STRANGER, f"0a{spelled(VALUE)}")
        answer = self.controller.hears(AT_STRANGER, 5)
        if self.kind not in KILLS:
            self.expect("a phone reads", self.promised["update"].said[-1], (answer or "")[2:])
            line = self.application.ask("value 99") or ""
            self.expect("an application reads", True, line.startswith(("fault 1", "+ ")))

    def without_fault(self):
        """What was promised is there after a start without faults."""
        before = self.home.state()
        if self.saved == "state" and before:
            self.expect("it is whole", before, sealed(before[: before.rindex("[end]")]))
        device = self.home.device()
        try:
            device.said("ready")
            state = self.home.state()
            for name, peer in (("owner", OWNER_NAME), ("guest", GUEST_NAME)):
                found = f"{peer} {VALUE_CONFIG} 1\n" in state
                self.expect(f"subscription of the {name}", True, found in self.promised[name].may_be())
            if self.saved == "state":
                application = self.home.application()
                for name, attribute in (("write", LONG), ("update", VALUE)):
                    value = application.ask(f"value {attribute}").split(" ")[2].replace("-", "00")
                    expected = self.promised[name].may_be()
                    self.expect(f"{name}: {value} of {expected}", True, value in expected)
                application.close()
            self.expect("no new file is left", False, os.path.lexists(f"{self.home.path}.new"))
        except (OSError, TimeoutError) as error:
            self.wrong.append(f"after it: {error!r}")
        device.end()

    def calls(self):
        with open(self.report) as file:
            return file.read().split()


def played(room, *more):
    """Plays once: its name, and what is wrong."""
    folder = tempfile.mkdtemp(dir=room)
    play = Play(folder, *more)
    try:
        play.with_fault()
        play.without_fault()
    except Exception as error:
        play.wrong.append(repr(error))
    shutil.rmtree(folder, ignore_errors=True)
    return play.name, play.wrong


@pytest.fixture
def tracer(folder):
    """The program that has calls fail."""
    compiler = shutil.which(os.environ.get("CC", "cc"))
    if not compiler or os.uname().machine != "x86_64":
        pytest.skip("there is no C compiler, or this is no x86-64")
    flags = ["-std=c11", "-O2", "-Wall", "-Wextra", "-Wpedantic", "-Werror"]
    words = [compiler, *flags, f"{ROOT}/tests/c/failing.c", "-o"]
    path = once("failing", lambda path: ran([*words, path], "failing.c"))
    if subprocess.run([path, f"{folder}/report", folder, "none", "0", "0", "/bin/true"]).returncode != 0:
        pytest.skip("ptrace is not permitted")
    return path


def calls_of(room, tracer, saved):
    """The calls of a play without a fault, which is played once for all tests."""

    def record(path):
        play = Play(tempfile.mkdtemp(dir=room), tracer, saved, "none", 0, 0)
        play.with_fault()
        play.without_fault()
        write_text(path, json.dumps([play.wrong, play.calls()]))

    wrong, calls = json.loads(text_of(once(f"calls.{saved}", record)))
    assert wrong == [], f"{saved} without a fault"
    saves = {it.replace("chmod ", "").strip() for it in re.split(r"(?=\bunlink\b)", " ".join(calls)) if it}
    assert saves - {SAVE, SAVE.replace("write ", "")} == set(), f"{saved}: the order of each save"
    return calls


@pytest.mark.long(10)
@pytest.mark.parametrize("saved, part", [(saved, it) for saved, count in PARTS.items() for it in range(count)])
@pytest.mark.parametrize("kind, fault", KINDS, ids=NAMES)
def test_each_call(folder, tracer, saved, part, kind, fault):
    """What was promised before a fault of any call is there after a start without faults."""
    calls = enumerate(calls_of(folder, tracer, saved), 1)
    chosen = [number for number, name in calls if kind != "short" or name == "write"][part :: PARTS[saved]]
    with concurrent.futures.ThreadPoolExecutor(AT_ONCE) as pool:
        plays = list(pool.map(lambda number: played(folder, tracer, saved, kind, number, fault), chosen))
    failed = "".join(f"\n{name}: {wrong}" for name, wrong in plays if wrong)
    assert plays, "there are calls"
    for name, wrong in plays:
        assert wrong == [], f"{name}; what is wrong in all:{failed}"
