"""Gives `gatt_shell` little stack and little memory, and asks a device for values without an end."""

import os
import shutil
import subprocess

import pytest

from parties import DOOR, PATIENCE, PROGRAM, ROOT, STRANGER, Device, controller_at
from parties.building import is_instrumented

# So many requests are answered, and so many are asked at once: with 16 PDUs that wait, a phone is sent away.
REQUESTS = 20_000
AT_ONCE = 8
# The most that a device may hold in memory, in kibibytes.
MEMORY = 4_096
COMMANDS = {
    "host": [*DOOR, "--listen", "127.0.0.1:0"],
    "serve": [*DOOR, "--listen", "127.0.0.1:0"],
    "run": [*DOOR, f"{ROOT}/examples/bonded.script"],
    "show": DOOR,
    "may": [*DOOR, "stranger", "read", "3"],
    "compare": [DOOR[0], *DOOR],
    "expect": [*DOOR, f"{ROOT}/examples/door.expect.toml"],
    "check": DOOR,
    "att": [],
    "words": DOOR[:1],
    "tell": ["no.socket", "stop"],
    "--version": [],
}
NESTED = {
    "arrays": lambda depth: "a = " + "[" * depth + "]" * depth,
    "tables": lambda depth: "a = " + "{a = " * depth + "1" + "}" * depth,
    "keys": lambda depth: "a" + ".a" * depth + " = 1",
    "headers": lambda depth: "[a" + ".a" * depth + "]",
    "both": lambda depth: f"[a{'.a' * depth}]\nb{'.b' * depth} = " + "[" * depth + "]" * depth,
}


@pytest.fixture
def plain(program):
    """Skips what a program with AddressSanitizer cannot do, which needs memory of its own."""
    if is_instrumented(program):
        pytest.skip("the program is compiled with AddressSanitizer, which needs more memory")


@pytest.fixture
def prlimit():
    if not shutil.which("prlimit"):
        pytest.skip("there is no prlimit here: Debian's util-linux has it")


def most_memory(device):
    """The most memory that a device has held, in kibibytes."""
    with open(f"/proc/{device.process.pid}/status") as file:
        return next(int(it.split()[1]) for it in file if it.startswith("VmHWM:"))


def ask_many(controller, handle, count):
    """Reads so often, as many at once as may wait, and counts the answers by what they are."""
    found = {}
    for _ in range(0, count, AT_ONCE):
        for _ in range(AT_ONCE):
            controller.say(handle, "0a0300")
        if not controller.until(lambda: len(controller.heard) >= AT_ONCE):
            break
        for _, answer in controller.heard:
            found[answer] = found.get(answer, 0) + 1
        controller.heard.clear()
    return found


@pytest.fixture
def asked(folder):
    """A device that has answered so many requests."""
    device = Device(*DOOR, "--listen", "127.0.0.1:0", "--rows", f"{folder}/requests.rows")
    controller = controller_at(device)
    controller.is_advertised()
    controller.connect(64, STRANGER)
    controller.ask(64, "0a0300")
    assert ask_many(controller, 64, REQUESTS) == {"0b4c6f636b": REQUESTS}, "requests"
    return device


@pytest.mark.long(10)
def test_requests(asked):
    """A device answers requests without an end, and runs."""
    assert asked.process.poll() is None, "it runs"


def test_memory(plain, asked):
    """A device that has answered so many requests holds no more memory than one that has begun."""
    assert most_memory(asked) < MEMORY, "memory, in kibibytes"


def limited(limit, *words):
    """The status of a command with this limit, and the last line that it prints."""
    words = ["prlimit", limit, PROGRAM, *words]
    ran = subprocess.run(words, stdin=subprocess.DEVNULL, capture_output=True, text=True, timeout=PATIENCE)
    return ran.returncode, (ran.stdout + ran.stderr).rstrip("\n").rpartition("\n")[2]


@pytest.mark.parametrize("size", [128, 1_024, 4_095])
@pytest.mark.parametrize("command", COMMANDS)
def test_little_stack(prlimit, command, size):
    """Each command asks for its stack before it does anything."""
    found = limited(f"--stack={size * 1024}", command, *COMMANDS[command])
    assert found == (2, "stack: 4096 KB needed"), f"{command}: {size} KiB"


@pytest.mark.parametrize("depth", [40, 78, 79, 80, 100_000])
@pytest.mark.parametrize("kind", NESTED)
@pytest.mark.parametrize("words", [["check"], ["show"], ["host", "--listen", "127.0.0.1:0"]], ids=["check", "show", "host"])
@pytest.mark.parametrize("place", ["table", "keys"])
def test_nested(folder, prlimit, place, words, kind, depth):
    """No command needs more than its stack for a table or keys that are nested."""
    nested = f"{folder}/nested.toml"
    with open(nested, "w") as file:
        file.write(NESTED[kind](depth) + "\n")
    files = [nested, DOOR[1]] if place == "table" else [DOOR[0], nested]
    assert limited("--stack=4194304", words[0], *files, *words[1:])[0] == 1


def end_with(folder, size):
    """How a device of so many kibibytes ends: what a phone reads, or its status and what it prints."""
    through = ["prlimit", f"--as={size * 1024}"]
    device = Device(*DOOR, "--listen", "127.0.0.1:0", "--state", folder, through=through)
    try:
        controller = controller_at(device)
        controller.is_advertised()
        controller.connect(64, STRANGER)
        read = controller.ask(64, "0a0300")
        controller.close()
        device.end()
        return "read", read
    except (TimeoutError, OSError):
        return device.refusal()


def test_little_memory(folder, plain, prlimit):
    """With little address space a device serves, or prints why it ends, and never ends by a signal."""
    # With less than the program and so much more, the loader of the system ends by a signal before it begins.
    least = os.path.getsize(PROGRAM) // 1_024 + 384
    ends = {size: end_with(folder, size) for size in range(least, 8_192, 64)}
    served, needed = ("read", "0b4c6f636b"), (2, "stack: 256 KB needed")
    assert {served, needed} <= set(ends.values()), "it serves with more, and ends with less"
    for size, end in ends.items():
        # Below some size the loader of the system ends it, with 127. Above some size it has its stack, and
        # memory may be refused later.
        is_other = end[0] in (1, 2, 127) and end[1] not in ("", needed[1])
        assert end in (served, needed) or is_other, f"{size} KiB"
