"""Tries the commands of README and docs/ that serve a controller, and the tutorial of the device."""

import os
import re
import select
import shutil
import socket
import subprocess
import sys
import time

import pytest

from documents import ROOT, blocks, text_of

SERVED = [
    "./gatt_shell serve examples/door.toml examples/keys.toml 127.0.0.1:5000",
    "./gatt_shell serve examples/door.toml examples/keys.toml 127.0.0.1:5000 --rows door.rows",
]
# Those that serve on until they are stopped.
HOSTED = [
    "./gatt_shell host examples/door.toml examples/keys.toml --listen 127.0.0.1:5000"
    f" --application door.socket {it}"
    for it in ("--state door.state", "--capture door.btsnoop")
]
RESET = bytes.fromhex("01030c00")
PATIENCE = 20


def free_port():
    with socket.socket() as it:
        it.bind(("127.0.0.1", 0))
        return it.getsockname()[1]


@pytest.fixture
def serve(folder, program):
    """Starts a command at another port, with its files in the folder of the test, and ends it afterwards."""
    started = []

    def start(command, port):
        words = command.replace("127.0.0.1:5000", f"127.0.0.1:{port}").replace("./gatt_shell", program)
        words = re.sub(r"door\.(?:rows|state|socket|btsnoop)", rf"{folder}/\g<0>", words).split()
        pipes = {"stdin": subprocess.DEVNULL, "stderr": subprocess.PIPE}
        started.append(subprocess.Popen(words, cwd=ROOT, text=True, **pipes))
        return started[-1]

    yield start
    for it in started:
        it.kill()
        it.wait(PATIENCE)
        it.stderr.close()


def connected(port, serving):
    """A connection to the program, once it listens."""
    until = time.monotonic() + PATIENCE
    while time.monotonic() < until and serving.poll() is None:
        try:
            return socket.create_connection(("127.0.0.1", port), PATIENCE)
        except OSError:
            time.sleep(0.02)
    pytest.fail(f"it does not listen at {port}")


def first_of(stream, octets):
    """What a controller is sent first. It then sends octets, and goes at the program's end."""
    with stream:
        first = stream.recv(len(RESET), socket.MSG_WAITALL)
        stream.sendall(octets)
        stream.shutdown(socket.SHUT_WR)
        stream.recv(1)
    return first


def await_file(path):
    until = time.monotonic() + PATIENCE
    while not os.path.exists(path) and time.monotonic() < until:
        time.sleep(0.02)


# What the controller sends, and what the program prints of that and its status.
@pytest.mark.parametrize(("octets", "printed", "status"), [(b"", "", 0), (b"\x07", "host: fault 1\n", 2)])
@pytest.mark.parametrize("command", SERVED)
def test_serve(folder, serve, command, octets, printed, status):
    """It serves a controller that reads what comes first, sends octets, and goes."""
    port = free_port()
    serving = serve(command, port)
    assert first_of(connected(port, serving), octets) == RESET
    assert serving.communicate(timeout=PATIENCE)[1] == printed
    assert serving.returncode == status
    if "--rows" in command:
        assert os.path.isfile(f"{folder}/door.rows"), "it leaves rows"


@pytest.mark.parametrize("command", HOSTED)
def test_host(folder, serve, command):
    """It serves two controllers that go at once, and is stopped."""
    port = free_port()
    os.mkdir(f"{folder}/door.state")
    serving = serve(command, port)
    for _ in range(2):
        assert first_of(connected(port, serving), b"") == RESET
    serving.terminate()
    serving.communicate(timeout=PATIENCE)
    files = re.findall(r"door\.(?:socket|btsnoop)", command) + ["door.state/state"] * ("--state" in command)
    for it in files:
        assert os.path.exists(f"{folder}/{it}"), it


def test_the_tutorial(folder, program, serve):
    """The tutorial: the device, its application, and a client. Its first block is what `show` prints."""
    text = text_of("docs/TUTORIAL.md")
    (application,), (_, log, client, heard) = blocks("python", text), blocks("text", text)
    port = free_port()
    serving = serve(HOSTED[1], port)
    await_file(f"{folder}/door.socket")
    words = [sys.executable, "-c", application]
    motor = subprocess.Popen(words, cwd=folder, stdout=subprocess.PIPE, text=True)
    # It prints this line once the device has taken it in, and no controller comes before.
    lines = [motor.stdout.readline()]
    words = [f"{ROOT}/examples/device/phones.py", f"127.0.0.1:{port}", "examples/bonded.script"]
    played = subprocess.run(words, cwd=ROOT, stdin=subprocess.DEVNULL, capture_output=True, text=True, timeout=60)
    lines += [motor.stdout.readline() for _ in heard.splitlines()[1:]]
    serving.terminate()
    motor.wait(PATIENCE)
    motor.stdout.close()
    logged = serving.communicate(timeout=PATIENCE)[1].splitlines()
    assert played.stdout == client, played.stderr
    # The number of a start is another one each time. The answer to `allow` may come behind the client's write.
    alike = [re.sub(r"(?m)^\+ started \d+$", "+ started N", it) for it in ("".join(lines), heard)]
    found, wanted = (it.splitlines() for it in alike)
    assert [it for it in found if it != "ok"] == [it for it in wanted if it != "ok"], "the application"
    assert found.index("ok") > found.index("+ secured 1 16 1 0"), "its call is answered"
    wanted = [line.split(" ", 1)[1].replace("5000", str(port)) for line in log.splitlines()]
    found = [line.split(" ", 1)[1].replace(f"{folder}/", "") for line in logged[: len(wanted)]]
    assert found == wanted, "the log"


def first_at(path):
    """What comes first at a pseudo-terminal: as many octets as Reset has."""
    terminal = os.open(path, os.O_RDWR | os.O_NOCTTY)
    first = b""
    while len(first) < len(RESET) and select.select([terminal], [], [], 25)[0]:
        first += os.read(terminal, len(RESET) - len(first))
    os.close(terminal)
    return first


@pytest.mark.skipif(shutil.which("socat") is None, reason="there is no socat here")
def test_socat(folder, serve):
    """The lines with socat join a pseudo-terminal to the program, which leaves its rows when they end."""
    lines = re.findall(r"(?m)^    (socat .*/tmp/line.*)$", text_of("docs/CLI.md"))
    port = free_port()
    pair, joining = (it.replace("/tmp/", f"{folder}/").replace("5000", str(port)) for it in lines)
    serving = serve(SERVED[1], port)
    joined = [subprocess.Popen(pair.split())]
    try:
        await_file(f"{folder}/controller")
        await_file(f"{folder}/line")
        joined.append(subprocess.Popen(f"{joining},retry=20".split()))
        assert first_at(f"{folder}/controller") == RESET
    finally:
        for it in reversed(joined):
            it.terminate()
            it.wait(PATIENCE)
    serving.communicate(timeout=PATIENCE)
    assert serving.returncode == 0
    assert os.path.isfile(f"{folder}/door.rows"), "it leaves rows"
