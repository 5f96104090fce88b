"""The options of `gatt_shell host`: words that are refused, and what is advertised by the others."""

import subprocess

import pytest

from parties import ADVERTISING_DATA, DOOR, PROGRAM, RANDOM_ADDRESS, Device, controller_at

LISTEN = ["--listen", "127.0.0.1:0"]
PORT = "an IP address and a port, such as 127.0.0.1:5000, and no host name"
TWO = "one of --listen, --connect and --serial is needed, and no more"
SOCKET = "--application: the path of a socket, of 1 to 101 bytes"
SECONDS = "a number of seconds"
STATIC = "--address: a static random address, whose first digit is c, d, e or f"
ADVERTISE = (
    "--advertise: a UUID of four hexadecimal digits without 0x, or of 32, and no more than 31 octets have room for"
)
REFUSED = [
    ([], TWO),
    (["--listen", "127.0.0.1:0", "--serial", "/dev/null"], TWO),
    (["--listen", "localhost:5000"], f"--listen: {PORT}"),
    (["--connect", "127.0.0.1"], f"--connect: {PORT}"),
    ([*LISTEN, "--application-port", "5000"], f"--application-port: {PORT}"),
    ([*LISTEN, "--application", "a", "--application-port", "127.0.0.1:1"],
     "--application and --application-port: one of them is enough"),
    ([*LISTEN, "--application", ""], SOCKET),
    ([*LISTEN, "--application", "x" * 102], SOCKET),
    ([*LISTEN, "--wait-for-application"], "--wait-for-application: it needs --application or --application-port"),
    ([*LISTEN, "--idle", "0"], f"--idle: {SECONDS}"),
    ([*LISTEN, "--idle", "+5"], f"--idle: {SECONDS}"),
    ([*LISTEN, "--stranger", "4294967296"], f"--stranger: {SECONDS}"),
    ([*LISTEN, "--patience", "5s"], f"--patience: {SECONDS}"),
    ([*LISTEN, "--slots", "0"], "--slots: a number from 1 to 8"),
    ([*LISTEN, "--slots", "9"], "--slots: a number from 1 to 8"),
    ([*LISTEN, "--capture", "c", "--capture-size", "0"], "--capture-size: a number of bytes"),
    ([*LISTEN, "--state", "s", "--rows", "r"], "--state and --rows: one of them is enough"),
    ([*LISTEN, "--state", ""], "--state: the path of a folder"),
    ([*LISTEN, "--rows", ""], "--rows: the path of a file"),
    ([*LISTEN, "--save-updates"], "--save-updates: it needs --state"),
    ([*LISTEN, "--address", "bf:00:00:00:00:01"], STATIC),
    ([*LISTEN, "--address", "c0:00:00:00:00:00"], STATIC),
    ([*LISTEN, "--address", "ff:ff:ff:ff:ff:ff"], STATIC),
    ([*LISTEN, "--advertise", "0x180f"], ADVERTISE),
    ([*LISTEN, *(it for number in range(14) for it in ("--advertise", f"18{number:02x}"))], ADVERTISE),
]
LONG = "9b2d38b0-6f2c-4a0e-8d0b-3f6a7c5e1d24"
LONG_PART = "1107" + bytes.fromhex(LONG.replace("-", ""))[::-1].hex()
# Flags for general discovery without BR/EDR come first (Core 5.0, Vol 3 Part C, 11).
ADVERTISED = [
    ([], "020106"),
    (["--name", "door"], "020106" "0509" + b"door".hex()),
    (["--advertise", "180f", "--name", "door"], "020106" "03030f18" "0509" + b"door".hex()),
    (["--advertise", LONG, "--advertise", "180f"], "020106" "03030f18" + LONG_PART),
    (["--advertise", "0000180f-0000-1000-8000-00805f9b34fb"], "020106" "03030f18"),
    (["--name", "n" * 26], "020106" "1b09" + (b"n" * 26).hex()),
    (["--name", "n" * 27], "020106" "1b08" + (b"n" * 26).hex()),
    # The last character that fits is whole: it has two octets, and one is left.
    (["--name", "n" + "ö" * 13], "020106" "1a08" + ("n" + "ö" * 12).encode().hex()),
]


@pytest.mark.parametrize("words, text", REFUSED, ids=[" ".join(words[-4:]) or "none" for words, _ in REFUSED])
def test_words_that_mean_nothing_are_refused(words, text):
    ran = subprocess.run([PROGRAM, "host", *DOOR, *words], capture_output=True, text=True, timeout=30)
    assert (ran.returncode, ran.stderr.splitlines()[:1]) == (64, [text])


@pytest.mark.parametrize("words, octets", ADVERTISED, ids=[" ".join(words)[:40] or "none" for words, _ in ADVERTISED])
def test_flags_services_and_the_name_are_advertised(words, octets):
    device = Device(*DOOR, *LISTEN, *words)
    controller = controller_at(device)
    assert controller.is_advertised()
    size = len(octets) // 2
    assert controller.command(ADVERTISING_DATA) == f"{size:02x}{octets}{'00' * (31 - size)}"


def test_a_static_random_address_is_set():
    device = Device(*DOOR, *LISTEN, "--address", "c2:3b:15:9a:7e:42")
    assert controller_at(device).command(RANDOM_ADDRESS) == "427e9a153bc2"
