"""The checks of the units for systemd, which run in the guest of interop/kernel.py.

A bridge, a device over it and an application run as services, next to bluetoothd.
"""

import os
import shutil
import subprocess
import sys

HERE = os.path.dirname(os.path.realpath(__file__))
PROJECT = os.path.dirname(os.path.dirname(HERE))
sys.path.insert(0, os.path.dirname(HERE))

from devices import DEVICE, KEYS, TABLE, USER, Emulator, soon
from checks import AUTHENTICATED, FIRST, load
from linux import DEVICE_DOWN, HIGH, Link, command, is_up
from part import Part

BRIDGE, HOST, LOCK = "hci_bridge@hci1", "gihandop@hci1", "lock"
UNITS = [BRIDGE, HOST, LOCK]
# CAP_NET_ADMIN, as /proc has it.
NET_ADMIN = 1 << 12


def systemctl(*words):
    """Returns what systemctl prints."""
    ended = subprocess.run(["systemctl", *words], stdout=subprocess.PIPE, stderr=subprocess.STDOUT, text=True)
    return ended.stdout.strip()


def process(unit):
    return int(systemctl("show", "--property=MainPID", "--value", unit))


def logged(unit):
    words = ["journalctl", "--output=cat", f"--unit={unit}"]
    return subprocess.run(words, stdout=subprocess.PIPE, text=True).stdout


def install():
    """Puts the files of the units where they look for them."""
    os.makedirs("/opt/door")
    shutil.copy(f"{PROJECT}/examples/device/lock.py", "/opt/door")
    shutil.copytree(f"{PROJECT}/python/gihandop", "/opt/door/gihandop", ignore=shutil.ignore_patterns("__pycache__"))
    os.makedirs("/etc/gihandop")
    shutil.copy(TABLE, "/etc/gihandop/table.toml")
    shutil.copy(KEYS, "/etc/gihandop/keys.toml")
    os.chown("/etc/gihandop/keys.toml", USER, USER)
    os.chmod("/etc/gihandop/keys.toml", 0o600)
    with open("/etc/gihandop/options", "w") as file:
        file.write("OPTIONS=--name Lock --advertise fff0\n")


def are_active():
    return [systemctl("is-active", it) for it in UNITS]


def serves(part, name, times=1):
    """Checks that all run, that a central reads and writes, and that the application reads it."""
    with open("/dev/console", "w") as console:
        print(f"units: {name}", file=console)
    part.check(f"{name}: all run", soon(lambda: are_active() == ["active"] * 3), True)
    part.check(f"{name}: the controller is up", soon(lambda: is_up(1)), True)
    is_there = soon(lambda: logged(LOCK).count("the door is") >= times)
    part.check(f"{name}: the application is there", is_there, True)
    with Link(*FIRST, DEVICE, HIGH) as link:
        for value, word in (("01", "opens"), ("00", "closes")):
            turns = logged(LOCK).count(f"the motor {word} the door")
            part.check(f"{name}: a write, {value}", link.ask(bytes.fromhex(f"120a00{value}")).hex(), "13")
            has_turned = soon(lambda: logged(LOCK).count(f"the motor {word} the door") == turns + 1)
            part.check(f"{name}: the motor, {value}", has_turned, True)
            part.check(f"{name}: a read, {value}", link.ask(b"\x0a\x0a\x00").hex(), f"0b{value}")


def units(part):
    """The units of systemd 252: each is killed, stopped and started again, and has only its privileges."""
    part.check("bluetoothd starts", systemctl("start", "bluetooth"), "")
    part.check("bluetoothd has the device's controller", soon(lambda: is_up(1)), True)
    part.check("the key: loaded", load(0, AUTHENTICATED), 0)
    part.check("lock starts", systemctl("start", LOCK), "")
    serves(part, "at first")
    for unit, wanted in zip(UNITS, (NET_ADMIN, 0, 0)):
        with open(f"/proc/{process(unit)}/status") as file:
            status = dict(line.rstrip().split(":\t", 1) for line in file)
        capabilities = {int(status[it], 16) for it in ("CapEff", "CapPrm", "CapBnd")}
        part.check(f"{unit}: capabilities", capabilities, {wanted})
        part.check(f"{unit}: its user", set(status["Uid"].split()), {str(USER)})
    folder = os.stat("/run/gihandop")
    part.check("the folder", (folder.st_uid, oct(folder.st_mode & 0o777)), (USER, "0o700"))
    # The application ends with its device, and starts again.
    for unit, times in zip(UNITS, (1, 2, 3)):
        killed = process(unit)
        os.kill(killed, 9)
        part.check(f"{unit} is killed: it comes back", soon(lambda: process(unit) not in (0, killed)), True)
        serves(part, f"{unit} was killed", times)
    with Link(*FIRST, DEVICE, HIGH) as link:
        part.check("the device stops", systemctl("stop", HOST), "")
        part.check("its link ends", link.has_ended(), True)
        # bluetoothd may have it by now, but it is no user channel.
        part.check("the controller is free", soon(lambda: command(1, DEVICE_DOWN) is None), True)
        part.check("the bridge waits", systemctl("is-active", BRIDGE), "active")
    part.check("the device starts", systemctl("start", HOST), "")
    serves(part, "the device was stopped", 4)
    with Link(*FIRST, DEVICE, HIGH) as link:
        part.check("the bridge stops", systemctl("stop", BRIDGE), "")
        part.check("the link ends", link.has_ended(), True)
        part.check("the controller is free again", soon(lambda: command(1, DEVICE_DOWN) is None), True)
    part.check("the bridge starts", systemctl("start", BRIDGE), "")
    serves(part, "the bridge was stopped", 4)


def main():
    part = Part()
    emulator = Emulator()
    emulator.begin()
    part.check("the centrals are powered on", emulator.centrals(), [0, 0])
    install()
    try:
        units(part)
    except Exception as error:
        part.check("the units end", repr(error), None)
    if part.failed:
        print("\n".join(systemctl("status", "--no-pager", "--lines=20", it) for it in UNITS))
    part.end()


if __name__ == "__main__":
    main()
