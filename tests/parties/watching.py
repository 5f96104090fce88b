"""What a running device logs, and what it takes of the machine."""

import os
import resource
import time


def spent(pid):
    """The processor time that a process has taken, in milliseconds."""
    with open(f"/proc/{pid}/stat") as file:
        fields = file.read().rpartition(")")[2].split()
    return (int(fields[11]) + int(fields[12])) * 1000 // os.sysconf("SC_CLK_TCK")


def is_idle(what, device, seconds=2, grace=3):
    """A device takes no processor time while nothing is to be done, once it has done what there was.

    It may take so many seconds of grace for that.
    """
    pid, end, taken = device.process.pid, time.monotonic() + grace, 50
    while taken >= 50 and time.monotonic() < end:
        before = spent(pid)
        time.sleep(seconds)
        taken = spent(pid) - before
    assert taken < 50, f"{what}: processor time below 50 ms in {seconds} seconds"


def memory(device):
    """The memory that a device has in use, in KiB."""
    with open(f"/proc/{device.process.pid}/status") as file:
        return next(int(it.split()[1]) for it in file if it.startswith("VmRSS:"))


def highest(device):
    """The highest descriptor of a device."""
    return max(int(it) for it in os.listdir(f"/proc/{device.process.pid}/fd"))


def limit(device, count):
    """Lets a device have no descriptor from a number on."""
    most = resource.prlimit(device.process.pid, resource.RLIMIT_NOFILE)[1]
    resource.prlimit(device.process.pid, resource.RLIMIT_NOFILE, (count, most))
