"""Disks on which a device cannot save, or not soon."""

import os
import shutil

import pytest

from parties.building import once, ran
from parties.places import write_text

# Each sync takes SYNC_TAKES milliseconds, and adds a byte to the file SYNCS. No sync succeeds while the file
# FULL is there.
DISK = """
#include <errno.h>
#include <fcntl.h>
#include <stdlib.h>
#include <sys/syscall.h>
#include <unistd.h>
int fsync(int file) {
    int syncs = open(getenv("SYNCS"), O_WRONLY | O_APPEND | O_CREAT, 0600);
    if (syncs < 0 || write(syncs, "s", 1) != 1) abort();
    close(syncs);
    usleep(1000 * (useconds_t)atoi(getenv("SYNC_TAKES")));
    if (access(getenv("FULL"), F_OK) == 0) {
        errno = ENOSPC;
        return -1;
    }
    return (int)syscall(SYS_fsync, file);
}
"""


class Disk:
    """A disk that is slow, or full, for a program that the words of `through` run."""

    def __init__(self, folder, takes=0):
        compiler = shutil.which("cc")
        if compiler is None:
            pytest.skip("there is no compiler for C here, which another disk needs")

        def build(path):
            ran([compiler, "-O1", "-shared", "-fPIC", "-o", path, write_text(f"{path}.c", DISK)], "a disk")

        library = once("disk.so", build)
        self.full, self.counted = f"{folder}/full", f"{folder}/syncs"
        variables = {"LD_PRELOAD": library, "SYNC_TAKES": takes, "FULL": self.full, "SYNCS": self.counted}
        self.through = ["env", *(f"{name}={value}" for name, value in variables.items())]

    def fill(self):
        with open(self.full, "w"):
            pass

    def empty(self):
        os.remove(self.full)

    def syncs(self):
        """How often a program has tried to save."""
        return os.stat(self.counted).st_size


class Broken:
    """A place where nothing can be saved, until it is mended."""

    def __init__(self, home):
        self.path = f"{home.path}.new"
        os.mkdir(self.path)
        # A folder that is not empty is not removed.
        os.mkdir(f"{self.path}/full")

    def mend(self):
        shutil.rmtree(self.path)
