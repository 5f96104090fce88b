"""Programs for other processors, which an emulator runs here.

The environment variable TARGET_CRATES is a folder with the outputs of crates, if they are not in crates/.
"""

import os
import shutil

from parties.places import ROOT

TARGET = "aarch64-unknown-linux-gnu"
# Each target: its compiler, its emulator, the folder of its C library, and the Debian packages of these.
TARGETS = {
    TARGET: (
        "aarch64-linux-gnu-gcc", "qemu-aarch64", "/usr/aarch64-linux-gnu",
        "gcc-aarch64-linux-gnu, libc6-dev-arm64-cross and qemu-user",
    ),
}


def output(crate, target, name):
    """The path of the output of a crate for a target."""
    return f"{os.environ.get('TARGET_CRATES', f'{ROOT}/crates')}/{crate}/out/{target}/{name}"


def missing_for(target):
    """Returns what this machine lacks to compile and run programs for a target, or nothing."""
    compiler, emulator, library, packages = TARGETS[target]
    missing = [it for it in (compiler, emulator) if not shutil.which(it)]
    missing += [] if os.path.isdir(f"{library}/lib") else [library]
    return f"{', '.join(missing)} is missing: Debian's packages {packages} have it" if missing else ""


def lay_wrapper(target, program, path):
    """Makes a script that runs a program for a target, with the process number that it is started with."""
    _, emulator, library, _ = TARGETS[target]
    with open(path, "w", encoding="utf-8") as file:
        file.write(f'#!/bin/sh\nexec {emulator} -L {library} "{program}" "$@"\n')
    os.chmod(path, 0o755)
