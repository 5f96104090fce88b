"""What tests compile, once for all processes of a run of pytest."""

import fcntl
import os
import subprocess

from parties.places import ROOT

# What tools/unproved leaves in what it makes.
MARK = b"(not proved)"
# A failure shows so many characters of what a command prints, the last ones.
SHOWN = 3_000


def once(name, make):
    """Has make(path) make a file or a folder, unless another test has, and returns its path.

    What fails once fails for each test, with the same text.
    """
    path = f"{os.environ['BUILT_ONCE']}/{name}"
    with open(f"{path}.lock", "w") as lock:
        fcntl.flock(lock, fcntl.LOCK_EX)
        if os.path.exists(f"{path}.fault"):
            with open(f"{path}.fault", encoding="utf-8") as file:
                raise AssertionError(file.read())
        if not os.path.lexists(path):
            try:
                make(path)
            except AssertionError as fault:
                with open(f"{path}.fault", "w", encoding="utf-8") as file:
                    file.write(str(fault))
                raise
    return path


def run(words, **how):
    """Runs words at the top of the repository. Their standard error is a part of their output."""
    pipes = {"stdin": subprocess.DEVNULL, "stdout": subprocess.PIPE, "stderr": subprocess.STDOUT}
    how = {"cwd": ROOT, "timeout": 1_200, **how}
    return subprocess.run(words, text=True, errors="replace", check=False, **pipes, **how)


def ran(words, what=None, **how):
    """Runs words at the top of the repository, and returns what they print. They have to end well."""
    ended = run(words, **how)
    assert ended.returncode == 0, f"{what or ' '.join(words)}:\n{ended.stdout[-SHOWN:]}"
    return ended.stdout


def is_marked(path):
    """Tells whether a program or an archive says that it is compiled without proofs."""
    with open(path, "rb") as file:
        return MARK in file.read()


def is_instrumented(path):
    """Tells whether a program or an archive is compiled with AddressSanitizer."""
    with open(path, "rb") as file:
        return b"__asan_init" in file.read()
