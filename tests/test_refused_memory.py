"""Refuses each allocation of `refused_memory`, one in each run, and checks how its calls end.

In each run one call is refused memory. It has to answer so, and to succeed when the program makes it again.
All other calls have to succeed. The environment variable REFUSED_MEMORY is the path of the program, if it is
not crates/refused_memory/out/refused_memory.
"""

import os
import re
import shutil
import subprocess

import pytest

from parties.building import is_instrumented, once, ran
from parties.places import ROOT

CRATE = f"{ROOT}/crates/refused_memory"
FLAGS = ["-std=c11", "-O2", "-Wall", "-Wextra", "-Wpedantic", "-Werror", "-shared", "-fPIC"]
PLAIN = ": done"
REFUSED = ": refused, then done"
# Memory was refused while the program read a file that the call needs.
UNPREPARED = ": not prepared, then done"
# The program makes fewer allocations than this.
MOST = 5_000

pytestmark = pytest.mark.without_program


@pytest.fixture
def refusing():
    """The program."""
    path = os.path.realpath(os.environ.get("REFUSED_MEMORY", f"{CRATE}/out/refused_memory"))
    if not os.path.exists(path):
        pytest.skip(f"there is no {path}: `tools/prove refused_memory` makes it")
    if is_instrumented(path):
        pytest.skip(f"{path} is compiled with AddressSanitizer, which allocates memory by itself")
    return path


@pytest.fixture
def library():
    """The library that refuses an allocation of the program that loads it."""
    compiler = next(filter(shutil.which, [os.environ.get("CC", "cc"), "gcc", "clang"]), None)
    if compiler is None:
        pytest.skip("there is no C compiler here")
    words = [compiler, *FLAGS, f"{ROOT}/tests/c/refuse.c", "-ldl", "-o"]
    return once("refuse.so", lambda path: ran([*words, path], "refuse.c"))


def run(program, library, number):
    """Refuses the allocation of this number. Returns the lines of the output, and how many were refused."""
    how = {"stdin": subprocess.DEVNULL, "capture_output": True, "text": True, "timeout": 60}
    env = {**os.environ, "LD_PRELOAD": library, "REFUSED": str(number)}
    ended = subprocess.run([program], env=env, **how)
    counts = re.fullmatch(r"allocations: (\d+), refused: (\d+)\n", ended.stderr)
    assert ended.returncode == 0 and counts, f"allocation {number}: {ended}"
    return ended.stdout.splitlines(), int(counts[2])


def refused_call(lines, plain):
    """Returns the call that was refused memory, or None if a file was that it needs."""
    changed = [(now, name) for now, name in zip(lines, plain, strict=True) if now != name]
    assert len(changed) == 1, f"one call is refused memory: {lines}"
    now, name = changed[0][0], changed[0][1].removesuffix(PLAIN)
    assert now in (name + REFUSED, name + UNPREPARED), "and says so, and succeeds afterwards"
    return name if now == name + REFUSED else None


def test_each_allocation(refusing, library):
    """Each call answers that memory is refused to it, and succeeds afterwards."""
    with open(f"{CRATE}/stdout", encoding="ascii") as file:
        plain = file.read().splitlines()
    counts = {line.removesuffix(PLAIN): 0 for line in plain}
    for number in range(1, MOST):
        lines, refused = run(refusing, library, number)
        if not refused:
            break
        name = refused_call(lines, plain)
        if name is not None:
            counts[name] += 1
    assert not refused, f"the program makes fewer than {MOST} allocations"
    assert lines == plain, "if none is refused"
    print("allocations refused:", ", ".join(f"{count} of {name}" for name, count in counts.items()))
    for name, count in counts.items():
        assert count > 0, f"{name}: an allocation is refused"
