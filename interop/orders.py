#!/usr/bin/env -S python3 -B
"""The orders in which phones usually ask, as scripts of `gatt_shell run` in cases/.

usage: interop/orders.py PROGRAM RECORDINGS

What each prints is stored beside it. The answers to the strangers among the phones are also worked
out by table_file.py.
"""

import os
import subprocess
import sys

from part import Part
from table_file import Link, Table

HERE = os.path.dirname(os.path.realpath(__file__))
ROOT = os.path.dirname(HERE)
NEXT = ["--next", "examples/porch_next.toml"]
CASES = [
    ("android_server", "examples/conformance/server.toml", []),
    ("android_door", "examples/door.toml", []),
    ("ios_server", "examples/conformance/server.toml", []),
    ("ios_changed", "examples/porch.toml", NEXT),
    ("linux_tap", "interop/tap.toml", []),
]


def main():
    program = sys.argv[1]
    part = Part()
    for name, table, more in CASES:
        script = f"{HERE}/cases/{name}.script"
        words = [program, "run", table, "examples/keys.toml", script, *more]
        ran = subprocess.run(words, cwd=ROOT, capture_output=True, text=True, timeout=60)
        with open(f"{HERE}/cases/{name}.out", encoding="utf-8") as file:
            stored = file.read()
        part.check(f"{name}: how it ends", (ran.returncode, ran.stderr), (0, ""))
        part.check(f"{name}: what it prints", ran.stdout.splitlines(), stored.splitlines())
        with open(script, encoding="utf-8") as file:
            lines = [it.split() for it in file.read().splitlines()]
        served, at, printed = Table(f"{ROOT}/{table}"), 0, stored.splitlines()
        for words in lines:
            if words[0] == "replace":
                # What is configured at a value of another type is forgotten: here all but Service Changed.
                before, served = served, Table(f"{ROOT}/{more[1]}")
                served.mtu, served.configured = before.mtu, {4: before.configured[4]}
            elif words[0] in "AIL" and words[1] == "<":
                due = served.answer(bytes.fromhex(words[2]), Link())
                if due is not None:
                    line = f"{words[0]} > {due.hex()}"
                    found = next((row for row in range(at, len(printed)) if printed[row] == line), None)
                    part.check(f"{name}: {words[2]}", found is not None or line, True)
                    at = at if found is None else found + 1
    stored = {f"{it[0]}.script" for it in CASES}
    part.check("every script is run", {it for it in os.listdir(f"{HERE}/cases") if it.endswith(".script")}, stored)
    part.end()


if __name__ == "__main__":
    main()
