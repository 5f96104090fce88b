"""Tries docs/LIMITS.md: it names constants, each in its crate, and in its file if that is named.

A constant that is a number is one of those in its row. A cell reads `crate::NAME`, `NAME` of `crate`, or
`NAME`, which is of the crate before it.
"""

import os
import re

import pytest

from documents import ROOT, text_of

pytestmark = pytest.mark.without_program


def rows():
    """Yields the rows of the tables of constants: the limit, the cell, and the constants, each with its crate."""
    crate, constants = "", text_of("docs/LIMITS.md").partition("\n## Stack\n")[0]
    for limit, cell in re.findall(r"(?m)^\| (.* \| .*) \| (.*) \|$(?!\n\|-)", constants):
        pending, homes = [], []
        for before, it in re.findall(r"([^`]*)`([^`]+)`", cell):
            if "::" in it:
                crate, _, names = it.partition("::")
                homes += [(name, crate) for name in re.findall(r"[A-Z][A-Z_\d]+", names)]
            elif before.endswith("of "):
                crate = it
                homes += [(name, crate) for name in pending]
            elif it.isupper():
                if "of" in before or ";" in before:
                    pending = []
                pending.append(it)
        homes += [(name, crate) for name in pending if name not in {one for one, _ in homes}]
        yield limit, cell, homes


def values_of(name, crate, path):
    """The values of a constant in a crate, in the file if one is named."""
    found = []
    for place, _, names in os.walk(f"{ROOT}/crates/{crate}/src"):
        for it in names:
            if it.endswith(".rt") and path in ("", it):
                with open(f"{place}/{it}", encoding="utf-8") as file:
                    constant = rf"(?m)^ *(?:pub(?:\([a-z]+\))? )?const {name}: \w+ = ([^;]+);"
                    found += re.findall(constant, file.read())
    return [it.replace("_", "") for it in found]


@pytest.mark.parametrize(("limit", "cell", "homes"), rows())
def test_a_limit(limit, cell, homes):
    numbers = re.findall(r"\d+", limit.replace(",", ""))
    path = (re.findall(r"in `(\w+\.rt)`", cell) or [""])[0]
    assert homes, f"`{cell}` names no constant"
    for name, crate in homes:
        found = values_of(name, crate, path)
        assert found, f"there is no {name} in {path or 'all'} of {crate}"
        for number in found:
            assert not number.isdecimal() or number in numbers, f"{name} of {crate} is {number}"
