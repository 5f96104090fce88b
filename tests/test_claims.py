"""Tries docs/PROVED.md: what it names exists in the code, and docs/CONTRACTS.md has the whole promise.

A claim names definitions, each in a file, and the clauses that carry it, each of which every function
before it has. Each record of the promise belongs to a claim, and each of its fields to one row of the
promise in CONTRACTS.
"""

import os
import re

import pytest

from documents import ROOT, text_of
from promised import crate_of, names_in, rows_of, texts

pytestmark = pytest.mark.without_program

PROVED = text_of("docs/PROVED.md")
CLAIMS = rows_of(PROVED, "The claims")


def definitions():
    """The definitions that each claim names, each with its file, which may be that of the claim before."""
    path, found = "", {}
    for number, _, statement, *_ in CLAIMS:
        found[number] = []
        for part in statement.split(";"):
            names = names_in(part)
            if names and names[-1].endswith(".antt"):
                path = names.pop()
            found[number] += [(name, path) for name in names]
    return found


@pytest.mark.parametrize("row", CLAIMS, ids=[it[0] for it in CLAIMS])
def test_a_claim(row):
    number, _, _, carriers, *_ = row
    for name, path in definitions()[number]:
        assert os.path.isfile(f"{ROOT}/crates/{path}"), f"there is no file crates/{path}"
        defined = rf"(?m)^(?:pub (?:record|data)|(?:abbrev|unfoldable) pub) {name}\b"
        assert re.search(defined, text_of(f"crates/{path}")), f"crates/{path} does not define `{name}`"
    for part in carriers.split(";") if "`" in carriers else []:
        head, _, tail = part.partition("`: ")
        other = re.search(r" of `(\w+)$", head)
        crate = crate_of(other[1] if other else "gatt_host")
        functions, clauses = names_in((head[: other.start()] if other else head + "`")), names_in(tail)
        assert functions and clauses, f"`{part.strip()}` names no function and no clause"
        for function in functions:
            for clause in clauses:
                found = crate.find(function)
                is_there = any(is_public and clause in all_of for is_public, _, all_of in found)
                assert is_there, f"`{function}` has no clause `{clause}`"


def fields_of(record):
    """The fields of a record of the laws, each with the first word of its type."""
    folders = [f"{ROOT}/crates/{it}/specs" for it in ("gatt_theorems", "gatt_laws")]
    laws = "\n".join(it for folder in folders for it in texts(folder, ".antt"))
    body = re.search(rf"(?ms)^pub record {record} : Type 0 where$(.*?)(?=^\S|\Z)", laws)[1]
    return dict(re.findall(r"(?m)^  pub (\w+) : (\w+)", body))


def test_the_promise():
    """Each of its records is in a claim, and each of their fields in one row of CONTRACTS."""
    records = fields_of("Promise")
    defined = {name for named in definitions().values() for name, _ in named}
    for name, record in records.items():
        assert record in defined, f"no claim states `{record}`, the field {name} of the promise"
    fields = {name: fields_of(record) for name, record in records.items()}
    for name, field in re.findall(rf"`({'|'.join(records)})\.(\w+)`", PROVED):
        assert field in fields[name], f"the promise has no {name}.{field}"
    cited = []
    for row in rows_of(text_of("docs/CONTRACTS.md"), "The promise"):
        first, *others = names_in(row[-1])
        name = first.split(".")[0]
        cited += [(name, it) for it in (first.split(".")[1], *others)]
    wanted = [(name, field) for name, all_of in fields.items() for field in all_of]
    assert sorted(cited) == sorted(wanted), "each field of the promise, in one row"


def test_scripts():
    """The scripts that test what one installs are there."""
    for row in rows_of(PROVED, "What you install"):
        for it in re.findall(r"`([\w/]+\.py)`", row[2]):
            assert os.path.isfile(f"{ROOT}/tests/{it}"), f"there is no tests/{it}"
