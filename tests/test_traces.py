"""Tries docs/TRACEABILITY.md: it has a clause or a test for each rule of docs/PROFILE.md, and they exist.
A comment of a crate names each rule at a definition that states it, and no other rule.

A clause is one of the contract of a function in the crate that is named before it. A test is a function of that
crate of tests or of a file in tests/, or a file of tests/scripts. A case is one of docs/CONFORMANCE.md.
"""

import glob
import os
import re

import pytest

from documents import ROOT, text_of

pytestmark = pytest.mark.without_program

NAMES = r"(?:`[\w:/]+`(?:, )?)+"
CASE = r"GATT/SR/\w+/B[VI]-\d\d-C"
RULES = re.findall(r"\*\*(P-[A-Z]+-\d+)", text_of("docs/PROFILE.md"))
ROWS = re.findall(r"(?m)^\| (P-[A-Z]+-\d+) \| (.*?) \| (.*) \|$", text_of("docs/TRACEABILITY.md"))


def sources_of(crate):
    """The sources of a crate: their names without the suffix, and their texts."""
    paths = glob.glob(f"crates/{crate}/src/**/*.rt", root_dir=ROOT, recursive=True)
    return {os.path.basename(it)[: -len(".rt")]: text_of(it) for it in paths}


def contracts_of(crate, function):
    """The contracts of the functions of a crate with a name: what stands before their bodies."""
    name = function.rpartition("::")[2]
    head = rf"(?ms)^ *(?:pub(?:\([a-z]+\))? )?(?:unsafe )?fn {name}\b.*?(?=^ *\{{$|;$)"
    return [it for text in sources_of(crate).values() for it in re.findall(head, text)]


def named(cell):
    """Yields what a cell names: a crate, and a function with its clauses. A crate stands until the next one."""
    crate = ""
    for part in filter(None, map(str.strip, cell.split(";"))):
        found = re.fullmatch(rf"(?:`(\w+)` )?({NAMES})(?:: ({NAMES}))?", part)
        assert found is not None, f"'{part}' names no functions"
        crate = found[1] or crate
        for function in re.findall(r"[\w:/]+", found[2]):
            yield crate, function, re.findall(r"\w+", found[3] or "")


def rules_in_comments():
    """The rules that comments of the crates name, each with the places of the comments."""
    found = {}
    for kind, mark in (("antt", "--"), ("rt", "//")):
        for path in glob.glob(f"crates/*/*/**/*.{kind}", root_dir=ROOT, recursive=True):
            if path.split("/")[2] == "out":
                continue
            for number, line in enumerate(text_of(path).splitlines(), 1):
                for rule in re.findall(r"\bP-[A-Z]+-\d+\b", line.partition(mark)[2]):
                    found.setdefault(rule, []).append(f"{path}:{number}")
    return found


def test_the_rules():
    assert RULES == [rule for rule, _, _ in ROWS], "those of PROFILE, in their order"


def test_the_comments():
    found = rules_in_comments()
    assert [rule for rule in RULES if rule not in found] == [], "no comment in crates/ names these rules"
    others = {rule: places for rule, places in found.items() if rule not in RULES}
    assert others == {}, "comments in crates/ name rules that PROFILE does not have"


@pytest.mark.parametrize(("rule", "clauses", "tests"), ROWS, ids=[it[0] for it in ROWS])
def test_a_rule(rule, clauses, tests):
    for crate, function, names in named(clauses):
        contracts = contracts_of(crate, function)
        assert contracts, f"{crate} has no function {function}"
        for name in names:
            is_there = any(re.search(rf"\bensures\*? {name}\b", it) for it in contracts)
            assert is_there, f"{function} of {crate} has no clause {name}"
    for crate, function, _ in named(re.sub(r"GATT/[\w/-]+(?:, )?", "", tests)):
        module, _, name = function.rpartition("::")
        if crate == "scripts":
            assert os.path.isfile(f"{ROOT}/tests/scripts/{function}.txt"), f"there is no script {function}"
            continue
        if crate == "tests":
            assert re.search(rf"(?m)^def {name}\(", text_of(f"tests/{module}.py")), f"there is no test {function}"
            continue
        source = sources_of(crate).get(module, "")
        assert re.search(rf"#\[test\]\s+(?:pub )?fn {name}\b", source), f"{crate} has no test {function}"
    cases = set(re.findall(CASE, text_of("docs/CONFORMANCE.md")))
    for case in re.findall(CASE, tests):
        assert case in cases, f"CONFORMANCE has no case {case}"
    assert clauses.strip() or tests.strip(), f"{rule} has neither a clause nor a test"
