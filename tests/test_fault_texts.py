"""Compares the texts of faults for C with those that the types of the faults print in Rust.

`gh_text` prints no argument, so the table of C has texts of its own: they are those of `text`, or else of `Display`, in
the order of the faults' numbers, up to the argument.
"""

import re

import pytest

from documents import text_of

pytestmark = pytest.mark.without_program

# The constant of C's table, what comes before each text, the type of the fault, and its file.
FAULTS = [
    ("CALLS", "", "AppFault", "crates/host_api/src/app.rt"),
    ("TABLE", "table: ", "TableFault", "crates/att_table/src/table_fault.rt"),
    ("KEYS", "keys: ", "KeyFault", "crates/le_security/src/key_fault.rt"),
]


def texts_for_c(name):
    table = re.search(rf"(?ms)^const {name}: &\[&str\] = &\[(.*?)^\];", text_of("crates/gihandop_c/src/text.rt"))[1]
    return re.findall(r'"([^"]*)"', table)


def texts_by_number(fault, path):
    """Returns the text of each number, up to its argument: of the function `text`, or else of `Display`."""
    text = text_of(path)
    numbers = dict(re.findall(rf"{fault}::(\w+)(?:\(_\))? => (\d+),", text))
    begin, end = text.find("    pub fn text(self)"), "\n    }\n"
    if begin < 0:
        begin, end = text.index(f"impl fmt::Display for {fault} "), "\n}\n"
    shown = text[begin:].split(end)[0]
    texts = dict(re.findall(rf'{fault}::(\w+)(?:\(\w+\))? =>\s*\{{?\s*(?:return write!\(f, )?"([^"]*)"', shown))
    assert numbers and numbers.keys() == texts.keys()
    return [texts[name].partition(": {")[0] for name in sorted(numbers, key=lambda it: int(numbers[it]))]


@pytest.mark.parametrize("name, front, fault, path", FAULTS)
def test_c_has_the_text_of_each_fault(name, front, fault, path):
    assert texts_for_c(name) == [f"{front}{it}" for it in texts_by_number(fault, path)]
