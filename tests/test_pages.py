"""Tries pages beside what they show: the built-in table, README's policy, the cases of CONFORMANCE, the
quotes of READING, and the pages that a script makes."""

import re
import subprocess

import pytest

from documents import ROOT, cells, text_of

pytestmark = pytest.mark.without_program

# What makes pages, or counts in all of them. Each prints what is wrong.
SCRIPTS = [
    "tools/check/api --check", "tools/check/tables --check", "tools/check/model --check", "tools/check/contracts --check", "tools/check/manual --check",
    "tools/check/prose", "tools/licences",
]


@pytest.mark.parametrize("words", SCRIPTS)
def test_a_script(words):
    ran = subprocess.run(words.split(), cwd=ROOT, stdin=subprocess.DEVNULL, capture_output=True, text=True)
    assert ran.returncode == 0, ran.stdout + ran.stderr


def test_the_built_in_table():
    """It is the file, except the line that names its schema."""
    found = re.search(r'DOOR: &str = r#"(.*?)"#;', text_of("crates/att_table/src/examples.rt"), re.DOTALL)
    assert found[1] == re.sub(r"\A#:schema .*\n", "", text_of("examples/door.toml"))


def sections():
    """Yields the sections of docs/CONFORMANCE.md, each with the name of its script."""
    for section in text_of("docs/CONFORMANCE.md").split("\n## ")[1:]:
        if found := re.match(r".*`(\w+)`\n", section):
            yield found[1], section


def behind(lines, texts):
    """The lines behind the texts, if these stand among the lines in their order."""
    for it in texts:
        assert it in lines, "what it prints"
        lines = lines[lines.index(it) + 1 :]
    return lines


@pytest.mark.parametrize(("name", "section"), sections(), ids=[name for name, _ in sections()])
def test_cases(name, section):
    """Each case is at its lines of the script, and prints what its row has."""
    script = text_of(f"examples/conformance/{name}.script")
    lines, printed = script.splitlines(), text_of(f"examples/conformance/{name}.out").splitlines()
    rows = re.findall(r"(?m)^\| (GATT/SR/[^|]*) \| [^|]* \| (\d+)(?: to (\d+))? \| (.*) \|$", section)
    for case, first, last, texts in rows:
        end = int(last or first)
        comment, *played = lines[int(first) - 2 : end]
        assert comment.startswith("#") and case in comment, f"{case} begins at its first line"
        assert end == len(lines) or lines[end].startswith("#"), f"{case} ends at its last line"
        assert played and not any(it.startswith("#") for it in played), f"{case} has no comment among its lines"
        printed = behind(printed, re.findall(r"`([^`]*)`", texts))
    cases = set(re.findall(r"GATT/SR/\w+/B[VI]-\d\d-C", script))
    assert sorted(cases - {it[0] for it in rows}) == [], "cases of the script that are in no row"


def quotes():
    """Yields the texts that docs/READING.md quotes, each after the file that it names."""
    text = text_of("docs/READING.md")
    for quote, path in re.findall(r"(?m)^\| .* \| `([^`]*)` \| `([^`]*)` \|$", text):
        yield f"crates/{path}", quote
    for row in cells(text, "| Rule | The line that fits | Broken? |"):
        yield "crates/att_policy/specs/Policy.antt", row[1][0]
    yield from re.findall(r"(?ms)`(crates/[^`]*)`[^`]*:\n\n```\w+\n(.*?)^```$", text)


@pytest.mark.parametrize(("path", "quote"), quotes())
def test_a_quote(path, quote):
    """It is in the file, letter for letter."""
    assert quote in text_of(path)


def test_each_block_is_quoted():
    """No block of docs/READING.md but those of the program is without its file."""
    text = text_of("docs/READING.md")
    found = len(re.findall(r"(?m)^```(?:antt|rust)$", text))
    assert found == sum(quote.endswith("\n") for _, quote in quotes())
