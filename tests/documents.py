"""The documents of the repository, and what stands in them."""

import glob
import os
import re

ROOT = os.path.dirname(os.path.dirname(os.path.realpath(__file__)))
PAGES = sorted(glob.glob("*.md", root_dir=ROOT) + glob.glob("docs/*.md", root_dir=ROOT))
# Those whose commands are tried.
SHOWING = ["README.md", *(it for it in PAGES if it.startswith("docs/"))]


def text_of(path):
    with open(f"{ROOT}/{path}", encoding="utf-8") as file:
        return file.read()


def blocks(language, text):
    """The fenced blocks of a language."""
    return re.findall(rf"(?ms)^```{language}\n(.*?)^```$", text)


def cells(text, heading):
    """The words in backticks of each row of the table with these columns."""
    table = text[text.index(heading) :].split("\n\n")[0].splitlines()[2:]
    return [[re.findall(r"`([^`]*)`", it) for it in row.strip("|").split("|")] for row in table]


def shown_commands():
    """The commands of the program that the documents show, in blocks and in backticks."""
    found = set()
    for page in SHOWING:
        text = text_of(page)
        found.update(it.strip() for it in re.findall(r"(?m)^    (.*\./gatt_shell .*)$", text))
        for block in re.findall(r"(?ms)^ *```sh\n(.*?)^ *```$", text):
            found.update(it.strip() for it in block.splitlines() if "./gatt_shell " in it)
        found.update(re.findall(r"`(\./gatt_shell [^`]*)`", text))
    return found
