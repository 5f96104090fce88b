"""Tries the links of the documents: each resolves, and each page links the words that are Gihandop's own.

These are the rows with an anchor of "Words of Gihandop" in the glossary. A page links one at its first use
outside headings, code and other links, and once, except API, CONTRACTS and what tools/check/model makes. Words
that are also everyday English (EVERYDAY) are linked by hand. No page links a word of the trade.
"""

import os
import re

import pytest

from documents import PAGES, ROOT, text_of

pytestmark = pytest.mark.without_program

EVERYDAY = "event item kit listener row rule run share standing table".split()
# Pages that link no terms.
APART = ("docs/GLOSSARY.md", "docs/API.md", "docs/CONTRACTS.md", "CHANGELOG.md")


def blanked(pattern, text):
    return re.sub(pattern, lambda it: " " * len(it[0]), text)


def without_code(text):
    return blanked(r"(?ms)^ *```.*?^ *```$|^ {4}.*?$|`[^`\n]*`", text)


def anchors(text):
    """The names by which a link reaches a heading or an anchor of a page."""
    heads = re.findall(r"(?m)^#+ (.*)$", re.sub(r"(?ms)^```.*?^```", "", text))
    named = set(re.findall(r'<a id="(.*?)">', text))
    return {re.sub(r"[^\w\- ]", "", it).lower().replace(" ", "-") for it in heads} | named


def terms():
    """The words that are linked: the anchor and the text of each."""
    own = text_of("docs/GLOSSARY.md").split("\n## Words of Gihandop\n")[1].split("\n## ")[0]
    return re.findall(r'(?m)^\| <a id="(.*?)"></a>(.*?) \|', own)


@pytest.mark.parametrize("page", PAGES)
def test_a_page_leads_somewhere(page):
    for path, anchor in re.findall(r"\]\((?!http)([^)#]*)#?([^)]*)\)", without_code(text_of(page))):
        target = os.path.normpath(os.path.join(os.path.dirname(page), path)) if path else page
        if anchor and target in PAGES:
            assert anchor in anchors(text_of(target)), f"no place {path}#{anchor}"
        else:
            assert os.path.exists(f"{ROOT}/{target}"), f"no place {path}#{anchor}"


@pytest.mark.parametrize("page", [it for it in PAGES if it not in APART])
def test_a_page_links_terms(page):
    text = blanked(r"(?s)<!-- tools/check/model makes.*?<!-- tools/check/model ends", without_code(text_of(page)))
    prose = blanked(r"(?m)^#.*$|^\|.*\n(?=\|-)|\[[^]]*\]\([^)]*\)|\bBSD-3-Clause\b", text)
    links = [(it[1], it.start()) for it in re.finditer(r"\]\([^)]*GLOSSARY\.md#([^)]*)\)", text)]
    places = dict(links)
    for anchor, _ in links:
        assert anchor in dict(terms()), f"{anchor} is linked, and is no word of Gihandop's own"
        assert [it[0] for it in links].count(anchor) == 1, f"{anchor} is linked more than once"
    for anchor, word in terms():
        used = re.search(rf"(?i:\b{word}s?\b)", prose)
        if used and anchor not in EVERYDAY:
            assert places.get(anchor, len(text)) < used.start(), f"{used[0]} is not linked at its first use"


def test_the_glossary():
    """The everyday words are among those that are linked."""
    assert sorted(set(EVERYDAY) - set(dict(terms()))) == []
