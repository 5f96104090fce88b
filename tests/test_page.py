"""Compares the module of the page in a browser with the program, and opens the page as a person does.

The page is made without proofs, once, unless GIHANDOP_PAGE has the path of one. The module answers by node, the
page by Chromium: tests are skipped that miss one of them, or wasm-opt.
"""

import base64
import json
import os
import random
import re
import shutil
import subprocess
import urllib.parse
import zlib

import pytest

from parties import ROOT, text_of
from parties.browsers import Chromium, Firefox, started
from parties.building import once, ran

EXAMPLES = f"{ROOT}/examples"
KEYS = text_of(f"{EXAMPLES}/keys.toml")
TABLES = {it: text_of(f"{EXAMPLES}/{it}.toml") for it in ("door", "bell", "porch", "post")}
# Each script that runs without another table, with its table.
SCRIPTS = {
    "authorization": "post", "bonded": "door", "first_contact": "door", "four_strangers": "door",
    "full_queue": "door", "indications": "bell", "long_write": "door", "notices": "door",
    "notifications": "door", "prepared_writes": "door",
}
# Tables on which a reader of files may stumble, or take much memory.
HARD = {
    "empty": "",
    "no TOML": "x",
    "nested": "[" * 200,
    "a zero": "\0",
    "no end": "[[service]]\nuuid = \"1800\"\n",
    "one long line": "#" * 300_000,
    "many lines": "# \n" * 600_000,
    "too large": "#" * 2_100_000,
}
# What an edit puts in the place of a piece of a file.
PIECES = [
    "", "0", "9", '"', "[", "]", "=", "\n", "true", "false", "read", "write", "encrypted = true", "fff1", "é",
    "[[service]]\n", "size = 7\n", "connect P 1 c0:00:00:00:00:01\n", "P < 0a0300\n", "tick 1000\n", "update 6 41\n",
]
pytestmark = pytest.mark.long(60)


@pytest.fixture(scope="module")
def page():
    """The path of a page."""
    if path := os.environ.get("GIHANDOP_PAGE"):
        return path
    for name, package in (("wasm-opt", "binaryen"), ("rt", "Rattle")):
        if shutil.which(name) is None:
            pytest.skip(f"there is no {name} ({package})")
    return once("page.html", lambda path: ran([f"{ROOT}/tools/page", "--unproved", path]))


@pytest.fixture
def module(page):
    """Asks the module of the page: module(FUNCTION, TEXT ..) returns the status and the text of its answer."""
    if shutil.which("node") is None:
        pytest.skip("there is no node (nodejs)")
    words = ["node", f"{ROOT}/tests/parties/page.mjs", page]
    with subprocess.Popen(words, stdin=subprocess.PIPE, stdout=subprocess.PIPE, text=True, encoding="utf-8") as node:

        def ask(*request):
            node.stdin.write(json.dumps(request) + "\n")
            node.stdin.flush()
            return tuple(json.loads(node.stdout.readline()))

        yield ask
        node.stdin.close()


@pytest.fixture
def told(program, folder):
    """Asks the program: told(WORDS, NAME=TEXT ..) writes the texts to files and returns status, output and fault."""

    def tell(words, given=None, **files):
        for name, text in files.items():
            with open(f"{folder}/{name}", "w", encoding="utf-8", newline="") as file:
                file.write(text)
            os.chmod(f"{folder}/{name}", 0o600)
        ended = subprocess.run(
            [program, *words], cwd=folder, input=given, capture_output=True, text=True, encoding="utf-8"
        )
        return ended.returncode, ended.stdout, ended.stderr

    return tell


def compare_answers(module, told, table, keys, script):
    """Holds the answers of the module against those of the program."""
    files = {"table": table, "keys": keys, "script": script}
    status, text, fault = told(["show", "table", "keys"], **files)
    assert module("page_show", table, keys) == (status, text + fault)
    data = module("page_rights", table, keys)
    assert data[0] == status and (status == 0 or data[1] == fault)
    status, text, fault = told(["run", "table", "keys", "script", "--echo", "--notices"], **files)
    found, answer = module("page_run", table, keys, script)
    # Only the page tells the place in a refused file.
    assert (found, answer.startswith(text + fault.rstrip("\n"))) == (status, True), (answer, text, fault)
    if status == 0:
        assert module("page_words", table, text) == (0, told(["words", "--table", "table"], text)[1])


@pytest.mark.parametrize("script", SCRIPTS)
def test_an_example(module, told, script):
    compare_answers(module, told, TABLES[SCRIPTS[script]], KEYS, text_of(f"{EXAMPLES}/{script}.script"))


@pytest.mark.parametrize("table", HARD)
def test_a_hard_table(module, told, table):
    compare_answers(module, told, HARD[table], KEYS, "")


@pytest.mark.parametrize("seed", range(10))
def test_edits(module, told, seed):
    """Thirty edits of a table, keys and a script at random."""
    chance = random.Random(seed)
    for _ in range(30):
        script = chance.choice(sorted(SCRIPTS))
        files = [TABLES[SCRIPTS[script]], KEYS, text_of(f"{EXAMPLES}/{script}.script")]
        which = chance.randrange(3)
        begin = chance.randrange(len(files[which]))
        end = min(len(files[which]), begin + chance.choice([0, 1, 2, 5, 20]))
        files[which] = files[which][:begin] + chance.choice(PIECES) + files[which][end:]
        compare_answers(module, told, *files)


@pytest.mark.parametrize(("old", "new"), [("door", "door"), ("porch", "bell"), ("bell", "door"), ("door", "post")])
def test_a_comparison(module, told, old, new):
    words = ["compare", "old", "new", "keys"]
    wanted = told(words, old=TABLES[old], new=TABLES[new], keys=KEYS)
    assert module("page_compare", TABLES[old], TABLES[new], KEYS) == (wanted[0], wanted[1])
    assert wanted[2] == ""


def test_a_refused_comparison(module):
    status, text = module("page_compare", TABLES["door"], "x = 1\n", KEYS)
    assert (status, text) == (1, "table: fault 11: new: x: there is no such key\n")


def test_a_proved_page_has_a_note(page):
    """Beside a proved page is the note that a release reads; a page without proofs says that it is none."""
    with open(page, encoding="utf-8") as file:
        is_proved = "(not proved)" not in file.read()
    assert os.path.isfile(f"{page}.verdict") == is_proved


def test_the_fields(module, told):
    """The fields of the page have the cells, the types and the lengths that `show` prints."""
    status, data = module("page_rights", TABLES["door"], KEYS)
    rows = [it.split("\t")[1:] for it in data.splitlines() if it.startswith("row\t")]
    assert (status, len(rows)) == (0, 8)
    assert rows[2] == ["10", "fff1", "1", "00", ".", "rns", "rwns", "rwns"]
    assert rows[3] == ["13", "fff2", "0-8", "31323334", ".", ".", "(rw)", "."]
    assert [it for it in data.splitlines() if it.startswith("service\t")][0] == "service\t1800 Generic Access"
    assert "peer\tB\trandom c0:00:00:00:00:01" in data.splitlines()
    shown = told(["show", "table", "keys"], table=TABLES["door"], keys=KEYS)[1]
    for row in rows:
        assert re.search(rf"(?m)^ +{row[0]}  .* {' +'.join(map(re.escape, row[4:]))}$", shown)


@pytest.fixture(params=[Chromium, Firefox], ids=["Chromium", "Firefox"])
def browser(request, page, tmp_path):
    """A browser that has opened the page."""
    opened = started(request.param, tmp_path)
    try:
        opened.open(f"file://{page}")
        opened.wait("document.querySelector('#matrix tr')")
        yield opened
    finally:
        opened.close()


def row_of(browser, handle):
    """The cells of the row of a handle, one behind the other."""
    rows = "[...document.querySelectorAll('#matrix tr')].map((row) => [...row.cells].map((it) => it.textContent))"
    return next(it for it in browser.evaluate(rows) if it[0] == str(handle))


def test_it_opens(browser):
    assert row_of(browser, 10) == ["10", "fff1", "1", "00", ".", "rns", "rwns", "rwns"]
    assert "everybody may write it: `write` has no rule" in browser.text("findings")
    assert "Write Response" in browser.text("transcript")
    assert "connect Q 0 00:11:22:33:44:55" in browser.text("transcript")
    assert [browser.text(f"{it}-fault") for it in ("table", "keys", "script")] == ["", "", ""]


def test_the_picture(page, tmp_path):
    """The tour has a picture of the page after an edit. GIHANDOP_PICTURE=docs/page.png makes it anew."""
    browser = started(Chromium, tmp_path)
    try:
        browser.open(f"file://{page}")
        browser.wait("document.querySelector('#matrix tr')")
        browser.click("begin")
        browser.enter("table", TABLES["door"].replace("write = { authenticated = true }", "write = { encrypted = true }"))
        browser.evaluate("scrollTo(0, document.getElementById('table').scrollTop = 0)")
        path = os.environ.get("GIHANDOP_PICTURE", f"{tmp_path}/page.png")
        browser.save_picture(path, 1200, 1450)
        with open(path, "rb") as file:
            assert file.read(8) == b"\x89PNG\r\n\x1a\n"
    finally:
        browser.close()


def test_an_edit_is_compared(browser):
    browser.click("begin")
    browser.enter("table", TABLES["door"].replace("write = { authenticated = true }", "write = { encrypted = true }"))
    assert row_of(browser, 10)[4:] == [".", "rwns, was rns", "rwns", "rwns"]
    assert browser.text("changes").splitlines()[:2] == ["Opened:", "   10  fff1  w  key of 7 to 16; key of 7 to 16, secure connections  B"]
    browser.enter("table", TABLES["door"])
    assert row_of(browser, 10)[4:] == [".", "rns", "rwns", "rwns"]
    assert "Nothing is opened," in browser.text("changes")


REFUSED = {
    "table": (TABLES["door"].replace("fixed", "colour", 1), "table: fault 11: service 2, characteristic 1, colour:"),
    "keys": (KEYS.replace("kind", "sort", 1), "keys: fault 9: key 1, sort: there is no such key"),
    "script": ("connect P 1 c0:00:00:00:00:01\nP < 0\n", "script: line 2"),
}


@pytest.mark.parametrize("name", REFUSED)
def test_a_refused_file(browser, name):
    text, fault = REFUSED[name]
    before = row_of(browser, 10)
    good = browser.evaluate(f"document.getElementById('{name}').value")
    browser.enter(name, text)
    for it in ("table", "keys", "script"):
        assert browser.text(f"{it}-fault").startswith(fault if it == name else "")
        invalid = browser.evaluate(f"document.getElementById('{it}').getAttribute('aria-invalid')")
        assert invalid == str(it == name).lower()
    assert row_of(browser, 10) == before
    browser.enter(name, good)
    assert browser.text(f"{name}-fault") == ""


def test_a_link_holds_the_files(browser, page):
    browser.enter("table", TABLES["bell"])
    browser.enter("script", "# a\n")
    browser.click("share")
    browser.wait("location.hash")
    address = browser.evaluate("location.href")
    assert len(address) < 4_000
    browser.open(address)
    browser.wait("document.querySelector('#matrix tr')")
    assert browser.evaluate("document.getElementById('table').value") == TABLES["bell"]
    assert browser.evaluate("document.getElementById('script').value") == "# a\n"
    keys = browser.evaluate("document.getElementById('keys').value")
    zeros = re.sub(r'ltk = "\w+"', f'ltk = "{"0" * 32}"', KEYS)
    assert keys == "".join(f"{it}\n" for it in zeros.splitlines() if it and not it.startswith("#"))
    browser.enter("keys", KEYS.replace("ltk =", '"ltk" ='))
    browser.click("share")
    browser.wait("document.getElementById('shared').textContent.includes('The keys are not in it')")
    browser.open(f"file://{page}#x")
    browser.wait("document.querySelector('#matrix tr')")
    assert "The address holds no files" in browser.text("shared")


def link_of(text):
    """The part of an address that holds this text in the place of files."""
    packing = zlib.compressobj(9, zlib.DEFLATED, -15)
    return "#" + urllib.parse.quote(base64.b64encode(packing.compress(text) + packing.flush()), safe="")


def test_another_link(browser):
    """A link that is entered while the page is there is followed, and one that holds no files is not."""
    value = lambda it: browser.evaluate(f"document.getElementById('{it}').value")
    link = link_of(json.dumps({"table": TABLES["bell"], "keys": "", "script": "# a\n"}).encode())
    browser.evaluate(f"location.hash = {json.dumps(link)}")
    browser.wait("document.getElementById('script').value === '# a\\n'")
    assert (value("table"), value("keys")) == (TABLES["bell"], "")
    for text in (b"null", b"5", b"[", b'"x"', b'{"table": 5}', b'{"script": {"a": 1}}'):
        browser.evaluate("document.getElementById('shared').textContent = ''")
        browser.evaluate(f"location.hash = {json.dumps(link_of(text))}")
        browser.wait("document.getElementById('shared').textContent.includes('holds no files')")
        assert value("table") == TABLES["bell"]


def test_a_large_link(browser):
    """A link that is unpacked to 100 MB is refused, and the page goes on."""
    link = link_of(b'{"table": "' + b"#" * 100_000_000 + b'"}')
    browser.evaluate(f"location.hash = {json.dumps(link)}")
    browser.wait("document.getElementById('shared').textContent.includes('holds no files')")
    assert browser.evaluate("document.getElementById('table').value") == TABLES["door"]


@pytest.mark.parametrize("field", ["table", "script"])
def test_a_key_in_another_field(browser, field):
    """No link is made of a key file that was put into another field, or of a key of the key file."""
    browser.click("share")
    browser.wait("location.hash")
    made = browser.evaluate("location.hash")
    for text in (KEYS, f"# {re.search('ltk = .(.{32})', KEYS)[1].upper()}\n"):
        browser.enter(field, text)
        assert browser.text("shared") == "", "the link that was made holds other files"
        browser.click("share")
        browser.wait("document.getElementById('shared').textContent.startsWith('No link is made')")
    assert browser.evaluate("location.hash") == made


def test_the_fields_are_not_saved(browser):
    """A browser saves none of what is in the fields with its open pages."""
    fields = "[...document.querySelectorAll('textarea')].map((it) => it.autocomplete)"
    assert browser.evaluate(fields) == ["off"] * 3


@pytest.mark.parametrize("cut, words", [
    (lambda page: page[: page.index('id="module">') + 5_000], "its file is not whole"),
    (lambda page: re.sub('(?<=id="module">)[^<]{4000}', "", page), "or is not whole: "),
    (lambda page: page.replace("<script>", "<script>delete self.WebAssembly;"), "The page cannot run here"),
], ids=["cut", "another_module", "no_module"])
def test_a_page_that_does_not_run(page, tmp_path, cut, words):
    """A page whose file is cut, or which its browser cannot run, says so."""
    with open(page, encoding="utf-8") as file:
        text = cut(file.read())
    with open(f"{tmp_path}/page.html", "w", encoding="utf-8") as file:
        file.write(text)
    browser = started(Chromium, tmp_path)
    try:
        browser.open(f"file://{tmp_path}/page.html")
        browser.wait(f"document.getElementById('shared')?.textContent.replace(/\\s+/g, ' ').includes({json.dumps(words)})")
    finally:
        browser.close()


@pytest.mark.parametrize("reached", ["fetch('http://127.0.0.1:9/')", "import('http://127.0.0.1:9/x.js')"], ids=["fetch", "import"])
def test_it_reaches_no_network(browser, reached):
    assert browser.evaluate(f"{reached}.then(() => 'reached', () => 'refused')") == "refused"
    assert browser.evaluate("document.querySelectorAll('[src], [href]').length") == 0


def test_each_field_has_a_label(browser):
    fields = "[...document.querySelectorAll('textarea, select')].map((it) => it.labels.length)"
    assert set(browser.evaluate(fields)) == {1}
    wide = "document.documentElement.scrollWidth <= document.documentElement.clientWidth"
    assert browser.evaluate(wide)
