"""Checks that no link of the page in a browser carries a key, in whatever form its key file has it."""

import json
import shutil
import subprocess

import pytest

from parties import ROOT, text_of

pytestmark = [
    pytest.mark.without_program,
    pytest.mark.skipif(not shutil.which("node"), reason="node is not on PATH (Debian: nodejs)"),
]

KEY = "ffeeddccbbaa99887766554433221100"
PLAIN = f"""# of the owner: {KEY}
[[key]]  # another comment, {KEY}
address = "c0:00:00:00:00:01"
kind = "random"
rand = "0101010101010101"
ediv = 257
ltk = "{KEY}"
size = 16
authenticated = true
"""
ZEROS = """[[key]]
address = "c0:00:00:00:00:01"
kind = "random"
rand = "0101010101010101"
ediv = 257
ltk = "00000000000000000000000000000000"
size = 16
authenticated = true
"""
# Other lines that a key file may have, or that one types, in place of that of the key.
OTHERS = {
    "a quoted name": f'"ltk" = "{KEY}"',
    "a name in apostrophes": f"'ltk' = \"{KEY}\"",
    "an escape in the name": f'"l\\u0074k" = "{KEY}"',
    "apostrophes": f"ltk = '{KEY}'",
    "three quotes": f'ltk = """{KEY}"""',
    "three apostrophes": f"ltk = '''{KEY}'''",
    "a line of its own": f'ltk = """\n{KEY}"""',
    "an escape": f'ltk = "\\u0066{KEY[1:]}"',
    "an inline table": f'key = [{{ ltk = "{KEY}" }}]',
    "a dotted name": f'a.ltk = "{KEY}"',
    "not closed": f'ltk = "{KEY}',
    "no quotes": f"ltk = {KEY}",
    "another name": f'lkt = "{KEY}"',
    "another place": f'rand = "{KEY}"',
    "a name of the language": f'constructor = "{KEY}"',
    "a hash in a text": f'kind = "public#" ltk = "{KEY}"',
    "two on a line": f'size = 16 ltk = "{KEY}"',
    "no line feed that all know": f'size = 16\u2028ltk = "{KEY}"',
}


def without_keys(*texts):
    """What the page puts into a link for each of these key files, or None."""
    source = text_of(f"{ROOT}/page/page.js")
    part = source[source.index("const KEY_VALUES") : source.index("/** Returns octets in base64.")]
    script = f"{part}\nconsole.log(JSON.stringify({json.dumps(texts)}.map((it) => withoutKeys(it) ?? null)));"
    return json.loads(subprocess.run(["node", "-e", script], capture_output=True, text=True, check=True).stdout)


def test_the_plain_form():
    assert without_keys(PLAIN, PLAIN.replace("\n", "\r\n"), "", "# nothing") == [ZEROS, ZEROS, "", ""]
    assert without_keys(text_of(f"{ROOT}/examples/keys.toml"))[0].count(f'ltk = "{32 * "0"}"') == 3


@pytest.mark.parametrize("form", OTHERS)
def test_another_form(form):
    assert without_keys(PLAIN.replace(f'ltk = "{KEY}"', OTHERS[form])) == [None]


@pytest.mark.parametrize(("text", "keys", "is_one"), [
    (PLAIN, "", True), (f"# {KEY}\n", PLAIN, True), (f'x = "{KEY.upper()}"\n', PLAIN, True), ("ltk", "", True),
    (ZEROS.replace("ltk", "x"), ZEROS, False), ("# filtktest\n", PLAIN, False), (f"# {KEY}\n", "", False),
    (text_of(f"{ROOT}/examples/door.toml") + text_of(f"{ROOT}/examples/bonded.script"), PLAIN, False),
], ids=["file", "key", "upper", "word", "zeros", "another word", "another key", "examples"])
def test_a_key_in_another_text(text, keys, is_one):
    source = text_of(f"{ROOT}/page/page.js")
    part = source[source.index("function hasKey") : source.index("/** Returns octets in base64.")]
    script = f"{part}\nconsole.log(hasKey({json.dumps(text)}, {json.dumps(keys)}));"
    ran = subprocess.run(["node", "-e", script], capture_output=True, text=True, check=True)
    assert ran.stdout == f"{str(is_one).lower()}\n"
