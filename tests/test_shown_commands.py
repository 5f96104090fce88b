"""Tries each command that README and docs/ show and that ends by itself, as it stands there."""

import os
import re
import subprocess

import pytest

from documents import ROOT, SHOWING, cells, shown_commands, text_of
from test_shown_devices import HOSTED, SERVED

# They end with status 3: the new table opens a right, and the answer is no.
OPENS = "./gatt_shell compare examples/porch.toml examples/porch_next.toml examples/keys.toml"
DENIES = "./gatt_shell may examples/door.toml examples/keys.toml stranger write 10"

# Commands, with the file or the text that they print. Of an empty text what they print is not compared.
PRINTED = {
    "printf '0a0300\\n' | ./gatt_shell att": "0b4c6f636b\n",
    "printf '0a0300\\n' | ./gatt_shell --unproved att": "0b4c6f636b\n",
    "./gatt_shell att < examples/att_first.txt": "",
    "./gatt_shell check examples/door.toml examples/keys.toml": "attributes 21\nkeys 3\n",
    "./gatt_shell show examples/door.toml examples/keys.toml": "examples/door.shown",
    "./gatt_shell show examples/bell.toml examples/keys.toml": "examples/bell.shown",
    "./gatt_shell show examples/porch.toml examples/keys.toml": "examples/porch.shown",
    OPENS: "",
    "./gatt_shell expect examples/door.toml examples/door.expect.toml": (
        "8 expectations hold, for clients with every kind of key and without one.\n"
    ),
    DENIES: "not encrypted  no: `write` needs `encrypted`, Insufficient Authentication (05)\n",
    "./gatt_shell may examples/door.toml examples/keys.toml 00:11:22:33:44:55 write 13 --authorized": (
        "not encrypted  no: `write` needs `encrypted`, Insufficient Encryption (0f)\n"
        "key of 16, authenticated  yes\n"
        "key of 7, authenticated  no: `write` needs `key_size = 16`, Insufficient Encryption Key Size (0c)\n"
    ),
    "./gatt_shell may examples/door.toml examples/keys.toml stranger read 3 >/dev/null"
    " && echo everybody reads the name": "everybody reads the name\n",
    "./gatt_shell run examples/door.toml examples/keys.toml examples/bonded.script": "examples/bonded.out",
    "./gatt_shell run examples/door.toml examples/keys.toml examples/bonded.script --echo": (
        "examples/bonded.echoed"
    ),
    "./gatt_shell run examples/door.toml examples/keys.toml examples/first_contact.script": (
        "examples/first_contact.out"
    ),
    "./gatt_shell run examples/door.toml examples/keys.toml examples/late.script --echo": "",
    "./gatt_shell run examples/door.toml examples/keys.toml examples/bonded.script --echo --words": "",
    "./gatt_shell run examples/door.toml examples/keys.toml examples/first_contact.script --echo --words": "",
    "./gatt_shell run examples/porch.toml examples/keys.toml examples/replacement.script"
    " --next examples/porch_next.toml": "examples/replacement.out",
    "./gatt_shell run examples/conformance/server.toml examples/keys.toml"
    " examples/conformance/reading.script": (
        "examples/conformance/reading.out"
    ),
    "./gatt_shell run examples/door.toml examples/keys.toml examples/notices.script --notices": (
        "examples/notices.out"
    ),
    "./gatt_shell run examples/door.toml examples/keys.toml examples/bonded.script"
    " | ./gatt_shell words --table examples/door.toml": (
        "Q > 01120a000f  Error Response: Write Request of handle 10 (fff1), Insufficient Encryption\n"
        "Q > 13  Write Response\n"
        "Q > 0b01  Read Response: 01\n"
        "Q > 010a0d0008  Error Response: Read Request of handle 13 (fff2), Insufficient Authorization\n"
        "Q > 0b31323334  Read Response: 31323334\n"
        "Q ended 05\n"
    ),
    "./gatt_shell --help": "",
}
# Those that another test tries, which makes the files that they read.
ELSEWHERE = {
    "./gatt_shell check examples/door.toml keys.toml": "tests/test_keys_page.py",
    "sed 's/size = 16/size = 17/' keys.toml | ./gatt_shell show examples/door.toml /dev/stdin": (
        "tests/test_keys_page.py"
    ),
    "./gatt_shell run examples/door.toml keys.toml try.script": "tests/test_keys_page.py",
    "./gatt_shell host examples/door.toml examples/keys.toml --serial /dev/ttyACM0": "tests/test_serial.py",
    "sudo ./gatt_shell host examples/door.toml examples/keys.toml --serial /run/hci0": "tests/test_bridge.py",
}
# One that refuses a file, which a block of the documents shows, with the line that it prints below it.
REFUSED = "sed 's/notify/notfy/' examples/door.toml | ./gatt_shell show /dev/stdin"
# Scripts that the documents name without a command: table, keys, script, and what the run is given.
SCRIPTS = [
    ("door", "keys", "bonded"),
    ("door", "keys", "first_contact"),
    ("door", "keys", "four_strangers"),
    ("door", "keys", "full_queue"),
    ("door", "keys", "late"),
    ("door", "keys", "long_write"),
    ("door", "keys", "notifications"),
    ("door", "keys", "prepared_writes"),
    ("door", "secure_key", "secure_connections"),
    ("door", "keys", "notices", "--notices"),
    ("bell", "keys", "indications"),
    ("post", "keys", "authorization"),
    ("lamps", "keys", "skipped", "--notices"),
    ("porch", "keys", "owed", "--next", "examples/porch_next.toml"),
    ("porch", "keys", "replacement", "--next", "examples/porch_next.toml"),
    ("conformance/server", "keys", "conformance/discovery"),
    ("conformance/server", "keys", "conformance/mtu"),
    ("conformance/server", "keys", "conformance/reading"),
    ("conformance/server", "keys", "conformance/telling"),
    ("conformance/server", "keys", "conformance/unsupported"),
    ("conformance/server", "keys", "conformance/writing"),
    ("porch", "keys", "conformance/changed", "--next", "examples/porch_next.toml"),
]


def run(command, program):
    words = command.replace("./gatt_shell --unproved", program).replace("./gatt_shell", program)
    return subprocess.run(
        words, shell=True, cwd=ROOT, stdin=subprocess.DEVNULL, capture_output=True, text=True, timeout=60
    )


def printed(command, program):
    """What a command prints that ends well."""
    ran = run(command, program)
    assert ran.returncode == (3 if command in (OPENS, DENIES) else 0), ran.stderr
    return ran.stdout


def blocks_of_commands():
    """Yields each page, a command of PRINTED, and the block of text right below it."""
    for page in SHOWING:
        for command, shown in re.findall(r"(?ms)^```sh\n([^\n]*)\n```\n\n```text\n(.*?)^```$", text_of(page)):
            if command in PRINTED:
                yield pytest.param(page, command, shown, id=f"{page}: {command}")


@pytest.mark.without_program
def test_each_command_is_tried():
    tried = {*PRINTED, *SERVED, *HOSTED, *ELSEWHERE, REFUSED}
    assert sorted(shown_commands() - tried) == [], "shown, and nothing tries it"
    assert sorted(tried - shown_commands()) == [], "tried, and no document shows it"
    for path in ELSEWHERE.values():
        assert os.path.isfile(f"{ROOT}/{path}"), path


@pytest.mark.without_program
def test_each_script_is_tried():
    for folder in ("", "conformance/"):
        for name in sorted(os.listdir(f"{ROOT}/examples/{folder}")):
            if name.endswith(".script"):
                assert folder + name[: -len(".script")] in {it[2] for it in SCRIPTS}, name


@pytest.mark.parametrize(("command", "wanted"), PRINTED.items(), ids=PRINTED)
def test_a_command(program, command, wanted):
    found = printed(command, program)
    if wanted:
        assert found == (text_of(wanted) if wanted.startswith("examples/") else wanted)


@pytest.mark.parametrize(("page", "command", "shown"), blocks_of_commands())
def test_a_block(program, page, command, shown):
    """What a page shows below a command is what it prints. A line `...` stands for any lines."""
    found = printed(command, program)
    assert re.fullmatch(r"(?:.*\n)*?".join(map(re.escape, shown.split("...\n"))), found), found


def test_a_refused_file(program):
    """A block shows a command that refuses a file, and what it prints."""
    ran = run(REFUSED, program)
    assert (ran.returncode, ran.stdout) == (1, "")
    shown = "".join(f"    {it}\n" for it in [REFUSED, *ran.stderr.splitlines()])
    assert shown in text_of("docs/TUTORIAL.md")


@pytest.mark.parametrize("script", SCRIPTS, ids=[it[2] for it in SCRIPTS])
def test_a_script(program, script):
    table, keys, name, *more = script
    words = [f"examples/{table}.toml", f"examples/{keys}.toml", f"examples/{name}.script", *more]
    assert printed(" ".join(["./gatt_shell run", *words]), program) == text_of(f"examples/{name}.out")


@pytest.mark.parametrize("name", ["discovery", "long_write"])
def test_pdus(program, name):
    answers = printed(f"./gatt_shell att < examples/{name}.txt", program)
    assert answers == text_of(f"examples/{name}_answers.txt")


def test_the_pdus_of_the_tutorial(program):
    """The table of PDUs in the tutorial has the lines of a file, and what the program answers."""
    rows = cells(text_of("docs/TUTORIAL.md"), "| PDU | Answer |")
    asked = [it for row in rows for it in row[0]]
    assert asked == [it for it in text_of("examples/att_first.txt").splitlines() if it]
    answers = [it for row in rows for it in row[1]]
    assert printed("./gatt_shell att < examples/att_first.txt", program).split() == answers


@pytest.mark.parametrize("script", ["tools/check/manual", "tools/check/tables"])
def test_what_needs_the_program(program, script):
    """The manual pages and the tables of cases are what their sources and the program make."""
    words = [script, "--check", program]
    how = {"stdin": subprocess.DEVNULL, "capture_output": True, "text": True, "timeout": 300}
    ran = subprocess.run(words, cwd=ROOT, **how)
    assert ran.returncode == 0, ran.stdout + ran.stderr


@pytest.mark.without_program
def test_the_run_of_the_tutorial():
    """The table of a run in the tutorial has the lines of a script, and what it prints."""
    rows = cells(text_of("docs/TUTORIAL.md"), "| Line | Printed |")
    lines = [it for it in text_of("examples/bonded.script").splitlines() if it and not it.startswith("#")]
    assert [it for row in rows for it in row[0]] == lines
    assert [it for row in rows for it in row[1]] == text_of("examples/bonded.out").splitlines()
