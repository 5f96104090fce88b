"""Tries words of the program: how it ends, what it prints, and which files it leaves (cases/words.txt).

Each case runs in a new folder that has the files of `made`, and makes or changes no file there but `rows`.
"""

import os
import shutil
import subprocess

import pytest

from documents import ROOT, text_of
from parties.building import is_instrumented

TOO_MANY = "rows: fault 3: more of them than a rows file may have\n"
# A file of TOML may be as large as this.
LARGEST = 2_097_152
SUBSCRIBES = "connect P 1 c0:00:00:00:00:01\nencrypt P 0101010101010101 257\nP < 1207000100\n"
FILES = {
    "empty": "",
    "empty_table": "service = []\n",
    "pdus": "0a0300\n\nd20300\n",
    "bad_pdus": "0a0300\n\n0a0\n20\n",
    "bad": "This is none.\n",
    "strangers": "1 c0:00:00:00:00:01 7 1\n! 1 c0:00:00:00:00:0a\n",
    "subscribes": SUBSCRIBES,
    "subscribed": "1 c0:00:00:00:00:01 7 1\n",
    "unsubscribes": SUBSCRIBES.replace("1207000100", "1207000000"),
    "exchanges": "connect U 1 c0:00:00:00:00:0a\nU < 02f700\n",
    "both": f"{SUBSCRIBES}connect Q 0 00:11:22:33:44:55\nencrypt Q 0202020202020202 514\nQ < 120b000100\n",
    "replaces": "connect U 1 c0:00:00:00:00:0a\nU < 1204000200\nreplace\n",
}


def cases():
    for line in text_of("tests/cases/words.txt").splitlines():
        if line and not line.startswith("#"):
            status, words, *printed = (it.strip() for it in line.split("|"))
            output, errors, rows = (it.replace("\\n", "\n") for it in (printed + [""])[:3])
            yield pytest.param(int(status), words, output, errors, rows, id=words or "nothing")


def filled(name, size):
    """The text of a file with a comment behind it, of so many octets."""
    text = text_of(f"examples/{name}")
    return f"{text}#{' ' * (size - len(text.encode()) - 1)}"


def made(folder, words):
    """Makes the files of a case, and the large ones if its words name them."""
    for name in os.listdir(f"{ROOT}/examples"):
        if name.endswith(".toml"):
            shutil.copy(f"{ROOT}/examples/{name}", folder)
    large = {
        "at_limit.toml": ("door.toml", LARGEST),
        "over_limit.toml": ("door.toml", LARGEST + 1),
        "keys_at_limit.toml": ("keys.toml", LARGEST),
        "keys_over_limit.toml": ("keys.toml", LARGEST + 1),
    }
    texts = {name: filled(*it) for name, it in large.items() if name in words.split()}
    for name, text in {**FILES, **texts}.items():
        with open(f"{folder}/{name}", "w", encoding="utf-8") as file:
            file.write(text)
    os.symlink("rows", f"{folder}/link")


def contents(folder):
    """The octets of each file, but for those of locks, which stay."""
    found = {}
    for name in os.listdir(folder):
        if not name.endswith(".lock") and os.path.exists(f"{folder}/{name}"):
            with open(f"{folder}/{name}", "rb") as file:
                found[name] = file.read()
    return found


def is_as_wanted(text, wanted):
    return bool(text) if wanted == "..." else text == wanted


@pytest.mark.parametrize(("status", "words", "output", "errors", "rows"), cases())
def test_words(folder, program, status, words, output, errors, rows):
    made(folder, words)
    before = contents(folder)
    shell = ["bash", "-c", f'"$0" {words}', program]
    ran = subprocess.run(shell, cwd=folder, stdin=subprocess.DEVNULL, capture_output=True, timeout=60)
    assert ran.returncode == status, ran.stderr
    assert is_as_wanted(ran.stdout.decode(), output), ran.stdout
    line = errors if errors in ("", "...") else f"{errors}\n"
    assert is_as_wanted(ran.stderr.decode(errors="replace"), line), ran.stderr
    after = contents(folder)
    left = after.pop("rows", None)
    # The link leads to the rows.
    after.pop("link", None)
    assert left == ({"": None, "-": b""}.get(rows, rows.encode())), "the rows"
    assert after == before, "the other files"


# Numbers of configurations and of peers that wait for Service Changed, and the answer.
@pytest.mark.parametrize(
    ("configurations", "peers", "answer"),
    [(4096, 64, (0, "")), (4097, 0, (1, TOO_MANY)), (0, 65, (1, TOO_MANY))],
    ids=["as-many-as-possible", "a-configuration-more", "a-peer-more"],
)
def test_many_rows(folder, program, configurations, peers, answer):
    """A rows file has at most 4,096 configurations and 64 peers that wait."""
    if configurations and is_instrumented(program):
        pytest.skip("with AddressSanitizer it takes a minute")
    with open(f"{folder}/rows", "w", encoding="ascii") as file:
        file.writelines(f"0 00:00:00:00:00:00 {it} 1\n" for it in range(1, configurations + 1))
        file.writelines(f"! 0 00:00:00:00:00:{it:02x}\n" for it in range(peers))
    keys = shutil.copyfile(f"{ROOT}/examples/keys.toml", f"{folder}/keys.toml")
    os.chmod(keys, 0o600)
    words = [program, "show", f"{ROOT}/examples/door.toml", keys, "--rows", f"{folder}/rows"]
    ran = subprocess.run(words, stdin=subprocess.DEVNULL, capture_output=True, text=True, timeout=60)
    assert (ran.returncode, ran.stderr) == answer


def test_att_answers_each_line(program):
    """`att` answers a line before the next one comes."""
    with subprocess.Popen([program, "att"], stdin=subprocess.PIPE, stdout=subprocess.PIPE, text=True) as att:
        for pdu, answer in (("0a0300", "0b4c6f636b"), ("0a0600", "0b64")):
            att.stdin.write(f"{pdu}\n")
            att.stdin.flush()
            assert att.stdout.readline() == f"{answer}\n"
        att.stdin.close()
