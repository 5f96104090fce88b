"""Checks the answers of `gatt_shell may`: who may use an attribute, by which rule not, and with which error code.

The answers are proved to be those of the server's policy. Here are whole outputs, and scripts that ask a server
the same questions.
"""

import re
import subprocess

import pytest

from documents import ROOT, text_of

KEYS = f"{ROOT}/examples/keys.toml"
PHONE = "c0:00:00:00:00:01"
TABLET = "00:11:22:33:44:55"

# A value that may be subscribed to, but is sent only to those who may read it, and one that notifies nobody. A
# key of LE Secure Connections may read the last value.
SILENT = """[[service]]
uuid = "fff0"
[[service.characteristic]]
uuid = "fff1"
value = "00"
properties = ["read", "write", "notify", "indicate"]
read = { authenticated = true, key_size = 16 }
config = { authorized = true }
[[service.characteristic.descriptor]]
uuid = "2901"
value = "6261"
properties = ["read", "write"]
write = { secure = true }
[[service.characteristic]]
uuid = "fff2"
value = "00"
properties = ["read", "command"]
read = { secure = true, authorized = true }
[[service.characteristic.descriptor]]
uuid = "2901"
value = "6261"
properties = ["read", "write"]
"""

# The words before the answer for each link of a stranger, the phone and the tablet.
NONE = "not encrypted  "
KEY_16 = "key of 16  "
LONG = "key of 16, authenticated  "
SHORT = "key of 7, authenticated  "

# The words behind the table and the keys, the lines of the answer, and the status.
DOOR = [
    ("stranger read 3", [f"{NONE}yes"]),
    ("stranger read 0", [f"{NONE}no: Invalid Handle (01)"]),
    ("stranger write 22", [f"{NONE}no: Invalid Handle (01)"]),
    ("stranger notify 65535", [f"{NONE}no: Invalid Handle (01)"]),
    ("stranger indicate 0", [f"{NONE}no: Invalid Handle (01)"]),
    ("stranger read 10", [f"{NONE}no: `read` needs `encrypted`, Insufficient Authentication (05)"]),
    ("stranger write 3", [f"{NONE}no: it has no property `write`, Write Not Permitted (03)"]),
    ("stranger command 10", [f"{NONE}no: it has no property `command`, Write Not Permitted (03)"]),
    ("stranger command 21", [f"{NONE}yes"]),
    ("stranger notify 6", [f"{NONE}yes"]),
    ("stranger subscribe 6", [f"{NONE}yes"]),
    ("stranger subscribe 22", [f"{NONE}no: Invalid Handle (01)"]),
    ("stranger indicate 6", [f"{NONE}no: nothing is sent: it has no property `indicate`"]),
    ("stranger notify 3", [f"{NONE}no: nothing is sent: it has no property `notify`"]),
    ("stranger notify 7", [f"{NONE}no: nothing is sent: it has no property `notify`"]),
    ("stranger subscribe 3", [f"{NONE}no: it may not subscribe: it has no property `notify` or `indicate`"]),
    ("stranger subscribe 7", [f"{NONE}no: it may not subscribe: it has no property `notify` or `indicate`"]),
    ("stranger notify 10", [f"{NONE}no: nothing is sent: `read` needs `encrypted`"]),
    (
        "stranger subscribe 10",
        [f"{NONE}no: it may not subscribe: `config` needs `encrypted`, Insufficient Authentication (05)"],
    ),
    ("stranger write 11", [f"{NONE}no: `config` needs `encrypted`, Insufficient Authentication (05)"]),
    ("stranger read 10 --authorized", [f"{NONE}no: `read` needs `encrypted`, Insufficient Authentication (05)"]),
    (
        f"{PHONE} read 10",
        [f"{NONE}no: `read` needs `encrypted`, Insufficient Encryption (0f)", f"{KEY_16}yes"],
    ),
    (
        f"{PHONE} read 10 --unencrypted",
        [f"{NONE}no: `read` needs `encrypted`, Insufficient Encryption (0f)"],
    ),
    (
        f"{PHONE} write 10",
        [
            f"{NONE}no: `write` needs `encrypted`, Insufficient Encryption (0f)",
            f"{KEY_16}no: `write` needs `authenticated`, Insufficient Authentication (05)",
        ],
    ),
    (
        f"{PHONE} subscribe 10",
        [
            f"{NONE}no: it may not subscribe: `config` needs `encrypted`, Insufficient Encryption (0f)",
            f"{KEY_16}yes",
        ],
    ),
    (
        f"{PHONE} notify 10",
        [f"{NONE}no: nothing is sent: `read` needs `encrypted`", f"{KEY_16}yes"],
    ),
    (
        f"{TABLET} write 13",
        [
            f"{NONE}no: `write` needs `encrypted`, Insufficient Encryption (0f)",
            f"{LONG}no: `write` needs `authorized`, Insufficient Authorization (08)",
            f"{SHORT}no: `write` needs `key_size = 16`, Insufficient Encryption Key Size (0c)",
        ],
    ),
    (
        f"{TABLET} read 13 --authorized",
        [
            f"{NONE}no: `read` needs `encrypted`, Insufficient Encryption (0f)",
            f"{LONG}yes",
            f"{SHORT}no: `read` needs `key_size = 16`, Insufficient Encryption Key Size (0c)",
        ],
    ),
    (
        f"{TABLET} read 13 --authorized --unencrypted",
        [f"{NONE}no: `read` needs `encrypted`, Insufficient Encryption (0f)"],
    ),
]
BELL = [
    ("stranger indicate 6", [f"{NONE}yes"]),
    ("stranger read 6", [f"{NONE}no: it has no property `read`, Read Not Permitted (02)"]),
    ("stranger notify 6", [f"{NONE}no: nothing is sent: it has no property `notify`"]),
    ("stranger subscribe 6", [f"{NONE}yes"]),
    (f"{TABLET} notify 3", [f"{NONE}yes", f"{LONG}yes", f"{SHORT}yes"]),
]
PORCH = [
    (f"{PHONE} indicate 3", [f"{NONE}yes", f"{KEY_16}yes"]),
    (f"{PHONE} write 10 --unencrypted", [f"{NONE}yes"]),
]
SILENT_CASES = [
    (
        "stranger subscribe 3",
        [f"{NONE}no: it may not subscribe: `config` needs `authorized`, Insufficient Authorization (08)"],
    ),
    ("stranger subscribe 3 --authorized", [f"{NONE}yes"]),
    ("stranger notify 3 --authorized", [f"{NONE}no: nothing is sent: `read` needs `encrypted`"]),
    (
        f"{TABLET} notify 3",
        [
            f"{NONE}no: nothing is sent: `read` needs `encrypted`",
            f"{LONG}yes",
            f"{SHORT}no: nothing is sent: `read` needs `key_size = 16`",
        ],
    ),
    (
        f"{TABLET} notify 3 --authorized",
        [
            f"{NONE}no: nothing is sent: `read` needs `encrypted`",
            f"{LONG}yes",
            f"{SHORT}no: nothing is sent: `read` needs `key_size = 16`",
        ],
    ),
    (
        f"{PHONE} indicate 3 --authorized",
        [
            f"{NONE}no: nothing is sent: `read` needs `encrypted`",
            f"{KEY_16}no: nothing is sent: `read` needs `authenticated`",
        ],
    ),
    (
        f"{TABLET} write 5",
        [
            f"{NONE}no: `write` needs `encrypted`, Insufficient Encryption (0f)",
            f"{LONG}no: `write` needs `secure`, Insufficient Authentication (05)",
            f"{SHORT}no: `write` needs `key_size = 16`, Insufficient Encryption Key Size (0c)",
        ],
    ),
    # A descriptor that everybody may write is behind the value, and no configuration.
    ("stranger subscribe 7", [f"{NONE}no: it may not subscribe: it has no property `notify` or `indicate`"]),
    ("stranger write 8", [f"{NONE}yes"]),
]
CASES = [
    pytest.param(table, words, lines, id=f"{table}: {words}")
    for table, cases in (("door", DOOR), ("bell", BELL), ("porch", PORCH), ("silent", SILENT_CASES))
    for words, lines in cases
]

# Words that are refused, and what is said of them.
WRONG = [
    ("owner read 3", "PEER: it is neither `stranger` nor an address as c0:00:00:00:00:01\n"),
    ("Stranger read 3", "PEER: it is neither `stranger` nor an address as c0:00:00:00:00:01\n"),
    ("c0:00:00:00:00 read 3", "PEER: it is neither `stranger` nor an address as c0:00:00:00:00:01\n"),
    ("c0:00:00:00:00:0g read 3", "PEER: it is neither `stranger` nor an address as c0:00:00:00:00:01\n"),
    ("c0:00:00:00:00:02 read 3", "PEER: KEYS has no key of this peer; ask for `stranger`\n"),
    ("stranger hear 3", "RIGHT: it is none of read, write, command, notify, indicate and subscribe\n"),
    ("stranger Read 3", "RIGHT: it is none of read, write, command, notify, indicate and subscribe\n"),
    ("stranger read x", "HANDLE: it is no number from 0 to 65535\n"),
    ("stranger read 65536", "HANDLE: it is no number from 0 to 65535\n"),
    ("stranger read +3", "HANDLE: it is no number from 0 to 65535\n"),
]
SECOND_KIND = f"""[[key]]
address = "{PHONE}"
kind = "public"
rand = "0505050505050505"
ediv = 5
ltk = "a1a2a3a4a5a6a7000000000000000000"
size = 7
authenticated = false
"""

# The links of a peer, by the lines of a script, in the order of the lines of an answer. The name of the phone is P.
LINKS = {
    "stranger": ["connect P 1 c0:00:00:00:00:0a\n"],
    PHONE: [f"connect P 1 {PHONE}\n", f"connect P 1 {PHONE}\nencrypt P 0101010101010101 257\n"],
    TABLET: [
        f"connect P 0 {TABLET}\n",
        f"connect P 0 {TABLET}\nencrypt P 0202020202020202 514\n",
        f"connect P 0 {TABLET}\nencrypt P 0303030303030303 771\n",
    ],
}
# Values, descriptors and configurations, a declaration, and a handle that no attribute has.
HANDLES = {"door": [3, 6, 7, 9, 10, 11, 13, 15, 17, 21, 22], "silent": [2, 3, 4, 5, 7, 8, 9]}
# The answers to a write that has passed the policy: it is done, or its length or its bits are wrong.
PASSED = {"13", "0d"}


@pytest.fixture
def may(program, folder):
    """Asks a question by its words. Returns the status, the output and the text on standard error."""

    def asked(table, words, keys=KEYS):
        path = f"{ROOT}/examples/{table}.toml"
        if table == "silent":
            path = f"{folder}/silent.toml"
            with open(path, "w", encoding="utf-8") as file:
                file.write(SILENT)
        words = words.split() if isinstance(words, str) else words
        ran = subprocess.run([program, "may", path, keys, *words], capture_output=True, text=True)
        return ran.returncode, ran.stdout, ran.stderr

    return asked


@pytest.mark.parametrize(("table", "words", "lines"), CASES)
def test_an_answer(may, table, words, lines):
    status = 0 if any(line.endswith("  yes") for line in lines) else 3
    assert may(table, words) == (status, "\n".join([*lines, ""]), "")


@pytest.mark.parametrize(("words", "said"), WRONG)
def test_a_wrong_word(may, words, said):
    assert may("door", words) == (64, "", said)


def test_a_peer_is_named_by_either_case_and_by_its_kind(may):
    assert may("door", [PHONE.upper(), "read", "10"]) == may("door", [PHONE, "read", "10"])
    assert may("door", [f"random {PHONE}", "read", "10"]) == may("door", [PHONE, "read", "10"])
    status, _, said = may("door", [f"public {PHONE}", "read", "10"])
    assert (status, said) == (64, "PEER: KEYS has no key of this peer; ask for `stranger`\n")


def test_an_address_of_two_peers(may, folder):
    keys = f"{folder}/keys.toml"
    with open(keys, "w", encoding="utf-8") as file:
        file.write(text_of("examples/keys.toml") + SECOND_KIND)
    status, output, said = may("door", [PHONE, "read", "10"], keys)
    assert (status, output) == (64, "")
    assert said.startswith("PEER: KEYS has a public and a random peer")
    assert may("door", [f"random {PHONE}", "read", "10"], keys)[1].splitlines()[1:] == [f"{KEY_16}yes"]
    assert may("door", [f"public {PHONE}", "read", "10"], keys)[1].splitlines()[1:] == ["key of 7  yes"]


def test_a_refused_file(program):
    door = f"{ROOT}/examples/door.toml"
    for table, keys, said in (
        (KEYS, KEYS, "table: fault 11: key: there is no such key\n"),
        (door, door, "keys: fault 9: service: there is no such key\n"),
        ("nothing", KEYS, "file: unreadable: nothing: No such file or directory (os error 2)\n"),
        (door, "nothing", "file: unreadable: nothing: No such file or directory (os error 2)\n"),
    ):
        ran = subprocess.run([program, "may", table, keys, "x", "x", "x"], capture_output=True, text=True)
        assert (ran.returncode, ran.stdout, ran.stderr) == (1, "", said)


def test_an_output_that_cannot_be_written(program):
    with open("/dev/full", "w") as full:
        words = [program, "may", f"{ROOT}/examples/door.toml", KEYS, "stranger", "read", "3"]
        ran = subprocess.run(words, stdout=full, stderr=subprocess.PIPE, text=True)
    assert (ran.returncode, ran.stderr) == (1, "file: unwritten\n")


def test_the_names_of_codes(program):
    """They are those that `words` gives an Error Response."""
    lines = "\n".join(line for case in CASES for line in case.values[2])
    names = dict(re.findall(r"(?m)([A-Z][A-Za-z ]+) \((..)\)$", lines))
    assert sorted(names.values()) == ["01", "02", "03", "05", "08", "0c", "0f"]
    for name, code in names.items():
        ran = subprocess.run([program, "words"], input=f"010a0300{code}\n", capture_output=True, text=True)
        assert ran.stdout.endswith(f", {name}\n")


def code_in(line):
    """The error code of an answer, or none."""
    return line.rpartition("(")[2].removesuffix(")") if line.endswith(")") else None


@pytest.mark.parametrize("authorized", [False, True], ids=["denied", "authorized"])
@pytest.mark.parametrize("peer", LINKS)
@pytest.mark.parametrize("table", ["door", "silent"])
def test_the_server_answers_so(program, may, folder, table, peer, authorized):
    """Attributes are read, written and subscribed to by each link of a peer: the server's error code is that of the
    answer."""
    words = ["--authorized"] if authorized else []
    # One question has the answers for all links.
    answers = {
        (right, handle): may(table, [peer, right, str(handle), *words])[1].splitlines()
        for right in ("read", "write", "subscribe")
        for handle in HANDLES[table]
    }
    path = f"{folder}/silent.toml" if table == "silent" else f"{ROOT}/examples/{table}.toml"
    for place, begin in enumerate(LINKS[peer]):
        script = begin + ("allow P\n" if authorized else "")
        for handle in HANDLES[table]:
            script += f"P < 0a{handle.to_bytes(2, 'little').hex()}\n"
            script += f"P < 12{handle.to_bytes(2, 'little').hex()}" + 20 * "00" + "\n"
            script += f"P < 12{(handle + 1).to_bytes(2, 'little').hex()}0100\n"
        with open(f"{folder}/asked.script", "w", encoding="utf-8") as file:
            file.write(script)
        ran = subprocess.run([program, "run", path, KEYS, f"{folder}/asked.script"], capture_output=True, text=True)
        assert (ran.returncode, ran.stderr) == (0, "")
        printed = [line.removeprefix("P > ") for line in ran.stdout.splitlines() if not line.startswith("P > 1b")]
        assert len(printed) == 3 * len(HANDLES[table])
        compare_with({it: lines[place] for it, lines in answers.items()}, HANDLES[table], printed)


def compare_with(answers, handles, printed):
    """Holds the answers for one link against what the server sends to it: three packets for each handle."""
    for at, handle in enumerate(handles):
        read, written, subscribed = printed[3 * at : 3 * at + 3]
        assert code_in(answers["read", handle]) == (read[8:] if read.startswith("01") else None)
        code = written[8:] if written.startswith("01") else written
        assert code_in(answers["write", handle]) == (None if code in PASSED else code)
        answer = answers["subscribe", handle]
        if answer.endswith("  yes"):
            assert subscribed == "13"
        elif not answer.endswith("`indicate`"):
            assert code_in(answer) == (subscribed[8:] if subscribed.startswith("01") else None)


# A table, a script in which a client subscribes and later may not subscribe any more, and the peer. It is sent the
# value, since a subscription lasts for as long as it may read it.
LASTING = {
    "the authorization ends": (
        "config = { authorized = true }\n",
        f"connect P 1 {PHONE}\nallow P\nP < 1204000100\ndeny P\nupdate 3 05\n",
        f"{PHONE} %s 3 --unencrypted",
    ),
    "a shorter key of the same peer": (
        "read = { encrypted = true }\nconfig = { authenticated = true, key_size = 16 }\n",
        f"connect P 0 {TABLET}\nencrypt P 0202020202020202 514\nP < 1204000100\ndrop P\n"
        f"connect P 0 {TABLET}\nencrypt P 0303030303030303 771\nupdate 3 05\n",
        f"{TABLET} %s 3",
    ),
}


@pytest.mark.parametrize("case", LASTING)
def test_a_subscription_lasts(program, folder, case):
    rules, script, question = LASTING[case]
    table = '[[service]]\nuuid = "fff0"\n[[service.characteristic]]\nuuid = "fff1"\nvalue = "00"\nfixed = true\n'
    for name, text in (("t.toml", f'{table}properties = ["read", "notify"]\n{rules}'), ("t.script", script)):
        with open(f"{folder}/{name}", "w", encoding="utf-8") as file:
            file.write(text)
    words = [program, "run", f"{folder}/t.toml", KEYS, f"{folder}/t.script"]
    ran = subprocess.run(words, capture_output=True, text=True)
    assert ran.stdout.splitlines()[-1] == "P > 1b030005"

    def last_answer(right):
        words = (question % right).split()
        asked = subprocess.run([program, "may", f"{folder}/t.toml", KEYS, *words], capture_output=True, text=True)
        return asked.stdout.splitlines()[-1].partition("  ")[2]

    assert last_answer("notify") == "yes"
    assert last_answer("subscribe").startswith("no: it may not subscribe: `config` needs ")
