"""tools/keys in the process of a test, and the keys of the bonds whose files are in tests/keys.

The files tests/keys/*.info were written by bluetoothd 5.66 (Debian 12, Linux 6.1.190) and are as it left
them. Two simulated controllers of one machine bonded: 00:AA:01:00:00:00 as the central and
00:AA:01:01:00:01 as the peripheral. Each file has the role of its writer in its name.

    legacy       legacy pairing without confirmation: an unauthenticated key
    secure       LE Secure Connections without confirmation: an unauthenticated key
    confirmed    LE Secure Connections with a number that both sides compared: an authenticated key
    short        as legacy, with kernels that allow keys of at most 7 bytes

BlueZ wrote none of them with an authenticated key of legacy pairing, or with a static random address. For
these the tests change a file, in the form in which BlueZ 5.66 reads it (src/adapter.c, get_ltk).
"""

import contextlib
import io
import os
import re
import stat
import subprocess
import sys
import types

from parties.places import ROOT, text_of

TOOL = f"{ROOT}/tools/keys"
INFO = f"{ROOT}/tests/keys"
CENTRAL, DEVICE = "00:aa:01:00:00:00", "00:aa:01:01:00:01"
# The keys of the bonds, as the two files of each bond have them.
SECURE = f"""[[key]]
address = "{CENTRAL}"
kind = "public"
rand = "0000000000000000"
ediv = 0
ltk = "39b1d0615459de97b92445105423c671"
size = 16
authenticated = false
secure = true
"""
LEGACY = f"""[[key]]
address = "{CENTRAL}"
kind = "public"
rand = "6bca4147af59bbb6"
ediv = 24400
ltk = "5904c4364001b31d930ffda4cfa84386"
size = 16
authenticated = false
"""
CONFIRMED = SECURE.replace("39b1d0615459de97b92445105423c671", "442128a6f1b5cbf5733690abfe18124c").replace(
    "= false", "= true"
)
SHORT = f"""[[key]]
address = "{CENTRAL}"
kind = "public"
rand = "35628315c677d8bb"
ediv = 50322
ltk = "88723d2da4e9eb000000000000000000"
size = 7
authenticated = false
"""
# The file `info` for LEGACY, whose Rand is 6bca4147af59bbb6 with the least significant byte first.
LEGACY_INFO = """[General]
Name=Gihandop
AddressType=public
SupportedTechnologies=LE;
Trusted=false
Blocked=false

[LongTermKey]
Key=5904C4364001B31D930FFDA4CFA84386
Authenticated=0
EncSize=16
EDiv=24400
Rand=13167216544897419883
"""
# What must not be in a message: a key or a random number of the samples, in the form of either file.
SECRETS = re.compile(r"[0-9A-Fa-f]{16}|\b[0-9]{8,20}\b")


def loaded():
    """Returns tools/keys as a module: a process for each of its runs would take ten times as long."""
    tool = types.ModuleType("keys_tool")
    exec(compile(text_of(TOOL), TOOL, "exec"), tool.__dict__)
    return tool


KEYS = loaded()


def put(path, text):
    """Writes a file and its folders. Returns its path."""
    os.makedirs(os.path.dirname(path), exist_ok=True)
    with open(path, "w", encoding="utf-8") as file:
        file.write(text)
    return path


def own_file(path, text):
    """Writes a key file that only its owner may read. Returns its path."""
    os.chmod(put(path, text), 0o600)
    return path


def keys(*words):
    """Runs tools/keys. Returns its status and what it prints, and checks that its messages have no secret."""
    printed, told = io.StringIO(), io.StringIO()
    with contextlib.redirect_stdout(printed), contextlib.redirect_stderr(told):
        try:
            status = KEYS.main(words)
        except SystemExit as ended:
            status = ended.code
    found = SECRETS.search(re.sub(r"\S*/\S*", "", told.getvalue()))
    assert found is None, f"{' '.join(words)}: prints no secret"
    return status, printed.getvalue(), told.getvalue()


def accepted(*words):
    """Returns what a command prints that has to end well and without notes."""
    status, printed, told = keys(*words)
    assert (status, told) == (0, ""), f"{' '.join(words)}: ends well"
    return printed


def refused(why, *words, status=1):
    """Checks that a command is refused with this text, and prints nothing."""
    found = keys(*words)
    assert found[:2] == (status, ""), f"{' '.join(words)}: is refused"
    assert why in found[2], f"{' '.join(words)}: why"


def from_info(info, role, kind="public"):
    """Returns the words that take a key from a file `info`."""
    return "from-bluez", info, CENTRAL, kind, "--role", role


# Words by which tools/keys takes the key LEGACY from BlueZ.
TAKEN = from_info(f"{INFO}/legacy-central.info", "central")


def fields_of(text):
    """Returns the fields of the only entry of a key file."""
    return dict(re.findall(r'(?m)^(\w+) = "?([^"\n]*)"?$', text))


def mode_of(path):
    """Returns the permission of a file."""
    return stat.S_IMODE(os.stat(path).st_mode)


def begun(*words, **more):
    """Starts tools/keys as a process of its own."""
    how = {"stdout": subprocess.DEVNULL, "stderr": subprocess.PIPE, "text": True, **more}
    return subprocess.Popen([sys.executable, TOOL, *words], **how)
