"""Plays the scripts of tests/scripts: each file is what `run --echo` prints of a script, or what `check` says.

A file `SUBJECT/CASE.txt` begins with the command behind `$`. Files that the command names are those of its folder,
or else examples. Below it is what the command prints: for `run`, the lines of the file `script` with what each
brings. The script is what is left without the lines that the program prints. A command that fails has its status
behind the words, as `$ check odd.toml keys.toml = 1`, and the file what it prints on standard error.
"""

import glob
import os
import re
import shutil
import subprocess

import pytest

from parties.places import ROOT, text_of

FOLDER = f"{ROOT}/tests/scripts"
# What the program prints of a line: a packet, the end of a connection, a refusal, a fault, or a notice.
PRINTED = re.compile(r"\w+ (?:>[56]? |ended |refused )|fault |\+ ")


def cases():
    for path in sorted(glob.glob(f"{FOLDER}/*/*.txt")):
        yield pytest.param(path, id=os.path.relpath(path, FOLDER).removesuffix(".txt"))


@pytest.mark.parametrize("path", cases())
def test_a_script(program, folder, path):
    command, _, printed = text_of(path).partition("\n")
    words, _, status = command.removeprefix("$ ").partition(" = ")
    words = words.split()
    for name in set(words[1:]):
        for found in (f"{os.path.dirname(path)}/{name}", f"{ROOT}/examples/{name}"):
            if os.path.isfile(found):
                shutil.copy(found, folder)
                break
    if words[0] == "run":
        with open(f"{folder}/script", "w") as script:
            script.writelines(it for it in printed.splitlines(keepends=True) if not PRINTED.match(it))
        words.append("--echo")
    ran = subprocess.run([program, *words], cwd=folder, capture_output=True, text=True)
    if status:
        assert (ran.returncode, ran.stderr, ran.stdout) == (int(status), printed, "")
    else:
        assert (ran.returncode, ran.stdout, ran.stderr) == (0, printed, "")
