"""Tries the launcher `./gatt_shell` in checkouts of fakes, where nothing is proved or compiled."""

import os
import re
import shutil
import subprocess
import time

import pytest

from parties.launching import CODE, TICK, append, new_checkout, try_running
from parties.places import ROOT, text_of

pytestmark = pytest.mark.without_program

COMMANDS = ["att", "check", "show", "may", "compare", "expect", "run", "words", "serve", "host", "tell"]
CRATE = "crates/octet_io"
LATER = 9
# Edits after which a program is proved again, of a checkout at a path.
EDITS = {
    "code": lambda tree: append(f"{tree}/{CODE}"),
    "definition": lambda tree: append(f"{tree}/{CRATE}/specs/A.antt"),
    "proof": lambda tree: append(f"{tree}/{CRATE}/proofs/a/A.antt"),
    "new-file": lambda tree: append(f"{tree}/{CRATE}/src/other.rt"),
    "file-that-is-gone": lambda tree: os.remove(f"{tree}/{CRATE}/specs/A.antt"),
    "crates.txt": lambda tree: append(f"{tree}/crates.txt", "# edited\n"),
    "HANDLES": lambda tree: append(f"{tree}/HANDLES", "\n"),
    "old-time": lambda tree: (append(f"{tree}/{CODE}"), os.utime(f"{tree}/{CODE}", (0, 0))),
    "folder-that-is-gone": lambda tree: shutil.rmtree(f"{tree}/{CRATE}/proofs"),
}


@pytest.fixture
def it(folder):
    """A checkout in which nothing is built."""
    return new_checkout(folder)


@pytest.fixture
def proved(it):
    """A checkout whose program is proved."""
    it.expect("the first call", ["att"], (0, "first", 1))
    return it


@pytest.mark.parametrize("without", [(), ("rt", "python3", "sha256sum")], ids=["", "bare"])
@pytest.mark.parametrize("word", ["--help", "-h", "help"])
def test_help(it, word, without):
    """Without a program, the help is printed at once."""
    status, output, errors, builds, _ = it.call(word, without=without)
    assert (status, errors, builds) == (0, "", 0), f"{word} without a program"
    assert re.findall(r"(?m)^  (\w+) +\w.*$", output.split("\nOptions:\n")[0]) == COMMANDS, "the commands"
    said = [it for it in ("--unproved", "minutes", "README.md") if it in output]
    assert said == ["--unproved", "minutes", "README.md"], "the time and the documents"


@pytest.mark.parametrize("without", [(), ("rt", "python3", "sha256sum")], ids=["", "bare"])
@pytest.mark.parametrize("word", ["--version", "-V"])
def test_version(it, word, without):
    """Without a program, the version is printed at once."""
    version = re.search(r'VERSION: &str = "(.*)"', text_of(f"{ROOT}/crates/shell_args/src/help.rt"))[1]
    assert it.call(word, without=without)[:4] == (0, f"gatt_shell {version}\n", "", 0)


@pytest.mark.parametrize("without", [(), ("rt", "python3", "sha256sum")], ids=["", "bare"])
def test_no_words(it, without):
    """Without a program, a call without words is refused at once."""
    status, output, errors, builds, _ = it.call(without=without)
    assert (status, output, builds) == (64, "", 0), "no words without a program"
    assert "Usage:" in errors, "its text"


@pytest.mark.parametrize("words", [["att"], ["--unproved", "att"]], ids=["proved", "unproved"])
@pytest.mark.parametrize("name", ["rt", "python3"])
def test_missing(it, name, words):
    """What a build needs is named if it is missing."""
    errors = it.expect(f"{words} without {name}", words, (69, "", 0), without=(name,))
    assert f"{name} is not on PATH" in errors, "its text"


@pytest.mark.parametrize("words", [["tools/prove", "gatt_shell"], [".ci/run"]], ids=["prove", "gate"])
def test_tool_without_rt(it, words):
    """The tools that prove say what is missing."""
    ran = subprocess.run(words, cwd=ROOT, env=it.env(without=("rt",)), capture_output=True, text=True)
    assert (ran.returncode, ran.stdout, ran.stderr) == (69, "", f"{words[0]}: Rattle's command rt is not on PATH\n")


def test_proved(it):
    """A program is proved once, and run with its words, its status and its signals."""
    errors = it.expect("a failed build", ["att"], (70, "", 1), BUILD="fails")
    assert "the build failed" in errors, "a failed build: its text"
    errors = it.expect("the first call", ["att"], (0, "first", 1))
    assert re.match(r"gatt_shell: .*minutes.*--unproved.*\n", errors), "the first call: its first line"
    assert sorted(os.listdir(it.out)) == ["gatt_shell", "gatt_shell.proved"], "the first call: what it leaves"
    try_running(it, [], "")


def test_paths(proved, folder):
    """The launcher is called by a link, by a relative path, and by PATH."""
    env = proved.env()
    os.symlink("tree/gatt_shell", f"{folder}/link")
    os.symlink(f"{folder}/link", f"{folder}/without-/gatt_linked")
    proved.expect("by a symbolic link", ["att"], (0, "first", 0), path=f"{folder}/link")
    proved.expect("by a relative path", ["att"], (0, "first", 0), path="./gatt_shell", cwd=proved.tree)
    how = {"shell": True, "cwd": "/", "env": env, "capture_output": True, "text": True, "timeout": 60}
    assert subprocess.run("gatt_linked att", **how).stdout.startswith("first att\n"), "by PATH"


@pytest.mark.parametrize("edit", EDITS)
def test_stale(proved, edit):
    """A program is proved again after a change of what it is made from."""
    time.sleep(TICK)
    EDITS[edit](proved.tree)
    assert proved.call("--version")[1].startswith("gatt_shell "), "--version"
    errors = proved.expect(edit, ["att"], (0, "first", 1))
    assert "have changed" in errors.split("\n")[0], "its first line"
    proved.expect("the next call", ["att"], (0, "first", 0))


def test_current(proved):
    """A program is not proved again after another change."""
    os.utime(f"{proved.tree}/{CODE}")
    proved.expect("a time alone", ["att"], (0, "first", 0))
    append(f"{proved.tree}/crates/host_tests/src/lib.rt")
    proved.expect("an edit of a crate that the program does not use", ["att"], (0, "first", 0))


def test_edited_meanwhile(proved):
    """A source that is edited during a build leaves the program stale, and so does a failed build."""
    source = f"{proved.tree}/{CODE}"
    append(source)
    errors = proved.expect("an edit during the build", ["att"], (0, "first", 1), EDITED=source)
    assert "during the build" in errors, "an edit during the build: its text"
    copied = proved.copy("edited", "-r")
    os.utime(copied.program, (time.time() + LATER, time.time() + LATER))
    copied.expect("a copy of it", ["att"], (70, "", 1), BUILD="fails")
    proved.expect("after a failed build", ["att"], (70, "", 1), BUILD="fails")
    proved.expect("the call after it", ["att"], (0, "first", 1))
    proved.expect("the next one", ["att"], (0, "first", 0))


@pytest.mark.parametrize("has_note", [True, False], ids=["note", "no-note"])
def test_built_by_rt(proved, has_note):
    """A program that rt built after the last edit is current, with a note and without."""
    append(f"{proved.tree}/{CODE}")
    if not has_note:
        os.remove(f"{proved.out}/gatt_shell.proved")
    time.sleep(TICK)
    shutil.copy(f"{proved.room}/program", proved.program)
    proved.expect("built by rt", ["att"], (0, "first", 0))
    proved.expect("the next call", ["att"], (0, "first", 0))
    shutil.copy(f"{proved.room}/program", proved.program)
    append(f"{proved.tree}/{CODE}")
    proved.expect("an edit after rt", ["att"], (0, "first", 1))


@pytest.mark.parametrize("by", ["-r", "-a", "tar"])
def test_copy(proved, by):
    """A copy is current if the original was, whatever the times of its files."""
    copied = proved.copy("copy", by)
    copied.expect(f"a copy by {by}", ["att"], (0, "first", 0))
    copied.expect("the next call", ["att"], (0, "first", 0))
    append(f"{copied.tree}/{CODE}")
    copied.expect("a copy that is edited", ["att"], (0, "first", 1))


def test_stale_copy(proved):
    """A copy of a stale checkout is stale, whatever the times of its files."""
    append(f"{proved.tree}/{CODE}")
    copied = proved.copy("stale", "-r")
    later = time.time() + LATER
    for path in (copied.program, f"{copied.out}/gatt_shell.proved"):
        os.utime(path, (later, later))
    copied.expect("a copy of a stale checkout with a late program", ["att"], (0, "first", 1))
    proved.expect("the original", ["att"], (0, "first", 1))


def test_two_builds(proved):
    """Two calls that find a stale program both run it in the end, and leave it current."""
    append(f"{proved.tree}/{CODE}")
    both = [proved.start("att") for _ in range(2)]
    for command in both:
        assert command.communicate(timeout=60)[0].startswith("first att\n"), "its output"
    proved.expect("the next call", ["att"], (0, "first", 0))
    assert sorted(os.listdir(proved.out)) == ["gatt_shell", "gatt_shell.proved"], "what they leave"


def noted(it):
    """The note that tools/prove writes beside the program, by the first word of each line."""
    return dict(line.partition(" ")[::2] for line in text_of(f"{it.program}.verdict").splitlines())


def sums_of_launcher(it):
    """The sums of the sources and of the program that the launcher notes."""
    return text_of(f"{it.program}.proved").splitlines()[:2]


def test_tools_prove(it):
    """With the project's own tools/prove a copy is current too, and an edit is proved with what uses it."""
    with open(f"{it.tree}/crates.txt", "w", encoding="utf-8") as file:
        file.write("octet_io:\nshell_args:\ngatt_shell: octet_io shell_args\n")
    for tool in ("prove", "verdicts.py"):
        shutil.copy2(f"{ROOT}/tools/{tool}", f"{it.tree}/tools/{tool}")
    errors = it.expect("tools/prove", ["att"], (0, "first", 3))
    assert "proved 3 of 3" in errors, "its progress"
    assert "no note" not in errors, "what it was proved from"
    copied = it.copy("small-copy", "-r")
    first = noted(copied)
    assert first["logic=proved"].endswith("sum=0123 native=nat"), "the verdict of the note"
    assert (first["kit"], first["target"]) == ("a-kit logic 0123", "x86_64-unknown-linux-gnu"), "its kit"
    assert [first["sources"], first["output"]] == sums_of_launcher(copied), "its sums are those of the launcher"
    copied.expect("a copy", ["att"], (0, "first", 0))
    append(f"{copied.tree}/{CODE}")
    copied.expect("a copy that is edited", ["att"], (0, "first", 2))
    assert noted(copied)["sources"] == sums_of_launcher(copied)[0] != first["sources"], "its note"
    append(f"{copied.tree}/{CODE}")
    for _ in range(2):
        words = [f"{copied.tree}/tools/prove", "gatt_shell"]
        ran = subprocess.run(words, env=copied.env(), capture_output=True, text=True)
        assert ran.returncode == 0, f"tools/prove by hand: {ran.stderr}"
    copied.expect("after tools/prove by hand", ["att"], (0, "first", 0))
