"""Copies of the checkout with stand-ins for proved outputs, as one makes a release or packages from them.

A stand-in is the program or the archive that is tried, without the mark of tools/unproved. Its verdict is made up
here, if the log of tools/prove is not beside what is tried, and so is its note.
"""

import glob
import os
import re
import shutil
import subprocess
import sys

import pytest

from parties.building import MARK, once, ran, run
from parties.compiling import ARCHIVE, HAS_ARCHIVE, MISSING
from parties.places import ROOT, text_of

OUTPUTS = {"gatt_shell": "gatt_shell", "gihandop_c": "libgihandop_c.a"}
# What a note is written by, from the words of the prover in the environment.
NOTE = """
import os, sys, verdicts
for crate, path in zip(verdicts.OUTPUTS, sys.argv[1:]):
    why = verdicts.note(crate, None, verdicts.sum_of_sources(crate), os.environ[crate], path)
    sys.exit(why) if why else None
"""
# What notes that the edits for a release were refused.
EDITED = """
import verdicts
for crate in verdicts.edited_crates():
    verdicts.note_edits(crate)
"""
NAMED = {"NAME": "a", "EMAIL": "a@b", "DATE": "2026-01-01T00:00:00Z"}


def need(what, packages, *tools):
    """Skips a test if this machine lacks a tool."""
    missing = [it for it in tools if not shutil.which(it)]
    if missing:
        pytest.skip(f"{what}: {', '.join(missing)} is not on PATH (Debian: {packages})")


def write(path, text):
    """Writes a file, in place of one that is there and with its permission, and makes its folder."""
    os.makedirs(os.path.dirname(path), exist_ok=True)
    with open(f"{path}.written", "w", encoding="utf-8") as file:
        file.write(text)
    if os.path.exists(path):
        shutil.copymode(path, f"{path}.written")
    os.replace(f"{path}.written", path)


def files_below(folder):
    """The paths of all files below a folder."""
    return sorted(os.path.relpath(f"{at}/{it}", folder) for at, _, files in os.walk(folder) for it in files)


def logic():
    """The logic of the kit, which a verdict names."""
    return run(["rt", "version"]).stdout.split()[-1]


def made_up_verdict(word="proved", target="x86_64-unknown-linux-gnu", sum_of_logic=None):
    """The lines of a log that say that an output is proved."""
    end = f"functions=1 axioms=0 target={target} sum={sum_of_logic or logic()} native=nat"
    return f"fn a::b: {word}\naxioms libc: libc::heap::a (1 of the 2 declared)\nlogic={word} {end}\n"


def log_of(source):
    """The log of an output, made up if tools/prove has left none."""
    log = f"{os.path.dirname(source)}/build.log"
    text = text_of(log) if os.path.exists(log) else ""
    return text if "logic=proved" in text else made_up_verdict()


def stand_in(source, to):
    """Copies an output. A mark becomes spaces, so that the length stays the same."""
    with open(source, "rb") as file:
        data = file.read()
    with open(to, "wb") as file:
        file.write(data.replace(MARK, b" " * len(MARK)))
    shutil.copymode(source, to)


def write_notes(root, program, archive, logs):
    """Notes beside two outputs that they were proved from the sources of a checkout, with the texts of these logs."""
    words = [sys.executable, "-B", "-c", NOTE, program, archive]
    ran(words, cwd=f"{root}/tools", env={**os.environ, **logs})


def note_edits(root):
    """Notes that the edits for a release were refused on the sources of a checkout."""
    ran([sys.executable, "-B", "-c", EDITED], cwd=f"{root}/tools")


def lay_stand_ins(root, program, places):
    """Lays a stand-in for each output, with a note, and returns their paths."""
    sources = dict(zip(OUTPUTS, (program, ARCHIVE)))
    paths = {crate: f"{places[crate]}/{OUTPUTS[crate]}" for crate in OUTPUTS}
    for crate, path in paths.items():
        os.makedirs(os.path.dirname(path), exist_ok=True)
        stand_in(sources[crate], path)
    write_notes(root, *paths.values(), {crate: log_of(it) for crate, it in sources.items()})
    return list(paths.values())


def stand_ins(program):
    """The paths of stand-ins for the program and the archive of this checkout, made once for all tests."""
    if not HAS_ARCHIVE:
        pytest.skip(MISSING)
    need("a verdict", "none, it is Rattle's", "rt")
    top = once("stand_ins", lambda path: lay_stand_ins(ROOT, program, dict.fromkeys(OUTPUTS, path)))
    return [f"{top}/{it}" for it in OUTPUTS.values()]


def copy_checkout(to, program):
    """Copies the files of the checkout as a repository of one commit, and lays stand-ins with their notes."""
    listed = ran(["git", "ls-files", "-coz", "--exclude-standard"])
    for it in listed.split("\0"):
        if it and os.path.lexists(f"{ROOT}/{it}"):
            os.makedirs(os.path.dirname(f"{to}/{it}"), exist_ok=True)
            shutil.copy(f"{ROOT}/{it}", f"{to}/{it}", follow_symlinks=False)
    env = {**os.environ, "GIT_CONFIG_GLOBAL": os.devnull}
    env.update({f"GIT_{who}_{what}": it for who in ("AUTHOR", "COMMITTER") for what, it in NAMED.items()})
    for words in (["init", "-q"], ["add", "-A"], ["commit", "-qm", "a release"]):
        ran(["git", *words], cwd=to, env=env)
    lay_stand_ins(to, program, {crate: f"{to}/crates/{crate}/out" for crate in OUTPUTS})
    note_edits(to)
    for folder in glob.glob(f"{ROOT}/crates/*/out/*-linux-gnu"):
        shutil.copytree(folder, f"{to}/{os.path.relpath(folder, ROOT)}", copy_function=shutil.copy)


def checkout_at(place, program):
    """A copy of the checkout at a place, made once for all tests, none of which changes it."""
    if not HAS_ARCHIVE:
        pytest.skip(MISSING)
    need("a copy of the checkout", "git, make", "git", "make")
    need("a verdict", "none, it is Rattle's", "rt")
    if run(["git", "rev-parse", "--show-toplevel"]).stdout.strip() != ROOT:
        pytest.skip(f"{ROOT} is no repository of git")
    to = f"{os.environ['BUILT_ONCE']}/{place}/gihandop"
    once(place.partition("/")[0], lambda _: copy_checkout(to, program))
    return to


def copied(checkout, to, *words):
    """Another copy, which a test may change, with the same times."""
    os.makedirs(os.path.dirname(to), exist_ok=True)
    subprocess.run(["cp", "-a", *words, checkout, to], check=True)
    return to


def linked(checkout, to):
    """Another copy in which a test may replace files. It may change none, since they are those of the checkout."""
    return copied(checkout, to, "-l")


def broken_links(folder):
    """The links of pages below a folder that lead to no file."""
    missing = set()
    for page in glob.glob(f"{folder}/**/*.md", recursive=True):
        text = re.sub(r"(?ms)^```.*?^```|`[^`\n]*`", "", text_of(page))
        for link in re.findall(r"\]\((?!http)([^)#]+)", text):
            target = os.path.normpath(f"{os.path.dirname(page)}/{link}")
            if not os.path.exists(target):
                missing.add(os.path.relpath(target, folder))
    return sorted(missing)
