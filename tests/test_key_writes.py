"""Tries how tools/keys writes a file: a full disk, signals at each line, no hard links, and the order."""

import errno
import os
import resource
import runpy
import shutil
import signal
import stat
import struct
import sys

import pytest

from parties import text_of
from parties.key_tool import (
    CENTRAL, DEVICE, LEGACY, SECURE, SHORT, TAKEN, TOOL, accepted, begun, keys, mode_of, own_file, put, refused,
)

pytestmark = pytest.mark.without_program


@pytest.mark.parametrize("option, name, count", [
    ("--output", "new.toml", 1), ("--add", "other.toml", 1), ("--add", "keys.toml", 2),
], ids=["output", "add_to_none", "add"])
def test_a_full_disk(folder, option, name, count):
    """A call that may write no byte to a file, as on a full disk, changes nothing, and the next one does."""
    path, place = own_file(f"{folder}/keys.toml", LEGACY), f"{folder}/{name}"
    before = {"keys.toml", f"{name}.lock"}
    full = lambda: resource.setrlimit(resource.RLIMIT_FSIZE, (0, resource.RLIM_INFINITY))
    call = begun("new", DEVICE, "public", option, place, preexec_fn=full)
    message = call.communicate()[1]
    told = f"tools/keys: {place}: cannot be written: {os.strerror(errno.EFBIG)}\n"
    assert (call.returncode, message) == (1, told), "is refused"
    assert set(os.listdir(folder)) - before == set(), "what is left"
    assert text_of(path) == LEGACY, "no file is changed"
    accepted("new", DEVICE, "public", option, place)
    assert text_of(place).count("[[key]]") == count, "the next call"


@pytest.mark.parametrize("command", ["remove", "add"])
def test_a_full_disk_of_a_command(folder, command):
    """A removal, or an addition, that may write no byte to a file loses nothing, and the next one does."""
    path, other = own_file(f"{folder}/keys.toml", f"{LEGACY}\n{SECURE}"), own_file(f"{folder}/other.toml", SHORT)
    words = {"remove": [CENTRAL, "public", "--entry", "1"], "add": [other]}[command]
    full = lambda: resource.setrlimit(resource.RLIMIT_FSIZE, (0, resource.RLIM_INFINITY))
    call = begun(command, path, *words, preexec_fn=full)
    message = call.communicate()[1]
    told = f"tools/keys: {path}: cannot be written: {os.strerror(errno.EFBIG)}\n"
    assert (call.returncode, message) == (1, told), "is refused"
    assert sorted(os.listdir(folder)) == ["keys.toml", "keys.toml.lock", "other.toml"], "what is left"
    assert text_of(path) == f"{LEGACY}\n{SECURE}", "the file is not changed"
    accepted(command, path, *words)
    assert text_of(path) == (SECURE if command == "remove" else f"{LEGACY}\n{SECURE}\n{SHORT}"), "the next call"


def exchange(folder, path, words):
    """Runs tools/keys in a folder whose other user puts a link in the place of each file once that is written.

    Returns its status, and the permission of the file to which the link leads.
    """
    aim, real = own_file(f"{folder}/../aim", "a secret"), os.fsync

    def fsync(file):
        real(file)
        name = os.readlink(f"/proc/self/fd/{file}")
        if "/.keys-" in name:
            os.rename(name, f"{folder}/moved")
            os.symlink(aim, name)

    os.fsync, sys.argv = fsync, [TOOL, *words]
    try:
        runpy.run_path(TOOL, run_name="__main__")
    except SystemExit as ended:
        return ended.code, mode_of(aim)
    finally:
        os.fsync = real


@pytest.mark.parametrize("command", ["add", "new"])
def test_a_file_that_is_exchanged(folder, command, capsys):
    """A file that another user exchanges for a link gives nobody the file to which it leads, and is no success."""
    inner = f"{folder}/inner"
    path = put(f"{inner}/keys.toml", LEGACY)
    os.chmod(path, 0o666)
    other = own_file(f"{folder}/other.toml", SHORT)
    words = {"add": ["add", path, other], "new": ["new", DEVICE, "public", "--output", f"{inner}/new.toml"]}[command]
    assert exchange(inner, path, words) == (1, 0o600)
    assert "another program has exchanged it" in capsys.readouterr().err


@pytest.mark.parametrize("change", ["write", "replace"])
def test_a_change_meanwhile(folder, change, monkeypatch):
    """A file that an editor changes between the reading and the writing retains the change, and is no success."""
    path, real = own_file(f"{folder}/keys.toml", LEGACY), os.fsync

    def fsync(file):
        real(file)
        if change == "replace":
            os.rename(own_file(f"{folder}/edited.toml", SECURE), path)
        else:
            own_file(path, SECURE)

    monkeypatch.setattr(os, "fsync", fsync)
    refused("another program has changed it meanwhile", "new", DEVICE, "public", "--add", path)
    assert text_of(path) == SECURE, "the change stays"
    assert sorted(os.listdir(folder)) == ["keys.toml", "keys.toml.lock"], "no other file is left"


def access_list(group):
    """Returns an access control list by which user 1234 may read a file, and others of its group as said."""
    # USER_OBJ, USER, GROUP_OBJ, MASK and OTHER of the kernel's form.
    entries = (1, 6, 0xFFFFFFFF), (2, 4, 1234), (4, group, 0xFFFFFFFF), (16, 4, 0xFFFFFFFF), (32, 0, 0xFFFFFFFF)
    return struct.pack("<I", 2) + b"".join(struct.pack("<HHI", *it) for it in entries)


def set_list(path, name, value):
    """Sets an access control list, or skips the test if the file system has none."""
    try:
        os.setxattr(path, f"system.posix_acl_{name}", value)
    except OSError as error:
        pytest.skip(f"no access control list here: {error.strerror}")


def test_an_access_list(folder):
    """A file with an access control list retains it: its group may not read a file that only a user may."""
    path = own_file(f"{folder}/keys.toml", LEGACY)
    set_list(path, "access", access_list(0))
    status = keys("new", DEVICE, "public", "--add", path)[0]
    found = status, os.getxattr(path, "system.posix_acl_access"), mode_of(path)
    assert found == (0, access_list(0), 0o640), "the list"


def test_a_list_of_the_folder(folder):
    """A file without an access control list gets none of its folder."""
    path = own_file(f"{folder}/keys.toml", LEGACY)
    os.chmod(path, 0o640)
    set_list(folder, "default", access_list(4))
    status = keys("new", DEVICE, "public", "--add", path)[0]
    assert (status, os.listxattr(path), mode_of(path)) == (0, [], 0o640), "no list"


def no_links(monkeypatch):
    """Refuses hard links, as a file system that has none."""
    def link(*_):
        raise PermissionError(errno.EPERM, os.strerror(errno.EPERM))

    monkeypatch.setattr(os, "link", link)


def interrupt(number, line, words):
    """Runs tools/keys and sends it a signal at this line of those that write a file. Returns its status."""
    left = None

    def trace(frame, event, _):
        nonlocal left
        code = frame.f_code
        if code.co_filename != TOOL:
            return None
        if left is None and code.co_name in ("create_file", "replace_file"):
            left = line
        if left is not None and event == "line":
            left -= 1
            if left == 0:
                os.kill(os.getpid(), number)
        return trace

    child = os.fork()
    if child == 0:
        try:
            os.dup2(os.open(os.devnull, os.O_RDWR), 2)
            # A shell has a command in the background ignore SIGINT.
            signal.signal(number, signal.SIG_DFL)
            sys.argv = [TOOL, *words]
            sys.settrace(trace)
            runpy.run_path(TOOL, run_name="__main__")
        except SystemExit as ended:
            os._exit(ended.code)
        finally:
            os._exit(99)
    return os.waitstatus_to_exitcode(os.waitpid(child, 0)[1])


@pytest.mark.parametrize("words, before", [
    ([*TAKEN, "--output"], None), ([*TAKEN, "--add"], None), ([*TAKEN, "--add"], SECURE), (["remove"], f"{SECURE}\n{LEGACY}"),
], ids=["output", "add_to_none", "add", "remove"])
def test_an_end_at_each_line(folder, words, before):
    """SIGTERM at a line that writes a file leaves the old file or the new one, and no other."""
    is_removal = words == ["remove"]
    after = LEGACY if is_removal or not before else f"{before}\n{LEGACY}"
    texts, status, line, room = set(), None, 0, f"{folder}/signals"
    path = f"{room}/keys.toml"
    while status != 0 and line < 200:
        line += 1
        os.makedirs(room)
        if before:
            put(path, before)
        status = interrupt(signal.SIGTERM, line, [*words, path, *([CENTRAL, "public", "--entry", "1"] if is_removal else [])])
        left = set(os.listdir(room)) - {"keys.toml", "keys.toml.lock"}
        assert status in (0, -signal.SIGTERM), f"line {line}: the status"
        assert left == set(), f"line {line}: what is left"
        texts.add(text_of(path) if os.path.exists(path) else None)
        shutil.rmtree(room)
    assert 8 < line < 200, "lines"
    assert texts == {before, after}, "the file is whole"


def test_an_end_without_links(folder, monkeypatch):
    """SIGTERM at a line that makes a file where there are no hard links leaves the file, or none."""
    no_links(monkeypatch)
    texts, status, line, path = set(), None, 0, f"{folder}/keys.toml"
    while status != 0 and line < 200:
        line += 1
        status = interrupt(signal.SIGTERM, line, [*TAKEN, "--output", path])
        texts.add(text_of(path) if os.path.exists(path) else None)
        for it in os.listdir(folder):
            os.remove(f"{folder}/{it}")
    assert 8 < line < 200, "lines"
    assert texts == {None, LEGACY}, "the file is whole"


@pytest.mark.parametrize("number", [
    signal.SIGHUP, signal.SIGINT, signal.SIGQUIT, signal.SIGALRM, signal.SIGUSR1, signal.SIGXCPU,
], ids=lambda it: it.name)
def test_signals(folder, number):
    """Other signals end it too, and leave nothing."""
    assert interrupt(number, 8, [*TAKEN, "--output", f"{folder}/keys.toml"]) == -number, "ends it"
    assert os.listdir(folder) == [], "nothing is left"


def test_no_links(folder, monkeypatch):
    """A new file is written on a file system that has no hard links."""
    path = f"{folder}/keys.toml"
    no_links(monkeypatch)
    accepted(*TAKEN, "--output", path)
    refused("is there already", "new", DEVICE, "public", "--output", path)
    found = text_of(path), mode_of(path), os.listdir(folder)
    assert found == (LEGACY, 0o600, ["keys.toml"]), "the file"


def test_order(folder, monkeypatch):
    """A file is on the disk before it gets its name, and its name after."""
    calls, link, replace = [], os.link, os.replace
    kind = lambda it: "folder" if stat.S_ISDIR(os.fstat(it).st_mode) else "file"
    monkeypatch.setattr(os, "fsync", lambda it: calls.append(kind(it)))
    monkeypatch.setattr(os, "link", lambda *paths: (calls.append("link"), link(*paths)))
    monkeypatch.setattr(os, "replace", lambda *paths: (calls.append("rename"), replace(*paths)))
    for option, due in (("--output", "link"), ("--add", "rename")):
        accepted("new", f"00:00:00:00:00:0{len(calls)}", "public", option, f"{folder}/order.toml")
        assert calls[-3:] == ["file", due, "folder"], f"order, {option}"
