"""Tries what tools/release makes and refuses, in copies of the checkout, and uses a tarball as its user does.

The proved outputs of the copies are stand-ins, whose notes are made up (parties.releases). The release is made twice, in two copies with other paths and times, and has to be the same. If crates/ has
outputs for aarch64 too, they are in it.
"""

import glob
import os
import re
import shutil
import subprocess
import sys
import time

import pytest

from parties.building import is_marked, once, ran, run
from parties.compiling import ARCHIVE as GIVEN_ARCHIVE
from parties.compiling import LINKED
from parties.emulated import TARGET
from parties.places import text_of
from parties.releases import (
    broken_links, checkout_at, copied, files_below, linked, logic, made_up_verdict, need, write, write_notes,
)

PROGRAM, ARCHIVE = "crates/gatt_shell/out/gatt_shell", "crates/gihandop_c/out/libgihandop_c.a"
NOTE = f"{PROGRAM}.verdict"
SOURCE = "crates/host_api/src/app.rt"
OTHER = "0123456789abcdef"
BARE = {"PATH": "/usr/bin:/bin"}


def with_verdict(**made_up):
    """A change of a note: it has another verdict."""
    return lambda text: re.sub(r"(?ms)^axioms .*", "", text) + made_up_verdict(**made_up)


# What is wrong in a checkout: its name, the file, the text of it (none if it is removed), and what is
# printed.
FAULTS = [
    ("a changed file", "README.md", "changed\n", "README.md"),
    ("a new file", "new.txt", "new\n", "new.txt"),
    ("a note without a verdict", NOTE, lambda text: text.partition("axioms ")[0], "has 0 verdicts"),
    ("two verdicts", NOTE, lambda text: text + made_up_verdict(), "has 2 verdicts"),
    ("no proof", NOTE, with_verdict(word="failed"), "in place of one line logic=proved"),
    ("another logic", NOTE, with_verdict(sum_of_logic=OTHER), f"is of the logic {OTHER}"),
    ("another kit", NOTE, lambda text: text.replace("\nkit ", "\nkit another "), "by another "),
    ("another processor", NOTE, with_verdict(target=TARGET), "is of aarch64"),
    ("another target", NOTE, lambda text: text.replace("x86_64", "aarch64"), "is of aarch64"),
    ("no note", NOTE, None, f"there is no {NOTE}"),
    ("no note of the archive", f"{ARCHIVE}.verdict", None, f"there is no {ARCHIVE}.verdict"),
    ("no program", PROGRAM, None, "`tools/prove gatt_shell` proves it"),
    ("no archive", ARCHIVE, None, "`tools/prove gihandop_c` proves it"),
    ("another program", PROGRAM, "#!/bin/sh\necho gatt_shell 0.2.0\n", f"{PROGRAM} is not the file that was proved"),
    ("no edits tried", "crates/le_h4/out/edits.refused", None, "the wrong edits of le_h4 were not tried on these sources"),
    ("edits of another kit", "crates/le_h4/out/edits.refused", lambda text: text + "x", "`tools/edits` tries them"),
    ("another archive", ARCHIVE, "!<arch>\n", f"{ARCHIVE} is not the file that was proved"),
]


@pytest.fixture
def checkout(program):
    """A copy of the checkout."""
    need("tools/release", "make, gcc, binutils", "make", "cc", "ar")
    return checkout_at("one", program)


@pytest.fixture
def own(checkout, folder):
    """A copy whose files a test may replace."""
    return linked(checkout, f"{folder}/own/gihandop")


@pytest.fixture
def release(checkout):
    """The folder of a release."""
    return once("release", lambda path: ran(["tools/release", path], cwd=checkout))


@pytest.fixture
def tarball(release, folder):
    """The top of an unpacked tarball of programs."""
    (path,) = glob.glob(f"{release}/*-x86_64-linux.tar.gz")
    ran(["tar", "-xzf", path], cwd=folder)
    (top,) = glob.glob(f"{folder}/gihandop-*")
    return top


def refuses(checkout, folder, wanted, *words):
    """tools/release makes nothing, and says why."""
    ended = run(["tools/release", *words, f"{folder}/refused"], cwd=checkout)
    assert ended.returncode == 1, f"status: {ended.stdout}"
    assert wanted in ended.stdout, "its text"
    assert not os.path.exists(f"{folder}/refused"), "there is no release"


def sums_of(release):
    return text_of(f"{release}/SHA256SUMS")


@pytest.mark.parametrize("path, change, wanted", [it[1:] for it in FAULTS], ids=[it[0] for it in FAULTS])
def test_fault(own, folder, path, change, wanted):
    """tools/release refuses a checkout in which one thing is wrong."""
    if change is None:
        os.remove(f"{own}/{path}")
    else:
        write(f"{own}/{path}", change if isinstance(change, str) else change(text_of(f"{own}/{path}")))
    refuses(own, folder, wanted)


def commit_all(checkout):
    """Commits all changes of a copy."""
    names = [it for key in ("name", "email") for it in ("-c", f"user.{key}=a")]
    ran(["git", *names, "commit", "-qam", "an edit"], cwd=checkout)


def test_edited_source(own, folder):
    """tools/release refuses sources that were changed after the proof, whatever their times are."""
    times = os.stat(f"{own}/{SOURCE}")
    write(f"{own}/{SOURCE}", text_of(f"{own}/{SOURCE}").replace("with the handle", "with this handle"))
    for it in (f"{own}/{SOURCE}", os.path.dirname(f"{own}/{SOURCE}")):
        os.utime(it, ns=(times.st_atime_ns - 10**14, times.st_mtime_ns - 10**14))
    commit_all(own)
    refuses(own, folder, "the sources of gatt_shell are not those that were proved")
    ended = install(own, folder)
    assert ended.returncode != 0, "nothing of it is installed"


def test_removed_source(own, folder):
    """tools/release refuses a checkout that lacks a source of the proof."""
    os.remove(f"{own}/crates/octet_io/src/lib.rt")
    commit_all(own)
    refuses(own, folder, "are not those that were proved")


def test_times(own, folder):
    """The sources of a checkout, copied without their times, are those that were proved."""
    subprocess.run(["cp", "-r", own, f"{folder}/copy"], check=True)
    for place in (f"{folder}/copy/{SOURCE}", f"{folder}/copy/{os.path.dirname(SOURCE)}"):
        os.utime(place)
    for it in (PROGRAM, ARCHIVE):
        os.utime(f"{folder}/copy/{it}", (0, 0))
    ran(["tools/release", f"{folder}/release"], cwd=f"{folder}/copy")
    assert os.path.exists(f"{folder}/release/SHA256SUMS"), "a release of a copy"


PAGE_NOTE = """
import sys, verdicts
began = verdicts.sum_of_sources(verdicts.PAGE_CRATE)
sys.exit(verdicts.note(verdicts.PAGE_CRATE, None, began, sys.stdin.read(), verdicts.PAGE))
"""


@pytest.mark.parametrize(
    ("path", "wanted"),
    [
        (None, None),
        ("crates/playground/out/page.html", "crates/playground/out/page.html is not the file that was proved"),
        ("page/page.js", "the sources of playground are not those that were proved"),
        ("crates/playground/src/finish.rt", "the sources of playground are not those that were proved"),
        ("crates/playground/out/page.html.verdict", "has 0 verdicts"),
    ],
    ids=["as it was proved", "another page", "another script", "another source", "another note"],
)
def test_page(own, folder, path, wanted):
    """The page is a file of the release, if it is what was proved from the sources."""
    write(f"{own}/crates/playground/out/page.html", "a page\n")
    words = [sys.executable, "-B", "-c", PAGE_NOTE]
    subprocess.run(words, cwd=f"{own}/tools", input=made_up_verdict(), text=True, check=True)
    if path is None:
        ran(["tools/release", f"{folder}/release"], cwd=own)
        assert [it for it in os.listdir(f"{folder}/release") if it.endswith(".html")] == ["gihandop-0.2.0.html"]
        (sum_of_page,) = re.findall(r"(\w+)  gihandop-0.2.0.html\n", sums_of(f"{folder}/release"))
        (tarball,) = glob.glob(f"{folder}/release/*-x86_64-linux.tar.gz")
        verdicts = ran(["tar", "-xzOf", tarball, "--wildcards", "*/doc/gihandop/VERDICTS"])
        assert f"gihandop-0.2.0.html, whose way to WebAssembly is not proved\n    sha256 {sum_of_page}\n" in verdicts
    else:
        write(f"{own}/{path}", "changed\n")
        if "/out/" not in path:
            commit_all(own)
        refuses(own, folder, wanted)


MCU_NOTE = """
import sys, verdicts
began = verdicts.sum_of_sources(verdicts.MCU_CRATE, None, verdicts.MCU_PARTS)
path, made_for = verdicts.mcu_output(sys.argv[1]), sys.argv[2]
sys.exit(verdicts.note(verdicts.MCU_CRATE, None, began, sys.stdin.read(), path, verdicts.MCU_PARTS, made_for))
"""
M4, M33 = "crates/gihandop_c/out/libgihandop_cortex-m4.a", "crates/gihandop_c/out/libgihandop_cortex-m33.a"


def lay_microcontroller(checkout, path, made_for):
    """Lays a stand-in for a library of tools/mcu, and its note."""
    write(f"{checkout}/{path}", f"a library, {made_for}\n")
    name = path.rpartition("_")[2].removesuffix(".a")
    words = [sys.executable, "-B", "-c", MCU_NOTE, name, made_for]
    subprocess.run(words, cwd=f"{checkout}/tools", input=made_up_verdict(), text=True, check=True)


@pytest.mark.long(12)
def test_microcontrollers(own, folder):
    """The libraries for microcontrollers that there are have a tarball, with what firmware is compiled with."""
    lay_microcontroller(own, M4, "cortex-m4 -Os")
    lay_microcontroller(own, M33, "cortex-m33 -O2")
    said = ran(["tools/release", f"{folder}/release"], cwd=own)
    assert "skipped: rv32imac: there is no crates/gihandop_c/out/libgihandop_rv32imac.a: `tools/mcu --cpu rv32imac" in said
    ran(["tar", "-xzf", f"{folder}/release/gihandop-0.2.0-microcontrollers.tar.gz"], cwd=folder)
    top = f"{folder}/gihandop-0.2.0-microcontrollers"
    wanted = ["LICENSE-APACHE", "LICENSE-MIT", "LICENSE-THIRD-PARTY", "VERDICTS", "c/serve.c", "include/gihandop.h"]
    wanted += ["include/gihandop_pool.h", "include/gihandop_serve.h", *(f"lib/{it}/libgihandop_c.a" for it in ("cortex-m33", "cortex-m4"))]
    assert files_below(top) == wanted
    assert text_of(f"{top}/lib/cortex-m4/libgihandop_c.a") == "a library, cortex-m4 -Os\n"
    text = text_of(f"{top}/VERDICTS")
    for name, option in (("cortex-m4", "-Os"), ("cortex-m33", "-O2")):
        (part,) = re.findall(rf"(?m)^lib/{name}/libgihandop_c.a\n((?:    .*\n)+)", text)
        sum_of_it = ran(["sha256sum", f"{top}/lib/{name}/libgihandop_c.a"]).split()[0]
        assert part.startswith(f"    sha256 {sum_of_it}\n    sources ")
        assert "\n    logic=proved " in part and part.endswith(f"\n    made for {name} by tools/mcu {option}\n")
    assert "\nNot proved: the way from the proved library" in text


@pytest.mark.parametrize(
    ("path", "wanted"),
    [
        (M4, f"{M4} is not the file that was proved"),
        ("mcu/shell.c", f"the sources of gihandop_c are not those that were proved, whose sum {M4}.verdict has"),
        ("tools/rewriting.py", "the sources of gihandop_c are not those that were proved"),
        (f"{M4}.verdict", "has 0 verdicts in place of one line logic=proved: `tools/mcu --cpu cortex-m4"),
        (None, f"{M4} was made for cortex-m33, not for cortex-m4: `tools/mcu --cpu cortex-m4 {M4}` proves it"),
        ("mark", f"{M4} is compiled without proofs: `tools/mcu --cpu cortex-m4"),
    ],
    ids=["another library", "another shell", "another rewriting", "another note", "another processor", "no proofs"],
)
def test_refused_microcontroller(own, folder, path, wanted):
    """A library for a microcontroller that is not what was proved for it is refused."""
    lay_microcontroller(own, M4, "cortex-m4 -Os" if path else "cortex-m33 -Os")
    if path == "mark":
        write(f"{own}/{M4}", "(not proved)\n")
    elif path:
        write(f"{own}/{path}", "changed\n")
        if "/out/" not in path:
            commit_all(own)
    refuses(own, folder, wanted)


def install(checkout, folder, *words):
    """What `make install` below a folder ends with."""
    words = ["make", "install", f"DESTDIR={folder}/package", f"BUILD={folder}/build", *words]
    ended = run(words, cwd=checkout)
    assert os.path.exists(f"{folder}/package") == (ended.returncode == 0), "all is installed, or nothing"
    return ended


def lay_unproved(checkout, program):
    """Lays the program and an archive without proofs in the places of the proved ones."""
    for path, source in ((PROGRAM, program), (ARCHIVE, GIVEN_ARCHIVE)):
        os.remove(f"{checkout}/{path}")
        shutil.copy(source, f"{checkout}/{path}")


@pytest.mark.parametrize("has_notes", [True, False], ids=["notes", "no notes"])
def test_unproved(own, folder, program, has_notes):
    """`make install` refuses what is compiled without proofs, in the place of the proved program."""
    if not is_marked(program):
        pytest.skip("GATT_SHELL is not the program of tools/unproved")
    lay_unproved(own, program)
    if not has_notes:
        os.remove(f"{own}/{NOTE}")
    ended = install(own, folder)
    assert ended.returncode != 0, "it is refused"
    assert f"{PROGRAM} is compiled without proofs" in ended.stdout, "its text"


def test_unproved_archive(own, folder):
    """`make install` refuses an archive without proofs, also one with a note that has its sum."""
    if not is_marked(GIVEN_ARCHIVE):
        pytest.skip("GIHANDOP_ARCHIVE is not the archive of tools/unproved")
    path = f"{folder}/libgihandop_c.a"
    shutil.copy(GIVEN_ARCHIVE, path)
    shutil.copy(f"{own}/{PROGRAM}", f"{folder}/gatt_shell")
    verdicts = dict.fromkeys(("gatt_shell", "gihandop_c"), made_up_verdict())
    write_notes(own, f"{folder}/gatt_shell", path, verdicts)
    ended = install(own, folder, f"PROGRAM={folder}/gatt_shell", f"ARCHIVE={path}")
    assert ended.returncode != 0, "it is refused"
    assert f"{path} is compiled without proofs" in ended.stdout, "its text"


def test_empty_archive(own, folder):
    """`make install` refuses an archive that nobody has proved."""
    os.remove(f"{own}/{ARCHIVE}")
    ran(["ar", "rcs", f"{own}/{ARCHIVE}"], cwd=own)
    ended = install(own, folder)
    assert ended.returncode != 0, "it is refused"
    assert f"{ARCHIVE} is not the file that was proved" in ended.stdout, "its text"


@pytest.mark.parametrize("path", [PROGRAM, ARCHIVE])
@pytest.mark.parametrize("command", ["release", "install"])
def test_replaced_meanwhile(own, folder, command, path):
    """An output that another proof replaces after it was checked is refused, and its copy removed."""
    put = f"{folder}/bin/install"
    os.makedirs(os.path.dirname(put))
    with open(put, "w", encoding="utf-8") as file:
        file.write(f'#!/bin/sh\nif mkdir {folder}/once 2>/dev/null; then\n    cp {path} {path}.new\n    echo another >> {path}.new\n')
        file.write(f'    mv {path}.new {path}\nfi\nexec {shutil.which("install")} "$@"\n')
    os.chmod(put, 0o755)
    how = {"cwd": own, "env": {**os.environ, "PATH": f"{folder}/bin:{os.environ['PATH']}"}}
    words = {
        "release": ["tools/release", f"{folder}/made"],
        "install": ["make", "install", f"DESTDIR={folder}/root", f"BUILD={folder}/build"],
    }[command]
    ended = run(words, **how)
    assert ended.returncode != 0, "it is refused"
    assert "it was replaced meanwhile; install again" in ended.stdout, ended.stdout
    assert not os.path.exists(f"{folder}/made"), "there is no release"
    assert glob.glob(f"{folder}/root/**/{os.path.basename(path)}", recursive=True) == [], "the copy is removed"


@pytest.mark.parametrize("change, wanted", [
    ("cp README.md new; echo changed >> new; mv new README.md", " M README.md"),
    ("git -c user.name=a -c user.email=a commit --allow-empty -qm another", "another commit was checked out meanwhile"),
], ids=["a file", "a commit"])
def test_changed_meanwhile(own, folder, change, wanted):
    """A checkout that changes while its release is made is refused."""
    put = f"{folder}/bin/install"
    write(put, f"#!/bin/sh\nif mkdir {folder}/once 2>/dev/null; then\n    {change}\nfi\nexec {shutil.which('install')} \"$@\"\n")
    os.chmod(put, 0o755)
    ended = run(["tools/release", f"{folder}/made"], cwd=own, env={**os.environ, "PATH": f"{folder}/bin:{os.environ['PATH']}"})
    assert (ended.returncode, wanted in ended.stdout) == (1, True), ended.stdout
    assert not os.path.exists(f"{folder}/made"), "there is no release"


def test_a_new_file_that_git_hides(own, folder):
    """A new file is a change, also if git is configured to list none."""
    ran(["git", "config", "status.showUntrackedFiles", "no"], cwd=own)
    write(f"{own}/docs/NEW.md", "new\n")
    refuses(own, folder, "docs/NEW.md")


def test_check(checkout):
    """tools/release --check prints VERDICTS, and changes nothing."""
    text = ran(["tools/release", "--check"], cwd=checkout)
    assert ran(["git", "rev-parse", "HEAD"], cwd=checkout).strip() in text, "the commit"
    assert text == ran(["tools/release", "--check", PROGRAM, ARCHIVE], cwd=checkout), "with the paths"
    assert ran(["git", "status", "--porcelain"], cwd=checkout) == "", "no file is left"


@pytest.mark.long(12)
def test_in_a_hook(checkout, folder):
    """In a hook of another repository, for which git has variables, the commit and the sources are those of the checkout."""
    other, env = f"{folder}/other", {**os.environ, "GIT_DIR": f"{folder}/other/.git", "GIT_INDEX_FILE": f"{folder}/other/.git/index"}
    ran(["git", "init", "-q", other])
    ran(["git", "-c", "user.name=a", "-c", "user.email=a", "commit", "--allow-empty", "-qm", "another"], cwd=other)
    commit = ran(["git", "rev-parse", "HEAD"], cwd=checkout).strip()
    assert f"commit  {commit}\n" in ran(["tools/release", "--check"], cwd=checkout, env=env)
    ran(["tools/release", f"{folder}/made"], cwd=checkout, env=env)
    assert "gihandop-0.2.0/README.md\n" in ran(["tar", "-tzf", f"{folder}/made/gihandop-0.2.0.tar.gz"])


@pytest.mark.parametrize("words", [[], ["--check", "a"], ["--check", "--target", "z80"], ["a", "b"], ["--gate"]], ids=" ".join)
def test_unknown_words(words):
    """tools/release refuses words that it does not know."""
    ended = run(["tools/release", *words])
    assert (ended.returncode, "usage:" in ended.stdout) == (64, True), ended.stdout


GATE = """
import os, shutil, sys, verdicts
gate = verdicts.Gate()
program, note = verdicts.output("gatt_shell"), verdicts.note_of(verdicts.output("gatt_shell"))
os.remove(note)
if "edited" in sys.argv:
    with open(f"{verdicts.ROOT}/crates.txt", "a") as file:
        file.write("# edited\\n")
if "changed" in sys.argv:
    shutil.copy("/bin/true", program)
print(gate.note(sys.stdin.read()))
print(verdicts.is_of_gate("gihandop_c"), os.path.exists(note))
"""
PROVED = "== octet_io\nlogic=failed\nrt: octet_io proved\n== gatt_shell\n%srt: gatt_shell proved\n"
KEPT = "rt: gatt_shell is kept: an earlier run on this machine proved the same files over the same libraries\n"
# What the gate does: its name, its words, what rt ci prints, and what is said of the note.
GATES = [
    ("proved", [], PROVED, ["None", "True True"]),
    ("kept", [], KEPT, ["None", "True True"]),
    ("another program is kept", ["changed"], KEPT, ["an earlier run proved it", "True False"]),
    ("edited meanwhile", ["edited"], PROVED, ["the sources have changed meanwhile", "False False"]),
    ("not proved", [], PROVED.replace("gatt_shell proved", "gatt_shell NOT PROVED"), ["None", "True True"]),
]


@pytest.mark.parametrize("words, said, wanted", [it[1:] for it in GATES], ids=[it[0] for it in GATES])
def test_gate(checkout, folder, words, said, wanted):
    """The gate notes what it has proved, and saves the note of a program that an earlier gate has proved."""
    own = copied(checkout, f"{folder}/own/gihandop")
    said = said.replace("%s", made_up_verdict())
    how = {"cwd": f"{own}/tools", "input": said, "capture_output": True, "text": True}
    ended = subprocess.run([sys.executable, "-B", "-c", GATE, *words], check=False, **how)
    assert ended.stdout.splitlines() == wanted, ended.stderr


@pytest.mark.long(20)
def test_twice(program, folder, request):
    """The release of a copy with other paths and times is the same."""
    need("tools/release", "make, gcc, binutils", "make", "cc", "ar")
    other = linked(checkout_at("another-place/deeper", program), f"{folder}/other/gihandop")
    # Git then writes other files to a folder, and to an archive too.
    ran(["git", "config", "core.autocrlf", "true"], cwd=other)
    time.sleep(1.1)
    ran(["tools/release", f"{folder}/release"], cwd=other)
    # Another test may have made it meanwhile.
    release = request.getfixturevalue("release")
    assert sorted(os.listdir(f"{folder}/release")) == sorted(os.listdir(release)), "the names of its files"
    assert sums_of(f"{folder}/release") == sums_of(release), "a release, twice"


@pytest.mark.long(12)
def test_sums(release):
    """SHA256SUMS has the sums of the files."""
    ran(["sha256sum", "--strict", "-c", "SHA256SUMS"], cwd=release)


def test_sources(release, checkout):
    """The tarball of the sources has what the repository has."""
    (sources,) = [it for it in glob.glob(f"{release}/*.tar.gz") if not it.endswith(("-linux.tar.gz", "-microcontrollers.tar.gz"))]
    listed = ran(["tar", "-tzf", sources]).splitlines()
    tracked = ran(["git", "ls-files"], cwd=checkout).splitlines()
    found = {it.partition("/")[2] for it in listed if not it.endswith("/")}
    assert found ^ set(tracked) == set(), "the sources of the release"


def test_tarball_program(tarball):
    """The program of the tarball runs, and a command of the documents prints there what they show."""
    words = [f"{tarball}/bin/gatt_shell", "att"]
    ended = subprocess.run(words, input=b"0a0300\n", capture_output=True, env={})
    assert ended.stdout == b"0b4c6f636b\n", f"the program of the tarball: {ended.stderr}"
    words = ["./gatt_shell", "run", "examples/door.toml", "examples/keys.toml", "examples/bonded.script"]
    printed = run(words, cwd=tarball, env=BARE).stdout
    assert printed == text_of(f"{tarball}/examples/bonded.out"), "a command of the documents"


def test_tarball_python(tarball):
    """The library for Python and the tool for keys of the tarball run."""
    code = "import sys; sys.path.insert(0, 'python'); import gihandop; gihandop.Away()"
    ran(["python3", "-B", "-c", code], "the application of the tarball", cwd=tarball, env=BARE)
    ran(["tools/keys", "new", "00:aa:01:00:00:00", "public"], "a key by the tarball", cwd=tarball, env=BARE)


def test_tarball_links(tarball):
    """Each link of a document of the tarball leads to a file."""
    assert broken_links(f"{tarball}/share/doc/gihandop") == [], "links"


def test_verdicts(tarball):
    """VERDICTS has the sum and the verdict of each output."""
    text = text_of(f"{tarball}/VERDICTS")
    sums = re.findall(r"(?m)^(\S+/\S+)\n    sha256 (\w+)\n    sources \w{64}\n    (?:axioms .*\n    )*(logic=proved .*)$", text)
    assert [it[0] for it in sums] == ["bin/gatt_shell", "lib/libgihandop_c.a"], text
    for name, wanted, verdict in sums:
        assert ran(["sha256sum", f"{tarball}/{name}"]).split()[0] == wanted, name
        assert logic() in verdict, "the kit"


def test_tarball_library(tarball, folder):
    """A program in C is compiled by what pkg-config says of the tarball, and runs."""
    need("gihandop.pc of the tarball", "pkgconf, gcc", "pkg-config", "cc")
    env = {**os.environ, "PKG_CONFIG_PATH": f"{tarball}/lib/pkgconfig"}
    flags = ran(["pkg-config", "--cflags", "--libs", "gihandop"], cwd=tarball, env=env).split()
    ran(["cc", "-o", f"{folder}/first", "examples/c/first.c", *flags, *LINKED], cwd=tarball)
    ran([f"{folder}/first", f"{tarball}/examples/door.toml"], "and it runs")
