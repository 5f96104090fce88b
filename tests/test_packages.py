"""Makes Debian's packages from two copies of the checkout, and looks what they have.

If the environment variable NEW_ROOT is set, the packages are also installed in a new root of Debian in a
folder, which needs mmdebstrap, root and the network. There debian/tests are run, and the packages are purged:
once in the folder, and once while systemd runs there, by systemd-nspawn.
"""

import glob
import os
import re
import shutil
import time

import pytest

from parties.building import is_marked, once, ran, run
from parties.compiling import IS_INSTRUMENTED
from parties.places import ROOT, text_of, write_text
from parties.releases import checkout_at, copied, files_below, need

BRANCH = "bookworm"
# Folders of a root that others change.
OTHERS = (
    "/packages", "/proc", "/sys", "/dev", "/tmp", "/run", "/var/cache", "/var/log", "/var/lib/dpkg", "/var/lib/apt",
)
# Each package with a file, and the file of the checkout that it is.
OUTPUTS = [
    ("gihandop", "usr/bin/gatt_shell", "crates/gatt_shell/out/gatt_shell"),
    ("libgihandop-dev", "usr/lib/*/libgihandop_c.a", "crates/gihandop_c/out/libgihandop_c.a"),
    ("python3-gihandop", "usr/lib/python3/dist-packages/gihandop/__init__.py", "python/gihandop/__init__.py"),
]
INSIDE = {"PATH": "/usr/sbin:/usr/bin:/sbin:/bin", "DEBIAN_FRONTEND": "noninteractive", "LC_ALL": "C.UTF-8"}
# A service that runs a script once the root is booted, and then ends the system.
SCRIPT = """[Unit]
After=multi-user.target
[Service]
Type=oneshot
TimeoutStartSec=infinity
ExecStart=/packages/script
StandardOutput=file:/packages/log
StandardError=file:/packages/log
ExecStopPost=/usr/bin/systemctl --no-block poweroff
"""
# What the script does after the tests: a device with the files of all, and one with files of its own, run. Then the
# packages are installed again, removed and purged.
RUNNING = """install -d /etc/gihandop/hci1
install -m 600 -o gihandop examples/door.toml /etc/gihandop/table.toml
install -m 600 -o gihandop examples/keys.toml /etc/gihandop/keys.toml
install -m 600 -o gihandop examples/post.toml /etc/gihandop/hci1/table.toml
install -m 600 -o gihandop examples/keys.toml /etc/gihandop/hci1/keys.toml
echo OPTIONS=--name Shared > /etc/gihandop/options
words() {{ tr '\\0' ' ' < "/proc/$(systemctl show --property=MainPID --value "$1")/cmdline"; }}
begin() {{ echo "/usr/bin/gatt_shell host $1/table.toml $1/keys.toml --serial /run/gihandop/$2"; }}
systemctl enable --now gihandop@hci0 gihandop@hci1
case $(words gihandop@hci0) in "$(begin /etc/gihandop hci0)"*' --idle 30 --name Shared ') ;; *) exit 1 ;; esac
case $(words gihandop@hci1) in "$(begin /etc/gihandop/hci1 hci1)"*' --idle 30 --name Shared ') ;; *) exit 1 ;; esac
echo 'OPTIONS=--name "Two words" --save-updates' > /etc/gihandop/hci1/options
systemctl restart gihandop@hci1
case $(words gihandop@hci1) in *' --idle 30 --name Two words --save-updates ') ;; *) exit 1 ;; esac
gatt_shell tell /run/gihandop/hci1.application stop
gatt_shell tell /run/gihandop/hci0.application update 10 01
process=$(systemctl show --property=MainPID --value gihandop@hci0)
apt-get -qq -y install --reinstall {files}
test "$(systemctl show --property=MainPID --value gihandop@hci0)" = "$process"
apt-get -qq -y remove gihandop
test "$(systemctl is-active gihandop@hci0 hci_bridge@hci0 | sort -u)" = inactive
test -e /var/lib/gihandop/hci0/state
apt-get -qq -y purge {names}
test ! -e /run/gihandop
"""


@pytest.fixture
def checkout(program):
    """A copy of the checkout."""
    packages = "dpkg-dev, debhelper, dh-python, fakeroot"
    need("Debian's packages", packages, "dpkg-buildpackage", "dh", "dh_python3", "fakeroot")
    return checkout_at("one", program)


@pytest.fixture
def packages(checkout):
    """The folder of the packages and of what is in them, made once for all tests."""
    return once("debian", lambda path: build(checkout, path))


def build(checkout, folder):
    """Makes the packages of a copy of the checkout, and unpacks them."""
    ran(["dpkg-buildpackage", "-b", "-us", "-uc"], cwd=copied(checkout, f"{folder}/gihandop"))
    for it in glob.glob(f"{folder}/*.deb"):
        name = os.path.basename(it).partition("_")[0]
        os.makedirs(f"{folder}/unpacked", exist_ok=True)
        ran(["dpkg-deb", "-x", it, f"{folder}/unpacked/{name}"])


def names_of(folder):
    """The names of the packages in a folder."""
    return sorted(os.path.basename(it) for it in glob.glob(f"{folder}/*.deb"))


def test_twice(packages, program, folder):
    """The packages of a copy with other paths and times are the same."""
    other = f"{folder}/another-place/deeper"
    time.sleep(1.1)
    build(checkout_at("another-place/deeper", program), other)
    assert len(names_of(packages)) == 3, "there are three"
    assert names_of(other) == names_of(packages), "their names"
    for it in names_of(packages):
        sums = [ran(["sha256sum", f"{place}/{it}"]).split()[0] for place in (packages, other)]
        assert sums[0] == sums[1], f"the packages, twice: {it}"


def test_version(packages):
    """The packages have the version of the Makefile."""
    version = re.search(r"(?m)^VERSION = (\S+)$", text_of(f"{ROOT}/Makefile"))[1]
    others = [it for it in names_of(packages) if f"_{version}-1_" not in it]
    assert others == [], "the version of the packages"


@pytest.mark.parametrize("package, path, output", OUTPUTS, ids=[it[0] for it in OUTPUTS])
def test_output(packages, checkout, package, path, output):
    """A package has an output as it is."""
    found = glob.glob(f"{packages}/unpacked/{package}/{path}")
    assert len(found) == 1, f"{package}: {path}"
    ran(["cmp", found[0], f"{checkout}/{output}"])


def test_keys(packages):
    """The tool for keys has the Python of Debian, and runs."""
    tool = f"{packages}/unpacked/gihandop/usr/bin/gihandop-keys"
    assert re.match("#! ?/usr/bin/python3\n", text_of(tool)), "its Python"
    assert ran([tool, "--help"]).startswith("usage: gihandop-keys "), "it runs"
    (package,) = glob.glob(f"{packages}/gihandop_*.deb")
    assert "python3:any" in ran(["dpkg-deb", "-f", package, "Depends"]), "what it depends on"


@pytest.mark.parametrize("package", ["gihandop", "libgihandop-dev"])
def test_licences(packages, package):
    """A package has the licences of others."""
    texts = f"{packages}/unpacked/{package}/usr/share/doc/{package}/LICENSE-THIRD-PARTY"
    assert text_of(texts) == text_of(f"{ROOT}/LICENSE-THIRD-PARTY"), f"{package}: licences"


@pytest.mark.parametrize("package", ["gihandop", "libgihandop-dev"])
def test_verdicts(packages, package):
    """A package of a proved output says what was proved."""
    text = text_of(f"{packages}/unpacked/{package}/usr/share/doc/{package}/VERDICTS")
    for name, path, _ in OUTPUTS[:2]:
        (output,) = glob.glob(f"{packages}/unpacked/{name}/{path}")
        assert f"\n    sha256 {ran(['sha256sum', output]).split()[0]}\n" in text, f"the sum of {name}"


def test_nothing_left(packages):
    """The packages leave nothing in the checkout that the next release refuses."""
    assert ran(["git", "status", "--porcelain"], cwd=f"{packages}/gihandop") == "", "changes"
    ran(["tools/release", "--check"], cwd=f"{packages}/gihandop")


def test_unproved(checkout, program, folder):
    """There are no packages of a program that is compiled without proofs."""
    if not is_marked(program):
        pytest.skip("GATT_SHELL is not the program of tools/unproved")
    own = copied(checkout, f"{folder}/gihandop")
    shutil.copy(program, f"{own}/crates/gatt_shell/out/gatt_shell")
    ended = run(["dpkg-buildpackage", "-b", "-us", "-uc"], cwd=own)
    assert ended.returncode != 0, "it is refused"
    assert "is compiled without proofs" in ended.stdout, "its text"
    assert names_of(folder) == [], "no package is made"


def test_modules(packages):
    """The package for Python has one module, with its types."""
    modules = files_below(f"{packages}/unpacked/python3-gihandop/usr/lib")
    wanted = [f"python3/dist-packages/gihandop/{it}" for it in ("__init__.py", "py.typed")]
    assert modules == wanted, "python3-gihandop: modules"


def test_lintian(packages):
    """lintian finds no error, and nothing that it warns of."""
    need("the packages", "lintian", "lintian")
    ran(["lintian", "--allow-root", "--fail-on", "error,warning", *glob.glob(f"{packages}/*.changes")])


def listing(new):
    """The files and folders of a root, except those of apt, of dpkg and of running programs."""
    found = []
    for folder, folders, files in os.walk(new):
        folders[:] = [it for it in folders if f"{folder}/{it}"[len(new) :] not in OTHERS]
        found += [f"{folder}/{it}"[len(new) :] for it in folders + files]
    return set(found)


def tests_of(checkout):
    """The tests of debian/tests, each with what it depends on and whether it needs a booted root."""
    found = []
    for text in text_of(f"{checkout}/debian/tests/control").split("\n\n"):
        fields = dict(it.split(": ", 1) for it in text.splitlines())
        is_booted = "isolation-container" in fields.get("Restrictions", "")
        found.append((fields["Tests"], fields["Depends"].split(", "), is_booted))
    return found


def make_root(path, packages, checkout):
    """Makes a root of Debian with what debian/tests need, and the packages and the sources in /packages."""
    needed = {it for _, depends, _ in tests_of(checkout) for it in depends}
    own = {it for it in needed if any(name.startswith(f"{it}_") for name in names_of(packages))}
    outside = ",".join(sorted({"adduser", "python3"} | needed - own))
    ran(["mmdebstrap", "--variant=apt", f"--include={outside}", BRANCH, path])


@pytest.fixture
def root(packages, checkout, folder):
    """A new root of Debian in a folder, with the packages and the sources in /packages."""
    if not os.environ.get("NEW_ROOT"):
        pytest.skip("a new root: it needs the network, so it is made only if NEW_ROOT is set")
    if os.getuid():
        pytest.skip("a new root: root is needed")
    need("a new root", "mmdebstrap", "mmdebstrap", "chroot")
    made, new = once("root", lambda path: make_root(path, packages, checkout)), f"{folder}/root"
    ran(["cp", "-a", made, new])
    os.makedirs(f"{new}/packages/bin")
    for it in names_of(packages):
        shutil.copy(f"{packages}/{it}", f"{new}/packages")
    ignored = shutil.ignore_patterns(".git", "out")
    shutil.copytree(checkout, f"{new}/packages/source", symlinks=True, ignore=ignored)
    if IS_INSTRUMENTED:
        # A program with such an archive is linked in this way only.
        cc = write_text(f"{new}/packages/bin/cc", '#!/bin/sh\nexec /usr/bin/cc -fsanitize=address "$@"\n')
        os.chmod(cc, 0o755)
    return new


def line_of(name):
    """The line of a shell that runs a test of debian/tests."""
    path = "PATH=/packages/bin:$PATH " if name == "library" else ""
    return f"{path}timeout 300 debian/tests/{name}"


def test_new_root(packages, checkout, root):
    """The packages are installed in a new root, work there, and leave nothing when they are purged."""
    apt = ["chroot", root, "apt-get", "-qq", "-y"]
    before = listing(root)
    files = [f"/packages/{it}" for it in names_of(packages)]
    ran([*apt, "install", *files], "install the packages", env=INSIDE)
    for name, _, is_booted in tests_of(checkout):
        if not is_booted:
            # AddressSanitizer needs /proc, which is mounted as long as the test runs.
            played = f"cd /packages/source && {line_of(name)}"
            line = f"mount -t proc proc {root}/proc && exec chroot {root} sh -c '{played}'"
            ran(["unshare", "--mount", "sh", "-c", line], f"debian/tests/{name}", env=INSIDE)
    ran([*apt, "install", "--reinstall", *files], "reinstall", env=INSIDE)
    os.makedirs(f"{root}/var/lib/gihandop/hci0")
    ran([*apt, "purge", *(it.partition("_")[0] for it in names_of(packages))], "purge", env=INSIDE)
    # Older versions of the files with the users are left by whatever makes one.
    users = r"/etc/g?shadow-|/etc/(passwd|group)-"
    left = sorted(it for it in listing(root) - before if not re.fullmatch(users, it))
    assert left == [], "what purge leaves"


def test_booted_root(packages, checkout, root):
    """While systemd runs in a new root, the units work there, an upgrade leaves a device, and a purge ends it."""
    need("a booted root", "systemd-container", "systemd-nspawn")
    names = names_of(packages)
    files = " ".join(f"/packages/{it}" for it in names)
    lines = ["#!/bin/sh", "set -eux", "exec 2>&1", *(f"export {name}={value}" for name, value in INSIDE.items())]
    lines += [f"apt-get -qq -y install {files}", "cd /packages/source"]
    lines += [line_of(it) for it, _, _ in tests_of(checkout)]
    lines.append(RUNNING.format(files=files, names=" ".join(it.partition("_")[0] for it in names)))
    script = write_text(f"{root}/packages/script", "\n".join([*lines, "echo all of it\n"]))
    os.chmod(script, 0o755)
    write_text(f"{root}/etc/systemd/system/script.service", SCRIPT)
    wanted = f"{root}/etc/systemd/system/multi-user.target.wants"
    os.makedirs(wanted, exist_ok=True)
    os.symlink("../script.service", f"{wanted}/script.service")
    words = ["--quiet", "--register=no", "--keep-unit", "--private-network", "--console=read-only", "--boot"]
    said = run(["systemd-nspawn", "-D", root, *words], timeout=900).stdout
    log = text_of(f"{root}/packages/log") if os.path.exists(f"{root}/packages/log") else said
    assert log.endswith("\nall of it\n"), log[-3_000:]
    left = sorted(it for it in listing(root) if re.search("gihandop|hci_bridge|gatt_shell", it))
    files = ["hci1", *(f"hci1/{it}" for it in ("keys.toml", "options", "table.toml")), "keys.toml", "options", "table.toml"]
    assert left == ["/etc/gihandop", *(f"/etc/gihandop/{it}" for it in files)], "what purge leaves"
