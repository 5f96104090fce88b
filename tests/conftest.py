"""What all tests share: the program that they try, a folder for each test, their order, and the number of checks.

The environment variable GATT_SHELL is the path of the program. If it is not set, the first test that needs it
compiles it without proofs, unless it is there and its sources have not changed. That takes two minutes of a
processor. Tests with the marker `without_program` never compile it.
"""

import gc
import os
import shutil
import subprocess
import sys
import tempfile
import warnings

import pytest

ROOT = os.path.dirname(os.path.dirname(os.path.realpath(__file__)))
UNPROVED = f"{ROOT}/crates/gatt_shell/out/unproved/gatt_shell"

pytest.register_assert_rewrite("parties")

# Where the compiled tests are saved: each process of a run side by side would else compile all of them.
sys.pycache_prefix, sys.dont_write_bytecode = f"{ROOT}/tests/out/bytecode", False


class Checks:
    """Counts the assertions that held, in this process and in those that pytest-xdist starts."""

    def __init__(self, config):
        self.config = config
        self.count = 0

    def pytest_assertion_pass(self):
        self.count += 1

    @pytest.hookimpl(optionalhook=True)
    def pytest_testnodedown(self, node):
        self.count += getattr(node, "workeroutput", {}).get("checks", 0)

    def pytest_sessionfinish(self):
        if hasattr(self.config, "workeroutput"):
            self.config.workeroutput["checks"] = self.count

    def pytest_terminal_summary(self, terminalreporter):
        terminalreporter.write_line(f"{self.count} checks held")


def pytest_configure(config):
    # A module of tests reads it as it is imported.
    os.environ.setdefault("GATT_SHELL", UNPROVED)
    if not hasattr(config, "workerinput"):
        # What the processes of pytest-xdist compile once for all of them (parties.building).
        os.environ["BUILT_ONCE"] = tempfile.mkdtemp(prefix="gihandop.")
    config.pluginmanager.register(Checks(config), "checks")


def pytest_collection_modifyitems(items):
    """Has the tests that take longest begin first: a run side by side does not end with them."""

    def seconds(item):
        mark = item.get_closest_marker("long")
        return mark.args[0] if mark else 0

    items.sort(key=seconds, reverse=True)


@pytest.hookimpl(optionalhook=True)
def pytest_xdist_make_scheduler(config, log):
    """Makes a scheduler that has each process know one test besides the one that it plays.

    That of pytest-xdist gives a process many at once: at the end one may have a whole file left, and the
    others nothing. A version of it without the fields that are used here plays the tests by its own.
    """
    from xdist.scheduler import LoadScheduling

    is_known = hasattr(LoadScheduling, "_send_tests") and hasattr(LoadScheduling(config, log), "node2pending")
    if config.getoption("dist") != "load" or not is_known:
        return None

    class OneByOne(LoadScheduling):
        most = 1

        def schedule(self):
            """Gives each process the first tests by turns, and a second one, without which it does not begin."""
            super().schedule()
            self.most = 2
            super().schedule()

        def _send_tests(self, node, num):
            super()._send_tests(node, max(0, min(num, self.most - len(self.node2pending[node]))))

    return OneByOne(config, log)


def pytest_unconfigure(config):
    if not hasattr(config, "workerinput"):
        shutil.rmtree(os.environ.pop("BUILT_ONCE"), ignore_errors=True)


@pytest.fixture(scope="session")
def program():
    """The path of the program, which is there from now on."""
    path = os.environ["GATT_SHELL"]
    if path == UNPROVED and subprocess.run([f"{ROOT}/tools/unproved"]).returncode:
        pytest.fail("the program is not there: tools/unproved says why", pytrace=False)
    return os.path.realpath(path)


@pytest.fixture(scope="session")
def hci_bridge():
    """The path of hci_bridge, compiled with tests/c/test_channel.c in place of the user channel of Linux.

    Only a kernel with a controller has a user channel: interop/kernel.py tries that one.
    """
    from parties.building import once, ran

    compiler = shutil.which("cc") or shutil.which("gcc") or shutil.which("clang")
    if compiler is None:
        pytest.skip("no C compiler: Debian's gcc and libc6-dev, or clang, are one")
    words = [
        compiler, "-std=c11", "-O1", "-g", "-Wall", "-Wextra", "-Wpedantic", "-Wconversion", "-Werror",
        "-fsanitize=address,undefined", "-Ibridge", "bridge/hci_bridge.c", "tests/c/test_channel.c", "-o",
    ]
    return once("hci_bridge", lambda path: ran([*words, path], "hci_bridge"))


@pytest.fixture
def bridge(folder, hci_bridge):
    """A bridge that is not started yet."""
    from parties.bridges import Bridge

    return Bridge(hci_bridge, folder)


@pytest.fixture
def collected():
    """Collects garbage before a test and after it, so that it is warned of its own and of no other."""
    with warnings.catch_warnings():
        warnings.simplefilter("ignore")
        gc.collect()
    yield
    gc.collect()


@pytest.fixture
def folder():
    """A folder whose path is short enough for the names of sockets in it, which have at most 107 octets."""
    with tempfile.TemporaryDirectory() as path:
        yield path


@pytest.fixture(autouse=True)
def devices(request, folder):
    """Provides the program, and ends what a test leaves before its folder goes: devices that still run, and
    controllers."""
    from parties import Controller, end_all

    if not request.node.get_closest_marker("without_program"):
        request.getfixturevalue("program")
    yield
    end_all()
    Controller.made.clear()


@pytest.fixture
def door(folder):
    """A device of examples/door.toml that serves a controller."""
    from parties.doors import Door

    return Door(folder)


@pytest.fixture
def home(folder):
    """A folder where a device saves its state."""
    from parties.homes import Home

    return Home(folder)
