"""Plays scripts to a host in C, and compares what comes with what is due, and with what the program prints.

The scripts are those of examples/, and days of phones at random, whose lines interop/day.py works out. The
notices and the rows are compared with those of the program.
"""

import pytest

from parties.compiling import comparing, need_archive, words_of
from parties.in_c import SCRIPTS, compare_day, compare_script, files, played

need_archive()

DAYS = 20
NOTICES = {
    "connected", "disconnected", "secured", "unsecured", "written", "configured", "confirmed", "timed-out",
    "ending", "skipped",
}


@pytest.fixture(params=comparing())
def obey(request):
    """The words that start a host in C."""
    return words_of(request.param, "obey")


@pytest.mark.parametrize("table, keys, script", SCRIPTS, ids=[it[2] for it in SCRIPTS])
def test_script(folder, obey, table, keys, script):
    """A host in C does what a script of examples/ is to print."""
    compare_script(folder, obey, table, keys, script)


@pytest.mark.parametrize("number", range(DAYS))
def test_day(folder, obey, number):
    """A host in C does what a day of phones at random is to bring."""
    compare_day(folder, obey, number)


def test_each_notice(obey):
    """The scripts of examples/ bring each notice to the application in C."""
    told = set()
    for it in SCRIPTS:
        words, following = files(*it)
        lines, _ = played(obey, *words, following)
        told.update(line.split()[1] for line in lines if line.startswith("+ "))
    assert told == NOTICES, "each notice is told in C"
