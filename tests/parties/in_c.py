"""What is played to a host in C: the scripts of examples/ and days at random, each compared with the program."""

import random
import struct
import subprocess

from day import Day

from parties.obeying import Host
from parties.places import PROGRAM, ROOT, text_of, write_text
from parties.played import Played

ACTS = 1000
TABLES = ("door", "bell", "porch", "conformance/server")
SCRIPTS = [
    ("door", "keys", "bonded"),
    ("door", "keys", "first_contact"),
    ("door", "keys", "four_strangers"),
    ("door", "keys", "full_queue"),
    ("door", "keys", "late"),
    ("door", "keys", "long_write"),
    ("door", "keys", "notices"),
    ("door", "keys", "notifications"),
    ("door", "keys", "prepared_writes"),
    ("door", "secure_key", "secure_connections"),
    ("bell", "keys", "indications"),
    ("post", "keys", "authorization"),
    ("lamps", "keys", "skipped"),
    ("porch", "keys", "owed"),
    ("porch", "keys", "replacement"),
    ("conformance/server", "keys", "conformance/discovery"),
    ("conformance/server", "keys", "conformance/mtu"),
    ("conformance/server", "keys", "conformance/reading"),
    ("conformance/server", "keys", "conformance/telling"),
    ("conformance/server", "keys", "conformance/unsupported"),
    ("conformance/server", "keys", "conformance/writing"),
    ("porch", "keys", "conformance/changed"),
]


def files(table, keys, script):
    """The files of a script of examples/, and the table that replaces the first one, if there is one."""
    following = f"{ROOT}/examples/porch_next.toml" if table == "porch" else None
    parts = f"{table}.toml", f"{keys}.toml", f"{script}.script"
    return [f"{ROOT}/examples/{it}" for it in parts], following


def by_program(folder, table, keys, script, following):
    """Returns the lines that the program prints, notices among them, and the rows that it saves."""
    rows = f"{folder}/rows"
    words = [PROGRAM, "run", table, keys, script, "--notices", "--rows", rows]
    words += ["--next", following] if following else []
    ran = subprocess.run(words, cwd=ROOT, capture_output=True, text=True, timeout=600)
    assert ran.returncode == 0, f"{words}: {ran.stderr}"
    return ran.stdout.splitlines(), text_of(rows)


def played(obey, table, keys, script, following):
    """Plays a script to a host in C. Returns the lines, notices among them, and the rows."""
    host = Host(obey, table, keys, following)
    lines = Played(host, text_of(script)).printed
    rows = "".join(host.ask("rows"))
    host.close()
    return lines, rows


def frames(lines):
    """The lines without notices."""
    return [it for it in lines if not it.startswith("+ ")]


def compare(folder, obey, table, keys, script, due, following=None):
    """Compares what a host in C does by a script with what is due, and with what the program does."""
    words = table, keys, script, following
    lines, rows = played(obey, *words)
    assert frames(lines) == frames(due), f"{script} in C"
    printed, saved = by_program(folder, *words)
    assert lines == printed, f"{script} in C, and by the program"
    assert rows == saved, f"the rows of {script} in C, and by the program"


def pdus(chance):
    """Returns what makes PDUs at random, which are more often right than wrong."""

    def made():
        handle = struct.pack("<H", chance.randrange(24))
        span = struct.pack("<HH", chance.randrange(24), chance.choice((0xFFFF, 24, chance.randrange(24))))
        value = chance.randbytes(chance.choice((0, 1, 1, 2, 8, 40)))
        kind = struct.pack("<H", chance.choice((0x2800, 0x2803, 0x2902, 0x2A00, 0xFFF1, 0xFFF3)))
        return chance.choice((
            b"\x02" + struct.pack("<H", chance.choice((23, 64, 247))),
            b"\x04" + span,
            b"\x08" + span + kind,
            b"\x0a" + handle,
            b"\x0c" + handle + b"\x00\x00",
            b"\x0e" + handle + handle,
            b"\x10" + span + b"\x00\x28",
            b"\x12" + handle + value,
            b"\x16" + handle + b"\x00\x00" + value,
            b"\x18" + chance.choice((b"\x00", b"\x01")),
            b"\x52" + handle + value,
            chance.randbytes(chance.randrange(1, 9)),
        ))

    return made


def compare_script(folder, obey, table, keys, script):
    """Plays a script of examples/ to a host in C, which does what is in the file .out of the script."""
    words, following = files(table, keys, script)
    due = text_of(f"{ROOT}/examples/{script}.out").splitlines()
    compare(folder, obey, *words, due, following)


def compare_day(folder, obey, number):
    """Plays a day of phones at random to a host in C."""
    table = f"{ROOT}/examples/{TABLES[number % 4]}.toml"
    chance = random.Random(number)
    script, due = Day(table, chance, pdus(chance)).whole(ACTS)
    path = write_text(f"{folder}/day.script", script)
    compare(folder, obey, table, f"{ROOT}/examples/keys.toml", path, due.splitlines())
