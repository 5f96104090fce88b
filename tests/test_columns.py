"""Checks that `gatt_shell show` joins exactly the kinds of keys with equal cells, and names each kind.

The cells of a kind among others are those of a key file that has this kind alone.
"""

import random
import subprocess

import pytest

from comparing import toml_of
from test_compare import some_service
from test_rights import cells_in, kinds_in


def key_of(number, size, authenticated, secure):
    return f"""[[key]]
address = "00:00:00:00:00:{number:02x}"
kind = "public"
rand = "{0 if secure else number + 1:016x}"
ediv = {0 if secure else number}
ltk = "{'5a' * size}{'00' * (16 - size)}"
size = {size}
authenticated = {str(authenticated).lower()}
secure = {str(secure).lower()}
"""


def words_of(size, authenticated, secure):
    return f"key of {size}" + ", authenticated" * authenticated + ", secure connections" * secure


KINDS = [(size, one, other) for size in (7, 15, 16) for one in (False, True) for other in (False, True)]


@pytest.fixture
def show(program, folder):
    def shown(table, kinds):
        for name, text in (("table.toml", table), ("keys.toml", "".join(kinds) or "key = []\n")):
            with open(f"{folder}/{name}", "w", encoding="utf-8") as file:
                file.write(text)
        words = [program, "show", f"{folder}/table.toml", f"{folder}/keys.toml", "--width", "1000"]
        return subprocess.run(words, capture_output=True, text=True, check=True).stdout.splitlines()

    return shown


@pytest.mark.parametrize("part", range(4))
def test_some_tables(show, part):
    shared = 0
    for number in range(3 * part, 3 * part + 3):
        rng = random.Random(number)
        table = toml_of([some_service(rng, 4) for _ in range(rng.randrange(1, 4))])
        kinds = rng.sample(KINDS, 5)
        keys = [key_of(at, *kind) for at, kind in enumerate(kinds)]
        lines = show(table, keys)
        named = sum(kinds_in(lines).values(), [])
        assert sorted(named) == sorted(["no key", *(words_of(*kind) for kind in kinds)]), number
        cells = cells_in(lines)
        columns = [cells[of_a_column[0]] for of_a_column in kinds_in(lines).values()]
        assert all(one not in columns[:at] for at, one in enumerate(columns)), number
        shared += len(columns) < len(named)
        for kind, key in zip(kinds, keys):
            assert cells[words_of(*kind)] == cells_in(show(table, [key]))[words_of(*kind)], (number, kind)
    assert shared
