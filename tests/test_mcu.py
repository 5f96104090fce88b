"""Tries the library of tools/mcu: on this PC, compiled for addresses of 32 bits, and on emulated boards.

It is made without proofs. Nothing here runs on a real board. The programs in C are those of the other tests.
"""

import os
import re
import sys
import tempfile

import pytest

from parties.boards import C_FLAGS, BOARDS, archive, mcu, missing, modules, need_board, on_board, sources_of
from parties.building import is_marked, once, ran, run
from parties.compiling import ARCHIVE, HAS_ARCHIVE, IS_INSTRUMENTED, KEYS, MISSING, NEXT, PORCH, PROGRAMS, VALGRIND, there, words_of
from parties.in_c import SCRIPTS, compare_day, compare_script
from parties.places import ROOT, text_of, write_text
from parties.releases import made_up_verdict

import verdicts

sizes = modules.load("sizes")

DAYS = 6
# The tables of the streams of packets at random, and how many packets each has: all have 100,000 by 25000.
STREAMS = ["door", "bell", "porch", "conformance/server"]
PACKETS = os.environ.get("GIHANDOP_PACKETS", "5000")
# The programs of tests/c that end by themselves and need no thread.
ENDING = ["edges", "calls", "values", "serve", "memory"]


@pytest.fixture(scope="module")
def narrow():
    """A program for addresses of 32 bits, which does nothing on this PC."""
    missing(("gcc", "gcc"))
    with tempfile.TemporaryDirectory() as room:
        source = write_text(f"{room}/empty.c", "#include <string.h>\nint main(void) { return 0; }\n")
        if run(["gcc", "-m32", "-o", f"{room}/empty", source]).returncode:
            pytest.skip("gcc has no -m32: apt-get install gcc-multilib")
        yield f"{room}/empty"


@pytest.fixture(scope="module")
def on_pc(narrow):
    """Returns the words that run a program for addresses of 32 bits on this PC."""
    missing(("rt", "the kit of Rattle"))

    def words_of(name):
        made = archive("i386")
        words = ["gcc", "-m32", "-O1", "-g", *C_FLAGS, *sources_of(name), made, "-o"]
        return [once(f"i386.{name}", lambda path: ran([*words, path], name))]

    return words_of


@pytest.fixture(scope="module")
def under_valgrind(narrow):
    """The words before a program for addresses of 32 bits."""
    missing(("valgrind", "valgrind"))
    if run([*VALGRIND, narrow]).returncode:
        pytest.skip("valgrind lacks the C library of 32 bits: dpkg --add-architecture i386; apt-get install libc6-dbg:i386")
    return VALGRIND


@pytest.mark.long(60)
@pytest.mark.parametrize("table, keys, script", SCRIPTS, ids=[it[2] for it in SCRIPTS])
def test_script_on_a_pc(program, folder, on_pc, table, keys, script):
    """A host with addresses of 32 bits does what a script of examples/ is to print."""
    compare_script(folder, on_pc("obey"), table, keys, script)


@pytest.mark.parametrize("number", range(DAYS))
def test_day_on_a_pc(program, folder, on_pc, number):
    """It does what a day of phones at random is to bring."""
    compare_day(folder, on_pc("obey"), 100 + number)


@pytest.mark.without_program
@pytest.mark.parametrize("name", ENDING)
def test_program_on_a_pc(on_pc, name):
    """Each check of a program in C holds."""
    assert re.search(r"[1-9]\d* checks, 0 failed", ran([*on_pc(name), *PROGRAMS[name][2]]))


@pytest.mark.without_program
@pytest.mark.parametrize("name", ENDING)
def test_program_under_valgrind(on_pc, under_valgrind, name):
    """It uses no memory that is not its own, or that has no value, and loses none."""
    assert re.search(r"[1-9]\d* checks, 0 failed", ran([*under_valgrind, *on_pc(name), *PROGRAMS[name][2]]))


@pytest.mark.without_program
@pytest.mark.parametrize("name", ENDING)
@pytest.mark.parametrize("board", BOARDS)
def test_program_on_a_board(board, name):
    """Each check of a program in C holds on an emulated board."""
    need_board(board)
    assert re.search(r"[1-9]\d* checks, 0 failed", on_board(board, name, *PROGRAMS[name][2]))


def words_of_stream(table):
    """The words of the program that plays packets at random."""
    following = [NEXT] if table == "porch" else []
    return [str(STREAMS.index(table)), PACKETS, f"examples/{table}.toml", KEYS, *following]


def compare_stream(table, printed):
    """Compares each line that a stream prints with those of the library for 64 bits."""
    if not HAS_ARCHIVE or not there():
        pytest.skip(MISSING)
    wanted = ran([*words_of(there()[0], "stream"), *words_of_stream(table)]).splitlines()
    found = printed.splitlines()
    assert len(wanted) > int(PACKETS) and wanted[-1].startswith("= close 0 0")
    for number, (line, due) in enumerate(zip(found, wanted), 1):
        assert line == due, f"line {number} of {table}"
    assert len(found) == len(wanted), table


@pytest.mark.without_program
@pytest.mark.parametrize("table", STREAMS)
def test_stream_on_a_pc(on_pc, table):
    """A host with addresses of 32 bits answers packets at random, right and wrong ones, octet for octet."""
    compare_stream(table, ran([*on_pc("stream"), *words_of_stream(table)]))


@pytest.mark.without_program
@pytest.mark.parametrize("table", STREAMS)
@pytest.mark.parametrize("board", BOARDS)
def test_stream_on_a_board(board, table):
    need_board(board)
    compare_stream(table, on_board(board, "stream", *words_of_stream(table)))


@pytest.mark.without_program
@pytest.mark.parametrize("size", mcu.SIZES[1:])
@pytest.mark.parametrize("name", ["serve", "memory"])
def test_other_sizes(name, size):
    """A faster library does the same."""
    need_board("cortex-m4")
    assert re.search(r"[1-9]\d* checks, 0 failed", on_board("cortex-m4", name, *PROGRAMS[name][2], size=size))


@pytest.mark.without_program
@pytest.mark.parametrize("size", mcu.SIZES[1:])
def test_stream_of_other_sizes(size):
    need_board("cortex-m4")
    compare_stream("porch", on_board("cortex-m4", "stream", *words_of_stream("porch"), size=size))


@pytest.mark.without_program
def test_it_is_marked(on_pc):
    """The archive says that it is not proved, and tools/verdicts.py refuses it."""
    made = archive("i386")
    assert is_marked(made)
    with pytest.raises(verdicts.Refusal, match="compiled without proofs"):
        verdicts.check(mcu.CRATE, None, made, verdicts.MCU_PARTS)


@pytest.mark.without_program
@pytest.mark.parametrize("seed", range(3))
@pytest.mark.parametrize("bits", ["-m64", "-m32"])
def test_pool(folder, bits, seed):
    """The pool holds what is in its blocks, whatever is taken and given back."""
    missing(("gcc", "gcc"))
    flags = [bits, "-std=c11", "-O2", "-g", "-Wall", "-Wextra", "-Wpedantic", "-Werror", "-Imcu"]
    sanitizers = ["-fsanitize=address,undefined", "-fno-sanitize-recover=all"]
    compiled = run(["gcc", *flags, *sanitizers, "-o", f"{folder}/pool", "tests/c/pool.c", "mcu/pool.c"])
    if compiled.returncode and bits == "-m32" and "-m64" not in compiled.stdout:
        pytest.skip("gcc has no -m32: apt-get install gcc-multilib")
    assert compiled.returncode == 0, compiled.stdout
    assert re.fullmatch(r"\d+ checks, 0 failed\n", ran([f"{folder}/pool", str(seed)]))


@pytest.mark.without_program
def test_each_function_is_in_the_shell():
    """mcu/shell.c defines each function of gihandop.h, by its declaration, and calls that of the library."""
    shell, names = text_of(f"{ROOT}/mcu/shell.c"), mcu.exported()
    assert len(names) == 19
    header = re.sub(r"\s+", " ", text_of(f"{ROOT}/include/gihandop.h"))
    for name in names:
        declared = re.search(rf"uint32_t {name}\([^)]*\)", header)[0]
        assert f"{declared} {{" in re.sub(r"\s+", " ", shell), name
        assert name.replace("gh_", "gh64_", 1) in shell


# The most flash of a firmware that serves and saves, and RAM of a host of the door with 4 connections, in bytes.
LIMITS = {"without proofs": (178_000, 90_000), "-Os": (170_000, 84_000), "-Oz": (152_000, 88_000), "-O2": (240_000, 84_000)}


def compare_sizes(board, made, how):
    """Measures an archive, and compares its sizes for a Cortex-M4 with their limits."""
    it = sizes.Sizes(board, made)
    ram = it.memory[4].suffices + max(it.stack.values()) + it.flash["own"]
    if board == "cortex-m4":
        most_flash, most_ram = LIMITS[how]
        assert it.flash["firmware"] <= most_flash
        assert ram <= most_ram
    assert it.flash["least"] < it.flash["firmware"] < it.flash["archive"]
    assert list(it.memory) == [1, 2, 4, 8] and list(it.stack) == mcu.exported()
    assert all(by.taken <= by.most <= by.suffices for by in it.memory.values())
    assert it.memory[8].taken - it.memory[4].taken == 2 * (it.memory[4].taken - it.memory[2].taken)
    assert max(it.stack, key=it.stack.get) in ("gh_open", "gh_replace")
    assert 500 < it.instructions["read"] < it.instructions["group"] < it.instructions["open"]
    lines = it.tables().splitlines()
    assert [len(line) > 5 for line in lines if line.startswith("|---")] == [True] * 4
    assert f"| `gh_open` | {it.stack['gh_open']:,} |" in lines


@pytest.mark.without_program
@pytest.mark.parametrize("board", BOARDS)
def test_sizes(board):
    """Flash, RAM and stack of a firmware are measured, and have limits."""
    need_board(board)
    compare_sizes(board, archive(board), "without proofs")


@pytest.mark.without_program
def test_sizes_of_the_proved():
    """They have lower limits, if the library is proved."""
    need_board("cortex-m4")
    made = verdicts.mcu_output("cortex-m4")
    if not os.path.exists(made):
        pytest.skip(f"there is no {made}: `{verdicts.prove_words(mcu.CRATE, 'cortex-m4')}` makes it")
    compare_sizes("cortex-m4", made, re.search(r"(?m)^made-for \S+ (\S+)$", text_of(f"{made}.verdict"))[1])


@pytest.mark.without_program
def test_sizes_by_the_command():
    """tools/sizes prints the tables, with a table of its user."""
    need_board("rv32imac")
    lines = ran(["tools/sizes", "--cpu", "rv32imac", archive("rv32imac"), PORCH, KEYS]).splitlines()
    assert sum(it.startswith("|---") for it in lines) == 4
    assert "| Part (rv32imac, without proofs) | Bytes |" in lines


@pytest.mark.without_program
def test_sizes_on_this_pc():
    """What gihandop.h says of the stack holds for each function. Its size with AddressSanitizer says nothing."""
    if not HAS_ARCHIVE:
        pytest.skip(MISSING)
    if IS_INSTRUMENTED:
        with pytest.raises(modules.Failure, match="is compiled with AddressSanitizer"):
            sizes.Sizes(None, ARCHIVE)
        return
    stack = sizes.Sizes(None, ARCHIVE).stack
    assert list(stack) == mcu.exported()
    for name, octets in stack.items():
        assert octets < (40 if name in ("gh_open", "gh_explain", "gh_replace") else 4) * 1024, name


# Words of tools/sizes, its status, and what it says.
UNMEASURED = [
    ([], 64, "one archive is needed, or an archive, a table and keys"),
    (["a.a", "door.toml"], 64, "one archive is needed, or an archive, a table and keys"),
    (["--cpu", "z80", "a.a"], 64, "--cpu needs one of cortex-m4, cortex-m33, rv32imac"),
    (["--fast", "a.a"], 64, "unknown option: --fast"),
    (["there-is-none.a"], 70, f"cannot measure: [Errno 2] No such file or directory: '{ROOT}/there-is-none.a'"),
]


@pytest.mark.without_program
@pytest.mark.parametrize("words, status, text", UNMEASURED)
def test_wrong_words_of_sizes(words, status, text):
    ended = run(["tools/sizes", *words])
    assert (ended.returncode, ended.stdout.splitlines()[0]) == (status, f"tools/sizes: {text}")


# Words of the command, and what it says.
WRONG = [
    ([], "one file to write is needed"),
    (["a.a", "b.a"], "one file to write is needed"),
    (["--cpu"], "--cpu needs one of cortex-m4, cortex-m33, rv32imac"),
    (["--cpu", "z80", "a.a"], "--cpu needs one of cortex-m4, cortex-m33, rv32imac"),
    (["-O3", "a.a"], "unknown option: -O3"),
    (["--unproven", "a.a"], "unknown option: --unproven"),
]


@pytest.mark.without_program
@pytest.mark.parametrize("words, text", WRONG)
def test_wrong_words(words, text):
    ended = run(["tools/mcu", *words])
    assert (ended.returncode, ended.stdout.splitlines()[0]) == (64, f"tools/mcu: {text}")


@pytest.mark.without_program
def test_the_help():
    ended = run(["tools/mcu", "--help"])
    assert ended.returncode == 0
    assert all(it in ended.stdout for it in mcu.PROCESSORS) and "i386" not in ended.stdout


@pytest.mark.without_program
@pytest.mark.parametrize("name, package", [("cortex-m4", "gcc-arm-none-eabi"), ("rv32imac", "gcc-riscv64-unknown-elf")])
def test_a_missing_compiler(folder, name, package):
    """Without the C compiler of the processor it says which package has it."""
    words = [sys.executable, "-B", "tools/mcu", "--unproved", "--cpu", name, f"{folder}/a.a"]
    ended = run(words, env={"PATH": folder})
    assert ended.returncode == 69
    assert f"is missing: apt-get install {package}" in ended.stdout
    assert not os.path.exists(f"{folder}/a.a")


def stand_in():
    """A module with the functions of the library, which do nothing, and the words of a prover."""
    functions = "".join(f"define i32 @{it}() #0 {{\nstart:\n  ret i32 0\n}}\n" for it in mcu.exported())
    return f'target datalayout = "e"\ntarget triple = "x"\n{functions}attributes #0 = {{ nounwind }}\n', made_up_verdict()


@pytest.mark.without_program
def test_a_proved_one_has_a_note(on_pc, folder, monkeypatch):
    """Beside a proved archive is a note of all that it was made from, which another archive does not have."""
    monkeypatch.setattr(mcu, "take", lambda *_: stand_in())
    made = f"{folder}/proved.a"
    mcu.make("i386", "-Os", True, made)
    check = lambda: verdicts.check(mcu.CRATE, None, made, verdicts.MCU_PARTS)
    assert check()[0] == f"sha256 {verdicts.sum_of(made)}"
    assert not is_marked(made)
    note = text_of(f"{made}.verdict")
    assert "\nmade-for i386 -Os\n" in note
    write_text(f"{made}.verdict", note.replace("sources ", "sources 0", 1))
    with pytest.raises(verdicts.Refusal, match="are not those that were proved"):
        check()
    write_text(f"{made}.verdict", note)
    with open(made, "ab") as file:
        file.write(b"\n")
    with pytest.raises(verdicts.Refusal, match="is not the file that was proved"):
        check()
    mcu.make("i386", "-Os", False, f"{folder}/other.a")
    assert not os.path.exists(f"{folder}/other.a.verdict")


@pytest.mark.without_program
def test_a_module_without_a_function():
    """A module of another library is refused."""
    text = stand_in()[0].replace("@gh_tick(", "@gh_tock(")
    with pytest.raises(modules.Failure, match="the module has no function gh_tick"):
        mcu.module_for(mcu.TESTED["cortex-m4"], text)


@pytest.mark.without_program
def test_another_line(monkeypatch, folder, capsys, on_pc):
    """A line that the rewriting does not know ends the tool, and nothing is written."""
    text = stand_in()[0].replace("  ret i32 0\n", "  fence seq_cst\n  ret i32 0\n", 1)
    monkeypatch.setattr(mcu, "take", lambda *_: (text, ""))
    assert mcu.main(["--unproved", "--cpu", "i386", f"{folder}/a.a"]) == 70
    assert "line 5 of the module has a form that is not known here: fence seq_cst" in capsys.readouterr().err
    assert os.listdir(folder) == []
