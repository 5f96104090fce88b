"""The library of tools/mcu without proofs, and the programs of tests/c with it on emulated boards.

The kit makes the LLVM module once, unless GIHANDOP_MODULE has the path of one that tools/modules.py has read. The
programs know nothing of the pool: tests/c/pool_room.c gives it its memory.
"""

import os
import shutil
import sys
import tempfile

import pytest

from parties.building import once, ran
from parties.compiling import PROGRAMS
from parties.places import ROOT, text_of, write_text

sys.path.insert(0, f"{ROOT}/tools")
import modules  # noqa: E402
from boards import BOARDS, LEAN  # noqa: E402

mcu = modules.load("mcu")
C_FLAGS = ["-std=c11", "-Wall", "-Wextra", "-Werror", "-Iinclude", "-Itests/c", "-Imcu"]


def missing(*commands):
    """Skips a test for the first command that is missing, with its package."""
    for command, package in commands:
        if shutil.which(command) is None:
            pytest.skip(f"there is no {command}: apt-get install {package}")


def module():
    """The text of the module of gihandop_c, without proofs."""

    def make(path):
        with tempfile.TemporaryDirectory() as room:
            text, _ = modules.take(mcu.CRATE, modules.load("unproved").HOLDER, room, False)
        write_text(path, text)

    if path := os.environ.get("GIHANDOP_MODULE"):
        return text_of(path)
    missing(("rt", "the kit of Rattle"))
    return text_of(once("module.ll", make))


def archive(name, size=mcu.SIZES[0]):
    """The path of the archive for a processor."""

    def make(path):
        processor = mcu.TESTED[name]
        with tempfile.TemporaryDirectory() as room:
            mcu.compile_for(processor, size, mcu.module_for(processor, module()), False, room, f"{room}/made.a")
            shutil.copyfile(f"{room}/made.a", path)

    return once(f"{name}{size}.a", make)


# What the linker calls by other names, for a program that refuses memory over the pool.
OVER_POOL = ["-DOVER_POOL", "-Wl,--wrap=gh_pool_take,--wrap=gh_pool_resize,--wrap=gh_pool_give_back"]


def sources_of(name):
    """The sources of a program, and its flags."""
    return [*PROGRAMS[name][0], "tests/c/pool_room.c", *(OVER_POOL if name == "memory" else [])]


def need_board(name):
    """Skips a test if a board cannot be emulated here."""
    processor, board = mcu.PROCESSORS[name], BOARDS[name]
    missing((processor.compiler, processor.packages), (board.emulator, board.package), ("rt", "the kit of Rattle"))


def program_for(name, program, size=mcu.SIZES[0]):
    """The path of a program of tests/c for a board."""
    processor, board, made = mcu.PROCESSORS[name], BOARDS[name], archive(name, size)
    words = [processor.compiler, *processor.own, "-O1", *C_FLAGS, *LEAN, *board.flags, *sources_of(program), made, "-o"]
    return once(f"{name}{size}.{program}", lambda path: ran([*words, path], program))


def on_board(name, program, *words, size=mcu.SIZES[0]):
    """Has a board run a program with words, and returns what it prints."""
    board, path = BOARDS[name], program_for(name, program, size)
    return ran(board.words(path, program, words), f"{program} on {board.name}", timeout=300)
