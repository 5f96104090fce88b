"""Emulated boards with the processors of tools/mcu, for its tests and for tools/sizes.

A program for a board has its input, its output and the words of its command by semihosting, from the C library.
Nothing here runs on a real board.
"""

import os

ROOT = os.path.dirname(os.path.dirname(os.path.realpath(__file__)))


def places(**symbols):
    """The option by which a linker script gets numbers."""
    return "-Wl," + ",".join(f"--defsym={name}={value}" for name, value in symbols.items())


class Board:
    """An emulated board: the emulator with its package, its name there, and what a program is compiled with."""

    def __init__(self, emulator, package, name, bare, flags, tick=0, options=(), tells_name=True):
        self.emulator, self.package, self.name, self.options = emulator, package, name, [*options]
        # The flags of a program that begins by itself, and of one that the C library starts.
        self.bare, self.flags = bare, flags
        # The nanoseconds after which its timer counts one.
        self.tick = tick
        # If not, its C library puts a name of its own before the words of the command.
        self.tells_name = tells_name

    def words(self, program, name, words, *options):
        """Returns the command that runs a program, with words after its name."""
        told = ",".join(f"arg={it}" for it in ([name] if self.tells_name else []) + [*words])
        command = [self.emulator, "-M", self.name, *self.options, *options, "-display", "none", "-monitor", "none"]
        return [*command, "-serial", "none", "-semihosting-config", f"enable=on,target=native,{told}", "-kernel", program]


# A program and the archive have a section for each function, and the linker leaves out what nothing calls.
LEAN = ["-ffunction-sections", "-Wl,--gc-sections", "-Wl,--no-warn-rwx-segments"]
BARE_ARM = ["--specs=nosys.specs"]
ARM = ["--specs=rdimon.specs", "-T", f"{ROOT}/tests/c/board.ld", f"{ROOT}/tests/c/board.c"]
BARE_RISCV = [places(__flash="0x80000000", __flash_size="4M", __ram="0x80400000", __ram_size="4M", __stack_size="512K")]
BOARDS = {
    "cortex-m4": Board("qemu-system-arm", "qemu-system-arm", "mps2-an386", BARE_ARM, ARM, 40),
    "cortex-m33": Board(
        "qemu-system-arm", "qemu-system-arm", "mps2-an505", BARE_ARM, [*ARM, places(BOARD_CODE="0x10000000", BOARD_DATA="0x38000000")], 50,
    ),
    "rv32imac": Board(
        "qemu-system-riscv32", "qemu-system-misc", "virt", BARE_RISCV, ["--oslib=semihost", "--crt0=semihost", *BARE_RISCV],
        options=["-bios", "none"], tells_name=False,
    ),
}
