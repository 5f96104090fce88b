"""Tries the firmware of mcu/firmware/ on emulated boards, and as a process of this PC with sanitizers.

The library is made without proofs, as in test_mcu.py. Nothing here runs on a real board.
"""

import functools
import os
import re
import select
import subprocess
import tempfile
import time

import pytest

from parties import KEY, OWNER, Controller, Device
from parties.boards import archive, mcu, missing
from parties.building import once, ran, run
from parties.firmware import COUNTS, EMULATOR, Board, Firmware, OnPc, lay_flash
from parties.in_c import SCRIPTS, files
from parties.places import PATIENCE, PROGRAM, ROOT, text_of, write_text
from parties.played import CALLS, Played

STATE, CONFIGURATION, NOTE = "0a00", "0b00", "1500"
# The library without proofs needs 18 KB of stack while it opens.
SMALL_STACK = 8_192
# Pools that are too small, and the status: for the table (GH_TABLE_OUT_OF_MEMORY) and for the host (GH_OUT_OF_MEMORY).
SMALL_POOLS = {16_384: 110, 40_960: 6}
# In bytes: most flash, and most RAM with the stacks and the pool, for 4 connections. A proved library takes less.
MOST_FLASH, MOST_RAM = 190_000, 110_000
# The most stack that it takes while it serves.
MOST_STACK = 4_096


def need(cpu):
    """Skips a test if something is missing that makes the library and the firmware for a processor."""
    processor = mcu.PROCESSORS[cpu]
    missing((processor.compiler, processor.packages), (EMULATOR, EMULATOR), ("make", "make"), ("rt", "the kit of Rattle"))


@pytest.fixture(params=Firmware.BOARDS)
def cpu(request):
    """A processor."""
    need(request.param)
    return request.param


def made(cpu, name="lock", **variables):
    return Firmware(cpu, archive(cpu), name, **variables)


@pytest.fixture(params=[*Firmware.BOARDS, OnPc.cpu])
def make(request):
    """Makes the firmware with variables: for a processor, or for this PC, on which it is compiled with sanitizers."""
    if request.param != OnPc.cpu:
        need(request.param)
        return functools.partial(made, request.param)
    missing(("gcc", "gcc"), ("rt", "the kit of Rattle"))
    with tempfile.TemporaryDirectory() as room:
        empty = write_text(f"{room}/empty.c", "int main(void) { return 0; }\n")
        if run(["gcc", "-m32", "-fsanitize=address", "-o", f"{room}/empty", empty]).returncode:
            pytest.skip("gcc has no -m32: apt-get install gcc-multilib")
    return functools.partial(OnPc, archive(OnPc.cpu))


@pytest.fixture
def firmware(make):
    """The firmware of examples/door.toml."""
    return make()


@pytest.fixture
def flash(folder):
    """The path of a flash that nobody has erased yet."""
    lay_flash(f"{folder}/flash")
    return f"{folder}/flash"


class Visit(Controller):
    """A board, whose controller has the owner's client."""

    def __init__(self, firmware, flash):
        self.board = Board(firmware, flash)
        super().__init__(self.board.line)

    def advertised(self):
        """Waits until the host is initialised. Returns false if the board stops before."""
        self.until(lambda: self.command_count(0x200A) or self.board.is_stopped)
        return bool(self.command_count(0x200A))

    def command_count(self, opcode):
        return len([it for it in self.commands if it[0] == opcode])

    def come(self):
        """The owner connects, with the key. Returns false if the board stops."""
        self.connect(64, OWNER)
        random_number, diversifier, _ = KEY
        self.event(0x3E, b"\5\x40\0" + random_number + diversifier.to_bytes(2, "little"))
        self.until(lambda: self.command_count(0x201A) or self.board.is_stopped)
        if self.command_count(0x201A):
            self.event(0x08, b"\0\x40\0\1")
        return bool(self.command_count(0x201A))

    def answer(self, pdu):
        """What the owner's client hears after it has said something, or None if the board stops before."""
        self.say(64, pdu)
        self.until(lambda: self.heard or self.board.is_stopped)
        # What was sent before it stopped counts.
        self.until(lambda: self.heard, 0)
        return self.heard.pop(0)[1] if self.heard else None


def begun(firmware, flash):
    """A board whose host serves, and the owner's client."""
    visit = Visit(firmware, flash)
    assert visit.advertised() and visit.come(), visit.board.text
    return visit


# Scripts, with the firmware.


@pytest.mark.parametrize("table, keys, script", SCRIPTS, ids=[it[2] for it in SCRIPTS])
def test_script(program, folder, flash, make, table, keys, script):
    """By H4 the firmware does what `gatt_shell run` prints. It has no application: its lines are left out."""
    paths, _ = files(table, keys, script)
    firmware = make(f"{table}.{keys}".replace("/", "."), TABLE=paths[0], KEYS=paths[1])
    lines = [it for it in text_of(paths[2]).splitlines() if it.split(" ")[0] not in CALLS]
    paths[2] = write_text(f"{folder}/script", "".join(f"{it}\n" for it in lines))
    due = subprocess.run([PROGRAM, "run", *paths], capture_output=True, text=True, check=True).stdout.splitlines()
    board = Board(firmware, flash)
    board.says(r"accepted 0, .*\n")
    board.settle()
    assert Played(board, "\n".join(lines)).printed == due and due
    assert board.counts()["stack"] < MOST_STACK
    board.close()


def started(words, bolt):
    """Starts the emulator as a user does, and returns it with the path of its line."""
    pipes = {"stdin": subprocess.PIPE, "stdout": subprocess.PIPE, "stderr": subprocess.STDOUT, "text": True}
    emulator = subprocess.Popen(words, cwd=ROOT, **pipes)
    Device.started.append(emulator)
    line = re.search(r"/dev/pts/\d+", emulator.stdout.readline())[0]
    due = [r"gihandop [\d.]+ \(not proved\)\n", f"bolt: {bolt}\n", r"accepted 0, sent 0, saved 0, stack \d+ .*\n"]
    for it in due:
        assert re.fullmatch(it, emulator.stdout.readline())
    return emulator, line


def ended(emulator):
    emulator.terminate()
    emulator.wait()
    emulator.stdin.close()
    emulator.stdout.close()


@pytest.mark.without_program
@pytest.mark.long(10)
def test_client_on_a_serial_line(folder, cpu):
    """As docs/MICROCONTROLLERS.md says, a client on a pseudo-terminal opens the bolt. It is open after a restart."""
    words = [*made(cpu, "patient", PATIENCE=3000).words, "run", f"SAVED={folder}/saved"]
    emulator, line = started(words, "shut")
    printed = ran(["examples/device/phones.py", line, "examples/bonded.script"], timeout=2 * PATIENCE)
    assert [it for it in printed.splitlines() if it.startswith("Q ")] == [
        "Q > 01120a000f", "Q > 13", "Q > 0b01", "Q > 010a0d0008", "Q > 010a0d0008", "Q ended 05",
    ]
    assert emulator.stdout.readline() == "bolt: open\n"
    emulator.stdin.write("?")
    emulator.stdin.flush()
    assert re.match(r"accepted [1-9]\d*, sent [1-9]\d*, saved 2, ", emulator.stdout.readline())
    ended(emulator)
    ended(started(words, "open")[0])


# Saving.


@pytest.mark.without_program
@pytest.mark.long(10)
@pytest.mark.parametrize("sector, unit", [(4096, 4), (4096, 8), (8192, 32)])
def test_saving_on_a_pc(sector, unit):
    """The power is cut at each write of a flash with sectors and units of a size. What was saved is there."""
    missing(("gcc", "gcc"))
    words = ["gcc", "-std=c11", "-O2", "-g", "-Wall", "-Wextra", "-Wpedantic", "-Wconversion", "-Werror", "-Imcu/firmware"]
    words += [f"-DFLASH_SECTOR_SIZE={sector}", f"-DFLASH_UNIT={unit}", "-fsanitize=address,undefined"]
    words += ["-fno-sanitize-recover=all", "tests/c/flash.c", "mcu/firmware/store.c", "mcu/firmware/emulated_flash.c", "-o"]
    program = once(f"flash.{sector}.{unit}", lambda path: ran([*words, path], "flash"))
    assert re.fullmatch(r"\d{4,} cuts, \d{5,} checks, 0 failed\n", ran([program, str(unit)]))


@pytest.mark.without_program
def test_it_is_saved(firmware, flash):
    """What a client writes and configures is there after the power has failed, and so is the bolt."""
    visit = begun(firmware, flash)
    visit.board.says("bolt: shut\n")
    assert not visit.board.is_bolt_open()
    assert [visit.answer(it) for it in (f"12{STATE}01", f"12{NOTE}4869", f"12{CONFIGURATION}0100")] == ["13"] * 3
    visit.board.says("bolt: open\n")
    assert visit.board.is_bolt_open()
    visit.board.close()
    visit = begun(firmware, flash)
    visit.board.says("bolt: open\n")
    assert visit.board.is_bolt_open()
    assert [visit.answer(f"0a{it}") for it in (STATE, NOTE, CONFIGURATION)] == ["0b01", "0b4869", "0b0100"]
    visit.board.close()


class Model:
    """The values that a client has to find: those that were acknowledged, or one that was being written."""

    def __init__(self):
        self.values = {STATE: "00", NOTE: "", CONFIGURATION: "0000"}
        self.pending = {}
        # The bolt has turned since the client began to write.
        self.is_turned = False

    def look(self, visit):
        """The client reads all values. Returns false if the board stops before."""
        for handle, value in self.values.items():
            found = visit.answer(f"0a{handle}")
            if found is None:
                return False
            assert found in (f"0b{value}", f"0b{self.pending.get(handle, value)}"), f"{handle}: {found}, {self.__dict__}"
            assert handle != STATE or found != f"0b{value}" or not self.is_turned, "it turned before it was saved"
            self.values[handle] = found[2:]
            self.pending.pop(handle, None)
            self.is_turned = self.is_turned and handle != STATE
        return True

    def write(self, visit, handle, value):
        """The client writes a value. Returns false if the board stops before it answers."""
        self.pending, said = {handle: value}, len(visit.board.text)
        if (found := visit.answer(f"12{handle}{value}")) is None:
            self.is_turned = "bolt: " in visit.board.text[said:]
            return False
        assert found == "13"
        self.values[handle] = value
        self.pending = {}
        return True


@pytest.mark.without_program
@pytest.mark.long(15)
@pytest.mark.parametrize("cut", range(3), ids=["before", "inside", "behind"])
def test_cuts_of_power(firmware, flash, cut):
    """The power is cut at each write and erase of the board's flash. What was acknowledged is there at the next start."""
    # The Cortex-M33 runs the same code: there only each third one is tried.
    step = 3 if firmware.cpu == "cortex-m33" else 1
    model, number, cuts = Model(), 1, 0
    while True:
        lay_flash(flash, cut_at=number, cut=cut, seed=number)
        visit = Visit(firmware, flash)
        assert visit.advertised(), "nothing is saved before a client connects"
        is_there = visit.come() and model.look(visit) and all(
            model.write(visit, handle, value)
            for handle, value in (
                (STATE, "00" if model.values[STATE] == "01" else "01"), (NOTE, f"{number:04x}" * 9),
                (CONFIGURATION, "0000" if model.values[CONFIGURATION] == "0100" else "0100"),
            )
        )
        if not is_there:
            assert visit.board.says(r"stopped: (.*)\n")[1] == "the power is cut"
            assert not visit.board.is_bolt_open()
            cuts += 1
        visit.board.close()
        if is_there:
            break
        number += step
    assert cuts >= 36 // step


@pytest.mark.without_program
def test_a_fault_of_the_flash(firmware, flash):
    """A client whose change cannot be saved is not answered. Afterwards the change is saved."""
    visit = Visit(firmware, flash)
    assert visit.advertised() and visit.come()
    assert visit.answer(f"12{STATE}01") == "13"
    lay_flash(flash, fault_at=1)
    visit.say(64, f"12{STATE}00")
    visit.board.says("a change cannot be saved\n")
    assert visit.command(0x0406) == "400013", "it is disconnected"
    assert visit.heard == []
    visit.board.says("bolt: shut\n")
    visit.board.close()
    visit = begun(firmware, flash)
    assert visit.answer(f"0a{STATE}") == "0b00"
    visit.board.close()


# What goes wrong.


def places_of(firmware):
    """The address of each symbol."""
    return {name: int(it, 16) for it, name in re.findall(r"(?m)^(\w+) \w (\w+)$", ran(["arm-none-eabi-nm", firmware.path]))}


@pytest.mark.without_program
def test_a_full_stack(flash, cpu):
    """A store beyond the stack is refused, the handler has a stack of its own, and the bolt is shut."""
    firmware = made(cpu, "stack", STACK=SMALL_STACK)
    board = Board(firmware, flash)
    assert board.says(r"stopped: (.*)\n")[1] == "the stack is full"
    assert not board.is_bolt_open()
    places = places_of(firmware)
    assert places["stack_high"] < board.stack_pointer() <= places["handler_stack_high"]
    board.close()


@pytest.mark.without_program
@pytest.mark.parametrize("cpu", ["cortex-m4"], indirect=True)
def test_no_guard(cpu, flash):
    """A Cortex-M4 without a memory protection unit does not start."""
    board = Board(made(cpu), flash, more=["-global", "arm-cpu.pmsav7-dregion=0"])
    board.says("^stopped: this processor has no memory protection unit to guard the stack\n")
    board.close()


# Instructions of Thumb, and what the console says. The main program loads from an address that has nothing.
FAULTS = {
    "trap": ("00de", "a trap: an unproved library has found a fault of its own, or this is no instruction"),
    "bus": ("4ff0e0400068", "a fault of the processor: CFSR 00008200"),
}


@pytest.mark.without_program
@pytest.mark.parametrize("code, text", FAULTS.values(), ids=FAULTS)
def test_a_fault_of_the_processor(cpu, flash, code, text):
    """A trap and a fault stop the firmware, which says so. The bolt was open, and is shut."""
    firmware = made(cpu)
    visit = begun(firmware, flash)
    assert visit.answer(f"12{STATE}01") == "13"
    visit.board.close()
    board = Board(firmware, flash, is_debugged=True)
    board.says("bolt: open\n")
    board.says(COUNTS)
    board.change_code(places_of(firmware)["board_sleep"] & ~1, bytes.fromhex(code))
    assert board.says(r"stopped: (.*)\n")[1] == text
    assert not board.is_bolt_open()
    board.close()


@pytest.mark.without_program
@pytest.mark.parametrize("pool", SMALL_POOLS)
def test_refused_memory(flash, make, pool):
    """If the pool is too small, the host does not open, and the firmware says so."""
    board = Board(make(f"pool.{pool}", POOL=pool), flash)
    board.says(f"gh_open returns the status {SMALL_POOLS[pool]}\nstopped: the host cannot be opened\n")
    board.close()


@pytest.mark.without_program
def test_a_controller_out_of_step(firmware, flash):
    """An octet that begins no packet stops the host. It opens again, with what is saved."""
    visit = begun(firmware, flash)
    assert visit.answer(f"12{STATE}01") == "13"
    visit.send(b"\xff" + b"\1" * 700)
    visit.board.says("the host stops with the status 21\n")
    visit.commands.clear()
    assert visit.advertised() and visit.come()
    assert visit.answer(f"0a{STATE}") == "0b01"
    assert "the host stops" not in visit.board.text, "it waits until what came with that octet is over"
    visit.board.close()


@pytest.mark.without_program
def test_a_silent_controller(flash, make):
    """If the controller does not respond to Reset, the firmware sends it again."""
    visit = Visit(make("impatient", PATIENCE=50), flash)
    visit.take = lambda packet: visit.commands.append((int.from_bytes(packet[1:3], "little"), packet[4:]))
    assert visit.until(lambda: visit.command_count(0x0C03) >= 3)
    visit.board.close()


@pytest.mark.without_program
@pytest.mark.parametrize("requests, pause", [(1_000, 0), (150, 0.001)], ids=["at-once", "by-octets"])
def test_a_full_line(firmware, flash, requests, pause):
    """While the controller reads nothing, the firmware accepts nothing. No octet is lost, and it goes on."""
    visit, answers = begun(firmware, flash), []
    read, completed = bytes.fromhex("0240200700030004000a0300"), bytes.fromhex("0413050140000100")
    visit.take = lambda packet: answers.append(packet[9:].hex())
    if pause:
        # Each has its own interrupt, also the first that finds the ring full. The controller reads once it cannot send.
        for octet in (read + completed) * requests:
            end = time.monotonic() + PATIENCE
            while not select.select([], [visit.stream], [], 0.2)[1]:
                visit.until(lambda: False, 0.1)
                assert time.monotonic() < end, "the firmware does not go on"
            visit.send(bytes([octet]))
            time.sleep(pause)
    else:
        visit.send((read + completed) * requests)
    assert visit.until(lambda: len(answers) == requests)
    assert answers == ["0b4c6f636b"] * requests
    visit.board.close()


@pytest.mark.without_program
def test_sizes(cpu):
    """The firmware takes no more flash and RAM than the page says."""
    said = ran(["arm-none-eabi-size", made(cpu).path]).splitlines()[1].split()
    text, data, rest = (int(it) for it in said[:3])
    assert text + data <= MOST_FLASH
    assert data + rest <= MOST_RAM


# Words of the Makefile, and what it says.
WRONG = {
    "no-compiler": (["CC=gone-gcc"], "gone-gcc is missing: apt-get install gcc-arm-none-eabi libnewlib-arm-none-eabi"),
    "no-library": (["LIBRARY=/gone.a"], "/gone.a is missing: tools/mcu --unproved --cpu CPU -Os /gone.a"),
    "no-emulator": (["run", "EMULATOR=gone-qemu"], "gone-qemu is missing: apt-get install qemu-system-arm"),
}


@pytest.mark.without_program
@pytest.mark.parametrize("words, text", WRONG.values(), ids=WRONG)
def test_what_is_missing(cpu, folder, words, text):
    """The Makefile says what is missing."""
    firmware = made(cpu)
    out = [] if "run" in words else [f"OUT={folder}"]
    ended = run([*firmware.words, *out, *words])
    assert ended.returncode == 2
    assert text.replace("CPU", firmware.cpu) in ended.stdout


@pytest.mark.without_program
def test_another_variable(cpu):
    """The Makefile makes the firmware again if a variable has changed, and only then."""
    firmware = made(cpu, "again")
    time_of = lambda: os.stat(firmware.path).st_mtime_ns
    before = time_of()
    ran(firmware.words)
    assert time_of() == before
    ran([*firmware.words, "STACK=20000"])
    assert time_of() != before
