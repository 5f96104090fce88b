"""Tries `gatt_shell words`: what it says of each ATT PDU, and that it changes no other byte. `att --words` and
`run --words` have to print what `words` makes of their output.

The names of PDUs and of error codes are those of the Core Specification, Vol 3 Part F, 3.4, and of its
Supplement, Part B, 1.2.
"""

import contextlib
import glob
import os
import re
import subprocess
import threading

import pytest

from documents import ROOT

DOOR = f"{ROOT}/examples/door.toml"
KEYS = f"{ROOT}/examples/keys.toml"
PORCH, PORCH_NEXT = f"{ROOT}/examples/porch.toml", f"{ROOT}/examples/porch_next.toml"
OWN = "efcdab8967452301f0debc9a78563412"
# PDUs with their words, by opcode.
PDUS = [
    ("01120a000f", "Error Response: Write Request of handle 10, Insufficient Encryption"),
    ("0102000006", "Error Response: Exchange MTU Request of handle 0, Request Not Supported"),
    ("0177000006", "Error Response: unknown opcode 77 of handle 0, Request Not Supported"),
    ("02f700", "Exchange MTU Request: Client Rx MTU 247"),
    ("031700", "Exchange MTU Response: Server Rx MTU 23"),
    ("040100ffff", "Find Information Request: handles 1 to 65535"),
    ("050107000229", "Find Information Response: handle 7 of type 2902 (Client Characteristic Configuration)"),
    (
        "05010100002802000328",
        "Find Information Response: handle 1 of type 2800 (Primary Service); handle 2 of type 2803 (Characteristic)",
    ),
    (
        f"05020a00{OWN}",
        "Find Information Response: handle 10 of type 12345678-9abc-def0-0123-456789abcdef",
    ),
    ("060100ffff00280f18", "Find By Type Value Request: handles 1 to 65535, 2800 (Primary Service), 0f18"),
    ("060100ffff0028", "Find By Type Value Request: handles 1 to 65535, 2800 (Primary Service), no octets"),
    ("0704000700", "Find By Type Value Response: handles 4 to 7"),
    ("07040007000a00ffff", "Find By Type Value Response: handles 4 to 7; handles 10 to 65535"),
    ("08010003000328", "Read By Type Request: handles 1 to 3, 2803 (Characteristic)"),
    ("080100ffff0128", "Read By Type Request: handles 1 to 65535, 2801 (Secondary Service)"),
    ("080100fffff1ff", "Read By Type Request: handles 1 to 65535, fff1"),
    (
        f"080100ffff{OWN}",
        "Read By Type Request: handles 1 to 65535, 12345678-9abc-def0-0123-456789abcdef",
    ),
    ("09070200020300002a", "Read By Type Response: handle 2, 020300002a"),
    ("0902030004 00".replace(" ", ""), "Read By Type Response: handle 3, no octets; handle 4, no octets"),
    ("090b0300" + "61" * 9, "Read By Type Response: handle 3, 9 octets"),
    ("0a0300", "Read Request: handle 3"),
    ("0b4c6f636b", "Read Response: 4c6f636b"),
    ("0b", "Read Response: no octets"),
    ("0b0102030405060708", "Read Response: 0102030405060708"),
    ("0b010203040506070809", "Read Response: 9 octets"),
    ("0c03001600", "Read Blob Request: handle 3, offset 22"),
    ("0d6f", "Read Blob Response: 6f"),
    ("0e03000600", "Read Multiple Request: handles 3, 6"),
    ("0e" + "0100" * 10, "Read Multiple Request: handles 1, 1, 1, 1, 1, 1, 1, 1 and 2 more"),
    ("0f4c6f636b64", "Read Multiple Response: 4c6f636b64"),
    ("100100ffff0028", "Read By Group Type Request: handles 1 to 65535, 2800 (Primary Service)"),
    (
        "1106010003000018040007000f180800ffffe0ff",
        "Read By Group Type Response: handles 1 to 3, 1800 (Generic Access); handles 4 to 7, 180f (Battery); "
        "handles 8 to 65535, ffe0",
    ),
    (
        f"111420002200{OWN}",
        "Read By Group Type Response: handles 32 to 34, 12345678-9abc-def0-0123-456789abcdef",
    ),
    ("1107010003000a0b0c", "Read By Group Type Response: handles 1 to 3, 0a0b0c"),
    ("120a0001", "Write Request: handle 10, 01"),
    ("120a00", "Write Request: handle 10, no octets"),
    ("13", "Write Response"),
    ("161500020068690a", "Prepare Write Request: handle 21, offset 2, 68690a"),
    ("171500020068690a", "Prepare Write Response: handle 21, offset 2, 68690a"),
    ("1800", "Execute Write Request: cancel all prepared writes"),
    ("1801", "Execute Write Request: write all prepared values"),
    ("19", "Execute Write Response"),
    ("1b060041", "Handle Value Notification: handle 6, 41"),
    ("1d03000100ffff", "Handle Value Indication: handle 3, 0100ffff"),
    ("1e", "Handle Value Confirmation"),
    ("52150001", "Write Command: handle 21, 01"),
    ("d2150001" + "00" * 12, "Signed Write Command: handle 21, 01, signature of 12 octets"),
]
NAMES = {
    0x01: "Error Response", 0x02: "Exchange MTU Request", 0x03: "Exchange MTU Response",
    0x04: "Find Information Request", 0x05: "Find Information Response", 0x06: "Find By Type Value Request",
    0x07: "Find By Type Value Response", 0x08: "Read By Type Request", 0x09: "Read By Type Response",
    0x0A: "Read Request", 0x0B: "Read Response", 0x0C: "Read Blob Request", 0x0D: "Read Blob Response",
    0x0E: "Read Multiple Request", 0x0F: "Read Multiple Response", 0x10: "Read By Group Type Request",
    0x11: "Read By Group Type Response", 0x12: "Write Request", 0x13: "Write Response",
    0x16: "Prepare Write Request", 0x17: "Prepare Write Response", 0x18: "Execute Write Request",
    0x19: "Execute Write Response", 0x1B: "Handle Value Notification", 0x1D: "Handle Value Indication",
    0x1E: "Handle Value Confirmation", 0x52: "Write Command", 0xD2: "Signed Write Command",
}
ERRORS = {
    0x01: "Invalid Handle", 0x02: "Read Not Permitted", 0x03: "Write Not Permitted", 0x04: "Invalid PDU",
    0x05: "Insufficient Authentication", 0x06: "Request Not Supported", 0x07: "Invalid Offset",
    0x08: "Insufficient Authorization", 0x09: "Prepare Queue Full", 0x0A: "Attribute Not Found",
    0x0B: "Attribute Not Long", 0x0C: "Insufficient Encryption Key Size", 0x0D: "Invalid Attribute Value Length",
    0x0E: "Unlikely Error", 0x0F: "Insufficient Encryption", 0x10: "Unsupported Group Type",
    0x11: "Insufficient Resources", 0x12: "Database Out Of Sync", 0x13: "Value Not Allowed",
    0xFC: "Write Request Rejected",
    0xFD: "Client Characteristic Configuration Descriptor Improperly Configured",
    0xFE: "Procedure Already in Progress", 0xFF: "Out of Range",
}
# PDUs whose octets are too few, too many or of no format.
MALFORMED = [
    "01", "01120a00", "01120a000f00", "02", "02f7", "02f70000", "03", "03f7", "03f70000", "04", "04010003", "0401000300ff",
    "05", "0501", "0502", "05010100", "0501010000280200", "050301000028", "0502" + "00" * 17, "06", "060100ffff00",
    "07", "07040007", "070400070008", "08", "080100ffff", "080100ffff00", "080100ffff000000", "080100ffff" + "00" * 15,
    "09", "0902", "09010100", "0900", "09070200020300", "0a", "0a03", "0a030000", "0c", "0c0300", "0c0300160000", "0e",
    "0e0300", "0e03000600ff", "10", "100100ffff", "100100ffff0028ff", "11", "1104", "110301000300", "1106010003000018ff",
    "12", "120a", "1300", "16", "16150002", "17", "17150002", "18", "1802", "180100", "1900", "1b", "1b06", "1d", "1d03",
    "1e00", "52", "5215", "d2", "d21500", "d21500" + "00" * 11,
]
# Lines that are no PDU in a form that the program prints.
OTHERS = [
    "", " ", "-", "0", "0a030", "0a03zz", " 0a0300", "0a0300 ", "0a 03 00", "0x0a0300", "0a0300\r", "Q > 0a0300\r",
    "Q > ", "Q >", "Q", "Q  > 0a0300", "Q >  0a0300", "Q = 0a0300", "Q >5 010902000000", "Q <6 01030001100000",
    "Q_ > 0a0300", "ninechars > 0a0300", "> 0a0300", " > 0a0300", "Q ended 05", "Q refused 1", "fault 2", "Q > 0a03 00",
    "+ written 64 10 01", "+ connected 64 1 c0:00:00:00:00:01", "2026-11-30T10:00:00.000Z + written 1 10 1",
    "# Q > 0a0300", "Q > 0a0300  Read Request: handle 3",
]


def worded(program, text, *words):
    """Returns what the command prints for an input, which it takes without a fault."""
    octets = text if isinstance(text, bytes) else text.encode()
    ran = subprocess.run([program, "words", *words], input=octets, capture_output=True, timeout=60)
    assert (ran.returncode, ran.stderr) == (0, b""), words
    return ran.stdout if isinstance(text, bytes) else ran.stdout.decode()


@contextlib.contextmanager
def started(*words, **how):
    """Starts a program with pipes, and kills it if it still runs after a minute."""
    with subprocess.Popen(words, stdin=subprocess.PIPE, stdout=subprocess.PIPE, **how) as it:
        timer = threading.Timer(60, it.kill)
        timer.start()
        try:
            yield it
        finally:
            timer.cancel()


def words_of(program, lines, *words):
    """Returns the words of each line, after checking that nothing else has changed."""
    found = worded(program, "".join(f"{it}\n" for it in lines), *words).split("\n")
    assert found.pop() == "", "the last line ends"
    assert len(found) == len(lines), "as many lines"
    for line, it in zip(lines, found):
        assert it == line or it.startswith(f"{line}  "), line
    return [it.removeprefix(line).removeprefix("  ") for line, it in zip(lines, found)]


def test_pdus(program):
    """Each PDU is named, with its parameters."""
    assert list(zip((pdu for pdu, _ in PDUS), words_of(program, [pdu for pdu, _ in PDUS]))) == list(PDUS)
    assert {int(pdu[:2], 16) for pdu, _ in PDUS} == set(NAMES), "each opcode is tried"


def test_errors(program):
    """Each error code is named, or has its kind."""
    kinds = {code: "application" for code in range(0x80, 0xA0)} | {code: "common profile" for code in range(0xE0, 256)}
    names = [ERRORS.get(code, f"{kinds.get(code, 'reserved')} error {code:02x}") for code in range(256)]
    found = words_of(program, [f"010a0300{code:02x}" for code in range(256)])
    assert found == [f"Error Response: Read Request of handle 3, {it}" for it in names]


def test_opcodes(program):
    """An error names each request; a PDU of another opcode is unknown, however long it is."""
    asked = words_of(program, [f"01{opcode:02x}030006" for opcode in range(256)])
    alone = words_of(program, [f"{opcode:02x}" for opcode in range(256)])
    longer = words_of(program, [f"{opcode:02x}0300" for opcode in range(256)])
    unknown = {opcode: f"unknown opcode {opcode:02x}" for opcode in range(256) if opcode not in NAMES}
    names = [NAMES.get(opcode) or unknown[opcode] for opcode in range(256)]
    assert asked == [f"Error Response: {it} of handle 3, Request Not Supported" for it in names]
    assert {opcode: alone[opcode] for opcode in unknown} == unknown, "alone"
    assert {opcode: longer[opcode] for opcode in unknown} == unknown, "with a handle"


def test_malformed(program):
    """A malformed PDU has words that say so."""
    wanted = {it: f"malformed {NAMES[int(it[:2], 16)]}" for it in MALFORMED}
    assert dict(zip(MALFORMED, words_of(program, MALFORMED))) == wanted


def test_many_entries(program):
    """Of many entries eight are shown."""
    entries = [f"{number:02x}00{number:02x}00" for number in range(1, 12)]
    shown = "; ".join(f"handles {number} to {number}" for number in range(1, 9))
    lines = [f"07{''.join(entries[:8])}", f"07{''.join(entries[:9])}", f"07{''.join(entries)}"]
    wanted = [f"Find By Type Value Response: {shown}{more}" for more in ("", "; 1 more", "; 3 more")]
    assert words_of(program, lines) == wanted


def test_the_longest_words(program):
    """The longest words are whole: eight types of 128 bits, and eight handles with the longest name."""
    lines = ["0502" + f"ffff{OWN}" * 28]
    shown = "; ".join(["handle 65535 of type 12345678-9abc-def0-0123-456789abcdef"] * 8)
    assert words_of(program, lines) == [f"Find Information Response: {shown}; 20 more"]
    lines = ["090a" + "07000102030405060708" * 51]
    shown = "; ".join(["handle 7 (Client Characteristic Configuration), 0102030405060708"] * 8)
    assert words_of(program, lines, "--table", DOOR) == [f"Read By Type Response: {shown}; 43 more"]


def test_forms(program):
    """A PDU may follow a name and a direction, and have digits of either case."""
    wanted = "Read Request: handle 3"
    lines = ["0a0300", "0A0300", "Q < 0a0300", "Q > 0a0300", "phone123 < 0A0300", "7 > 0a0300"]
    assert words_of(program, lines) == [wanted] * len(lines)
    assert words_of(program, ["Q < -", "Q > -"]) == ["PDU without an opcode"] * 2


def test_other_lines(program):
    """A line that is no PDU has no words."""
    assert words_of(program, OTHERS) == [""] * len(OTHERS)
    octets = bytes(range(256)) * 3 + b"\n\xff0a0300\n0a\x000300\n"
    assert worded(program, octets) == octets


def test_once_more(program):
    """Lines that have words get no others."""
    once = worded(program, "".join(f"{pdu}\n" for pdu, _ in PDUS))
    assert worded(program, once) == once


@pytest.mark.parametrize(
    ("text", "wanted"),
    [
        ("", ""),
        ("\n", "\n"),
        ("\n\n0a0300\n\n", "\n\n0a0300  Read Request: handle 3\n\n"),
        ("Q > 13", "Q > 13  Write Response"),
        ("13\nnone", "13  Write Response\nnone"),
        ("13\n0a0300", "13  Write Response\n0a0300  Read Request: handle 3"),
    ],
    ids=["nothing", "an-end", "blank-lines", "no-end", "no-end-no-pdu", "no-end-of-the-last"],
)
def test_ends(program, text, wanted):
    assert worded(program, text) == wanted


def test_long_lines(program):
    """A line of 2,048 characters still has words. A longer one passes unchanged, and the next has words."""
    longest = "0b" + "61" * 1023
    lines = [longest, f"{longest}6", f"{longest}61", "Q > " + "0b" + "61" * 1021, "13"]
    wanted = ["Read Response: 1023 octets", "", "", "Read Response: 1021 octets", "Write Response"]
    assert words_of(program, lines) == wanted


def test_an_endless_line(program):
    """A line of 2 MiB passes unchanged, whatever its end is."""
    line = b"0b" * 1_048_576
    assert worded(program, line) == line
    assert worded(program, line + b"\n13\n") == line + b"\n13  Write Response\n"


def test_each_line_at_once(program):
    """A line is printed with its words before the next one comes, and a part of a line as it is."""
    with started(program, "words", bufsize=0) as it:
        for line, words in ((b"13\n", b"13  Write Response\n"), (b"0a0300\n", b"0a0300  Read Request: handle 3\n")):
            it.stdin.write(line)
            assert it.stdout.readline() == words
        it.stdin.write(b"0a")
        assert it.stdout.read(2) == b"0a"
        it.stdin.write(b"0600\n")
        assert it.stdout.readline() == b"0600  Read Request: handle 6\n"
        it.stdin.close()
        assert it.stdout.read() == b""
    assert it.returncode == 0


@pytest.mark.parametrize("text", ["13\n", "13", "none\n", "13\n" * 10_000], ids=["a-line", "no-end", "none", "many"])
def test_a_full_disk(program, text):
    """An output that cannot be written is reported."""
    with open("/dev/full", "wb") as full:
        ran = subprocess.run([program, "words"], input=text.encode(), stdout=full, stderr=subprocess.PIPE, timeout=60)
    assert (ran.returncode, ran.stderr) == (1, b"file: unwritten\n")


def test_a_closed_output(program):
    """An output that its reader has closed ends the program, though the input has no end."""
    with started(program, "words", stderr=subprocess.PIPE) as it:
        it.stdout.close()
        with pytest.raises(BrokenPipeError):
            for _ in range(10_000_000):
                it.stdin.write(b"13\n")
        errors = it.stderr.read()
        with pytest.raises(BrokenPipeError):
            it.stdin.close()
    assert (it.returncode, errors) == (1, b"file: unwritten\n")


def test_names(program):
    """With a table, handles have the names of their types behind them, or their UUIDs."""
    lines = ["Q > 1b060041", "Q < 120a0001", "Q > 01120a000f", "0a0200", "0e030007000100", "0a1600", "1203004c6f",
             "09070200020300002a", "17150000006869", "0c03001600", "0a0000", "050106001929"]
    wanted = [
        "Handle Value Notification: handle 6 (Battery Level), 41",
        "Write Request: handle 10 (fff1), 01",
        "Error Response: Write Request of handle 10 (fff1), Insufficient Encryption",
        "Read Request: handle 2 (Characteristic)",
        "Read Multiple Request: handles 3 (Device Name), 7 (Client Characteristic Configuration), 1 (Primary Service)",
        "Read Request: handle 22",
        "Write Request: handle 3 (Device Name), 4c6f",
        "Read By Type Response: handle 2 (Characteristic), 020300002a",
        "Prepare Write Response: handle 21 (fff4), offset 0, 6869",
        "Read Blob Request: handle 3 (Device Name), offset 22",
        "Read Request: handle 0",
        "Find Information Response: handle 6 of type 2919",
    ]
    assert words_of(program, lines, "--table", DOOR) == wanted


def test_the_number_of_names(program):
    """The command line's page has the number of types that `words` names, and that without the declarations.
    The Bluetooth SIG assigns types of services from 1800 on, and of characteristics from 2a00 on."""
    types = [f"{number:04x}" for number in range(0x1700, 0x2D00)]
    found = words_of(program, [f"100100ffff{number[2:]}{number[:2]}" for number in types])
    named = [number for number, words in zip(types, found) if f", {number} (" in words]
    assert all(words.endswith(number) for number, words in zip(types, found) if number not in named)
    assert {"2800", "2801", "2802", "2803"} < set(named)
    with open(f"{ROOT}/docs/CLI.md", encoding="utf-8") as file:
        numbers = [int(number) for number in re.findall(r"(\d+) common types", file.read())]
    assert numbers == [len(named) - 4, len(named)]


def test_a_long_type(program, folder):
    """A type of 128 bits is named by its UUID."""
    path = f"{folder}/table.toml"
    with open(path, "w", encoding="ascii") as file:
        file.write('[[service]]\nuuid = "fff0"\n[[service.characteristic]]\n'
                   'uuid = "12345678-9abc-def0-0123-456789abcdef"\nproperties = ["read"]\nvalue = "00"\nmax = 1\n')
    found = words_of(program, ["0a0300"], "--table", path)
    assert found == ["Read Request: handle 3 (12345678-9abc-def0-0123-456789abcdef)"]


@pytest.mark.parametrize(
    ("words", "status", "errors"),
    [
        (["--table", f"{ROOT}/examples/keys.toml"], 1, b"table: fault 11\n"),
        (["--table", f"{ROOT}/nothing"], 1, b"file: unreadable\n"),
    ],
    ids=["refused", "missing"],
)
def test_refused(program, words, status, errors):
    """A table is checked before the input is read."""
    ran = subprocess.run([program, "words", *words], input=b"13\n", capture_output=True, timeout=60)
    assert (ran.returncode, ran.stdout) == (status, b"")
    assert ran.stderr == errors


def test_an_unreadable_input(program, folder):
    """An input that cannot be read is reported."""
    descriptor = os.open(folder, os.O_RDONLY)
    ran = subprocess.run([program, "words"], stdin=descriptor, capture_output=True, timeout=60)
    os.close(descriptor)
    assert (ran.returncode, ran.stdout, ran.stderr) == (1, b"", b"file: unreadable\n")


def test_examples(program):
    """Each PDU of the examples has words, and none is malformed or unknown."""
    count = 0
    for path in sorted(glob.glob(f"{ROOT}/examples/**/*.out", recursive=True)):
        with open(path, encoding="utf-8") as file:
            lines = file.read().splitlines()
        for line, words in zip(lines, words_of(program, lines)):
            is_pdu = line.split(" ")[1:2] == [">"]
            assert bool(words) == is_pdu, line
            assert not words.startswith(("malformed", "unknown", "PDU")), line
            count += is_pdu
    assert count > 100, "many are tried"


@pytest.mark.parametrize("name", ["att_first", "discovery", "long_write"])
def test_att(program, name):
    """`att --words` prints the answers of `att`, with their words and the types of its handles."""
    with open(f"{ROOT}/examples/{name}.txt", "rb") as file:
        asked = file.read()
    plain, found = (
        subprocess.run([program, "att", *words], input=asked, capture_output=True, check=True, timeout=60).stdout
        for words in ([], ["--words"])
    )
    assert plain.count(b"\n") > 5
    assert found == worded(program, plain, "--table", DOOR)


@pytest.mark.parametrize("shows", [[], ["--echo"], ["--echo", "--notices"]], ids=["frames", "lines", "all"])
@pytest.mark.parametrize("script", ["first_contact", "bonded", "notifications", "long_write", "full_queue", "notices"])
def test_run(program, script, shows):
    """`run --words` prints the output of `run`, with its words and the names of its own table."""
    words = [program, "run", DOOR, KEYS, f"{ROOT}/examples/{script}.script", *shows]
    plain, found = (
        subprocess.run([*words, *more], capture_output=True, check=True, timeout=60).stdout
        for more in ([], ["--words"])
    )
    assert found == worded(program, plain, "--table", DOOR)


def test_two_tables(program):
    """If a script may replace the table, only handles with the same type in both tables are named."""
    words = [program, "run", PORCH, KEYS, f"{ROOT}/examples/replacement.script", "--next", PORCH_NEXT, "--echo"]
    ran = subprocess.run([*words, "--words"], capture_output=True, check=True, text=True, timeout=60)
    alone = subprocess.run([program, "run", PORCH, KEYS, f"{ROOT}/examples/replacement.script", "--next", PORCH_NEXT,
                            "--echo"], capture_output=True, check=True, text=True, timeout=60)
    first, second = (worded(program, alone.stdout, "--table", it) for it in (PORCH, PORCH_NEXT))
    differ = 0
    for found, one, two in zip(ran.stdout.splitlines(), first.splitlines(), second.splitlines()):
        if one == two:
            assert found == one
        else:
            differ += 1
            assert found == re.sub(r" \([^)]*\)", "", one)
    assert differ > 0, "a handle has two types"


def test_each_answer_at_once(program):
    """`att --words` prints an answer with its words before the next PDU comes."""
    with started(program, "att", "--words", text=True) as att:
        for pdu, answer in (("0a0300", "0b4c6f636b  Read Response: 4c6f636b"), ("0a0600", "0b64  Read Response: 64")):
            att.stdin.write(f"{pdu}\n")
            att.stdin.flush()
            assert att.stdout.readline() == f"{answer}\n"
        att.stdin.close()
