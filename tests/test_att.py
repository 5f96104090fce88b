"""Tries `gatt_shell att`: what it answers, and the bad line at which it ends."""

import subprocess

import pytest

# Two parts of a value are prepared, and it is read before and after they are executed.
LONG_WRITE = (
    b"1615000000426f6c7420776f726e2e2053656e64206120\n16150012006e6577206f6e652e\n"
    b"0a1500\n1801\n0a1500\n0c15001600\n"
)
LONG_WRITE_ANSWERS = (
    b"1715000000426f6c7420776f726e2e2053656e64206120\n17150012006e6577206f6e652e\n"
    b"0b\n19\n0b426f6c7420776f726e2e2053656e642061206e657720\n0d6f6e652e\n"
)
# An input, the answers, and the number of the bad line at which it ends, if any.
INPUTS = [
    (b"", b"", None),
    (b"\n\n", b"", None),
    (b"0a0300", b"0b4c6f636b\n", None),
    (b"0A0300\n", b"0b4c6f636b\n", None),
    (b"0a0", b"", 1),
    (b"\n0a0300\n\n0a030g\n20\n", b"0b4c6f636b\n", 4),
    (b"0a0300\r\n", b"", 1),
    (b"20\n 20\n", b"0120000006\n", 2),
    (LONG_WRITE, LONG_WRITE_ANSWERS, None),
    # A line has at most 1,040 digits.
    (1_040 * b"0", b"0100000006\n", None),
    (1_041 * b"0", b"", 1),
]


@pytest.mark.parametrize(("pdus", "answers", "line"), INPUTS)
def test_answers(program, pdus, answers, line):
    ran = subprocess.run([program, "att"], input=pdus, capture_output=True)
    fault = b"" if line is None else b"line %d: not hex\n" % line
    assert (ran.returncode, ran.stdout, ran.stderr) == (0 if line is None else 2, answers, fault)
