"""Tries who connects to the socket of an application: one that only asks, and one that comes as another."""

import socket
import threading
import time

import pytest

from parties import DOOR, PATIENCE, Device, late, look, soon
from parties.doors import LISTEN
from parties.watching import spent

OWNER_STANDS = ["+ connected 1 0 00:11:22:33:44:55", "+ secured 1 16 1 0"]


def reach(path):
    """A connection to a socket."""
    stream = socket.socket(socket.AF_UNIX)
    stream.connect(path)
    stream.settimeout(PATIENCE)
    return stream


def test_sent_and_closed(door):
    """What an application has sent is done, also if it closes at once or another one takes its place."""
    path = door.path

    def is_now(value):
        return look(path, "value 21") == [f"value 21 {value:04x}"]

    done = []
    for value in range(30):
        with reach(path) as sender:
            sender.sendall(f"update 21 {value:04x}\n".encode())
        done.append(is_now(value))
    assert sum(done) == 30, "one line, and closed"
    for first in range(1_000, 1_500, 50):
        with reach(path) as sender:
            sender.sendall("".join(f"update 21 {first + it:04x}\n" for it in range(50)).encode())
            done.append(is_now(first + 49))
            # Another one takes its place.
            with reach(path) as other:
                other.sendall(b"application\n")
            lines = sender.makefile().read().splitlines()
            assert (lines.count("ok"), lines.count("+ replaced")) == (50, 1), "replaced, and each line done"
    assert done == [True] * 40, "each value"
    answers = look(path, "value 21", "connections")
    assert answers == ["value 21 05db", "ok"], "answers to one that sends no more"


def test_many_lines_of_a_replaced_application(folder):
    """Each line of an application that is replaced is executed, also if few fit into a turn."""
    value, lines, path = 3, 6_000, f"{folder}/long.socket"
    with open(f"{folder}/long.toml", "w", encoding="ascii") as file:
        file.write(f'[[service]]\nuuid = "1800"\n[[service.characteristic]]\nuuid = "2a00"\nvalue = "{"ab" * 70}"\n')
        file.write('max = 512\nproperties = ["read"]\n')
    device = Device(f"{folder}/long.toml", DOOR[1], *LISTEN, "--application", path)
    device.said("ready")
    with reach(path) as sender:
        sender.sendall(b"application\n")
        assert sender.recv(9) == b"+ started", "it has the place"
        # Less than 1 MiB of answers waits.
        sent = f"value {value}\n" * lines + f"update {value} cd\n"
        threading.Thread(target=sender.sendall, args=[sent.encode()], daemon=True).start()
        time.sleep(0.5)
        with reach(path) as other:
            other.sendall(b"application\n")
            sender.makefile().read()
    assert soon(lambda: look(path, f"value {value}") == [f"value {value} cd"]), "its last line"


def much_asked(folder, more=""):
    """A device, its socket, and a connection to it with the place, which reads none of its many long answers."""
    path = f"{folder}/much.socket"
    with open(f"{folder}/much.toml", "w", encoding="ascii") as file:
        file.write(f'[[service]]\nuuid = "1800"\n[[service.characteristic]]\nuuid = "2a00"\nvalue = "{"ab" * 512}"\n')
        file.write('max = 512\nproperties = ["read"]\n')
    device = Device(f"{folder}/much.toml", DOOR[1], *LISTEN, "--application", path)
    device.said("ready")
    sender = reach(path)
    sender.sendall(b"application\n")
    assert sender.recv(9) == b"+ started", "it has the place"
    threading.Thread(target=sender.sendall, args=[("value 3\n" * 1_300 + more).encode()], daemon=True).start()
    time.sleep(0.5)
    return device, path, sender


def test_much_output_of_a_replaced_application(folder):
    """The lines of an application that is replaced wait until it reads, as those of any other: each is executed.

    Of the answers it may lose what its connection does not accept when the last line is done, at most 64 KiB.
    """
    _device, path, sender = much_asked(folder, "update 3 cd\n")
    with sender, reach(path) as other:
        other.sendall(b"application\n")
        received = b""
        for _ in range(6):
            time.sleep(2)
            received += sender.recv(2_048)
        lines = (received + sender.makefile("rb").read()).decode().splitlines()
        assert lines.count(f"value 3 {'ab' * 512}") >= 1_300 - 64, "each answer but the last ones, of 1.3 MB in all"
        assert other.recv(9) == b"+ started", "the next one"
    assert soon(lambda: look(path, "value 3") == ["value 3 cd"]), "the value, by its last line"


def test_a_deaf_replaced_application(folder):
    """One that reads nothing is cut off after its time. Till then others are answered, or wait without haste."""
    device, path, sender = much_asked(folder)
    with sender, reach(path) as other:
        begun = time.monotonic()
        other.sendall(b"application\n")
        assert look(path, "value 3") == [f"value 3 {'ab' * 512}"], "a question"
        with reach(path) as third:
            third.sendall(b"application\n")
            time.sleep(0.5)
            before = spent(device.process.pid)
            time.sleep(1.5)
            assert spent(device.process.pid) - before < 150, "processor time of 1.5 seconds, in milliseconds"
            device.said("application cut off: it does not read")
            other.settimeout(PATIENCE)
            assert other.recv(9) == b"+ started", "the next one"
            assert 3 < time.monotonic() - begun < late(15), "in time"
            assert third.makefile().readline().startswith("+ started"), "and the third"


def test_a_look(door):
    """A connection that only asks is answered, and replaces nobody."""
    path, controller = door.path, door.controller
    door.owner_comes(64)
    controller.ask(64, "120a0001")
    answers = ["value 10 01", *OWNER_STANDS, "ok"]
    assert look(path, "value 10", "connections") == answers, "a look without an application"
    one = door.application()
    assert one.lines(4) == ["+ serving", *OWNER_STANDS, "+ missed 10 01"], "it was no application"
    assert look(path, "value 10", "connections") == answers, "a look"
    assert [it[:5] for it in look(path, "vale 10")] == ["bad: "], "what is not understood"
    assert look(path, "x" * 1_101) == ["bad: the line is too long"], "too long"
    assert look(path) == [], "nothing"
    assert one.ask("value 10") == "value 10 01", "it is the application still"
    assert controller.ask(64, "0a0a00") == "0b01", "phones are served"


def test_a_slow_look(door):
    """A connection that asks slowly is answered, and closed after a second."""
    one = door.application("application")
    assert one.lines(2) == ["+ serving", "ok"], "an application"
    with reach(door.path) as slow:
        slow.sendall(b"val")
        begun = time.monotonic()
        time.sleep(0.2)
        slow.sendall(b"ue 10\n")
        assert slow.makefile().readline() == "value 10 00\n", "a slow one"
        assert slow.recv(1) == b"", "is closed"
        assert 0.5 < time.monotonic() - begun < late(5), "after a second"
    assert one.ask("value 10") == "value 10 00", "it is the application still"


def test_a_deaf_look(door):
    """A connection that reads no answer is closed, and keeps nobody out."""
    one = door.application("application")
    assert one.lines(2) == ["+ serving", "ok"], "an application"
    with reach(door.path) as deaf, pytest.raises(ConnectionError):
        while True:
            deaf.sendall(b"value 10\n" * 1_000)
    assert look(door.path, "value 10") == ["value 10 00"], "others are answered"
    assert one.ask("value 10") == "value 10 00", "it is the application still"


def test_a_silent_connection(door):
    """A connection that sends nothing keeps nobody out, and is the application after a second."""
    one = door.application()
    assert one.line() == "+ serving", "an application"
    with reach(door.path) as silent:
        begun = time.monotonic()
        assert look(door.path, "value 10") == ["value 10 00"], "a silent one keeps none out"
        assert time.monotonic() - begun < late(5), "for long"
        assert one.lines(2) == ["+ replaced", "END"], "it is the application now"
        silent.sendall(b"value 10\n")
        assert silent.makefile().readline()[:10] == "+ started ", "and is told what stands"


def test_an_unfinished_line(door):
    """A connection that sends octets and no line is closed after a second, and displaces nobody."""
    one = door.application()
    assert one.line() == "+ serving", "an application"
    with reach(door.path) as unfinished:
        begun = time.monotonic()
        unfinished.sendall(b"val")
        assert unfinished.makefile().read() == "", "it is closed without an answer"
        assert 0.5 < time.monotonic() - begun < late(5), "after a second"
    assert one.ask("value 10") == "value 10 00", "it is the application still"


def test_two_applications(door):
    """Of two applications that come at once the later one stays, and the lines of both are done."""
    path = door.path
    two = door.application()
    assert two.line() == "+ serving", "an application"
    one = door.application()
    assert two.lines(2) == ["+ replaced", "END"], "two of them at a time"
    assert one.line() == "+ serving", "the later one"
    with reach(path) as first, reach(path) as second:
        for number, it in ((1, first), (2, second)):
            it.sendall(f"update 21 000{number}\napplication\n".encode())
        lines = first.makefile().read().splitlines()
        assert (lines.count("ok"), lines[-1]) == (2, "+ replaced"), "the first of two"
        second.shutdown(socket.SHUT_WR)
        lines = second.makefile().read().splitlines()
        assert (lines.count("ok"), lines[-1]) == (2, "ok"), "the second"
    assert look(path, "value 21") == ["value 21 0002"], "both are done"


@pytest.mark.parametrize("line", ["update 21 0003", "allow 9", "deny 9", "disconnect 9"])
def test_a_line_of_an_application(door, line):
    """A connection is the application at once if it says what only an application may say."""
    begun = time.monotonic()
    one = door.application(line)
    # It would be one after a second of silence.
    assert time.monotonic() - begun < late(0.9), "an application at once"
    one.close()
    assert soon(lambda: look(door.path, "value 21")) is not None, "which goes"


def test_a_claim(door):
    """A connection that says `application` is the application at once."""
    one, begun = door.application("application"), time.monotonic()
    assert soon(lambda: one.line() == "ok"), "the answer to its claim"
    two = door.application("application")
    assert time.monotonic() - begun < late(0.9), "another takes its place at once"
    assert one.up_to("END")[-2:] == ["+ replaced", "END"], "of the one before"
    two.close()
