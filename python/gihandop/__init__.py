"""Connects an application to a device that `gatt_shell host` serves.

One module without dependencies, for Python 3.9 or later. docs/PYTHON.md of Gihandop shows its use.

    async with gihandop.Device("door.socket") as device:
        async for notice in device:
            if isinstance(notice, gihandop.Written):
                print(notice.connection, notice.handle, notice.value.hex())
"""

from __future__ import annotations

import asyncio
import concurrent.futures
import logging
import os
import re
import threading
from collections import deque
from dataclasses import dataclass
from typing import Any, Callable, Coroutine, Deque, Dict, Iterator, List, Optional, Tuple, TypeVar, Union

__all__ = [
    "Address", "Away", "BlockingDevice", "Configured", "Confirmed", "Connected", "Connection", "Device", "DeviceError",
    "Disconnected", "Ending", "Gone", "Lost", "Missed", "NotUnderstood", "Notice", "Refused", "Replaced", "Saved",
    "Secured", "Serving", "Skipped", "Started", "Stopped", "Subscribed", "TimedOut", "Unknown",
    "Unsaved", "Unsecured", "Updated", "Waiting", "WasReplaced", "Written",
]

# The path of a Unix socket (`--application`), or a host and a port (`--application-port`).
Address = Union[str, Tuple[str, int]]
Result = TypeVar("Result")

# The most bytes of a line that the device accepts, without its line feed.
_LONGEST_LINE = 1_100
# The most bytes that a line of a device may have. Its lines are far shorter.
_LONGEST_NOTICE = 65_536
# A connection becomes the application by this line.
_CLAIM = "application"
# After so many seconds without a device the log says what a program waits for.
_SILENCE = 1.0
_LOG = logging.getLogger("gihandop")


class DeviceError(Exception):
    """The base of all errors of this module."""


class Refused(DeviceError):
    """The device refuses a call: `fault N: words`."""

    def __init__(self, number: int, words: str) -> None:
        super().__init__(f"fault {number}: {words}")
        self.number = number
        self.words = words


class NotUnderstood(DeviceError):
    """The device does not understand a word: `bad: words`."""

    def __init__(self, words: str) -> None:
        super().__init__(f"bad: {words}")
        self.words = words


class Gone(DeviceError, ConnectionError):
    """The device is not connected, or was disconnected before it answered."""


class WasReplaced(DeviceError):
    """Another application has taken the place of this one."""


class Notice:
    """The base of all notices."""


@dataclass(frozen=True)
class Connected(Notice):
    """A client connected. `kind` is 0 for a public address, 1 for a random one."""

    connection: int
    kind: int
    address: str


@dataclass(frozen=True)
class Disconnected(Notice):
    """A client is gone."""

    connection: int


@dataclass(frozen=True)
class Secured(Notice):
    """The link of a client has a key of `key_size` bytes."""

    connection: int
    key_size: int
    is_authenticated: bool
    is_secure_connections: bool


@dataclass(frozen=True)
class Unsecured(Notice):
    """The link of a client has no key any more."""

    connection: int


@dataclass(frozen=True)
class Written(Notice):
    """A client wrote a value."""

    connection: int
    handle: int
    value: bytes


@dataclass(frozen=True)
class Configured(Notice):
    """A client wrote a client characteristic configuration: 1 notifications, 2 indications, 3 both."""

    connection: int
    handle: int
    bits: int


@dataclass(frozen=True)
class Subscribed(Notice):
    """A subscription of a client is in force, with the bits of `Configured`."""

    connection: int
    handle: int
    bits: int


@dataclass(frozen=True)
class Confirmed(Notice):
    """A client confirmed an indication of the value at `handle`."""

    connection: int
    handle: int


@dataclass(frozen=True)
class TimedOut(Notice):
    """A client did not confirm an indication in time."""

    connection: int


@dataclass(frozen=True)
class Ending(Notice):
    """The device disconnects a client, for a reason of HCI."""

    connection: int
    reason: int


@dataclass(frozen=True)
class Skipped(Notice):
    """A notification of the value at `handle` is not sent, because too much is queued."""

    connection: int
    handle: int


@dataclass(frozen=True)
class Missed(Notice):
    """Clients wrote this value while no application read it."""

    handle: int
    value: bytes


@dataclass(frozen=True)
class Updated(Notice):
    """Another connection than this application has given the attribute this value."""

    handle: int
    value: bytes


@dataclass(frozen=True)
class Started(Notice):
    """The first notice of each connection to the device.

    `number` is new for each start of the device. If `is_new`, this object has not read it before:
    send your values again.
    """

    number: int
    is_new: bool


@dataclass(frozen=True)
class Away(Notice):
    """The device is gone, or has closed the connection to this object, which connects again.

    `Started` follows once it is there again. Until then calls raise `Gone`, and clients that the device
    still serves are not heard. With `retry=None` the iteration ends by `Gone` in its place.
    """


@dataclass(frozen=True)
class Serving(Notice):
    """A controller is there: clients can connect."""


@dataclass(frozen=True)
class Waiting(Notice):
    """No controller is there."""


@dataclass(frozen=True)
class Stopped(Notice):
    """The device has stopped serving a controller for a fault."""

    words: str


@dataclass(frozen=True)
class Replaced(Notice):
    """Another application takes the place of this one. It is the last notice."""


@dataclass(frozen=True)
class Unsaved(Notice):
    """The device could not save."""

    words: str


@dataclass(frozen=True)
class Saved(Notice):
    """All is saved again."""


@dataclass(frozen=True)
class Lost(Notice):
    """`count` notices were dropped here, because the program did not read them."""

    count: int


@dataclass(frozen=True)
class Unknown(Notice):
    """A notice that this module does not know, for example of a newer device."""

    line: str


@dataclass(frozen=True)
class Connection:
    """A client that is connected, and its key if its link has one."""

    connection: int
    kind: int
    address: str
    key: Optional[Secured]


def _octets(word: str) -> bytes:
    return b"" if word == "-" else bytes.fromhex(word)


def _number(word: str) -> int:
    if not (word.isascii() and word.isdigit()):
        raise ValueError(word)
    return int(word)


def _bit(word: str) -> bool:
    return {"0": False, "1": True}[word]


def _reason(word: str) -> int:
    return int(word, 16)


_FORMS: Dict[str, Tuple[Callable[..., Notice], Tuple[Callable[[str], Any], ...]]] = {
    "connected": (Connected, (_number, _number, str)),
    "disconnected": (Disconnected, (_number,)),
    "secured": (Secured, (_number, _number, _bit, _bit)),
    "unsecured": (Unsecured, (_number,)),
    "written": (Written, (_number, _number, _octets)),
    "configured": (Configured, (_number, _number, _number)),
    "subscribed": (Subscribed, (_number, _number, _number)),
    "confirmed": (Confirmed, (_number, _number)),
    "timed-out": (TimedOut, (_number,)),
    "ending": (Ending, (_number, _reason)),
    "skipped": (Skipped, (_number, _number)),
    "missed": (Missed, (_number, _octets)),
    "updated": (Updated, (_number, _octets)),
    "serving": (Serving, ()),
    "waiting": (Waiting, ()),
    "replaced": (Replaced, ()),
    "saved": (Saved, ()),
}


def notice_of(line: str) -> Notice:
    """Returns the notice of a line that begins with `+ `, without its line feed."""
    if line.startswith("+ stopped: "):
        return Stopped(line[len("+ stopped: ") :])
    if line.startswith("+ unsaved: "):
        return Unsaved(line[len("+ unsaved: ") :])
    words = line.split(" ")
    form = _FORMS.get(words[1])
    if form is None or len(form[1]) != len(words) - 2:
        return Unknown(line)
    kind, fields = form
    try:
        return kind(*(field(word) for field, word in zip(fields, words[2:])))
    except (ValueError, KeyError):
        return Unknown(line)


def _accepted(answer: str, form: str = "(ok)") -> str:
    """Returns the group of an answer of this form, or raises the error that the answer is."""
    if answer.startswith("bad: "):
        raise NotUnderstood(answer[len("bad: ") :])
    fault = re.fullmatch(r"fault ([0-9]{1,9}): (.*)", answer)
    if fault:
        raise Refused(int(fault[1]), fault[2])
    found = re.fullmatch(form, answer)
    if not found:
        raise DeviceError(f"this is no answer of a device: {answer[:60]!r}")
    return found[1]


def _word(value: bytes) -> str:
    """Returns the word of a value. Errors: TypeError if it is not bytes."""
    if not isinstance(value, (bytes, bytearray, memoryview)):
        hint = ": a text becomes bytes by its method encode" if isinstance(value, str) else ""
        raise TypeError(f"a value is bytes, and not {type(value).__name__}{hint}")
    return value.hex() or "-"


def _line(*words: object) -> bytes:
    """Returns the line of some words. Errors: ValueError if it would be two lines, or too long."""
    line = " ".join(map(str, words)).encode()
    if b"\n" in line or b"\r" in line or len(line) > _LONGEST_LINE:
        raise ValueError(f"no line of at most {_LONGEST_LINE} bytes: {line[:40]!r}")
    return line + b"\n"


class _Link(asyncio.Protocol):
    """One connection to the device: pairs answers with questions, and passes notices on."""

    def __init__(self, device: Device) -> None:
        self.device = device
        self.rest = b""
        self.transport: Optional[asyncio.Transport] = None
        # The questions without an answer, in their order. One whose asker was cancelled stays.
        self.asked: Deque[asyncio.Future[str]] = deque()
        self.is_closed = asyncio.Event()
        self.may_write = asyncio.Event()
        self.may_write.set()

    def connection_made(self, transport: asyncio.BaseTransport) -> None:
        assert isinstance(transport, asyncio.Transport)
        self.transport = transport
        self.send(_line(_CLAIM)).add_done_callback(lambda claim: claim.cancelled() or claim.exception())

    def pause_writing(self) -> None:
        self.may_write.clear()

    def resume_writing(self) -> None:
        self.may_write.set()

    def data_received(self, data: bytes) -> None:
        *lines, self.rest = (self.rest + data).split(b"\n")
        for line in lines:
            self.take(line.decode(errors="replace"))
        if len(self.rest) > _LONGEST_NOTICE:
            self.abort()

    def take(self, line: str) -> None:
        if line.startswith("+ "):
            self.device._hear(self, line)
        elif self.asked:
            question = self.asked.popleft()
            if not question.done():
                question.set_result(line)
        else:
            # An answer without a question: this is no device.
            self.abort()

    def connection_lost(self, error: Optional[Exception]) -> None:
        self.device._lose(self)
        self.may_write.set()
        self.is_closed.set()
        while self.asked:
            question = self.asked.popleft()
            if not question.done():
                question.set_exception(self.device._absence("the device closed the connection"))

    def send(self, line: bytes) -> asyncio.Future[str]:
        assert self.transport is not None
        answer: asyncio.Future[str] = asyncio.get_running_loop().create_future()
        self.asked.append(answer)
        self.transport.write(line)
        return answer

    def abort(self) -> None:
        if self.transport is not None:
            self.transport.abort()

    async def close(self) -> None:
        """Closes the connection once all lines are sent, and at the latest after a second."""
        if self.transport is None:
            return
        self.transport.close()
        try:
            await asyncio.wait_for(self.is_closed.wait(), 1)
        except asyncio.TimeoutError:
            pass
        finally:
            self.abort()


class Device:
    """A device, as its application.

    `async with` waits until the device is there and this object is its application. After each end
    of the connection it connects again, every `retry` seconds. With `retry=None` there is one
    connection and one attempt. At most `capacity` notices wait to be read: later ones are dropped,
    and counted by a notice `Lost`.

    One event loop uses an object. Several tasks may ask at a time.
    """

    def __init__(self, address: Address, *, retry: Optional[float] = 0.5, capacity: int = 4_096) -> None:
        self.address = address
        self.retry = retry
        self.capacity = capacity
        # The number of the device's start, once it was read.
        self.started: Optional[int] = None
        self._notices: Deque[Notice] = deque()
        self._lost = 0
        self._link: Optional[_Link] = None
        self._task: Optional[asyncio.Task[None]] = None
        self._is_replaced = self._is_stopped = self._is_over = False
        self._error: Optional[Exception] = None

    async def __aenter__(self) -> Device:
        await self.open()
        return self

    async def __aexit__(self, *error: object) -> None:
        await self.close()

    async def open(self) -> None:
        """Connects, and waits for the device. Errors: OSError if another attempt cannot help."""
        if self._task is not None:
            raise RuntimeError("a Device is opened once")
        self._news, self._is_ready = asyncio.Event(), asyncio.Event()
        self._task = asyncio.ensure_future(self._connect())
        try:
            await self._is_ready.wait()
        except BaseException:
            await self.close()
            raise
        if self._error is not None:
            raise self._error

    async def close(self) -> None:
        """Closes the connection. The device does what was sent before."""
        self._is_over = True
        if self._task is not None:
            self._task.cancel()
            await asyncio.wait([self._task])
            self._news.set()

    def __aiter__(self) -> Device:
        return self

    async def __anext__(self) -> Notice:
        """Waits for the next notice. The iteration ends after `Replaced`, `stop` and `close`."""
        while True:
            if self._notices:
                return self._notices.popleft()
            if self._lost:
                count, self._lost = self._lost, 0
                return Lost(count)
            if self._error is not None:
                raise self._error
            if self._is_over or self._task is None:
                raise StopAsyncIteration
            self._news.clear()
            await self._news.wait()

    async def update(self, handle: int, value: bytes) -> None:
        """Gives the attribute at `handle` a value. The device notifies the clients that subscribed."""
        await self._ask("update", handle, _word(value))

    async def allow(self, connection: int, milliseconds: Optional[int] = None) -> None:
        """Authorizes a client for so many milliseconds from now on, or until it disconnects."""
        await self._ask("allow", connection, *([] if milliseconds is None else [milliseconds]))

    async def deny(self, connection: int) -> None:
        """Ends the authorization of a client. Answers that were queued before are still sent."""
        await self._ask("deny", connection)

    async def disconnect(self, connection: int) -> None:
        """Disconnects a client."""
        await self._ask("disconnect", connection)

    async def value(self, handle: int) -> bytes:
        """Returns the value of the attribute at `handle`."""
        return _octets(await self._ask("value", handle, form=r"value [0-9]+ (-|(?:[0-9A-Fa-f]{2})+)"))

    async def find(self, service: str, characteristic: str, n: int = 1) -> int:
        """Returns the handle of the value of the `n`th characteristic with these UUIDs, from 1."""
        return int(await self._ask("find", service, characteristic, n, form=r"handle ([0-9]{1,5})"))

    async def connections(self) -> List[Connection]:
        """Returns the clients that are connected."""
        found: Dict[int, Connection] = {}
        for notice in await self._look("connections"):
            if isinstance(notice, Connected):
                found[notice.connection] = Connection(notice.connection, notice.kind, notice.address, None)
            elif isinstance(notice, Secured) and notice.connection in found:
                it = found[notice.connection]
                found[it.connection] = Connection(it.connection, it.kind, it.address, notice)
        return list(found.values())

    async def subscriptions(self, connection: int) -> List[Subscribed]:
        """Returns the subscriptions of a client that are in force."""
        return [it for it in await self._look("subscriptions", connection) if isinstance(it, Subscribed)]

    async def reload(self) -> None:
        """Has the device read its key file again. Raises `Refused` if the file is refused."""
        await self._ask("reload")

    async def stop(self) -> None:
        """Ends the device in an orderly way, and the iteration with it."""
        self._is_stopped = True
        try:
            await self._ask("stop")
        except DeviceError:
            self._is_stopped = False
            raise
        await self.close()

    async def _ask(self, *words: object, form: str = "(ok)") -> str:
        """Sends a line on the connection of the application, and returns the group of an answer of this form."""
        line, link = _line(*words), self._link
        while link is not None and not link.may_write.is_set():
            await link.may_write.wait()
        if link is None or link is not self._link or self._is_replaced or self._is_over:
            raise self._absence()
        return _accepted(await link.send(line), form)

    async def _look(self, *words: object) -> List[Notice]:
        """Asks on a connection of its own, which reads no notices, and returns the lines of its answer."""
        line = _line(*words)
        try:
            if isinstance(self.address, str):
                reader, writer = await asyncio.open_unix_connection(self.address)
            else:
                reader, writer = await asyncio.open_connection(*self.address)
            try:
                writer.write(line)
                writer.write_eof()
                lines = (await reader.read()).decode(errors="replace").split("\n")
            finally:
                writer.close()
        except OSError as error:
            raise Gone(f"the device is not connected: {error}") from error
        if len(lines) < 2 or lines[-1]:
            raise Gone("the device closed the connection")
        _accepted(lines[-2])
        return [notice_of(it) for it in lines[:-2]]

    async def _connect(self) -> None:
        """Connects, again and again, until this object is closed, replaced or given up."""
        loop, link = asyncio.get_running_loop(), _Link(self)
        since: Optional[float] = loop.time()
        try:
            while True:
                link = _Link(self)
                try:
                    if isinstance(self.address, str):
                        await loop.create_unix_connection(lambda: link, self.address)
                    else:
                        await loop.create_connection(lambda: link, *self.address)
                    await link.is_closed.wait()
                    since = loop.time()
                except OSError as error:
                    # A path that is too long has no number, and neither have several addresses of one host.
                    is_wrong = isinstance(self.address, str) and error.errno is None
                    if self.retry is None or is_wrong or isinstance(error, PermissionError):
                        self._error = error
                        return
                    if since is not None and loop.time() - since >= _SILENCE:
                        _LOG.warning("waiting for the device at %s: %s", self.address, error)
                        since = None
                if self._is_replaced or self._is_stopped:
                    return
                if self.retry is None:
                    self._error = Gone("the device closed the connection")
                    return
                await asyncio.sleep(self.retry)
        except Exception as error:
            # For example a path with a NUL.
            self._error = error
        finally:
            self._is_over = True
            self._is_ready.set()
            self._news.set()
            await link.close()

    def _hear(self, link: _Link, line: str) -> None:
        """Accepts a notice of a link."""
        start = line[len("+ started ") :] if line.startswith("+ started ") else ""
        if start.isascii() and start.isdigit():
            number = int(start)
            notice: Notice = Started(number, number != self.started)
            self.started, self._link = number, link
            self._is_ready.set()
        else:
            notice = notice_of(line)
        if isinstance(notice, Replaced):
            self._is_replaced = True
        self._put(notice)

    def _put(self, notice: Notice) -> None:
        """Queues a notice for the iteration."""
        # Once some are lost, the queue is read to its half before more are accepted: a slow reader
        # of a flood gets runs of notices, and not a `Lost` for each.
        if self._lost and len(self._notices) <= self.capacity // 2:
            self._notices += [Lost(self._lost), notice]
            self._lost = 0
        elif self._lost or len(self._notices) >= self.capacity:
            self._lost += 1
        else:
            self._notices.append(notice)
        self._news.set()

    def _lose(self, link: _Link) -> None:
        """Accepts that a link has ended."""
        if self._link is link:
            self._link = None
            if not (self._is_replaced or self._is_stopped or self._is_over or self.retry is None):
                self._put(Away())

    def _absence(self, words: str = "the device is not connected") -> DeviceError:
        """Returns why a question has no answer. The words are for a device that may come back."""
        if self._is_replaced:
            return WasReplaced("another application has taken the place of this one")
        if self._is_over:
            return Gone("the connection to the device is closed")
        return Gone(words)


class BlockingDevice:
    """A `Device` for programs without asyncio, within `with`. Its methods may be called by any thread."""

    def __init__(self, address: Address, *, retry: Optional[float] = 0.5, capacity: int = 4_096) -> None:
        self.device = Device(address, retry=retry, capacity=capacity)
        self._loop = asyncio.new_event_loop()
        self._thread = threading.Thread(target=self._loop.run_forever, daemon=True)
        # Once it is ending, no question begins that nobody would answer.
        self._lock = threading.Lock()
        self._is_ending = False
        # The process whose thread answers: one that was forked from it has no such thread.
        self._process: Optional[int] = None

    def __enter__(self) -> BlockingDevice:
        self._thread.start()
        self._process = os.getpid()
        try:
            self.wait(self.device.open())
        except BaseException:
            self.__exit__()
            raise
        return self

    def __exit__(self, *error: object) -> None:
        if self._process != os.getpid():
            return
        with self._lock:
            if self._is_ending:
                return
            self._is_ending = True
            ending = asyncio.run_coroutine_threadsafe(self._end(), self._loop)
        ending.result()
        self._loop.call_soon_threadsafe(self._loop.stop)
        self._thread.join()
        self._loop.close()

    def __iter__(self) -> Iterator[Notice]:
        while True:
            try:
                notice = self.wait(self.device.__anext__())
            except StopAsyncIteration:
                return
            yield notice

    async def _end(self) -> None:
        """Closes the device, and waits until no thread waits for it."""
        await self.device.close()
        others = asyncio.all_tasks() - {asyncio.current_task()}
        if others:
            late = (await asyncio.wait(others, timeout=1))[1]
            for it in late:
                it.cancel()
            if late:
                await asyncio.wait(late, timeout=1)

    def wait(self, question: Coroutine[Any, Any, Result]) -> Result:
        """Waits for a question to `device`, for example `wait(device.connections())`."""
        if self._process != os.getpid():
            question.close()
            raise Gone("this process has not opened the device: use `with`")
        with self._lock:
            if self._is_ending:
                question.close()
                raise Gone("the connection to the device is closed")
            future = asyncio.run_coroutine_threadsafe(question, self._loop)
        try:
            return future.result()
        except concurrent.futures.CancelledError:
            raise Gone("the connection to the device is closed") from None
        except BaseException:
            future.cancel()
            raise

    def update(self, handle: int, value: bytes) -> None:
        self.wait(self.device.update(handle, value))

    def allow(self, connection: int, milliseconds: Optional[int] = None) -> None:
        self.wait(self.device.allow(connection, milliseconds))

    def deny(self, connection: int) -> None:
        self.wait(self.device.deny(connection))

    def disconnect(self, connection: int) -> None:
        self.wait(self.device.disconnect(connection))

    def value(self, handle: int) -> bytes:
        return self.wait(self.device.value(handle))

    def find(self, service: str, characteristic: str, n: int = 1) -> int:
        return self.wait(self.device.find(service, characteristic, n))

    def connections(self) -> List[Connection]:
        return self.wait(self.device.connections())

    def subscriptions(self, connection: int) -> List[Subscribed]:
        return self.wait(self.device.subscriptions(connection))

    def reload(self) -> None:
        self.wait(self.device.reload())

    def stop(self) -> None:
        self.wait(self.device.stop())
