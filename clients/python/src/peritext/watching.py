"""Told of changes: a daemon says how many settled operations a document has, and again whenever that has risen."""

from __future__ import annotations

import asyncio
import contextlib
import json
import socket
import threading
import time
from collections import deque
from types import TracebackType
from typing import Any, Callable, Generic, Iterable, Literal, NamedTuple, TypeVar

from .answers import NoAnswer, answer_of
from .lines import Lines
from .ports import HOST, PATIENCE, PAUSE
from .refusal_table import BUSY
from .refusals import Ended, NoDaemon, Refused
from .seconds import retry_of

# Bytes that are read at once.
PART = 65_536
# Seconds after which a connection is one that tells of all documents, though there is none of which it tells.
MOMENT = 0.5
# What is given by a watch, and the kind of a watch.
Given = TypeVar("Given")
Kind = TypeVar("Kind", bound="Watching[Any]")


class Settled(NamedTuple):
    """A document, and how many operations of it are settled."""

    doc: int
    rev: int


class Watching(Generic[Given]):
    """What a daemon tells over a connection of its own, which a thread reads. Of each document the newest number alone is kept, until it is given."""

    def __init__(self, port: int, request: dict[str, Any], retry: float | None, tells_again: bool = False) -> None:
        self._port = port
        self._request = request
        self._retry = retry_of(retry)
        self._tells_again = tells_again
        # The newest number of each document, and those whose number is to be given, in the order in which it came.
        self._newest: dict[int, int] = {}
        self._news: dict[int, None] = {}
        # The documents of which this connection told, and over how many connections there was a number.
        self._heard_of: set[int] = set()
        self.connections = 0
        # Why there is nothing more.
        self._end: Exception | None = None
        self._is_closed = False
        # Held while that changes.
        self._change = threading.Condition()
        self._wakes: set[Callable[[], object]] = set()
        self._lines = Lines()
        self._heard: deque[bytes] = deque()
        self._connection = self._connected(time.monotonic() + PATIENCE)
        threading.Thread(target=self._read, daemon=True).start()

    def __iter__(self: Kind) -> Kind:
        return self

    def __next__(self) -> Given:
        with self._change:
            self._change.wait_for(self._is_due)
            given = self._taken()
        if given is None:
            raise StopIteration
        return given

    def __aiter__(self: Kind) -> Kind:
        return self

    async def __anext__(self) -> Given:
        loop, woken = asyncio.get_running_loop(), asyncio.Event()

        def wake() -> None:
            with contextlib.suppress(RuntimeError):
                # The loop may be closed by now.
                loop.call_soon_threadsafe(woken.set)

        with self._change:
            self._wakes.add(wake)
        try:
            while not self._is_due():
                await woken.wait()
                woken.clear()
            with self._change:
                given = self._taken()
        finally:
            with self._change:
                self._wakes.discard(wake)
        if given is None:
            raise StopAsyncIteration
        return given

    def close(self) -> None:
        """Ends it, and gives its place back."""
        with self._change:
            self._is_closed = True
            self._tell()
        with contextlib.suppress(OSError):
            self._connection.shutdown(socket.SHUT_RDWR)

    def __enter__(self: Kind) -> Kind:
        return self

    def __exit__(self, kind: type[BaseException] | None, error: BaseException | None, trace: TracebackType | None) -> None:
        self.close()

    def _given(self, number: int, rev: int) -> Given:
        """What is given for the number of a document."""
        raise NotImplementedError

    def _is_due(self) -> bool:
        return self._is_closed or bool(self._news) or self._end is not None

    def _taken(self) -> Given | None:
        """What is due: the newest number of a document, or nothing if it was closed."""
        if self._is_closed:
            return None
        for number in self._news:
            del self._news[number]
            return self._given(number, self._newest[number])
        assert self._end is not None
        raise self._end

    def _tell(self) -> None:
        self._change.notify_all()
        for wake in self._wakes:
            wake()

    def _read(self) -> None:
        """Hears what comes, over one connection after the other."""
        try:
            while not self._is_closed:
                with contextlib.suppress(NoAnswer, OSError):
                    while True:
                        self._note(self._told(self._connection))
                self._connect_again()
        except Exception as error:
            with self._change:
                # Whoever waits is told, whatever it is.
                self._end = error if isinstance(error, (Ended, Refused)) else Ended(f"the daemon couldn't be heard: {error!r}")
                self._tell()
        finally:
            self._connection.close()

    def _note(self, told: Settled) -> None:
        number, rev = told
        newest, is_first = self._newest.get(number, -1), number not in self._heard_of
        if is_first and rev < newest:
            raise Ended(f"another file is served on port {self._port} now")
        with self._change:
            self.connections += not self._heard_of
            self._heard_of.add(number)
            if rev > newest or (is_first and self._tells_again):
                self._newest[number], self._news[number] = rev, None
                self._tell()

    def _connect_again(self) -> None:
        self._connection.close()
        until = time.monotonic() + (self._retry or 0)
        while not self._is_closed:
            if time.monotonic() >= until:
                after = f", and nobody told it again for {self._retry:g} seconds" if self._retry else ""
                raise Ended(f"the daemon tells of no more changes{after}")
            try:
                connection = self._connected(until)
            except NoDaemon:
                time.sleep(PAUSE)
            except Refused as refused:
                if refused.number != BUSY:
                    raise
                time.sleep(PAUSE)
            else:
                self._go_on(connection)
                return

    def _go_on(self, connection: socket.socket) -> None:
        with self._change:
            self._connection = connection
            if self._is_closed:
                connection.close()

    def _connected(self, until: float) -> socket.socket:
        """A connection over which it is watched, once its first number came."""
        try:
            connection = socket.create_connection((HOST, self._port), timeout=PATIENCE)
        except OSError as error:
            raise NoDaemon(f"nobody listens on port {self._port} ({error.strerror or error})") from None
        self._lines, self._heard, self._heard_of = Lines(), deque(), set()
        try:
            connection.settimeout(max(min(until - time.monotonic(), PATIENCE), PAUSE))
            # It may name 1,024 documents, so it has no spaces.
            connection.sendall(json.dumps(self._request, separators=(",", ":")).encode() + b"\n")
            self._begin(connection)
            connection.settimeout(None)
        except (NoAnswer, OSError):
            connection.close()
            raise NoDaemon(f"no session is served on port {self._port}: name the port behind --sessions, not that behind --peers") from None
        except BaseException:
            connection.close()
            raise
        return connection

    def _begin(self, connection: socket.socket) -> None:
        """Hears the first number."""
        self._note(self._told(connection))

    def _told(self, connection: socket.socket) -> Settled:
        """What the next line tells. `Refused` if it is a refusal, `NoAnswer` if there is none."""
        while not self._heard:
            part = connection.recv(PART)
            if not part:
                raise NoAnswer("the connection ended")
            self._heard.extend(self._lines.take(part))
        told = answer_of(self._heard.popleft(), self._request)
        if isinstance(told, Refused):
            raise told
        return Settled(self._request.get("doc", told.get("doc")), told["rev"])


class Watch(Watching[int]):
    """The `rev`s of a document's settled operations, each above the one before: one at first, and one after each change, or after some at once.

    It is an iterator, for `for` and for `async for`, over a connection of its own, which a thread reads: whoever looks seldom is given the newest
    number alone. It ends once it is closed. If the connection ends otherwise, it connects again as its session does, for `retry` seconds, and raises
    `Ended` if there is nobody; `Refused` if the device failed (9).
    """

    def __init__(self, port: int, number: int, retry: float | None, tells_again: bool = False) -> None:
        """With `tells_again` the first number of each connection is given, also if it isn't above the one before."""
        super().__init__(port, {"op": "watch", "doc": number}, retry, tells_again)

    def _given(self, number: int, rev: int) -> int:
        return rev


class WatchMany(Watching[Settled]):
    """The `rev`s of the settled operations of many documents, each above the one before of its document: one of each at first, and one after each of
    its changes, or after some at once. `"all"` are those that were edited, and each new one.

    It is an iterator over one connection, as a `Watch` is, and ends and fails as that does: whoever looks seldom is given the newest number of each
    document alone, so that no more than these are kept.

    >>> with connect(port) as session, session.watch_many([5, 6]) as told:
    ...     before = sorted([next(told), next(told)])
    ...     rev = session.document(6).insert(0, "told")
    ...     next(told)
    Settled(doc=6, rev=4)
    """

    def __init__(self, port: int, documents: Iterable[int] | Literal["all"], retry: float | None) -> None:
        docs = "all" if documents == "all" else list(dict.fromkeys(documents))
        super().__init__(port, {"op": "watch", "docs": docs}, retry)

    def _given(self, number: int, rev: int) -> Settled:
        return Settled(number, rev)

    def _begin(self, connection: socket.socket) -> None:
        if self._request["docs"] != "all":
            super()._begin(connection)
            return
        connection.settimeout(MOMENT)
        # A file that nobody edited has no document to tell of.
        with contextlib.suppress(socket.timeout):
            super()._begin(connection)
