"""Sessions of a daemon: `peritext serve` has a file open for many programs at once."""

from __future__ import annotations

import contextlib
import socket
import threading
import time
from collections import deque
from typing import Any, Iterable, Literal

from .again import is_edit, is_known, repeated, with_token
from .answers import NoAnswer, answer_of
from .following import Follow
from .lines import line_of
from .ports import HOST, PATIENCE, PAUSE
from .refusal_table import STEPS
from .refusals import NoDaemon, Refused
from .seconds import retry_of, timeout_of
from .session import Owed, Session
from .silence import TIMEOUT
from .watching import Watch, WatchMany

# A first answer is short: what is longer comes from somebody else.
LONGEST = 65_536


# What a session asks first.
STATUS = {"op": "status"}
# Seconds for which a daemon whose connection ended is looked for again.
RETRY = 10.0


class SocketSession(Session):
    """A session of a daemon, beside those of other programs.

    With `retry` each edit has a token, by which the daemon makes it once, however often it is sent. If the connection ends, the session
    connects again, and sends again what wasn't answered, in its order and before anything else.
    """

    def __init__(self, connection: socket.socket, port: int, timeout: float | None = TIMEOUT, retry: float | None = RETRY) -> None:
        self._connection = connection
        self._port = port
        self._retry = retry_of(retry)
        # Whether this session asked the daemon to end.
        self._stops = False
        # An edit that this session was answered.
        self._made: dict[str, Any] | None = None
        # Since when nothing was answered, though it was looked for.
        self._since: float | None = None
        super().__init__(connection.makefile("wb"), connection.makefile("rb"), timeout)

    def watch(self, document: int) -> Watch:
        """Tells of the changes of a document, over a connection of its own, and takes a place more. `NoDaemon` if there is no daemon any more; `Refused`
        with the number 8 if there is no place for it, and with 3 by an earlier daemon, which tells of none.

        >>> with connect(port) as session, session.watch(9) as revs:
        ...     before = next(revs)
        ...     after = session.document(9).insert(0, "told")
        ...     next(revs) == after == before + 4
        True
        """
        return Watch(self._port, document, self._retry)

    def watch_many(self, documents: Iterable[int] | Literal["all"]) -> WatchMany:
        """Tells of the changes of many documents, 1 to 1,024 of them or `"all"`, new ones too, over one connection, and takes one place more. It fails
        as `watch` does.
        """
        return WatchMany(self._port, documents, self._retry)

    def follow(self, document: int) -> Follow:
        """Tells a document as it changes, over a session and a watch of its own, and takes two places more: a `Reset` with the whole text at first,
        then a `Delta` for each change. It goes on over a lost connection as this session does, and fails as `watch` does.

        >>> with connect(port) as session, session.follow(8) as deltas:
        ...     next(deltas)
        ...     rev = session.document(8).insert(0, "fox")
        ...     next(deltas)
        Reset(spans=[], rev=0)
        Delta(steps=[Insert(text='fox', marks=Marks())], rev=3)
        """
        session, watch = self.followers(document)
        return Follow(session, document, watch)

    def followers(self, document: int) -> tuple[SocketSession, Watch]:
        """What follows a document: a session and a watch of its own, which take two places more."""
        watch = Watch(self._port, document, self._retry, tells_again=True)
        try:
            # After the watch, which can't have the last place.
            return connect(self._port, self._timeout, self._retry), watch
        except BaseException:
            watch.close()
            raise

    def close(self) -> None:
        """Ends this session, once all that was sent is answered. The daemon goes on."""
        super().close()
        self._connection.close()

    def cut(self) -> None:
        """Ends this session at once, from any thread. What waits is `Ended`."""
        self._over("it was cut off")
        self._abandon()
        # Who looks for the daemon just then sees it a little later.
        threading.Thread(target=self.close, daemon=True).start()

    def _end_requests(self) -> None:
        try:
            super()._end_requests()
        finally:
            self._connection.shutdown(socket.SHUT_WR)

    def _abandon(self) -> None:
        with contextlib.suppress(OSError):
            self._connection.shutdown(socket.SHUT_RDWR)

    def _named(self, request: dict[str, Any]) -> dict[str, Any]:
        if request.get("op") == "stop":
            self._stops = True
        return request if self._retry is None else with_token(request)

    def _note(self, owed: Owed, told: dict[str, Any] | Refused) -> None:
        super()._note(owed, told)
        self._since = None
        if is_edit(owed.request) and "token" in owed.request and not isinstance(told, Refused):
            self._made = owed.request

    def _puts_off(self, owed: Owed, told: dict[str, Any] | Refused) -> bool:
        # A daemon that has no steps left opens its file anew, and ends its connections.
        return isinstance(told, Refused) and told.number == STEPS and self._retry is not None and "token" in owed.request

    def _goes_on(self) -> bool:
        if self._goes_on_elsewhere():
            return True
        # Nobody goes on writing where nobody reads.
        self._abandon()
        return False

    def _goes_on_elsewhere(self) -> bool:
        if self._retry is None or not self._is_asked():
            return False
        if self._since is None:
            self._since = time.monotonic()
        else:
            # It was found, and ended again without an answer.
            time.sleep(PAUSE)
        connection = self._connected_again(self._since + self._retry)
        if connection is None:
            self._over(f"no more answers come, and none came again for {self._retry:g} seconds")
            return False
        self._abandon()
        self._writing.acquire()
        if not self._is_taken_up(connection):
            self._writing.release()
            return False
        # Another thread writes, so that this one reads meanwhile: what is answered may be more than there is room for.
        threading.Thread(target=self._send_again, args=(self._all_again(),), daemon=True).start()
        return True

    def _is_taken_up(self, connection: socket.socket) -> bool:
        """Goes on over a connection, unless the session is over."""
        with self._listing:
            old, new = (connection, self._connection) if self._end is not None else (self._connection, connection)
            self._connection = new
        old.close()
        if old is connection:
            return False
        self._requests, self._answers = new.makefile("wb"), new.makefile("rb")
        self._silence.heard()
        return True

    def _is_asked(self) -> bool:
        """Waits until something is to be sent again. False if the session is over, or was to end the daemon."""
        with self._listing:
            # What was read may be of another file soon.
            self._told.clear()
            self.parted += 1
            self._listing.wait_for(lambda: self._waiting or self._put_off or self._closes or self._end is not None)
            return bool(self._waiting or self._put_off) and self._end is None and not self._stops

    def _connected_again(self, until: float) -> socket.socket | None:
        """A new connection to the same file. None if there is none in time, or another file is served on the port."""
        while self._end is None and time.monotonic() < until:
            with contextlib.suppress(NoAnswer, OSError, Refused):
                return self._of_the_same_file(_connection(self._port, until), until)
            time.sleep(PAUSE)
        return None

    def _of_the_same_file(self, connection: socket.socket, until: float) -> socket.socket | None:
        """The connection, if what was answered is known there: else another file is served on the port, and the session is over."""
        try:
            if is_known(self._made, lambda request: _answer_to(connection, line_of(request), until)):
                connection.settimeout(None)
                return connection
        except BaseException:
            connection.close()
            raise
        connection.close()
        self._over(f"another file is served on port {self._port} now")
        return None

    def _all_again(self) -> list[dict[str, Any]]:
        """What wasn't answered, in its order."""
        with self._listing:
            again = [*self._put_off, *self._waiting]
            self._put_off, self._waiting = deque(), deque(owed._replace(is_repeated=True) for owed in again)
        return [owed.request for owed in again]

    def _send_again(self, requests: list[dict[str, Any]]) -> None:
        """Sends requests before any other one, and ends the requests if the session closes."""
        try:
            for request in requests:
                self._write(line_of(repeated(request)))
            if self._closes:
                with contextlib.suppress(OSError):
                    self._end_requests()
        finally:
            self._writing.release()


def connect(port: int, timeout: float | None = TIMEOUT, retry: float | None = RETRY) -> SocketSession:
    """A session of the daemon whose `--sessions` port this is. `NoDaemon` if there is none; `Refused` with the number 8 if all 32 places are taken.

    `timeout` is how many seconds may pass without a byte while an answer is due; None waits as long as it takes. `retry` is for how many
    seconds the daemon is looked for again where a connection ends before all is answered, counted from the last answer; None sends nothing twice,
    and gives edits no token. Both may be infinite.

    >>> with connect(port) as one, connect(port) as other:
    ...     rev = one.document(7).insert(0, "seen by all")
    ...     other.document(7).text()
    'seen by all'
    """
    # Before there is a connection: it would keep a place.
    timeout, retry = timeout_of(timeout), retry_of(retry)
    return SocketSession(_connection(port, time.monotonic() + PATIENCE), port, timeout, retry)


def _connection(port: int, until: float) -> socket.socket:
    """A connection of which the daemon has a place, if it says so by then."""
    try:
        connection = socket.create_connection((HOST, port), timeout=PATIENCE)
    except OSError as error:
        raise NoDaemon(f"nobody listens on port {port} ({error.strerror or error}): start `peritext serve FILE --sessions {port} --peers PORT`") from None
    try:
        _greet(connection, port, until)
        return connection
    except BaseException:
        connection.close()
        raise


def _greet(connection: socket.socket, port: int, until: float) -> None:
    """Asks for the status, so that a daemon without a place for this session can say so."""
    # A request is small, and waits for nothing.
    connection.setsockopt(socket.IPPROTO_TCP, socket.TCP_NODELAY, 1)
    try:
        answer = answer_of(_answer_to(connection, line_of(STATUS), until), STATUS)
    except (NoAnswer, OSError):
        raise NoDaemon(f"no session is served on port {port}: name the port behind --sessions, not that behind --peers") from None
    if isinstance(answer, Refused):
        raise answer
    connection.settimeout(None)


def _answer_to(connection: socket.socket, line: bytes, until: float) -> bytes:
    """What comes after a line, while nothing else is under way, up to the first end of a line, by then and within the length that it may have."""
    until = min(until, time.monotonic() + PATIENCE)
    with contextlib.suppress(OSError):
        # The daemon may have answered and closed already.
        connection.sendall(line)
    came = b""
    while not came.endswith(b"\n"):
        connection.settimeout(max(until - time.monotonic(), 0.001))
        part = connection.recv(LONGEST)
        came += part
        if not part or len(came) > LONGEST:
            raise NoAnswer("no line came")
    return came
