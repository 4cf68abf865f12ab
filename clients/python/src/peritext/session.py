"""A session of the program, line by line."""

from __future__ import annotations

import threading
from collections import deque
from concurrent.futures import Future
from io import BufferedReader, UnsupportedOperation
from types import TracebackType
from typing import IO, TYPE_CHECKING, Any, Iterable, Literal, NamedTuple, TypeVar

from .answers import NoAnswer, answer_of
from .counting import DocumentCounts, Room, counts_of, room_of
from .document import Document
from .lines import Lines, line_of
from .peers import Connected, connected_of
from .refusals import Ended, Refused, Stale
from .seconds import timeout_of
from .silence import TIMEOUT, Silence

if TYPE_CHECKING:
    from .daemon import SocketSession
    from .following import Follow
    from .watching import Watch, WatchMany

# The kind of a session: over a file, or of a daemon.
Kind = TypeVar("Kind", bound="Session")
# Bytes that are read at once.
PART = 65_536


class Owed(NamedTuple):
    """An answer that is due, its request, and whether that was sent before, over a connection that ended.

    Who doesn't want the answer any more cancels it. It keeps its place in the order all the same.
    """

    answer: Future[dict[str, Any]]
    request: dict[str, Any]
    is_repeated: bool = False


class Session:
    """Requests and their answers, in order. Several threads may ask at once.

    A thread of its own reads the answers, so any number of requests can be under way. If no byte comes for `timeout` seconds while an answer
    is due, the session ends; with None it waits as long as it takes.
    """

    def __init__(self, requests: IO[bytes], answers: BufferedReader, timeout: float | None = TIMEOUT) -> None:
        timeout = timeout_of(timeout)
        self._requests = requests
        self._answers = answers
        self._waiting: deque[Owed] = deque()
        # What was answered, but is to be sent again over the next connection before those that wait.
        self._put_off: deque[Owed] = deque()
        # The documents whose `rev` was told in this session.
        self._told: set[int] = set()
        # How many connections have ended: a `rev` is none of the next one.
        self.parted = 0
        self._closes = False
        # Why it ended, once it has.
        self._end: str | None = None
        # Held while a request is written and its place among those that wait is taken.
        self._writing = threading.Lock()
        # Held while that list changes, or what is known of the end.
        self._listing = threading.Condition()
        self._timeout = timeout
        self._silence = Silence(timeout, self._fall_silent)
        self._reader = threading.Thread(target=self._read, daemon=True)
        self._reader.start()

    def document(self, number: int) -> Document:
        """The document of a number from 1 to 2^32 - 1. One that nobody edited is empty."""
        return Document(self, number)

    def watch(self, document: int) -> Watch:
        """Tells of the changes of a document. Only a session of a daemon does."""
        raise _untold()

    def watch_many(self, documents: Iterable[int] | Literal["all"]) -> WatchMany:
        """Tells of the changes of many documents. Only a session of a daemon does."""
        raise _untold()

    def follow(self, document: int) -> Follow:
        """Tells a document as it changes. Only a session of a daemon does."""
        raise _untold()

    def followers(self, document: int) -> tuple[SocketSession, Watch]:
        """What follows a document: a session and a watch of its own. Only a session of a daemon has them."""
        raise _untold()

    def ask(self, **fields: Any) -> dict[str, Any]:
        """The answer to a request, as it comes. `Refused` if it is refused, `Ended` if none comes."""
        return self.send(**fields).result()

    def edit(self, **fields: Any) -> int:
        """The `rev` after an edit. `Stale` if it names one and this session was told none of its document: before, the number of another
        session, or of the connection before, could name another text."""
        return int(self.begin(fields).result()["rev"])

    def begin(self, request: dict[str, Any], parted: int | None = None) -> Future[dict[str, Any]]:
        """Sends a request, as `edit` has it if it names a `rev`, and doesn't wait for its answer. If it is told how many connections had ended when that
        was read, it is `Stale` too if another one has ended since, whatever was read over the next one meanwhile."""
        return self._sent(request, needs_rev="rev" in request, parted=parted)

    def knows_rev(self, document: int) -> bool:
        """Whether this session was told a `rev` of a document. Before, the number of another session could name another text."""
        with self._listing:
            return document in self._told

    def send(self, **fields: Any) -> Future[dict[str, Any]]:
        """Sends a request and doesn't wait for its answer. Whoever cancels that gives up the answer alone: what was asked may be done."""
        return self._sent(fields, needs_rev=False)

    def _sent(self, fields: dict[str, Any], needs_rev: bool, parted: int | None = None) -> Future[dict[str, Any]]:
        request = self._named(fields)
        line = line_of(request)
        answer: Future[dict[str, Any]] = Future()
        with self._writing:
            with self._listing:
                if self._end is not None:
                    raise Ended(f"the session has ended ({self._end})")
                if needs_rev and (request["doc"] not in self._told or parted not in (None, self.parted)):
                    raise Stale(6, "stale")
                self._waiting.append(Owed(answer, request))
                self._silence.begin()
                self._listing.notify_all()
            try:
                self._write(line)
            except BaseException:
                # A signal, as by Ctrl-C: nobody knows how much of it was sent, and what is sent next would be taken for its end.
                answer.cancel()
                self._abandon()
                raise
        return answer

    def _named(self, request: dict[str, Any]) -> dict[str, Any]:
        """The request as it is sent."""
        return request

    def _write(self, line: bytes) -> None:
        try:
            self._requests.write(line)
            self._requests.flush()
        except (OSError, ValueError):
            # The reader sees the end too, and goes on elsewhere or tells all that wait.
            pass

    def settled(self) -> bool:
        """Whether all that was edited is settled on the disk."""
        status = self.ask(op="status")
        return bool(status["settled"] == status["applied"])

    def peers(self) -> Connected:
        """Who is connected to the daemon: its peers, with what each has and lacks, and how many sessions. Over a file it is this session alone."""
        return connected_of(self.ask(op="peers"))

    def documents(self) -> list[DocumentCounts]:
        """What is counted of each document that has operations, in rising order of their numbers. What isn't settled yet is counted, as `text` shows it.
        It costs nothing for the characters of a document. An earlier program refuses it (3)."""
        return counts_of(self.ask(op="documents"))

    def room(self) -> Room:
        """How much the file has of what there is a limit to, with the limits: what `peritext list` says of a file, and the steps since it was opened.
        An earlier program refuses it (3)."""
        return room_of(self.ask(op="room"))

    def stop(self) -> None:
        """Has all that was edited settled, and no more edits taken (`Refused`, 12). A daemon ends with that, for all its sessions and peers."""
        self.ask(op="stop")

    def close(self) -> None:
        """Ends the session, once all that was sent is answered."""
        with self._listing:
            self._closes = True
            # The end of the answers is due.
            self._silence.begin()
            self._listing.notify_all()
        with self._writing:
            try:
                self._end_requests()
            except OSError:
                pass
        self._reader.join()
        self._answers.close()

    def _end_requests(self) -> None:
        """Says that no more is sent."""
        self._requests.close()

    def _abandon(self) -> None:
        """Cuts off both directions, so that nobody waits to read or to write."""

    def __enter__(self: Kind) -> Kind:
        return self

    def __exit__(self, kind: type[BaseException] | None, error: BaseException | None, trace: TracebackType | None) -> None:
        self.close()

    def _read(self) -> None:
        """Gives answers until no more can come. However that ends, all who wait are told."""
        end = "no more answers come"
        try:
            end = self._read_to_end()
            while self._goes_on():
                end = self._read_to_end()
        finally:
            self._over(end)
            self._silence.close()

    def _goes_on(self) -> bool:
        """Whether the answers that are due come over another connection, which is there then."""
        return False

    def _read_to_end(self) -> str:
        """Gives the answers that come, and why there are no more."""
        try:
            return self._read_all() or "no more answers come"
        except OSError as error:
            return f"reading failed: {error}"
        except Exception as error:
            end = str(error) if isinstance(error, NoAnswer) else f"an answer couldn't be read: {error!r}"
            # Nothing after it can be told apart.
            self._over(end)
            self._abandon()
            return end

    def _read_all(self) -> str | None:
        """Why the answers ended, if they didn't do so between two of them."""
        lines = Lines()
        while part := self._answers.read1(PART):
            self._silence.heard()
            for line in lines.take(part):
                self._take(line)
        return "an answer was cut off" if lines.is_within() else None

    def _take(self, line: bytes) -> None:
        with self._listing:
            owed = self._waiting[0] if self._waiting else None
        if owed is None:
            raise NoAnswer("a line came that nobody asked for")
        # It waits on until this is known to be its answer.
        told = answer_of(line, owed.request)
        if self._is_taken_off(told, self._puts_off(owed, told)):
            if isinstance(told, Refused):
                owed.answer.set_exception(told)
            else:
                owed.answer.set_result(told)

    def _puts_off(self, owed: Owed, told: dict[str, Any] | Refused) -> bool:
        """Whether a request is to be sent again, over the next connection, though it was answered."""
        return False

    def _is_taken_off(self, told: dict[str, Any] | Refused, is_put_off: bool) -> bool:
        """Takes the first of those that wait off the list, and whether its answer is told: it isn't where nobody wants it any more, the request is
        put off, or all of them were told of the end meanwhile."""
        with self._listing:
            if self._end is not None:
                return False
            owed = self._waiting.popleft()
            if is_put_off:
                self._put_off.append(owed)
                return False
            if not self._waiting and not self._put_off and not self._closes:
                self._silence.end()
            # From now on nobody gives it up.
            is_wanted = owed.answer.set_running_or_notify_cancel()
            self._note(owed, told)
            return is_wanted

    def _note(self, owed: Owed, told: dict[str, Any] | Refused) -> None:
        """Keeps what an answer tells. That to an edit which was sent before may be older than what is there. Who gave it up knows no number by it:
        that of the connection before would be taken for one of this."""
        doc, is_old = owed.request.get("doc"), owed.is_repeated and "token" in owed.request
        if not isinstance(told, Refused) and "rev" in told and isinstance(doc, int) and not is_old and not owed.answer.cancelled():
            self._told.add(doc)

    def _fall_silent(self) -> None:
        self._over(f"no byte came for {self._timeout:g} seconds, its timeout")
        self._abandon()

    def _over(self, end: str) -> None:
        """Ends the session, unless it has ended, and tells all that wait."""
        with self._listing:
            if self._end is None:
                self._end = end
            left = [*self._put_off, *self._waiting]
            self._put_off, self._waiting = deque(), deque()
        for owed in left:
            if owed.answer.set_running_or_notify_cancel():
                owed.answer.set_exception(
                    Ended(f"the session ended before this request was answered ({self._end}): begin another one, and read what is there")
                )


def _untold() -> UnsupportedOperation:
    return UnsupportedOperation("nobody tells of changes where a session has its file alone: connect to a daemon (`peritext serve`)")
