"""A document as it changes: its whole text at first, then the steps that make of each text the next one."""

from __future__ import annotations

import threading
import weakref
from dataclasses import dataclass
from types import TracebackType
from typing import TYPE_CHECKING, Iterable, Union

from .calls import ROUNDS, Call, Calls
from .changing import Step, applied
from .marks import Span
from .refusals import Stale
from .running import run
from .watching import Watch

if TYPE_CHECKING:
    from .daemon import SocketSession

# The number of what wasn't told yet: below all others.
NONE = -1


@dataclass(frozen=True)
class Reset:
    """The whole text, in place of all that was told before, and its `rev`."""

    spans: list[Span]
    rev: int

    def on(self, shown: Iterable[Span]) -> list[Span]:
        """The spans to show from now on, whatever was shown."""
        return list(self.spans)


@dataclass(frozen=True)
class Delta:
    """Steps over the text that was told last, from its start on, and the `rev` of the text that they make."""

    steps: list[Step]
    rev: int

    def on(self, shown: Iterable[Span]) -> list[Span]:
        """The spans to show from now on, made of those that were shown."""
        return applied(shown, self.steps)


Followed = Union[Reset, Delta]


class Telling:
    """What of a document is told next, whoever waits for it: after what was told last, and as its watch has told numbers."""

    def __init__(self, calls: Calls, watch: Watch) -> None:
        self._calls = calls
        self._watch = watch
        # The newest number that nobody has asked about yet, and over how many connections of the watch there was one when it was asked last.
        self._number = NONE
        self._connections = 0
        # What was told last, and how many connections of the session had ended then, or fewer.
        self._spans: list[Span] = []
        self._rev = NONE
        self._parted = NONE

    def hear(self, number: int) -> None:
        """The watch has told a number."""
        self._number = number

    def is_due(self) -> bool:
        """Whether something may be new: a number isn't reached, or comes from a daemon that may be another one."""
        return self._number > self._rev or self._watch.connections > self._connections

    def look(self) -> Call[Followed | None]:
        """What is new, if there is anything."""
        connections = self._watch.connections
        told, parted = yield from self._told()
        self._number, self._connections, self._parted = NONE, connections, parted
        if told == Delta([], self._rev):
            return None
        self._spans, self._rev = told.on(self._spans), told.rev
        return told

    def _told(self) -> Call[tuple[Followed, int]]:
        """What there is, and how many connections had ended before it was asked for."""
        parted = self._calls.session.parted
        if self._rev == NONE:
            return (yield from self._whole()), parted
        delta = yield from self._since()
        # The session may know a number of another connection by an earlier look, whose end nobody waited for.
        if delta is not None and self._calls.session.parted == self._parted:
            return delta, parted
        return (yield from self._anew())

    def _whole(self) -> Call[Reset]:
        # An earlier daemon refuses it at once, and not first at a change.
        steps, rev = yield from self._calls.changes(0)
        return Reset(applied([], steps), rev)

    def _since(self) -> Call[Delta | None]:
        """The steps from what was told last, if the daemon has them over the same connection."""
        try:
            return Delta(*(yield from self._calls.changes(self._rev)))
        except Stale:
            return None

    def _anew(self) -> Call[tuple[Followed, int]]:
        """What is there over another connection: as steps if they are told and lead there. Both are asked for until they are of one moment."""
        for _ in range(ROUNDS):
            parted = self._calls.session.parted
            reset = yield from self._whole()
            delta = yield from self._since()
            if parted == self._calls.session.parted and (delta is None or delta.rev == reset.rev):
                break
        return delta if delta is not None and self._leads(delta, reset) else reset, parted

    def _leads(self, delta: Delta, reset: Reset) -> bool:
        try:
            return delta.rev == reset.rev and delta.on(self._spans) == reset.spans
        except ValueError:
            return False


class Follow:
    """A document as it changes: a `Reset` with its whole text at first, and then a `Delta` for each change, as soon as the daemon tells of it.

    Whoever makes the spans of each of those before (`on`) has what `Document.spans` answers at its `rev`. Nothing piles up: whoever looks seldom is
    given one `Delta` of all that came meanwhile. What is told may not be on the disk yet.

    It is an iterator over a session and a watch of its own, which are two places of the daemon, and several threads may take from it. It ends once it
    is closed: by `close`, from any thread, at the end of a `with` block, or when nobody has it any more, as after a loop over `document.follow()`.

    If its connections end, they are made anew as those of its session are, for `retry` seconds. What was told last may be another text there, under
    the same number. So it goes on with a `Delta` if that leads to what is there then, else with a `Reset`; or not at all, if nothing has changed.
    If there is nobody, it raises `Ended`; and it raises any `Refused` that ends a watch, as 9, or that answers it, as 3 by an earlier daemon.
    """

    def __init__(self, session: SocketSession, number: int, watch: Watch) -> None:
        """Takes a session and a watch, which tells the first number of each connection, and ends them with itself."""
        self._session = session
        self._telling = Telling(Calls(session, number), watch)
        self._watch = watch
        # Held while the next one is looked for.
        self._turn = threading.Lock()
        self._end = weakref.finalize(self, end_of, watch, session)
        self._end.atexit = False

    def __iter__(self) -> Follow:
        return self

    def __next__(self) -> Followed:
        with self._turn:
            try:
                return self._next()
            except Exception:
                if not self._end.alive:
                    raise StopIteration from None
                self.close()
                raise

    def close(self) -> None:
        """Ends it, and gives its places back."""
        self._end()

    def __enter__(self) -> Follow:
        return self

    def __exit__(self, kind: type[BaseException] | None, error: BaseException | None, trace: TracebackType | None) -> None:
        self.close()

    def _next(self) -> Followed:
        """Asks at each number that isn't reached yet, until something is new."""
        while True:
            while not self._telling.is_due():
                self._telling.hear(next(self._watch))
            told = run(self._session, self._telling.look())
            if told is not None:
                return told


def end_of(watch: Watch, session: SocketSession) -> None:
    """Gives the places of both back."""
    watch.close()
    session.cut()
