"""What tells of changes, with asyncio."""

from __future__ import annotations

import asyncio
import contextlib
import weakref
from types import TracebackType
from typing import Any, Callable, Generic, Iterable, Literal, TypeVar

from .. import watching
from ..calls import Calls
from ..daemon import SocketSession
from ..following import Followed, Telling, end_of
from ..session import Session
from .opening import in_thread
from .running import Runner

# What is begun, what is given, and the kind of what gives it.
Begun = TypeVar("Begun")
Given = TypeVar("Given")
Kind = TypeVar("Kind", bound="Told[Any, Any]")


class Told(Generic[Begun, Given]):
    """An asynchronous iterator over connections of its own, which it begins with its block, or with the first thing that it gives."""

    def __init__(self, begin: Callable[[], Begun], end: Callable[[Begun], None]) -> None:
        self._begin = begin
        self._end = end
        self._begun: Begun | None = None
        # Ends that, once: also when nobody has this any more, as after a loop over `document.follow()`.
        self._ending: Callable[[], object] = lambda: None
        self._is_closed = False
        # Held while the next one is looked for.
        self._turn = asyncio.Lock()

    def __aiter__(self: Kind) -> Kind:
        return self

    async def __anext__(self) -> Given:
        async with self._turn:
            try:
                return await self._next(await self._there())
            except Exception:
                was_closed = self._is_closed
                await self.close()
                if was_closed:
                    raise StopAsyncIteration from None
                raise

    async def close(self) -> None:
        """Ends it, and gives its places back."""
        self._is_closed = True
        self._ending()

    async def __aenter__(self: Kind) -> Kind:
        async with self._turn:
            # A block over what is closed has nothing to give.
            with contextlib.suppress(StopAsyncIteration):
                await self._there()
        return self

    async def __aexit__(self, kind: type[BaseException] | None, error: BaseException | None, trace: TracebackType | None) -> None:
        await self.close()

    async def _there(self) -> Begun:
        """What it is over, which is begun if need be."""
        if self._is_closed:
            raise StopAsyncIteration
        if self._begun is None:
            begun = await in_thread(self._begin, self._end)
            ending = weakref.finalize(self, self._end, begun)
            ending.atexit = False
            self._begun, self._ending = begun, ending
        if self._is_closed:
            # It was closed meanwhile.
            self._ending()
            raise StopAsyncIteration
        return self._begun

    async def _next(self, begun: Begun) -> Given:
        raise NotImplementedError


class Watch(Told[watching.Watch, int]):
    """The `rev`s of a document's settled operations, each above the one before: one at first, and one after each change, or after some at once.

    It is an asynchronous iterator over a connection of its own: whoever looks seldom is given the newest number alone. It ends once it is closed, as at
    the end of an `async with` block. It goes on over a lost connection, and raises what ends it, as `peritext.Watch` does.
    """

    def __init__(self, session: Session, number: int) -> None:
        super().__init__(lambda: session.watch(number), lambda watch: watch.close())

    async def _next(self, begun: watching.Watch) -> int:
        return await begun.__anext__()


class WatchMany(Told[watching.WatchMany, watching.Settled]):
    """The `rev`s of the settled operations of many documents, each above the one before of its document.

    It is an asynchronous iterator over one connection: whoever looks seldom is given the newest number of each document alone. It ends, goes on and
    raises as a `Watch` does.
    """

    def __init__(self, session: Session, documents: Iterable[int] | Literal["all"]) -> None:
        super().__init__(lambda: session.watch_many(documents), lambda watch: watch.close())

    async def _next(self, begun: watching.WatchMany) -> watching.Settled:
        return await begun.__anext__()


class Pair:
    """A session and a watch of its own, and what they tell next."""

    def __init__(self, session: SocketSession, watch: watching.Watch, number: int) -> None:
        self.session = session
        self.watch = watch
        self.runner = Runner(session)
        self.telling = Telling(Calls(session, number), watch)

    def end(self) -> None:
        end_of(self.watch, self.session)


class Follow(Told[Pair, Followed]):
    """A document as it changes: a `Reset` with its whole text at first, and then a `Delta` for each change, as soon as the daemon tells of it.

    It is an asynchronous iterator over a session and a watch of its own, which are two places of the daemon. Whoever makes the spans of each of those
    before (`on`) has what `Document.spans` answers at its `rev`. Nothing piles up: whoever looks seldom is given one `Delta` of all that came meanwhile.
    What is told may not be on the disk yet.

    It ends once it is closed: by `close`, at the end of an `async with` block, or when nobody has it any more, as after a loop over `document.follow()`.
    A wait that is cancelled loses nothing. It goes on over a lost connection, and raises what ends it, as `peritext.Follow` does.
    """

    def __init__(self, session: Session, number: int) -> None:
        super().__init__(lambda: Pair(*session.followers(number), number), Pair.end)

    async def _next(self, begun: Pair) -> Followed:
        while True:
            while not begun.telling.is_due():
                begun.telling.hear(await begun.watch.__anext__())
            told = await begun.runner.run(begun.telling.look())
            if told is not None:
                return told
