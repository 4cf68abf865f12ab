"""Sessions with asyncio."""

from __future__ import annotations

from types import TracebackType
from typing import Any, Callable, Iterable, Literal
from uuid import UUID

from .. import daemon
from .. import file as files
from ..calls import Answer
from ..counting import DocumentCounts, Room, counts_of, room_of
from ..daemon import RETRY
from ..file import Path
from ..peers import Connected, connected_of
from ..session import Session as Threaded
from ..silence import TIMEOUT
from .document import Document
from .following import Follow, Watch, WatchMany
from .opening import Opening, in_thread
from .running import Runner


class Session:
    """Requests and their answers, in order, for the tasks of one event loop. Any number of requests can be under way."""

    def __init__(self, session: Threaded) -> None:
        self._runner = Runner(session)

    def document(self, number: int) -> Document:
        """The document of a number from 1 to 2^32 - 1. One that nobody edited is empty."""
        return Document(self._runner, number)

    def watch(self, document: int) -> Watch:
        """Tells of the changes of a document, over a connection of its own, and takes a place more.

            async with session.watch(1) as revs:
                async for rev in revs: ...

        `io.UnsupportedOperation` in a session over a file.
        """
        return Watch(self._runner.session, document)

    def watch_many(self, documents: Iterable[int] | Literal["all"]) -> WatchMany:
        """Tells of the changes of many documents, 1 to 1,024 of them or `"all"`, over one connection, and takes one place more.

            async with session.watch_many("all") as told:
                async for document, rev in told: ...

        `io.UnsupportedOperation` in a session over a file.
        """
        return WatchMany(self._runner.session, documents)

    def follow(self, document: int) -> Follow:
        """Tells a document as it changes, as `Document.follow` does."""
        return Follow(self._runner.session, document)

    async def ask(self, **fields: Any) -> Answer:
        """The answer to a request, as it comes. `Refused` if it is refused, `Ended` if none comes."""
        [answer] = await self._runner.answers(lambda: [self._runner.session.send(**fields)])
        return answer

    @property
    def parted(self) -> int:
        """How many connections have ended: a `rev` is none of the next one."""
        return self._runner.session.parted

    def knows_rev(self, document: int) -> bool:
        """Whether this session was told a `rev` of a document. Before, the number of another session could name another text."""
        return self._runner.session.knows_rev(document)

    async def settled(self) -> bool:
        """Whether all that was edited is settled on the disk."""
        status = await self.ask(op="status")
        return bool(status["settled"] == status["applied"])

    async def peers(self) -> Connected:
        """Who is connected to the daemon: its peers, with what each has and lacks, and how many sessions. Over a file it is this session alone."""
        return connected_of(await self.ask(op="peers"))

    async def documents(self) -> list[DocumentCounts]:
        """What is counted of each document that has operations, in rising order of their numbers. What isn't settled yet is counted, as `text` shows it.
        It costs nothing for the characters of a document. An earlier program refuses it (3)."""
        return counts_of(await self.ask(op="documents"))

    async def room(self) -> Room:
        """How much the file has of what there is a limit to, with the limits: what `peritext list` says of a file, and the steps since it was opened.
        An earlier program refuses it (3)."""
        return room_of(await self.ask(op="room"))

    async def stop(self) -> None:
        """Has all that was edited settled, and no more edits taken (`Refused`, 12). A daemon ends with that, for all its sessions and peers."""
        await self.ask(op="stop")

    async def close(self) -> None:
        """Ends the session, once all that was sent is answered."""
        await self._runner.close()

    async def __aenter__(self) -> Session:
        return self

    async def __aexit__(self, kind: type[BaseException] | None, error: BaseException | None, trace: TracebackType | None) -> None:
        await self.close()


def connect(port: int, timeout: float | None = TIMEOUT, retry: float | None = RETRY) -> Opening[Session]:
    """A session of the daemon whose `--sessions` port this is: `async with aio.connect(7001) as session`, or `session = await aio.connect(7001)`.

    `NoDaemon` if there is none; `Refused` with the number 8 if all 32 places are taken. `timeout` and `retry` are as `peritext.connect` has them.
    """
    return _opening(lambda: daemon.connect(port, timeout, retry))


def open(file: Path, program: Path = "peritext", timeout: float | None = TIMEOUT) -> Opening[Session]:
    """A session over a file, which no other program can have open meanwhile: `async with aio.open("notes") as session`, or `await aio.open("notes")`.

    `Refused` if it can't be opened, as 54 if another program has it. `timeout` is as `peritext.open` has it.
    """
    return _opening(lambda: files.open(file, program, timeout))


async def init(file: Path, replica: UUID | None = None, program: Path = "peritext") -> UUID:
    """Makes the file of a new replica, with an id that nobody else has, and gives that id."""
    return await in_thread(lambda: files.init(file, replica, program), lambda made: None)


def _opening(begin: Callable[[], Threaded]) -> Opening[Session]:
    async def opened() -> Session:
        return Session(await in_thread(begin, lambda session: session.close()))

    return Opening(opened)
