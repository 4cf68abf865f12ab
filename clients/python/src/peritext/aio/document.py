"""A document of a session, with asyncio."""

from __future__ import annotations

from types import TracebackType
from typing import Iterable
from uuid import UUID

from ..action import Collected, Fields, Lasting, Place
from ..calls import Calls, Found, Reading
from ..changing import Changes
from ..counting import Version
from ..marks import Mark, Span
from .following import Follow
from .running import Runner


class Document:
    """A document, by its number. Places are counted in characters, from 0, or are places that last, as `anchor` names them; an edit may name the `rev`
    that it was made for.

    Each edit answers the document's new `rev` once it is settled on the disk: it then outlives a power cut. An edit with a `token` is made once,
    however often it is sent. Long inserts and deletes go as those of `peritext.Document` do. Calls of several tasks are made in the order in which
    they were begun, so that `asyncio.gather` has many under way. A long text just after a character, and a call of several lines, aren't, unless they
    are awaited before the next one; and 257 characters or more just after a character can be `Stale` beside others who type.
    """

    def __init__(self, runner: Runner, number: int) -> None:
        self.number = number
        self._runner = runner
        self._calls = Calls(runner.session, number)

    async def insert(self, at: Place, text: str, rev: int | None = None, token: UUID | None = None) -> int:
        """Puts characters before the one at a place, or at the end."""
        return await self._runner.run(self._calls.insert(at, text, rev, token))

    async def delete(self, at: Place, count: int, rev: int | None = None, token: UUID | None = None) -> int:
        """Takes characters away from a place on."""
        return await self._runner.run(self._calls.delete(at, count, rev, token))

    async def mark(self, start: Place, end: Place, mark: Mark, rev: int | None = None, token: UUID | None = None) -> int:
        """Marks the characters from a place up to another, that one not included."""
        return await self._runner.run(self._calls.mark(start, end, mark, rev, token))

    async def unmark(self, start: Place, end: Place, mark: Mark, rev: int | None = None, token: UUID | None = None) -> int:
        """Takes a mark away from the characters from a place up to another, that one not included."""
        return await self._runner.run(self._calls.unmark(start, end, mark, rev, token))

    def action(self, rev: int | None = None, token: UUID | None = None, parted: bool = False) -> Action:
        """Edits that are made at once, at the end of an `async with` block: all of them or none, and nothing comes between them. If the block raises,
        nothing is sent. `peritext.Document.action` says what one line takes, and what `parted` is for.

            async with document.action() as action:
                action.delete(4, 3)
                action.insert(4, "TWO")
        """
        return Action(self, rev, token, parted)

    async def edits(self, edits: Iterable[Fields], rev: int | None = None, token: UUID | None = None, parted: bool = False) -> int:
        """The same as `action` with edits that are there already, each with the fields of its request other than `doc`, `rev` and `token`."""
        return await self._runner.run(self._calls.edits(edits, rev, token, parted))

    async def text(self, at_rev: int | None = None) -> str:
        """The text; with `at_rev` as it was after the document's first so many operations. It is `Stale` if the document has fewer."""
        return await self._runner.run(self._calls.text(at_rev))

    async def read(self) -> Reading:
        """The text with its `rev`."""
        return await self._runner.run(self._calls.read())

    async def spans(self, at_rev: int | None = None) -> list[Span]:
        """The text in runs of equal marks, with `at_rev` as it was then."""
        return await self._runner.run(self._calls.spans(at_rev))

    async def versions(self, every: int) -> list[Version]:
        """The document's operations as versions, the first one first: each is of one replica, and of at most `every` operations, as
        `peritext.Document.versions` says."""
        return await self._runner.run(self._calls.versions(every))

    async def export(self, form: str, breaks: bool = False) -> str:
        """The text as a page, with its marks: `html`, `markdown`, or `text` without them. Each line of it is a paragraph, an empty one too; with
        `breaks` it has breaks of the line instead."""
        return await self._runner.run(self._calls.export(form, breaks))

    async def find(self, text: str, start: int = 0) -> Found:
        """All places from `start` on at which a text of 1 to 256 characters stands, overlapping ones too, and the `rev` of the text in which it was
        looked for. More than 1,024 go as several requests, and are `Stale` as `peritext.Document.find` says."""
        return await self._runner.run(self._calls.find(text, start))

    async def changes(self, since: int) -> Changes:
        """What changed since a `rev`, for whoever has the text of then: steps that make the text of now of it, and the `rev` of now. `Stale` if
        nobody tells, as `peritext.Document.changes` says: then go on from 0."""
        return await self._runner.run(self._calls.changes(since))

    def follow(self) -> Follow:
        """The document as it changes, whoever edits: a `Reset` with its whole text at first, then a `Delta` for each change as soon as a daemon tells
        of it, until it is closed. It has a session and a watch of its own, which are two places of the daemon.

            shown = []
            async for delta in document.follow():
                shown = delta.on(shown)

        `io.UnsupportedOperation` in a session over a file, which nobody else edits.
        """
        return Follow(self._runner.session, self.number)

    async def anchor(self, at: int, side: str = "previous", rev: int | None = None) -> Lasting:
        """A name for a place between characters, which lasts: it stays with the character before it (`previous`, so that what is typed there comes
        after it) or with the one after it (`next`). With the `rev` of a text that was read it is of just this text, or `Stale`."""
        return await self._runner.run(self._calls.anchor(at, side, rev))

    async def anchors(self, at: Iterable[int], side: str = "previous", rev: int | None = None) -> list[Lasting]:
        """Such names for any number of places."""
        return await self._runner.run(self._calls.anchors(at, side, rev))

    async def place(self, anchor: str, rev: int | None = None) -> int | None:
        """Where a place that lasts is now, or None if it is beside a character that this file doesn't have, or doesn't have yet."""
        return await self._runner.run(self._calls.place(anchor, rev))

    async def places(self, anchors: Iterable[str], rev: int | None = None) -> list[int | None]:
        """Where any number of such places are now."""
        return await self._runner.run(self._calls.places(anchors, rev))

    async def rev(self) -> int:
        """How many operations the document has."""
        return await self._runner.run(self._calls.rev())


class Action(Collected):
    """Edits of a document that are made at the end of an `async with` block, each at the places that those before it leave; none if the block raises.

    `rev` is the document's behind them, once they are made.
    """

    def __init__(self, document: Document, rev: int | None, token: UUID | None, parted: bool) -> None:
        super().__init__()
        self._document = document
        self._given = (rev, token, parted)

    async def __aenter__(self) -> Action:
        return self

    async def __aexit__(self, kind: type[BaseException] | None, error: BaseException | None, trace: TracebackType | None) -> None:
        if edits := self._made(kind):
            self.rev = await self._document.edits(edits, *self._given)
