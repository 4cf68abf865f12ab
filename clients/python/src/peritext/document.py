"""A document of a session."""

from __future__ import annotations

from typing import TYPE_CHECKING, Any, Iterable
from uuid import UUID

from .action import Action, Fields, Lasting, Place
from .calls import Calls, Found, Reading
from .changing import Changes
from .counting import Version
from .marks import Mark, Span
from .running import run

if TYPE_CHECKING:
    from concurrent.futures import Future

    from .following import Follow
    from .session import Session

__all__ = ["Document", "Found", "Reading"]


class Document:
    """A document, by its number. Places are counted in characters, from 0; an edit may name the `rev` that it was made for.

    In place of a number an edit may be given the name of a place that lasts, as `anchor` tells it: then it is made where that is by then, whatever
    others did meanwhile, and needs no `rev`. But 257 characters or more just after a character can be `Stale` beside others who type.

    Each edit answers the document's new `rev` once it is settled on the disk: it then outlives a power cut. An edit with a `token` is made
    once, however often it is sent, and answered as at first: also by another session of the same file, and after a crash. A session of a daemon
    draws one where none is given.

    An `insert` of more than 256 characters is made at once too, as far as one line takes it, which are 64 KiB. A longer one goes as several lines,
    each of which is answered before the next one is sent, and a `delete` of more than 256 characters as several edits. If another session edits the
    document in between, the next one is `Stale`, and those before it are made. The tokens of all but the first follow from the one that is given.
    At a place that lasts some of these are made by numbers, in just the text in which the place was asked for: where it takes several lines, and where
    a long text comes just after a character. If others edit meanwhile it is asked for again, up to eight times, and then `Stale`.

    Beside calls of other threads a long text just after a character, and a call of several lines, aren't made in the order of the calls, unless they
    were answered before the next one.
    """

    def __init__(self, session: Session, number: int) -> None:
        self.session = session
        self.number = number
        self._calls = Calls(session, number)

    def insert(self, at: Place, text: str, rev: int | None = None, token: UUID | None = None) -> int:
        """Puts characters before the one at a place, or at the end.

        >>> _ = document.insert(0, "fox")
        >>> caret = document.anchor(0, "next")
        >>> _ = document.insert("start", "> ")
        >>> _ = document.insert(caret, "red ")
        >>> document.text()[:9]
        '> red fox'
        """
        return run(self.session, self._calls.insert(at, text, rev, token))

    def delete(self, at: Place, count: int, rev: int | None = None, token: UUID | None = None) -> int:
        """Takes characters away from a place on."""
        return run(self.session, self._calls.delete(at, count, rev, token))

    def mark(self, start: Place, end: Place, mark: Mark, rev: int | None = None, token: UUID | None = None) -> int:
        """Marks the characters from a place up to another, that one not included."""
        return run(self.session, self._calls.mark(start, end, mark, rev, token))

    def unmark(self, start: Place, end: Place, mark: Mark, rev: int | None = None, token: UUID | None = None) -> int:
        """Takes a mark away from the characters from a place up to another, that one not included."""
        return run(self.session, self._calls.unmark(start, end, mark, rev, token))

    def action(self, rev: int | None = None, token: UUID | None = None, parted: bool = False) -> Action:
        """Edits that are made at once, at the end of a `with` block: all of them or none, and nothing comes between them. Each is at the places that
        those before it leave. If the block raises, nothing is sent.

        >>> _ = document.insert(0, "one two ")
        >>> with document.action() as action:
        ...     action.delete(4, 3)
        ...     action.insert(4, "TWO")
        ...     action.mark(4, 7, STRONG)
        >>> document.spans()[:2], action.rev == document.rev()
        ([Span(text='one '), Span(text='TWO', strong=True)], True)

        One line takes 1,024 edits of at most 256 characters (a longer one is several of them), and 65,536 bytes. More is a `ValueError`, and nothing
        is sent; with `parted` it goes as several lines, each of them all or nothing, as a long `insert` does.
        """
        return Action(self, rev, token, parted)

    def edits(self, edits: Iterable[Fields], rev: int | None = None, token: UUID | None = None, parted: bool = False) -> int:
        """The same as `action` with edits that are there already, each with the fields of its request other than `doc`, `rev` and `token`.

        >>> rev = document.edits([{"op": "insert", "at": 0, "text": "ab"}, {"op": "delete", "at": 1, "count": 1}])
        """
        return run(self.session, self._calls.edits(edits, rev, token, parted))

    def text(self, at_rev: int | None = None) -> str:
        """The text; with `at_rev` as it was after the document's first so many operations. It is `Stale` if the document has fewer. It costs what
        opening so much of the document does.

        >>> rev = document.insert(0, "fox")
        >>> _ = document.delete(0, 3)
        >>> document.text(at_rev=rev)[:3]
        'fox'
        """
        return run(self.session, self._calls.text(at_rev))

    def read(self) -> Reading:
        """The text with its `rev`.

        >>> text, rev = document.read()
        >>> rev = document.insert(len(text), "!", rev)
        """
        return run(self.session, self._calls.read())

    def spans(self, at_rev: int | None = None) -> list[Span]:
        """The text in runs of equal marks, with `at_rev` as it was then."""
        return run(self.session, self._calls.spans(at_rev))

    def versions(self, every: int) -> list[Version]:
        """The document's operations as versions, the first one first: each is of one replica, and of at most `every` operations. The `rev` of one is
        what `text` and `spans` take as `at_rev`. A document without operations has none. An earlier program refuses it (3)."""
        return run(self.session, self._calls.versions(every))

    def export(self, form: str, breaks: bool = False) -> str:
        """The text as a page, with its marks: `html`, `markdown`, or `text` without them. Each line of it is a paragraph, an empty one too; with
        `breaks` it has breaks of the line instead.

        >>> _ = document.insert(0, "one\\ntwo ")
        >>> document.export("markdown")[:8], document.export("markdown", breaks=True)[:8]
        ('one\\n\\ntwo', 'one\\\\\\ntwo')
        """
        return run(self.session, self._calls.export(form, breaks))

    def find(self, text: str, start: int = 0) -> Found:
        """All places from `start` on at which a text of 1 to 256 characters stands, overlapping ones too, and the `rev` of the text in which it was
        looked for. More than 1,024 go as several requests: unless all of them are answered at one `rev`, they are sent anew, and are `Stale`
        after eight times."""
        return run(self.session, self._calls.find(text, start))

    def changes(self, since: int) -> Changes:
        """What changed since a `rev`, for whoever has the text of then: steps that make the text of now of it, from its start on, each over so
        many characters, and the `rev` of now. A character that stayed is the one that it was, whatever equal ones stand beside it. From 0 on
        there is an `Insert` for each span. `applied` makes the spans of now of those of then.

        >>> since = document.insert(0, "red fox")
        >>> _ = document.delete(0, 3)
        >>> steps, rev = document.changes(since)
        >>> steps
        [Delete(count=3)]

        It is `Stale` if the document doesn't have so many operations, and if they are too old to be told: from before the file was opened.
        The `rev` of another session, or of the connection before, could name another text: so it is `Stale` too, and isn't asked for, before
        this session was told one of this document over its connection. Then go on from 0.
        """
        return run(self.session, self._calls.changes(since))

    def follow(self) -> Follow:
        """The document as it changes, whoever edits: a `Reset` with its whole text at first, then a `Delta` for each change as soon as a daemon tells
        of it, until it is closed. It has a session and a watch of its own, which are two places of the daemon.

            shown = []
            for delta in document.follow():
                shown = delta.on(shown)

        `io.UnsupportedOperation` in a session over a file, which nobody else edits.
        """
        return self.session.follow(self.number)

    def anchor(self, at: int, side: str = "previous", rev: int | None = None) -> Lasting:
        """A name for a place between characters, which lasts: it stays with the character before it (`previous`, so that what is typed there
        comes after it) or with the one after it (`next`), at every peer and in every session. `places` tells where it is by then. With the
        `rev` of a text that was read it is of just this text, or `Stale`.

        >>> _ = document.insert(0, "fox")
        >>> caret = document.anchor(3)
        >>> _ = document.insert(0, "The ")
        >>> document.place(caret)
        7
        """
        return run(self.session, self._calls.anchor(at, side, rev))

    def anchors(self, at: Iterable[int], side: str = "previous", rev: int | None = None) -> list[Lasting]:
        """Such names for any number of places. More than 256 go as several requests, which may be answered at different moments: unless all of
        them are answered at one `rev`, they are sent anew, and are `Stale` after eight times."""
        return run(self.session, self._calls.anchors(at, side, rev))

    def place(self, anchor: str, rev: int | None = None) -> int | None:
        """Where a place that lasts is now, or None if it is beside a character that this file doesn't have, or doesn't have yet. Beside one that
        was removed it stays where that was. With the `rev` of a text that was read it is a place of just this text, or `Stale`."""
        return run(self.session, self._calls.place(anchor, rev))

    def places(self, anchors: Iterable[str], rev: int | None = None) -> list[int | None]:
        """Where any number of such places are now. More than 256 go as several requests, as those of `anchors` do."""
        return run(self.session, self._calls.places(anchors, rev))

    def rev(self) -> int:
        """How many operations the document has."""
        return run(self.session, self._calls.rev())

    def send_insert(self, at: int, text: str) -> Future[dict[str, Any]]:
        """The same as `insert`, without waiting, of 1 to 256 characters: many may be under way, and they are made in this order.

        >>> under_way = [document.send_insert(0, letter) for letter in "cba"]
        >>> _ = [edit.result() for edit in under_way]
        >>> document.text().startswith("abc")
        True
        """
        return self.session.send(op="insert", doc=self.number, at=at, text=text)
