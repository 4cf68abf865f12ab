"""Edits that are made at once: all of them or none, and nothing comes between them."""

from __future__ import annotations

from types import TracebackType
from typing import TYPE_CHECKING, Any, Iterable, Iterator, Literal, Mapping, NamedTuple, NewType, Sequence, Union
from uuid import UUID

from .again import NEVER
from .limit_table import LINE_BYTES, TAKEN_CHARACTERS
from .lines import line_of
from .marks import Mark
from .refusal_table import ONE_LINE
from .rules import LONGEST, MANY, broken, is_lasting, is_long, is_whole, lasting_of

if TYPE_CHECKING:
    from .document import Document

# The fields of an edit, as a request spells them.
Fields = Mapping[str, Any]
# The name of a place that lasts, as `anchor` gives it; a text that was kept is one by `Lasting(text)`.
Lasting = NewType("Lasting", str)
# A place of an edit: how many characters are before it, or a place that lasts.
Place = Union[int, Lasting, Literal["start", "end"]]
# What stands around the edits of a line, as long as it can be: a call that is sent again is parted as it was.
AROUND = {"op": "edits", "doc": NEVER, "rev": NEVER, "token": f"urn:uuid:{UUID(int=0)}", "edits": []}
ROOM = LINE_BYTES - len(line_of(AROUND))
# A number that no place of a text has: one whose character isn't known is refused as such a number is (5).
BEYOND = 2**31


class Piece(NamedTuple):
    """An edit as it is sent, of at most 256 characters, and which one it is of those that the caller made at once. It counts for some bytes more
    than it has if its numbers may be longer where the call is sent again."""

    edit: dict[str, Any]
    number: int | None = None
    more: int = 0


class Collected:
    """Edits of a document that are made at once later on, each at the places that those before it leave. A place is a number of characters, or one
    that lasts: that is where its character is before the first of the edits, moved by those that stand before its own.

    `rev` is the document's behind them, once they are made.
    """

    def __init__(self) -> None:
        self.rev: int | None = None
        self._edits: list[Fields] = []
        self._is_over = False

    def insert(self, at: Place, text: str) -> None:
        """Puts characters before the one at a place, or at the end."""
        self._add(inserting(at, text))

    def delete(self, at: Place, count: int) -> None:
        """Takes characters away from a place on."""
        self._add(deleting(at, count))

    def mark(self, start: Place, end: Place, mark: Mark) -> None:
        """Marks the characters from a place up to another, that one not included."""
        self._add(marking(start, end, mark))

    def unmark(self, start: Place, end: Place, mark: Mark) -> None:
        """Takes a mark away from the characters from a place up to another, that one not included."""
        self._add(unmarking(start, end, mark))

    def _add(self, edit: Fields) -> None:
        if self._is_over:
            raise ValueError("this action is over: begin another one")
        self._edits.append(edit)

    def _made(self, kind: type[BaseException] | None) -> list[Fields]:
        """Those that are to be made at the end of a block: none if it raised."""
        self._is_over = True
        return self._edits if kind is None else []


class Action(Collected):
    """Edits of a document that are made at the end of a `with` block, each at the places that those before it leave; none if the block raises.

    `rev` is the document's behind them, once they are made.
    """

    def __init__(self, document: Document, rev: int | None, token: UUID | None, parted: bool) -> None:
        super().__init__()
        self._document = document
        self._given = (rev, token, parted)

    def __enter__(self) -> Action:
        return self

    def __exit__(self, kind: type[BaseException] | None, error: BaseException | None, trace: TracebackType | None) -> None:
        if edits := self._made(kind):
            self.rev = self._document.edits(edits, *self._given)


def inserting(at: Place, text: str) -> dict[str, Any]:
    if not text:
        raise ValueError("an empty text is no request")
    # What can't be sent is refused before a part of it is in.
    text.encode()
    return {"op": "insert", "at": at, "text": text}


def deleting(at: Place, count: int) -> dict[str, Any]:
    return {"op": "delete", "at": at, "count": count}


def marking(start: Place, end: Place, mark: Mark) -> dict[str, Any]:
    return {"op": "mark", "from": start, "to": end, **mark.fields()}


def unmarking(start: Place, end: Place, mark: Mark) -> dict[str, Any]:
    return {"op": "unmark", "from": start, "to": end, **mark.key()}


def pieces_of(edits: Sequence[Fields]) -> Iterator[Piece]:
    """Edits as they are sent."""
    for number, edit in _numbered(edits):
        for piece in cut(edit):
            yield Piece(piece, number)


def by_numbers(edits: Sequence[Fields], numbers: Mapping[str, int]) -> Iterator[Piece]:
    """Edits as they are sent by numbers alone, if so many characters are before each of their places before the first one.

    >>> edits = [inserting("end", "ab"), deleting("start", 1), inserting("end", "c")]
    >>> [piece.edit["at"] for piece in by_numbers(edits, {"start": 0, "end": 7})]
    [7, 0, 8]
    """
    done: list[Fields] = []
    for number, edit in _numbered(edits):
        lasting = lasting_of(edit)
        made = {**edit, **{name: moved_through(place, numbers[place], done) for name, place in lasting.items()}}
        if not broken({**made, "doc": 1}):
            done.append(made)
        for piece in cut(made):
            yield Piece(piece, number, sum(len(str(NEVER)) - len(str(piece[name])) for name in lasting))


def _numbered(edits: Sequence[Fields]) -> Iterator[tuple[int | None, Fields]]:
    """Edits with the numbers by which a refusal tells which one it is about: one alone has none."""
    return zip([None] if len(edits) == 1 else range(len(edits)), edits)


def moved_through(place: str, number: int, edits: Iterable[Fields]) -> int:
    """How many characters are before a place after edits by numbers, as the program counts.

    >>> moved_through("a7@", 3, [inserting(3, "ab")]), moved_through("b8@", 3, [inserting(3, "ab")]), moved_through("end", 3, [deleting(1, 9)])
    (3, 5, 1)
    """
    for edit in edits:
        at = edit.get("at", BEYOND)
        if edit["op"] == "insert" and (at < number or (at == number and stays_with_next(place))):
            number += len(edit["text"])
        elif edit["op"] == "delete" and at < number:
            number = max(at, number - edit["count"])
    return number


def stays_with_next(place: str) -> bool:
    """Whether what is put in at a place comes before it."""
    return place[0] in "be"


def operations_of(edits: Iterable[Fields]) -> int:
    """How many operations edits are that were made: one for each character that is put in or taken away, and for each mark.

    >>> operations_of([inserting(0, "ab"), deleting(1, 300), {"op": "mark", "from": 0, "to": 1, "kind": "em"}])
    303
    """
    return sum(len(edit["text"]) if edit["op"] == "insert" else edit.get("count", 1) for edit in edits)


def needs_number(edit: Fields) -> bool:
    """Whether an edit at a place isn't made up of shorter ones at places: the end of a text that was put in just after a character has no name."""
    return is_long(edit) and is_lasting(edit.get("at"))


def cut(edit: Fields) -> Iterator[dict[str, Any]]:
    """The edits of at most 256 characters that make up one: a stretch is taken away from its end on, so that nothing is if that is past the end of
    the text. What is no edit is refused as it is.

    >>> [piece["at"] for piece in cut(inserting(7, "x" * 600))], [piece["at"] for piece in cut(deleting(7, 600))]
    ([7, 263, 519], [351, 95, 7])

    At a place that lasts, what is put in moves it on if it stays with the next character, and what is taken away leaves it there.

    >>> [piece["at"] for piece in cut(inserting("end", "x" * 600))], [piece["count"] for piece in cut(deleting("start", 600))]
    (['end', 'end', 'end'], [256, 256, 88])
    """
    at: Any = edit.get("at")
    text: Any = edit.get("text")
    count: Any = edit.get("count")
    if edit.get("op") == "insert" and isinstance(text, str) and len(text) > LONGEST and (is_whole(at, 0) or is_lasting(at)):
        yield from _cut_insert(edit, at, text)
    elif edit.get("op") == "delete" and is_whole(count, LONGEST) and is_whole(at, 0):
        for end in range(count, 0, -LONGEST):
            first = max(end - LONGEST, 0)
            yield {**edit, "at": at + first, "count": end - first}
    elif edit.get("op") == "delete" and is_whole(count, LONGEST) and is_lasting(at):
        for left in range(count, 0, -LONGEST):
            yield {**edit, "count": min(left, LONGEST)}
    else:
        yield dict(edit)


def _cut_insert(edit: Fields, at: Place, text: str) -> Iterator[dict[str, Any]]:
    """The start of the text is a number as well."""
    number = 0 if at == "start" else at
    if isinstance(number, str) and not stays_with_next(number):
        yield dict(edit)
        return
    for first in range(0, len(text), LONGEST):
        yield {**edit, "at": number if isinstance(number, str) else number + first, "text": text[first : first + LONGEST]}


def lines_of(pieces: Iterable[Piece], parted: bool) -> Iterator[list[Piece]]:
    """Those that go in a line each. `ValueError`, before there is any line, if they don't fit one and may not be parted."""
    line: list[Piece] = []
    room = ROOM
    taken = 0
    for piece in pieces:
        # A comma and a space stand between two.
        size, count = len(line_of(piece.edit)) + piece.more + 1, _taken_by(piece.edit)
        if line and (len(line) == MANY or size > room or (parted and taken + count > TAKEN_CHARACTERS)):
            if not parted:
                raise ValueError(ONE_LINE)
            yield line
            line, room, taken = [], ROOM, 0
        line.append(piece)
        room -= size
        taken += count
    if line:
        yield line


def _taken_by(edit: Fields) -> int:
    count = edit.get("count")
    return count if isinstance(count, int) else 0
