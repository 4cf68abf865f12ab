"""The calls of a document, whoever runs them.

Each is a generator: it yields what is asked at once, is given their answers, and returns what it tells. So a thread that waits (`running`)
and an event loop (`aio`) run the same ones.
"""

from __future__ import annotations

from typing import Any, Dict, Generator, Iterable, Iterator, List, NamedTuple, Optional, Protocol, Sequence, TypeVar
from uuid import UUID, uuid4, uuid5

from .action import BEYOND, Fields, Lasting, Piece, Place, by_numbers, cut, deleting, inserting, lines_of, marking, needs_number, operations_of, pieces_of, unmarking
from .again import NEVER
from .changing import Changes, step_of
from .counting import Version, versions_of
from .marks import Mark, Span
from .refusals import Refused, Stale
from .rules import FOUND, LONGEST, MOST, is_lasting, is_whole, lasting_of

# How often several requests are made, until all are answered at one `rev`.
ROUNDS = 8

Result = TypeVar("Result")
# A request, and what it is answered.
Request = Dict[str, Any]
Answer = Dict[str, Any]


class Asked(NamedTuple):
    """A request. If it names a `rev` that a call has read, it is sent only over the connection over which that was: so many have ended before it."""

    fields: Request
    parted: Optional[int] = None


Call = Generator[List[Asked], List[Answer], Result]


class Reading(NamedTuple):
    """A text and the `rev` that it has: an edit that is sent in the same session with this `rev` is made in just this text, or is `Stale`."""

    text: str
    rev: int


class Found(NamedTuple):
    """Where a text stands, by how many characters are before it, and the `rev` of the text in which it was looked for: an edit that is sent in the
    same session with this `rev` is made in just that text, or is `Stale`."""

    places: List[int]
    rev: int


class Part(NamedTuple):
    """The fields of a request that makes a part of a call, how much was made before, and which edits of the caller's it has."""

    fields: Request
    made: int
    numbers: List[Optional[int]]


class Known(Protocol):
    """What a call has to know of its session: how many connections have ended, and whether it was told a `rev` of a document."""

    parted: int

    def knows_rev(self, document: int) -> bool: ...


class Calls:
    """The calls of a document of a session. What they tell is said at `Document`."""

    def __init__(self, session: Known, number: int) -> None:
        self.session = session
        self.number = number

    def insert(self, at: Place, text: str, rev: int | None, token: UUID | None) -> Call[int]:
        edit = inserting(at, text)
        if len(text) <= LONGEST or not (is_whole(at, 0) or is_lasting(at)):
            return self._edit(edit, rev, token)
        return self._make([edit], rev, token, parted=True)

    def delete(self, at: Place, count: int, rev: int | None, token: UUID | None) -> Call[int]:
        edit = deleting(at, count)
        if is_lasting(at) and is_whole(count, LONGEST + 1):
            return self._make([edit], rev, token, parted=True)
        return self._edit_all(_stretches(edit), rev, token)

    def mark(self, start: Place, end: Place, mark: Mark, rev: int | None, token: UUID | None) -> Call[int]:
        return self._edit(marking(start, end, mark), rev, token)

    def unmark(self, start: Place, end: Place, mark: Mark, rev: int | None, token: UUID | None) -> Call[int]:
        return self._edit(unmarking(start, end, mark), rev, token)

    def edits(self, edits: Iterable[Fields], rev: int | None, token: UUID | None, parted: bool) -> Call[int]:
        return self._make(list(edits), rev, token, parted)

    def read(self) -> Call[Reading]:
        return (yield from self._read(None))

    def text(self, at_rev: int | None) -> Call[str]:
        return (yield from self._read(at_rev)).text

    def _read(self, at_rev: int | None) -> Call[Reading]:
        [answer] = yield [self._asked("text", at_rev)]
        return Reading(answer["text"], answer["rev"])

    def rev(self) -> Call[int]:
        return (yield from self.read()).rev

    def spans(self, at_rev: int | None) -> Call[list[Span]]:
        [answer] = yield [self._asked("spans", at_rev)]
        return [Span.of(span) for span in answer["spans"]]

    def _asked(self, op: str, at_rev: int | None) -> Asked:
        """A question for the document of now, or for that of then."""
        # An earlier program knows no `at_rev`.
        return Asked({"op": op, "doc": self.number, **({} if at_rev is None else {"at_rev": at_rev})})

    def versions(self, every: int) -> Call[list[Version]]:
        [answer] = yield [Asked({"op": "versions", "doc": self.number, "every": every})]
        return versions_of(answer)

    def export(self, form: str, breaks: bool) -> Call[str]:
        # An earlier program knows no `breaks`.
        [answer] = yield [Asked({"op": "export", "doc": self.number, "to": form, **({"breaks": breaks} if breaks else {})})]
        return str(answer["text"])

    def find(self, text: str, start: int) -> Call[Found]:
        if not text:
            raise ValueError("an empty text is no request")
        for _ in range(ROUNDS):
            parted = self.session.parted
            first = yield from self._find_some(text, start)
            places, some = first.places, first
            # Those that are left are looked for in the same text.
            while len(some.places) == FOUND and (some.rev, self.session.parted) == (first.rev, parted):
                some = yield from self._find_some(text, places[-1] + 1)
                places = places + some.places
            if (some.rev, self.session.parted) == (first.rev, parted):
                return Found(places, first.rev)
        raise Stale(6, "stale")

    def _find_some(self, text: str, start: int) -> Call[Found]:
        """The first of the places from one on, as many as one answer tells."""
        [answer] = yield [Asked({"op": "find", "doc": self.number, "text": text, "from": start})]
        return Found(answer["places"], answer["rev"])

    def changes(self, since: int) -> Call[Changes]:
        parted = self.session.parted
        # The text at 0 is empty everywhere. What is no number is refused as it is.
        if is_whole(since, 1) and not self.session.knows_rev(self.number):
            raise Stale(6, "stale")
        [answer] = yield [Asked({"op": "changes", "doc": self.number, "since": since})]
        # It was asked for again over another connection.
        if since != 0 and parted != self.session.parted:
            raise Stale(6, "stale")
        return Changes([step_of(step) for step in answer["changes"]], answer["rev"])

    def anchors(self, at: Iterable[int], side: str, rev: int | None) -> Call[list[Lasting]]:
        return (yield from self._ask_all("anchors", {"side": side}, "at", list(at), rev))[0]

    def anchor(self, at: int, side: str, rev: int | None) -> Call[Lasting]:
        return (yield from self.anchors([at], side, rev))[0]

    def places(self, anchors: Iterable[str], rev: int | None) -> Call[list[int | None]]:
        return (yield from self._ask_all("places", {}, "anchors", list(anchors), rev))[0]

    def place(self, anchor: str, rev: int | None) -> Call[int | None]:
        return (yield from self.places([anchor], rev))[0]

    def _ask_all(self, op: str, fields: Request, name: str, values: list[Any], rev: int | None) -> Call[tuple[list[Any], int, int]]:
        """What is answered for all of these values, by requests for some of them each, the `rev`, this one or else any one, and how many connections had
        ended before that was told."""
        parts = [values[first : first + MOST] for first in range(0, len(values), MOST)]
        for _ in range(ROUNDS if rev is None else 1):
            parted = self.session.parted
            if rev is not None and not self.session.knows_rev(self.number):
                break
            answers = yield [Asked({"op": op, "doc": self.number, **fields, name: part}) for part in parts]
            revs = {answer["rev"] for answer in answers}
            # After a lost connection the same number can name another text.
            is_one = parted == self.session.parted and len(revs) <= 1
            if is_one and (rev is None or revs <= {rev}):
                return [value for answer in answers for value in answer[op]], max(revs, default=0), parted
        raise Stale(6, "stale")

    def _make(self, edits: Sequence[Fields], rev: int | None, token: UUID | None, parted: bool) -> Call[int]:
        """Makes edits at once, or line by line, and gives the last answer."""
        if not edits:
            raise ValueError("no edits are no request")
        names = list(dict.fromkeys(name for edit in edits for name in lasting_of(edit).values()))
        if not names:
            return self._edit_all(_parts(lines_of(pieces_of(edits), parted)), rev, token)
        lines = list(lines_of(pieces_of(edits), parted))
        if len(lines) == 1 and not any(needs_number(piece.edit) for piece in lines[0]):
            return self._edit_all(_parts(iter(lines)), rev, token)
        # What doesn't fit one line and may not be parted is refused before anything is asked.
        list(lines_of(by_numbers(edits, dict.fromkeys(names, 0)), parted))
        return self._edit_there(edits, names, rev, token, parted)

    def _edit_there(self, edits: Sequence[Fields], names: list[str], rev: int | None, token: UUID | None, parted: bool) -> Call[int]:
        """Makes edits at places that last by numbers, in just the text in which these were asked for. If that has moved on, it asks again."""
        # A line whose answer is lost may be made later on. So it has one token, however often it is sent.
        once = token or uuid4()
        parted_before = self.session.parted
        if rev is not None and not self.session.knows_rev(self.number):
            raise Stale(6, "stale")
        # The lines of each round, by the `rev` that they are made for.
        rounds: dict[int, Iterator[Part]] = {}
        for left in range(ROUNDS if rev is None else 1, 0, -1):
            parts, read, told = yield from self._parts_there(edits, names, parted)
            first = next(parts)
            # In another text than the one that was named they are other numbers: there it is answered only if it was made before.
            is_named = rev is None or (rev == read and parted_before == told)
            if is_named:
                rounds[read] = parts
            try:
                last = yield from (self._edit_part(first, read, once, told) if is_named else self._edit_part(first, NEVER, once))
            except Stale:
                if left == 1:
                    raise
            else:
                break
        # It may be known: from a line of an earlier round that was read late, or from another call, which had other places.
        made = rounds.get(last - operations_of(first.fields["edits"]))
        return (yield from self._edit_known(parts, last, token) if made is None else self._edit_rest(made, last, token, told))

    def _parts_there(self, edits: Sequence[Fields], names: list[str], parted: bool) -> Call[tuple[Iterator[Part], int, int]]:
        """Edits by numbers, in the text in which their places are asked for, its `rev`, and how many connections had ended before that was told."""
        found, read, told = yield from self._ask_all("places", {}, "anchors", names, None)
        numbers = {name: BEYOND if number is None else number for name, number in zip(names, found)}
        return _parts(lines_of(by_numbers(edits, numbers), parted)), read, told

    def _edit_all(self, parts: Iterator[Part], rev: int | None, token: UUID | None) -> Call[int]:
        """Makes parts of a call one after the other, and gives the last answer."""
        parted = self.session.parted
        last = yield from self._edit_part(next(parts), rev, token)
        return (yield from self._edit_rest(parts, last, token, parted))

    def _edit_rest(self, parts: Iterator[Part], last: int, token: UUID | None, parted: int) -> Call[int]:
        """Makes the parts that are left, each after the one before it was answered. Before that was sent, so many connections had ended."""
        for part in parts:
            last, parted = yield from self._edit_next(part, last, _token_after(token, part.made), parted)
        return last

    def _edit_known(self, parts: Iterator[Part], last: int, token: UUID | None) -> Call[int]:
        """Asks for the parts that are left, which are answered only if they were made before. Without a token of the caller's nobody knows them."""
        for part in parts:
            if token is None:
                raise Stale(6, "stale")
            last = yield from self._edit_part(part, NEVER, _token_after(token, part.made))
        return last

    def _edit_next(self, part: Part, rev: int, token: UUID | None, parted: int) -> Call[tuple[int, int]]:
        """Makes a part after one that was answered with this `rev`, and gives how many connections had ended before it was sent, too. If it is `Stale`
        for a lost connection alone, it is sent anew."""
        while True:
            try:
                return (yield from self._edit_part(part, rev, token, parted)), parted
            except Stale:
                parted = self.session.parted
                if (yield from self.rev()) != rev:
                    raise

    def _edit_part(self, part: Part, rev: int | None, token: UUID | None, parted: int | None = None) -> Call[int]:
        """Makes a part of a call. A refusal tells which edit of the caller's it is about."""
        try:
            return (yield from self._edit(part.fields, rev, token, parted))
        except Refused as refused:
            refused.at = None if refused.at is None else part.numbers[refused.at]
            raise

    def _edit(self, fields: Request, rev: int | None, token: UUID | None, parted: int | None = None) -> Call[int]:
        given = {"rev": rev, "token": token and str(token)}
        [answer] = yield [Asked({"doc": self.number, **fields, **{name: value for name, value in given.items() if value is not None}}, parted)]
        return int(answer["rev"])


def _stretches(edit: Fields) -> Iterator[Part]:
    """The edits that take a stretch away."""
    for number, fields in enumerate(cut(edit)):
        yield Part(fields, number * LONGEST, [None])


def _parts(lines: Iterable[list[Piece]]) -> Iterator[Part]:
    """The lines that make edits at once."""
    made = 0
    for line in lines:
        yield Part({"op": "edits", "edits": [piece.edit for piece in line]}, made, [piece.number for piece in line])
        made += len(line)


def _token_after(token: UUID | None, made: int) -> UUID | None:
    """The token of a further line of a call that was given one, by what was made before."""
    return token and uuid5(UUID(str(token)), str(made))
