"""What the program answers in place of a result."""

from __future__ import annotations

from typing import Any, Mapping

from .refusal_table import ADVICE, FIELD, FULL, LIMIT, LONG, MEND, MUCH, OLDER, PAST, PLACE, RENEW, REQUEST, STALE, TOKEN
from .request_table import LATER
from .rules import broken, is_long, is_placed


def sentence(number: int, request: Mapping[str, Any] | None) -> str | None:
    """Why, and what to do, after a refusal of a request, if that is known.

    >>> sentence(7, {"op": "delete", "doc": 1, "at": 0, "count": 300})
    'at most 256 characters in one edit; send it in parts'
    """
    if number == REQUEST and request is not None and request.get("op") in LATER:
        what = f"`{request['op']}`" + (" of many documents" if "docs" in request else "")
        return _of_fields(request, f"{OLDER} {what}; {RENEW}")
    if number == FIELD and request is not None:
        return _of_fields(request, _unknown_to(request))
    if number == LIMIT and request is not None:
        return _of_limit(request)
    return ADVICE.get(number)


def _of_fields(request: Mapping[str, Any], otherwise: str) -> str:
    """Which rules the fields of a request break, or what else is the cause."""
    faults = broken(request)
    return f"{', '.join(faults)}; {MEND}" if faults else otherwise


def _unknown_to(request: Mapping[str, Any]) -> str:
    """What an older program doesn't know of a request whose fields break no rule."""
    if "at_rev" in request:
        return PAST
    return PLACE if is_placed(request) else TOKEN if "token" in request else ADVICE[FIELD]


def _of_limit(request: Mapping[str, Any]) -> str:
    if request.get("op") == "find":
        return _of_fields(request, ADVICE[LIMIT])
    if is_long(request):
        return LONG
    return f"{MUCH} {FULL}" if any(edit["op"] == "delete" for edit in request.get("edits", ())) else FULL


class Refused(Exception):
    """A request that was refused: its number and its word. Nothing was changed, except where the number is 9: then the device failed, and
    whether the edit is there is known once the file is opened again. `at` is which edit of an action was refused, from 0 on, if that is told.

    >>> str(Refused(5, "range"))
    '5 range: there is no such place in the text; read it anew'
    """

    def __init__(self, number: int, word: str, request: Mapping[str, Any] | None = None, at: int | None = None) -> None:
        advice = sentence(number, request)
        super().__init__(f"{number} {word}: {advice}" if advice else f"{number} {word}")
        self.number = number
        self.word = word
        self.at = at

    def __str__(self) -> str:
        return super().__str__() if self.at is None else f"{super().__str__()} (edit {self.at} of the action, from 0 on)"


class Stale(Refused):
    """The document isn't at the `rev` that the edit was made for (6), what changed since one can't be told, or this session hasn't read it yet:
    read it anew, and make the edit for what is there now."""


class Ended(Exception):
    """The session ended before this request was answered, and why. Whether an edit is there is known once the file is opened again."""


class NoDaemon(ConnectionError):
    """Nobody listens on the port, or somebody who serves no sessions."""


def refused(number: int, word: str, request: Mapping[str, Any] | None = None, at: int | None = None) -> Refused:
    return Stale(number, word, request, at) if number == STALE else Refused(number, word, request, at)
