"""The answers that a line can be: those of docs/PROTOCOL.md, and nothing else."""

from __future__ import annotations

import json
from itertools import accumulate
from typing import Any, Callable, Mapping

from .counting import PARTS
from .refusals import Refused, refused

# What each field has to be.
Fields = Mapping[str, Callable[[Any], bool]]


class NoAnswer(Exception):
    """A line that is no answer to its request, and why."""


def answer_of(line: bytes, request: Mapping[str, Any]) -> dict[str, Any] | Refused:
    """What a line answers to a request. `NoAnswer` if it isn't one.

    >>> answer_of(b'{"ok":true,"rev":3}', {"op": "insert", "doc": 1, "at": 0, "text": "abc"})
    {'ok': True, 'rev': 3}
    >>> answer_of(b'{"code":5,"error":"range","ok":false}', {"op": "insert", "doc": 1, "at": 9, "text": "abc"}).word
    'range'
    """
    told = _object(line)
    if told.get("ok") is True:
        _need(told, _fields_of(request))
        return told
    if told.get("ok") is False:
        _need(told, _REFUSAL)
        return refused(told["code"], told["error"], request, _at(told, request))
    raise NoAnswer("a line came that doesn't say `ok`")


def _fields_of(request: Mapping[str, Any]) -> Fields:
    """The fields of an answer to a request."""
    op: Any = request.get("op")
    if op == "find":
        # Whoever goes on after the last one comes to an end.
        return {"rev": _is_number, "places": _rising_from(request.get("from", 0))}
    if op == "versions":
        return {"rev": _is_number, "versions": _versions(request.get("every"))}
    if op in ("text", "spans") and "at_rev" in request:
        return {**_FIELDS[op], "rev": _is_same(request["at_rev"])}
    if op == "watch" and "docs" in request:
        return {"doc": _one_of(request["docs"]), "rev": _is_number}
    return _FIELDS.get(op, {}) if isinstance(op, str) else {}


def _object(line: bytes) -> dict[str, Any]:
    try:
        told = json.loads(line.decode())
    except (ValueError, RecursionError):
        told = None
    if not isinstance(told, dict):
        raise NoAnswer("a line came that is no JSON object")
    return told


def _need(told: Mapping[str, Any], fields: Fields) -> None:
    for name, is_right in fields.items():
        if not is_right(told.get(name)):
            raise NoAnswer(f"an answer came without a right `{name}`")


def _at(told: Mapping[str, Any], request: Mapping[str, Any]) -> int | None:
    """Which one of several edits was refused, if that is told."""
    at: Any = told.get("at")
    edits = request.get("edits")
    if at is None or not isinstance(edits, list):
        return None
    if not (_is_number(at) and at < len(edits)):
        raise NoAnswer("an answer came without a right `at`")
    return int(at)


def _is_number(value: Any) -> bool:
    # True and False are no numbers here.
    return type(value) is int and value >= 0


def _is_count(value: Any) -> bool:
    return _is_number(value) and value > 0


def _is_text(value: Any) -> bool:
    return isinstance(value, str)


def _are_spans(value: Any) -> bool:
    return isinstance(value, list) and all(map(_is_span, value))


def _is_span(value: Any) -> bool:
    return _are_marks(value) and _is_text(value.get("text"))


def _are_marks(value: Any) -> bool:
    return isinstance(value, dict) and all(_MARKS[key](value[key]) for key in _MARKS if key in value)


def _are_steps(value: Any) -> bool:
    return isinstance(value, list) and all(map(_is_step, value))


def _is_step(value: Any) -> bool:
    """Whether it has the fields of a step, and no others, and they are right."""
    fields = _STEPS.get(frozenset(value), {}) if isinstance(value, dict) else {}
    return bool(fields) and all(is_right(value[name]) for name, is_right in fields.items())


def _are_all_marks(value: Any) -> bool:
    """Whether it says of each kind of mark what holds, or None."""
    return isinstance(value, dict) and all(key in value for key in _MARKS) and _are_marks(_held(value))


def _held(marks: Mapping[str, Any]) -> dict[str, Any]:
    return {key: value for key, value in marks.items() if value is not None}


def _is_flag(value: Any) -> bool:
    return isinstance(value, bool)


def _are_texts(value: Any) -> bool:
    return isinstance(value, list) and all(map(_is_text, value))


def _are_places(value: Any) -> bool:
    return isinstance(value, list) and all(place is None or _is_number(place) for place in value)


def _rising_from(least: Any) -> Callable[[Any], bool]:
    def are(value: Any) -> bool:
        known = isinstance(value, list) and all(map(_is_number, value))
        return known and all(one < next for one, next in zip([least - 1, *value], value))

    return are


def _one_of(documents: Any) -> Callable[[Any], bool]:
    return lambda value: _is_count(value) and (documents == "all" or value in documents)


def _is_same(number: Any) -> Callable[[Any], bool]:
    return lambda value: _is_number(value) and value == number


def _versions(every: Any) -> Callable[[Any], bool]:
    """Whether each has its fields, and at most `every` operations, which add up to its `rev`."""

    def are(value: Any) -> bool:
        return _all(_VERSION)(value) and all(it["ops"] <= every and it["rev"] == rev for it, rev in zip(value, accumulate(it["ops"] for it in value)))

    return are


def _are_documents(value: Any) -> bool:
    """Whether each has its fields, and their numbers rise."""
    return _all(_DOCUMENT)(value) and _rising_from(1)([it["doc"] for it in value])


def _all(fields: Fields) -> Callable[[Any], bool]:
    """Whether it is a list of objects with these fields."""

    def is_right(value: Any) -> bool:
        return isinstance(value, dict) and all(is_right(value.get(name)) for name, is_right in fields.items())

    return lambda value: isinstance(value, list) and all(map(is_right, value))


_PEER: Fields = {"has": _is_number, "lacks": _is_number, "replica": _is_text}
_DOCUMENT: Fields = {"doc": _is_count, "chars": _is_number, "ops": _is_count, "writers": _are_texts}
_VERSION: Fields = {"ops": _is_count, "replica": _is_text, "rev": _is_count}
_MARKS: Fields = {"strong": _is_flag, "em": _is_flag, "link": _is_text, "comments": _are_texts}
# The fields of a step, for each of its forms.
_STEPS: dict[frozenset[str], Fields] = {
    frozenset(("retain",)): {"retain": _is_count},
    frozenset(("delete",)): {"delete": _is_count},
    frozenset(("insert",)): {"insert": _is_text},
    frozenset(("attributes", "insert")): {"insert": _is_text, "attributes": _are_marks},
    frozenset(("attributes", "retain")): {"retain": _is_count, "attributes": _are_all_marks},
}
_REFUSAL: Fields = {"code": _is_number, "error": _is_text}
_EDITED: Fields = {"rev": _is_number}
# The fields of an answer, by the request.
_FIELDS: dict[str, Fields] = {
    "insert": _EDITED,
    "delete": _EDITED,
    "mark": _EDITED,
    "unmark": _EDITED,
    "edits": _EDITED,
    "text": {"rev": _is_number, "text": _is_text},
    "spans": {"rev": _is_number, "spans": _are_spans},
    "changes": {"rev": _is_number, "changes": _are_steps},
    "anchors": {"rev": _is_number, "anchors": _are_texts},
    "places": {"rev": _is_number, "places": _are_places},
    "status": {"applied": _is_number, "settled": _is_number, "state": _is_text},
    "peers": {"peers": _all(_PEER), "sessions": _is_number},
    "documents": {"documents": _are_documents},
    "room": {name: _is_number for part in PARTS for name in (part, f"{part}_limit")},
    "export": {"rev": _is_number, "text": _is_text},
    "watch": _EDITED,
}
