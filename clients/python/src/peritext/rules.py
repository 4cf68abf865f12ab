"""The rules of a request's fields, as docs/FORMATS.md has them, and which of them a request breaks."""

from __future__ import annotations

import re
from typing import Any, Callable, Mapping

from . import limit_table
from .request_table import ALL, BESIDE, FORMS, KINDS, NEEDED, ONE, OPTIONAL, PLACE_FIELDS, RULES, SIDES

# How many characters one edit may put in, or take away.
LONGEST = limit_table.EDIT_CHARACTERS
# How many places one request may ask for.
MOST = limit_table.PLACES
# How many edits one request may make.
MANY = limit_table.EDITS
# How many places one answer tells where a text stands, and how many documents one watch may have.
FOUND = limit_table.FOUND
WATCHED = limit_table.WATCHED
_UUID = re.compile(r"(urn:uuid:|\{)?[0-9a-f]{8}(-?[0-9a-f]{4}){3}-?[0-9a-f]{12}\}?", re.IGNORECASE)
_NIL = re.compile(r"[0{}-]*")
_BESIDE_CHARACTER = re.compile(r"[ab]([1-9][0-9]{0,14})@([0-9a-fA-F]{8}(?:-[0-9a-fA-F]{4}){3}-[0-9a-fA-F]{12})")


def broken(request: Mapping[str, Any]) -> list[str]:
    """Which rules the fields of a request break, in words.

    >>> broken({"op": "insert", "doc": 0, "at": 0, "text": "a"})
    ['`doc` has to be a whole number from 1 to 4294967295']
    >>> broken({"op": "text", "doc": 1, "rev": 3})
    ['`rev` is no field of this request']
    >>> broken({"op": "anchors", "doc": 1, "at": 7, "side": "previous"})
    ['`at` has to be a list of 1 to 256 whole numbers from 0 to 4294967295']
    >>> broken({"op": "watch", "docs": "every"})
    ['`docs` has to be a list of 1 to 1024 whole numbers from 1 to 4294967295, or all']
    >>> broken({"op": "edits", "doc": 1, "edits": [{"op": "insert", "at": 0, "text": ""}]})
    ['`text` of one of the `edits` has to be a text of at least one character']
    """
    op = f"{request.get('op')}"
    beside = BESIDE.get(f"{op} {'docs' if 'docs' in request else request.get('kind')}", "").split()
    needed = beside if "docs" in beside else [*NEEDED.get(op, "").split(), *beside]
    others = [name for name in request if name not in needed and name != "op"]
    of_one = _of_one(request.get("edits")) if op == "edits" else []
    return [*_wrong(request, needed), *_strange(op, others), *_wrong(request, _optional(op, others)), *of_one]


def is_long(request: Mapping[str, Any]) -> bool:
    """Whether an edit, or one of several, is about more characters than one may be.

    >>> is_long({"op": "delete", "doc": 1, "at": 0, "count": 257})
    True
    """
    edits: Any = request.get("edits")
    if _is_some(edits, MANY, _is_edit):
        return any(map(is_long, edits))
    text, count = request.get("text"), request.get("count", 0)
    return (isinstance(text, str) and len(text) > LONGEST) or (is_whole(count, 0) and count > LONGEST)


def is_whole(value: Any, least: int) -> bool:
    # True and False are no numbers here.
    return type(value) is int and least <= value <= limit_table.WHOLE


def is_lasting(value: Any) -> bool:
    """Whether it is the text of a place that lasts."""
    beside = _BESIDE_CHARACTER.fullmatch(value) if isinstance(value, str) else None
    return value in ("start", "end") if beside is None else int(beside[1]) <= limit_table.COUNTER and _is_token(beside[2])


def lasting_of(edit: Mapping[str, Any]) -> dict[str, str]:
    """The places that last which an edit names in place of numbers, by its fields.

    >>> lasting_of({"op": "mark", "doc": 1, "from": "start", "to": 7, "kind": "em"})
    {'from': 'start'}
    """
    return {name: edit[name] for name in PLACE_FIELDS if is_lasting(edit.get(name))}


def is_placed(request: Mapping[str, Any]) -> bool:
    """Whether an edit, or one of several, is at a place that lasts."""
    edits: Any = request.get("edits")
    return any(map(is_placed, edits)) if _is_some(edits, MANY, _is_edit) else bool(lasting_of(request))


def _of_one(edits: Any) -> list[str]:
    """Which rules the first of several edits breaks that breaks any."""
    faults = (broken({**edit, "doc": 1}) for edit in edits) if _is_some(edits, MANY, _is_edit) else iter(())
    return [fault.replace("` ", "` of one of the `edits` ", 1) for fault in next(filter(None, faults), [])]


def _wrong(request: Mapping[str, Any], names: list[str]) -> list[str]:
    ruled = [(name, _rule(f"{request.get('op')}", name)) for name in names]
    return [f"`{name}` has to be {RULES[rule]}" for name, rule in ruled if not _HOLDS[rule](request.get(name))]


def _rule(op: str, name: str) -> str:
    """The rule of a field: that of this request, if it has one of its own."""
    return f"{op} {name}" if f"{op} {name}" in RULES else name


def _strange(op: str, names: list[str]) -> list[str]:
    return [f"`{name}` is no field of this request" for name in names if name not in OPTIONAL.get(op, "").split()]


def _optional(op: str, names: list[str]) -> list[str]:
    return [name for name in names if name in OPTIONAL.get(op, "").split()]


def _is_text(value: Any) -> bool:
    return isinstance(value, str) and value != ""


def _is_url(value: Any) -> bool:
    return _is_text(value) and len(value.encode()) <= limit_table.URL_BYTES


def _is_uuid(value: Any) -> bool:
    return isinstance(value, str) and _UUID.fullmatch(value) is not None


def _is_token(value: Any) -> bool:
    return _is_uuid(value) and _NIL.fullmatch(value.removeprefix("urn:uuid:")) is None


def _is_edit(value: Any) -> bool:
    return isinstance(value, Mapping) and value.get("op") in ONE and not any(name in value for name in ALL)


def _is_some(value: Any, most: int, holds: Callable[[Any], bool]) -> bool:
    return isinstance(value, (list, tuple)) and 1 <= len(value) <= most and all(map(holds, value))


def _is_sought(value: Any) -> bool:
    return _is_text(value) and len(value) <= LONGEST


def _from(least: int) -> Callable[[Any], bool]:
    return lambda value: is_whole(value, least)


_HOLDS: dict[str, Callable[[Any], bool]] = {
    "doc": _from(1),
    "count": _from(1),
    "at": lambda value: is_whole(value, 0) or is_lasting(value),
    "from": lambda value: is_whole(value, 0) or is_lasting(value),
    "to": lambda value: is_whole(value, 0) or is_lasting(value),
    "rev": _from(0),
    "at_rev": _from(0),
    "every": _from(1),
    "since": _from(0),
    "text": _is_text,
    "kind": lambda value: value in KINDS,
    "url": _is_url,
    "id": _is_uuid,
    "token": _is_token,
    "anchors at": lambda value: _is_some(value, MOST, _from(0)),
    "side": lambda value: value in SIDES,
    "anchors": lambda value: _is_some(value, MOST, is_lasting),
    "edits": lambda value: _is_some(value, MANY, _is_edit),
    "find text": _is_sought,
    "find from": _from(0),
    "export to": lambda value: value in FORMS,
    "breaks": lambda value: isinstance(value, bool),
    "docs": lambda value: value == "all" or _is_some(value, WATCHED, _from(1)),
}
