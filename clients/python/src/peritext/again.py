"""Edits that are sent again, and how often each of them is made all the same: once."""

from __future__ import annotations

from typing import Any, Callable, Mapping
from uuid import uuid4

from .answers import answer_of
from .limit_table import WHOLE
from .refusals import Refused, Stale
from .request_table import ONE

EDITS = (*ONE, "edits")
# No document has so many operations: an edit that names this `rev` is made never, and answered only if it was made before.
NEVER = WHOLE


def is_edit(request: Mapping[str, Any]) -> bool:
    return request.get("op") in EDITS


def with_token(request: dict[str, Any]) -> dict[str, Any]:
    """An edit with a token of its own, unless it has one. Another request as it is."""
    return {**request, "token": str(uuid4())} if is_edit(request) and "token" not in request else request


def repeated(request: dict[str, Any]) -> dict[str, Any]:
    """What is sent where the answer to a request was lost. A `rev` holds on its connection alone, so an edit that named one is answered if it
    was made, and is `Stale` if not."""
    return {**request, "rev": NEVER} if "rev" in request else request


def is_known(made: dict[str, Any] | None, ask: Callable[[dict[str, Any]], bytes]) -> bool:
    """Whether somebody who is asked has an edit that was answered: else it isn't the same file. Where there is none, it is taken for the same.
    `Refused` if that isn't told, as by a daemon that has no memory just then."""
    if made is None:
        return True
    told = answer_of(ask({**made, "rev": NEVER}), made)
    if isinstance(told, Refused) and not isinstance(told, Stale):
        raise told
    return not isinstance(told, Refused)
