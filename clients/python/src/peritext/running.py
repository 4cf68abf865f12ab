"""Runs calls in the thread that makes them."""

from __future__ import annotations

from concurrent.futures import Future
from functools import partial
from typing import TYPE_CHECKING, Callable

from .calls import Answer, Asked, Call, Result

if TYPE_CHECKING:
    from .session import Session


def run(session: Session, call: Call[Result]) -> Result:
    """Sends what a call asks, waits for the answers, and gives what it tells."""
    step: Callable[[], list[Asked]] = call.__next__
    while True:
        try:
            requests = step()
        except StopIteration as end:
            # What a generator returns has no type of its own.
            told: Result = end.value
            return told
        try:
            step = partial(call.send, _answers(session, requests))
        except Exception as error:
            # The call may know better.
            step = partial(call.throw, error)


def _answers(session: Session, requests: list[Asked]) -> list[Answer]:
    due: list[Future[Answer]] = []
    try:
        # All of them are under way at once.
        due.extend(session.begin(*request) for request in requests)
        return [answer.result() for answer in due]
    finally:
        # What was interrupted, as by Ctrl-C, is given up.
        give_up(due)


def give_up(due: list[Future[Answer]]) -> None:
    """Nobody waits any more for those of the answers that aren't there."""
    for answer in due:
        answer.cancel()
