"""Runs calls in an event loop."""

from __future__ import annotations

import asyncio
from concurrent.futures import Future, ThreadPoolExecutor
from functools import partial
from typing import Callable

from ..calls import Answer, Asked, Call, Result
from ..running import give_up
from ..session import Session
from .opening import GIVEN_UP, in_thread


class Runner:
    """Runs calls over a session, for one event loop.

    A thread of its own sends, in the order of the calls: a write may have to wait, and the loop goes on meanwhile.
    """

    def __init__(self, session: Session) -> None:
        self.session = session
        self._sender = ThreadPoolExecutor(1, "peritext-sender")

    async def run(self, call: Call[Result]) -> Result:
        """Sends what a call asks, awaits the answers, and gives what it tells."""
        step: Callable[[], list[Asked]] = call.__next__
        while True:
            try:
                requests = step()
            except StopIteration as end:
                # What a generator returns has no type of its own.
                told: Result = end.value
                return told
            try:
                step = partial(call.send, await self.answers(partial(self._begun, requests)))
            except Exception as error:
                # The call may know better.
                step = partial(call.throw, error)

    async def answers(self, send: Callable[[], list[Future[Answer]]]) -> list[Answer]:
        """The answers to what is sent. If that hasn't begun, a cancel ends it; else it gives up the answers, and leaves them in their order."""
        sending = self._sender.submit(send)
        try:
            return [await asyncio.wrap_future(answer) for answer in await asyncio.wrap_future(sending)]
        except GIVEN_UP:
            sending.add_done_callback(_give_up)
            raise

    async def close(self) -> None:
        """Closes the session, after what was to be sent before: also if nobody waits for that any more, since it would keep its place."""
        await in_thread(self._sender.submit(self.session.close).result, lambda closed: None)

    def _begun(self, requests: list[Asked]) -> list[Future[Answer]]:
        return [self.session.begin(*request) for request in requests]


def _give_up(sending: Future[list[Future[Answer]]]) -> None:
    if not sending.cancelled() and sending.exception() is None:
        give_up(sending.result())
