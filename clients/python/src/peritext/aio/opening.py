"""What a thread opens, and what becomes of it if nobody waits for it any more."""

from __future__ import annotations

import asyncio
import contextlib
import threading
from concurrent.futures import Future
from types import TracebackType
from typing import Any, Callable, Coroutine, Generator, Generic, Protocol, TypeVar

Made = TypeVar("Made")
# What ends a wait: a cancel, or that its loop is closed and it will never go on.
GIVEN_UP = (asyncio.CancelledError, GeneratorExit)


class Closes(Protocol):
    """What has an end that can be waited for."""

    async def close(self) -> None: ...


Opened = TypeVar("Opened", bound=Closes)


class Opening(Generic[Opened]):
    """What is opened by `await`, or by `async with`, at whose end it is closed too."""

    def __init__(self, opened: Callable[[], Coroutine[Any, Any, Opened]]) -> None:
        self._opened = opened
        self._within: list[Opened] = []

    def __await__(self) -> Generator[Any, None, Opened]:
        return self._opened().__await__()

    async def __aenter__(self) -> Opened:
        self._within.append(await self._opened())
        return self._within[-1]

    async def __aexit__(self, kind: type[BaseException] | None, error: BaseException | None, trace: TracebackType | None) -> None:
        await self._within.pop().close()


async def in_thread(make: Callable[[], Made], let_go: Callable[[Made], None]) -> Made:
    """What a thread makes. If nobody waits for it any more, it is let go once it is there: it would keep its place."""
    making: Future[Made] = Future()
    making.set_running_or_notify_cancel()
    _begin(_make, make, making)
    try:
        return await asyncio.wrap_future(making)
    except GIVEN_UP:
        making.add_done_callback(lambda made: _begin(_let_go, made, let_go))
        raise


def _begin(work: Callable[..., None], *words: Any) -> None:
    threading.Thread(target=work, args=words, daemon=True).start()


def _make(make: Callable[[], Made], making: Future[Made]) -> None:
    try:
        made = make()
    except BaseException as error:
        making.set_exception(error)
    else:
        making.set_result(made)


def _let_go(made: Future[Made], let_go: Callable[[Made], None]) -> None:
    with contextlib.suppress(Exception):
        let_go(made.result())
