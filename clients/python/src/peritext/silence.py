"""How long nothing comes while something is due."""

from __future__ import annotations

import threading
import time
from typing import Callable

# Seconds without a byte, unless the caller says otherwise.
TIMEOUT = 30.0
# Seconds for a second look: if this process itself stood still, what came meanwhile is read first.
MOMENT = 0.1


class Silence:
    """Tells once, from a thread of its own, that for so many seconds something was due and no byte came."""

    def __init__(self, timeout: float | None, tell: Callable[[], None]) -> None:
        self._timeout = timeout
        self._tell = tell
        # When the last byte came, or the first request since nothing was due; None while nothing is due.
        self._since: float | None = None
        self._is_over = False
        # Whether the thread waits for something to be due. It isn't woken for each request else.
        self._rests = False
        self._change = threading.Condition()
        if timeout is not None:
            threading.Thread(target=self._watch, args=(timeout,), daemon=True).start()

    def begin(self) -> None:
        """Something is due from now on, unless it was already."""
        with self._change:
            if self._since is None:
                self._since = time.monotonic()
            if self._rests:
                self._change.notify()

    def heard(self) -> None:
        """A byte came."""
        with self._change:
            if self._since is not None:
                self._since = time.monotonic()

    def end(self) -> None:
        """Nothing is due any more."""
        with self._change:
            self._since = None

    def close(self) -> None:
        """Nothing will be due again."""
        with self._change:
            self._is_over = True
            self._change.notify()

    def _watch(self, timeout: float) -> None:
        if self._comes(timeout):
            self._tell()

    def _comes(self, timeout: float) -> bool:
        """Waits until there is silence, or until it is over."""
        with self._change:
            while not self._is_over:
                since = self._since
                if since is None:
                    self._rest()
                elif time.monotonic() < since + timeout:
                    self._change.wait(min(since + timeout - time.monotonic(), threading.TIMEOUT_MAX))
                else:
                    self._change.wait(MOMENT)
                    if self._since == since and not self._is_over:
                        return True
        return False

    def _rest(self) -> None:
        self._rests = True
        self._change.wait()
        self._rests = False
