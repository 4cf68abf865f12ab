"""Numbers of seconds, as a caller gives them."""

from __future__ import annotations

import math
from numbers import Real


def timeout_of(given: float | None) -> float | None:
    """A `timeout` that was given: any number above 0, infinity too, or None."""
    return _seconds("timeout", given, "for no limit")


def retry_of(given: float | None) -> float | None:
    """A `retry` that was given: any number above 0, infinity too, or None.

    >>> retry_of(float("inf"))
    inf
    >>> retry_of("10")
    Traceback (most recent call last):
    TypeError: retry is '10'; it has to be a number of seconds, or None to end with the connection
    """
    return _seconds("retry", given, "to end with the connection")


def _seconds(name: str, given: float | None, means: str) -> float | None:
    if given is None:
        return None
    # True and False are no numbers here.
    if isinstance(given, bool) or not isinstance(given, Real):
        raise TypeError(f"{name} is {given!r}; it has to be a number of seconds, or None {means}")
    if not given > 0:
        raise ValueError(f"{name} is {given!r}; it has to be more than 0 seconds, or None {means}")
    try:
        return float(given)
    except OverflowError:
        return math.inf
