"""Lines of bytes: one that is sent, and those that come in parts."""

from __future__ import annotations

import json
from typing import Any


def line_of(request: dict[str, Any]) -> bytes:
    """The line of a request."""
    return json.dumps(request, ensure_ascii=False).encode() + b"\n"


class Lines:
    """Cuts what comes into lines. Each byte is looked at once, however long a line gets."""

    def __init__(self) -> None:
        self._begun: list[bytes] = []

    def take(self, part: bytes) -> list[bytes]:
        """The lines that a part ends, without their ends."""
        first, *others = part.split(b"\n")
        self._begun.append(first)
        if not others:
            return []
        whole = [b"".join(self._begun), *others[:-1]]
        self._begun = [others[-1]]
        return whole

    def is_within(self) -> bool:
        """Whether a line has begun that hasn't ended."""
        return any(self._begun)
