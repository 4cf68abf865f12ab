"""Who is connected to a daemon."""

from __future__ import annotations

from typing import Any, Mapping, NamedTuple


class Peer(NamedTuple):
    """What a daemon knows of a peer that is linked with it: how many operations it has said that it has, and how many of the daemon's it lacks."""

    replica: str
    has: int
    lacks: int


class Connected(NamedTuple):
    """The peers that are linked and have said what they have, and how many sessions are in use."""

    peers: list[Peer]
    sessions: int


def connected_of(answer: Mapping[str, Any]) -> Connected:
    """What an answer to `peers` tells.

    >>> connected_of({"ok": True, "peers": [{"has": 3, "lacks": 0, "replica": "00000000-0000-4000-8000-000000000002"}], "sessions": 1})
    Connected(peers=[Peer(replica='00000000-0000-4000-8000-000000000002', has=3, lacks=0)], sessions=1)
    """
    return Connected([Peer(it["replica"], it["has"], it["lacks"]) for it in answer["peers"]], answer["sessions"])
