"""What is counted of a file: its documents, their versions, and its room."""

from __future__ import annotations

from dataclasses import dataclass
from typing import Any, Mapping


@dataclass(frozen=True)
class DocumentCounts:
    """A document that has operations: its number, how many characters it shows, how many operations it has, and the replicas that have some in
    it, in rising order. A removed character still counts among the operations."""

    number: int
    characters: int
    operations: int
    writers: tuple[str, ...]


@dataclass(frozen=True)
class Version:
    """A stretch of a document's operations, all of one replica: how many operations the document has after it, whose they are, and how many."""

    rev: int
    replica: str
    operations: int


@dataclass(frozen=True)
class Room:
    """How much a file has of what there is a limit to, each with its limit: bytes of records, documents and replicas that have operations,
    operations, and steps since the file was opened (edits, merges and commits)."""

    bytes: int
    bytes_limit: int
    documents: int
    documents_limit: int
    operations: int
    operations_limit: int
    replicas: int
    replicas_limit: int
    steps: int
    steps_limit: int


# The parts of a room, each of which an answer names with its limit.
PARTS = ("bytes", "documents", "operations", "replicas", "steps")


def counts_of(answer: Mapping[str, Any]) -> list[DocumentCounts]:
    """What an answer to `documents` tells.

    >>> counts_of({"documents": [{"chars": 3, "doc": 3, "ops": 7, "writers": ["00000000-0000-4000-8000-000000000002"]}], "ok": True})
    [DocumentCounts(number=3, characters=3, operations=7, writers=('00000000-0000-4000-8000-000000000002',))]
    """
    return [DocumentCounts(it["doc"], it["chars"], it["ops"], tuple(it["writers"])) for it in answer["documents"]]


def versions_of(answer: Mapping[str, Any]) -> list[Version]:
    """What an answer to `versions` tells."""
    return [Version(it["rev"], it["replica"], it["ops"]) for it in answer["versions"]]


def room_of(answer: Mapping[str, Any]) -> Room:
    """What an answer to `room` tells."""
    return Room(**{name: answer[name] for part in PARTS for name in (part, f"{part}_limit")})
