"""Marks, and spans of text with marks."""

from __future__ import annotations

from dataclasses import dataclass, field
from typing import Any, Mapping, Union
from uuid import UUID


@dataclass(frozen=True)
class Plain:
    """A mark without content: strong or em."""

    kind: str

    def fields(self) -> dict[str, Any]:
        return {"kind": self.kind}

    def key(self) -> dict[str, Any]:
        return self.fields()


STRONG = Plain("strong")
EM = Plain("em")


@dataclass(frozen=True)
class Link:
    """A link to a URL of 1 to 1,024 bytes. To take a link away the URL doesn't matter."""

    url: str = ""

    def fields(self) -> dict[str, Any]:
        return {"kind": "link", "url": self.url}

    def key(self) -> dict[str, Any]:
        return {"kind": "link"}


@dataclass(frozen=True)
class Comment:
    """A comment, by its id; what it says is kept elsewhere. Several may stand on one character."""

    id: UUID

    def fields(self) -> dict[str, Any]:
        return {"kind": "comment", "id": str(self.id)}

    def key(self) -> dict[str, Any]:
        return self.fields()


Mark = Union[Plain, Link, Comment]


@dataclass(frozen=True, repr=False)
class Marks:
    """All marks of a character."""

    strong: bool = False
    em: bool = False
    link: str | None = None
    comments: tuple[UUID, ...] = field(default=())

    def __repr__(self) -> str:
        """Those marks that are there."""
        return f"Marks({', '.join(_shown(self))})"

    def on(self, text: str) -> Span:
        """A text with these marks."""
        return Span(text, self.strong, self.em, self.link, self.comments)

    @staticmethod
    def of(answer: Mapping[str, Any]) -> Marks:
        """Those that an answer names: one that isn't there is left out there, or None."""
        return Marks(
            answer.get("strong") or False,
            answer.get("em") or False,
            answer.get("link"),
            tuple(UUID(comment) for comment in answer.get("comments") or ()),
        )


@dataclass(frozen=True, repr=False)
class Span:
    """Text whose characters all have the same marks, as long as it can be."""

    text: str
    strong: bool = False
    em: bool = False
    link: str | None = None
    comments: tuple[UUID, ...] = field(default=())

    def __repr__(self) -> str:
        """The text, and those marks that are there."""
        return f"Span({', '.join([f'text={self.text!r}', *_shown(self)])})"

    @staticmethod
    def of(answer: Mapping[str, Any]) -> Span:
        """A span, as an answer spells it."""
        return Marks.of(answer).on(answer["text"])


def _shown(marked: Marks | Span) -> list[str]:
    """Those marks that are there, as a call names them."""
    there = {name: getattr(marked, name) for name in ("strong", "em", "link", "comments")}
    return [f"{name}={value!r}" for name, value in there.items() if value not in (False, None, ())]
