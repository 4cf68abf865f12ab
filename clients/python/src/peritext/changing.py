"""What changed in a document: the steps that make of the text of then the one of now."""

from __future__ import annotations

from collections import deque
from dataclasses import dataclass, replace
from itertools import groupby
from operator import attrgetter
from typing import Any, Iterable, Mapping, NamedTuple, Union

from .marks import Marks, Span


@dataclass(frozen=True)
class Retain:
    """So many characters stay. With marks they have just these now, else those that they had."""

    count: int
    marks: Marks | None = None


@dataclass(frozen=True)
class Delete:
    """So many characters go."""

    count: int


@dataclass(frozen=True)
class Insert:
    """A text comes, with these marks."""

    text: str
    marks: Marks = Marks()


Step = Union[Retain, Delete, Insert]


class Changes(NamedTuple):
    """Steps over a text, from its start on, and the `rev` of the text that they make. What stands behind the last one stays as it is."""

    steps: list[Step]
    rev: int


def step_of(answer: Mapping[str, Any]) -> Step:
    """A step, as an answer spells it.

    >>> step_of({"retain": 3}), step_of({"attributes": {"strong": True}, "insert": "abc"})
    (Retain(count=3, marks=None), Insert(text='abc', marks=Marks(strong=True)))
    """
    if "delete" in answer:
        return Delete(answer["delete"])
    if "insert" in answer:
        return Insert(answer["insert"], Marks.of(answer.get("attributes", {})))
    return Retain(answer["retain"], Marks.of(answer["attributes"]) if "attributes" in answer else None)


def applied(spans: Iterable[Span], steps: Iterable[Step]) -> list[Span]:
    """The spans that steps make of others. `ValueError` if the steps are over a longer text.

    >>> applied([Span("one two")], [Retain(4, Marks(em=True)), Insert("TWO!"), Delete(2)])
    [Span(text='one ', em=True), Span(text='TWO!o')]
    """
    left = deque(spans)
    made: list[Span] = []
    for step in steps:
        if isinstance(step, Insert):
            made.append(step.marks.on(step.text))
            continue
        taken = _taken(left, step.count)
        if isinstance(step, Retain):
            made += taken if step.marks is None else [step.marks.on(span.text) for span in taken]
    return _joined([*made, *left])


def _taken(left: deque[Span], count: int) -> list[Span]:
    """Takes so many characters from the first spans."""
    taken = []
    while count > 0:
        if not left:
            raise ValueError("the steps are over a longer text")
        span = left.popleft()
        if len(span.text) > count:
            left.appendleft(replace(span, text=span.text[count:]))
            span = replace(span, text=span.text[:count])
        taken.append(span)
        count -= len(span.text)
    return taken


def _joined(spans: list[Span]) -> list[Span]:
    """The same text, in spans that are as long as they can be."""
    alike = [list(same) for _, same in groupby(spans, attrgetter("strong", "em", "link", "comments"))]
    return [same[0] if len(same) == 1 else replace(same[0], text="".join(span.text for span in same)) for same in alike]
