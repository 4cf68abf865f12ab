"""Each kind of marks as docs/protocol.json has it, in the running program: whether it grows, whether two values overlap, its byte, HTML and Markdown."""

import json

import page_file
from agreed import REQUESTS, TABLE
from program import insert, line, new_file, read, run

# Two values of a mark, by the type of its field.
VALUES = {
    "url": ("https://one.example/", "https://two.example/"),
    "uuid": ("00000000-0000-4000-8000-0000000000c1", "00000000-0000-4000-8000-0000000000c2"),
}
HEAD, FOOT = '<!doctype html><meta charset="utf-8"><div style="white-space: pre-wrap"><p>', "</p></div>\n"


def values_of(mark):
    """The fields of two marks of a kind; the same ones if it has no value."""
    fields = REQUESTS["mark"]["of_kind"].get(mark["kind"], {})
    return [{name: VALUES[kind][which] for name, kind in fields.items()} for which in (0, 1)]


def marked(mark, value):
    return line(op="mark", doc=1, **{"from": 0, "to": 2}, kind=mark["kind"], **value)


def shown(program, *lines):
    """The spans after these lines of a new store, as pairs of the text and what else stands there."""
    new_file(program, "kinds")
    answers = run(program, "edit", "kinds", lines=b"".join(lines) + line(op="spans", doc=1))[1].splitlines()
    spans = [dict(span) for span in json.loads(answers[-1])["spans"]]
    return [(span.pop("text"), span) for span in spans]


def held(mark, *values):
    """What a span has of a mark with these values."""
    if mark["overlaps"]:
        return {f"{mark['kind']}s": [value[mark["value"]] for value in values]}
    return {mark["kind"]: values[-1][mark["value"]] if mark["value"] else True}


def exported(program, form):
    answer = run(program, "edit", "kinds", lines=line(op="export", doc=1, to=form))[1]
    return json.loads(answer)["text"]


def around(pair, value, text):
    """A text between what stands before it and after it for a mark."""
    first, last = (part.replace("VALUE", "".join(value.values())) for part in pair)
    return first + text + last


def check(checks, program, _until):
    for mark in TABLE["marks"]:
        kind, (one, other) = mark["kind"], values_of(mark)
        grown = [("abx", held(mark, one))] if mark["grows"] else [("ab", held(mark, one)), ("x", {})]
        checks.same(f"what is typed at the end of {kind}", shown(program, insert(0, "ab"), marked(mark, one), insert(2, "x")), grown)
        both = held(mark, one, other)
        checks.same(f"two of {kind} over one text", shown(program, insert(0, "ab"), marked(mark, one), marked(mark, other)), [("ab", both)])
        checks.same(f"one of {kind}", shown(program, insert(0, "ab"), marked(mark, one)), [("ab", held(mark, one))])
        checks.same(f"the byte of {kind}", page_file.image(read("kinds"))[1][-1].mark.kind, mark["byte"])
        checks.same(f"{kind} in HTML", exported(program, "html"), HEAD + around(mark["html"], one, "ab") + FOOT)
        checks.same(f"{kind} in Markdown", exported(program, "markdown"), around(mark["markdown"], one, "ab") + "\n")
