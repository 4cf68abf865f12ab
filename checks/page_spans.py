"""What a dump of a page file prints, by the plain reader: the text and the spans of a document, or the refusal that is due."""

import json
import uuid
from itertools import groupby

import page_file
from page_file import ADD_MARK, COMMENT, EM, INSERT, LINK, REMOVE, REMOVE_MARK, STRONG
from program import fault

START, BEFORE, AFTER, END = 0, 1, 2, 3


def place(anchor, places, end):
    """Where an anchor is: before the k-th character at 2k, after it at 2k + 1."""
    tag, name = anchor
    if tag == START:
        return -1
    if tag == END:
        return end
    return 2 * places[name] + (tag == AFTER)


def marks_at(k, covering):
    """The marks of the k-th character: of the operations of a mark that cover it the one with the greatest id decides."""
    decided = {}
    for own, kind, mark, start, end in covering:
        if start <= 2 * k < end:
            key = mark.kind, mark.value if mark.kind == COMMENT else None
            if key not in decided or decided[key][0] < own:
                decided[key] = own, kind == ADD_MARK, mark.value
    return {key: value for key, (_, adds, value) in decided.items() if adds}


def span(marks, text):
    """A span as it is printed."""
    found = {}
    comments = sorted(value for (kind, value) in marks if kind == COMMENT)
    if comments:
        found["comments"] = [str(uuid.UUID(bytes=value)) for value in comments]
    if (EM, None) in marks:
        found["em"] = True
    if (LINK, None) in marks:
        found["link"] = marks[LINK, None]
    if (STRONG, None) in marks:
        found["strong"] = True
    return dict(found, text=text)


def spans(ops):
    """The spans of one document's operations: the longest runs of visible characters with equal marks."""
    order = page_file.walk(ops)
    places = {own: k for k, own in enumerate(order)}
    values = {op.own: chr(op.value) for op in ops if op.kind == INSERT}
    removed = {op.names[0] for op in ops if op.kind == REMOVE}
    covering = [
        (op.own, op.kind, op.mark, place(op.mark.start, places, 2 * len(order)), place(op.mark.end, places, 2 * len(order)))
        for op in ops
        if op.kind in (ADD_MARK, REMOVE_MARK)
    ]
    shown = [(marks_at(k, covering), values[own]) for k, own in enumerate(order) if own not in removed]
    return [span(marks, "".join(value for _, value in run)) for marks, run in groupby(shown, key=lambda it: it[0])]


def answer(**fields):
    return json.dumps(fields, ensure_ascii=False, separators=(",", ":")).encode() + b"\n"


def dumped(data, doc=1):
    """Exit status, output and faults of a dump of a file with these bytes."""
    try:
        ops = [op for op in page_file.image(data)[1] if op.doc == doc]
    except page_file.Refused as refused:
        return fault(refused.number)
    text = page_file.text(ops, doc)
    return 0, answer(ok=True, rev=len(ops), text=text) + answer(ok=True, rev=len(ops), spans=spans(ops)), b""
