"""Lines that edit documents, drawn by chance: inserts, long ones, removals, marks of all kinds, some with a token and some of these sent again."""

import uuid

from program import line

LETTERS = "abcdeé "
LONG = 256


def token(chance):
    """A token."""
    return {"token": str(uuid.UUID(int=chance.getrandbits(128) | 1))}


def insert(chance, doc, length, more):
    text = "".join(chance.choice(LETTERS) for _ in range(chance.choice((chance.randint(1, 5), chance.randint(1, 40), LONG))))
    return line(op="insert", doc=doc, at=chance.randint(0, length), text=text, **more), length + len(text)


def delete(chance, doc, length, more):
    first = chance.randrange(length)
    count = min(chance.randint(1, 9), length - first)
    return line(op="delete", doc=doc, at=first, count=count, **more), length - count


def mark(chance, doc, length, more):
    first = chance.randrange(length)
    places = {"from": first, "to": chance.randint(first + 1, length)}
    values = ({"kind": "strong"}, {"kind": "em"}, {"kind": "link", "url": "u" * chance.randint(1, 40)})
    kind = chance.choice((*values, {"kind": "comment", "id": str(uuid.UUID(int=chance.randint(1, 5)))}))
    op = "unmark" if kind["kind"] != "link" and chance.randrange(3) == 0 else "mark"
    return line(op=op, doc=doc, **places, **kind, **more), length


def edit(chance, doc, length, has_token):
    """A line that edits a document of this length, and its length then."""
    kind = chance.choice((insert, insert, delete, mark)) if length else insert
    return kind(chance, doc, length, token(chance) if has_token else {})


def edits(chance, count, docs=(1,), tokens=3):
    """Lines of edits of these documents. One of so many has a token, and some of these come again."""
    lengths, lines, known = dict.fromkeys(docs, 0), [], []
    for _ in range(count):
        doc, has_token = chance.choice(docs), chance.randrange(tokens) == 0
        made, lengths[doc] = edit(chance, doc, lengths[doc], has_token)
        lines.append(made)
        known += [made] if has_token else []
        if known and chance.randrange(5) == 0:
            lines.append(chance.choice(known))
    return lines
