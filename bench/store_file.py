"""Files of stores with many operations, written from docs/FORMATS.md, for the measurements beside this file."""

import random

PAGE = 4096
NAME = bytes.fromhex("00000000000040008000000000000001")


SHAPES = ("end", "front", "random", "documents")


def origin_of(counter, shape, chance):
    """The counter of the insert that an insert hangs from, or 0 at the beginning."""
    if shape == "front":
        return 0
    if shape == "random":
        return chance.randrange(counter)
    if shape == "documents":
        return max(counter - 1000, 0)
    return counter - 1


def record(counter, doc=1, origin=None, token=b""):
    """The record of an insert behind the one of another counter, or the one before it; 0 is the beginning. It may have a token."""
    before = counter - 1
    origin = before if origin is None else origin
    body = (b"\x11" if token else b"\1") + doc.to_bytes(4, "big") + counter.to_bytes(8, "big") + NAME
    body += b"\1" + NAME + before.to_bytes(8, "big") if before else b"\0"
    body += token
    body += b"\1" + origin.to_bytes(8, "big") + NAME if origin else b"\0"
    body += (97 + counter % 26).to_bytes(4, "big")
    return len(body).to_bytes(4, "big") + body


def slot(version, length, count, tables):
    head = bytes([1]) + bytes(7) + b"PTXTPG03" + version.to_bytes(8, "big") + NAME
    head += length.to_bytes(8, "big") + count.to_bytes(8, "big") + len(tables).to_bytes(4, "big") + bytes(4)
    return (head + b"".join(n.to_bytes(4, "big") for n in tables)).ljust(PAGE, b"\0")


def make(name, count, shape="end", has_tokens=False):
    """A file of a store that has so many characters, in document 1, or in the documents from 1 to 1,000; each may have a token of its own."""
    chance = random.Random(count)
    docs = 1000 if shape == "documents" else 1
    stream = b"".join(
        record(i, 1 + (i - 1) % docs, origin_of(i, shape, chance), chance.randbytes(16) if has_tokens else b"")
        for i in range(1, count + 1)
    )
    pages = -(-len(stream) // PAGE)
    tables = -(-pages // 1024)
    data = list(range(2, 2 + pages))
    named = [2 + pages + t for t in range(tables)]
    with open(name, "wb") as file:
        file.write(slot(2, len(stream), count, named) + bytes(PAGE))
        file.write(stream.ljust(pages * PAGE, b"\0"))
        for t in range(tables):
            numbers = data[1024 * t : 1024 * t + 1024]
            file.write(b"".join(n.to_bytes(4, "big") for n in numbers).ljust(PAGE, b"\0"))
