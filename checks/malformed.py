"""Frames that break a rule, each with a name: a daemon ends the link behind them."""

from frames import (
    ADD_MARK, BYE, END, HAVE, HELLO, INSERT, LINK, OPS, REMOVE, REMOVE_MARK, START, STRONG, anchor, entries, frame, have, hello, inserted, name,
    ops, record, replica, run_record, url,
)
from program import NAME

US, OTHER = replica(60), replica(61)
NIL = bytes(16)
FIRST = record(INSERT, US, 1, inserted("a"))


def bent(body):
    """A record with this body."""
    return len(body).to_bytes(4, "big") + body


# Where a link begins with these.
BEGINNINGS = {
    "a length of 0": b"\0\0\0\0",
    "a length too great": (131_069).to_bytes(4, "big"),
    "a length of all ones": b"\xff\xff\xff\xff",
    "the words of another protocol": b"GET / HTTP/1.1\r\n\r\n",
    "a first frame that is no hello": have(),
    "operations before a hello": ops(FIRST),
    "a bye before a hello": frame(BYE),
    "the daemon's own name": hello(NAME),
    "a hello of nobody": hello(NIL),
    "a hello of an earlier format": hello(US, 1),
    "a hello of a later format": hello(US, 4),
    "a hello that is too short": frame(HELLO, b"\0\3" + US[:15]),
    "a hello that is too long": frame(HELLO, b"\0\3" + US + b"\0"),
}

# Where they come behind a hello.
FRAMES = {
    "a second hello": hello(US),
    "a bye": frame(BYE),
    "a bye with something in it": frame(BYE, b"\0"),
    "an unknown type": frame(9, b"x"),
    "a type of 0": frame(0),
    "a have without anything": frame(HAVE),
    "a have that is too short": frame(HAVE, b"\1" + US),
    "a have that is too long": frame(HAVE, b"\0\0"),
    "a have of 17 replicas": have(*[(replica(100 + n), 1) for n in range(17)]),
    "a have that doesn't rise": have((OTHER, 1), (US, 1)),
    "a have with a replica twice": have((US, 1), (US, 2)),
    "a have of nobody": have((NIL, 1)),
    "a have of no operation": have((US, 0)),
    "a have of too many operations": have((US, 2**24 + 1)),
    "no records": ops(),
    "65 records": ops(*[FIRST] * 65),
    "fewer records than it says": frame(OPS, b"\0\2" + FIRST),
    "more than the records that it says": frame(OPS, b"\0\1" + FIRST + b"\0"),
    "a record that isn't whole": frame(OPS, b"\0\1" + FIRST[:-1]),
    "a run that isn't whole": frame(OPS, b"\0\1" + run_record(US, 1, "ab")[:-1]),
    "operations without a number": frame(OPS, b"\0"),
}

BODY = FIRST[4:]
RECORDS = {
    "a record that is too short": bent(BODY[:32]),
    "a record that is too long": (1508).to_bytes(4, "big") + bytes(1508),
    "a record with bytes behind": bent(BODY + b"\0"),
    "a field past the end of its record": bent(BODY[:-1]),
    "an unknown kind": bent(b"\6" + BODY[1:]),
    "a run of one character": run_record(US, 1, "a"),
    "a run of 257 characters": run_record(US, 1, "a" * 257),
    "a run with half a surrogate": run_record(US, 1, "a\ud800"),
    "a run past the last counter": run_record(US, 2**48 - 1, "ab"),
    "a run with the token of nobody": run_record(US, 1, "ab", token=bytes(16)),
    "a counter of 0": record(INSERT, US, 0, inserted("a")),
    "a counter too great": record(INSERT, US, 2**48, inserted("a")),
    "a maker that is nobody": record(INSERT, NIL, 1, inserted("a")),
    "17 deps": record(INSERT, US, 1, inserted("a"), [(replica(100 + n), 1) for n in range(17)]),
    "deps of nobody": record(INSERT, US, 1, inserted("a"), [(NIL, 1)]),
    "a dep of no operation": record(INSERT, US, 1, inserted("a"), [(OTHER, 0)]),
    "deps that don't rise": bent(bytes([INSERT]) + (1).to_bytes(4, "big") + name(1, US) + entries([(OTHER, 1), (US, 1)]) + inserted("a")),
    "an origin of an unknown tag": record(INSERT, US, 1, b"\2" + inserted("a")[1:]),
    "half a surrogate": record(INSERT, US, 1, b"\0\0\0\xd8\0"),
    "a character past the last": record(INSERT, US, 1, b"\0\0\x11\0\0"),
    "a removal of the character 0": record(REMOVE, US, 1, name(0, OTHER)),
    "an unknown mark": record(ADD_MARK, US, 1, b"\5" + START + END),
    "a link without a URL": record(ADD_MARK, US, 1, bytes([LINK]) + b"\0\0" + START + END),
    "a URL of 1,025 bytes": record(ADD_MARK, US, 1, url("u" * 1025) + START + END),
    "a URL that is no UTF-8": record(ADD_MARK, US, 1, bytes([LINK]) + b"\0\1\xff" + START + END),
    "a mark that starts at the end": record(ADD_MARK, US, 1, bytes([STRONG]) + END + END),
    "a mark that ends at the start": record(REMOVE_MARK, US, 1, bytes([STRONG]) + START + START),
    "an anchor of an unknown tag": record(ADD_MARK, US, 1, bytes([STRONG]) + START + anchor(4, 1, US)),
}

# Good records that a replica refuses for good.
REFUSED = {
    "an operation of the daemon's own that it doesn't know": record(INSERT, NAME, 2**40, inserted("a"), [(NAME, 2**24 - 1)]),
    "an origin that isn't there": record(INSERT, US, 9, inserted("a", name(7, US))),
    "an origin that is no insert of its deps": record(INSERT, US, 9, inserted("a", name(1, replica(21)))),
    "a removal of what isn't there": record(REMOVE, US, 9, name(7, OTHER)),
    "a mark on what isn't there": record(ADD_MARK, US, 9, bytes([STRONG]) + anchor(1, 7, OTHER) + END),
    "a counter that doesn't rise": record(INSERT, replica(21), 5, inserted("a"), [(replica(21), 64)]),
    "document 0": record(INSERT, US, 1, inserted("a"), doc=0),
}

ENDED_BY = {
    **BEGINNINGS,
    **{what: hello(US) + data for what, data in FRAMES.items()},
    **{what: hello(US) + ops(data) for what, data in RECORDS.items()},
    **{f"{what}, behind a good one": hello(US) + ops(record(INSERT, OTHER, 1, inserted("a")), data) for what, data in list(RECORDS.items())[:1]},
    **{what: hello(US) + ops(data) for what, data in REFUSED.items()},
}
