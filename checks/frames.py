"""Frames between peers and records of operations, written from docs/FORMATS.md alone, and a peer that says what it is told to say."""

import select
import socket

from daemon import connection

HELLO, HAVE, OPS, BYE = 1, 2, 3, 4
INSERT, REMOVE, ADD_MARK, REMOVE_MARK, RUN = 1, 2, 3, 4, 5
STRONG, EM, LINK, COMMENT = 1, 2, 3, 4
START, END = b"\0", b"\3"


def replica(number):
    """A replica's bytes."""
    return (0x4000_8000_0000_0000_0000 + number).to_bytes(16, "big")


def name(counter, maker):
    """An id."""
    return counter.to_bytes(8, "big") + maker


def anchor(tag, counter, maker):
    """Before (1) or after (2) a character."""
    return bytes([tag]) + name(counter, maker)


def entries(clock):
    """A clock, as a list of replicas and counts, in the order given."""
    return bytes([len(clock)]) + b"".join(maker + count.to_bytes(8, "big") for maker, count in clock)


def record(kind, maker, counter, content, deps=(), doc=1):
    body = bytes([kind]) + doc.to_bytes(4, "big") + name(counter, maker) + entries(sorted(deps)) + content
    return len(body).to_bytes(4, "big") + body


def run_record(maker, counter, text, deps=(), doc=1, origin=None, token=b""):
    """The record of characters that were typed one behind another in one edit."""
    content = token + (b"\1" + origin if origin else b"\0") + len(text).to_bytes(2, "big") + b"".join(ord(it).to_bytes(4, "big") for it in text)
    return record(RUN + (16 if token else 0), maker, counter, content, deps, doc)


def inserted(character, origin=None):
    """The content of an insert; the origin is an id's bytes."""
    return (b"\1" + origin if origin else b"\0") + ord(character).to_bytes(4, "big")


def url(text):
    data = text.encode()
    return bytes([LINK]) + len(data).to_bytes(2, "big") + data


def frame(kind, content=b""):
    return (len(content) + 1).to_bytes(4, "big") + bytes([kind]) + content


def hello(maker, version=3):
    return frame(HELLO, version.to_bytes(2, "big") + maker)


def have(*clock):
    return frame(HAVE, entries(clock))


def ops(*records):
    return frame(OPS, len(records).to_bytes(2, "big") + b"".join(records))


def typed(maker, count, doc=1, first=1, known=0, at_start=False):
    """Records of inserts, each behind the one before, or each at the start of the text; `known` are the operations of the maker before."""
    found = []
    for k in range(count):
        deps = [(maker, known + k)] if known + k else []
        origin = None if at_start or not k else name(first + k - 1, maker)
        found.append(record(INSERT, maker, first + k, inserted(chr(97 + k % 26), origin), deps, doc))
    return found


def framed(records):
    """Frames of all these records."""
    return [ops(*records[first : first + 64]) for first in range(0, len(records), 64)]


class Peer:
    """A link to a daemon, by somebody who need not keep the rules."""

    def __init__(self, port, maker=None):
        self.socket = connection(port)
        self.heard = b""
        if maker:
            self.say(hello(maker))

    def say(self, data):
        """Sends this; whether all of it was taken in time."""
        try:
            self.socket.sendall(data)
            return True
        except TimeoutError:
            return False

    def frames(self, seconds):
        """The frames that come in this time, and whether the link ended; it waits for the first one only."""
        wait = seconds
        while select.select([self.socket], [], [], wait)[0]:
            try:
                more = self.socket.recv(65_536)
            except ConnectionResetError:
                more = b""
            if not more:
                return self.taken(), True
            self.heard += more
            wait = 0
        return self.taken(), False

    def taken(self):
        """The whole frames that were heard, as types and contents."""
        found = []
        while len(self.heard) >= 4:
            size = 4 + int.from_bytes(self.heard[:4], "big")
            if len(self.heard) < size:
                break
            found.append((self.heard[4], self.heard[5:size]))
            self.heard = self.heard[size:]
        return found

    def has_ended(self, seconds):
        """Whether the daemon ends the link in this time; what it says is dropped."""
        self.socket.settimeout(seconds)
        try:
            while self.socket.recv(65_536):
                pass
            return True
        except ConnectionResetError:
            return True
        except TimeoutError:
            return False

    def close(self):
        self.socket.close()

    def reset(self):
        """Ends the connection at once, so that what the other end still sends is refused."""
        self.socket.setsockopt(socket.SOL_SOCKET, socket.SO_LINGER, b"\1\0\0\0\0\0\0\0")
        self.socket.close()
