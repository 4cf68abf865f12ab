"""Peers that only listen: each keeps the clock of what it was told, and joins its daemon again where a link ends."""

import threading
import time

from servers import PATIENCE, connection

HELLO, HAVE, OPS, BYE = 1, 2, 3, 4


def replica(number):
    """A replica's bytes, none of a daemon's."""
    return (0x4000_8000_0000_0000_0000 + 100 + number).to_bytes(16, "big")


def frame(kind, content=b""):
    return (len(content) + 1).to_bytes(4, "big") + bytes([kind]) + content


def records(content):
    """The records of an OPS, each with its length first."""
    count, at = int.from_bytes(content[:2], "big"), 2
    for _ in range(count):
        end = at + 4 + int.from_bytes(content[at : at + 4], "big")
        yield content[at:end]
        at = end


def typed_in(record):
    """How many operations a record has: kinds 5 and 21 are of a run, which says it behind its deps, its token and its origin."""
    if record[4] not in (5, 21):
        return 1
    origin = 34 + 24 * record[33] + (16 if record[4] == 21 else 0)
    at = origin + (25 if record[origin] else 1)
    return int.from_bytes(record[at : at + 2], "big")


def ids(record):
    """The counter and the maker of each operation of a record: it is its length, and kind (1 byte), document (4), counter (8) and maker
    (16) first. Those of a run have counters in a row."""
    counter, maker = int.from_bytes(record[9:17], "big"), record[17:33]
    return [(counter + k, maker) for k in range(typed_in(record))]


class Follower(threading.Thread):
    """A peer that says what it has, hears what it lacks, and tells nothing. A maker's counters have to rise, so that none is told twice."""

    def __init__(self, number, port):
        super().__init__(daemon=True)
        self.maker, self.port = replica(number), port
        self.clock, self.greatest, self.again = {}, {}, 0
        self.links, self.over = 0, threading.Event()

    def count(self):
        """How many operations it was told so far."""
        return sum(list(self.clock.values()))

    def have(self):
        entries = b"".join(maker + count.to_bytes(8, "big") for maker, count in sorted(self.clock.items()))
        return frame(HAVE, bytes([len(self.clock)]) + entries)

    def run(self):
        while not self.over.is_set():
            try:
                with connection(self.port) as link:
                    self.links += 1
                    link.settimeout(0.5)
                    link.sendall(frame(HELLO, (3).to_bytes(2, "big") + self.maker) + self.have())
                    self.listen(link)
            except OSError:
                pass
            time.sleep(0.1)

    def listen(self, link):
        """Hears to the link's end, and counts each operation that it is told."""
        heard = b""
        while not self.over.is_set():
            try:
                more = link.recv(262_144)
            except TimeoutError:
                continue
            if not more:
                return
            heard += more
            while len(heard) >= 4 and len(heard) >= (size := 4 + int.from_bytes(heard[:4], "big")):
                if heard[4] == OPS:
                    for counter, maker in (it for record in records(heard[5:size]) for it in ids(record)):
                        self.clock[maker] = self.clock.get(maker, 0) + 1
                        self.again += counter <= self.greatest.get(maker, 0)
                        self.greatest[maker] = counter
                heard = heard[size:]

    def told(self, count):
        """Waits until it was told so many operations, and a second longer, and answers how many it was, and how many of them again."""
        until = time.monotonic() + PATIENCE
        while self.count() < count and time.monotonic() < until:
            time.sleep(0.05)
        time.sleep(1)
        return self.count(), self.again

    def end(self):
        self.over.set()
        self.join()
