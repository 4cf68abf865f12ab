"""The file of a record, and the files that a power cut may leave of it.

They keep to the rules of a disk, those of the trait `Disk` (crates/disk_trait/src/calls.rt), and to what is said of `FileDisk` (file.rt):

- each byte of a range that was written since the last sync that came back may be anything, and so may each byte past the file's end at that
  sync: the old one, the new one, or another; so a write may be torn between any two bytes, and in sectors of 512
- the size is anything between that at the sync and the greatest end written since
- all other bytes are what they were: no write changes a byte beside its range, also not within a sector
- what a sync covers is settled once it came back, and the file's name once a sync of its folder did
"""

from page_file import PAGE
from recorded import BEGIN, END

SECTOR = 512
# Mixes by chance at each moment, and places at which a write is torn that isn't torn in sectors.
CHANCES, PIECES = 6, 8


class Replay:
    """A file by the events of a record: as reads give it, as syncs have settled it, and the writes since, each as [place, bytes, is over]."""

    def __init__(self, target, folder, data):
        """`data` is what was settled before the first event, or None if the file wasn't there."""
        self.target, self.folder = target, folder
        self.is_named = data is not None
        self.now, self.settled = bytearray(data or b""), bytearray(data or b"")
        self.waiting, self.covered = [], {}

    def take(self, it):
        if it.target == self.folder and it.call == "fsync" and it.when == END and it.more == 0:
            self.is_named = True
        if it.target != self.target:
            return
        if it.call == "pwrite":
            self.begin_write(it) if it.when == BEGIN else self.end_write(it)
        if it.call in ("fdatasync", "fsync"):
            self.begin_sync(it) if it.when == BEGIN else self.end_sync(it)

    def begin_write(self, it):
        self.waiting.append([it.place, it.more, False])

    def end_write(self, it):
        begun = next(write for write in reversed(self.waiting) if write[0] == it.place and not write[2])
        begun[2] = True
        put(self.now, it.place, begun[1][: max(it.more, 0)])

    def begin_sync(self, it):
        self.covered[it.thread] = [write for write in self.waiting if write[2]]

    def end_sync(self, it):
        covered = self.covered.pop(it.thread)
        if it.more != 0:
            return
        # A write that failed, or wrote less, is settled as the file reads.
        for place, data, _ in covered:
            put(self.settled, place, self.now[place : place + len(data)])
        self.waiting = [write for write in self.waiting if not any(write is over for over in covered)]


def put(data, place, written):
    """Writes bytes at a place of a file, or past its end."""
    data.extend(bytes(max(0, place - len(data))))
    data[place : place + len(written)] = written


def sectors(place, count):
    """The places at which a sector begins within a write."""
    return range(SECTOR - place % SECTOR, count, SECTOR)


def torn(chance, place, old, new):
    """What may be left of a write: some of it old and some new, or something else."""
    count = len(new)
    in_sectors = [*sectors(place, count)]
    cuts = in_sectors if in_sectors and chance.randrange(2) else sorted(chance.randint(0, count) for _ in range(PIECES))
    at = chance.choice(cuts)
    other = chance.choice((b"\0", b"\1", b"\xff")) * count if chance.randrange(2) else chance.randbytes(count)
    first, last = chance.choice(((new, old), (old, new), (other, new), (new, other), (other, other), (None, None)))
    if first:
        return first[:at] + last[at:]
    ends = [0, *cuts, count]
    return b"".join(chance.choice((old, new))[begin:end] for begin, end in zip(ends, ends[1:]))


class Cut:
    """A moment at which the power may be cut: what is settled, and the writes since."""

    def __init__(self, replay, chance):
        self.settled, self.chance = bytes(replay.settled), chance
        self.writes = [(place, bytes(data)) for place, data, _ in replay.waiting]
        self.most = max([len(self.settled), *(place + len(data) for place, data in self.writes)])

    def file(self, states, size=None):
        """The file in which each write is old (0), new (1) or torn (2), of this size; else of one by chance."""
        data = bytearray(self.settled.ljust(self.most, self.chance.choice((b"\0", b"\0", b"\1", b"\xff"))))
        for (place, new), state in zip(self.writes, states):
            if state:
                old = bytes(data[place : place + len(new)])
                put(data, place, new if state == 1 else torn(self.chance, place, old, new))
        return bytes(data[: self.size() if size is None else size])

    def size(self):
        """A size: the least, the greatest, one between, or one at a page's or a sector's end."""
        least, most = len(self.settled), self.most
        between = self.chance.randint(least, most)
        rounded = [between // unit * unit for unit in (PAGE, SECTOR)]
        return self.chance.choice((least, most, most, between, *(it for it in rounded if it >= least)))

    def files(self):
        """Files that this cut may leave: all old, all new, the writes up to each one, each one alone there, missing and torn, and mixes by
        chance; some of them twice."""
        count = len(self.writes)
        yield self.settled
        if not count:
            return
        yield self.file([0] * count, self.most)
        yield self.file([1] * count, self.most)
        yield self.file([1] * count, len(self.settled))
        for k in range(count):
            yield self.file([1] * k + [2] + [0] * (count - k - 1), self.most)
            for one, others in ((0, 1), (1, 0), (2, 1), (2, 0)):
                yield self.file([one if it == k else others for it in range(count)])
        for _ in range(CHANCES):
            yield self.file([self.chance.randrange(3) for _ in range(count)])
