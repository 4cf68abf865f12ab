"""The daemon: durable edits a second from 1, 8 and 32 sessions beside redis-server and beside the same device calls, in rounds that take
turns; 1 and 32 sessions over slower syncs, with the edits of a commit; reads of a small document from 8 sessions while others edit; and how
long two daemons take to bring each other up to date.

python3 bench/serve.py PROGRAM [FOLDER]. The files are made in FOLDER (here, if none is given), so name one on the disk that is to be
measured. The load is load.c, for which gcc is needed; without redis-server its rows are left out. It takes about two minutes.
"""

import os
import sys
import tempfile
import time

from load import Found, compiled, floor, load, slow_syncs, started, told
from servers import REPLICAS, Daemon, Redis, has_redis

ROUNDS = 6
SECONDS = 0.7
CLIENTS = (1, 8, 32)
READERS = 8
WRITERS = 2
# By how many microseconds each sync is slower in the rounds that count commits.
PAUSES = (0, 350)
GROUP_ROUNDS = 3
READ_ROUNDS = 3
CATCH_UPS = 3
PASTE = 250
# How many operations two daemons have made apart.
APART = ((50_000, 50_000), (100_000, 0))
# The document that is read, and how many characters it has.
READ, LENGTH = 1000, 100
# Seconds in which two daemons have to be up to date.
LONGEST = 60


class Room:
    """What the rounds share: the programs, a folder, and a number for each file in it."""

    def __init__(self, program, folder):
        self.program, self.folder, self.files = program, folder, 0
        self.load, self.slow_syncs = compiled(folder), slow_syncs(folder)

    def path(self):
        self.files += 1
        return os.path.join(self.folder, f"file{self.files}")

    def daemon(self, replica=REPLICAS[0], around=None):
        return Daemon(self.program, self.path(), replica, around)


def measured_edits(room, redis):
    """The floor, the daemon over a new file and redis, each for a while, again and again."""
    found = {"floor": Found()}
    for _ in range(ROUNDS):
        found["floor"].add(floor(room.load, room.path(), SECONDS))
        for clients in CLIENTS:
            daemon = room.daemon().start()
            try:
                daemon.wait()
                found.setdefault(("edits", clients), Found()).add(load(room.load, "edits", daemon.sessions, clients, SECONDS))
                daemon.stop()
            finally:
                daemon.kill()
            if redis:
                found.setdefault(("pushes", clients), Found()).add(load(room.load, "pushes", redis.port, clients, SECONDS))
    return found


def measured_groups(room):
    """One session's edits and those of 32, over syncs that are slower by so much, and how many commits these took."""
    found = {}
    for _ in range(GROUP_ROUNDS):
        for pause in PAUSES:
            for clients in (1, 32):
                daemon = room.daemon(around={"LD_PRELOAD": room.slow_syncs, "SYNC_PAUSE": str(pause * 1000)}).start()
                try:
                    daemon.wait()
                    told_by, commits = found.setdefault((pause, clients), (Found(), []))
                    told_by.add(load(room.load, "edits", daemon.sessions, clients, SECONDS))
                    daemon.stop()
                finally:
                    daemon.kill()
                commits.append(daemon.commits())
    return found


def read_beside_edits(room, port, reads, edits):
    """Reads from 8 clients while others edit."""
    readers = started(room.load, reads, port, READERS, 2, int(SECONDS * 1000))
    writers = started(room.load, edits, port, WRITERS, 1, int(SECONDS * 1000))
    return told(readers, SECONDS), told(writers, SECONDS)


def measured_reads(room, redis):
    names = ("texts", "edits beside texts", "gets", "pushes beside gets")
    found = {name: Found() for name in names}
    if redis:
        redis.command(b"SET", b"text", b"x" * LENGTH)
    for _ in range(READ_ROUNDS):
        daemon = room.daemon().start()
        try:
            daemon.talk().ask(op="insert", doc=READ, at=0, text="x" * LENGTH)
            read, edited = read_beside_edits(room, daemon.sessions, "texts", "edits")
            daemon.stop()
        finally:
            daemon.kill()
        found["texts"].add(read)
        found["edits beside texts"].add(edited)
        if redis:
            read, edited = read_beside_edits(room, redis.port, "gets", "pushes")
            found["gets"].add(read)
            found["pushes beside gets"].add(edited)
    return found


def typed_alone(daemon, operations):
    """A daemon that made so many operations before anybody was linked to it, and has ended."""
    daemon.start()
    talk = daemon.talk()
    for at in range(0, operations, PASTE):
        talk.ask(op="insert", doc=1, at=at, text="x" * PASTE)
    talk.close()
    daemon.stop()


def is_linked(port):
    """Whether a connection to this port is established."""
    wanted = f":{port:04X}"
    with open("/proc/net/tcp", encoding="ascii") as table:
        return any(fields[2].endswith(wanted) and fields[3] == "01" for fields in map(str.split, table))


def within(what, is_so, pause):
    until = time.monotonic() + LONGEST
    while not is_so():
        if time.monotonic() > until:
            raise SystemExit(f"not in {LONGEST} seconds: {what}")
        time.sleep(pause)


def caught_up(room, one, other):
    """Seconds from the moment that the link is up until both daemons have all operations."""
    first, second = room.daemon(REPLICAS[0]), room.daemon(REPLICAS[1])
    typed_alone(first, one)
    typed_alone(second, other)
    first.start()
    try:
        talk = first.talk()
        talk.applied()
        second.start(link=first.peers)
        within("a link", lambda: is_linked(first.peers), 0.0005)
        begun = time.perf_counter()
        talks = [talk, second.talk()]
        within("both have all", lambda: all(asked.applied() == one + other for asked in talks), 0.002)
        took = time.perf_counter() - begun
        texts = {asked.ask(op="text", doc=1)["text"] for asked in talks}
        if len(texts) > 1:
            raise SystemExit("the two daemons show different texts")
        for asked in talks:
            asked.close()
        second.stop()
        first.stop()
    finally:
        for daemon in (first, second):
            daemon.kill()
    return took


def measured_links(room):
    return {pair: [caught_up(room, *pair) for _ in range(CATCH_UPS)] for pair in APART}


def row(what, found, base, one=None):
    """A row of the table; its rate beside that of one client of the same server, its times beside the floor's."""
    p50, p99 = found.quantile(0.5), found.quantile(0.99)
    times = f"{found.rate() / one.rate():.1f}" if one else ""
    print(f"| {what} | {found.rate():,.0f} | {times} | {p50:,.0f} us | {p99:,.0f} us | {p99 / base.quantile(0.99):.2f} | {found.share():.2f} |")


def tell_edits(found, redis):
    base = found["floor"]
    print("| What | a second | times one | p50 | p99 | p99 of the floor's | processors of the load |")
    print("|---|---|---|---|---|---|---|")
    row("the same device calls, one after another", base, base)
    for kind, what in (("edits", "peritext, sessions:"), ("pushes", "redis, clients:")):
        for clients in CLIENTS:
            if redis or kind == "edits":
                row(f"{what} {clients}", found[kind, clients], base, found[kind, 1])


def tell_groups(found):
    print("\n| Each sync slower by | 1 session, a second | 32 sessions | times one | edits a commit |")
    print("|---|---|---|---|---|")
    for pause in PAUSES:
        one, most = found[pause, 1][0], found[pause, 32][0]
        each = len(most.times) / sum(found[pause, 32][1])
        print(f"| {pause} us | {one.rate():,.0f} | {most.rate():,.0f} | {most.rate() / one.rate():.1f} | {each:.1f} |")


def tell_reads(found, redis, base):
    print("\n| Reads | a second | | p50 | p99 | p99 of the floor's | processors of the load |")
    print("|---|---|---|---|---|---|---|")
    row(f"peritext, `text` from {READERS} sessions", found["texts"], base)
    row(f"peritext, edits of {WRITERS} sessions beside them", found["edits beside texts"], base)
    if redis:
        row(f"redis, `GET` from {READERS} clients", found["gets"], base)
        row(f"redis, pushes of {WRITERS} clients beside them", found["pushes beside gets"], base)


def tell_links(found):
    print("\n| Operations apart | until both have all |")
    print("|---|---|")
    for (one, other), times in found.items():
        print(f"| {one:,} and {other:,} | " + ", ".join(f"{took:.2f} s" for took in sorted(times)) + " |")


def tell_aims(edits, reads, links, redis):
    most, one = edits["edits", 32], edits["edits", 1]
    aims = [
        ("32 sessions, times one session's rate", most.rate() / one.rate(), ">=", 16),
        ("32 sessions, p99, of the floor's p50", most.quantile(0.99) / edits["floor"].quantile(0.5), "<", 10),
        ("32 sessions, p99, of the floor's p99", most.quantile(0.99) / edits["floor"].quantile(0.99), "<", 10),
        ("reads a second", reads["texts"].rate(), ">=", 50_000),
        ("catching up, seconds", max(took for times in links.values() for took in times), "<", 2),
    ]
    if redis:
        aims.insert(1, ("32 sessions, of redis with 32 clients", most.rate() / edits["pushes", 32].rate(), ">=", 0.5))
    print("\n| Aim | found | aim | met |")
    print("|---|---|---|---|")
    for what, value, how, aim in aims:
        met = value >= aim if how == ">=" else value < aim
        print(f"| {what} | {value:,.2f} | {how} {aim:,} | {'yes' if met else 'no'} |")


def main():
    program = os.path.abspath(sys.argv[1])
    with tempfile.TemporaryDirectory(dir=sys.argv[2] if len(sys.argv) > 2 else ".") as folder:
        folder = os.path.abspath(folder)
        room = Room(program, folder)
        redis = Redis(os.path.join(folder, "redis")) if has_redis() else None
        try:
            edits = measured_edits(room, redis)
            groups = measured_groups(room)
            reads = measured_reads(room, redis)
        finally:
            if redis:
                redis.kill()
        links = measured_links(room)
    tell_edits(edits, redis)
    tell_groups(groups)
    tell_reads(reads, redis, edits["floor"])
    tell_links(links)
    tell_aims(edits, reads, links, redis)
    if not redis:
        print("\nredis-server isn't here, so its rows are left out")


if __name__ == "__main__":
    main()
