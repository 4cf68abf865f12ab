"""What the noise of links costs sessions: durable edits a second from 8 sessions beside 8 links over which nothing is said, and beside 8
over which HAVEs come as fast as they are taken, in rounds that take turns.

python3 bench/noise.py PROGRAM.. [--folder FOLDER]. The files are made in FOLDER (here, if none is given). Several programs take turns, so
that what was before a change stands beside what is after it. The load is load.c, for which gcc is needed. It takes about half a minute a
program.
"""

import os
import selectors
import sys
import tempfile
import threading
import time

from followers import HAVE, HELLO, frame, replica
from load import Found, compiled, load
from servers import REPLICAS, Daemon, connection

ROUNDS = 5
SECONDS = 1.0
SESSIONS, LINKS = 8, 8
CHUNK = 65_536
# What the replica has made before: a peer that counted more would say that its file was put back from an older copy.
BEFORE = b'{"op":"insert","doc":1,"at":0,"text":"ab"}\n'
MADE = 2
OWN = bytes.fromhex(REPLICAS[0].replace("-", ""))
NOTHING = frame(HAVE, b"\0")
ALL_BEFORE = frame(HAVE, b"\1" + OWN + MADE.to_bytes(8, "big"))
ONE_LESS = frame(HAVE, b"\1" + OWN + (MADE - 1).to_bytes(8, "big"))
# What a peer says again and again, and whether it reads what it is told.
NOISES = {
    "nothing is said": (b"", True),
    "HAVEs that lack what is new": (ALL_BEFORE, True),
    "HAVEs that lack what is new, every other one another": (ALL_BEFORE + ONE_LESS, True),
    "HAVEs that lack all": (NOTHING, True),
    "HAVEs that lack all, deaf": (NOTHING, False),
}


class Noise(threading.Thread):
    """Peers that say this as fast as it is taken, each over a link of its own."""

    def __init__(self, port, said, reads):
        super().__init__(daemon=True)
        self.data, self.reads, self.bytes = said * max(1, CHUNK // max(1, len(said))), reads, 0
        self.links, self.over = [self.greeted(port, number) for number in range(LINKS)], threading.Event()

    def greeted(self, port, number):
        link = connection(port)
        link.sendall(frame(HELLO, (3).to_bytes(2, "big") + replica(number)) + ALL_BEFORE)
        link.recv(1)
        link.setblocking(False)
        return link

    def run(self):
        wanted = (selectors.EVENT_READ if self.reads else 0) | (selectors.EVENT_WRITE if self.data else 0)
        left = {link: self.data for link in self.links}
        with selectors.DefaultSelector() as found:
            for link in self.links:
                found.register(link, wanted)
            while not self.over.is_set():
                for key, events in found.select(0.1):
                    self.serve(key.fileobj, events, left)

    def serve(self, link, events, left):
        """What a link can't take yet is said later; a chunk is cut anywhere."""
        if events & selectors.EVENT_READ and not link.recv(CHUNK):
            raise SystemExit("a link has ended")
        if events & selectors.EVENT_WRITE:
            try:
                count = link.send(left[link])
            except BlockingIOError:
                return
            self.bytes += count
            left[link] = left[link][count:] or self.data

    def end(self):
        self.over.set()
        self.join()
        for link in self.links:
            link.close()


def measured(program, path, loader, noise):
    """The output of a load beside a noise, and how many bytes of that were taken a second."""
    daemon = Daemon(program, path).start()
    try:
        with connection(daemon.sessions) as session:
            session.sendall(BEFORE)
            session.recv(CHUNK)
        beside = Noise(daemon.peers, *noise)
        beside.start()
        begun = time.perf_counter()
        found = load(loader, "edits", daemon.sessions, SESSIONS, SECONDS)
        taken = beside.bytes / (time.perf_counter() - begun)
        beside.end()
    finally:
        daemon.kill()
    return found, taken


def told(program, found):
    """A row for each noise, beside the silence."""
    print(f"\n{program}\n\n| Over {LINKS} links | edits a second of {SESSIONS} sessions | of the silence's | p50 | p99 | MB a second that come |")
    print("|---|---|---|---|---|---|")
    silence = found["nothing is said"][0].rate()
    for noise, (edits, taken) in found.items():
        part, times = edits.rate() / silence, [f"{edits.quantile(at):,.0f} us" for at in (0.5, 0.99)]
        print(f"| {noise} | {edits.rate():,.0f} | {part:.2f} | {times[0]} | {times[1]} | {sum(taken) / len(taken) / 1e6:.1f} |")


def main():
    words = sys.argv[1:]
    place = "."
    if "--folder" in words:
        at = words.index("--folder")
        place, words = words[at + 1], words[:at] + words[at + 2 :]
    programs = [os.path.abspath(word) for word in words]
    found = {program: {noise: (Found(), []) for noise in NOISES} for program in programs}
    with tempfile.TemporaryDirectory(dir=place) as folder:
        loader = compiled(os.path.abspath(folder))
        for turn in range(ROUNDS):
            for noise in NOISES:
                for number, program in enumerate(programs):
                    path = os.path.join(folder, f"{turn}-{number}-{len(noise)}")
                    edits, taken = measured(program, path, loader, NOISES[noise])
                    found[program][noise][0].add(edits)
                    found[program][noise][1].append(taken)
    for program in programs:
        told(program, found[program])


if __name__ == "__main__":
    main()
