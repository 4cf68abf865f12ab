"""How long an edit takes beside 31 sessions that all ask for the worst spans at once, again and again: python3 readers.py PROGRAM [SECONDS].

The document has 1,400 comments, each from another character to the end, whose spans list 980,000 comment ids in 38 MB.
"""

import os
import sys
import tempfile
import threading
import time

sys.path.insert(0, os.path.join(os.path.dirname(os.path.abspath(__file__)), "..", "checks"))

from daemon import new_daemon  # noqa: E402
from frames import ADD_MARK, COMMENT, END, anchor, record, replica, typed  # noqa: E402
from program import insert, line  # noqa: E402
from worst import tell  # noqa: E402

COMMENTS, READERS, MAKER, DOC = 1_400, 31, replica(9), 1
# Seconds that an answer may take.
PATIENCE = 300


def fill(daemon, talk):
    records = typed(MAKER, COMMENTS, DOC)
    for k in range(COMMENTS):
        mark = bytes([COMMENT]) + (k + 1).to_bytes(16, "big") + anchor(1, k + 1, MAKER) + END
        records.append(record(ADD_MARK, MAKER, len(records) + 1, mark, [(MAKER, len(records))], DOC))
    tell(daemon, talk, MAKER, records, DOC, 2 * COMMENTS)


def read_on(daemon, over, counts):
    """Asks for the spans again and again, and drops them."""
    talk, room, read = daemon.talk(), bytearray(1 << 20), 0
    talk.socket.settimeout(PATIENCE)
    while not over.is_set():
        talk.socket.sendall(line(op="spans", doc=DOC))
        while True:
            count = talk.socket.recv_into(room)
            read += count
            if not count or room[count - 1] == 10:
                break
    counts.append(read)
    talk.close()


def main():
    program, seconds = os.path.abspath(sys.argv[1]), int(sys.argv[2]) if len(sys.argv) > 2 else 20
    with tempfile.TemporaryDirectory(prefix="peritext-") as room:
        os.chdir(room)
        daemon = new_daemon(program, "readers")
        talk = daemon.talk()
        fill(daemon, talk)
        talk.socket.settimeout(PATIENCE)
        over, counts, took = threading.Event(), [], []
        readers = [threading.Thread(target=read_on, args=(daemon, over, counts)) for _ in range(READERS)]
        for it in readers:
            it.start()
        until = time.monotonic() + seconds
        while time.monotonic() < until:
            begun = time.monotonic()
            talk.ask(insert(0, "e", 2))
            took.append(time.monotonic() - begun)
        over.set()
        for it in readers:
            it.join()
        took.sort()
        print(f"{len(took)} edits: median {took[len(took) // 2]:.2f} s, longest {took[-1]:.2f} s; {sum(counts) / 1e6 / seconds:.0f} MB/s read")
        daemon.kill()


if __name__ == "__main__":
    main()
