"""31 sessions edit and 7 peers listen for some minutes, while another peer tells a million operations four times, so that the daemon opens
its file anew again and again: python3 renewals.py PROGRAM [MINUTES]. Each answered edit has to be there once.
"""

import multiprocessing
import os
import sys
import tempfile
import time

sys.path.insert(0, os.path.join(os.path.dirname(os.path.abspath(__file__)), "..", "checks"))

from daemon import connection, new_daemon  # noqa: E402
from frames import have, hello, replica  # noqa: E402
from program import Checks, line  # noqa: E402
from renewal import FIRST_DOC, Editor, tell  # noqa: E402

SESSIONS, PROCESSES, LISTENERS = 31, 4, 7
TOLD, ROUNDS = 1_060_000, 4


def listen(port, number, over, out):
    """A peer that lacks all, takes what it is told and drops it, and comes again where its link ends."""
    links, taken, room = 0, 0, bytearray(1 << 18)
    while not over.is_set():
        try:
            with connection(port) as link:
                links += 1
                link.sendall(hello(replica(100 + number)) + have())
                link.settimeout(1)
                while not over.is_set() and (count := received(link, room)) != 0:
                    taken += count or 0
        except OSError:
            pass  # The daemon opens its file anew.
        time.sleep(0.05)
    out.put((links, taken))


def received(link, room):
    """How many bytes came; None where nothing came for a while."""
    try:
        return link.recv_into(room)
    except TimeoutError:
        return None


def edit(daemon, numbers, over, out):
    """Some sessions that edit a document each."""
    editors = [Editor(daemon, number) for number in numbers]
    for it in editors:
        it.start()
    over.wait()
    for it in editors:
        it.over.set()
    for it in editors:
        it.join()
    out.put([(it.doc, it.answered, it.refused, it.wrong, it.longest) for it in editors])


def tell_rounds(daemon, begun, seconds):
    """Tells so many operations again and again, evenly over the time. How many links each took."""
    links = []
    for number in range(ROUNDS):
        links.append(tell(daemon, (number + 1) * TOLD))
        time.sleep(max(0, begun + (number + 1) * seconds / ROUNDS - time.monotonic()))
    return links


def shown(daemon, editors):
    """Checks each document, and counts what was answered and refused, and the longest wait."""
    checks, talk = Checks(), daemon.talk()
    for doc, answered, refused, wrong, _ in editors:
        it = Editor(daemon, doc - FIRST_DOC)
        it.answered, it.refused, it.wrong = answered, refused, wrong
        it.told(checks, talk.ask(line(op="text", doc=doc))["text"])
    status = talk.ask(line(op="status"))
    talk.close()
    print(f"answered {sum(len(it[1]) for it in editors)}, refused for want of steps {sum(len(it[2]) for it in editors)}, "
          f"longest wait {max(it[4] for it in editors):.2f} s; {checks.passed} checks passed, {checks.failed} failed; {status}")


def main():
    program, seconds = os.path.abspath(sys.argv[1]), 60 * float(sys.argv[2] if len(sys.argv) > 2 else 10)
    with tempfile.TemporaryDirectory(prefix="peritext-") as room:
        os.chdir(room)
        daemon = new_daemon(program, "renewals")
        over, edits, links = multiprocessing.Event(), multiprocessing.Queue(), multiprocessing.Queue()
        them = [multiprocessing.Process(target=edit, args=(daemon, range(k, SESSIONS, PROCESSES), over, edits)) for k in range(PROCESSES)]
        them += [multiprocessing.Process(target=listen, args=(daemon.peers, k, over, links)) for k in range(LISTENERS)]
        begun = time.monotonic()
        for it in them:
            it.start()
        told = tell_rounds(daemon, begun, seconds)
        over.set()
        editors = [it for _ in range(PROCESSES) for it in edits.get()]
        listeners = [links.get() for _ in range(LISTENERS)]
        for it in them:
            it.join()
        shown(daemon, editors)
        print(f"links of the peer that tells {told}; of those that listen {[it[0] for it in listeners]}, "
              f"{sum(it[1] for it in listeners) / 1e9:.1f} GB; the end {daemon.stop()}")


if __name__ == "__main__":
    main()
