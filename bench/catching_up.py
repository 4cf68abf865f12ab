"""A new file catches up with one of millions of operations, without anybody's hand: python3 catching_up.py PROGRAM [OPERATIONS].

2,500,000 operations, if none are given, in one document: the new daemon uses up the steps of an opening twice on the way, and opens its
file anew each time. Both have to show the same text at the end. The pace is that of the first 900,000 operations, and what is told of each
opening is how much longer than by that pace it took until operations came again.
"""

import os
import sys
import tempfile
import time

sys.path.insert(0, os.path.join(os.path.dirname(os.path.abspath(__file__)), "..", "checks"))

from daemon import new_daemon  # noqa: E402
from program import line  # noqa: E402
from renewal import DOC, LONG, STATUS, tell  # noqa: E402

OTHER = "00000000-0000-4000-8000-000000000002"
# So many operations come before the first opening anew.
FIRST = 900_000
# Seconds between two looks, and a pause that is one of an opening.
LOOK, STALL = 0.02, 0.3


def applied(daemon, talk):
    """How many operations a daemon has, and the session that asked; none where the daemon opens its file anew."""
    try:
        talk = talk or daemon.talk()
        return talk.ask(line(op="status"))["applied"], talk
    except (OSError, ValueError, KeyError, TypeError):
        return None, None


def watch(daemon, last, begun):
    """When it had how many operations, until it has all."""
    seen, talk = [], None
    while time.monotonic() < begun + LONG:
        count, talk = applied(daemon, talk)
        if count is not None and (not seen or count > seen[-1][1]):
            seen.append((time.monotonic() - begun, count))
        if count == last:
            break
        time.sleep(LOOK)
    return seen


def text(daemon):
    talk = daemon.talk()
    shown = talk.ask(line(op="text", doc=DOC))
    talk.close()
    return shown


def main():
    program, last = os.path.abspath(sys.argv[1]), int(sys.argv[2]) if len(sys.argv) > 2 else 2_500_000
    with tempfile.TemporaryDirectory(prefix="peritext-") as room:
        os.chdir(room)
        full = new_daemon(program, "full")
        begun = time.monotonic()
        links = tell(full, last)
        print(f"{last:,} operations told by a peer in {time.monotonic() - begun:.1f} s, over {links} links")
        begun = time.monotonic()
        new = new_daemon(program, "new", replica=OTHER, link=full.peers)
        seen = watch(new, last, begun)
        pace = next((at / count for at, count in seen if count >= FIRST), None)
        print(f"caught up in {seen[-1][0]:.1f} s; {seen[-1][1]:,} operations there, {pace * 1e6:.2f} s a million before the first opening anew")
        for (before, had), (behind, has) in zip(seen, seen[1:]):
            if behind - before > STALL:
                print(f"  a pause of {behind - before:.2f} s at {had:,}, {behind - before - pace * (has - had):.2f} s longer than by the pace")
        print(f"the same text: {text(new) == text(full)}; by the pace it had taken {pace * last:.1f} s")
        for daemon in (new, full):
            print(daemon.stop())


if __name__ == "__main__":
    main()
