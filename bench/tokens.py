"""What a token costs: python3 bench/tokens.py PROGRAM [FOLDER [COUNT]].

First edits of one character, typed at the end through one session over a file in memory, without tokens and with, by turns: the median of each,
and of a line that is sent again. Then files of COUNT (a million) typed characters, each an edit of its own, without tokens and with, by turns:
seconds and memory of opening one.
"""

import os
import statistics
import subprocess
import sys
import tempfile
import uuid

import open as opening
from session import Session

TURNS, EDITS = 10, 2_000
REPLICA = "00000000-0000-4000-8000-000000000001"


def edits(program):
    """Microseconds of an edit without a token, with one, and of one that was made."""
    with tempfile.TemporaryDirectory(dir="/dev/shm") as room:
        name = os.path.join(room, "store")
        subprocess.run([program, "init", name, "--replica", REPLICA], check=True, stdout=subprocess.DEVNULL)
        session = Session(program, name)
        took = {"without a token": [], "with a token": [], "sent again": []}
        at, tokens = 0, []
        for turn in range(2 * TURNS):
            kind = "with a token" if turn % 2 else "without a token"
            for _ in range(EDITS):
                more = {"token": str(uuid.uuid4())} if turn % 2 else {}
                took[kind].append(timed(session, op="insert", doc=1, at=at, text="x", **more))
                at += 1
                tokens += more.values()
        for token in tokens[:: len(tokens) // EDITS]:
            took["sent again"].append(timed(session, op="insert", doc=1, at=0, text="x", token=token))
        session.end()
    for kind, times in took.items():
        print(f"an edit {kind}: {statistics.median(times) * 1e6:.1f} us, of {len(times)}", flush=True)


def timed(session, **request):
    answer, took = session.ask(**request)
    if not answer["ok"]:
        raise SystemExit(f"an edit was refused: {answer}")
    return took


def openings(program, folder, count):
    """Seconds and memory of opening files of so many edits."""
    with tempfile.TemporaryDirectory(dir=folder) as room:
        names = {has_tokens: os.path.join(room, f"tokens-{has_tokens}") for has_tokens in (False, True)}
        for has_tokens, name in names.items():
            opening.make(name, count, "end", has_tokens)
        found = {False: [], True: []}
        for turn in range(6):
            found[bool(turn % 2)].append(opening.opened(program, names[bool(turn % 2)]))
        for has_tokens, runs in found.items():
            took, memory, status = min(runs)
            with_tokens = "with" if has_tokens else "without"
            print(f"{count} edits {with_tokens} tokens: opened in {took:.2f} s, {memory / count:.0f} bytes of memory an edit in all, status {status}")


def main():
    program = os.path.abspath(sys.argv[1])
    edits(program)
    openings(program, sys.argv[2] if len(sys.argv) > 2 else ".", int(sys.argv[3]) if len(sys.argv) > 3 else 1_000_000)


if __name__ == "__main__":
    main()
