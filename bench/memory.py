"""Resident memory of a session while it edits: 200,000 characters, typed one an edit into one document, without tokens and with one each.

python3 bench/memory.py PROGRAM. The session is over a new file in memory (/dev/shm); each edit is committed before its answer. Every 50,000
edits it prints the resident memory beside that of the session before its first edit, for each edit.
"""

import os
import subprocess
import sys
import tempfile
import uuid

from session import Session

EDITS = 200_000
STEP = 50_000
REPLICA = "00000000-0000-4000-8000-000000000001"


def resident(process):
    with open(f"/proc/{process}/status", encoding="ascii") as file:
        for line in file:
            if line.startswith("VmRSS:"):
                return int(line.split()[1]) * 1024
    raise SystemExit("the system doesn't tell the resident memory")


def typed(program, has_tokens):
    """Tells the memory of a session that types, with a token for each edit or without."""
    with tempfile.TemporaryDirectory(dir="/dev/shm") as room:
        name = os.path.join(room, "store")
        subprocess.run([program, "init", name, "--replica", REPLICA], check=True, stdout=subprocess.DEVNULL)
        session = Session(program, name)
        session.ask(op="status")
        before = resident(session.run.pid)
        for edit in range(EDITS):
            token = {"token": str(uuid.uuid4())} if has_tokens else {}
            answer, _ = session.ask(op="insert", doc=1, at=edit, text="x", **token)
            if not answer["ok"]:
                raise SystemExit(f"an insert was refused: {answer}")
            if (edit + 1) % STEP == 0:
                more = (resident(session.run.pid) - before) / (edit + 1)
                print(f"{edit + 1:9,} edits {'with' if has_tokens else 'without'} tokens: {more:6.0f} bytes an edit", flush=True)
        session.end()


def main():
    program = os.path.abspath(sys.argv[1])
    typed(program, False)
    typed(program, True)


if __name__ == "__main__":
    main()
