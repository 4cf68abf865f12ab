"""A backup and an export every hour, beside a running daemon: python3 examples/backup.py PEERS FOLDER [--once]

PEERS is the daemon's `--peers` port. FOLDER/replica is a replica that is joined to it for each round, until it has all that is there.
Each round leaves a folder with a copy of it, which was checked, and each document as Markdown.
"""

import contextlib
import json
import os
import shutil
import socket
import subprocess
import sys
import time
from pathlib import Path

import peritext

PROGRAM = os.environ.get("PERITEXT", "peritext")


def catch_up(replica, peers):
    """Serves the replica, joined to the daemon, until it has all operations that the daemon has said that it has."""
    with socket.create_server(("127.0.0.1", 0)) as one, socket.create_server(("127.0.0.1", 0)) as other:
        free, unused = one.getsockname()[1], other.getsockname()[1]
    served = subprocess.Popen([PROGRAM, "serve", replica, "--sessions", str(free), "--peers", str(unused), "--link", str(peers)])
    while served.poll() is None:
        with contextlib.suppress(peritext.NoDaemon, peritext.Ended), peritext.connect(free, retry=None) as session:
            applied, joined = session.ask(op="status")["applied"], session.peers().peers
            if any(peer.has == applied - peer.lacks for peer in joined):
                session.stop()
        time.sleep(0.1)
    if served.returncode != 0:
        sys.exit(f"backup: nobody could be joined on port {peers}")


def save(replica, made):
    """A copy, which never takes the replica's place (docs/OPERATING.md, Backups), and what its documents are."""
    shutil.copy(replica, made / "copy")
    subprocess.check_call([PROGRAM, "check", made / "copy"], stdout=subprocess.DEVNULL)
    for line in map(json.loads, subprocess.check_output([PROGRAM, "list", made / "copy"]).splitlines()):
        if "doc" in line:
            words = [PROGRAM, "export", made / "copy", str(line["doc"]), "--to", "markdown"]
            (made / f"{line['doc']}.md").write_bytes(subprocess.check_output(words))


if __name__ == "__main__":
    peers, folder = int(sys.argv[1]), Path(sys.argv[2])
    if not folder.exists():
        folder.mkdir()
        peritext.init(folder / "replica", program=PROGRAM)
    while True:
        catch_up(folder / "replica", peers)
        (made := folder / time.strftime("%Y-%m-%d_%H-%M-%S")).mkdir()
        save(folder / "replica", made)
        print(made, flush=True)
        if "--once" in sys.argv:
            break
        time.sleep(3_600)
