"""Durable edits a second from 1, 8 and 32 sessions by WebSockets beside as many by lines, in rounds that take turns, each over a new file.

python3 bench/webs.py PROGRAM [FOLDER]. The files are made in FOLDER (here, if none is given). The load is load.c, for which gcc is needed.
"""

import os
import sys
import tempfile

from load import Found, compiled, load
from servers import Daemon, free_port

ROUNDS = 6
SECONDS = 0.7
CLIENTS = (1, 8, 32)


def round_of(program, loader, path, kind, clients):
    """What one load told of a daemon over a new file."""
    daemon = Daemon(program, path, web=free_port()).start()
    try:
        daemon.wait()
        port = daemon.web if kind == "webs" else daemon.sessions
        return load(loader, kind, port, clients, SECONDS)
    finally:
        daemon.kill()


def main():
    program = os.path.abspath(sys.argv[1])
    folder = sys.argv[2] if len(sys.argv) > 2 else "."
    with tempfile.TemporaryDirectory(dir=folder) as room:
        loader, found, files = compiled(room), {}, 0
        for _ in range(ROUNDS):
            for clients in CLIENTS:
                for kind in ("edits", "webs"):
                    files += 1
                    told = round_of(program, loader, os.path.join(room, f"file{files}"), kind, clients)
                    found.setdefault((clients, kind), Found()).add(told)
    print("| Sessions | by lines | by WebSockets | share | p50 | p99 |")
    print("|---|---|---|---|---|---|")
    for clients in CLIENTS:
        lines, webs = found[clients, "edits"], found[clients, "webs"]
        times = " | ".join(f"{lines.quantile(part):,.0f} and {webs.quantile(part):,.0f} us" for part in (0.5, 0.99))
        print(f"| {clients} | {lines.rate():,.0f} | {webs.rate():,.0f} | {webs.rate() / lines.rate():.2f} | {times} |")


if __name__ == "__main__":
    main()
