"""Runs bench/yjs.js, where node and Debian's node-yjs are there."""

import os
import shutil
import subprocess

MODULES = "/usr/share/nodejs"
SCRIPT = os.path.join(os.path.dirname(os.path.abspath(__file__)), "yjs.js")


def is_there():
    return shutil.which("node") is not None and os.path.isdir(os.path.join(MODULES, "yjs"))


def run(*words):
    """The seconds that the edits took, and the length of the text behind them."""
    told = subprocess.run(
        ["node", SCRIPT, *map(str, words)], check=True, stdout=subprocess.PIPE, env={**os.environ, "NODE_PATH": MODULES}
    ).stdout.split()
    return float(told[0]), int(told[1])


def told(case, count, place, many):
    """Prints the rate of a case, from the least time of three runs."""
    if is_there():
        took = min(run(case, count, place, many)[0] for _ in range(3))
        print(f"    Yjs in memory, {case} {many / took:12.0f} /s   {took / many * 1e6:8.2f} us")
