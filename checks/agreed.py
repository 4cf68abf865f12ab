"""What docs/protocol.json says, for the checks: words of refusals, limits, and requests. Readers and writers of files take nothing from here."""

import os
import sys

ROOT = os.path.dirname(os.path.dirname(os.path.abspath(__file__)))
sys.path.append(os.path.join(ROOT, "tools"))

from protocol import protocol

TABLE = protocol()
WORDS = {it["number"]: it["word"] for it in TABLE["refusals"]}
LIMITS = {name: limit["most"] for name, limit in TABLE["limits"].items()}
SIZES = {name: size["is"] for name, size in TABLE["sizes"].items()}
REQUESTS = {it["op"]: it for it in TABLE["requests"]}


def refused(code, **more):
    """The answer to a request that is refused."""
    return {"code": code, "error": WORDS[code], "ok": False, **more}


def sentences():
    """What the program says on a terminal, by the name of the sentence: its numbers, whether it is for one cause of them, and its words."""
    found = {}
    for it in (it for it in TABLE["refusals"] if "ends" in it):
        found.setdefault(it["ends"], ([], False, it["sentence"]))[0].append(it["number"])
        found.update({name: ([it["number"]], True, words) for name, words in it.get("told_apart", {}).items()})
    return found


def text(*path):
    """A file of the repository."""
    with open(os.path.join(ROOT, *path), encoding="utf-8") as file:
        return file.read()
