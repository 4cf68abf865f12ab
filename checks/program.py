"""Runs of the program, and what they are to give."""

import json
import os
import subprocess
from concurrent.futures import ThreadPoolExecutor

from agreed import WORDS

REPLICA = "00000000-0000-4000-8000-000000000001"
NAME = bytes.fromhex("00000000000040008000000000000001")
PAGE = 4096


class Checks:
    """How many checks passed, failed and were skipped; a failed or skipped one is printed."""

    def __init__(self):
        self.passed = 0
        self.failed = 0
        self.skipped = 0

    def same(self, what, found, wanted):
        if found == wanted:
            self.passed += 1
        else:
            self.failed += 1
            print(f"FAILED: {what}: found {str(found)[:400]}, wanted {str(wanted)[:400]}")

    def holds(self, what, is_so):
        self.same(what, bool(is_so), True)

    def skip(self, what, why):
        """What this machine doesn't allow to be tried."""
        self.skipped += 1
        print(f"SKIPPED: {what}: {why}")


def run(program, *words, lines=b"", **how):
    """Exit status, standard output, standard error."""
    ran = subprocess.run([program, *words], input=lines, capture_output=True, timeout=60, **how)
    return ran.returncode, ran.stdout, ran.stderr


def fault(number):
    """What a refusal that ends the program gives."""
    return 1, b"", f"peritext: {number} {WORDS[number]}\n".encode()


def line(**fields):
    """A line of a session."""
    return json.dumps(fields, separators=(",", ":")).encode() + b"\n"


def insert(at, text, doc=1):
    return line(op="insert", doc=doc, at=at, text=text)


def delete(at, count, doc=1):
    return line(op="delete", doc=doc, at=at, count=count)


def texts(rev, text):
    """What a dump of a document without marks prints."""
    spans = [{"text": text}] if text else []
    return line(ok=True, rev=rev, text=text) + line(ok=True, rev=rev, spans=spans)


def text_of(program, name):
    """The text that a dump shows, where the spans that it shows make it up; else what went wrong."""
    status, output, faults = run(program, "dump", name, "1")
    if status != 0:
        return faults.decode()
    text, spans = (json.loads(answer) for answer in output.splitlines())
    if "".join(span["text"] for span in spans["spans"]) != text["text"]:
        return "the spans don't make up the text"
    return text["text"]


def new_file(program, name):
    """A file of a new store."""
    if os.path.exists(name):
        os.remove(name)
    return run(program, "init", name, "--replica", REPLICA)


def read(name):
    with open(name, "rb") as file:
        return file.read()


def write(name, data):
    with open(name, "wb") as file:
        file.write(data)


def all_of(call, given):
    """What a call gives for each of these, some at once."""
    with ThreadPoolExecutor(os.cpu_count() or 2) as pool:
        return list(pool.map(call, given))
