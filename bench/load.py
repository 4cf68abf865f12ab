"""Runs of load.c, which is compiled here, and what they told."""

import array
import os
import shutil
import subprocess

HERE = os.path.dirname(os.path.abspath(__file__))
# Seconds beyond its time that a load may take.
GRACE = 30


def made(folder, source, name, *words):
    """What the C compiler makes of a source that stands here."""
    compiler = shutil.which("gcc") or shutil.which("cc")
    if not compiler:
        raise SystemExit("bench/serve.py needs gcc")
    name = os.path.join(folder, name)
    subprocess.run([compiler, "-O2", "-o", name, os.path.join(HERE, source), *words], check=True)
    return name


def compiled(folder):
    """The program of load.c."""
    return made(folder, "load.c", "load", "-lpthread")


def slow_syncs(folder):
    """The library of slow_syncs.c."""
    return made(folder, "slow_syncs.c", "slow_syncs.so", "-shared", "-fPIC", "-ldl")


class Found:
    """The times of answers of some rounds, in nanoseconds, the time that the rounds took, and that which the load had a processor."""

    def __init__(self):
        self.times, self.took, self.busy = array.array("I"), 0, 0

    def add(self, told):
        head, rest = told.split(b"\n", 1)
        count, took, busy = map(int, head.split())
        times = array.array("I")
        times.frombytes(rest)
        if len(times) != count:
            raise SystemExit(f"the load told {len(times)} times of {count}")
        self.times += times
        self.took += took
        self.busy += busy

    def rate(self):
        """Answers a second."""
        return len(self.times) / self.took * 1e9

    def quantile(self, part):
        """In microseconds."""
        ordered = sorted(self.times)
        return ordered[min(len(ordered) - 1, int(len(ordered) * part))] / 1000

    def share(self):
        """The processors that the load kept busy."""
        return self.busy / self.took


def started(program, *words):
    return subprocess.Popen([program, *map(str, words)], stdout=subprocess.PIPE)


def told(run, seconds):
    """What a load tells at its end."""
    output, _ = run.communicate(timeout=seconds + GRACE)
    if run.returncode:
        raise SystemExit(f"the load ended with status {run.returncode}")
    return output


def load(program, kind, port, connections, seconds):
    """The output of one load. More than eight connections are shared by two threads."""
    threads = 1 if connections == 1 else 2
    return told(started(program, kind, port, connections, threads, int(seconds * 1000)), seconds)


def floor(program, name, seconds):
    return told(started(program, "floor", name, int(seconds * 1000)), seconds)
