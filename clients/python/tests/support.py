"""What the tests share: the client, the program, files and daemons that are gone afterwards."""

import itertools
import os
import random
import signal
import socket
import subprocess
import tempfile
import time
import unittest

import peritext

CLIENT = os.path.dirname(os.path.dirname(os.path.abspath(__file__)))
PROGRAM = os.path.abspath(os.environ.get("PERITEXT", "bin/peritext"))
# Seconds until something that is due has to have come.
PATIENCE = 20


class WithFile(unittest.TestCase):
    def setUp(self):
        self.room = tempfile.TemporaryDirectory()
        self.addCleanup(self.room.cleanup)
        self.name = os.path.join(self.room.name, "store")
        peritext.init(self.name, program=PROGRAM)

    def open(self):
        return peritext.open(self.name, program=PROGRAM)

    def refusal(self, call, *words, **fields):
        with self.assertRaises(peritext.Refused) as caught:
            call(*words, **fields)
        return caught.exception.number, caught.exception.word


class WithDaemon(WithFile):
    def setUp(self):
        super().setUp()
        self.daemon = Daemon(self.name)
        self.addCleanup(self.daemon.kill)

    def connect(self, **how):
        session = peritext.connect(self.daemon.port, **how)
        self.addCleanup(session.close)
        return session


class Daemon:
    """A program that serves a file."""

    def __init__(self, name, port=None):
        self.port, self.peers = port or free_port(), free_port()
        words = [PROGRAM, "serve", name, "--sessions", str(self.port), "--peers", str(self.peers)]
        self.run = subprocess.Popen(words, stdin=subprocess.DEVNULL, stdout=subprocess.DEVNULL, stderr=subprocess.PIPE)
        until = time.monotonic() + PATIENCE
        while self.run.poll() is None and not is_heard(self.port) and time.monotonic() < until:
            time.sleep(0.01)

    def kill(self):
        if self.run.poll() is None:
            self.run.send_signal(signal.SIGKILL)
        return self.ended()

    def ended(self):
        """Exit status, and standard error, once it has ended."""
        _, said = self.run.communicate(timeout=PATIENCE)
        return self.run.returncode, said.decode() if said else ""


# Ports below those that the system gives to connections by itself, and apart from those of the other tests of the gate.
FIRST_PORT, PORTS = 12_000, 4_000
numbers = itertools.count(random.randrange(PORTS))


def free_port():
    """A port on which nobody listens now, and that this run wasn't given before."""
    while True:
        port = FIRST_PORT + next(numbers) % PORTS
        with socket.socket() as probe:
            if probe.connect_ex(("127.0.0.1", port)):
                return port


def is_heard(port):
    try:
        socket.create_connection(("127.0.0.1", port), timeout=PATIENCE).close()
    except OSError:
        return False
    return True


def retried(call):
    """What a call gives once it isn't refused: a place is free soon after a session has gone."""
    for _ in range(200):
        try:
            return call()
        except peritext.Refused:
            time.sleep(0.05)
    return call()
