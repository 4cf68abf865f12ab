"""A daemon under `serve`, and sessions and links to it over sockets."""

import itertools
import json
import os
import random
import select
import signal
import socket
import subprocess
import time

from program import REPLICA, new_file, run

HOST = "127.0.0.1"
# Seconds until something that is due has to have come.
PATIENCE = 20
# What a daemon prints with `--ready` once its ports listen.
READY = b'{"ok":true}\n'


# Ports below those that the system gives to connections by itself, from one by chance on; those of each lane of `run` are its own.
PORTS = 6_000
FIRST_PORT = 20_000 + PORTS * int(os.environ.get("PERITEXT_LANE", 0))
numbers = itertools.count(random.randrange(PORTS))


def free_ports(count):
    """Ports on which nobody listens now, none of which this run was given before."""
    ports = []
    while len(ports) < count:
        port = FIRST_PORT + next(numbers) % PORTS
        # It isn't tried by listening: a program that another thread starts just then would have that socket for a moment.
        with socket.socket() as probe:
            if probe.connect_ex((HOST, port)):
                ports.append(port)
    return ports


def within(what, is_so, seconds=PATIENCE):
    """Waits until something is so; else this is an error."""
    until = time.monotonic() + seconds
    while not is_so():
        if time.monotonic() > until:
            raise TimeoutError(what)
        time.sleep(0.005)


def connection(port):
    """A socket to a port where somebody listens soon."""
    until = time.monotonic() + PATIENCE
    while True:
        try:
            return socket.create_connection((HOST, port), timeout=PATIENCE)
        except ConnectionRefusedError:
            if time.monotonic() > until:
                raise
            time.sleep(0.01)


class Talk:
    """A session over a socket, which is asked line by line."""

    def __init__(self, port, made=None):
        self.socket = made or connection(port)
        self.file = self.socket.makefile("rb")

    def send(self, data):
        self.socket.sendall(data)

    def answer(self):
        """The next answer, or None where the connection ended."""
        line = self.file.readline()
        return json.loads(line) if line.endswith(b"\n") else None

    def ask(self, request):
        self.send(request)
        return self.answer()

    def ended(self):
        """Whether the daemon ended the connection."""
        try:
            return self.file.read() == b""
        except ConnectionResetError:
            return True

    def close(self):
        self.file.close()
        self.socket.close()


class Daemon:
    """A program that serves a file, its ports, and how it is run."""

    def __init__(self, program, name, ports=None, link=None, **how):
        self.program, self.name, self.link, self.how = program, name, link, how
        self.sessions, self.peers = ports or free_ports(2)
        self.start()

    def words(self):
        """The command line."""
        words = [self.program, "serve", self.name, "--sessions", str(self.sessions), "--peers", str(self.peers)]
        return words + ["--link", str(self.link)] if self.link else words

    def run_it(self, *more):
        pipes = {"stdin": subprocess.DEVNULL, "stdout": subprocess.PIPE, "stderr": subprocess.PIPE}
        self.run = subprocess.Popen([*self.words(), *more], **pipes, **self.how)

    def start(self):
        if "env" in self.how:
            # What is loaded before the program there may note each of its calls, or end it at one. A connection that only probes gives its place back.
            self.run_it()
            Talk(self.sessions).close()
            return
        self.run_it("--ready")
        is_there, _, _ = select.select([self.run.stdout], [], [], PATIENCE)
        if not is_there or self.run.stdout.readline() != READY:
            raise TimeoutError(f"{self.name} isn't served")

    def talk(self):
        return Talk(self.sessions)

    def ended(self):
        """Exit status, standard output and standard error of a program that ends by itself."""
        output, faults = self.run.communicate(timeout=PATIENCE)
        return self.run.returncode, output, faults

    def stop(self):
        """Asks for a stop: the answer, and how the program ended."""
        talk = self.talk()
        answer = talk.ask(b'{"op":"stop"}\n')
        talk.close()
        return answer, self.ended()

    def kill(self):
        self.run.send_signal(signal.SIGKILL)
        self.run.communicate(timeout=PATIENCE)


def new_daemon(program, name, replica=REPLICA, **how):
    """A daemon over a new file of a replica."""
    if os.path.exists(name):
        os.remove(name)
    if replica == REPLICA:
        new_file(program, name)
    else:
        run(program, "init", name, "--replica", replica)
    return Daemon(program, name, **how)
