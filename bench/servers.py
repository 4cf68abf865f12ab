"""The servers that bench/serve.py measures: daemons of the program, and redis-server, each over its own folder and ports of 127.0.0.1."""

import json
import os
import shutil
import socket
import subprocess
import time

HOST = "127.0.0.1"
REPLICAS = [f"00000000-0000-4000-8000-00000000000{number}" for number in range(1, 10)]
# Seconds until a server has to have answered.
PATIENCE = 30


def free_port():
    """A port on which nobody listens now."""
    with socket.create_server((HOST, 0)) as server:
        return server.getsockname()[1]


def connection(port):
    """A connection to a server that listens soon."""
    until = time.monotonic() + PATIENCE
    while True:
        try:
            return socket.create_connection((HOST, port), timeout=PATIENCE)
        except ConnectionRefusedError:
            if time.monotonic() > until:
                raise
            time.sleep(0.002)


class Refused(Exception):
    """An answer that isn't ok."""


class Talk:
    """A connection that is asked line by line."""

    def __init__(self, port):
        self.socket = connection(port)
        self.file = self.socket.makefile("rb")

    def ask(self, **fields):
        """The answer; an OSError where the connection ended before it."""
        self.socket.sendall(json.dumps(fields).encode() + b"\n")
        line = self.file.readline()
        if not line.endswith(b"\n"):
            raise ConnectionError("no answer")
        answer = json.loads(line)
        if not answer["ok"]:
            raise Refused(answer)
        return answer

    def applied(self):
        return self.ask(op="status")["applied"]

    def close(self):
        self.file.close()
        self.socket.close()


class Daemon:
    """The program as it serves a file."""

    def __init__(self, program, name, replica=REPLICAS[0], around=None, web=None):
        self.program, self.name, self.around, self.web = program, name, around or {}, web
        subprocess.run([program, "init", name, "--replica", replica], check=True, stdout=subprocess.DEVNULL)
        self.sessions, self.peers, self.run = free_port(), free_port(), None

    def start(self, link=None):
        words = ["--sessions", str(self.sessions), "--peers", str(self.peers)] + (["--link", str(link)] if link else [])
        words += ["--web", str(self.web)] if self.web else []
        around = {**os.environ, **self.around}
        self.run = subprocess.Popen([self.program, "serve", self.name, *words], stdin=subprocess.DEVNULL, env=around)
        return self

    def commits(self):
        """How many commits its file has had, once it has ended: the version of its live root is one more."""
        with open(self.name, "rb") as file:
            slots = [file.read(4096) for _ in range(2)]
        return max(int.from_bytes(slot[16:24], "big") for slot in slots) - 1

    def wait(self):
        """Waits until it serves, without taking the place of a session: it greets whoever comes as a peer."""
        with connection(self.peers) as link:
            link.recv(1)
        return self

    def talk(self):
        return Talk(self.sessions)

    def stop(self):
        talk = self.talk()
        talk.ask(op="stop")
        talk.close()
        self.run.wait(PATIENCE)

    def kill(self):
        if self.run:
            self.run.kill()
            self.run.wait()


class Redis:
    """A redis-server that syncs its log of commands before each answer, as the program does."""

    def __init__(self, folder):
        os.mkdir(folder)
        self.port = free_port()
        words = {
            "port": str(self.port), "bind": HOST, "dir": folder, "save": "", "appendonly": "yes", "appendfsync": "always",
            "auto-aof-rewrite-percentage": "0", "daemonize": "no", "loglevel": "warning", "logfile": os.path.join(folder, "log"),
        }
        given = [part for word, value in words.items() for part in (f"--{word}", value)]
        self.run = subprocess.Popen(["redis-server", *given], stdin=subprocess.DEVNULL, stdout=subprocess.DEVNULL)
        connection(self.port).close()

    def command(self, *words):
        """The first line of the answer to a command."""
        asked = [b"*%d\r\n" % len(words)] + [b"$%d\r\n%s\r\n" % (len(word), word) for word in words]
        with connection(self.port) as link:
            link.sendall(b"".join(asked))
            return link.recv(4096).split(b"\r\n")[0]

    def kill(self):
        self.run.kill()
        self.run.wait()


def has_redis():
    return shutil.which("redis-server") is not None
