"""Somebody between two daemons: who joins is joined on to the other, and it is counted how often that was, and how many bytes went on."""

import os
import socket
import threading
import time

from daemon import HOST

CHUNK = 16_384
# The buffers of the connections on both sides: what waits in them is counted too.
BUFFER = 32_768
TICKS = os.sysconf("SC_CLK_TCK")


class Between:
    """Listens for one daemon, and hands on what it says to the peers' port of another, and back."""

    def __init__(self, peers):
        self.peers, self.joins, self.bytes = peers, [], 0
        self.counted, self.over = threading.Lock(), False
        self.server = socket.create_server((HOST, 0))
        self.port = self.server.getsockname()[1]
        threading.Thread(target=self.accept, daemon=True).start()

    def accept(self):
        while not self.over:
            try:
                joining, _ = self.server.accept()
                self.joins.append(time.monotonic())
                joined = socket.create_connection((HOST, self.peers))
            except OSError:
                continue
            for one, other in ((joining, joined), (joined, joining)):
                one.setsockopt(socket.SOL_SOCKET, socket.SO_SNDBUF, BUFFER)
                one.setsockopt(socket.SOL_SOCKET, socket.SO_RCVBUF, BUFFER)
                threading.Thread(target=self.hand_on, args=(one, other), daemon=True).start()

    def hand_on(self, one, other):
        try:
            while data := one.recv(CHUNK):
                other.sendall(data)
                with self.counted:
                    self.bytes += len(data)
        except OSError:
            pass
        for it in (one, other):
            try:
                it.shutdown(socket.SHUT_RDWR)
            except OSError:
                pass

    def joined_since(self, since):
        """How often the one joined the other since a time."""
        return len([it for it in self.joins if it >= since])

    def close(self):
        self.over = True
        self.server.close()


def processor(*daemons):
    """The processor's time that daemons have taken, in seconds."""
    took = 0
    for it in daemons:
        with open(f"/proc/{it.run.pid}/stat", encoding="ascii") as file:
            took += sum(int(word) for word in file.read().rsplit(")", 1)[1].split()[11:13])
    return took / TICKS
