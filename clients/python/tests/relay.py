"""A port between clients and a daemon, whose connections a test cuts."""

import contextlib
import socket
import threading


class Relay:
    """Passes on what both sides say. Who comes while there is no daemon is sent away."""

    def __init__(self, port):
        self._to = port
        self._server = socket.create_server(("127.0.0.1", 0))
        self._pairs = []
        self.port = self._server.getsockname()[1]
        threading.Thread(target=self._serve, daemon=True).start()

    def cut(self, number=None):
        """Ends all connections, or that one of those that are there."""
        pairs = [pair for pair in self._pairs if pair[0].fileno() >= 0]
        for pair in pairs if number is None else pairs[number : number + 1]:
            end(*pair)

    def close(self):
        end(self._server)
        self._server.close()
        self.cut()

    def _serve(self):
        with contextlib.suppress(OSError):
            while True:
                client, _ = self._server.accept()
                threading.Thread(target=self._pass, args=(client,), daemon=True).start()

    def _pass(self, client):
        with client, contextlib.suppress(OSError), socket.create_connection(("127.0.0.1", self._to)) as daemon:
            self._pairs.append((client, daemon))
            there = threading.Thread(target=passed, args=(client, daemon), daemon=True)
            there.start()
            passed(daemon, client)
            there.join()


def passed(source, sink):
    """Passes bytes on, and then their end."""
    with contextlib.suppress(OSError):
        while part := source.recv(65_536):
            sink.sendall(part)
        sink.shutdown(socket.SHUT_WR)
        return
    end(source, sink)


def end(*sockets):
    for one in sockets:
        with contextlib.suppress(OSError):
            one.shutdown(socket.SHUT_RDWR)
