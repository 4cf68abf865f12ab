"""A daemon that answers what a test says."""

import json
import os
import socket
import threading

STATUS = b'{"applied":0,"ok":true,"settled":0,"state":"open"}\n'


class FakeDaemon:
    """Greets each session, and has its connection, from which lines can be read, talked over by a test. Then the connection ends."""

    def __init__(self, talk):
        self._talk = talk
        # What a session is greeted with.
        self.greeting = lambda: STATUS
        self._server = socket.create_server(("127.0.0.1", 0))
        self._connections = []
        self.port = self._server.getsockname()[1]
        threading.Thread(target=self._serve, daemon=True).start()

    def _serve(self):
        while True:
            try:
                connection, _ = self._server.accept()
            except OSError:
                return
            self._connections.append(connection)
            threading.Thread(target=self._greet, args=(connection,), daemon=True).start()

    def _greet(self, connection):
        with connection, connection.makefile("rb") as lines:
            try:
                lines.readline()
                connection.sendall(self.greeting())
                self._talk(connection, lines)
                connection.shutdown(socket.SHUT_WR)
                while lines.read(65_536):
                    pass
            except OSError:
                pass

    def close(self):
        # A thread that accepts isn't woken by a close.
        self._server.shutdown(socket.SHUT_RDWR)
        self._server.close()
        for connection in self._connections:
            try:
                connection.shutdown(socket.SHUT_RDWR)
            except OSError:
                pass


def tell_all(connection, told):
    """Sends each line that a test has told, until that is None."""
    while line := told.get():
        connection.sendall(json.dumps(line).encode() + b"\n")


def program(room, script):
    """A program that answers as a shell script says, in whatever words it is run."""
    name = f"{room}/program"
    with open(name, "w", encoding="utf-8") as file:
        file.write(f"#!/bin/sh\n{script}\n")
    os.chmod(name, 0o700)
    return name
