"""A reader that is slow, of a daemon that goes meanwhile."""

import contextlib
import signal
import socket
import threading
import time

import peritext
from fake import FakeDaemon
from support import PATIENCE, WithDaemon

# Comments of which each begins and ends a character after the one before: their spans are 15 MB.
COMMENTS = 630
MEGABYTES = 15
SESSIONS = 30


class Held:
    """The answers of a session, of which no more are read until they are let through."""

    def __init__(self, answers):
        self._answers = answers
        self.through = threading.Event()

    def read1(self, count):
        self.through.wait(3 * PATIENCE)
        return self._answers.read1(count)

    def close(self):
        self._answers.close()


class SlowReader:
    """A session that asks for 15 MB, and whose answers aren't read until they are let through."""

    def __init__(self, port, others):
        self.session = peritext.connect(port, retry=None)
        self._connection = self.session._connection
        # As much as the answer may wait on this side.
        self._connection.setsockopt(socket.SOL_SOCKET, socket.SO_RCVBUF, 1 << 20)
        self._held = self.session._answers = Held(self.session._answers)
        # The reading thread may be within a reading already: this answer ends that one.
        self.session.send(op="status")
        self.under_way = [self.session.send(op="spans", doc=1)] + [self.session.send(op="text", doc=1) for _ in range(others)]

    def is_answered(self):
        """Whether a part of the answer has come."""
        with contextlib.suppress(BlockingIOError):
            return len(self._connection.recv(10_000, socket.MSG_PEEK | socket.MSG_DONTWAIT)) == 10_000

    def let_through(self):
        self._held.through.set()


class Slow(WithDaemon):
    def setUp(self):
        super().setUp()
        # Edits of several sessions share a commit.
        sessions = [self.connect() for _ in range(SESSIONS)]
        for _ in range(2 * COMMENTS // 256 + 1):
            sessions[0].document(1).insert(0, "x" * 256)
        marks = [sessions[place % SESSIONS].send(op="mark", doc=1, **comment(place)) for place in range(COMMENTS)]
        for mark in marks:
            mark.result(PATIENCE)
        for session in sessions:
            session.close()

    def test_all_of_it_comes(self):
        (reader,) = self.slow(0)
        reader.let_through()
        spans = reader.under_way[0].result(PATIENCE)["spans"]
        self.assertGreater(sum(39 * len(span.get("comments", ())) for span in spans), MEGABYTES * 1_000_000)

    def test_a_kill_is_told(self):
        # With a request that the daemon hasn't read the connection is reset, else it is ended.
        readers = self.slow(0, 1)
        self.daemon.kill()
        self.assert_ended(readers)

    def test_a_stop_is_told(self):
        readers = self.slow(0, 1)
        with peritext.connect(self.daemon.port) as other:
            other.stop()
        self.daemon.ended()
        self.assert_ended(readers)

    def test_a_daemon_that_stands_still_is_waited_for_no_longer(self):
        with peritext.connect(self.daemon.port, timeout=1) as session:
            self.assertEqual(len(session.document(1).text()), 1280)
            self.daemon.run.send_signal(signal.SIGSTOP)
            under_way = [session.send(op="spans", doc=1), session.send(op="text", doc=1)]
            for answer in under_way:
                self.assertIn("no byte came for 1 seconds", str(answer.exception(PATIENCE)))

    def slow(self, *others):
        readers = [SlowReader(self.daemon.port, count) for count in others]
        for reader in readers:
            self.addCleanup(reader.session.close)
            self.addCleanup(reader.let_through)
        # A session that is ended while it isn't read closes at once.
        self.addCleanup(self.daemon.kill)
        until = time.monotonic() + PATIENCE
        while not all(reader.is_answered() for reader in readers):
            self.assertLess(time.monotonic(), until)
            time.sleep(0.05)
        return readers

    def assert_ended(self, readers):
        for reader in readers:
            reader.let_through()
            for answer in reader.under_way:
                fault = answer.exception(PATIENCE)
                self.assertIsInstance(fault, peritext.Ended)
                self.assertIn("ended before this request was answered", str(fault))


def comment(place):
    return {"from": place, "to": place + COMMENTS, "kind": "comment", "id": f"00000000-0000-0000-0000-{place:012x}"}


class Large(WithDaemon):
    def test_a_daemon_that_ends_in_the_middle_of_15_megabytes(self):
        answer = b'{"ok":true,"rev":1,"text":"' + b"x" * (MEGABYTES * 1_000_000) + b'"}\n'

        def talk(connection, lines):
            lines.readline()
            connection.sendall(answer)
            lines.readline()
            connection.sendall(answer[:-100])

        daemon = FakeDaemon(talk)
        self.addCleanup(daemon.close)
        with peritext.connect(daemon.port, retry=None) as session:
            self.assertEqual(len(session.document(1).text()), MEGABYTES * 1_000_000)
            self.assertIsInstance(session.send(op="text", doc=1).exception(PATIENCE), peritext.Ended)
