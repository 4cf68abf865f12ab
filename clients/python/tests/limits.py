"""How long a client waits for an answer."""

import inspect
import signal
import subprocess
import sys
import tempfile
import threading
import time
import unittest

import peritext
from fake import FakeDaemon, program
from support import PATIENCE

LINE = b'{"ok":true,"rev":3,"text":"abc"}\n'
STATUS = '{"applied":0,"ok":true,"settled":0,"state":"open"}'
# Seconds without a byte, in these tests.
SHORT = 0.3


class Limits(unittest.TestCase):
    def over(self, talk):
        daemon = FakeDaemon(talk)
        self.addCleanup(daemon.close)
        return daemon.port

    def assert_silent(self, call, *words):
        before = time.monotonic()
        with self.assertRaises(peritext.Ended) as caught:
            call(*words)
        self.assertIn("no byte came for 0.3 seconds, its timeout", str(caught.exception))
        self.assertTrue(SHORT <= time.monotonic() - before < PATIENCE)


class OverSockets(Limits):
    def test_it_is_half_a_minute_unless_it_is_said(self):
        for call in (peritext.connect, peritext.open):
            self.assertEqual(inspect.signature(call).parameters["timeout"].default, 30)

    def test_a_limit_is_more_than_nothing(self):
        port = self.over(lambda connection, lines: None)
        for timeout in (0, -1, float("nan")):
            with self.assertRaises(ValueError):
                peritext.connect(port, timeout=timeout)

    def test_what_is_no_time_is_refused_at_the_call(self):
        asked = []
        port = self.over(lambda connection, lines: asked.append(1))
        for call in (peritext.connect, lambda _port, timeout=1, retry=1: peritext.open("file", "no program", timeout)):
            self.assert_refused(lambda value, call=call: call(port, timeout=value), "timeout")
        self.assert_refused(lambda value: peritext.connect(port, retry=value), "retry")
        self.assert_refused(lambda value: peritext.Watch(port, 1, value), "retry")
        self.assertEqual(asked, [])

    def assert_refused(self, call, name):
        for value, fault in ((0, ValueError), (-1, ValueError), (float("nan"), ValueError), ("10", TypeError), (True, TypeError), ([], TypeError)):
            with self.subTest(name=name, value=value), self.assertRaises(fault) as caught:
                call(value)
            self.assertIn(f"{name} is {value!r}; it has to be ", str(caught.exception))

    def test_any_number_is_a_time(self):
        def talk(connection, lines):
            lines.readline()
            connection.sendall(LINE)

        for number in (float("inf"), 1e300, 10**400, 2**31, 2 * threading.TIMEOUT_MAX):
            with self.subTest(number=number), peritext.connect(self.over(talk), timeout=number, retry=number) as session:
                # The second one goes over another connection.
                self.assertEqual([session.document(1).text() for _ in range(2)], ["abc", "abc"])

    def test_silence_ends_the_session_for_all_who_wait(self):
        port = self.over(lambda connection, lines: list(lines))
        with peritext.connect(port, timeout=SHORT, retry=None) as session:
            other = session.send(op="text", doc=1)
            self.assert_silent(session.document(1).text)
            self.assertIsInstance(other.exception(PATIENCE), peritext.Ended)
            with self.assertRaises(peritext.Ended) as caught:
                session.document(1).text()
            self.assertIn("its timeout", str(caught.exception))

    def test_silence_in_the_middle_of_an_answer(self):
        def talk(connection, lines):
            lines.readline()
            connection.sendall(LINE[:20])
            list(lines)

        with peritext.connect(self.over(talk), timeout=SHORT, retry=None) as session:
            self.assert_silent(session.document(1).text)

    def test_an_answer_that_comes_byte_by_byte_has_its_time(self):
        def talk(connection, lines):
            lines.readline()
            for byte in LINE:
                connection.sendall(bytes([byte]))
                time.sleep(SHORT / 6)

        with peritext.connect(self.over(talk), timeout=SHORT, retry=None) as session:
            before = time.monotonic()
            self.assertEqual(session.document(1).text(), "abc")
            self.assertGreater(time.monotonic() - before, 3 * SHORT)

    def test_a_session_of_which_nothing_is_due_is_left_alone(self):
        def talk(connection, lines):
            for _ in lines:
                connection.sendall(LINE)

        with peritext.connect(self.over(talk), timeout=SHORT, retry=None) as session:
            for _ in range(2):
                self.assertEqual(session.document(1).text(), "abc")
                time.sleep(2 * SHORT)
            # Its time begins with the request.
            self.assertEqual(session.document(1).text(), "abc")

    def test_none_is_no_limit(self):
        def talk(connection, lines):
            lines.readline()
            time.sleep(2 * SHORT)
            connection.sendall(LINE)

        for timeout in (None, float("inf")):
            with peritext.connect(self.over(talk), timeout=timeout, retry=None) as session:
                self.assertEqual(session.document(1).text(), "abc")

    def test_a_daemon_that_doesn_t_read(self):
        port = self.over(lambda connection, lines: time.sleep(10 * SHORT))

        def send_much():
            for _ in range(1_000):
                session.send(op="text", doc=1, much="x" * 60_000)

        with peritext.connect(port, timeout=SHORT, retry=None) as session:
            self.assert_silent(send_much)

    def test_a_close_waits_no_longer(self):
        session = peritext.connect(self.over(lambda connection, lines: time.sleep(PATIENCE)), timeout=SHORT, retry=None)
        before = time.monotonic()
        session.close()
        self.assertLess(time.monotonic() - before, PATIENCE / 2)

    def test_a_client_that_stood_still_itself_reads_first(self):
        asked, stopped = threading.Event(), threading.Event()

        def talk(connection, lines):
            lines.readline()
            asked.set()
            stopped.wait(PATIENCE)
            connection.sendall(LINE)

        code = "import peritext, sys\nprint(peritext.connect(int(sys.argv[1]), timeout=1, retry=None).document(1).text())"
        words = [sys.executable, "-c", f"import sys; sys.path[:0] = {sys.path!r}\n{code}", str(self.over(talk))]
        with subprocess.Popen(words, stdout=subprocess.PIPE, stderr=subprocess.PIPE) as client:
            try:
                self.assertTrue(asked.wait(PATIENCE))
                client.send_signal(signal.SIGSTOP)
                stopped.set()
                time.sleep(1.5)
                client.send_signal(signal.SIGCONT)
                self.assertEqual(client.communicate(timeout=PATIENCE), (b"abc\n", b""))
            finally:
                client.kill()


class OverFiles(Limits):
    def test_a_program_that_says_nothing_is_ended(self):
        with tempfile.TemporaryDirectory() as room:
            silent = program(room, "exec sleep 60")
            self.assert_silent(lambda: peritext.open("file", program=silent, timeout=SHORT))

    def test_one_that_falls_silent_too(self):
        with tempfile.TemporaryDirectory() as room:
            silent = program(room, f"read a; echo '{STATUS}'; exec sleep 60")
            session = peritext.open("file", program=silent, timeout=SHORT)
            self.assert_silent(session.document(1).text)
            self.assert_silent_close(session)

    def test_one_that_doesn_t_end(self):
        with tempfile.TemporaryDirectory() as room:
            silent = program(room, f"read a; echo '{STATUS}'; exec sleep 60")
            self.assert_silent_close(peritext.open("file", program=silent, timeout=SHORT))

    def assert_silent_close(self, session):
        with self.assertRaises(peritext.Ended) as caught:
            session.close()
        self.assertIn("no byte came for 0.3 seconds", str(caught.exception))
