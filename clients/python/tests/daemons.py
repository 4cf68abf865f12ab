"""Sessions of a daemon over sockets."""

import contextlib
import doctest
import io
import os
import re
import socket
import threading
from unittest import mock

import peritext
from peritext import daemon, file
from support import CLIENT, PROGRAM, Daemon, WithDaemon, WithFile, free_port, retried

SESSIONS = 32


class Shared(WithDaemon):
    def test_two_sessions_see_each_other(self):
        one, other = self.connect(), self.connect()
        text = one.document(1)
        text.insert(0, "The quick 🦊")
        text.mark(4, 9, peritext.STRONG)
        self.assertEqual(other.document(1).spans()[1], peritext.Span("quick", strong=True))
        other.document(1).delete(0, 4)
        self.assertEqual(text.text(), "quick 🦊")
        self.assertTrue(one.settled())

    def test_who_is_connected(self):
        one, other = self.connect(), self.connect()
        one.document(1).insert(0, "x")
        connected = other.peers()
        self.assertEqual(connected.peers, [])
        self.assertGreaterEqual(connected.sessions, 2)

    def test_what_another_session_did_makes_an_edit_stale(self):
        one, other = self.connect().document(1), self.connect().document(1)
        _, rev = one.read()
        other.insert(0, "a")
        with self.assertRaises(peritext.Stale) as caught:
            one.insert(0, "b", rev)
        self.assertIn("read it anew", str(caught.exception))

    def test_many_under_way_are_made_in_order(self):
        with peritext.connect(self.daemon.port) as opened:
            text = opened.document(1)
            under_way = [text.send_insert(place, "abcdefghij"[place % 10]) for place in range(300)]
            self.assertEqual([edit.result()["rev"] for edit in under_way], list(range(1, 301)))
            self.assertEqual(text.text(), "abcdefghij" * 30)

    def test_what_was_sent_before_the_close_is_answered(self):
        opened = peritext.connect(self.daemon.port)
        under_way = [opened.document(1).send_insert(0, "x") for _ in range(20)]
        opened.close()
        self.assertEqual([edit.result()["rev"] for edit in under_way], list(range(1, 21)))
        with self.assertRaises(peritext.Ended):
            opened.document(1).text()
        self.assertEqual(self.connect().document(1).text(), "x" * 20)

    def test_eight_programs_type_at_once(self):
        def type_some(number):
            with peritext.connect(self.daemon.port) as opened:
                for _ in range(10):
                    opened.document(number).insert(0, "x")

        threads = [threading.Thread(target=type_some, args=(number,)) for number in range(1, 9)]
        for thread in threads:
            thread.start()
        for thread in threads:
            thread.join()
        opened = self.connect()
        self.assertEqual([opened.document(number).text() for number in range(1, 9)], ["x" * 10] * 8)


class RefusedOverSockets(WithDaemon):
    def test_a_refusal_leaves_the_session(self):
        opened = self.connect()
        text = opened.document(1)
        self.assertEqual(self.refusal(text.insert, 3, "x"), (5, "range"))
        self.assertEqual(self.refusal(lambda: text.send_insert(0, "x" * 257).result()), (7, "limit"))
        self.assertEqual(self.refusal(opened.ask, op="sing"), (3, "request"))
        self.assertEqual(self.refusal(opened.ask, op="x" * 70_000), (11, "line"))
        self.assertEqual(text.insert(0, "x"), 1)

    def test_the_33rd_is_refused_until_one_goes(self):
        held = [self.connect() for _ in range(SESSIONS)]
        self.assertEqual(self.refusal(peritext.connect, self.daemon.port), (8, "busy"))
        self.assertEqual(self.refusal(peritext.connect, self.daemon.port), (8, "busy"))
        held[7].close()
        again = retried(self.connect)
        self.assertEqual(again.document(1).insert(0, "x"), 1)

    def test_stop_ends_the_daemon_for_all(self):
        one, other = self.connect(), self.connect(retry=None)
        one.document(1).insert(0, "x")
        one.stop()
        self.assertEqual(self.daemon.ended(), (0, ""))
        with self.assertRaises(peritext.Ended):
            other.document(1).text()
        with self.assertRaises(peritext.NoDaemon):
            peritext.connect(self.daemon.port)

    def test_what_was_answered_is_there_after_a_kill(self):
        opened = self.connect(retry=None)
        for place in range(20):
            opened.document(1).insert(place, "x")
        self.daemon.kill()
        with self.assertRaises(peritext.Ended) as caught:
            opened.document(1).insert(0, "y")
        opened.close()
        again = Daemon(self.name, self.daemon.port)
        self.addCleanup(again.kill)
        self.assertEqual(text_over(again.port), "x" * 20)
        self.assertIn("ended", str(caught.exception))

    def test_a_kill_ends_all_that_is_under_way(self):
        opened = self.connect(retry=None)
        under_way = [opened.document(1).send_insert(0, "x") for _ in range(200)]
        under_way[0].result()
        self.daemon.kill()
        answered = [edit for edit in under_way if edit.exception() is None]
        for edit in under_way[len(answered) :]:
            self.assertIsInstance(edit.exception(), peritext.Ended)
        with self.open() as again:
            self.assertGreaterEqual(len(again.document(1).text()), len(answered))


class WordsThatHelp(WithDaemon):
    def test_nobody_listens(self):
        port = free_port()
        with self.assertRaises(peritext.NoDaemon) as caught:
            peritext.connect(port)
        self.assertIn(f"peritext serve FILE --sessions {port}", str(caught.exception))

    def test_the_port_of_the_peers_is_none_for_sessions(self):
        peers = self.daemon.run.args[-1]
        with self.assertRaises(peritext.NoDaemon) as caught:
            peritext.connect(int(peers))
        self.assertIn("not that behind --peers", str(caught.exception))

    def test_who_says_nothing_is_no_daemon(self):
        with socket.create_server(("127.0.0.1", 0)) as silent, mock.patch.object(daemon, "PATIENCE", 0.2):
            with self.assertRaises(peritext.NoDaemon):
                peritext.connect(silent.getsockname()[1])

    def test_a_file_of_a_daemon_is_held(self):
        with self.assertRaises(peritext.Refused) as caught:
            self.open()
        self.assertEqual(caught.exception.number, 54)
        self.assertIn("connect to its port", str(caught.exception))
        self.assertEqual(self.end_of(Daemon(self.name)).number, 54)

    def test_a_taken_port(self):
        other = os.path.join(self.room.name, "other")
        peritext.init(other, program=PROGRAM)
        refused = self.end_of(Daemon(other, self.daemon.port))
        self.assertEqual(refused.number, 70)
        self.assertIn("a port is taken (choose another)", str(refused))

    def end_of(self, ended):
        with self.assertRaises(peritext.Refused) as caught:
            file.check(*ended.ended())
        return caught.exception


class WordsOfFiles(WithFile):
    def test_no_store(self):
        with open(self.name, "wb") as file:
            file.write(bytes(8_192))
        with self.assertRaises(peritext.Refused) as caught:
            self.open()
        self.assertIn("isn't a store", str(caught.exception))

    def test_no_program(self):
        for call in (peritext.open, lambda name, program: peritext.init(name, program=program)):
            with self.assertRaises(FileNotFoundError) as caught:
                call(self.name, program=self.name + "-program")
            self.assertIn("make peritext", str(caught.exception))


class Examples(WithDaemon):
    def test_the_examples_of_the_docs_are_so(self):
        result = doctest.testmod(daemon, extraglobs={"port": self.daemon.port})
        self.assertEqual((result.failed, result.attempted > 0), (0, True))
        for module in (peritext.answers, peritext.changing, peritext.refusals, peritext.rules, peritext.seconds):
            result = doctest.testmod(module)
            self.assertEqual((result.failed, result.attempted > 0), (0, True))

    def test_the_examples_of_the_page_are_so(self):
        with open(os.path.join(CLIENT, "README.md"), encoding="utf-8") as page:
            examples = re.findall(r"^```py\n(.*?)^```$", page.read(), re.MULTILINE | re.DOTALL)
        printed = []
        for example in examples:
            with contextlib.redirect_stdout(io.StringIO()) as said:
                exec(example.replace("7001", str(self.daemon.port)), {})
            printed.append(said.getvalue())
        self.assertEqual(printed, ["The quick fox\n", "The quick fox\nThe quick fox!\n"])


def text_over(port):
    with peritext.connect(port) as opened:
        return opened.document(1).text()
