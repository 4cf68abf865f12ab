"""Edits whose answers were lost act once."""

import contextlib
import json
import signal
import threading
import time
from uuid import UUID

import peritext
from fake import FakeDaemon
from support import PATIENCE, PROGRAM, Daemon, WithDaemon, WithFile

TOKEN = UUID("00000000-0000-4000-8000-0000000000d1")


class Lost(WithDaemon):
    """A daemon is killed, and started again on the same port."""

    def again(self):
        self.daemon.kill()
        self.daemon = Daemon(self.name, self.daemon.port)
        self.addCleanup(self.daemon.kill)

    def test_a_session_goes_on_where_the_daemon_comes_again(self):
        session = self.connect()
        text = session.document(1)
        text.insert(0, "a")
        self.again()
        self.assertEqual(text.insert(1, "b"), 2)
        self.assertEqual(text.text(), "ab")

    def test_a_long_text_goes_on_over_a_lost_connection(self):
        text = self.connect().document(1)
        long = "".join(chr(0x100 + k % 700) for k in range(60_000))
        threading.Timer(0.05, self.again).start()
        self.assertEqual(text.insert(0, long), len(long))
        self.assertEqual(text.text(), long)

    def test_all_that_is_under_way_is_made_once_and_in_order(self):
        session = self.connect()
        text = session.document(1)
        letters = "".join(chr(0x100 + k) for k in range(600))
        under_way = []
        for at, letter in enumerate(letters):
            under_way.append(text.send_insert(at, letter))
            if at % 200 == 150:
                under_way[at - 100].result(3 * PATIENCE)
                self.again()
        self.assertEqual([edit.result(3 * PATIENCE)["rev"] for edit in under_way], list(range(1, len(letters) + 1)))
        self.assertEqual(text.text(), letters)

    def test_an_edit_with_a_rev_is_made_before_the_end_or_stale(self):
        session = self.connect()
        text = session.document(1)
        rev = text.insert(0, "a")
        self.daemon.run.send_signal(signal.SIGSTOP)
        # Nobody reads this one.
        edit = session.send(op="insert", doc=1, at=0, text="b", rev=rev)
        self.again()
        self.assertIsInstance(edit.exception(PATIENCE), peritext.Stale)
        with self.assertRaises(peritext.Stale):
            text.insert(0, "c", rev)
        self.assertEqual(text.text(), "a")

    def test_nothing_is_sent_to_the_daemon_of_another_file(self):
        session = self.connect()
        session.document(1).insert(0, "a")
        other = self.name + "2"
        peritext.init(other, program=PROGRAM)
        self.daemon.kill()
        self.daemon = Daemon(other, self.daemon.port)
        self.addCleanup(self.daemon.kill)
        with self.assertRaises(peritext.Ended) as caught:
            session.document(1).insert(1, "b")
        self.assertIn("another file is served", str(caught.exception))
        self.assertEqual(self.connect().document(1).text(), "")

    def test_without_retry_it_ends(self):
        session = peritext.connect(self.daemon.port, retry=None)
        self.addCleanup(session.close)
        self.again()
        with self.assertRaises(peritext.Ended):
            session.document(1).insert(0, "a")

    def test_a_daemon_that_stays_away_is_looked_for_no_longer(self):
        session = peritext.connect(self.daemon.port, retry=0.3)
        self.addCleanup(session.close)
        self.daemon.kill()
        begun = time.monotonic()
        with self.assertRaises(peritext.Ended):
            session.document(1).insert(0, "a")
        self.assertLess(time.monotonic() - begun, PATIENCE / 2)

    def test_a_stop_is_sent_once(self):
        session = self.connect()
        session.stop()
        self.daemon.ended()
        self.daemon = Daemon(self.name, self.daemon.port)
        self.addCleanup(self.daemon.kill)
        with self.assertRaises(peritext.Ended):
            session.document(1).insert(0, "a")

    def test_a_close_waits_for_what_is_sent_again(self):
        session = self.connect()
        self.daemon.run.send_signal(signal.SIGSTOP)
        edits = [session.document(1).send_insert(0, "x") for _ in range(3)]
        threading.Timer(0.2, self.again).start()
        session.close()
        self.assertEqual([edit.result()["rev"] for edit in edits], [1, 2, 3])


class MadeAndLost(WithFile):
    def test_an_edit_that_was_made_is_answered_as_at_first(self):
        made, sent = {}, []

        def talk(connection, lines):
            for line in lines:
                request = json.loads(line)
                sent.append(request)
                is_known = request["token"] in made
                if not is_known and request.get("rev") == 2**32 - 1:
                    connection.sendall(b'{"code":6,"error":"stale","ok":false}\n')
                    continue
                made.setdefault(request["token"], len(made) + 1)
                if not is_known and len(made) == 2:
                    return
                connection.sendall(b'{"ok":true,"rev":%d}\n' % made[request["token"]])

        daemon = FakeDaemon(talk)
        self.addCleanup(daemon.close)
        with peritext.connect(daemon.port) as session:
            text = session.document(1)
            rev = text.insert(0, "a")
            self.assertEqual(text.insert(1, "b", rev), 2)
            # What it was answered may be older than what is there.
            with self.assertRaises(peritext.Stale):
                text.insert(2, "c", 2)
        self.assertEqual([request["text"] for request in sent], ["a", "b", "a", "b"])
        self.assertEqual([request.get("rev") for request in sent], [None, 1, 2**32 - 1, 2**32 - 1])


    def test_an_edit_that_found_no_steps_is_made_behind_the_opening(self):
        rounds = []

        def talk(connection, lines):
            rounds.append([json.loads(line)["text"] for _, line in zip(range(2), lines)])
            if len(rounds) == 1:
                connection.sendall(b'{"code":10,"error":"steps","ok":false}\n')
            else:
                connection.sendall(b'{"ok":true,"rev":1}\n{"ok":true,"rev":2}\n')

        daemon = FakeDaemon(talk)
        self.addCleanup(daemon.close)
        with peritext.connect(daemon.port) as session:
            under_way = [session.document(1).send_insert(0, letter) for letter in "ab"]
            self.assertEqual([edit.result(PATIENCE)["rev"] for edit in under_way], [1, 2])
        self.assertEqual(rounds, [["a", "b"], ["a", "b"]])

    def test_a_daemon_that_refuses_to_say_whether_it_has_an_edit_is_asked_again(self):
        """It has no memory just then, say: that doesn't tell that it has another file."""
        connections = []

        def talk(connection, lines):
            connections.append([])
            for line in lines:
                connections[-1].append(json.loads(line)["text"])
                if connections[-1] == ["a", "b"] and len(connections) == 1:
                    return
                connection.sendall(b'{"code":1,"error":"memory","ok":false}\n' if len(connections) == 2 else b'{"ok":true,"rev":1}\n')

        daemon = FakeDaemon(talk)
        self.addCleanup(daemon.close)
        with peritext.connect(daemon.port) as session:
            text = session.document(1)
            self.assertEqual([text.insert(0, letter) for letter in "ab"], [1, 1])
        self.assertEqual(connections, [["a", "b"], ["a"], ["a", "b"]])

    def test_a_daemon_that_dies_at_each_line_is_looked_for_no_longer(self):
        connections = []

        def talk(connection, lines):
            connections.append(lines.readline())

        daemon = FakeDaemon(talk)
        self.addCleanup(daemon.close)
        begun = time.monotonic()
        with peritext.connect(daemon.port, retry=0.5) as session, self.assertRaises(peritext.Ended):
            session.document(1).insert(0, "a")
        self.assertLess(time.monotonic() - begun, PATIENCE / 2)
        self.assertLess(len(connections), 15)


class Parts(WithFile):
    """Calls that are several edits."""

    def over(self, answers, read):
        """A document of a daemon that answers its edits so, and its readings with this `rev`; and what was sent there."""
        sent = []

        def talk(connection, lines):
            for line in lines:
                request = json.loads(line)
                sent.append(request)
                connection.sendall(answers.pop(0) if request["op"] != "text" else b'{"ok":true,"rev":%d,"text":""}\n' % read)

        daemon = FakeDaemon(talk)
        self.addCleanup(daemon.close)
        session = peritext.connect(daemon.port)
        self.addCleanup(session.close)
        return session.document(1), sent

    def test_each_part_names_the_rev_of_the_one_before(self):
        answers = [b'{"ok":true,"rev":%d}\n' % rev for rev in (300, 310, 311)]
        text, sent = self.over(answers, 0)
        self.assertEqual(text.delete(7, 600), 311)
        self.assertEqual([(edit["at"], edit["count"], edit.get("rev")) for edit in sent], [(351, 256, None), (95, 256, 300), (7, 88, 310)])
        self.assertEqual(len({edit["token"] for edit in sent}), 3)

    def test_an_edit_of_another_session_in_the_middle_is_stale(self):
        for call in (lambda text: text.insert(0, "\0" * 12_000), lambda text: text.delete(0, 600)):
            text, sent = self.over([b'{"ok":true,"rev":256}\n', b'{"code":6,"error":"stale","ok":false}\n'], 257)
            with self.assertRaises(peritext.Stale):
                call(text)
            self.assertEqual([request.get("rev") for request in sent], [None, 256, None])

    def test_the_tokens_of_the_parts_follow_from_the_one_that_is_given(self):
        text, sent = self.over([b'{"ok":true,"rev":256}\n', b'{"ok":true,"rev":300}\n'], 0)
        self.assertEqual(text.delete(0, 300, token=str(TOKEN)), 300)
        self.assertEqual([edit["token"] for edit in sent], [str(TOKEN), "aea89127-c0ba-58bc-b97e-f85132f6a51d"])


class Tokens(WithFile):
    def test_a_token_acts_once_across_sessions(self):
        for _ in range(2):
            with self.open() as opened:
                text = opened.document(1)
                self.assertEqual(text.insert(0, "a", token=TOKEN), 1)
                self.assertEqual(text.insert(0, "x" * 600, token=UUID(int=7)), 601)
                self.assertEqual(text.mark(0, 1, peritext.EM, token=UUID(int=8)), 602)
                self.assertEqual(text.unmark(0, 1, peritext.EM, token=UUID(int=9)), 603)
                self.assertEqual(text.delete(0, 1, token=UUID(int=10)), 604)
                self.assertEqual(text.delete(0, 590, token=UUID(int=11)), 1194)
                self.assertEqual(text.read(), ("x" * 9 + "a", 1194))

    def test_a_refused_edit_leaves_no_token(self):
        with self.open() as opened:
            text = opened.document(1)
            self.assertEqual(self.refusal(text.insert, 9, "a", token=TOKEN), (5, "range"))
            self.assertEqual(text.insert(0, "a", token=TOKEN), 1)
            self.assertEqual(self.refusal(opened.ask, op="insert", doc=1, at=0, text="b", token=str(UUID(int=0))), (4, "field"))

    def test_a_file_session_draws_none(self):
        with self.open() as opened, contextlib.suppress(peritext.Ended):
            self.assertEqual(opened.document(1).insert(0, "a"), 1)
            self.assertEqual(opened.document(1).insert(0, "a"), 2)
