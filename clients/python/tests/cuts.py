"""Answers that are cut, or are none: all who wait are told, and nobody is told a wrong thing."""

import json
import tempfile
import threading
import unittest
from unittest import mock

import peritext
from fake import FakeDaemon, program
from support import PATIENCE

# A request, and a typical answer to it.
EXCHANGES = {
    "text": ({"op": "text", "doc": 1}, '{"ok":true,"rev":12,"text":"The \\"quick\\" ä🦊\\n"}'),
    "spans": ({"op": "spans", "doc": 1}, '{"ok":true,"rev":12,"spans":[{"link":"u","text":"ä"},{"strong":true,"text":"b"}]}'),
    "changes": ({"op": "changes", "doc": 1, "since": 3}, '{"changes":[{"retain":3},{"attributes":{"em":true},"insert":"ä"}],"ok":true,"rev":12}'),
    "anchors": ({"op": "anchors", "doc": 1, "at": [0, 3], "side": "previous"}, '{"anchors":["start","a3@UUID"],"ok":true,"rev":12}'),
    "places": ({"op": "places", "doc": 1, "anchors": ["start", "end"]}, '{"ok":true,"places":[0,null],"rev":12}'),
    "edit": ({"op": "insert", "doc": 1, "at": 0, "text": "x"}, '{"ok":true,"rev":12}'),
    "refusal": ({"op": "insert", "doc": 1, "at": 9, "text": "x"}, '{"code":5,"error":"range","ok":false}'),
    "status": ({"op": "status"}, '{"applied":12,"ok":true,"settled":12,"state":"open"}'),
    "peers": ({"op": "peers"}, '{"ok":true,"peers":[{"has":12,"lacks":0,"replica":"00000000-0000-4000-8000-000000000002"}],"sessions":12}'),
    "documents": ({"op": "documents"}, '{"documents":[{"chars":3,"doc":3,"ops":7,"writers":["0f5d2c4e-9a1b-4c3d-8e7f-112233445566"]}],"ok":true}'),
    "room": (
        {"op": "room"},
        '{"bytes":614,"bytes_limit":1073741824,"documents":2,"documents_limit":1024,"ok":true,"operations":8,"operations_limit":16777216,'
        '"replicas":1,"replicas_limit":16,"steps":6,"steps_limit":1048576}',
    ),
}
TEXT = EXCHANGES["text"][0]
# What is no answer to a request for a text.
WRONG = [
    b"",
    b"null",
    b"[]",
    b"7",
    b'"ok"',
    b'{"rev":12,"text":"a"}',
    b'{"ok":1,"rev":12,"text":"a"}',
    b'{"ok":false}',
    b'{"ok":false,"code":5}',
    b'{"ok":false,"error":"range"}',
    b'{"ok":false,"code":"5","error":"range"}',
    b'{"ok":false,"code":true,"error":"range"}',
    b'{"ok":false,"code":5,"error":["range"]}',
    b'{"ok":true}',
    b'{"ok":true,"rev":12}',
    b'{"ok":true,"rev":"12","text":"a"}',
    b'{"ok":true,"rev":12,"text":7}',
    b'{"ok":true,"rev":12,"text":"\xff"}',
    b"peritext: 9 failed",
    b"[" * 100_000,
]


class Answered(unittest.TestCase):
    def setUp(self):
        self.escaped = []
        patch = mock.patch.object(threading, "excepthook", self.escaped.append)
        patch.start()
        self.addCleanup(patch.stop)
        self.addCleanup(lambda: self.assertEqual(self.escaped, []))

    def over(self, said, count):
        """A session to which each of these is said, once it has asked so often."""
        rest = iter(said)

        def talk(connection, lines):
            for _ in range(count):
                lines.readline()
            connection.sendall(next(rest))

        daemon = FakeDaemon(talk)
        self.addCleanup(daemon.close)
        return daemon

    def assert_ended(self, under_way):
        for answer in under_way:
            fault = answer.exception(PATIENCE)
            self.assertIsInstance(fault, peritext.Ended)
            self.assertIn("ended before this request was answered (", str(fault))


class Cut(Answered):
    def check_each_byte(self, name):
        fields, line = EXCHANGES[name]
        whole = line.encode() + b"\n"
        daemon = self.over((whole + whole[:cut] for cut in range(len(whole))), 3)
        for cut in range(len(whole)):
            with self.subTest(answer=name, cut=cut), peritext.connect(daemon.port, retry=None) as session:
                first, *others = [session.send(**fields) for _ in range(3)]
                self.assert_told(first, name)
                self.assert_ended(others)
                with self.assertRaises(peritext.Ended):
                    session.send(**fields)

    def assert_told(self, answer, name):
        if name == "refusal":
            self.assertEqual(str(answer.exception(PATIENCE)), str(peritext.Refused(5, "range")))
            return
        self.assertEqual(answer.result(PATIENCE), json.loads(EXCHANGES[name][1]))

    def test_a_text(self):
        self.check_each_byte("text")

    def test_spans(self):
        self.check_each_byte("spans")

    def test_changes(self):
        self.check_each_byte("changes")

    def test_places(self):
        self.check_each_byte("anchors")
        self.check_each_byte("places")

    def test_an_edit(self):
        self.check_each_byte("edit")

    def test_a_refusal(self):
        self.check_each_byte("refusal")

    def test_a_status(self):
        self.check_each_byte("status")

    def test_peers(self):
        self.check_each_byte("peers")

    def test_what_is_counted(self):
        self.check_each_byte("documents")
        self.check_each_byte("room")

    def test_the_first_answer_of_a_session(self):
        """It is read before the session begins."""
        whole = EXCHANGES["status"][1].encode() + b"\n"
        for cut in range(len(whole)):
            with mock.patch("fake.STATUS", whole[:cut]), self.assertRaises(peritext.NoDaemon):
                peritext.connect(self.over([b""], 0).port)

    def test_a_program_of_its_own(self):
        with tempfile.TemporaryDirectory() as room:
            status = EXCHANGES["status"][1]
            name = program(room, f"read a; echo '{status}'; read b; read c; printf '%s' '{status[:20]}'; exec >&-; cat > /dev/null")
            session = peritext.open("file", program=name)
            self.assert_ended([session.send(**TEXT) for _ in range(2)])
            session.close()


class Wrong(Answered):
    def test_lines_that_are_no_answers(self):
        # What stays open afterwards has to be ended by the client.
        daemon = FakeDaemon(self.wrong(iter(WRONG)))
        self.addCleanup(daemon.close)
        for line in WRONG:
            with self.subTest(line=line[:50]), peritext.connect(daemon.port, retry=None) as session:
                self.assert_ended([session.send(**TEXT) for _ in range(3)])

    def wrong(self, lines_to_say):
        def talk(connection, lines):
            for _ in range(3):
                lines.readline()
            connection.sendall(next(lines_to_say) + b"\n")
            while lines.readline():
                pass

        return talk

    def test_a_line_that_nobody_asked_for(self):
        fields, line = EXCHANGES["text"]
        daemon = self.over([(line.encode() + b"\n") * 2], 1)
        with peritext.connect(daemon.port, retry=None) as session:
            self.assertEqual(session.send(**fields).result(PATIENCE)["rev"], 12)
            with self.assertRaises(peritext.Ended):
                for _ in range(1_000):
                    session.send(**fields).result(PATIENCE)

    def test_the_words_say_why(self):
        daemon = self.over([b'{"ok":false}\n'], 1)
        with peritext.connect(daemon.port, retry=None) as session:
            fault = session.send(**TEXT).exception(PATIENCE)
        self.assertIn("an answer came without a right `code`", str(fault))

    def test_a_program_of_its_own_is_ended(self):
        with tempfile.TemporaryDirectory() as room:
            status = EXCHANGES["status"][1]
            name = program(room, f"read a; echo '{status}'; read b; read c; echo no; exec sleep 60")
            session = peritext.open("file", program=name)
            self.assert_ended([session.send(**TEXT) for _ in range(2)])
            with self.assertRaises(peritext.Ended) as caught:
                session.close()
            self.assertIn("no JSON object", str(caught.exception))


class NotWanted(Answered):
    """What a caller does with one answer is nothing to those who wait for others."""

    def test_an_answer_that_nobody_wants_any_more_leaves_the_others_theirs(self):
        fields, line = EXCHANGES["text"]
        daemon = self.over([(line.encode() + b"\n") * 3], 3)
        with peritext.connect(daemon.port, retry=None) as session:
            under_way = [session.send(**fields) for _ in range(2)]
            under_way[0].cancel()
            under_way.append(session.send(**fields))
            self.assertEqual([answer.result(PATIENCE)["rev"] for answer in under_way[1:]], [12, 12])

    def test_a_fault_in_what_is_done_with_an_answer_leaves_them_too(self):
        fields, line = EXCHANGES["text"]
        daemon = self.over([(line.encode() + b"\n") * 2], 2)
        with mock.patch("concurrent.futures._base.LOGGER"), peritext.connect(daemon.port, retry=None) as session:
            first = session.send(**fields)
            first.add_done_callback(lambda _: 1 / 0)
            self.assertEqual(session.send(**fields).result(PATIENCE)["rev"], 12)
