"""Edits that are made at once."""

import doctest
import json
from uuid import UUID

import peritext
from fake import FakeDaemon
from peritext import action, again, answers, refusals, rules
from support import WithDaemon, WithFile

TOKEN = UUID("00000000-0000-4000-8000-0000000000d1")
LINE = 65_536


class Actions(WithFile):
    def test_its_edits_are_made_at_once_each_where_those_before_it_leave_it(self):
        with self.open() as opened:
            text = opened.document(1)
            rev = text.insert(0, "one two")
            with text.action(rev) as made:
                made.delete(4, 3)
                made.insert(4, "TWÖ")
                made.mark(0, 7, peritext.Link("u"))
                made.unmark(0, 4, peritext.Link())
            self.assertEqual(made.rev, rev + 8)
            self.assertEqual(text.spans(), [peritext.Span("one "), peritext.Span("TWÖ", link="u")])
            self.assertEqual(text.edits([{"op": "insert", "at": 0, "text": "x"}, {"op": "delete", "at": 0, "count": 4}], made.rev), rev + 13)
            self.assertEqual(text.read(), (" TWÖ", rev + 13))

    def test_all_are_made_or_none(self):
        with self.open() as opened:
            text = opened.document(1)
            rev = text.insert(0, "abc")
            with self.assertRaises(peritext.Refused) as caught, text.action() as made:
                made.insert(0, "x" * 600)
                made.delete(600, 4)
            self.assertEqual((caught.exception.number, caught.exception.at, made.rev), (5, 1, None))
            # One alone isn't named, nor is one of a stale line.
            for edits, number in (([{"op": "delete", "at": 9, "count": 1}], 5), ([{"op": "delete", "at": 9, "count": 1}] * 2, 6)):
                with self.assertRaises(peritext.Refused) as caught:
                    text.edits(edits, rev - (number == 6))
                self.assertEqual((caught.exception.number, caught.exception.at), (number, None))
            with self.assertRaises(peritext.Stale):
                text.edits([{"op": "delete", "at": 9, "count": 1}], rev - 1)
            self.assertEqual(self.refusal(text.edits, [{"op": "delete", "at": 0, "count": 1}, {"op": "delete", "at": 0}]), (4, "field"))
            self.assertEqual(text.read(), ("abc", rev))

    def test_what_raises_or_is_empty_sends_nothing(self):
        with self.open() as opened:
            text = opened.document(1)
            with self.assertRaises(ZeroDivisionError), text.action() as made:
                made.insert(0, "a")
                made.delete(0, 1 // 0)
            with text.action() as empty:
                pass
            for call in (lambda: made.insert(0, "a"), lambda: text.edits([]), lambda: text.action().insert(0, "")):
                self.assertRaises(ValueError, call)
            with self.assertRaises(UnicodeEncodeError), text.action() as made:
                made.insert(0, "a\ud800")
            self.assertEqual((made.rev, empty.rev, text.read()), (None, None, ("", 0)))

    def test_a_token_acts_once(self):
        for _ in range(2):
            with self.open() as opened:
                text = opened.document(1)
                with text.action(token=TOKEN) as made:
                    made.insert(0, "a" * 300)
                    made.delete(0, 299)
                self.assertEqual((made.rev, text.read()), (599, ("a", 599)))

    def test_long_texts_go_in_whole_lines(self):
        with self.open() as opened:
            text = opened.document(1)
            rev = text.insert(0, "()")
            long = "".join(chr(0x20 + k % 0x300) for k in range(5_000)) + "\0\n\"\\😀\0\0" * 2_500
            self.assertEqual(text.insert(1, long, rev), rev + len(long))
            self.assertEqual(text.text(), f"({long})")


class Lines(WithFile):
    def over(self):
        """A document of a daemon that makes every edit, and the lines that were sent there."""
        sent = []

        def talk(connection, lines):
            for line in lines:
                sent.append(line)
                connection.sendall(b'{"ok":true,"rev":%d}\n' % len(sent))

        daemon = FakeDaemon(talk)
        self.addCleanup(daemon.close)
        session = peritext.connect(daemon.port)
        self.addCleanup(session.close)
        return session.document(2**32 - 1), sent

    def test_a_long_text_is_lines_as_long_as_they_may_be(self):
        for character, least in (("x", 55_000), ("\0", 10_000), ("😀", 15_000)):
            text, sent = self.over()
            self.assertEqual(text.insert(7, character * 100_000, token=TOKEN), len(sent))
            made = [json.loads(line) for line in sent]
            pieces = [piece for line in made for piece in line["edits"]]
            self.assertEqual("".join(piece["text"] for piece in pieces), character * 100_000)
            self.assertEqual([piece["at"] for piece in pieces], list(range(7, 100_007, 256)))
            self.assertEqual([line.get("rev") for line in made], [None, *range(1, len(sent))])
            self.assertEqual((made[0]["token"], len({line["token"] for line in made})), (str(TOKEN), len(sent)))
            for request, line in zip(made[:-1], sent):
                self.assertGreater(sum(len(piece["text"]) for piece in request["edits"]), least)
                # It may be longer where it is sent again.
                self.assertLessEqual(len(line) + 10 + 9, LINE)

    def test_what_doesn_t_fit_one_is_refused_unless_it_may_be_parted(self):
        link = peritext.Link("\0" * 1_024)
        for count, call in ((1_025, lambda made, place: made.delete(0, 1)), (30, lambda made, place: made.mark(0, 1, link))):
            text, sent = self.over()
            with self.assertRaises(ValueError) as caught, text.action() as made:
                for place in range(count):
                    call(made, place)
            self.assertIn("one line takes 1,024 edits, of at most 256 characters each, and 65,536 bytes: make several", str(caught.exception))
            self.assertEqual(sent, [])
            with text.action(parted=True, token=TOKEN) as made:
                for place in range(count):
                    call(made, place)
            requests = [json.loads(line) for line in sent]
            self.assertEqual((made.rev, sum(len(request["edits"]) for request in requests)), (len(sent), count))
            self.assertEqual([request.get("rev") for request in requests], [None, *range(1, len(sent))])
            self.assertEqual(len({request["token"] for request in requests}), len(sent))
            self.assertLessEqual(max(map(len, sent)), LINE)

    def test_no_line_takes_more_away_than_can_wait_for_the_disk_if_it_may_be_parted(self):
        text, sent = self.over()
        text.edits([{"op": "delete", "at": 5, "count": 5_000}, {"op": "insert", "at": 5, "text": "x" * 5_000}], parted=True)
        taken = [[edit.get("count", 0) for edit in json.loads(line)["edits"]] for line in sent]
        self.assertEqual([sum(counts) for counts in taken], [2_048, 2_048, 904])
        self.assertEqual(len(taken[-1]), 4 + 20)

    def test_the_tokens_of_further_lines_follow_from_the_one_that_is_given(self):
        text, sent = self.over()
        text.edits([{"op": "delete", "at": 0, "count": 1}] * 1_025, token=TOKEN, parted=True)
        self.assertEqual([json.loads(line)["token"] for line in sent], [str(TOKEN), "3be52f26-e60d-5fce-bb82-c74c5fc921d3"])


class LostActions(WithDaemon):
    def test_an_action_whose_answer_was_lost_is_made_once(self):
        sent, losing = [], [True]

        def talk(connection, lines):
            with peritext.connect(self.daemon.port, retry=None) as behind:
                for line in lines:
                    sent.append(json.loads(line))
                    try:
                        answer = behind.ask(**sent[-1])
                    except peritext.Refused as refused:
                        answer = {"ok": False, "code": refused.number, "error": refused.word}
                    if sent[-1]["op"] == "edits" and losing and losing.pop():
                        return
                    connection.sendall(json.dumps(answer).encode() + b"\n")

        daemon = FakeDaemon(talk)
        self.addCleanup(daemon.close)
        with peritext.connect(daemon.port) as session:
            text = session.document(1)
            rev = text.insert(0, "abc")
            self.assertEqual(text.edits([{"op": "delete", "at": 0, "count": 3}, {"op": "insert", "at": 0, "text": "x"}], rev), 7)
            self.assertEqual(text.read(), ("x", 7))
        first, lost, probe, repeated, _ = sent
        self.assertEqual((probe, repeated), ({**first, "rev": again.NEVER}, {**lost, "rev": again.NEVER}))


class Refusals(WithFile):
    EDITS = [{"op": "insert", "at": 0, "text": "x"}, {"op": "delete", "at": 9, "count": 1}]

    def test_it_says_which_edit_it_is_about(self):
        for told, number in ((b'"at":2,', 1), (b"", None)):
            daemon = FakeDaemon(lambda connection, lines: [connection.sendall(b'{%s"code":5,"error":"range","ok":false}\n' % told) for _ in lines])
            self.addCleanup(daemon.close)
            with peritext.connect(daemon.port) as session, self.assertRaises(peritext.Refused) as caught:
                session.document(1).edits([{"op": "insert", "at": 0, "text": "x" * 300}, {"op": "delete", "at": 999, "count": 1}])
            self.assertEqual((caught.exception.number, caught.exception.at), (5, number))
            self.assertEqual("(edit 1 of the action, from 0 on)" in str(caught.exception), number is not None)
        for at in (b'"0"', b"-1", b"2", b"true"):
            with self.subTest(at=at), self.assertRaises(answers.NoAnswer):
                answers.answer_of(b'{"at":%s,"code":5,"error":"range","ok":false}' % at, {"op": "edits", "doc": 1, "edits": self.EDITS})

    def test_it_says_what_it_is_about(self):
        def words(number, *edits, **fields):
            return str(peritext.Refused(number, "word", {"op": "edits", "doc": 1, "edits": list(edits), **fields}))

        insert, delete = self.EDITS
        self.assertIn("an older program knows no `edits`; start one that is as new as this client", words(3, insert))
        self.assertIn("`edits` has to be a list of 1 to 1024 edits, each an insert, delete, mark or unmark without `doc`, ", words(4, {**insert, "doc": 1}))
        self.assertIn("`edits` has to be", words(4, {"op": "text"}))
        self.assertIn("`edits` has to be", words(4))
        self.assertIn("`edits` has to be", words(4, *[insert] * 1_025))
        self.assertIn("`at` of one of the `edits` has to be a whole number", words(4, insert, {**delete, "at": -1}))
        self.assertIn("`edits` is no field of this request", str(peritext.Refused(4, "field", {**insert, "doc": 1, "edits": [insert]})))
        self.assertIn("at most 256 characters in one edit", words(7, insert, {**delete, "count": 257}))
        self.assertIn("waits together for the disk", words(7, insert, delete))
        self.assertIn("word: the file has all the operations", words(7, insert))

    def test_the_examples_of_the_docs_are_so(self):
        results = [doctest.testmod(module) for module in (action, answers, refusals, rules)]
        self.assertEqual([result.failed for result in results], [0] * 4)
