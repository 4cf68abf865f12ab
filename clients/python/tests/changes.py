"""What changed since a rev."""

import json
import unittest
from uuid import UUID

import peritext
from fake import FakeDaemon
from peritext import EM, STRONG, Changes, Comment, Delete, Insert, Link, Marks, Retain, Span, Stale, applied, rules
from peritext.answers import NoAnswer, answer_of
from support import Daemon, WithDaemon, WithFile

FIRST, SECOND = (UUID(f"00000000-0000-4000-8000-0000000000c{number}") for number in (1, 2))
BARE = {"comments": None, "em": None, "link": None, "strong": None}
# What is no step.
BROKEN = (
    {}, [], "abc", None, 3, {"retain": 0}, {"retain": -1}, {"retain": True}, {"retain": 1.5}, {"retain": "1"}, {"delete": 0}, {"delete": None},
    {"insert": 7}, {"insert": None}, {"retain": 1, "delete": 1}, {"delete": 1, "insert": "a"}, {"attributes": {}, "delete": 1}, {"attributes": {}},
    {"attributes": {}, "retain": 1}, {"attributes": {**BARE, "strong": 1}, "retain": 1}, {"attributes": {**BARE, "comments": [1]}, "retain": 1},
    {"attributes": {"strong": None}, "retain": 1}, {"attributes": None, "retain": 1}, {"attributes": None, "insert": "a"},
    {"attributes": {"link": 7}, "insert": "a"}, {"attributes": {"em": None}, "insert": "a"}, {"move": 1},
)


class Steps(WithFile):
    def test_what_comes_stays_and_goes(self):
        with self.open() as opened:
            text = opened.document(1)
            first = text.insert(0, "one two")
            text.delete(4, 3)
            second = text.insert(4, "TWO!")
            last = text.mark(4, 7, STRONG)
            steps = [Retain(4), Insert("TWO", Marks(strong=True)), Insert("!"), Delete(3)]
            self.assertEqual(text.changes(first), Changes(steps, last))
            self.assertEqual(text.changes(second), ([Retain(4), Retain(3, Marks(strong=True))], last))
            self.assertEqual(text.changes(last), ([], last))
            self.assertEqual(text.changes(0), ([Insert("one "), Insert("TWO", Marks(strong=True)), Insert("!")], last))

    def test_of_equal_characters_the_removed_one_goes(self):
        with self.open() as opened:
            text = opened.document(1)
            rev = text.insert(0, "aaa")
            text.delete(1, 1)
            self.assertEqual(text.changes(rev).steps, [Retain(1), Delete(1)])
            rev = text.insert(2, "a")
            text.delete(0, 1)
            self.assertEqual(text.changes(rev).steps, [Delete(1)])

    def test_a_document_that_nobody_edited(self):
        with self.open() as opened:
            self.assertEqual(opened.document(9).changes(0), ([], 0))

    def test_marks_come_and_go(self):
        with self.open() as opened:
            text = opened.document(1)
            rev = text.insert(0, "abcd")
            for mark, marks in (
                (STRONG, Marks(strong=True)), (EM, Marks(strong=True, em=True)), (Link("x:y"), Marks(strong=True, em=True, link="x:y")),
                (Comment(SECOND), Marks(True, True, "x:y", (SECOND,))), (Comment(FIRST), Marks(True, True, "x:y", (FIRST, SECOND))),
            ):
                text.mark(1, 3, mark)
                changed, rev = text.changes(rev)
                self.assertEqual(changed, [Retain(1), Retain(2, marks)])
            for mark, marks in (
                (Comment(SECOND), Marks(True, True, "x:y", (FIRST,))), (Link(), Marks(True, True, None, (FIRST,))),
                (EM, Marks(strong=True, comments=(FIRST,))), (STRONG, Marks(comments=(FIRST,))), (Comment(FIRST), Marks()),
            ):
                text.unmark(1, 3, mark)
                changed, rev = text.changes(rev)
                self.assertEqual(changed, [Retain(1), Retain(2, marks)])

    def test_they_count_characters(self):
        with self.open() as opened:
            text = opened.document(1)
            rev = text.insert(0, "🦊é🦊🦊")
            text.delete(2, 1)
            text.insert(1, "😀")
            text.mark(3, 4, EM)
            steps = text.changes(rev).steps
            self.assertEqual(steps, [Retain(1), Insert("😀"), Retain(1), Delete(1), Retain(1, Marks(em=True))])
            self.assertEqual(applied([Span("🦊é🦊🦊")], steps), [Span("🦊😀é"), Span("🦊", em=True)])

    def test_they_make_the_spans_of_now(self):
        with self.open() as opened:
            text, shown = opened.document(1), {0: []}
            for edit in (
                lambda: text.insert(0, "The quick fox"), lambda: text.mark(4, 9, STRONG), lambda: text.insert(9, "er"), lambda: text.delete(2, 4),
                lambda: text.mark(0, 8, Comment(FIRST)), lambda: text.unmark(3, 5, STRONG), lambda: text.insert(0, "x" * 600),
                lambda: text.mark(0, 600, Link("https://example.org/")), lambda: text.delete(100, 505), lambda: text.unmark(0, 80, Link()),
            ):
                edit()
                for rev, spans in list(shown.items()):
                    steps, now = text.changes(rev)
                    self.assertEqual(applied(spans, steps), text.spans())
                shown[now] = text.spans()
            text.delete(0, len(text.text()))
            for rev, spans in shown.items():
                self.assertEqual(applied(spans, text.changes(rev).steps), [])


class Refusals(WithFile):
    def test_a_since_that_can_t_be_told_is_stale(self):
        with self.open() as opened:
            text = opened.document(1)
            rev = text.insert(0, "abc")
            for since in (rev + 1, 2**32 - 1):
                self.assertEqual(self.refusal(text.changes, since), (6, "stale"))
        with self.open() as opened:
            text = opened.document(1)
            # Not even asked for.
            self.assertEqual(self.refusal(text.changes, rev), (6, "stale"))
            self.assertEqual(text.changes(0), ([Insert("abc")], rev))
            self.assertEqual(text.changes(rev), ([], rev))
            self.assertEqual(self.refusal(text.changes, rev - 1), (6, "stale"))
            text.insert(3, "d")
            self.assertEqual(text.changes(rev), ([Retain(3), Insert("d")], rev + 1))

    def test_a_refusal_says_what_it_is_about(self):
        number, mend = "`since` has to be a whole number from 0 to 4294967295", "; mend what wrote it"
        with self.open() as opened:
            text = opened.document(1)
            text.insert(0, "abc")
            for since in (-1, 1.5, 0.0, True, False, "1", None, [1], 2**32):
                with self.subTest(since=since):
                    self.assertEqual(self.words(text.changes, since), f"4 field: {number}{mend}")
            for fields, about in (
                ({}, number),
                ({"since": 0, "rev": 3}, "`rev` is no field of this request"),
                ({"since": 0, "doc": 0}, "`doc` has to be a whole number from 1 to 4294967295"),
            ):
                self.assertEqual(self.words(opened.ask, **{"op": "changes", "doc": 1, **fields}), f"4 field: {about}{mend}")
        self.assertEqual(rules.broken({"op": "changes", "doc": 1, "since": 2**32 - 1}), [])

    def words(self, call, *words, **fields):
        with self.assertRaises(peritext.Refused) as caught:
            call(*words, **fields)
        return str(caught.exception)


class Served(WithDaemon):
    def test_another_session_follows(self):
        one, other = self.connect().document(1), self.connect().document(1)
        first = one.insert(0, "abc")
        # The numbers are the same ones, but this session was told none yet.
        self.assertEqual(self.refusal(other.changes, first), (6, "stale"))
        steps, rev = other.changes(0)
        spans = applied([], steps)
        self.assertEqual((spans, rev), ([Span("abc")], first))
        one.mark(0, 2, EM)
        one.delete(1, 1)
        steps, rev = other.changes(rev)
        self.assertEqual((steps, applied(spans, steps)), ([Retain(1, Marks(em=True)), Delete(1)], one.spans()))

    def test_after_a_lost_connection_it_is_stale(self):
        text = self.connect().document(1)
        rev = text.insert(0, "abc")
        self.assertEqual(text.changes(rev), ([], rev))
        self.daemon.kill()
        self.daemon = Daemon(self.name, self.daemon.port)
        self.addCleanup(self.daemon.kill)
        self.assertEqual(self.refusal(text.changes, rev), (6, "stale"))
        self.assertEqual(text.changes(0), ([Insert("abc")], rev))


class Lost(unittest.TestCase):
    """A connection that is lost while the changes are asked for."""

    def over(self, revs):
        """A document whose answers have these revs, and the requests for it. In place of None the connection ends."""
        asked, revs = [], iter(revs)

        def talk(connection, lines):
            for line, rev in zip(lines, revs):
                if rev is None:
                    return
                asked.append(json.loads(line)["since"])
                connection.sendall(json.dumps({"ok": True, "rev": rev, "changes": []}).encode() + b"\n")

        daemon = FakeDaemon(talk)
        self.addCleanup(daemon.close)
        session = peritext.connect(daemon.port)
        self.addCleanup(session.close)
        return session.document(1), asked

    def test_the_same_number_over_another_connection_is_another_one(self):
        text, asked = self.over([5, None, 5, 5])
        self.assertEqual(text.changes(0), ([], 5))
        with self.assertRaises(Stale):
            text.changes(5)
        self.assertEqual((text.changes(0), asked), (([], 5), [0, 5, 0]))

    def test_nothing_is_the_same_everywhere(self):
        text, asked = self.over([None, 5, 6])
        self.assertEqual((text.changes(0), text.changes(5), asked), (([], 5), ([], 6), [0, 5]))


class Answers(unittest.TestCase):
    def test_what_is_no_step_is_no_answer(self):
        for step in BROKEN:
            with self.subTest(step=step), self.assertRaises(NoAnswer):
                self.answer([{"retain": 1}, step])
        for steps in (None, {}, "abc"):
            with self.assertRaises(NoAnswer):
                self.answer(steps)

    def test_each_form_of_a_step_is_one(self):
        steps = [
            {"retain": 1}, {"delete": 2}, {"insert": "a"}, {"attributes": {"em": True}, "insert": "a"}, {"attributes": BARE, "retain": 3},
            {"attributes": {"comments": [str(FIRST)], "em": None, "link": "x:y", "strong": True}, "retain": 3},
        ]
        self.assertEqual(self.answer(steps)["changes"], steps)

    def answer(self, steps):
        return answer_of(json.dumps({"ok": True, "rev": 3, "changes": steps}).encode(), {"op": "changes", "doc": 1, "since": 0})


class Applied(unittest.TestCase):
    def test_spans_are_as_long_as_they_can_be(self):
        spans = [Span("ab"), Span("cd", em=True), Span("ef")]
        for steps, made in (
            ([], spans),
            ([Retain(6)], spans),
            ([Retain(2), Delete(2)], [Span("abef")]),
            ([Retain(2), Retain(2, Marks())], [Span("abcdef")]),
            ([Delete(1), Retain(1, Marks(em=True))], [Span("bcd", em=True), Span("ef")]),
            ([Retain(1), Delete(4), Insert("x", Marks(link="x:y"))], [Span("a"), Span("x", link="x:y"), Span("f")]),
            ([Retain(6, Marks(strong=True)), Insert("g")], [Span("abcdef", strong=True), Span("g")]),
            ([Delete(6)], []),
        ):
            with self.subTest(steps=steps):
                self.assertEqual(applied(iter(spans), steps), made)

    def test_steps_over_a_longer_text_are_refused(self):
        for steps in ([Retain(4)], [Delete(4)], [Insert("x"), Retain(3), Retain(1, Marks())]):
            with self.assertRaises(ValueError):
                applied([Span("abc")], steps)
