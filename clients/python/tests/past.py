"""A document as it was, and its versions."""

import asyncio
import inspect
import json
import unittest
from uuid import UUID

import peritext
from fake import FakeDaemon
from peritext import STRONG, Span, Version, aio
from standing import REPLICA, StandIn
from support import PATIENCE, PROGRAM, WithFile

MEND = "; mend what wrote it"
NUMBER = "a whole number from {} to 4294967295"


class Past:
    """The tests, over a session that a class below opens."""

    def test_a_text_is_told_as_it_was(self):
        text = self.session.document(1)
        kept = [text.read()]
        for at, words in ((0, "The fox"), (4, "quick "), (13, "!"), (0, "🦊 ")):
            text.insert(at, words)
            kept.append(text.read())
            self.session.document(2).insert(0, "x")
        for was, rev in kept:
            self.assertEqual(text.text(at_rev=rev), was)
        self.assertEqual(text.text(2), "Th")
        self.assertEqual((text.text(), text.read()), (kept[-1].text, kept[-1]))

    def test_more_than_the_document_has_is_stale(self):
        text = self.session.document(1)
        rev = text.insert(0, "The fox")
        for at_rev in (rev + 1, 2**32 - 1):
            with self.assertRaises(peritext.Stale):
                text.text(at_rev)
        self.assertEqual(self.session.document(2).text(0), "")

    def test_versions_are_of_at_most_so_many_operations(self):
        text = self.session.document(1)
        self.assertEqual(text.versions(7), [])
        text.insert(0, "The fox")
        for every, ops in ((1, [1] * 7), (3, [3, 3, 1]), (7, [7]), (2**32 - 1, [7])):
            with self.subTest(every=every):
                self.assertEqual(text.versions(every=every), [Version(sum(ops[: number + 1]), REPLICA, count) for number, count in enumerate(ops)])

    def test_a_refusal_says_which_field_is_wrong(self):
        text = self.session.document(1)
        for at_rev in (-1, 2**32, "3", 1.5):
            self.assertIn(f"4 field: `at_rev` has to be {NUMBER.format(0)}{MEND}", self.refused(text.text, at_rev))
        for every in (0, 2**32, None):
            self.assertIn(f"4 field: `every` has to be {NUMBER.format(1)}{MEND}", self.refused(text.versions, every))

    def refused(self, call, *words):
        with self.assertRaises(peritext.Refused) as caught:
            call(*words)
        return str(caught.exception)


class InMemory(Past, unittest.TestCase):
    def setUp(self):
        self.daemon = StandIn()
        self.addCleanup(self.daemon.close)
        self.session = peritext.connect(self.daemon.port)
        self.addCleanup(self.session.close)

    def test_an_event_loop_is_told_the_same(self):
        async def work():
            async with aio.connect(self.daemon.port) as session:
                text = session.document(1)
                await text.insert(0, "The fox")
                return await text.text(at_rev=3), await text.versions(every=4)

        found = asyncio.run(asyncio.wait_for(work(), PATIENCE))
        self.assertEqual(found, ("The", [Version(4, REPLICA, 4), Version(7, REPLICA, 3)]))
        for name in ("text", "spans", "versions"):
            waits, awaits = (inspect.signature(getattr(module.Document, name)) for module in (peritext, aio))
            self.assertEqual(str(waits), str(awaits))


class InProgram(Past, WithFile):
    def setUp(self):
        super().setUp()
        self.name += "-past"
        peritext.init(self.name, UUID(REPLICA), program=PROGRAM)
        self.session = self.open()
        self.addCleanup(self.session.close)

    def test_spans_are_told_as_they_were(self):
        text = self.session.document(1)
        rev = text.insert(0, "The fox")
        text.mark(4, 7, STRONG)
        text.delete(0, 4)
        self.assertEqual(text.spans(at_rev=rev), [Span("The fox")])
        self.assertEqual(text.spans(rev + 1), [Span("The "), Span("fox", strong=True)])
        self.assertEqual(text.spans(rev + 5), text.spans())
        self.assertEqual(self.refusal(text.spans, rev + 6), (6, "stale"))


class NoAnswers(unittest.TestCase):
    def told(self, call, line):
        """What a call of a document gives to which this is answered."""

        def talk(connection, lines):
            lines.readline()
            connection.sendall(json.dumps(line).encode() + b"\n")

        daemon = FakeDaemon(talk)
        self.addCleanup(daemon.close)
        with peritext.connect(daemon.port, retry=None) as session:
            return call(session.document(1))

    def test_what_is_of_another_moment_is_none(self):
        calls = {"text": (lambda document: document.text(3), {"text": "abc"}), "spans": (lambda document: document.spans(3), {"spans": []})}
        for call, fields in calls.values():
            self.told(call, {**fields, "ok": True, "rev": 3})
            for rev in (4, 0, None, True):
                with self.subTest(rev=rev), self.assertRaises(peritext.Ended) as caught:
                    self.told(call, {**fields, "ok": True, "rev": rev})
                self.assertIn("an answer came without a right `rev`", str(caught.exception))

    def test_a_version_has_its_fields_and_they_add_up(self):
        first, second = {"ops": 3, "replica": REPLICA, "rev": 3}, {"ops": 2, "replica": "other", "rev": 5}
        right = self.told(lambda document: document.versions(3), {"ok": True, "rev": 5, "versions": [first, second]})
        self.assertEqual(right, [Version(3, REPLICA, 3), Version(5, "other", 2)])
        wrong = [None, first, [second], [second, first], [first, {**second, "rev": 6}], [{"ops": 4, "replica": REPLICA, "rev": 4}]]
        wrong += [[{**first, name: value}] for name, value in (("ops", 0), ("ops", "3"), ("rev", None), ("replica", 7), ("replica", None))]
        for versions in wrong:
            with self.subTest(versions=versions), self.assertRaises(peritext.Ended) as caught:
                self.told(lambda document: document.versions(3), {"ok": True, "rev": 5, "versions": versions})
            self.assertIn("an answer came without a right `versions`", str(caught.exception))

    def test_an_earlier_program_is_named(self):
        for call, code, name in ((lambda document: document.versions(3), (3, "request"), "versions"), (lambda document: document.spans(3), (4, "field"), "at_rev")):
            with self.assertRaises(peritext.Refused) as caught:
                self.told(call, {"code": code[0], "error": code[1], "ok": False})
            self.assertEqual(str(caught.exception), f"{code[0]} {code[1]}: an older program knows no `{name}`; start one that is as new as this client")
