"""Places that last."""

import itertools
import json
import unittest
from uuid import UUID

import peritext
from fake import FakeDaemon
from peritext import rules
from support import WithDaemon, WithFile

UNKNOWN = "00000000-0000-4000-8000-0000000000ff"
# What is no place that lasts.
BROKEN = (
    "", "START", "first", "a", "a1", "a@" + UNKNOWN, "1@" + UNKNOWN, "a0@" + UNKNOWN, "a01@" + UNKNOWN, "A1@" + UNKNOWN, "c1@" + UNKNOWN,
    "a+1@" + UNKNOWN, f"a{2**48}@{UNKNOWN}", "a1@" + str(UUID(int=0)), "a1@" + UNKNOWN.replace("-", ""), "a1@{" + UNKNOWN + "}", " a1@" + UNKNOWN,
    f"a1@{UNKNOWN}\n", 7, None,
)


class Places(WithFile):
    def test_each_is_where_it_was_named(self):
        with self.open() as opened:
            text = opened.document(1)
            text.insert(0, "abc")
            for side in ("previous", "next"):
                self.assertEqual(text.places(text.anchors(range(4), side)), [0, 1, 2, 3])
            self.assertEqual((text.anchor(0), text.anchor(3, "next")), ("start", "end"))
            self.assertEqual(text.place(text.anchor(2)), 2)

    def test_they_stay_with_their_neighbour(self):
        with self.open() as opened:
            text = opened.document(1)
            text.insert(0, "abc")
            previous, following = text.anchors([0, 1, 3]), text.anchors([0, 1, 3], "next")
            for at in (3, 1, 0):
                text.insert(at, "x")
            self.assertEqual(text.text(), "xaxbcx")
            self.assertEqual((text.places(previous), text.places(following)), ([0, 2, 5], [1, 3, 6]))

    def test_beside_a_removed_character_it_stays_where_that_was(self):
        with self.open() as opened:
            text = opened.document(1)
            text.insert(0, "abc")
            beside = [text.anchor(2), text.anchor(1, "next")]
            text.delete(1, 1)
            self.assertEqual(text.places(beside), [1, 1])
            text.insert(1, "x")
            self.assertEqual(text.text(), "axc")
            text.delete(0, 3)
            self.assertEqual(text.places(beside), [0, 0])

    def test_beside_an_unknown_character_it_is_none(self):
        with self.open() as opened:
            text, other = opened.document(1), opened.document(2)
            text.insert(0, "abc")
            self.assertIsNone(text.place(f"a1@{UNKNOWN}"))
            self.assertEqual(text.places([f"b{2**48 - 1}@{UNKNOWN.upper()}", "end"]), [None, 3])
            # A character of another document is none of this one.
            self.assertIsNone(other.place(text.anchor(1)))

    def test_they_outlive_the_session(self):
        with self.open() as opened:
            opened.document(1).insert(0, "abc")
            caret = opened.document(1).anchor(2)
            opened.document(1).insert(0, "x")
        with self.open() as opened:
            self.assertEqual(opened.document(1).place(caret), 3)

    def test_any_number_of_them(self):
        with self.open() as opened:
            text = opened.document(1)
            text.insert(0, "x" * 600)
            for count in (0, 1, 255, 256, 257, 513, 601):
                anchors = text.anchors(range(count))
                self.assertEqual((len(set(anchors)), text.places(anchors)), (count, list(range(count))))

    def test_of_a_text_that_was_read(self):
        with self.open() as opened:
            text = opened.document(1)
            rev = text.insert(0, "abc")
            caret = text.anchor(2, rev=rev)
            self.assertEqual(text.place(caret, rev), 2)
            text.insert(0, "x")
            for call in (lambda: text.anchor(2, rev=rev), lambda: text.place(caret, rev)):
                self.assertEqual(self.refusal(call), (6, "stale"))


class Refusals(WithFile):
    def test_a_refusal_says_what_it_is_about(self):
        numbers, mend = "`at` has to be a list of 1 to 256 whole numbers from 0 to 4294967295", "; mend what wrote it"
        names = "`anchors` has to be a list of 1 to 256 places that last, each a text as the request `anchors` gives it"
        with self.open() as opened:
            text = opened.document(1)
            text.insert(0, "abc")
            self.assertEqual(self.refusal(text.anchors, [0, 4]), (5, "range"))
            for at in ([-1], [1.5], [True], ["1"], [None], [2**32]):
                self.assertEqual(self.words(text.anchors, at), f"4 field: {numbers}{mend}")
            for side in ("left", "", None):
                self.assertEqual(self.words(text.anchor, 0, side), f"4 field: `side` has to be previous or next{mend}")
            for anchor in BROKEN:
                with self.subTest(anchor=anchor):
                    self.assertEqual(self.words(text.places, ["start", anchor]), f"4 field: {names}{mend}")
            for fields, about in (
                ({"op": "anchors", "at": [], "side": "next"}, numbers),
                ({"op": "anchors", "at": [0] * 257, "side": "next"}, numbers),
                ({"op": "anchors", "at": 0, "side": "next"}, numbers),
                ({"op": "anchors", "at": [0]}, "`side` has to be previous or next"),
                ({"op": "anchors", "at": [0], "side": "next", "rev": 3}, "`rev` is no field of this request"),
                ({"op": "places", "anchors": []}, names),
                ({"op": "places", "anchors": ["end"] * 257}, names),
                ({"op": "places", "anchors": "end"}, names),
                ({"op": "places"}, names),
            ):
                self.assertEqual(self.words(opened.ask, doc=1, **fields), f"4 field: {about}{mend}")

    def words(self, call, *words, **fields):
        with self.assertRaises(peritext.Refused) as caught:
            call(*words, **fields)
        return str(caught.exception)

    def test_what_is_a_place_breaks_no_rule(self):
        for anchor in ("start", "end", f"a1@{UNKNOWN}", f"b{2**48 - 1}@{UNKNOWN.upper()}"):
            self.assertEqual(rules.broken({"op": "places", "doc": 1, "anchors": [anchor] * 256}), [])


class Served(WithDaemon):
    def test_another_session_knows_them_too(self):
        one, other = self.connect().document(1), self.connect().document(1)
        one.insert(0, "abc")
        anchors = one.anchors(range(4))
        self.assertEqual(other.anchors(range(4)), anchors)
        other.insert(1, "🦊🦊")
        self.assertEqual((one.places(anchors), other.places(anchors)), ([0, 1, 4, 5],) * 2)

    def test_a_rev_that_this_session_wasn_t_told_is_stale(self):
        rev = self.connect().document(1).insert(0, "abc")
        text = self.connect().document(1)
        for call in (text.anchor, lambda at, rev: text.place("start", rev)):
            self.assertEqual(self.refusal(call, 0, rev=rev), (6, "stale"))
        self.assertEqual(text.anchor(0, rev=text.rev()), "start")


class Moments(unittest.TestCase):
    """A document that others edit while places are asked for by several requests."""

    def over(self, revs, **how):
        """A document whose answers have these revs, and the requests for it. In place of None the connection ends."""
        asked, revs = [], iter(revs)

        def talk(connection, lines):
            for line, rev in zip(lines, revs):
                if rev is None:
                    return
                asked.append(json.loads(line))
                answer = {"ok": True, "rev": rev, "places": [rev] * len(asked[-1]["anchors"])}
                connection.sendall(json.dumps(answer).encode() + b"\n")

        daemon = FakeDaemon(talk)
        self.addCleanup(daemon.close)
        session = peritext.connect(daemon.port, **how)
        self.addCleanup(session.close)
        return session.document(1), asked

    def test_all_of_them_are_of_one(self):
        text, asked = self.over([5, 6, 6, 7, 7, 7])
        self.assertEqual(text.places(["end"] * 300), [7] * 300)
        self.assertEqual([len(request["anchors"]) for request in asked], [256, 44] * 3)

    def test_or_it_is_stale(self):
        text, asked = self.over(itertools.count())
        with self.assertRaises(peritext.Stale):
            text.places(["end"] * 300)
        self.assertEqual(len(asked), 16)

    def test_with_a_rev_they_are_asked_for_once(self):
        text, asked = self.over([5, 5, 6])
        text.place("end")
        with self.assertRaises(peritext.Stale):
            text.places(["end"] * 300, rev=5)
        self.assertEqual(len(asked), 3)

    def test_the_same_number_over_another_connection_is_another_one(self):
        text, asked = self.over([5, None, 5, 6, 6])
        self.assertEqual(text.places(["end"] * 300), [6] * 300)
        self.assertEqual([len(request["anchors"]) for request in asked], [256, 44, 256, 44])
        text, asked = self.over([5, None, 5, 5, 5])
        text.place("end")
        with self.assertRaises(peritext.Stale):
            text.place("end", 5)
        self.assertEqual((text.place("end"), text.place("end", 5), len(asked)), (5, 5, 4))
