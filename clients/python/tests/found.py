"""What is asked of a text or a file without reading all of it: where a text stands, and a page of it."""

import asyncio
import inspect
import unittest

import peritext
from peritext import aio
from standing import StandIn
from support import WithFile

MEND = "; mend what wrote it"


class Asked:
    """The tests, over a session that a class below opens."""

    def test_all_places_of_a_text_are_found(self):
        text = self.session.document(1)
        rev = text.insert(0, "aaa 🦊 aaa")
        self.assertEqual(text.find("aa"), peritext.Found([0, 1, 6, 7], rev))
        self.assertEqual(text.find("🦊"), ([4], rev))
        self.assertEqual(text.find("aa", 1).places, [1, 6, 7])
        self.assertEqual(text.find("aa", 8).places, [])
        self.assertEqual(text.find("aa", 1_000).places, [])
        self.assertEqual(text.find("A"), ([], rev))
        self.assertEqual(text.find(" 🦊 "), ([3], rev))
        self.assertEqual(self.session.document(2).find("aa"), ([], 0))

    def test_an_edit_of_what_was_found_names_its_rev(self):
        text = self.session.document(1)
        text.insert(0, "red fox")
        places, rev = text.find("fox")
        text.insert(0, "x")
        with self.assertRaises(peritext.Stale):
            text.insert(places[0], "quick ", rev)

    def test_more_than_one_answer_tells_are_found_all(self):
        text = self.session.document(1)
        # The last count is that of two full answers.
        for count, more in ((1_023, 1_023), (1_024, 1), (1_025, 1), (2_048, 1_023)):
            text.insert(0, "a" * more)
            with self.subTest(count=count):
                self.assertEqual(text.find("a").places, list(range(count)))
                self.assertEqual(text.find("a", 7).places, list(range(7, count)))

    def test_a_text_of_no_character_or_too_many_is_refused(self):
        text = self.session.document(1)
        self.assertEqual(text.find("x" * 256).places, [])
        with self.assertRaises(ValueError):
            text.find("")
        self.assertIn(f": `text` has to be a text of 1 to 256 characters{MEND}", self.refusal(text.find, "x" * 257))

    def test_a_form_is_one_of_three(self):
        text = self.session.document(1)
        text.insert(0, "The fox")
        for form in ("text", "markdown", "html"):
            self.assertIn("The fox", text.export(form))
        self.assertIn("<", text.export("html"))
        self.assertNotIn("<", text.export("text"))
        self.assertEqual(self.refusal(text.export, "pdf"), f"4 field: `to` has to be text, markdown or html{MEND}")

    def test_a_page_has_paragraphs_or_breaks(self):
        text = self.session.document(1)
        text.insert(0, "a\nb")
        self.assertIn("a\n</p><p>b", text.export("html"))
        self.assertIn("a\nb", text.export("html", breaks=True))
        self.assertIn("a\n\nb", text.export("markdown"))
        self.assertIn("a\\\nb", text.export("markdown", True))
        self.assertEqual(text.export("text", True), text.export("text", False))
        self.assertEqual(self.refusal(text.export, "html", "yes"), f"4 field: `breaks` has to be true or false{MEND}")

    def refusal(self, call, *words):
        with self.assertRaises(peritext.Refused) as caught:
            call(*words)
        return str(caught.exception)


class InMemory(Asked, unittest.TestCase):

    def setUp(self):
        self.daemon = StandIn()
        self.addCleanup(self.daemon.close)
        self.session = peritext.connect(self.daemon.port)
        self.addCleanup(self.session.close)

    def test_what_is_edited_meanwhile_is_looked_for_anew(self):
        text = self.session.document(1)
        text.insert(0, "a" * 3_000)
        edits = iter([2, 5])
        asked = []

        def edit(request):
            asked.append(request)
            if request["op"] == "find" and len(asked) in edits_at:
                self.daemon.insert(1, 0, "a")

        edits_at = set(edits)
        self.daemon.before = edit
        self.assertEqual(text.find("a"), (list(range(3_002)), 3_002))
        self.assertEqual([request["from"] for request in asked][:3], [0, 1_024, 0])

    def test_what_is_edited_each_time_is_stale(self):
        text = self.session.document(1)
        text.insert(0, "a" * 1_024)
        asked = []

        def edit(request):
            asked.append(request)
            self.daemon.insert(1, 0, "a")

        self.daemon.before = edit
        with self.assertRaises(peritext.Stale):
            text.find("a")
        self.assertEqual(len(asked), 16)

    def test_an_answer_whose_places_don_t_rise_is_none(self):
        self.session.document(1).insert(0, "aaaa")
        for places in ([2, 1], [1, 1], [0], [1, None], [-1], "1", None):
            with self.subTest(places=places), peritext.connect(self.daemon.port, retry=None) as session:
                told = self.daemon._told
                self.daemon._told = lambda request: {"rev": 4, "places": places} if request["op"] == "find" else told(request)
                with self.assertRaises(peritext.Ended) as caught:
                    session.document(1).find("a", 1)
                self.assertIn("an answer came without a right `places`", str(caught.exception))
                self.daemon._told = told

    def test_an_event_loop_is_told_the_same(self):
        async def work():
            async with aio.connect(self.daemon.port) as session:
                text = session.document(1)
                rev = await text.insert(0, "a" * 1_500)
                self.assertEqual(await text.find("aa", 3), (list(range(3, 1_499)), rev))
                self.assertEqual(await text.export("text"), "a" * 1_500)

        asyncio.run(work())
        for waits, awaits in ((peritext.Document, aio.Document), (peritext.Session, aio.Session)):
            for name in ("find", "export", "watch_many"):
                if hasattr(waits, name):
                    self.assertEqual(str(inspect.signature(getattr(waits, name)).parameters), str(inspect.signature(getattr(awaits, name)).parameters))


class InProgram(Asked, WithFile):
    def setUp(self):
        super().setUp()
        self.session = self.open()
        self.addCleanup(self.session.close)
        for fields in ({"op": "find", "doc": 1, "text": "a"}, {"op": "export", "doc": 1, "to": "text"}):
            try:
                self.session.ask(**fields)
            except peritext.Refused as refused:
                if refused.number != 3:
                    raise
                self.assertIn(f"an older program knows no `{fields['op']}`", str(refused))
                self.skipTest(f"the program knows no `{fields['op']}`")
