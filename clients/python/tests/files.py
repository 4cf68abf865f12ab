"""Sessions of a program of their own, over a file."""

import doctest
import os
import signal
import threading
from uuid import UUID

import peritext
from peritext import document, session
from support import PROGRAM, WithFile


class Edits(WithFile):
    def test_marks_are_read_as_spans(self):
        comment = UUID(int=7)
        with self.open() as opened:
            text = opened.document(1)
            self.assertEqual(text.insert(0, "abcdef"), 6)
            text.mark(0, 3, peritext.STRONG)
            text.mark(2, 4, peritext.EM)
            text.mark(2, 4, peritext.Comment(comment))
            text.mark(4, 6, peritext.Link("u"))
            text.unmark(0, 1, peritext.STRONG)
            text.unmark(5, 6, peritext.Link())
            self.assertEqual(
                text.spans(),
                [
                    peritext.Span("a"),
                    peritext.Span("b", strong=True),
                    peritext.Span("c", strong=True, em=True, comments=(comment,)),
                    peritext.Span("d", em=True, comments=(comment,)),
                    peritext.Span("e", link="u"),
                    peritext.Span("f"),
                ],
            )
            self.assertTrue(opened.settled())

    def test_characters_are_code_points(self):
        with self.open() as opened:
            text = opened.document(4_294_967_295)
            text.insert(0, "ä😀\n\"\\ü")
            text.delete(1, 1)
            self.assertEqual(text.text(), "ä\n\"\\ü")

    def test_a_long_text_goes_in_at_once(self):
        with self.open() as opened:
            text = opened.document(1)
            text.insert(0, "()")
            self.assertEqual(text.insert(1, "ä" * 256), 258)
            long = "".join(chr(0x100 + k % 700) for k in range(1_000))
            self.assertEqual(text.insert(1, long, text.rev()), 1_258)
            self.assertEqual(text.text(), "(" + long + "ä" * 256 + ")")
            with self.assertRaises(peritext.Stale):
                text.insert(1, long, 1_257)
            self.assertEqual(text.rev(), 1_258)

    def test_a_long_stretch_is_taken_away_by_several_edits(self):
        with self.open() as opened:
            text = opened.document(1)
            rev = text.insert(0, "(" + "ä" * 1_000 + ")")
            self.assertEqual(text.delete(1, 1_000, rev), 2_002)
            self.assertEqual(text.text(), "()")
            self.assertEqual(text.insert(1, "x" * 600), 2_602)
            self.assertEqual(text.delete(1, 600), 3_202)
            self.assertEqual(text.read(), ("()", 3_202))

    def test_what_can_t_be_made_whole_is_refused_whole(self):
        with self.open() as opened:
            text = opened.document(1)
            rev = text.insert(0, "x" * 590)
            self.assertEqual(self.refusal(text.delete, 0, 600), (5, "range"))
            self.assertEqual(self.refusal(text.delete, -10, 600), (4, "field"))
            self.assertEqual(self.refusal(text.insert, 591, "x" * 600), (5, "range"))
            self.assertEqual(self.refusal(text.insert, -1, "x" * 600), (4, "field"))
            with self.assertRaises(UnicodeEncodeError):
                text.insert(0, "x" * 300 + "\ud800")
            self.assertEqual(text.read(), ("x" * 590, rev))

    def test_an_empty_text_is_no_request(self):
        with self.open() as opened:
            with self.assertRaises(ValueError):
                opened.document(1).insert(0, "")
            self.assertEqual(opened.document(1).read(), ("", 0))

    def test_what_was_answered_is_there_after_a_kill(self):
        opened = self.open()
        for place in range(20):
            opened.document(1).insert(place, "x")
        os.kill(opened._program.pid, signal.SIGKILL)
        with self.assertRaises(peritext.Ended):
            opened.document(1).insert(0, "y")
        with self.assertRaises(peritext.Ended):
            opened.close()
        with self.open() as again:
            self.assertEqual(again.document(1).text(), "x" * 20)


class Refusals(WithFile):
    def test_refusals_have_number_and_word(self):
        with self.open() as opened:
            text = opened.document(1)
            rev = text.insert(0, "ab")
            self.assertEqual(self.refusal(text.insert, 3, "x"), (5, "range"))
            self.assertEqual(self.refusal(lambda: text.send_insert(0, "x" * 257).result()), (7, "limit"))
            self.assertEqual(self.refusal(lambda: text.send_insert(0, "").result()), (4, "field"))
            self.assertEqual(self.refusal(opened.ask, op="sing"), (3, "request"))
            text.insert(0, "c", rev)
            with self.assertRaises(peritext.Stale):
                text.insert(0, "d", rev)

    def test_a_refusal_says_what_it_is_about(self):
        whole = "has to be a whole number from"
        with self.open() as opened:
            for fields, about in (
                ({"doc": 0, "at": 0, "text": "a"}, f"`doc` {whole} 1 to 4294967295; mend"),
                ({"doc": 1, "at": -1, "text": ""}, f"`at` {whole} 0 to 4294967295, or a place that lasts, `text` has to be a text of at least one character; mend"),
                ({"doc": 1, "at": 0}, "`text` has to be"),
                ({"doc": 1, "at": 0, "text": "a", "rev": "1"}, f"`rev` {whole} 0"),
                ({"doc": 1, "at": 0, "text": "a", "token": str(UUID(int=0))}, "`token` has to be a UUID other than the nil one"),
                ({"doc": 1, "at": 0, "text": "a", "kind": "em"}, "`kind` is no field of this request"),
            ):
                self.assertIn(f"4 field: {about}", self.words(opened, op="insert", **fields))
            self.assertIn("`url` has to be a text of 1 to 1024 bytes; mend", self.words(opened, op="mark", doc=1, to=1, kind="link", url="", **{"from": 0}))
            self.assertIn("at most 256 characters in one edit; send it in parts", self.words(opened, op="insert", doc=1, at=0, text="x" * 257))
            for number in range(1, 1_025):
                opened.document(number).send_insert(0, "x")
            self.assertIn("7 limit: the file has all the operations, records, documents", self.words(opened, op="insert", doc=1_025, at=0, text="x"))
        older = str(peritext.Refused(4, "field", {"op": "delete", "doc": 1, "at": 0, "count": 1, "token": str(UUID(int=7))}))
        self.assertIn("an older program knows no `token`", older)

    def words(self, session, **fields):
        with self.assertRaises(peritext.Refused) as caught:
            session.ask(**fields)
        return str(caught.exception)

    def test_a_file_is_held_by_one_session(self):
        with self.open():
            self.assertEqual(self.refusal(self.open), (54, "open failed"))

    def test_no_store_is_no_session(self):
        with open(self.name, "wb") as file:
            file.write(bytes(8_192))
        self.assertEqual(self.refusal(self.open), (42, "no root"))
        self.assertEqual(self.refusal(peritext.init, self.name, program=PROGRAM), (48, "not empty"))


class ManyAtOnce(WithFile):
    def test_requests_under_way_are_made_in_order(self):
        with self.open() as opened:
            text = opened.document(1)
            under_way = [text.send_insert(place, "abcdefghij"[place % 10]) for place in range(2_000)]
            self.assertEqual([edit.result()["rev"] for edit in under_way], list(range(1, 2_001)))
            self.assertEqual(text.text(), "abcdefghij" * 200)

    def test_threads_share_a_session(self):
        with self.open() as opened:

            def type_some(letter):
                for _ in range(50):
                    opened.document(1).insert(0, letter)

            threads = [threading.Thread(target=type_some, args=(letter,)) for letter in "abcdefgh"]
            for thread in threads:
                thread.start()
            for thread in threads:
                thread.join()
            self.assertEqual(sorted(opened.document(1).text()), sorted("abcdefgh" * 50))

    def test_a_closed_session_takes_nothing(self):
        opened = self.open()
        opened.close()
        with self.assertRaises(peritext.Ended):
            opened.document(1).text()

    def test_a_session_that_is_closed_again_tells_the_same(self):
        with self.open() as opened:
            opened.close()
        opened = self.open()
        os.kill(opened._program.pid, signal.SIGKILL)
        for _ in range(2):
            with self.assertRaises(peritext.Ended) as caught:
                opened.close()
            self.assertIn("status -9", str(caught.exception))


class Examples(WithFile):
    def test_the_examples_of_the_docs_are_so(self):
        with self.open() as opened:
            names = {"document": opened.document(9), "STRONG": peritext.STRONG}
            results = [doctest.testmod(module, extraglobs=names) for module in (document, session)]
        results.append(doctest.testmod(peritext, extraglobs={"a_file": self.name, "the_program": PROGRAM}))
        self.assertEqual([result.failed for result in results], [0, 0, 0])
        self.assertGreater(sum(result.attempted for result in results), 6)
