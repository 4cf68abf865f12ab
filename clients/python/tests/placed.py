"""Edits at places that last."""

import asyncio
import itertools
import json
import threading
from uuid import UUID

import peritext
from fake import FakeDaemon
from peritext import again, aio
from support import PROGRAM, WithDaemon, WithFile

TOKEN = UUID("00000000-0000-4000-8000-0000000000d1")
UNKNOWN = "a1@00000000-0000-4000-8000-0000000000ff"
LONG = "".join(chr(97 + k % 26) for k in range(700))
# What takes more than one line: each of its characters is six bytes there.
LONGER = "\0" * 11_000 + "!"


class Placed(WithFile):
    def test_each_edit_is_made_beside_its_character(self):
        with self.open() as opened:
            text = opened.document(1)
            text.insert(0, "The fox")
            after, before = text.anchor(3), text.anchor(4, "next")
            text.insert(0, "> ")
            text.insert(after, " red")
            text.insert(before, "quick ")
            self.assertEqual(text.text(), "> The red quick fox")
            text.mark(after, before, peritext.EM)
            text.unmark(before, "end", peritext.EM)
            text.delete("start", 2)
            self.assertEqual(text.spans(), [peritext.Span("The"), peritext.Span(" red quick ", em=True), peritext.Span("fox")])
            text.insert("end", "!")
            text.delete(before, 3)
            self.assertEqual(text.insert(before, "cat", text.rev()), text.rev())
            self.assertEqual(text.text(), "The red quick cat!")

    def test_so_it_is_in_an_action(self):
        with self.open() as opened:
            text = opened.document(1)
            text.insert(0, "one two")
            after, before = text.anchor(3), text.anchor(4, "next")
            with text.action(token=TOKEN) as made:
                made.insert(0, ">> ")
                made.delete(before, 3)
                made.insert(before, "T")
                made.insert(before, "WO")
                made.insert(after, "2")
                made.insert(after, "1")
                made.mark(after, "end", peritext.STRONG)
            self.assertEqual(text.spans(), [peritext.Span(">> one"), peritext.Span("12 TWO", strong=True)])
            self.assertEqual((text.edits([{"op": "insert", "at": "end", "text": "!"}], made.rev, TOKEN), text.rev()), (made.rev, made.rev))

    def test_a_long_text_is_put_in_as_a_whole_wherever_it_is(self):
        for numbers in ((0, "previous"), (3, "previous"), (3, "next"), (7, "next"), (7, "previous"), (0, "next")):
            for size in (256, 257, 512, 700):
                with self.subTest(numbers=numbers, size=size), self.open() as opened:
                    text = opened.document(size)
                    rev = text.insert(0, "one two")
                    self.assertEqual(text.insert(text.anchor(*numbers), LONG[:size]), rev + size)
                    self.assertEqual(text.text(), "one two"[: numbers[0]] + LONG[:size] + "one two"[numbers[0] :])
                    text.delete("start", size + 7)

    def test_so_is_one_that_takes_several_lines(self):
        with self.open() as opened:
            for number, side in enumerate(("previous", "next"), 1):
                text = opened.document(number)
                text.insert(0, "abc")
                place = text.anchor(2, side)
                text.insert(place, LONGER)
                self.assertEqual(text.text(), f"ab{LONGER}c")
                if side == "previous":
                    text.delete(place, 11_000)
                    self.assertEqual(text.text(), "ab!c")

    def test_beside_a_removed_character_too(self):
        with self.open() as opened:
            text = opened.document(1)
            text.insert(0, "abc")
            beside = text.anchor(2), text.anchor(1, "next")
            text.delete(1, 1)
            for place in beside:
                before = text.text()
                at = text.place(place)
                text.insert(place, LONG)
                self.assertEqual(text.text(), before[:at] + LONG + before[at:])

    def test_long_edits_among_others_of_an_action(self):
        with self.open() as opened:
            for number, long in enumerate((LONG, LONGER), 1):
                text = opened.document(number)
                text.insert(0, "abcdef")
                after, before = text.anchor(3), text.anchor(4, "next")
                with text.action(parted=True) as made:
                    made.insert("start", LONG)
                    made.insert(after, long + ".")
                    made.insert(before, "?")
                    made.insert(before, long.upper())
                    made.insert(after, "[")
                    made.mark(after, before, peritext.EM)
                    made.delete("start", 700)
                    made.delete(before, 1)
                    made.insert("end", LONG)
                marked = f"[{long}.d?{long.upper()}"
                self.assertEqual(text.spans(), [peritext.Span("abc"), peritext.Span(marked, em=True), peritext.Span("f" + LONG)])

    def test_what_is_refused(self):
        with self.open() as opened:
            text = opened.document(1)
            rev = text.insert(0, "abc")
            for place, long in itertools.product((UNKNOWN, "b" + UNKNOWN[1:]), ("x", LONG, LONGER)):
                self.assertEqual(self.refusal(text.insert, place, long), (5, "range"))
            self.assertEqual(self.refusal(text.delete, UNKNOWN, 1), (5, "range"))
            for count in (4, 400, 4_000):
                self.assertEqual(self.refusal(text.delete, "start", count), (5, "range"))
            for start, end in (("start", "start"), ("end", "start"), ("start", UNKNOWN), (1, text.anchor(1))):
                self.assertEqual(self.refusal(text.mark, start, end, peritext.EM), (5, "range"))
            for long in ("y", LONG):
                with self.assertRaises(peritext.Refused) as caught, text.action() as made:
                    made.insert("end", "x")
                    made.insert(UNKNOWN, long)
                self.assertEqual((caught.exception.number, caught.exception.at), (5, 1))
            for call in (lambda: text.insert("end", "x", rev - 1), lambda: text.insert(text.anchor(1), LONG, rev - 1), lambda: text.delete("end", 900, rev - 1)):
                self.assertEqual(self.refusal(call), (6, "stale"))
            words = "`at` has to be a whole number from 0 to 4294967295, or a place that lasts; mend what wrote it"
            for place in ("a7", "START", "", None):
                for long in ("x", LONG):
                    with self.assertRaises(peritext.Refused) as caught:
                        text.insert(place, long)
                    self.assertEqual(str(caught.exception), f"4 field: {words}")
            self.assertEqual(self.refusal(text.mark, 0, "a7", peritext.EM), (4, "field"))
            self.assertEqual(self.refusal(text.edits, [{"op": "insert", "at": text.anchor(1), "text": LONG}, {"op": "delete", "at": 0}]), (4, "field"))
            self.assertEqual(text.read(), ("abc", rev))

    def test_what_an_older_program_says_to_it(self):
        self.assertIn("takes no places that last in edits", str(peritext.Refused(4, "field", {"op": "insert", "doc": 1, "at": "end", "text": "x", "token": str(TOKEN)})))
        listed = {"op": "edits", "doc": 1, "edits": [{"op": "delete", "at": 0, "count": 1}, {"op": "mark", "from": 0, "to": "end", "kind": "em"}]}
        self.assertIn("takes no places that last in edits", str(peritext.Refused(4, "field", listed)))

    def test_a_token_acts_once(self):
        for number, long in enumerate(("x", LONG, LONGER), 1):
            for _ in range(2):
                with self.open() as opened:
                    text = opened.document(number)
                    if not text.rev():
                        text.insert(0, "abc")
                    place = "a" + text.anchor(1)[1:]
                    token = UUID(int=TOKEN.int + number)
                    self.assertEqual(text.insert(place, long, token=token), 3 + len(long))
                    self.assertEqual(text.insert(place, long, 3, token), 3 + len(long))
                    self.assertEqual(text.read(), ("a" + long + "bc", 3 + len(long)))

    def test_with_asyncio(self):
        async def main():
            async with aio.open(self.name, program=PROGRAM) as opened:
                text = opened.document(1)
                await text.insert("end", "abc")
                place = await text.anchor(1)
                await text.insert(place, LONG)
                await text.delete(place, 699)
                async with text.action() as made:
                    made.insert(place, "x")
                    made.mark("start", place, peritext.EM)
                return await text.spans()

        self.assertEqual(asyncio.run(main()), [peritext.Span("a", em=True), peritext.Span("x" + LONG[-1] + "bc")])


class Beside(WithDaemon):
    def test_nobody_who_types_meanwhile_makes_it_stale(self):
        one, other = self.connect().document(1), self.connect().document(1)
        one.insert(0, "[]" * 20)
        places = one.anchors(range(1, 40, 2))
        is_over = threading.Event()

        def type_on():
            while not is_over.is_set():
                other.insert(0, "-")

        thread = threading.Thread(target=type_on)
        thread.start()
        try:
            for number, place in enumerate(places):
                one.insert(place, f"{number}")
                with one.action() as made:
                    made.insert(place, "(")
                    made.mark("start", place, peritext.EM)
        finally:
            is_over.set()
            thread.join()
        self.assertEqual(one.text().lstrip("-"), "".join(f"[({number}]" for number in range(20)))


class Lost(WithDaemon):
    def test_a_long_text_whose_answer_or_whose_line_is_lost_is_made_once(self):
        for number, is_made in enumerate((True, False), 1):
            losing = [True]

            def talk(connection, lines, is_made=is_made, losing=losing):
                with peritext.connect(self.daemon.port, retry=None) as behind:
                    for line in lines:
                        request = json.loads(line)
                        is_lost = request["op"] == "edits" and losing and losing.pop()
                        try:
                            answer = behind.ask(**request) if is_made or not is_lost else {}
                        except peritext.Refused as refused:
                            answer = {"ok": False, "code": refused.number, "error": refused.word}
                        if is_lost:
                            return
                        connection.sendall(json.dumps(answer).encode() + b"\n")

            daemon = FakeDaemon(talk)
            self.addCleanup(daemon.close)
            with self.subTest(is_made=is_made), peritext.connect(daemon.port) as session:
                text = session.document(number)
                text.insert(0, "abc")
                self.assertEqual(text.insert(text.anchor(1), LONG), 703)
                self.assertEqual((text.read(), losing), ((f"a{LONG}bc", 703), []))


    def test_a_line_that_is_read_late_isn_t_stale_if_nobody_else_edits(self):
        """It lies in a connection that ended, and is read right after it was asked for over the next one."""
        late = []

        def talk(connection, lines):
            with peritext.connect(self.daemon.port, retry=None) as behind:
                for line in lines:
                    request = json.loads(line)
                    if request["op"] == "edits" and not late:
                        late.append(request)
                        return
                    try:
                        answer = behind.ask(**request)
                    except peritext.Refused as refused:
                        answer = {"ok": False, "code": refused.number, "error": refused.word}
                    connection.sendall(json.dumps(answer).encode() + b"\n")
                    if request["op"] == "edits" and len(late) == 1:
                        late.append(behind.ask(**late[0]))

        daemon = FakeDaemon(talk)
        self.addCleanup(daemon.close)
        with peritext.connect(daemon.port) as session:
            text = session.document(1)
            text.insert(0, "abc")
            self.assertEqual(text.insert(text.anchor(1), LONGER), 3 + len(LONGER))
            self.assertEqual((text.read(), len(late)), ((f"a{LONGER}bc", 3 + len(LONGER)), 2))


def size_of(request):
    """How many operations the edits of a line are."""
    return sum(len(edit["text"]) if "text" in edit else edit.get("count", 1) for edit in request["edits"])


def made(request, more=0):
    """What a line is answered that is made at the `rev` that it names, or so much later."""
    return {"ok": True, "rev": request["rev"] + size_of(request) + more}


class Asked(WithFile):
    """What is asked of a document that others edit meanwhile."""

    def over(self, answers):
        """A document of a daemon that answers so, and what it was asked. In place of None the connection ends."""
        asked, answers = [], iter(answers)

        def talk(connection, lines):
            for line, answer in zip(lines, answers):
                asked.append(json.loads(line))
                if answer is None:
                    return
                connection.sendall(json.dumps(answer(asked[-1]) if callable(answer) else answer).encode() + b"\n")

        daemon = FakeDaemon(talk)
        self.addCleanup(daemon.close)
        session = peritext.connect(daemon.port)
        self.addCleanup(session.close)
        return session.document(1), asked

    STALE = {"ok": False, "code": 6, "error": "stale"}

    def standing(self, number, rev):
        return {"ok": True, "places": [number], "rev": rev}

    def test_what_fits_one_line_goes_as_it_is(self):
        text, asked = self.over([{"ok": True, "rev": 9}] * 3)
        text.insert("end", LONG)
        text.insert("start", LONG)
        text.delete(UNKNOWN, 600)
        self.assertEqual([[edit["at"] for edit in request["edits"]] for request in asked], [["end"] * 3, [0, 256, 512], [UNKNOWN] * 3])
        self.assertEqual([request.get("rev") for request in asked], [None] * 3)

    def test_a_long_text_after_a_character_is_made_where_that_was_asked_for(self):
        text, asked = self.over([self.standing(7, 20), self.STALE, self.standing(9, 21), {"ok": True, "rev": 721}])
        self.assertEqual(text.insert(UNKNOWN, LONG), 721)
        self.assertEqual([request["op"] for request in asked], ["places", "edits"] * 2)
        self.assertEqual([request["rev"] for request in asked[1::2]], [20, 21])
        self.assertEqual([[edit["at"] for edit in request["edits"]] for request in asked[1::2]], [[7, 263, 519], [9, 265, 521]])
        # A line whose answer was lost may be made after all.
        self.assertEqual(len({request["token"] for request in asked[1::2]}), 1)

    def test_it_is_stale_in_the_end(self):
        text, asked = self.over(itertools.cycle([self.standing(7, 20), self.STALE]))
        self.assertRaises(peritext.Stale, text.insert, UNKNOWN, LONG)
        self.assertEqual(len(asked), 16)

    def test_further_lines_are_made_by_numbers(self):
        text, asked = self.over([self.standing(7, 20), made, made])
        self.assertEqual(text.insert("end", LONG * 100, token=TOKEN), 70_020)
        self.assertEqual([edit["at"] for request in asked[1:] for edit in request["edits"]], list(range(7, 70_007, 256)))
        self.assertEqual([request["rev"] for request in asked[1:]], [20, 20 + size_of(asked[1])])
        # It is parted as it was where it is sent again, when the place has another number. What comes after a line that was made then is known, or stale.
        text, repeated = self.over([self.standing(1_000_007, 80_000), {"ok": True, "rev": 20 + size_of(asked[1])}, self.STALE])
        self.assertRaises(peritext.Stale, text.insert, "end", LONG * 100, token=TOKEN)
        self.assertEqual([request["token"] for request in repeated[1:]], [request["token"] for request in asked[1:]])
        self.assertEqual([request["rev"] for request in repeated[1:]], [80_000, again.NEVER])

    def test_a_line_that_another_call_made_in_a_later_text_isn_t_one_of_this(self):
        for more in (-20, -1, 1, 10):
            text, asked = self.over([self.standing(7, 20), lambda request, more=more: made(request, more), self.STALE])
            self.assertRaises(peritext.Stale, text.insert, "end", LONG * 100, token=TOKEN)
            self.assertEqual([request["rev"] for request in asked[1:]], [20, again.NEVER])

    def test_each_kind_of_edit_counts_as_it_is_made(self):
        edits = [{"op": "delete", "at": "start", "count": 300}, {"op": "unmark", "from": "start", "to": "end", "kind": "em"}]
        edits += [{"op": "mark", "from": "start", "to": "end", "kind": "em"}, {"op": "insert", "at": "end", "text": "🦊" * 20_000}]
        text, asked = self.over([{"ok": True, "places": [0, 7], "rev": 20}, made, made, made])
        self.assertEqual(text.edits(edits, parted=True), 20_322)
        self.assertEqual([request["rev"] for request in asked[1:3]], [20, 20 + size_of(asked[1])])

    def test_a_line_that_is_read_late_is_gone_on_from_where_it_was_made(self):
        text, asked = self.over([self.standing(7, 20), None, self.STALE, self.standing(9, 21), self.STALE, self.standing(50_000, 50_000), self.late, made])
        self.assertEqual(text.insert("end", LONG * 100), 70_020)
        made_of = [request for request in asked if request["op"] == "edits"]
        self.assertEqual([request["rev"] for request in made_of], [20, again.NEVER, 21, 50_000, 20 + size_of(made_of[0])])
        # Those of the round in which it was made, not of a later one.
        self.assertEqual([edit["at"] for request in (made_of[0], made_of[-1]) for edit in request["edits"]], list(range(7, 70_007, 256)))
        self.assertEqual(len({request["token"] for request in made_of}), 2)

    def late(self, request):
        return {"ok": True, "rev": 20 + size_of(request)}

    def test_without_a_token_of_the_caller_s_nobody_asks_for_what_was_made_before(self):
        text, asked = self.over([self.standing(7, 20), lambda request: made(request, 1)])
        self.assertRaises(peritext.Stale, text.insert, "end", LONG * 100)
        self.assertEqual([request["op"] for request in asked], ["places", "edits"])

    def reading_first(self, text, line):
        """Has another one read the text once more right before this line with edits is sent: over the next connection, if its first answer is None."""
        begin, left = text.session.begin, [line]

        def begun(request, *words):
            if request["op"] == "edits" and left:
                left[0] -= 1
                if not left[0]:
                    left.clear()
                    begin({"op": "text", "doc": 1}).result()
            return begin(request, *words)

        text.session.begin = begun

    def test_a_rev_of_one_connection_isn_t_sent_over_another_though_somebody_has_read_there(self):
        told = {"ok": True, "rev": 20, "text": ""}
        text, asked = self.over([self.standing(7, 20), None, told, self.standing(9, 20), made])
        self.reading_first(text, 1)
        self.assertEqual(text.insert(UNKNOWN, LONG), 720)
        self.assertEqual([request["op"] for request in asked], ["places", "text", "text", "places", "edits"])
        self.assertEqual([edit["at"] for edit in asked[-1]["edits"]], [9, 265, 521])

    def test_nor_is_that_of_a_line_before_it_has_been_read_there(self):
        def told(request):
            return {"ok": True, "rev": 20 + size_of(asked[1]), "text": ""}

        text, asked = self.over([self.standing(7, 20), made, None, told, told, told, made])
        self.reading_first(text, 2)
        self.assertEqual(text.insert("end", LONG * 100), 70_020)
        # Over the next connection it is asked for the first line, to know the file.
        self.assertEqual([request["op"] for request in asked], ["places", "edits", "text", "edits", "text", "text", "edits"])
        self.assertEqual([request["rev"] for request in asked if request["op"] == "edits"], [20, again.NEVER, 20 + size_of(asked[1])])

    def test_with_a_rev_it_is_made_in_just_that_text(self):
        text, asked = self.over([{"ok": True, "rev": 19}, self.standing(7, 20), self.STALE])
        rev = text.insert(0, "x")
        self.assertRaises(peritext.Stale, text.insert, UNKNOWN, LONG, rev)
        self.assertEqual(asked[2]["rev"], again.NEVER)

    def test_what_doesn_t_fit_a_line_is_refused_before_anything_is_asked(self):
        text, asked = self.over([])
        for place in ("end", UNKNOWN):
            self.assertRaises(ValueError, text.edits, [{"op": "insert", "at": place, "text": LONG * 100}])
        self.assertEqual(asked, [])
