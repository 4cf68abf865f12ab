"""Who follows a document while connections are cut, daemons are killed, and others are started in their place."""

import contextlib
import json
import os
import random
import threading
import time
import unittest
from unittest import mock
from uuid import UUID, uuid4

import peritext
from fake import FakeDaemon
from follows import GREETING, Following
from peritext import Delete, Delta, Insert, Reset, Span
from peritext.calls import Asked, Calls
from relay import Relay, end
from support import PATIENCE, PROGRAM, Daemon
from watches import soon

LETTERS = "ab é\n🦊😀"
MARKS = ({"kind": "strong"}, {"kind": "em"}, {"kind": "comment", "id": str(UUID(int=1))}, {"kind": "comment", "id": str(UUID(int=2))})


class Again(Following):
    def again(self, name=None):
        """The daemon is killed, and one of a file started on its port."""
        self.daemon.kill()
        self.daemon = Daemon(name or self.name, self.daemon.port)
        self.addCleanup(self.daemon.kill)

    def other(self, *edits):
        """Another file, whose document was edited so."""
        name = os.path.join(self.room.name, str(uuid4()))
        peritext.init(name, program=PROGRAM)
        with peritext.open(name, program=PROGRAM) as opened:
            for edit in edits:
                edit(opened.document(1))
        return name

    def test_it_goes_on_with_steps_where_the_number_names_the_same_text(self):
        self.connect().document(1).insert(0, "abc")
        deltas = self.follow()
        self.assertEqual(next(deltas), Reset([Span("abc")], 3))
        self.again()
        self.connect().document(1).insert(0, "x")
        self.assertEqual(next(deltas), Delta([Insert("x")], 4))

    def test_what_hasn_t_changed_isn_t_told_again(self):
        text = self.connect().document(1)
        text.insert(0, "abc")
        deltas = self.follow()
        self.assertEqual(next(deltas), Reset([Span("abc")], 3))
        found = []
        reader = threading.Thread(target=lambda: found.append(next(deltas)))
        reader.start()
        self.again()
        # This one, and the two that are made anew.
        self.assert_places(self.connect(), 3)
        self.assertEqual(found, [])
        text.delete(0, 1)
        reader.join(PATIENCE)
        self.assertEqual(found, [Delta([Delete(1)], 4)])

    def test_another_text_under_the_same_number_is_a_reset(self):
        """It is told from 3 on, and leads to something else, or is over a longer text."""
        self.connect().document(1).insert(0, "abc")
        deltas = self.follow()
        self.assertEqual(next(deltas), Reset([Span("abc")], 3))
        self.again(self.other(lambda text: text.insert(0, "xyz")))
        self.assertEqual(next(deltas), Reset([Span("xyz")], 3))
        self.connect().document(1).delete(0, 3)
        self.assertEqual(next(deltas), Delta([Delete(3)], 6))
        other = self.other(lambda text: text.insert(0, "xyz"), lambda text: text.mark(0, 1, peritext.EM), lambda text: text.insert(3, "!!"))
        self.again(other)
        self.assertEqual(next(deltas), Reset([Span("x", em=True), Span("yz!!")], 6))

    def test_steps_over_a_longer_text_are_a_reset(self):
        text = self.connect().document(1)
        text.insert(0, "ab")
        text.delete(0, 1)
        deltas = self.follow()
        self.assertEqual(next(deltas), Reset([Span("b")], 3))
        self.again(self.other(lambda text: text.insert(0, "xyz")))
        self.connect().document(1).delete(2, 1)
        self.assertEqual(next(deltas), Reset([Span("xy")], 4))


class Gone(unittest.TestCase):
    """A daemon that dies before what it answered is on the disk."""

    def test_what_was_shown_and_is_gone_is_a_reset(self):
        texts, connections = ["abcde", "ab"], []

        def talk(connection, lines):
            connections.append(connection)
            for line in lines:
                since, text = json.loads(line)["since"], texts[0]
                told = {"changes": [{"insert": text}], "ok": True, "rev": len(text)} if since == 0 else {"code": 6, "error": "stale", "ok": False}
                connection.sendall(json.dumps(told).encode() + b"\n")

        daemon = FakeDaemon(talk)
        # The number on the disk is the same one over all connections.
        daemon.greeting = lambda: GREETING
        session = peritext.connect(daemon.port)
        deltas = session.document(1).follow()
        for close in (daemon.close, session.close, deltas.close):
            self.addCleanup(close)
        self.assertEqual(next(deltas), Reset([Span("abcde")], 5))
        del texts[0]
        end(*connections)
        self.assertEqual(soon(deltas), Reset([Span("ab")], 2))


class Chance(Following):
    """Two sessions edit by chance. What is shown is what `spans` shows at the same number, and in the end."""

    def setUp(self):
        super().setUp()
        self.seed = int(os.environ.get("SEED") or random.randrange(2**32))
        self.relay = Relay(self.daemon.port)
        self.addCleanup(self.relay.close)
        # What `spans` showed to those who edit at each number, and what was told there.
        self.seen, self.shown = {}, []
        # What it shows to the follower's own session next, with its number, and all such beside what is shown.
        self.next, self.beside = None, []

    def test_nothing_else_happens(self):
        self.run_all(2, lambda chance: time.sleep(chance.random() / 10))
        self.assertEqual([type(delta) for delta, _ in self.shown], [Reset] + [Delta] * (len(self.shown) - 1))
        self.assert_agrees()

    def test_connections_are_cut(self):
        def cut(chance):
            time.sleep(chance.random() / 5)
            self.relay.cut(chance.choice((None, 0, 1)))

        self.run_all(2, cut)
        self.assert_agrees()

    def test_daemons_are_killed(self):
        def kill(chance):
            time.sleep(chance.random())
            self.daemon.kill()
            self.daemon = Daemon(self.name, self.daemon.port)
            self.addCleanup(self.daemon.kill)

        with mock.patch.object(Calls, "changes", self.read_beside(Calls.changes)):
            self.run_all(3, kill)
        # What was shown may be gone before anybody else sees it, and another text may have its number.
        self.assertTrue(self.beside)
        for shown, spans in self.beside:
            self.assertEqual(shown, spans, self.seed)

    def run_all(self, seconds, happen):
        """Edits and follows while something happens again and again."""
        until, chance = time.monotonic() + seconds, random.Random(self.seed)
        with peritext.connect(self.relay.port, retry=60) as session, session.document(1).follow() as deltas:
            reader = threading.Thread(target=self.follow_all, args=(deltas,))
            editors = [threading.Thread(target=self.edit, args=(until, random.Random(self.seed + number))) for number in (1, 2)]
            for thread in (reader, *editors):
                thread.start()
            while time.monotonic() < until:
                happen(chance)
            for thread in editors:
                thread.join()
            self.wait(self.connect().document(1))
        reader.join(PATIENCE)

    def edit(self, until, chance):
        """Edits, and reads after each edit, some at once."""
        with peritext.connect(self.daemon.port, retry=60) as session:
            while time.monotonic() < until:
                length = len(session.document(1).text())
                requests = [request for _ in range(chance.randrange(1, 9)) for request in (edit_of(length, chance), {"op": "spans"})]
                for answer in [session.send(doc=1, **request) for request in requests]:
                    with contextlib.suppress(peritext.Refused):
                        # A place that isn't there any more is one.
                        told = answer.result(3 * PATIENCE)
                        if "spans" in told:
                            rev, spans = spans_of(told)
                            self.seen.setdefault(rev, []).append(spans)

    def follow_all(self, deltas):
        shown = []
        for delta in deltas:
            shown = delta.on(shown)
            self.shown.append((delta, shown))
            if self.next and self.next[0] == delta.rev:
                self.beside.append((shown, self.next[1]))

    def read_beside(self, changes):
        def read(calls, since):
            parted = calls.session.parted
            told = yield from changes(calls, since)
            [answer] = yield [Asked({"op": "spans", "doc": 1})]
            self.next = spans_of(answer) if parted == calls.session.parted else None
            return told

        return read

    def wait(self, text):
        until = time.monotonic() + PATIENCE
        while (self.shown[-1][1], self.shown[-1][0].rev) != (text.spans(), text.rev()) and time.monotonic() < until:
            time.sleep(0.01)
        self.assertEqual((self.shown[-1][1], self.shown[-1][0].rev), (text.spans(), text.rev()), self.seed)

    def assert_agrees(self):
        """A number names one text, as long as no daemon is killed."""
        known = [(shown, spans) for delta, shown in self.shown for spans in self.seen.get(delta.rev, [])]
        self.assertTrue(known)
        for shown, spans in known:
            self.assertEqual(shown, spans, self.seed)


def spans_of(told):
    return told["rev"], [Span.of(span) for span in told["spans"]]


def edit_of(length, chance):
    """An edit that is near the start, and seldom a long one."""
    first, last = sorted(min(int(chance.expovariate(0.2)), length) for _ in range(2))
    what = chance.random()
    if what < 0.5 or first == last:
        return {"op": "insert", "at": first, "text": "".join(chance.choices(LETTERS, k=chance.choice((1, 2, 40))))}
    if what < 0.7:
        return {"op": "delete", "at": first, "count": last - first}
    return {"op": "mark" if what < 0.9 else "unmark", "from": first, "to": last, **chance.choice(MARKS)}
