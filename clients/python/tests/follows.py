"""A document as it changes, told by a daemon."""

import io
import json
import queue
import threading
import time
from unittest import mock

import peritext
from fake import FakeDaemon, tell_all
from peritext import STRONG, Delete, Delta, Insert, Marks, Reset, Retain, Span, daemon
from peritext.calls import Calls
from support import PATIENCE, Daemon, WithDaemon, WithFile, retried
from watches import STEP, soon

# What greets a session, and is a watch's first number too.
GREETING = b'{"applied":0,"ok":true,"rev":0,"settled":0,"state":"open"}\n'


class Following(WithDaemon):
    def follow(self, document=1, **how):
        deltas = self.connect(**how).document(document).follow()
        self.addCleanup(deltas.close)
        return deltas

    def assert_places(self, session, wanted):
        """So many sessions are there soon."""
        until = time.monotonic() + PATIENCE
        while session.peers().sessions != wanted and time.monotonic() < until:
            time.sleep(STEP)
        self.assertEqual(session.peers().sessions, wanted)


class Told(Following):
    def test_the_whole_text_comes_first_and_then_each_change(self):
        text = self.connect().document(1)
        text.insert(0, "one two")
        rev = text.mark(0, 3, STRONG)
        deltas = self.follow()
        first = next(deltas)
        self.assertEqual(first, Reset([Span("one", strong=True), Span(" two")], rev))
        rev = text.insert(3, " more")
        second = next(deltas)
        self.assertEqual(second, Delta([Retain(3), Insert(" more", Marks(strong=True))], rev))
        rev = text.delete(0, 1)
        third = next(deltas)
        self.assertEqual(third, Delta([Delete(1)], rev))
        self.assertEqual(third.on(second.on(first.on([Span("whatever")]))), text.spans())

    def test_a_document_that_nobody_edited(self):
        deltas = self.follow(9)
        self.assertEqual(next(deltas), Reset([], 0))
        self.connect().document(1).insert(0, "elsewhere")
        self.connect().document(9).insert(0, "here")
        self.assertEqual(next(deltas), Delta([Insert("here")], 4))

    def test_who_looks_seldom_is_given_all_at_once(self):
        text = self.connect().document(1)
        text.insert(0, "start")
        deltas = self.follow()
        self.assertEqual(next(deltas), Reset([Span("start")], 5))
        for letter in "abcdef" * 5:
            text.insert(5, letter)
        text.delete(0, 5)
        time.sleep(STEP)
        self.assertEqual(next(deltas), Delta([Delete(5), Insert("fedcba" * 5)], 40))

    def test_they_count_characters(self):
        text = self.connect().document(1)
        text.insert(0, "🦊é🦊🦊")
        deltas = self.follow()
        shown = next(deltas).on([])
        text.insert(1, "😀")
        told = next(deltas)
        self.assertEqual((told, told.on(shown)), (Delta([Retain(1), Insert("😀")], 5), [Span("🦊😀é🦊🦊")]))

    def test_a_mark_alone_is_a_change(self):
        text = self.connect().document(1)
        text.insert(0, "abc")
        deltas = self.follow()
        next(deltas)
        rev = text.mark(1, 2, STRONG)
        self.assertEqual(next(deltas), Delta([Retain(1), Retain(1, Marks(strong=True))], rev))

    def test_a_change_that_shows_nothing_has_its_rev(self):
        text = self.connect().document(1)
        text.insert(0, "abc")
        text.mark(0, 3, STRONG)
        deltas = self.follow()
        next(deltas)
        rev = text.mark(1, 2, STRONG)
        self.assertEqual(next(deltas), Delta([], rev))

    def test_what_is_taken_out_of_a_reset_is_the_taker_s_own(self):
        text = self.connect().document(1)
        text.insert(0, "abc")
        deltas = self.follow()
        first = next(deltas)
        shown = first.on([])
        shown.clear()
        self.assertEqual(first.spans, [Span("abc")])

    def test_each_number_is_asked_about_once(self):
        asked, changes = [], Calls.changes

        def counted(calls, since):
            asked.append(since)
            return changes(calls, since)

        text = self.connect().document(1)
        with mock.patch.object(Calls, "changes", counted):
            deltas = self.follow()
            next(deltas)
            for _ in range(5):
                text.insert(0, "x")
                next(deltas)
        self.assertEqual(asked, [0, 0, 1, 2, 3, 4])

    def test_several_threads_take_from_one(self):
        text, found = self.connect().document(1), queue.Queue()
        deltas = self.follow()
        threads = [threading.Thread(target=lambda: found.put(next(deltas))) for _ in range(4)]
        for rev, thread in enumerate(threads, 1):
            thread.start()
            found.get(timeout=PATIENCE)
            self.assertEqual(text.insert(0, "x"), rev)
        for thread in threads:
            thread.join(PATIENCE)
        self.assertEqual(next(deltas), Delta([Insert("x")], 4))


class Ends(Following):
    def test_a_close_ends_a_loop_of_another_thread_and_frees_both_places(self):
        session = self.connect()
        deltas, found = session.document(1).follow(), []
        reader = threading.Thread(target=lambda: found.extend(deltas))
        reader.start()
        self.assert_places(session, 3)
        session.document(1).insert(0, "x")
        deltas.close()
        deltas.close()
        reader.join(PATIENCE)
        self.assertFalse(reader.is_alive())
        self.assert_places(session, 1)
        self.assertEqual(list(deltas), [])

    def test_a_loop_that_is_left_frees_them(self):
        session = self.connect()
        for delta in session.document(1).follow():
            self.assertEqual(delta, Reset([], 0))
            break
        self.assert_places(session, 1)

    def test_a_block_that_is_left_frees_them(self):
        session = self.connect()
        with self.assertRaises(ZeroDivisionError), session.document(1).follow() as deltas:
            next(deltas)
            self.assertEqual(session.peers().sessions, 3)
            raise ZeroDivisionError
        self.assert_places(session, 1)

    def test_a_daemon_that_says_nothing_doesn_t_hold_a_close_up(self):
        waits, found = threading.Event(), []
        self.addCleanup(waits.set)

        def answers():
            yield {"changes": [], "ok": True, "rev": 0}
            waits.wait(PATIENCE)

        deltas, told, asked = faked(self, answers())
        reader = threading.Thread(target=lambda: found.extend(deltas))
        reader.start()
        told.put({"ok": True, "rev": 1})
        late = time.monotonic() + PATIENCE
        while not found and time.monotonic() < late:
            time.sleep(STEP)
        begun = time.monotonic()
        deltas.close()
        reader.join(PATIENCE)
        self.assertLess(time.monotonic() - begun, PATIENCE / 2)
        self.assertEqual((found, asked), ([Reset([], 0)], [0]))

    def test_it_goes_on_where_its_session_is_closed(self):
        with peritext.connect(self.daemon.port) as session:
            deltas = session.document(1).follow()
        self.addCleanup(deltas.close)
        self.assertEqual(next(deltas), Reset([], 0))
        self.connect().document(1).insert(0, "x")
        self.assertEqual(next(deltas), Delta([Insert("x")], 1))


class Refused(Following):
    def test_without_two_places_it_is_refused_and_holds_none(self):
        session = self.connect()
        held = [retried(self.connect) for _ in range(30)]
        # There is one place, which a watch can't have.
        self.assertEqual(self.refusal(session.document(1).follow), (8, "busy"))
        retried(self.connect).close()
        held.pop().close()
        deltas = retried(session.document(1).follow)
        self.assertEqual(next(deltas), Reset([], 0))
        deltas.close()

    def test_a_watch_without_a_session_gives_its_place_back(self):
        session = self.connect()
        with mock.patch.object(daemon, "connect", side_effect=peritext.NoDaemon("gone")), self.assertRaises(peritext.NoDaemon):
            session.document(1).follow()
        self.assert_places(session, 1)

    def test_a_number_that_is_no_document_s_is_refused_as_by_a_watch(self):
        session = self.connect()
        for number in (0, 2**32, "1", None):
            self.assertEqual(self.refusal(session.document(number).follow), self.refusal(session.watch, number))
        self.assert_places(session, 1)

    def test_another_program_refuses(self):
        for refused in ((3, "request"), (1, "memory")):
            with self.subTest(refused=refused):
                deltas, _, _ = faked(self, [{"code": refused[0], "error": refused[1], "ok": False}])
                self.assertEqual(self.refusal(next, deltas), refused)
                self.assertEqual(list(deltas), [])

    def test_a_device_that_failed_is_told(self):
        deltas, told, _ = faked(self, [{"changes": [], "ok": True, "rev": 0}])
        self.assertEqual(next(deltas), Reset([], 0))
        told.put({"code": 9, "error": "failed", "ok": False})
        self.assertEqual(self.refusal(next, deltas), (9, "failed"))
        self.assertEqual(list(deltas), [])

    def test_a_number_that_is_reached_isn_t_asked_about(self):
        answers = [([], 0), ([{"insert": "abc"}], 3), ([], 5)]
        deltas, told, asked = faked(self, [{"changes": steps, "ok": True, "rev": rev} for steps, rev in answers])
        self.assertEqual(next(deltas), Reset([], 0))
        told.put({"ok": True, "rev": 1})
        self.assertEqual(next(deltas), Delta([Insert("abc")], 3))
        for rev in (2, 3):
            told.put({"ok": True, "rev": rev})
            time.sleep(STEP)
        told.put({"ok": True, "rev": 4})
        self.assertEqual((next(deltas), asked), (Delta([], 5), [0, 0, 3]))

    def test_it_ends_if_there_is_nobody(self):
        for retry in (None, 0.2):
            with self.subTest(retry=retry):
                deltas = self.follow(retry=retry)
                self.assertEqual(next(deltas), Reset([], 0))
                self.daemon.kill()
                self.assertIsInstance(soon(deltas), peritext.Ended)
                self.assertIsInstance(soon(deltas), StopIteration)
                self.daemon = Daemon(self.name)
                self.addCleanup(self.daemon.kill)


class Alone(WithFile):
    def test_a_session_over_a_file_tells_of_nothing(self):
        with self.open() as opened, self.assertRaises(io.UnsupportedOperation) as caught:
            opened.document(1).follow()
        self.assertIn("connect to a daemon", str(caught.exception))


def faked(test, answers):
    """What follows a document of a daemon that gives these answers; where it is told what its watch is to say; and what it asks since."""
    told, asked, answers, kind = queue.Queue(), [], iter(answers), threading.local()

    def greeting():
        # Before it is greeted no other one comes, which might overtake it.
        kind.is_watch = is_watch.pop(0)
        return GREETING

    def talk(connection, lines):
        if not kind.is_watch:
            for line, answer in zip(lines, answers):
                asked.append(json.loads(line)["since"])
                connection.sendall(json.dumps(answer).encode() + b"\n")
            return
        tell_all(connection, told)

    fake = FakeDaemon(talk)
    # The session that it is begun from, its watch, and its own session.
    is_watch = [False, True, False]
    fake.greeting = greeting
    session = peritext.connect(fake.port)
    deltas = session.document(1).follow()
    for end in (lambda: told.put(None), fake.close, session.close, deltas.close):
        test.addCleanup(end)
    return deltas, told, asked
