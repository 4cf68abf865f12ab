"""A document's changes, as a daemon tells of them."""

import asyncio
import doctest
import threading
import time
from unittest import mock

import peritext
from fake import FakeDaemon
from peritext import daemon
from support import PATIENCE, Daemon, WithDaemon, retried

STEP = 0.05


def soon(revs):
    """What a watch gives next, or its fault; nothing if it waits."""
    found = []

    def read():
        try:
            found.append(next(revs))
        except Exception as fault:
            found.append(fault)

    reader = threading.Thread(target=read, daemon=True)
    reader.start()
    reader.join(PATIENCE)
    return found[0] if found else None


class Told(WithDaemon):
    def watch(self, session, document=1):
        watch = session.watch(document)
        self.addCleanup(watch.close)
        return watch

    def test_the_present_number_comes_first_and_then_each_change(self):
        session, other = self.connect(), self.connect()
        revs = self.watch(session)
        self.assertEqual(next(revs), 0)
        self.assertEqual(other.document(1).insert(0, "abc"), 3)
        self.assertEqual(next(revs), 3)
        other.document(2).insert(0, "elsewhere")
        self.assertEqual(other.document(1).delete(0, 1), 4)
        self.assertEqual(next(revs), 4)
        self.assertEqual(next(self.watch(other)), 4)

    def test_who_looks_seldom_is_given_the_newest_alone(self):
        session = self.connect()
        revs = self.watch(session)
        self.assertEqual(next(revs), 0)
        for _ in range(50):
            session.document(1).insert(0, "x")
        time.sleep(STEP)
        self.assertEqual(next(revs), 50)

    def test_an_asynchronous_loop_is_told_too(self):
        session = self.connect()

        async def some(revs):
            found = []
            async for rev in revs:
                found.append(rev)
                if rev == 3:
                    break
                await asyncio.get_running_loop().run_in_executor(None, session.document(1).insert, 0, "x")
            return found

        self.assertEqual(asyncio.run(asyncio.wait_for(some(self.watch(session)), PATIENCE)), [0, 1, 2, 3])

    def test_a_wait_that_is_given_up_loses_nothing(self):
        session = self.connect()

        async def tried(revs):
            with self.assertRaises(asyncio.TimeoutError):
                await asyncio.wait_for(revs.__anext__(), STEP)

        revs = self.watch(session)
        self.assertEqual(next(revs), 0)
        asyncio.run(tried(revs))
        session.document(1).insert(0, "x")
        self.assertEqual(next(revs), 1)

    def test_a_close_ends_a_loop_of_another_thread_and_frees_the_place(self):
        session = self.connect()
        revs, found = self.watch(session), []
        reader = threading.Thread(target=lambda: found.extend(revs))
        reader.start()
        self.assertEqual(session.peers().sessions, 2)
        revs.close()
        reader.join(PATIENCE)
        self.assertLessEqual(found, [0])
        until = time.monotonic() + PATIENCE
        while session.peers().sessions > 1 and time.monotonic() < until:
            time.sleep(STEP)
        self.assertEqual(session.peers().sessions, 1)

    def test_without_a_place_it_is_refused(self):
        session = self.connect()
        held = [retried(lambda: self.watch(session, number)) for number in range(1, 31)]
        self.assertEqual(self.refusal(session.watch, 40), (8, "busy"))
        held.pop().close()
        retried(lambda: self.watch(session)).close()

    def test_the_example_is_so(self):
        result = doctest.run_docstring_examples
        self.assertIsNone(result(daemon.SocketSession.watch, {**vars(daemon), "port": self.daemon.port}))


class Again(WithDaemon):
    def test_it_goes_on_with_the_daemon_that_is_started_again(self):
        session = self.connect()
        with session.watch(1) as revs:
            self.assertEqual(next(revs), 0)
            session.document(1).insert(0, "x")
            self.assertEqual(next(revs), 1)
            self.daemon.kill()
            again = Daemon(self.name, self.daemon.port)
            self.addCleanup(again.kill)
            self.assertEqual(session.document(1).insert(0, "y"), 2)
            self.assertEqual(next(revs), 2)

    def test_it_looks_without_an_end(self):
        session = self.connect(retry=float("inf"))
        revs = session.watch(1)
        self.addCleanup(revs.close)
        self.assertEqual(next(revs), 0)
        self.daemon.kill()
        again = Daemon(self.name, self.daemon.port)
        self.addCleanup(again.kill)
        self.assertEqual(session.document(1).insert(0, "x"), 1)
        self.assertEqual(soon(revs), 1)

    def test_it_ends_if_there_is_nobody(self):
        for retry in (None, 0.2):
            with self.subTest(retry=retry):
                session = self.connect(retry=retry)
                with session.watch(1) as revs:
                    self.assertEqual(next(revs), 0)
                    session.stop()
                    with self.assertRaises(peritext.Ended):
                        next(revs)
                # A file is free once its program has ended, which is after its connections.
                self.daemon.ended()
                self.daemon = Daemon(self.name)
                self.addCleanup(self.daemon.kill)

    def test_what_is_newest_is_told_before_the_end(self):
        session = self.connect(retry=None)
        with session.watch(1) as revs:
            for _ in range(20):
                session.document(1).send_insert(0, "x")
            session.stop()
            found = []
            with self.assertRaises(peritext.Ended):
                for rev in revs:
                    found.append(rev)
            self.assertEqual(found[-1], 20)


class Refused(WithDaemon):
    def answered(self, *answers):
        """A watch of a daemon that answers it with these, over one connection after the other."""
        left = list(answers)

        def talk(_connection, _lines):
            pass

        fake = FakeDaemon(talk)
        fake.greeting = lambda: left.pop(0)
        self.addCleanup(fake.close)
        return lambda retry: peritext.Watch(fake.port, 1, retry)

    def test_an_earlier_daemon_refuses_it(self):
        watch = self.answered(b'{"code":3,"error":"request","ok":false}\n')
        self.assertEqual(self.refusal(watch, None), (3, "request"))

    def test_a_device_that_failed_is_told(self):
        with self.answered(b'{"ok":true,"rev":7}\n{"code":9,"error":"failed","ok":false}\n')(10) as revs:
            self.assertEqual(next(revs), 7)
            self.assertEqual(self.refusal(next, revs), (9, "failed"))

    def test_another_file_is_told_by_its_number(self):
        with self.answered(b'{"ok":true,"rev":7}\n', b'{"ok":true,"rev":6}\n')(10) as revs:
            self.assertEqual(next(revs), 7)
            with self.assertRaises(peritext.Ended) as caught:
                next(revs)
            self.assertIn("another file", str(caught.exception))

    def test_whatever_ends_it_is_told(self):
        patch = mock.patch.object(peritext.Watch, "_connect_again", side_effect=RuntimeError("odd"))
        with patch, self.answered(b'{"ok":true,"rev":7}\n')(10) as revs:
            self.assertEqual(next(revs), 7)
            fault = soon(revs)
        self.assertIsInstance(fault, peritext.Ended)
        self.assertIn("odd", str(fault))

    def test_the_same_number_isn_t_told_again(self):
        lines = [b'{"ok":true,"rev":7}\n', b'{"ok":true,"rev":7}\n', b'{"ok":true,"rev":9}\n']
        with self.answered(*lines)(10) as revs:
            self.assertEqual([next(revs), next(revs)], [7, 9])
