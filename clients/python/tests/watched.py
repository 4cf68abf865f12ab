"""The changes of many documents, as a daemon tells of them over one connection."""

import asyncio
import doctest
import threading
import time
import unittest

import peritext
from fake import FakeDaemon
from peritext import aio, watching
from standing import StandIn
from support import PATIENCE, Daemon, WithDaemon

STEP = 0.05


class Asked:
    """The tests, over a daemon that a class below starts."""

    def watch(self, documents):
        watch = self.connect().watch_many(documents)
        self.addCleanup(watch.close)
        return watch

    def insert(self, number, text):
        return self.connect().document(number).insert(0, text)

    def test_each_document_is_told_at_first_and_then_each_change(self):
        self.insert(2, "ab")
        told = self.watch([2, 1, 7])
        self.assertEqual(sorted(next(told) for _ in range(3)), [(1, 0), (2, 2), (7, 0)])
        self.insert(7, "abc")
        self.assertEqual(next(told), peritext.Settled(doc=7, rev=3))
        self.insert(5, "nobody watches it")
        self.insert(1, "x")
        self.assertEqual(next(told), (1, 1))

    def test_all_are_those_that_were_edited_and_each_new_one(self):
        self.insert(2, "ab")
        told = self.watch("all")
        self.assertEqual(next(told), (2, 2))
        self.insert(9, "x")
        self.assertEqual(next(told), (9, 1))
        self.insert(2, "c")
        self.assertEqual(next(told), (2, 3))

    def test_all_of_a_file_that_nobody_edited(self):
        told = self.watch("all")
        self.insert(3, "x")
        self.assertEqual(next(told), (3, 1))

    def test_one_that_is_named_twice_is_told_once(self):
        told = self.watch([4, 4, 4])
        self.assertEqual(next(told), (4, 0))
        self.insert(4, "x")
        self.assertEqual(next(told), (4, 1))

    def test_as_many_as_one_watch_may_have(self):
        numbers = range(2**32 - 1_024, 2**32)
        told = self.watch(numbers)
        self.assertEqual(sorted(next(told) for _ in numbers), [(number, 0) for number in numbers])

    def test_who_looks_seldom_is_given_the_newest_of_each(self):
        told = self.watch([1, 2])
        self.assertEqual(sorted([next(told), next(told)]), [(1, 0), (2, 0)])
        session = self.connect()
        for _ in range(20):
            session.document(1).insert(0, "x")
            session.document(2).insert(0, "xy")
        time.sleep(4 * STEP)
        given = []
        while dict(given) != {1: 20, 2: 40}:
            given.append(next(told))
        # Each edit was settled meanwhile, and few are told.
        self.assertLess(len(given), 10)

    def test_a_close_ends_a_loop_of_another_thread(self):
        told, found = self.watch([1]), []
        reader = threading.Thread(target=lambda: found.extend(told))
        reader.start()
        told.close()
        reader.join(PATIENCE)
        self.assertFalse(reader.is_alive())
        self.assertEqual(list(told), [])

    def test_an_asynchronous_loop_is_told_too(self):
        async def some():
            found = []
            async with aio.connect(self.port) as session, session.watch_many([1, 2]) as told:
                async for document, rev in told:
                    found.append((document, rev))
                    if len(found) == 2:
                        await session.document(2).insert(0, "x")
                    if rev == 1:
                        return found

        found = asyncio.run(asyncio.wait_for(some(), PATIENCE))
        self.assertEqual((sorted(found[:2]), found[2:]), ([(1, 0), (2, 0)], [(2, 1)]))

    def test_the_example_is_so(self):
        result = doctest.testmod(watching, extraglobs={"connect": peritext.connect, "port": self.port})
        self.assertEqual((result.attempted, result.failed), (1, 0))


class InMemory(Asked, unittest.TestCase):
    def setUp(self):
        stand_in = StandIn()
        self.addCleanup(stand_in.close)
        self.port = stand_in.port

    def connect(self):
        session = peritext.connect(self.port)
        self.addCleanup(session.close)
        return session


class InProgram(Asked, WithDaemon):
    def setUp(self):
        super().setUp()
        self.port = self.daemon.port
        try:
            with peritext.connect(self.port) as session:
                session.watch_many([1]).close()
        except peritext.Refused as refused:
            if refused.number not in (3, 4):
                raise
            self.skipTest("the program tells of no many documents")

    def test_it_goes_on_with_the_daemon_that_is_started_again(self):
        told = self.watch([1, 2])
        self.assertEqual(sorted([next(told), next(told)]), [(1, 0), (2, 0)])
        session = self.connect()
        session.document(1).insert(0, "x")
        self.assertEqual(next(told), (1, 1))
        self.daemon.kill()
        self.addCleanup(Daemon(self.name, self.daemon.port).kill)
        session.document(2).insert(0, "y")
        self.assertEqual(next(told), (2, 1))

    def test_it_takes_one_place_and_gives_it_back(self):
        session = self.connect()
        with session.watch_many(range(1, 100)) as told:
            next(told)
            self.assertEqual(self.sessions_but(2, session), 2)
        self.assertEqual(self.sessions_but(1, session), 1)

    def sessions_but(self, wanted, session):
        """How many sessions there are, once there are so many, or else after a while."""
        until = time.monotonic() + PATIENCE
        while session.peers().sessions != wanted and time.monotonic() < until:
            time.sleep(STEP)
        return session.peers().sessions


class Answers(unittest.TestCase):
    """What a daemon may answer, over one connection after the other."""

    def answered(self, documents, retry, *answers):
        left = list(answers)
        fake = FakeDaemon(lambda connection, lines: None)
        fake.greeting = lambda: b"".join(b"%s\n" % line for line in left.pop(0))
        self.addCleanup(fake.close)
        watch = peritext.WatchMany(fake.port, documents, retry)
        self.addCleanup(watch.close)
        return watch

    def told(self, *pairs):
        return [b'{"doc":%d,"ok":true,"rev":%d}' % pair for pair in pairs]

    def test_an_earlier_daemon_refuses_it(self):
        for documents in ([1, 2], "all"):
            with self.subTest(documents=documents), self.assertRaises(peritext.Refused) as caught:
                self.answered(documents, None, [b'{"code":3,"error":"request","ok":false}'])
            self.assertIn("an older program knows no `watch` of many documents", str(caught.exception))

    def test_what_is_no_list_of_documents_is_named(self):
        for documents in ([], [0], ["x"], range(1, 1_026), "every"):
            with self.subTest(documents=documents), self.assertRaises(peritext.Refused) as caught:
                self.answered(documents, None, [b'{"code":4,"error":"field","ok":false}'])
            self.assertIn("`docs` has to be a list of 1 to 1024 whole numbers from 1 to 4294967295, or all", str(caught.exception))

    def test_a_number_that_was_told_isn_t_told_again(self):
        told = self.answered([1, 2], 10, self.told((1, 5), (2, 7)), self.told((2, 7), (1, 5)), self.told((1, 5), (2, 8)))
        self.assertEqual(sorted([next(told), next(told)]), [(1, 5), (2, 7)])
        self.assertEqual(next(told), (2, 8))

    def test_another_file_is_told_by_any_number(self):
        told = self.answered("all", 10, self.told((1, 5), (2, 7)), self.told((1, 5), (2, 6)))
        self.assertEqual([next(told), next(told)], [(1, 5), (2, 7)])
        with self.assertRaises(peritext.Ended) as caught:
            next(told)
        self.assertIn("another file", str(caught.exception))

    def test_a_device_that_failed_is_told_after_what_was_settled(self):
        told = self.answered([1, 2], 10, [*self.told((1, 5), (2, 7)), b'{"code":9,"error":"failed","ok":false}'])
        self.assertEqual([next(told), next(told)], [(1, 5), (2, 7)])
        with self.assertRaises(peritext.Refused) as caught:
            next(told)
        self.assertEqual(caught.exception.number, 9)

    def test_a_document_that_isn_t_watched_is_no_answer(self):
        told = self.answered([1, 2], 10, self.told((1, 5)) + self.told((3, 9)), self.told((1, 5), (2, 7)))
        self.assertEqual([next(told), next(told)], [(1, 5), (2, 7)])

    def test_it_ends_if_there_is_nobody(self):
        told = self.answered([1], None, self.told((1, 5)))
        self.assertEqual(next(told), (1, 5))
        with self.assertRaises(peritext.Ended):
            next(told)
