"""Calls that are given up: with asyncio by a cancel or the end of a loop, in a thread by a signal. Their session goes on, and keeps no place."""

import asyncio
import contextlib
import gc
import json
import logging
import queue
import signal
import threading
import time
from unittest import mock

import peritext
from fake import FakeDaemon
from loops import Looped
from peritext import aio
from support import PATIENCE

# Seconds in which nothing is expected to come.
STEP = 0.05
# Seconds until a signal comes.
LATER = 0.5
TEXT = b'{"ok":true,"rev":3,"text":"%s"}\n'


class GivenUp(BaseException):
    """What a signal raises."""


class Known(Looped):
    """What is asked over one connection is answered over the next one, where 3 names another text."""

    def setUp(self):
        super().setUp()
        self.asked, self.is_asked, self.is_over = [], threading.Event(), threading.Event()

        def talk(connection, lines):
            for line in lines:
                self.asked.append(json.loads(line))
                if len(self.asked) == 2:
                    self.is_asked.set()
                    self.is_over.wait(PATIENCE)
                    return
                connection.sendall(TEXT % (b"xyz" if self.is_over.is_set() else b"abc"))

        self.fake = FakeDaemon(talk)
        self.addCleanup(self.fake.close)
        self.addCleanup(self.is_over.set)

    def test_a_call_that_is_cancelled_makes_no_rev_known(self):
        async def work():
            async with aio.connect(self.fake.port) as session:
                text = session.document(1)
                self.assertEqual(await text.read(), ("abc", 3))
                read = asyncio.ensure_future(text.read())
                await until(self.is_asked.is_set)
                read.cancel()
                self.is_over.set()
                await session.document(2).text()
                self.assertEqual(session.parted, 1)
                with self.assertRaises(peritext.Stale):
                    await text.insert(0, "x", rev=3)
                with self.assertRaises(peritext.Stale):
                    await text.changes(3)
                # Who reads knows it.
                await text.read()
                self.assertEqual(await text.insert(0, "x", rev=3), 3)

        self.run_in_loop(work())
        self.assertEqual([request["op"] for request in self.asked if request["doc"] == 1][-2:], ["text", "insert"])

    def test_a_call_that_a_signal_ends_makes_none_known(self):
        with peritext.connect(self.fake.port) as session:
            text = session.document(1)
            self.assertEqual(text.read(), ("abc", 3))
            with self.assertRaises(GivenUp), interrupted():
                text.read()
            self.is_over.set()
            session.document(2).text()
            with self.assertRaises(peritext.Stale):
                text.insert(0, "x", rev=3)
            self.assertEqual(text.read(), ("xyz", 3))
            self.assertEqual(text.insert(0, "x", rev=3), 3)


class HalfSent(Looped):
    def test_a_line_that_a_signal_cuts_off_leaves_the_others_theirs(self):
        """It waits for a daemon that doesn't read. What comes after half a line would be taken for its end."""
        reads = threading.Event()

        def talk(connection, lines):
            reads.wait(PATIENCE)
            for line in lines:
                try:
                    connection.sendall(TEXT % json.loads(line)["filler"][:4].encode())
                except ValueError:
                    connection.sendall(b'{"code":2,"error":"syntax","ok":false}\n')

        fake = FakeDaemon(talk)
        self.addCleanup(fake.close)
        self.addCleanup(reads.set)
        with peritext.connect(fake.port) as session:
            sent = []
            with self.assertRaises(GivenUp), interrupted():
                while True:
                    sent.append(session.send(op="text", doc=1, filler=f"{len(sent):04}" * 15_000))
            reads.set()
            sent.append(session.send(op="text", doc=1, filler="last"))
            self.assertEqual([answer.result(PATIENCE)["text"] for answer in sent], [f"{number:04}" for number in range(len(sent) - 1)] + ["last"])


class Closed(Looped):
    def test_a_close_that_is_cancelled_before_it_has_begun_gives_the_place_back(self):
        """What is to be sent before it waits for a daemon that doesn't read."""
        reads, ended = threading.Event(), queue.Queue()

        def talk(connection, lines):
            reads.wait(PATIENCE)
            for line in lines:
                connection.sendall(TEXT % b"abc")
            ended.put(True)

        fake = FakeDaemon(talk)
        self.addCleanup(fake.close)
        self.addCleanup(reads.set)

        async def work():
            session = await aio.connect(fake.port)
            calls = [asyncio.ensure_future(session.ask(op="text", doc=1, filler="x" * 60_000)) for _ in range(200)]
            await asyncio.sleep(STEP)
            with self.assertRaises(asyncio.TimeoutError):
                await asyncio.wait_for(session.close(), STEP)
            reads.set()
            self.assertEqual({answer["rev"] for answer in await asyncio.gather(*calls)}, {3})
            self.assertTrue(await asyncio.get_running_loop().run_in_executor(None, ended.get, True, PATIENCE))

        self.run_in_loop(work())


    def test_a_connecting_whose_loop_is_closed_gives_its_place_back(self):
        goes_on, ended = threading.Event(), queue.Queue()
        fake = FakeDaemon(lambda connection, lines: ended.put(lines.read()))
        answer = fake.greeting
        fake.greeting = lambda: goes_on.wait(PATIENCE) and answer()
        self.addCleanup(fake.close)

        async def begun():
            await aio.connect(fake.port)

        loop = asyncio.new_event_loop()
        loop.set_exception_handler(lambda loop, context: None)
        task = loop.create_task(begun())
        loop.run_until_complete(asyncio.sleep(STEP))
        loop.close()
        with mock.patch.object(logging.getLogger("concurrent.futures"), "disabled", True):
            del task
            goes_on.set()
            end = time.monotonic() + PATIENCE
            while ended.empty() and time.monotonic() < end:
                gc.collect()
                time.sleep(STEP)
        self.assertEqual(ended.get_nowait(), b"")


@contextlib.contextmanager
def interrupted():
    """A block that a signal ends a little later."""

    def give_up(number, frame):
        raise GivenUp

    before = signal.signal(signal.SIGALRM, give_up)
    signal.setitimer(signal.ITIMER_REAL, LATER)
    try:
        yield
    finally:
        signal.setitimer(signal.ITIMER_REAL, 0)
        signal.signal(signal.SIGALRM, before)


async def until(holds):
    end = time.monotonic() + PATIENCE
    while not holds() and time.monotonic() < end:
        await asyncio.sleep(STEP)
