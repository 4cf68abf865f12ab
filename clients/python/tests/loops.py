"""Sessions, documents and follows with asyncio."""

import asyncio
import inspect
import io
import json
import queue
import threading
import time
from uuid import UUID

import peritext
from fake import FakeDaemon, tell_all
from follows import GREETING
from peritext import EM, STRONG, Delta, Insert, Link, Reset, Retain, Span, aio
from support import PATIENCE, PROGRAM, Daemon, WithDaemon, WithFile

TOKEN = UUID("00000000-0000-4000-8000-0000000000d1")
# Seconds in which nothing is expected to come, and those of a daemon that is slow.
STEP = 0.05
LONG = 2


class Looped(WithFile):
    def run_in_loop(self, work):
        """Runs a test in a loop of its own, for a while at most."""
        return asyncio.run(asyncio.wait_for(work, 3 * PATIENCE))


class Calls(Looped):
    def test_all_calls_tell_what_those_of_threads_tell(self):
        async def awaited():
            found = []
            async with aio.open(self.name, program=PROGRAM) as session:
                text = session.document(1)
                found.append(await text.insert(0, "The quick 🦊"))
                found.append(await text.mark(4, 9, STRONG, rev=found[-1]))
                found.append(await text.unmark(4, 5, STRONG, token=TOKEN))
                found.append(await text.unmark(4, 5, STRONG, token=TOKEN))
                found.append(await text.delete(0, 4))
                async with text.action() as action:
                    action.insert(0, "A ")
                    action.mark(0, 1, EM)
                found.append(action.rev)
                found.append(await text.edits([{"op": "delete", "at": 0, "count": 1}], rev=action.rev))
                found.append((await text.text(), await text.read(), await text.spans(), await text.rev()))
                anchor = await text.anchor(3, side="next")
                found.append((await text.place(anchor), await text.places([anchor] * 300), len(await text.anchors([0, 1], rev=await text.rev()))))
                found.append(await text.changes(0))
                found.append(await text.changes(found[0]))
                found.append((session.knows_rev(1), session.knows_rev(2), await session.settled(), await session.peers()))
            return found

        def waited(name):
            found = []
            with peritext.open(name, program=PROGRAM) as session:
                text = session.document(1)
                found.append(text.insert(0, "The quick 🦊"))
                found.append(text.mark(4, 9, STRONG, rev=found[-1]))
                found.append(text.unmark(4, 5, STRONG, token=TOKEN))
                found.append(text.unmark(4, 5, STRONG, token=TOKEN))
                found.append(text.delete(0, 4))
                with text.action() as action:
                    action.insert(0, "A ")
                    action.mark(0, 1, EM)
                found.append(action.rev)
                found.append(text.edits([{"op": "delete", "at": 0, "count": 1}], rev=action.rev))
                found.append((text.text(), text.read(), text.spans(), text.rev()))
                anchor = text.anchor(3, side="next")
                found.append((text.place(anchor), text.places([anchor] * 300), len(text.anchors([0, 1], rev=text.rev()))))
                found.append(text.changes(0))
                found.append(text.changes(found[0]))
                found.append((session.knows_rev(1), session.knows_rev(2), session.settled(), session.peers()))
            return found

        peritext.init(self.name + "-other", program=PROGRAM)
        self.assertEqual(self.run_in_loop(awaited()), waited(self.name + "-other"))

    def test_long_calls_go_in_parts_and_may_be_sent_again(self):
        async def work():
            async with aio.open(self.name, program=PROGRAM) as session:
                text = session.document(1)
                rev = await text.insert(0, "x" * 600, token=TOKEN)
                self.assertEqual(rev, await text.insert(0, "x" * 600, token=TOKEN))
                with self.assertRaises(peritext.Refused) as caught:
                    await text.delete(0, 601)
                self.assertEqual((caught.exception.number, await text.rev()), (5, rev))
                self.assertEqual(await text.delete(0, 600, rev), rev + 600)
                with self.assertRaises(peritext.Stale):
                    await text.insert(0, "y", rev)
                with self.assertRaises(peritext.Refused) as caught:
                    await text.edits([{"op": "insert", "at": 0, "text": "y" * 300}, {"op": "insert", "at": 999, "text": "z"}])
                self.assertEqual(caught.exception.number, 5)
                with self.assertRaises(ValueError):
                    await text.insert(0, "")

        self.run_in_loop(work())

    def test_an_action_whose_block_raises_sends_nothing(self):
        async def work():
            async with aio.open(self.name, program=PROGRAM) as session:
                with self.assertRaises(ZeroDivisionError):
                    async with session.document(1).action() as action:
                        action.insert(0, "x")
                        raise ZeroDivisionError
                self.assertEqual((action.rev, await session.document(1).rev()), (None, 0))
                with self.assertRaises(ValueError):
                    action.insert(0, "y")

        self.run_in_loop(work())

    def test_many_are_under_way_and_made_in_order(self):
        async def work():
            async with aio.open(self.name, program=PROGRAM) as session:
                text = session.document(1)
                revs = await asyncio.gather(*(text.insert(place, "abcdefghij"[place % 10]) for place in range(200)))
                self.assertEqual((revs, await text.text()), (list(range(1, 201)), "abcdefghij" * 20))

        self.run_in_loop(work())

    def test_a_file_is_made_and_opened_or_refused(self):
        async def work():
            name = self.name + "-made"
            self.assertEqual(await aio.init(name, TOKEN, program=PROGRAM), TOKEN)
            session = await aio.open(name, program=PROGRAM)
            with self.assertRaises(peritext.Refused) as caught:
                await aio.open(name, program=PROGRAM)
            self.assertEqual(caught.exception.number, 54)
            for told in (session.document(1).follow(), session.follow(1), session.watch(1)):
                with self.assertRaises(io.UnsupportedOperation):
                    await told.__anext__()
            await session.stop()
            with self.assertRaises(peritext.Refused) as caught:
                await session.document(1).insert(0, "x")
            self.assertEqual(caught.exception.number, 12)
            await session.close()
            with self.assertRaises(peritext.Ended):
                await session.document(1).text()

        self.run_in_loop(work())

    def test_each_call_has_its_twin(self):
        """Those that wait and those that are awaited take the same, and say what they do."""
        for name in ("connect", "open", "init"):
            self.assertEqual(*(inspect.signature(getattr(module, name)).parameters for module in (peritext, aio)))
        for waited, awaited in ((peritext.Document, aio.Document), (peritext.Session, aio.Session)):
            for name, call in inspect.getmembers(waited, inspect.isfunction):
                # What doesn't wait is for threads; a task does the same for a loop.
                if name.startswith("_") or name in ("send", "send_insert", "begin", "edit", "followers"):
                    continue
                twin = getattr(awaited, name)
                self.assertTrue(twin.__doc__, name)
                self.assertEqual(list(inspect.signature(twin).parameters), list(inspect.signature(call).parameters), name)


class GivenUp(Looped):
    def test_a_loop_goes_on_while_nothing_comes_and_a_call_that_is_cancelled_ends_at_once(self):
        sent = []

        def talk(connection, lines):
            for line in lines:
                sent.append(json.loads(line))
                if sent[-1]["op"] == "insert":
                    time.sleep(LONG)
                connection.sendall(b'{"ok":true,"rev":%d,"text":"abc"}\n' % len(sent))

        fake = FakeDaemon(talk)
        self.addCleanup(fake.close)

        async def work():
            async with aio.connect(fake.port) as session:
                text = session.document(1)
                begun, beats = time.monotonic(), 0
                with self.assertRaises(asyncio.TimeoutError):
                    await asyncio.wait_for(text.insert(0, "x"), STEP)
                self.assertLess(time.monotonic() - begun, LONG / 2)
                read = asyncio.ensure_future(text.read())
                while not read.done():
                    await asyncio.sleep(STEP / 10)
                    beats += 1
                self.assertGreater(beats, 5)
                # The answer to the first one isn't taken for that to the second one.
                self.assertEqual(await read, ("abc", 2))
                # What is given up before it is sent isn't sent.
                tasks = [asyncio.ensure_future(text.read()) for _ in range(3)]
                for task in tasks:
                    task.cancel()
                await asyncio.gather(*tasks, return_exceptions=True)
                self.assertEqual((await text.read()).rev, 3)

        self.run_in_loop(work())
        self.assertEqual(sent[0]["op"], "insert")

    def test_a_connecting_that_is_cancelled_gives_its_place_back(self):
        ended = []

        def talk(connection, lines):
            ended.append(lines.read())

        fake = FakeDaemon(talk)
        answer = fake.greeting
        fake.greeting = lambda: time.sleep(LONG) or answer()
        self.addCleanup(fake.close)

        async def work():
            with self.assertRaises(asyncio.TimeoutError):
                await asyncio.wait_for(begun(aio.connect(fake.port)), STEP)

        async def begun(opening):
            return await opening

        self.run_in_loop(work())
        until = time.monotonic() + PATIENCE
        while not ended and time.monotonic() < until:
            time.sleep(STEP)
        self.assertEqual(ended, [b""])


class Served(WithDaemon, Looped):
    async def assert_places(self, session, wanted):
        """So many sessions are there soon."""
        until = time.monotonic() + PATIENCE
        while (await session.peers()).sessions != wanted and time.monotonic() < until:
            await asyncio.sleep(STEP)
        self.assertEqual((await session.peers()).sessions, wanted)


class Daemons(Served):
    def test_sessions_see_each_other_and_outlive_their_daemon(self):
        async def work():
            async with aio.connect(self.daemon.port) as one, aio.connect(self.daemon.port) as other:
                await one.document(1).insert(0, "a")
                self.assertEqual(await other.document(1).text(), "a")
                self.assertEqual((await other.peers()).sessions, 2)
                self.daemon.kill()
                under_way = asyncio.gather(*(one.document(1).insert(1, letter) for letter in "dcb"))
                await asyncio.sleep(STEP)
                self.daemon = Daemon(self.name, self.daemon.port)
                self.addCleanup(self.daemon.kill)
                self.assertEqual(await under_way, [2, 3, 4])
                self.assertEqual(await other.document(1).text(), "abcd")

        self.run_in_loop(work())

    def test_nobody_there_is_told(self):
        self.daemon.kill()

        async def work():
            with self.assertRaises(peritext.NoDaemon):
                async with aio.connect(self.daemon.port):
                    self.fail()
            with self.assertRaises(TypeError):
                await aio.connect(self.daemon.port, retry="10")

        self.run_in_loop(work())

    def test_a_watch_tells_each_number(self):
        async def work():
            async with aio.connect(self.daemon.port) as session:
                found = []
                async with session.watch(1) as revs:
                    async for rev in revs:
                        found.append(rev)
                        if rev == 3:
                            break
                        await session.document(1).insert(0, "x")
                    with self.assertRaises(asyncio.TimeoutError):
                        await asyncio.wait_for(revs.__anext__(), STEP)
                self.assertEqual(found, [0, 1, 2, 3])
                with self.assertRaises(StopAsyncIteration):
                    await revs.__anext__()
                await self.assert_places(session, 1)

        self.run_in_loop(work())


class Follows(Served):
    def test_the_whole_text_comes_first_and_then_each_change(self):
        async def work():
            async with aio.connect(self.daemon.port) as session:
                text = session.document(1)
                await text.insert(0, "The fox")
                found, shown = [], []
                async for delta in text.follow():
                    found.append(delta)
                    shown = delta.on(shown)
                    self.assertEqual(shown, await text.spans())
                    if len(found) == 3:
                        break
                    await text.insert(7, "!") if len(found) == 1 else await text.mark(4, 7, Link("u"))
                self.assertEqual(found[:2], [Reset([Span("The fox")], 7), Delta([Retain(7), Insert("!")], 8)])
                self.assertEqual((len(found[2].steps), found[2].rev), (2, 9))
                # The loop that was left has freed both places.
                await self.assert_places(session, 1)

        self.run_in_loop(work())

    def test_a_wait_that_is_cancelled_loses_nothing(self):
        async def work():
            async with aio.connect(self.daemon.port) as session, session.document(1).follow() as deltas:
                self.assertEqual(await deltas.__anext__(), Reset([], 0))
                for letter in "abc":
                    with self.assertRaises(asyncio.TimeoutError):
                        await asyncio.wait_for(deltas.__anext__(), STEP)
                    rev = await session.document(1).insert(0, letter)
                    self.assertEqual(await deltas.__anext__(), Delta([Insert(letter)], rev))

        self.run_in_loop(work())

    def test_what_nobody_waits_for_makes_no_number_of_the_next_daemon_known(self):
        """It is asked over one connection, and answered over the next one, where 3 names another text."""
        told, is_asked, is_over, is_answered = queue.Queue(), threading.Event(), threading.Event(), threading.Event()

        def talk(connection, lines):
            for line in lines:
                since = json.loads(line).get("since")
                if since == 3 and not is_over.is_set():
                    is_asked.set()
                    is_over.wait(PATIENCE)
                    return
                text, rev = ("xz", 4) if is_over.is_set() else ("abc", 3)
                answer = [{"insert": text}] if since == 0 else [{"retain": 1}, {"delete": 1}]
                connection.sendall(json.dumps({"changes": answer, "ok": True, "rev": rev}).encode() + b"\n")
                if since == 3:
                    is_answered.set()

        kind = threading.local()

        def greeting():
            # Before it is greeted no other one comes, which might overtake it.
            kind.is_watch = is_watch.pop(0)
            return GREETING

        daemon = FakeDaemon(lambda connection, lines: tell_all(connection, told) if kind.is_watch else talk(connection, lines))
        # The session that it is begun from, its watch, and its own session, twice.
        is_watch = [False, True, False, False]
        daemon.greeting = greeting
        for end in (lambda: told.put(None), daemon.close, is_over.set):
            self.addCleanup(end)

        async def work():
            async with aio.connect(daemon.port) as session, session.document(1).follow() as deltas:
                self.assertEqual(await deltas.__anext__(), Reset([Span("abc")], 3))
                told.put({"ok": True, "rev": 4})
                wait = asyncio.ensure_future(deltas.__anext__())
                while not is_asked.is_set():
                    await asyncio.sleep(STEP)
                wait.cancel()
                is_over.set()
                while not is_answered.is_set():
                    await asyncio.sleep(STEP)
                self.assertEqual(await deltas.__anext__(), Reset([Span("xz")], 4))

        self.run_in_loop(work())

    def test_a_close_ends_the_loop_of_another_task(self):
        async def work():
            async with aio.connect(self.daemon.port) as session:
                for close_at_once in (False, True):
                    deltas, found = session.document(1).follow(), []

                    async def take(deltas, found):
                        async for delta in deltas:
                            found.append(delta)

                    reader = asyncio.ensure_future(take(deltas, found))
                    await asyncio.sleep(0)
                    while not (close_at_once or found):
                        await asyncio.sleep(STEP)
                    await deltas.close()
                    await deltas.close()
                    await asyncio.wait_for(reader, PATIENCE)
                    self.assertEqual(found, [] if close_at_once else [Reset([], 0)])
                    async with deltas:
                        self.assertEqual([delta async for delta in deltas], [])
                    await self.assert_places(session, 1)

        self.run_in_loop(work())

    def test_it_goes_on_with_the_daemon_that_is_started_again(self):
        async def work():
            async with aio.connect(self.daemon.port) as session, session.follow(1) as deltas:
                await session.document(1).insert(0, "abc")
                while (await deltas.__anext__()).rev < 3:
                    pass
                self.daemon.kill()
                self.daemon = Daemon(self.name, self.daemon.port)
                self.addCleanup(self.daemon.kill)
                rev = await session.document(1).insert(0, "x")
                self.assertEqual(await asyncio.wait_for(deltas.__anext__(), PATIENCE), Delta([Insert("x")], rev))

        self.run_in_loop(work())

    def test_it_ends_if_there_is_nobody(self):
        async def work():
            async with aio.connect(self.daemon.port, retry=None) as session:
                deltas = session.document(1).follow()
                self.assertEqual(await deltas.__anext__(), Reset([], 0))
                self.daemon.kill()
                with self.assertRaises(peritext.Ended):
                    await asyncio.wait_for(deltas.__anext__(), PATIENCE)
                with self.assertRaises(StopAsyncIteration):
                    await deltas.__anext__()

        self.run_in_loop(work())
