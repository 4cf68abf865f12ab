"""What is counted of a file: its documents, and its room."""

import asyncio
import doctest
import inspect
import json
import subprocess
import unittest
from uuid import UUID

import peritext
from fake import FakeDaemon
from peritext import aio, counting
from support import PATIENCE, PROGRAM, Daemon, WithFile

REPLICA = UUID("0f5d2c4e-9a1b-4c3d-8e7f-112233445566")
LIMITS = {"bytes_limit": 2**30, "documents_limit": 1_024, "operations_limit": 2**24, "replicas_limit": 16, "steps_limit": 2**20}
ROW = {"chars": 3, "doc": 3, "ops": 7, "writers": [str(REPLICA)]}


class Counted:
    """The tests, over a session that a class below opens."""

    def test_a_file_without_operations_has_no_document(self):
        self.assertEqual(self.session.documents(), [])
        self.assertEqual(self.session.room(), peritext.Room(bytes=0, documents=0, operations=0, replicas=0, steps=0, **LIMITS))

    def test_each_document_has_a_row(self):
        for number, text in ((9, "🦊"), (2, "The fox"), (4_294_967_295, "x")):
            self.session.document(number).insert(0, text)
        self.session.document(2).mark(0, 3, peritext.STRONG)
        self.session.document(2).delete(3, 4)
        self.session.document(4_294_967_295).delete(0, 1)
        # Those that were only looked at have none.
        self.session.document(5).text()
        found = self.session.documents()
        self.assertEqual([(it.number, it.characters, it.operations) for it in found], [(2, 3, 12), (9, 1, 1), (4_294_967_295, 0, 2)])
        self.assertEqual({it.writers for it in found}, {(self.replica,)})
        for it in found:
            text, rev = self.session.document(it.number).read()
            self.assertEqual((it.characters, it.operations), (len(text), rev))

    def test_the_room_is_what_the_documents_have(self):
        self.session.document(1).insert(0, "abc")
        first = self.session.room()
        self.session.document(7).insert(0, "de")
        room, rows = self.session.room(), self.session.documents()
        self.assertEqual((room.documents, room.operations, room.replicas), (len(rows), sum(it.operations for it in rows), 1))
        self.assertEqual({name: getattr(room, name) for name in LIMITS}, LIMITS)
        self.assertGreater(room.bytes, first.bytes)
        self.assertGreater(room.steps, first.steps)

    def test_other_fields_are_refused(self):
        for op in ("documents", "room"):
            self.assertEqual(self.refusal(self.session.ask, op=op, doc=1), (4, "field"))


class WithCounted(Counted):
    """A file of a known replica, and a session over it."""

    def setUp(self):
        super().setUp()
        self.name += "-counted"
        self.replica = str(peritext.init(self.name, REPLICA, program=PROGRAM))
        self.session = self.begun()
        self.addCleanup(self.session.close)


class InProgram(WithCounted, WithFile):
    def begun(self):
        return self.open()

    def test_it_is_what_the_list_says(self):
        self.session.document(3).insert(0, "abcd")
        self.session.document(3).delete(1, 2)
        [row], room = self.session.documents(), self.session.room()
        self.session.close()
        ran = subprocess.run([PROGRAM, "list", self.name], capture_output=True, timeout=PATIENCE, check=True)
        listed, last = map(json.loads, ran.stdout.splitlines())
        self.assertEqual(listed, {"chars": row.characters, "doc": row.number, "ok": True, "ops": row.operations})
        self.assertEqual({name: last[name] for name in last if name != "ok"}, {name: getattr(room, name) for name in last if name != "ok"})
        with self.open() as again:
            self.assertEqual((again.room().steps, again.documents()), (0, [row]))


class InDaemon(WithCounted, WithFile):
    def begun(self):
        self.daemon = Daemon(self.name)
        self.addCleanup(self.daemon.kill)
        return peritext.connect(self.daemon.port)

    def test_an_event_loop_is_told_the_same(self):
        self.session.document(1).insert(0, "abc")

        async def work():
            async with aio.connect(self.daemon.port) as session:
                return await session.documents(), await session.room()

        self.assertEqual(asyncio.run(asyncio.wait_for(work(), PATIENCE)), (self.session.documents(), self.session.room()))
        for name in ("documents", "room"):
            waits, awaits = (inspect.signature(getattr(module.Session, name)) for module in (peritext, aio))
            self.assertEqual(str(waits), str(awaits))


class NoAnswers(unittest.TestCase):
    def told(self, call, line):
        """What a call gives to which this is answered."""

        def talk(connection, lines):
            lines.readline()
            connection.sendall(json.dumps(line).encode() + b"\n")

        daemon = FakeDaemon(talk)
        self.addCleanup(daemon.close)
        with peritext.connect(daemon.port, retry=None) as session:
            return call(session)

    def test_a_row_has_its_fields_and_the_numbers_rise(self):
        two = [ROW, {**ROW, "doc": 4}]
        self.assertEqual(len(self.told(peritext.Session.documents, {"documents": two, "ok": True})), 2)
        wrong = [two[::-1], [ROW, ROW], ROW, None, [[3]]]
        wrong += [[{**ROW, name: value}] for name, value in (("chars", -1), ("doc", 0), ("ops", 0), ("ops", "7"), ("writers", [7]), ("writers", None))]
        wrong += [[{key: ROW[key] for key in ROW if key != name}] for name in ROW]
        for rows in wrong:
            with self.subTest(rows=rows), self.assertRaises(peritext.Ended) as caught:
                self.told(peritext.Session.documents, {"documents": rows, "ok": True})
            self.assertIn("an answer came without a right `documents`", str(caught.exception))

    def test_a_room_has_each_number_and_its_limit(self):
        room = {**dict.fromkeys(counting.PARTS, 3), **LIMITS}
        self.assertEqual(self.told(peritext.Session.room, {**room, "ok": True}), peritext.Room(**room))
        for name in room:
            for value in (None, -1, "3", True):
                with self.subTest(name=name, value=value), self.assertRaises(peritext.Ended) as caught:
                    self.told(peritext.Session.room, {**room, name: value, "ok": True})
                self.assertIn(f"an answer came without a right `{name}`", str(caught.exception))

    def test_an_earlier_program_is_named(self):
        for name in ("documents", "room"):
            with self.assertRaises(peritext.Refused) as caught:
                self.told(getattr(peritext.Session, name), {"code": 3, "error": "request", "ok": False})
            self.assertEqual(str(caught.exception), f"3 request: an older program knows no `{name}`; start one that is as new as this client")

    def test_the_example_is_so(self):
        result = doctest.testmod(counting)
        self.assertEqual((result.failed, result.attempted), (0, 1))
