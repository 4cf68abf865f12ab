"""The types of the package, and what `help` says of it."""

import inspect
import os
import shutil
import subprocess
import tempfile
import unittest

import peritext
from peritext import aio
from support import CLIENT

SOURCE = os.path.join(CLIENT, "src")
# What a program may write, and what it may not: mypy complains of an `ignore` that isn't needed.
PROGRAM = """
from typing import List

import peritext
from peritext import aio


def waits() -> List[peritext.Span]:
    with peritext.connect(7001) as session, session.document(1).follow() as deltas:
        shown: List[peritext.Span] = []
        for delta in deltas:
            shown = delta.on(shown)
        rev: int = session.document(1).insert("0", "x")  # type: ignore[arg-type]
        caret: peritext.Lasting = session.document(1).anchor(0)
        kept: str = caret
        session.document(1).insert(peritext.Lasting(kept), "x")
        session.document(1).mark(caret, "end", peritext.EM)
        found: peritext.Found = session.document(1).find("fox", start=3)
        session.document(1).delete(found.places[0], 3, found.rev)
        page: str = session.document(1).export("html") + session.document(1).export("html", breaks=True)
        free: int = 100 - len(page)
        counted: List[peritext.DocumentCounts] = session.documents()
        writers: List[str] = [writer for it in counted for writer in it.writers]
        versions: List[peritext.Version] = session.document(1).versions(every=100)
        was: str = session.document(1).text(at_rev=versions[0].rev)
        free = len(was) + len(session.document(1).spans(at_rev=0))
        session.document(1).versions()  # type: ignore[call-arg]
        room: peritext.Room = session.room()
        free += room.bytes_limit - room.bytes + len(writers)
        room.steps = 0  # type: ignore[misc]
        session.watch_many("every")  # type: ignore[arg-type]
        for number, told in session.watch_many([1, 2]):
            free -= number + told
        return session.document(1).spans()


async def awaits() -> int:
    async with aio.connect(7001, retry=None) as session:
        notes = session.document(1)
        async with notes.action(await notes.rev()) as action:
            action.insert(0, "x")
            action.delete(await notes.anchor(1), 1)
            action.insert("start", "x")
        shown: List[peritext.Span] = []
        async for delta in notes.follow():
            shown = delta.on(shown)
        async with session.watch_many("all") as all_of_them:
            async for settled in all_of_them:
                print(settled.doc, settled.rev)
        async with session.watch(1) as revs:
            async for rev in revs:
                return rev + len(await notes.text()) + (await session.documents())[0].number + (await session.room()).steps
    other: aio.Session = await aio.open("notes")
    place: int = await other.document(1).place("start")  # type: ignore[assignment]
    return place
"""


class Types(unittest.TestCase):
    @unittest.skipUnless(shutil.which("mypy"), "mypy isn't installed")
    def test_mypy_finds_nothing_in_the_package_nor_in_a_program_that_uses_it(self):
        with tempfile.TemporaryDirectory() as room:
            program = os.path.join(room, "program.py")
            with open(program, "w", encoding="utf-8") as file:
                file.write(PROGRAM)
            words = ["mypy", "--strict", "--cache-dir", os.path.join(room, "cache"), "peritext", program]
            ran = subprocess.run(words, cwd=SOURCE, capture_output=True, text=True)
        self.assertEqual(ran.returncode, 0, ran.stdout + ran.stderr)


class Help(unittest.TestCase):
    def test_all_that_is_there_for_others_says_what_it_is(self):
        for module in (peritext, aio):
            self.assertTrue(module.__doc__)
            for name in module.__all__:
                it = getattr(module, name)
                if inspect.isfunction(it) or inspect.isclass(it):
                    self.assert_said(it, f"{module.__name__}.{name}")

    def assert_said(self, it, name):
        self.assertTrue(it.__doc__, name)
        # What marks are sent as is for the client itself.
        for inner, call in inspect.getmembers(it, inspect.isfunction) if inspect.isclass(it) else ():
            if not inner.startswith("_") and inner not in ("fields", "key"):
                self.assertTrue(call.__doc__, f"{name}.{inner}")
