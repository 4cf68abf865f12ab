"""The examples of the project that are written in Python, over the program."""

import os
import subprocess
import sys
import time
from pathlib import Path

import peritext
from support import CLIENT, PATIENCE, PROGRAM, WithDaemon, WithFile, free_port

EXAMPLES = Path(CLIENT).parent.parent / "examples"
AROUND = {**os.environ, "PERITEXT": PROGRAM, "PYTHONPATH": str(Path(CLIENT) / "src"), "PYTHONIOENCODING": "utf-8"}


def run(name, *words):
    """What an example printed, its exit status, and what it complained of."""
    ran = subprocess.run([sys.executable, EXAMPLES / name, *map(str, words)], env=AROUND, capture_output=True, encoding="utf-8", timeout=120)
    return ran.stdout, ran.returncode, ran.stderr


class Notes(WithFile):
    def notes(self, *words):
        printed, status, said = run("notes.py", self.name + "-notes", *words)
        self.assertEqual((status, said), (0, ""))
        return printed.splitlines()

    def test_notes_are_added_listed_found_and_dropped(self):
        self.assertEqual(self.notes(), [])
        self.assertEqual(self.notes("add", "Buy", "milk"), ["1"])
        self.assertEqual(self.notes("add", "Grüße 🦊"), ["2"])
        self.notes("more", "1", "and", "bread")
        self.assertEqual(self.notes(), ["   1  Buy milk", "   2  Grüße 🦊"])
        self.assertEqual(self.notes("show", "1"), ["Buy milk", "and bread"])
        self.assertEqual(self.notes("list", "BREAD"), ["   1  Buy milk"])
        self.notes("drop", "1")
        self.assertEqual(self.notes("list"), ["   2  Grüße 🦊"])
        # The number of a note that was dropped isn't given again.
        self.assertEqual(self.notes("add", "x" * 600), ["3"])
        self.assertEqual(self.notes("show", "3"), ["x" * 600])

    def test_what_is_no_command_is_told_how_it_goes(self):
        for words in ([], [self.name, "sing"], [self.name, "show"], [self.name, "show", "one"], [self.name, "add"]):
            printed, status, said = run("notes.py", *words)
            self.assertEqual((printed, status), ("", 1))
            self.assertIn("Notes on the command line", said)

    def test_a_file_that_is_in_use_is_refused(self):
        with self.open():
            printed, status, said = run("notes.py", self.name)
        self.assertEqual((printed, status), ("", 1))
        self.assertIn("notes: 54 open failed", said)


MARKDOWN = {
    "a.md": "# Title\n\nSome **strong** and *emphasized* text, ***both***, and [a **link**](https://example.org/a_b).\n",
    "b.md": "- one `**code**`\n- snake_case, 2 * 3 * 4, \\*escaped\\*, ![alt *x*](picture.png)\n\n__un\n\nclosed__ _em_",
    "c.md": "",
    "d.md": "ä🦊" * 500 + " **end**",
    "other.txt": "no Markdown",
}


class Import(WithFile):
    def setUp(self):
        super().setUp()
        self.folder = Path(self.room.name) / "texts"
        self.folder.mkdir()
        for name, text in MARKDOWN.items():
            (self.folder / name).write_text(text, encoding="utf-8")

    def test_a_folder_becomes_documents(self):
        with self.open() as session:
            session.document(2).insert(0, "there already")
        self.assertEqual(run("import_markdown.py", self.folder, self.name), ("1 a.md\n3 b.md\n4 c.md\n5 d.md\n", 0, ""))
        link = "https://example.org/a_b"
        with self.open() as session:
            self.assertEqual(
                session.document(1).spans(),
                [
                    peritext.Span("# Title\n\nSome "),
                    peritext.Span("strong", strong=True),
                    peritext.Span(" and "),
                    peritext.Span("emphasized", em=True),
                    peritext.Span(" text, "),
                    peritext.Span("both", strong=True, em=True),
                    peritext.Span(", and "),
                    peritext.Span("a ", link=link),
                    peritext.Span("link", strong=True, link=link),
                    peritext.Span("."),
                ],
            )
            self.assertEqual(session.document(2).text(), "there already")
            self.assertEqual(
                session.document(3).spans(),
                [
                    peritext.Span("- one `**code**`\n- snake_case, 2 * 3 * 4, *escaped*, ![alt *x*](picture.png)\n\n__un\n\nclosed__ "),
                    peritext.Span("em", em=True),
                ],
            )
            self.assertEqual(session.document(4).text(), " ")
            self.assertEqual(session.document(5).spans(), [peritext.Span("ä🦊" * 500 + " "), peritext.Span("end", strong=True)])

    def test_a_file_that_isn_t_there_is_made(self):
        name = self.name + "-new"
        self.assertEqual(run("import_markdown.py", self.folder, name)[1:], (0, ""))
        with peritext.open(name, program=PROGRAM) as session:
            self.assertTrue(session.document(1).text().startswith("# Title"))


class Backup(WithDaemon):
    def setUp(self):
        super().setUp()
        self.folder = Path(self.room.name) / "backups"

    def back_up(self):
        printed, status, said = run("backup.py", self.daemon.peers, self.folder, "--once")
        self.assertEqual(status, 0, said)
        return Path(printed.splitlines()[-1])

    def test_each_round_leaves_a_copy_and_what_it_shows(self):
        session = self.connect()
        session.document(1).insert(0, "The quick fox")
        session.document(1).mark(4, 9, peritext.STRONG)
        session.document(7).insert(0, "x" * 5_000)
        first = self.back_up()
        self.assertEqual(sorted(it.name for it in first.iterdir()), ["1.md", "7.md", "copy"])
        self.assertEqual((first / "1.md").read_text().strip(), "The **quick** fox")
        session.document(1).insert(0, "Later: ")
        time.sleep(1)
        second = self.back_up()
        self.assertEqual((second / "1.md").read_text().strip(), "Later: The **quick** fox")
        self.assertEqual((first / "1.md").read_text().strip(), "The **quick** fox")
        with peritext.open(first / "copy", program=PROGRAM) as copy:
            self.assertEqual(copy.document(1).text(), "The quick fox")
            self.assertEqual(copy.document(7).text(), "x" * 5_000)
        # It was joined for the rounds alone.
        until = time.monotonic() + PATIENCE
        while session.peers().peers and time.monotonic() < until:
            time.sleep(0.05)
        self.assertEqual(session.peers().peers, [])

    def test_without_a_daemon_it_says_so(self):
        printed, status, said = run("backup.py", free_port(), self.folder, "--once")
        self.assertEqual((printed, status), ("", 1))
        self.assertIn("backup: nobody could be joined on port", said)
