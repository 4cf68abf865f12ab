"""Imports a folder of Markdown, a document for each file: python3 examples/import_markdown.py FOLDER FILE

Strong text, emphasis and links become marks. All else stays as it is written, as plain text: a heading keeps its `#`."""

import itertools
import os
import re
import sys
from pathlib import Path

import peritext

PROGRAM = os.environ.get("PERITEXT", "peritext")
PARTS = re.compile(
    r"(?P<plain>(?P<ticks>`+).+?(?P=ticks)(?!`)|!\[[^\]]*\]\([^)]*\))"
    r"|\\(?P<escaped>[!-/:-@\[-`{-~])"
    r"|(?P<two>\*\*|(?<!\w)__)(?=\S)(?P<strong>(?:(?!\n\n).)+?)(?<!\s)(?P=two)(?!\*)(?!(?<=_)\w)"
    r"|(?P<one>\*|(?<!\w)_)(?=\S)(?P<em>(?:(?!\n\n).)+?)(?<![\s*_])(?P=one)(?!\*)(?!(?<=_)\w)"
    r"|\[(?P<shown>[^\]]+)\]\((?P<url>[^)\s]+)\)",
    re.DOTALL,
)


def runs(text, marks=()):
    """The text in runs, each with its marks."""
    end = 0
    for part in PARTS.finditer(text):
        yield text[end : part.start()], marks
        end = part.end()
        kinds = {"strong": peritext.STRONG, "em": peritext.EM, "shown": peritext.Link(part["url"] or "")}
        name = next((name for name in kinds if part[name]), None)
        if name is None:
            yield part["plain"] or part["escaped"], marks
        else:
            yield from runs(part[name], (*marks, kinds[name]))
    yield text[end:], marks


def put_in(document, text):
    """The whole text with its marks: all at once, as far as one line takes it."""
    with document.action(parted=True) as action:
        # Before the marks: what is put in after strong text is strong as well.
        action.insert(0, "".join(run for run, _ in runs(text)))
        place = 0
        for run, marks in runs(text):
            for mark in marks if run else ():
                action.mark(place, place + len(run), mark)
            place += len(run)


if __name__ == "__main__":
    folder, file = sys.argv[1:]
    if not os.path.exists(file):
        peritext.init(file, program=PROGRAM)
    with peritext.open(file, program=PROGRAM) as session:
        free = (number for number in itertools.count(1) if session.document(number).rev() == 0)
        for path, number in zip(sorted(Path(folder).glob("*.md")), free):
            put_in(session.document(number), path.read_text(encoding="utf-8").rstrip("\n") or " ")
            print(number, path.name)
