"""Documents of the peritext program: open a file or connect to a daemon, edit, read text and spans.

>>> import peritext
>>> with peritext.open(a_file, program=the_program) as session:
...     notes = session.document(1)
...     notes.insert(0, "The quick fox")
...     notes.mark(4, 9, peritext.STRONG)
...     notes.text()
...     notes.spans()
13
14
'The quick fox'
[Span(text='The '), Span(text='quick', strong=True), Span(text=' fox')]
"""

from .action import Action, Lasting
from .changing import Changes, Delete, Insert, Retain, Step, applied
from .counting import DocumentCounts, Room, Version
from .daemon import connect
from .document import Document, Found, Reading
from .file import init, open
from .following import Delta, Follow, Followed, Reset
from .marks import EM, STRONG, Comment, Link, Mark, Marks, Span
from .peers import Connected, Peer
from .refusals import Ended, NoDaemon, Refused, Stale
from .session import Session
from .watching import Settled, Watch, WatchMany

__all__ = [
    "Action",
    "Changes",
    "Comment",
    "Connected",
    "Delete",
    "Delta",
    "Document",
    "DocumentCounts",
    "EM",
    "Ended",
    "Follow",
    "Followed",
    "Found",
    "Insert",
    "Lasting",
    "Link",
    "Mark",
    "Marks",
    "NoDaemon",
    "Peer",
    "Reading",
    "Refused",
    "Reset",
    "Retain",
    "Room",
    "STRONG",
    "Session",
    "Settled",
    "Span",
    "Stale",
    "Step",
    "Version",
    "Watch",
    "WatchMany",
    "applied",
    "connect",
    "init",
    "open",
]
