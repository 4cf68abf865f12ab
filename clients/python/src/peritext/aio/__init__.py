"""Documents of the peritext program with asyncio: the calls of `peritext`, to be awaited.

    import asyncio
    from peritext import STRONG, aio

    async def main():
        async with aio.connect(7001) as session:
            notes = session.document(1)
            await notes.insert(0, "The quick fox")
            await notes.mark(4, 9, STRONG)
            print(await notes.text(), await notes.spans())

    asyncio.run(main())

They send the same requests in the same order, and answer and raise the same. Marks, spans, steps and refusals are those of `peritext`. Threads write
and read beside the event loop, which waits for none of them; a session may be used by the tasks of one loop.

A call that is cancelled, as by `asyncio.wait_for`, ends at once, and its session goes on for all others. What it has asked by then may be made, also
later, once a lost connection is made anew: an edit with a `token` can be sent again.
"""

from .document import Action, Document
from .following import Follow, Watch, WatchMany
from .opening import Opening
from .session import Session, connect, init, open

__all__ = [
    "Action",
    "Document",
    "Follow",
    "Opening",
    "Session",
    "Watch",
    "WatchMany",
    "connect",
    "init",
    "open",
]
