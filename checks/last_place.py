"""Of the 32 places for sessions the last free one is given only to a session that asks for the status or a stop first; others are answered
8. So nobody who keeps places keeps out whoever is to see what the daemon does, or to end it.
"""

import time

import agreed
from beside import again, seat
from daemon import new_daemon
from program import insert, line

STATUS, STOP, TEXT = line(op="status"), line(op="stop"), line(op="text", doc=1)
BUSY = agreed.refused(8)
PLACES = agreed.LIMITS["sessions"]
# Seconds within which a session that says nothing loses the last place, and a busy machine's slack.
SILENT, SLACK = 1, 4
REFUSED = {
    "an edit": insert(0, "x"), "a text": TEXT, "an unknown request": line(op="fly"), "no request": b"x\n", "an empty line": b"\n",
    "a long line": b" " * 5_000 + STATUS, "a status behind an edit": insert(0, "x") + STATUS, "HTTP": b"GET / HTTP/1.1\r\n\r\n",
}
TAKEN = {"a status": STATUS, "a status with spaces": b' {  "op" : "status" }\n'}


def refused(daemon, data):
    """What a session that says this first is answered, and whether it is ended. One that comes while the place isn't free again is ended
    before its line was read, and may find a connection that was reset: then it comes again."""

    def said():
        talk = daemon.talk()
        try:
            talk.send(data)
            return talk.answer(), talk.ended()
        finally:
            talk.close()

    return again("an answer", said)


def taken(daemon, data):
    """A session whose first line this is, once the place is free."""

    def served():
        talk = daemon.talk()
        try:
            if talk.ask(data)["ok"]:
                return talk
        except OSError:
            pass
        talk.close()
        return None

    return again("the last place", served)


def check_refused(checks, daemon):
    """With one place left, others than those who ask for the status or a stop are answered 8, and what they ask isn't done."""
    for what, data in REFUSED.items():
        checks.same(f"a session in the last place that says {what} first", refused(daemon, data), (BUSY, True))
    begun = time.monotonic()
    talk = daemon.talk()
    checks.same("one that says nothing", talk.answer(), BUSY)
    checks.holds("it is refused soon", time.monotonic() - begun < SILENT + SLACK)
    talk.close()


def check_taken(checks, daemon):
    """A session that asks for the status first may have the last place, and then ask for all else; also one that sends a byte at a time."""
    for what, data in TAKEN.items():
        talk = taken(daemon, data)
        checks.same(f"an edit behind {what}", talk.ask(insert(0, "y"))["ok"], True)
        talk.send(STATUS * 3 + TEXT)
        checks.same(f"more behind {what}", [talk.answer()["ok"] for _ in range(4)], [True] * 4)
        talk.close()
    again("a status by the byte", lambda: by_the_byte(daemon))


def by_the_byte(daemon):
    """Whether a session in the last place that sends its request byte by byte is served."""
    talk = daemon.talk()
    try:
        for byte in STATUS:
            talk.send(bytes([byte]))
            time.sleep(0.005)
        return talk.answer()["ok"]
    finally:
        talk.close()


def check(checks, program, _until):
    daemon, talks = new_daemon(program, "last-place"), []
    try:
        talks += [seat(daemon) for _ in range(PLACES - 1)]
        check_refused(checks, daemon)
        checks.same("nothing of them is done", talks[0].ask(TEXT), {"ok": True, "rev": 0, "text": ""})
        check_taken(checks, daemon)
        talks.append(seat(daemon))
        late = daemon.talk()
        checks.same("one more", (late.answer(), late.ended()), (BUSY, True))
        talks.pop(0).close()
        taken(daemon, STATUS).close()
        checks.same("an edit in a place that came back", refused(daemon, insert(0, "x")), (BUSY, True))
        taken(daemon, STOP).close()
        for talk in talks:
            talk.close()
        checks.same("the end", daemon.ended(), (0, b"", b""))
    except (OSError, TimeoutError) as error:
        checks.same("the last place comes to its end", repr(error), None)
        daemon.kill()
