"""The daemon over sockets: the worked rows, many sessions at once, links, kills, and those who behave badly."""

import os
import signal
import socket
import subprocess
import threading
import time

from agreed import LIMITS, refused
from daemon import Daemon, Talk, connection, free_ports, new_daemon, within
from program import NAME, REPLICA, delete, fault, insert, line, new_file, run, text_of, texts

COMMENT = "00000000-0000-4000-8000-0000000000c"
OTHER = REPLICA[:-1] + "2"
THIRD = REPLICA[:-1] + "3"
STOP = line(op="stop")
STOPPED = {"ok": True}
ENDED = (0, b"", b"")
BUSY = refused(8)
STATUS = line(op="status")
SESSIONS, LINKS = LIMITS["sessions"], LIMITS["links"]
HELLO = bytes.fromhex("00000013010003") + bytes.fromhex("00000000000040008000000000000009")


def text(doc=1):
    return line(op="text", doc=doc)


def mark(kind, first, last, **more):
    return line(op="mark", doc=1, **{"from": first}, to=last, kind=kind, **more)


def unmark(kind, first, last, **more):
    return line(op="unmark", doc=1, **{"from": first}, to=last, kind=kind, **more)


def spans():
    return line(op="spans", doc=1)


def shown(rev, *them):
    return {"ok": True, "rev": rev, "spans": list(them)}


def done(rev):
    return {"ok": True, "rev": rev}


# Lines of one session over a fresh store, each with its answer.
ROWS = {
    "a fresh store": [
        (text(9), {"ok": True, "rev": 0, "text": ""}),
        (STATUS, {"applied": 0, "ok": True, "settled": 0, "state": "open"}),
    ],
    "strong grows": [
        (insert(0, "abc"), done(3)), (text(), {"ok": True, "rev": 3, "text": "abc"}), (mark("strong", 0, 3), done(4)),
        (insert(3, "d"), done(5)),
        (line(op="spans", doc=1), {"ok": True, "rev": 5, "spans": [{"strong": True, "text": "abcd"}]}),
    ],
    "a link doesn't": [
        (insert(0, "abc"), done(3)), (mark("link", 0, 2, url="u"), done(4)), (insert(2, "x"), done(5)),
        (line(op="spans", doc=1), {"ok": True, "rev": 5, "spans": [{"link": "u", "text": "ab"}, {"text": "xc"}]}),
    ],
    "em grows": [
        (insert(0, "abc"), done(3)), (mark("em", 0, 2), done(4)), (insert(2, "x"), done(5)),
        (spans(), shown(5, {"em": True, "text": "abx"}, {"text": "c"})),
    ],
    "an unmark grows": [
        (insert(0, "ab"), done(2)), (mark("strong", 0, 2), done(3)), (unmark("strong", 1, 2), done(4)), (insert(2, "c"), done(5)),
        (spans(), shown(5, {"strong": True, "text": "a"}, {"text": "bc"})),
    ],
    "a link behind a tombstone": [
        (insert(0, "ab"), done(2)), (mark("link", 0, 2, url="u"), done(3)), (delete(1, 1), done(4)), (insert(1, "x"), done(5)),
        (spans(), shown(5, {"link": "u", "text": "a"}, {"text": "x"})),
    ],
    "a link of nothing": [
        (insert(0, "a"), done(1)), (mark("link", 0, 1, url="u"), done(2)), (delete(0, 1), done(3)), (insert(0, "x"), done(4)),
        (spans(), shown(4, {"text": "x"})),
    ],
    "strong over strong": [
        (insert(0, "The fox jumped"), done(14)), (mark("strong", 0, 7), done(15)), (mark("strong", 4, 14), done(16)),
        (spans(), shown(16, {"strong": True, "text": "The fox jumped"})),
    ],
    "comments over one another": [
        (insert(0, "abc"), done(3)), (mark("comment", 0, 2, id=COMMENT + "1"), done(4)), (mark("comment", 1, 3, id=COMMENT + "2"), done(5)),
        (spans(), shown(5, {"comments": [COMMENT + "1"], "text": "a"}, {"comments": [COMMENT + "1", COMMENT + "2"], "text": "b"},
                        {"comments": [COMMENT + "2"], "text": "c"})),
        (unmark("comment", 1, 2, id=COMMENT + "1"), done(6)),
        (spans(), shown(6, {"comments": [COMMENT + "1"], "text": "a"}, {"comments": [COMMENT + "2"], "text": "bc"})),
    ],
    "the fields of a line": [
        (insert(0, "a"), done(1)), (insert(0, "a", doc=0), refused(4)), (b'{"op":"insert","doc":1,"at":1.0,"text":"b"}\n', refused(4)),
        (b"[" * 100 + b"]" * 100 + b"\n", refused(3)), (b"[" * 200 + b"]" * 200 + b"\n", refused(2)),
        (mark("link", 0, 1, url="u" * 1_025), refused(4)), (mark("link", 0, 1, url="u" * 1_024), done(2)),
        (spans(), shown(2, {"link": "u" * 1_024, "text": "a"})),
    ],
    "limits": [
        (insert(0, "x" * 257), refused(7)), (insert(0, "x" * 256), done(256)), (delete(256, 1), refused(5)),
        (delete(255, 2), refused(5)), (line(op="delete", doc=1, at=255, count=1, rev=255), refused(6)),
        (line(op="delete", doc=1, at=255, count=1, rev=256), done(257)),
    ],
    "lines that are no requests": [
        (b"[\n", refused(2)), (b"\n", refused(2)), (b"\xff\n", refused(2)),
        (b'{"op":"fly"}\n', refused(3)), (b"7\n", refused(3)),
        (line(op="insert", doc=1, at=0, text=""), refused(4)), (b" " * 65_537 + b"\n", refused(11)),
        (b" " * 65_536 + b"\n", refused(2)), (insert(0, "a"), done(1)),
    ],
}


def check_rows(checks, program):
    for row, lines in ROWS.items():
        daemon = new_daemon(program, "served")
        talk = daemon.talk()
        for request, answer in lines:
            checks.same(f"{row}: {request[:60]}", talk.ask(request), answer)
        other = daemon.talk()
        checks.same(f"{row}: a second session sees the same", other.ask(text()), talk.ask(text()))
        checks.same(f"{row}: the end", daemon.stop(), (STOPPED, ENDED))


def check_many(checks, program):
    """Eight sessions at once; each answered edit is there, also behind a kill."""
    for end in ("stop", "kill"):
        daemon = new_daemon(program, "many")
        answered = []

        def edit(number):
            talk = daemon.talk()
            for k in range(40):
                try:
                    answer = talk.ask(insert(0, chr(ord("a") + number), doc=number + 1))
                except OSError:
                    return
                if answer is None:
                    return
                answered.append((number, k, answer))

        threads = [threading.Thread(target=edit, args=(number,)) for number in range(8)]
        for thread in threads:
            thread.start()
        if end == "kill":
            within("some edits", lambda: len(answered) > 100)
            daemon.kill()
        for thread in threads:
            thread.join()
        checks.holds(f"{end}: each answer is the next of its document", all(a == done(k + 1) for _, k, a in answered))
        if end == "stop":
            checks.same("all edits of eight sessions are answered", len(answered), 320)
            checks.same("the end of eight sessions", daemon.stop(), (STOPPED, ENDED))
        again = Daemon(program, "many", ports=(daemon.sessions, daemon.peers))
        talk = again.talk()
        for number in range(8):
            count = sum(1 for n, _, _ in answered if n == number)
            found = talk.ask(text(number + 1))
            checks.holds(f"{end}: document {number + 1}: {count} answered", count <= found["rev"] <= count + 1)
            checks.same(f"{end}: its text", found["text"], chr(ord("a") + number) * found["rev"])
        again.stop()


def same_texts(one, other, docs=(1,)):
    return all(one.ask(text(doc)) == other.ask(text(doc)) for doc in docs)


def check_links(checks, program):
    """Two that edit apart and are linked; one is killed while both edit, and comes back on its ports."""
    first = new_daemon(program, "first")
    first.talk().ask(insert(0, "a"))
    first.stop()
    second = new_daemon(program, "second", OTHER)
    second.talk().ask(insert(0, "b"))
    first = Daemon(program, "first", link=second.peers)
    one, other = first.talk(), second.talk()
    wanted = {"ok": True, "rev": 2, "text": "ba"}
    within("both have both", lambda: one.ask(text()) == wanted == other.ask(text()))
    checks.same("both inserts, the same way round", one.ask(text()), wanted)

    answered = {1: 0, 2: 0}

    def edit(daemon, doc):
        talk = None
        while not over.is_set():
            try:
                talk = talk or daemon.talk()
                answer = talk.ask(insert(0, "x", doc=doc + 1))
            except OSError:
                answer = None
            if answer is None:
                talk = None
            elif answer.get("ok"):
                answered[doc] += 1

    over = threading.Event()
    threads = [threading.Thread(target=edit, args=pair) for pair in ((first, 1), (second, 2))]
    for thread in threads:
        thread.start()
    for kill in range(4):
        before = dict(answered)
        within("edits at both", lambda: all(answered[doc] > before[doc] + 20 for doc in answered))
        daemon = (first, second)[kill % 2]
        daemon.kill()
        daemon.start()
    over.set()
    for thread in threads:
        thread.join()
    one, other = first.talk(), second.talk()
    within("both are the same again", lambda: same_texts(one, other, (1, 2, 3)))
    for doc in answered:
        found = one.ask(text(doc + 1))["rev"]
        checks.holds(f"{answered[doc]} answered edits, {found} there", answered[doc] <= found)
    one.close()
    other.close()
    checks.same("the end of the second", second.stop(), (STOPPED, ENDED))
    checks.same("the end of the first, whose peer is gone", first.stop(), (STOPPED, ENDED))


def check_three(checks, program):
    """Three in a row: what the ends make comes to each other."""
    middle = new_daemon(program, "middle")
    left = new_daemon(program, "left", OTHER, link=middle.peers)
    right = new_daemon(program, "right", THIRD, link=middle.peers)
    talks = [daemon.talk() for daemon in (left, middle, right)]
    for number, talk in enumerate(talks):
        for k in range(30):
            talk.ask(insert(k, "lmr"[number]))
    within("all have all", lambda: all(talk.ask(text())["rev"] == 90 for talk in talks))
    checks.same("all show the same", len({talk.ask(text())["text"] for talk in talks}), 1)
    for talk in talks:
        talk.close()
    for daemon in (left, right, middle):
        checks.same("one of three ends", daemon.stop(), (STOPPED, ENDED))


def check_crowd(checks, program):
    """The 33rd session, the ninth link, and places that come back."""
    daemon = new_daemon(program, "crowd")
    talks = []

    def is_served():
        talk = daemon.talk()
        try:
            if talk.ask(STATUS) == BUSY:
                return False
        except OSError:
            return False
        talks.append(talk)
        return True

    for _ in range(SESSIONS):
        # The probe of the start may have its place still.
        within("a session is served", is_served)
    late = daemon.talk()
    checks.same("a 33rd session", (late.answer(), late.ended()), (BUSY, True))
    talks.pop().close()
    within("a place came back", is_served)
    links = []
    for _ in range(LINKS):
        link = connection(daemon.peers)
        checks.holds("a link is greeted", link.recv(23).startswith(bytes.fromhex("00000013010003")))
        links.append(link)
    ninth = connection(daemon.peers)
    checks.same("a ninth link", ninth.recv(23), b"")
    links.pop().close()

    def is_greeted():
        link = connection(daemon.peers)
        links.append(link)
        return link.recv(23) != b""

    within("a link's place came back", is_greeted)
    started = time.monotonic()
    checks.same("a stop beside 32 sessions and 8 links", talks[0].ask(STOP), STOPPED)
    checks.same("its end", daemon.ended(), ENDED)
    checks.holds("it ends soon", time.monotonic() - started < 5)


def check_rude(checks, program):
    """Peers and sessions that stall, stop in the middle, say nonsense or never read."""
    daemon = new_daemon(program, "rude")
    talk = daemon.talk()
    half = daemon.talk()
    half.send(b'{"op":"insert","doc":1')
    silent = connection(daemon.peers)
    stuck = daemon.talk()
    stuck.socket.settimeout(0.5)
    talk.ask(insert(0, "x" * 256))
    try:
        for _ in range(200_000):
            stuck.send(text())
    except TimeoutError:
        pass
    checks.same("an edit beside them", talk.ask(insert(0, "a")), done(257))
    for what, frames in [
        ("no frame", b"\xff\xff\xff\xff"), ("nonsense", b"GET / HTTP/1.1\r\n\r\n"), ("a HAVE before HELLO", b"\0\0\0\2\2\0"),
        ("our own name", bytes.fromhex("00000013010003") + NAME),
        ("a frame of no type", HELLO + b"\0\0\0\1\x09"), ("a BYE", HELLO + b"\0\0\0\1\4"),
        ("an operation of ours that we don't know", HELLO + bytes.fromhex("00000042030001" "0000003b0100000001000000000000ffff")
            + NAME + b"\1" + NAME + bytes.fromhex("00000000000003e8" "0000000061")),
    ]:
        link = connection(daemon.peers)
        link.sendall(frames)
        link.settimeout(10)
        ended = False
        try:
            while link.recv(4096):
                pass
            ended = True
        except ConnectionResetError:
            ended = True
        except TimeoutError:
            pass
        checks.holds(f"a link ends behind {what}", ended)
        link.close()
    half.close()
    for _ in range(100):
        Talk(daemon.sessions).close()
    checks.same("an edit behind them", talk.ask(insert(0, "b")), done(258))
    started = time.monotonic()
    checks.same("a stop beside a silent peer and one that never reads", talk.ask(STOP), STOPPED)
    checks.same("its end", daemon.ended(), ENDED)
    checks.holds("it ends soon", time.monotonic() - started < 8)
    silent.close()
    stuck.close()


def check_starts(checks, program):
    """Ports that are taken, a peer that isn't there, a file that is held, bad words."""
    new_file(program, "start")
    sessions, peers = free_ports(2)
    words = lambda a, b, *more: ["serve", "start", "--sessions", str(a), "--peers", str(b), *more]
    with socket.create_server(("127.0.0.1", 0)) as taken:
        port = taken.getsockname()[1]
        checks.same("a sessions port that is taken", run(program, *words(port, peers)), fault(70))
        checks.same("a peers port that is taken", run(program, *words(sessions, port)), fault(70))
    checks.same("a peer that isn't there", run(program, *words(sessions, peers, "--link", str(free_ports(1)[0]))), fault(70))
    for bad in ("0", "65536", "x", "", "+1", "1.0"):
        checks.same(f"port {bad!r}: its status", run(program, *words(bad, peers))[0], 2)
    daemon = Daemon(program, "start")
    checks.same("a second one on the file", run(program, *words(sessions, peers)), fault(54))
    checks.same("the first one's end", daemon.stop(), (STOPPED, ENDED))
    checks.same("no file", run(program, "serve", "none", "--sessions", str(sessions), "--peers", str(peers)), fault(54))
    checks.holds("serve makes no file", not os.path.exists("none"))
    with open("junk", "wb") as file:
        file.write(b"junk" * 4096)
    checks.same("a file that is no store", run(program, "serve", "junk", "--sessions", str(sessions), "--peers", str(peers)), fault(42))


def check(checks, program, until):
    for part in (check_rows, check_starts, check_many, check_links, check_three, check_crowd, check_rude):
        if time.monotonic() > until:
            checks.holds(f"{part.__name__} in time", False)
            continue
        try:
            part(checks, program)
        except (OSError, TimeoutError, subprocess.TimeoutExpired) as error:
            checks.same(f"{part.__name__} comes to its end", repr(error), None)
        finally:
            subprocess.run(["pkill", "-KILL", "-P", str(os.getpid()), "-x", os.path.basename(program)], check=False)
