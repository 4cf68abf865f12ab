"""WebSockets at `--web`: each is a session, a message is lines and an answer is a message; who may come in, what each break of RFC 6455 is
answered, and the same with a client that others wrote, where there is one.
"""

import asyncio
import json
import threading
import time

from agreed import LIMITS, refused
from daemon import HOST, PATIENCE, Daemon, connection, free_ports, new_daemon, within
from journal import events, only
from program import fault, insert, line, run
from web_frames import BINARY, CLOSE, PING, PONG, TEXT, WebSocket, accept_of, frame, head

PAGE = "http://localhost:8080"
OTHER = "https://page.example"
PLACES = LIMITS["sessions"]
# Seconds that a busy machine takes more.
SLACK = 3
LONGEST = 65_536
# How a text frame begins whose length is in eight bytes.
LONG_FRAME = b"\x81\xff"
# Edits of 255 characters, whose text makes an answer longer than 65,536 bytes.
PARTS = 300
BUSY = refused(8)
SYNTAX = {"code": 2, "error": "syntax", "ok": False}
LONG = {"code": 11, "error": "line", "ok": False}
STATUS, STOP = line(op="status"), line(op="stop")
READ = line(op="text", doc=1)


class Web(Daemon):
    """A daemon to which web pages of two origins may come."""

    def __init__(self, program, name, flags=()):
        self.flags, (self.web,) = flags, free_ports(1)
        super().__init__(program, name)

    def words(self):
        return [*super().words(), "--web", str(self.web), "--origin", PAGE, "--origin", OTHER, *self.flags]

    def open(self, **how):
        return WebSocket(self.web, **how)


def web_daemon(program, name):
    new_daemon(program, name).stop()
    daemon = Web(program, name)
    connection(daemon.web).close()
    return daemon


def closed(daemon, *frames):
    """The code with which a connection is closed that says this, and whether its end is next."""
    made = daemon.open()
    made.send(*frames)
    code = made.answer()
    ended = made.ended()
    made.close()
    return code, ended


def check_sessions(checks, daemon):
    """A session over a WebSocket, beside one over lines."""
    made = daemon.open()
    checks.same("the status of a handshake", made.status, 101)
    checks.holds("the answer to its key", f"sec-websocket-accept: {accept_of(made.key)}" in made.answered.lower().replace(accept_of(made.key).lower(), accept_of(made.key)))
    checks.same("an edit", made.ask(insert(0, "ab")), {"ok": True, "rev": 2})
    checks.same("a line without its line feed", made.ask(READ.strip()), {"ok": True, "rev": 2, "text": "ab"})
    made.say(insert(2, "c") + READ + READ.strip())
    checks.same("three lines in a message", [made.answer() for _ in range(3)], [{"ok": True, "rev": 3}, *[{"ok": True, "rev": 3, "text": "abc"}] * 2])
    checks.same("an empty message", made.ask(b""), SYNTAX)
    checks.same("a line feed", made.ask(b"\n"), SYNTAX)
    talk = daemon.talk()
    checks.same("a session of lines beside it", talk.ask(READ), {"ok": True, "rev": 3, "text": "abc"})
    talk.close()
    cut = READ.strip()
    made.send(frame(TEXT, cut[:5], fin=False), frame(PING, b"here?"), frame(0, cut[5:9], fin=False), frame(0, cut[9:]))
    checks.same("a ping within a message", made.frame(), (PONG, b"here?"))
    checks.same("a message in three frames", made.answer(), {"ok": True, "rev": 3, "text": "abc"})
    for byte in frame(TEXT, READ):
        made.send(bytes([byte]))
        time.sleep(0.0005)
    checks.same("a message byte by byte", made.answer(), {"ok": True, "rev": 3, "text": "abc"})
    made.send(frame(PONG, b"unasked"))
    for _ in range(PARTS):
        made.say(insert(0, "x" * 255, doc=2))
    checks.same("many edits at once", [made.answer()["rev"] for _ in range(PARTS)], [255 * (it + 1) for it in range(PARTS)])
    checks.same("a long answer", made.ask(line(op="text", doc=2))["text"], "x" * 255 * PARTS)
    made.send(frame(CLOSE, (1000).to_bytes(2, "big") + b"done"))
    checks.same("a close is answered", made.frame(), (CLOSE, (1000).to_bytes(2, "big") + b"done"))
    checks.holds("and the connection ends", made.ended())
    made.close()


def check_watch(checks, daemon):
    """A session that is told of changes, which a ping doesn't end."""
    made = daemon.open()
    first = made.ask(line(op="watch", doc=1))
    checks.same("the first number", first, {"ok": True, "rev": 3})
    made.send(frame(PING, b"still"))
    checks.same("a ping is answered within a watch", made.frame(), (PONG, b"still"))
    talk = daemon.talk()
    talk.ask(insert(0, "n"))
    talk.close()
    checks.same("the next number", made.answer(), {"ok": True, "rev": 4})
    made.send(frame(CLOSE, b""))
    checks.same("a close ends it", made.frame()[0], CLOSE)
    made.close()
    made = daemon.open()
    made.ask(line(op="watch", doc=1))
    made.say(READ)
    found = made.answer()
    while isinstance(found, dict):
        found = made.answer()
    checks.same("a line ends it", found, 1001)
    made.close()


def fill(made, data):
    """Sends these bytes again and again until the daemon takes no more, and then what is left of them at last."""
    at = 0
    made.socket.settimeout(0.5)
    try:
        while True:
            at = (at + made.socket.send(data[at:])) % len(data)
    except TimeoutError:
        made.socket.settimeout(PATIENCE)
    return data[at:] if at else b""


def check_full(checks, daemon):
    """One that is told of changes, and pings until nothing more is taken: each frame that it then reads is whole."""
    made = daemon.open()
    first = made.ask(line(op="watch", doc=1))["rev"]
    rest = fill(made, frame(PING, b"p" * 100) * 10)
    talk = daemon.talk()
    talk.ask(insert(0, "w"))
    talk.close()
    # Long enough for the daemon to tell of it where it would come into the middle of a pong.
    time.sleep(0.5)
    sender = threading.Thread(target=made.send, args=(rest,))
    sender.start()
    pongs, found = 0, (PONG, b"p" * 100)
    try:
        while found == (PONG, b"p" * 100):
            found, pongs = made.frame(), pongs + 1
        checks.same("the number between pongs", (found[0], json.loads(found[1])), (TEXT, {"ok": True, "rev": first + 1}))
        checks.holds(f"{pongs} pongs", pongs > 100)
        sender.join()
        made.send(frame(CLOSE, (1000).to_bytes(2, "big")))
        while (found := made.frame()) and found[0] == PONG:
            pass
        checks.same("its close is answered", found, (CLOSE, (1000).to_bytes(2, "big")))
    except (TypeError, ValueError) as error:
        checks.holds(f"frames that are whole: {error!r}", False)
    made.close()


def check_rules(checks, daemon):
    """What breaks a rule ends the connection with the code that is for it."""
    big = b" " * (LONGEST + 1)
    cases = (
        ("a binary message", 1003, [frame(BINARY, READ)]),
        ("a text that isn't UTF-8", 1007, [frame(TEXT, b"\xff")]),
        ("a text that ends within a character", 1007, [frame(TEXT, b"\xc3")]),
        ("a message that is too long", 1009, [frame(TEXT, big)]),
        ("a message that is too long in frames", 1009, [frame(TEXT, big[:40_000], fin=False), frame(0, big[:40_000])]),
        ("a frame without a mask", 1002, [frame(TEXT, READ, mask=b"")]),
        ("a reserved bit", 1002, [frame(TEXT, READ, reserved=4)]),
        ("another reserved bit", 1002, [frame(TEXT, READ, reserved=1)]),
        ("a kind that is for data later", 1002, [frame(3, READ)]),
        ("a kind that is for control later", 1002, [frame(11, b"")]),
        ("a rest without a beginning", 1002, [frame(0, READ)]),
        ("a message within a message", 1002, [frame(TEXT, b"{", fin=False), frame(TEXT, READ)]),
        ("a ping in parts", 1002, [frame(PING, b"", fin=False)]),
        ("a ping that is too long", 1002, [frame(PING, b"p" * 126)]),
        ("a close of one byte", 1002, [frame(CLOSE, b"\x03")]),
        ("a length in more bytes than it needs", 1002, [frame(TEXT, READ, length=8)]),
        ("a frame of 2^63 - 1 bytes", 1009, [LONG_FRAME + bytes([0x7F, *b"\xff" * 7]) + bytes(4)]),
        ("a frame of 2^64 - 1 bytes", 1002, [LONG_FRAME + b"\xff" * 8 + bytes(4)]),
        ("a message that never ends", 1009, [frame(TEXT, b"a", fin=False), *[frame(0, b"a" * 100, fin=False)] * 1_000]),
    )
    for what, code, frames in cases:
        checks.same(what, closed(daemon, *frames), (code, True))
    checks.same("a line of 65,536 bytes", daemon.open().ask(b" " * LONGEST), SYNTAX)
    made = daemon.open()
    made.send(frame(TEXT, READ), frame(BINARY, b"then this"))
    checks.same("what came before is answered", made.answer()["ok"], True)
    checks.same("and what breaks a rule then closes", made.answer(), 1003)
    made.close()


def check_rude(checks, daemon):
    """Who reads no answer holds up nobody, and nothing more is read of him."""
    made = daemon.open()
    made.socket.settimeout(1)
    try:
        while True:
            made.send(frame(PING, b"p" * 125) * 200)
    except TimeoutError:
        pass
    beside = daemon.open()
    checks.same("beside one who reads no answer", beside.ask(STATUS)["ok"], True)
    beside.close()
    made.close()
    made = daemon.open()
    made.send(frame(TEXT, b"", fin=False), *[frame(0, b"", fin=False)] * 50_000, frame(0, STATUS))
    checks.same("a message of many empty parts", made.answer()["ok"], True)
    made.close()


def check_guests(checks, daemon):
    """Who may come in."""
    port = daemon.web
    welcome = (
        {}, {"host": f"localhost:{port}"}, {"host": f"LOCALHOST:{port}"}, {"origin": PAGE}, {"origin": OTHER}, {"origin": PAGE, "host": f"localhost:{port}"}, {"path": "/any?where"},
    )
    for how in welcome:
        made = daemon.open(**how)
        checks.same(f"one that may come {how}", (made.status, made.ask(STATUS)["ok"]), (101, True))
        made.close()
    sent_away = (
        {"host": HOST}, {"host": "localhost"}, {"host": f"{HOST}:{daemon.sessions}"}, {"host": f"{HOST}.:{port}"}, {"host": f"page.example:{port}"}, {"host": f"127.0.0.1.nip.io:{port}"},
        {"host": f"[::1]:{port}"}, {"host": f"0.0.0.0:{port}"}, {"host": f"127.0.0.2:{port}"}, {"host": f"localhost:{port}@page.example"}, {"host": f"localhost:0{port}"},
        {"origin": "null"}, {"origin": ""}, {"origin": "http://localhost"}, {"origin": "http://localhost:8081"}, {"origin": "https://localhost:8080"}, {"origin": PAGE + "/"},
        {"origin": PAGE.upper()}, {"origin": PAGE + ".page.example"}, {"origin": f"{PAGE} {OTHER}"}, {"origin": "http://127.0.0.1:8080"}, {"origin": f"http://localhost:{port}"},
        {"extra": [f"Host: {HOST}:{port}"]}, {"origin": PAGE, "extra": [f"Origin: {OTHER}"]}, {"origin": PAGE, "extra": [f"origin: {PAGE}"]},
    )
    for how in sent_away:
        made = daemon.open(**how)
        checks.same(f"one that may not come {how}", (made.status, made.ended()), (403, True))
        made.close()


def said(port, data, cut=None, pause=0.0):
    """The status that is answered to this, in pieces of so many bytes, and None where nothing is."""
    made = connection(port)
    try:
        for at in range(0, len(data), cut or len(data)):
            made.sendall(data[at : at + (cut or len(data))])
            time.sleep(pause)
        found = b""
        while b"\r\n" not in found and (more := made.recv(65_536)):
            found += more
        return int(found.split()[1]) if found else None
    except (ConnectionResetError, BrokenPipeError):
        return None
    finally:
        made.close()


def check_heads(checks, daemon):
    """Heads that are cut, huge, slow, or no request for a WebSocket."""
    port = daemon.web
    whole = head(port)[0]
    for cut in (1, 7, 64):
        checks.same(f"a head in pieces of {cut}", said(port, whole, cut, 0.0002), 101)
    checks.same("a longer head by the byte", said(port, head(port, extra=["X: " + "x" * 500])[0], 1, 0.0002), 101)
    fields = [line for line in whole.decode().split("\r\n") if line]
    for missing in fields[2:]:
        without = "\r\n".join([*(it for it in fields if it != missing), "", ""]).encode()
        checks.holds(f"a head without {missing.split(':')[0]}", said(port, without) in (400, 426))
    checks.same("a page that is asked for", said(port, f"GET / HTTP/1.1\r\nHost: {HOST}:{port}\r\n\r\n".encode()), 400)
    checks.same("another method", said(port, whole.replace(b"GET", b"POST")), 400)
    checks.same("another version", said(port, head(port, version="8")[0]), 426)
    checks.holds("a huge head", said(port, head(port, extra=["X: " + "x" * 9_000])[0]) in (431, None))
    checks.holds("a head of many fields", said(port, head(port, extra=["X: x"] * 200)[0]) in (431, None))
    checks.holds("bytes that are no head", said(port, bytes(range(256)) * 4) in (400, None))
    checks.holds("lines of a session", said(port, STATUS + b"\r\n\r\n") in (400, None))
    start = time.monotonic()
    slow = connection(port)
    slow.sendall(whole[:20])
    checks.same("a head that doesn't come", slow.recv(100), b"")
    checks.holds("is waited for two seconds", 1.5 < time.monotonic() - start < 2 + SLACK)
    slow.close()
    start = time.monotonic()
    checks.same("a head that never comes to its end", said(port, b"GET / HTTP/1.1\r\nX: " + b"x" * 1_000, 1, 0.02), None)
    checks.holds("has two seconds as well", time.monotonic() - start < 2 + SLACK)


def comes(daemon):
    """A WebSocket that finds a place, once there is one."""
    found = []
    within("a place", lambda: found.append(daemon.open()) or found[-1].status == 101)
    return found[-1]


def last_place(daemon):
    """A WebSocket that has the last place, once it is free: it is there for those who ask for the status."""
    found = []

    def has_it():
        found.append(daemon.open())
        return found[-1].ask(STATUS) != BUSY

    within("the last place", has_it)
    return found[-1]


def until_ended(made, data):
    """Sends these bytes again and again, and reads nothing, until the daemon has ended the connection; how long that took."""
    begun = time.monotonic()
    made.socket.settimeout(0.1)
    while time.monotonic() - begun < PATIENCE:
        try:
            made.send(data)
            time.sleep(0.002)
        except TimeoutError:
            pass
        except OSError:
            break
    made.close()
    return time.monotonic() - begun


def check_pinging(checks, daemon, seated):
    """One that finds the last place and says what is no line keeps it for some seconds alone: PROTOCOL's one, and the waits of its refusal."""
    for what, data in (
        ("pings", frame(PING, b"")), ("pings much", frame(PING, b"p" * 125) * 300), ("pongs", frame(PONG, b"")),
        ("says empty parts of a message", frame(TEXT, b"", fin=False) + frame(0, b"", fin=False) * 99 + frame(0, b"", fin=False)),
    ):
        within("the last place is free", lambda: seated.ask(line(op="peers"))["sessions"] == PLACES - 1)
        made = daemon.open()
        begun = frame(TEXT, b"", fin=False) if "parts" in what else b""
        made.send(begun)
        took = until_ended(made, data[len(begun) :])
        # It reads nothing: a write to it may have to wait, and then both writes of its refusal.
        checks.holds(f"one that {what} in the last place is ended after {took:.1f} s", 0.8 < took < 6 + SLACK)


def check_places(checks, program):
    """WebSockets and sessions of lines share 32 places, the last one is for whoever asks for the status or a stop."""
    daemon = web_daemon(program, "places")
    held = [daemon.open() for _ in range(PLACES - 1)]
    checks.same("31 are served", {made.ask(STATUS)["ok"] for made in held}, {True})
    check_pinging(checks, daemon, held[0])
    made = comes(daemon)
    checks.same("the last place isn't for reading", (made.ask(READ), made.answer() in (1000, 1001, None)), (BUSY, True))
    made.close()
    made = last_place(daemon)
    turned = daemon.open()
    checks.same("one that finds no place is told so", (turned.status, turned.answer(), turned.answer() in (1000, 1001, None)), (101, BUSY, True))
    turned.close()
    for it in (made, *held[1:]):
        it.close()
    comes(daemon).close()
    checks.same("a stop", held[0].ask(STOP), {"ok": True})
    checks.same("closes with 1001", (held[0].answer(), held[0].ended()), (1001, True))
    checks.same("and the daemon ends", daemon.ended(), (0, b"", b""))


def check_told(checks, program):
    """What the journal has of them."""
    new_daemon(program, "told").stop()
    daemon = Web(program, "told", flags=["--log"])
    connection(daemon.web).close()
    daemon.open(origin="http://page.example").close()
    made = daemon.open()
    made.ask(STATUS)
    made.close()
    for origin, given in ((PAGE, frame(CLOSE, b"\x03\xe8")), (OTHER, frame(CLOSE, b"")), (None, frame(BINARY, b"a"))):
        made = daemon.open(origin=origin)
        made.send(given)
        made.answer()
        made.close()
    _, (_, _, faults) = daemon.stop()
    told = events(faults)
    checks.same("where it listens", told[0].get("web"), str(daemon.web))
    checks.same("one that may not come in", [it["reason"] for it in only(told, "session_refused") if "origin" in it["reason"]], ["an origin that isn't named"])
    checks.same("at which door", {it["door"] for it in only(told, "session_refused")}, {"web"})
    up = [(it["session"], it.get("origin")) for it in only(told, "session_up") if it["door"] == "web"]
    checks.same("those that came in, and from where", [origin for _, origin in up], [None, PAGE, OTHER, None])
    ends = {it["session"]: it.get("close") for it in only(told, "session_down")}
    checks.same("how each ended", [ends[session] for session, _ in up], ["1006", "1000", "1005", "1003"])


def check_words(checks, program):
    """The command line."""
    new_daemon(program, "words").stop()
    ports = [str(port) for port in free_ports(3)]
    serve = ("serve", "words", "--sessions", ports[0], "--peers", ports[1])
    for origin in ("localhost", "http://localhost:8080/", "HTTP://localhost", "null", "*", "http://", "http://localhost:80", ""):
        checks.same(f"an origin {origin!r}", run(program, *serve, "--web", ports[2], f"--origin={origin}"), fault(4))
    checks.same("an origin without a port", run(program, *serve, "--origin", PAGE), fault(4))
    checks.same("nine origins", run(program, *serve, "--web", ports[2], *(f"--origin=http://localhost:{8000 + it}" for it in range(9))), fault(4))
    status, _, faults = run(program, *serve, "--web", "0")
    checks.same("a port that is none", (status, b"--web" in faults), (2, True))
    checks.same("a port twice", run(program, *serve, "--web", ports[0]), fault(70))
    checks.same("a link to itself", run(program, *serve, "--web", ports[2], "--link", ports[2]), fault(70))


def check_others(checks, daemon):
    """A client that others wrote: Debian's python3-websockets."""
    try:
        import websockets
    except ImportError:
        checks.skip("a client of others", "no module websockets")
        return

    async def talk():
        async with websockets.connect(f"ws://{HOST}:{daemon.web}/", origin=PAGE, ping_interval=0.05) as made:
            await made.send(READ.decode())
            first = json.loads(await made.recv())
            await asyncio.sleep(0.3)
            await made.send(READ.decode() * 2)
            return first, json.loads(await made.recv()), json.loads(await made.recv()), await (await made.ping("x"))

    found = asyncio.run(asyncio.wait_for(talk(), PATIENCE))
    checks.same("a client of others is answered", {it["ok"] for it in found[:3]}, {True})

    async def comes(**how):
        try:
            async with websockets.connect(f"ws://{HOST}:{daemon.web}/", **how):
                return True
        except websockets.InvalidStatusCode as refused:
            return refused.status_code

    checks.same("one with another origin", asyncio.run(comes(origin="http://page.example")), 403)
    checks.same("one without", asyncio.run(comes()), True)


def check_noise(checks, daemon):
    """Bytes that a pseudo random generator made, behind a handshake: the connection ends or goes on, and the daemon serves."""
    import random

    numbers = random.Random(49)
    for _ in range(60):
        made = daemon.open()
        try:
            made.socket.sendall(numbers.randbytes(numbers.randrange(1, 400)))
        except OSError:
            pass
        made.close()
    made = daemon.open()
    checks.same("it serves behind noise", made.ask(STATUS)["ok"], True)
    made.close()


def check(checks, program, _until):
    check_words(checks, program)
    check_told(checks, program)
    daemon = web_daemon(program, "web")
    check_sessions(checks, daemon)
    check_watch(checks, daemon)
    check_full(checks, daemon)
    check_rules(checks, daemon)
    check_rude(checks, daemon)
    check_guests(checks, daemon)
    check_heads(checks, daemon)
    check_others(checks, daemon)
    check_noise(checks, daemon)
    checks.same("a stop", daemon.stop(), ({"ok": True}, (0, b"", b"")))
    check_places(checks, program)
