"""What a web page can have a browser send to a daemon's ports without asking: a connection that begins as an HTTP request, TLS or another
protocol of browsers does is closed before anything of it is served, wherever it is cut.
"""

import time

from daemon import PATIENCE, connection, new_daemon
from frames import Peer, replica
from program import insert, line

STATUS, STOP, TEXT = line(op="status"), line(op="stop"), line(op="text", doc=1)
BODY = insert(0, "from a web page") + STOP
HEADERS = b"Host: 127.0.0.1\r\nOrigin: http://example.test\r\nContent-Type: text/plain\r\nContent-Length: %d\r\n\r\n" % len(BODY)
POST = b"POST / HTTP/1.1\r\n" + HEADERS + BODY
# The beginnings of requests: with a method that browsers send, with one that a script made up, with none of a request behind it.
METHODS = (b"GET", b"PUT", b"OPTIONS", b"PRI", b"X", b"A" * 5_000, b"get", b"x", b"patch", b"1", b"M-SEARCH", b"!#$%&'*+-.^_`|~")
REQUESTS = [method + rest for method in METHODS for rest in (b" / HTTP/1.1\r\n" + HEADERS + BODY, b" ")]
# What a page's server chose (a session ticket, a name) stands in the bytes by which a browser begins TLS, with line feeds in them.
TICKET = b"\n" + TEXT + BODY


def hello(ticket):
    """A TLS 1.2 ClientHello with this session ticket (RFC 8446, 4.1.2; RFC 5077, 3.2)."""
    extension = b"\x00\x23" + len(ticket).to_bytes(2, "big") + ticket
    body = b"\x03\x03" + bytes(32) + b"\x00" + b"\x00\x02\x13\x01" + b"\x01\x00" + len(extension).to_bytes(2, "big") + extension
    message = b"\x01" + len(body).to_bytes(3, "big") + body
    return b"\x16\x03\x01" + len(message).to_bytes(2, "big") + message


# TLS, STUN and TURN over TCP (RFC 8489, and framed by RFC 4571), SOCKS 4 and 5, DNS over TCP; and each control byte alone.
CONTROLS = [byte for byte in (*range(32), 127) if byte not in b"\t\n\r"]
OTHERS = [hello(TICKET), b"\x00\x01\x00\x40\x21\x12\xa4\x42" + TICKET, b"\x00\x64\x00\x01" + TICKET, b"\x04\x01" + TICKET, b"\x05\x01\x00" + TICKET]
OTHERS += [bytes([byte]) + TICKET for byte in CONTROLS]
# As many bytes as a frame has that begins so.
FILL = bytes(1 << 17)
SYNTAX = {"code": 2, "error": "syntax", "ok": False}
# Lines that begin nearly as a request does, and are answered.
LINES = (b"GET\n", b"GET/ \n", b" GET /\n", b"\nGET / HTTP/1.1\n", b"G{ \n", b"\xff\n", b"\r\x16\n", b"\t\x00\n", b"{\x01\n", b"{}x \n")


def heard(port, data, cut=None):
    """What is answered to this until the connection ends, in pieces of so many bytes; None where it doesn't end."""
    made = connection(port)
    try:
        for at in range(0, len(data), cut or len(data)):
            made.sendall(data[at : at + (cut or len(data))])
            if cut:
                time.sleep(0.001)
        found = b""
        made.settimeout(PATIENCE)
        while more := made.recv(65_536):
            found += more
        return found
    except TimeoutError:
        return None
    except (ConnectionResetError, BrokenPipeError):
        return b""
    finally:
        made.close()


def check_sessions(checks, daemon):
    for request in (POST, *REQUESTS, *OTHERS):
        checks.same(f"a session that begins {request[:12]}", heard(daemon.sessions, request), b"")
    for begun in (POST, OTHERS[0]):
        for cut in (1, 2, 3, 4, 5, 6, 7, 64):
            checks.same(f"one that begins {begun[:4]} in pieces of {cut}", heard(daemon.sessions, begun[:160] if cut < 8 else begun, cut), b"")
    for data in LINES:
        talk = daemon.talk()
        checks.same(f"a line {data}", talk.ask(data), SYNTAX)
        talk.close()
    # A request line is one at the beginning alone.
    talk = daemon.talk()
    checks.same("a first line", talk.ask(STATUS)["ok"], True)
    checks.same("a request behind it", talk.ask(b"POST / HTTP/1.1\n"), SYNTAX)
    talk.close()


def check_peers(checks, daemon):
    for request in (POST, *REQUESTS, *OTHERS):
        peer = Peer(daemon.peers)
        try:
            # Some begin as the length of a frame does: then it is one, and no HELLO.
            peer.say(request + (FILL if request in OTHERS else b""))
        except OSError:
            pass  # It may have ended before all was sent.
        # Four bytes are the length of a frame, and no request's are that of one.
        if len(request) >= 4:
            checks.holds(f"a link that begins {request[:12]} ends", peer.has_ended(PATIENCE))
        peer.close()
    peer = Peer(daemon.peers, replica(9))
    found, is_over = peer.frames(2)
    checks.holds("a link that begins with HELLO is heard", found and not is_over)
    peer.close()


def check(checks, program, _until):
    daemon = new_daemon(program, "web_pages")
    try:
        check_sessions(checks, daemon)
        check_peers(checks, daemon)
        talk = daemon.talk()
        checks.same("nothing was edited", talk.ask(TEXT), {"ok": True, "rev": 0, "text": ""})
        talk.close()
        checks.same("nothing was stopped before", daemon.stop(), ({"ok": True}, (0, b"", b"")))
    except (OSError, TimeoutError) as error:
        checks.same("web pages come to their end", repr(error), None)
    finally:
        if daemon.run.poll() is None:
            daemon.kill()
