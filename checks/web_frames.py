"""WebSockets of RFC 6455 from a client's side, byte by byte: whole frames, and any that break its rules."""

import base64
import hashlib
import json
import os
import struct

from daemon import HOST, PATIENCE, connection

TEXT, BINARY, CLOSE, PING, PONG = 1, 2, 8, 9, 10
GUID = b"258EAFA5-E914-47DA-95CA-C5AB0DC85B11"


def head(port, host=None, origin=None, path="/", version="13", extra=()):
    """The head of a request for a WebSocket, and its key."""
    key = base64.b64encode(os.urandom(16)).decode()
    lines = [f"GET {path} HTTP/1.1", f"Host: {host or f'{HOST}:{port}'}", "Upgrade: websocket", "Connection: Upgrade"]
    lines += [f"Sec-WebSocket-Key: {key}", f"Sec-WebSocket-Version: {version}"]
    lines += [f"Origin: {origin}"] if origin is not None else []
    return "\r\n".join([*lines, *extra, "", ""]).encode(), key


def accept_of(key):
    return base64.b64encode(hashlib.sha1(key.encode() + GUID).digest()).decode()


def frame(kind, data, fin=True, mask=b"\x01\x02\x03\x04", reserved=0, length=None):
    """A frame, whose length may be written in more bytes than it needs: 0, 2 or 8 of them."""
    size = len(data)
    length = (0 if size < 126 else 2 if size < 65_536 else 8) if length is None else length
    word = {0: size, 2: 126, 8: 127}[length]
    out = bytes([fin << 7 | reserved << 4 | kind, (0x80 if mask else 0) | word])
    out += struct.pack({0: "", 2: ">H", 8: ">Q"}[length], *([size] if length else []))
    if mask:
        out += mask + bytes(byte ^ mask[at % 4] for at, byte in enumerate(data))
    return out + data if not mask else out


class Ended(Exception):
    """The stream ended."""


class WebSocket:
    """A connection whose handshake is done, with what the other end says frame by frame."""

    def __init__(self, port, **how):
        self.socket = connection(port)
        self.held = b""
        said, self.key = head(port, **how)
        self.socket.sendall(said)
        self.answered = self.read_head()
        self.status = int(self.answered.split()[1]) if self.answered else None

    def more(self):
        try:
            data = self.socket.recv(65_536)
        except ConnectionResetError:
            data = b""
        if not data:
            raise Ended
        self.held += data

    def read_head(self):
        try:
            while b"\r\n\r\n" not in self.held:
                self.more()
        except Ended:
            return ""
        said, _, self.held = self.held.partition(b"\r\n\r\n")
        return said.decode()

    def take(self, count):
        while len(self.held) < count:
            self.more()
        taken, self.held = self.held[:count], self.held[count:]
        return taken

    def frame(self):
        """The next frame: its kind and its bytes, or None at the end. One that is masked, cut or uses a reserved bit is an error."""
        try:
            first, second = self.take(2)
            size = second & 0x7F
            if size > 125:
                size = int.from_bytes(self.take(2 if size == 126 else 8), "big")
            data = self.take(size)
        except Ended:
            return None
        if second & 0x80 or first & 0xF0 != 0x80:
            raise ValueError(f"frame {first:02x} {second:02x}")
        return first & 0x0F, data

    def send(self, *frames):
        self.socket.sendall(b"".join(frames))

    def say(self, text):
        self.send(frame(TEXT, text if isinstance(text, bytes) else text.encode()))

    def answer(self):
        """The next answer, which is one message without a line feed; the code of a close; or None at the end."""
        found = self.frame()
        if found is None:
            return None
        kind, data = found
        if kind == CLOSE:
            return int.from_bytes(data[:2], "big") if data else 1005
        if kind != TEXT or b"\n" in data:
            raise ValueError(f"{kind} {data[:80]}")
        return json.loads(data)

    def ask(self, text):
        self.say(text)
        return self.answer()

    def ended(self):
        """Whether the end is next."""
        self.socket.settimeout(PATIENCE)
        return self.frame() is None

    def close(self):
        self.socket.close()
