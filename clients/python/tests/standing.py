"""A daemon in memory, for what the program may not know yet: it stands in for it over sockets, with texts without marks."""

import json
import socket
import threading

from fake import FakeDaemon

# How many places one answer tells.
SOME = 1_024
# The greatest number of a request, and the replica of all that is put in.
WHOLE = 2**32 - 1
REPLICA = "0f5d2c4e-9a1b-4c3d-8e7f-112233445566"


class StandIn(FakeDaemon):
    """Answers sessions and watches of many documents. Before each answer `before` is called with the request."""

    def __init__(self):
        self.texts, self.revs = {}, {}
        # What was put in where, of each document.
        self.made = {}
        self.before = lambda request: None
        self._change = threading.Condition()
        self._goes = True
        super().__init__(None)

    def insert(self, doc, at, text):
        with self._change:
            shown = self.texts.get(doc, "")
            self.texts[doc], self.revs[doc] = shown[:at] + text + shown[at:], self.revs.get(doc, 0) + len(text)
            self.made.setdefault(doc, []).append((at, text))
            self._change.notify_all()
            return {"rev": self.revs[doc]}

    def _greet(self, connection, *_):
        with connection, connection.makefile("rb") as lines:
            try:
                for line in lines:
                    request = json.loads(line)
                    if request["op"] == "watch":
                        return self._watch(connection, request["docs"])
                    self._say(connection, self._told(request))
                connection.shutdown(socket.SHUT_WR)
            except OSError:
                pass

    def _say(self, connection, told):
        connection.sendall(json.dumps({"ok": "code" not in told, **told}).encode() + b"\n")

    def _watch(self, connection, docs):
        threading.Thread(target=self._ends, args=(connection,), daemon=True).start()
        last = {}
        while self._goes:
            with self._change:
                news = {doc: self.revs.get(doc, 0) for doc in (sorted(self.revs) if docs == "all" else docs)}
                if news == last:
                    self._change.wait(0.1)
            for doc, rev in news.items():
                if last.get(doc) != rev:
                    self._say(connection, {"doc": doc, "rev": rev})
            last = news

    def _ends(self, connection):
        """A watcher says nothing more: whatever comes ends it."""
        try:
            connection.recv(1)
            connection.shutdown(socket.SHUT_RDWR)
        except OSError:
            pass

    def _told(self, request):
        self.before(request)
        op, doc = request["op"], request.get("doc")
        text, rev = self.texts.get(doc, ""), self.revs.get(doc, 0)
        if op == "status":
            return {"applied": 0, "settled": 0, "state": "open"}
        if op in ("insert", "edits"):
            return self._edited(request)
        if op == "text":
            return self._then(doc, request.get("at_rev", rev))
        if op == "versions":
            return _versions(rev, request["every"])
        if op == "find":
            if not 1 <= len(request["text"]) <= 256:
                return {"code": 4, "error": "field"}
            found = [at for at in range(request.get("from", 0), len(text)) if text.startswith(request["text"], at)]
            return {"rev": rev, "places": found[:SOME]}
        if op == "export" and request["to"] in ("text", "markdown", "html"):
            return self._page(text, rev, request)
        if op == "export":
            return {"code": 4, "error": "field"}
        return {"code": 3, "error": "request"}

    def _then(self, doc, rev):
        """The text after so many of the document's characters were put in."""
        if type(rev) is not int or not 0 <= rev <= WHOLE:
            return {"code": 4, "error": "field"}
        if rev > self.revs.get(doc, 0):
            return {"code": 6, "error": "stale"}
        shown, left = "", rev
        for at, text in self.made.get(doc, []):
            more = text[:left]
            shown, left = shown[:at] + more + shown[at:], left - len(more)
        return {"rev": rev, "text": shown}

    def _page(self, text, rev, request):
        """Not as the program does it: nothing is escaped."""
        if not isinstance(request.get("breaks", False), bool):
            return {"code": 4, "error": "field"}
        one, parted = {"text": ("\n", "\n"), "markdown": ("\\\n", "\n\n"), "html": ("\n", "\n</p><p>")}[request["to"]]
        page = text.replace("\n", one if request.get("breaks") else parted)
        return {"rev": rev, "text": f"<p>{page}</p>\n" if request["to"] == "html" else page}

    def _edited(self, request):
        """Makes inserts alone."""
        doc = request["doc"]
        if request.get("rev", self.revs.get(doc, 0)) != self.revs.get(doc, 0):
            return {"code": 6, "error": "stale"}
        return [self.insert(doc, edit["at"], edit["text"]) for edit in request.get("edits", [request])][-1]

    def close(self):
        self._goes = False
        super().close()


def _versions(rev, every):
    """The versions of a document that one replica has made."""
    if type(every) is not int or not 1 <= every <= WHOLE:
        return {"code": 4, "error": "field"}
    found = [{"ops": min(every, rev - before), "replica": REPLICA, "rev": min(before + every, rev)} for before in range(0, rev, every)]
    return {"rev": rev, "versions": found}
