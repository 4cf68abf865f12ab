"""A `rev` holds in its session alone."""

import json

import peritext
from fake import FakeDaemon
from support import Daemon, WithDaemon, retried


class Revs(WithDaemon):
    def again(self):
        """The daemon is killed and started again, and a session begun."""
        self.daemon.kill()
        self.daemon = Daemon(self.name, self.daemon.port)
        self.addCleanup(self.daemon.kill)
        return self.connect()

    def test_a_rev_of_the_connection_before_is_dropped(self):
        _, rev = self.connect().document(1).read()
        text = self.again().document(1)
        for edit in (lambda: text.insert(0, "x", rev), lambda: text.delete(0, 1, rev), lambda: text.mark(0, 1, peritext.EM, rev)):
            with self.assertRaises(peritext.Stale) as caught:
                edit()
            self.assertEqual((caught.exception.number, caught.exception.word), (6, "stale"))
        self.assertEqual(text.read(), ("", 0))
        self.assertEqual(text.insert(0, "x", text.rev()), 1)

    def test_a_rev_of_another_document_is_none_of_this_one(self):
        session = self.connect()
        rev = session.document(1).rev()
        with self.assertRaises(peritext.Stale):
            session.document(2).insert(0, "x", rev)

    def test_each_answer_with_a_rev_tells_it(self):
        for told in (
            lambda text: text.insert(0, "x"),
            lambda text: text.read(),
            lambda text: text.spans(),
            lambda text: text.session.ask(op="text", doc=1),
        ):
            text = self.connect().document(1)
            told(text)
            rev = self.connect().document(1).rev()
            self.assertEqual(text.insert(0, "y", rev), rev + 1)


class OpenedAnew(WithDaemon):
    """A daemon that opens its file anew ends its sessions, and takes others."""

    def test_a_client_connects_again_and_goes_on(self):
        made = []

        def talk(connection, lines):
            for line, _ in zip(lines, range(3)):
                fields = json.loads(line)
                if fields["op"] == "insert":
                    made.append(fields)
                answer = {"ok": True, "rev": len(made), **({} if fields["op"] == "insert" else {"text": "x" * len(made)})}
                connection.sendall(json.dumps(answer).encode() + b"\n")

        daemon = FakeDaemon(talk)
        self.addCleanup(daemon.close)
        wanted, rev = 8, None
        while len(made) < wanted:
            with peritext.connect(daemon.port, retry=None) as session:
                text = session.document(1)
                try:
                    while len(made) < wanted:
                        if rev is None:
                            rev = text.rev()
                        rev = text.insert(0, "x", rev)
                except peritext.Ended:
                    rev = None
        self.assertEqual([fields["rev"] for fields in made], list(range(wanted)))

    def test_what_is_under_way_ends(self):
        opened = self.connect(retry=None)
        with self.connect() as other:
            other.stop()
        self.daemon.ended()
        with self.assertRaises(peritext.Ended):
            opened.document(1).insert(0, "x")
        self.daemon = Daemon(self.name, self.daemon.port)
        self.addCleanup(self.daemon.kill)
        self.assertEqual(retried(self.connect).document(1).insert(0, "x"), 1)
