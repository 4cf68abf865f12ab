"""The command line, exit statuses, texts of faults, and the bytes of the first files."""

import os

from program import NAME, PAGE, REPLICA, delete, fault, insert, line, new_file, read, run, write

OK = b'{"ok":true}\n'


def slot(version, stream=0, operations=0, tables=(), gate=1, form=3):
    """The page of a root slot, whose stream is of this format."""
    head = bytes([gate]) + bytes(7) + b"PTXTPG0%d" % form + version.to_bytes(8, "big") + NAME
    head += stream.to_bytes(8, "big") + operations.to_bytes(8, "big")
    head += len(tables).to_bytes(4, "big") + bytes(4)
    return (head + b"".join(n.to_bytes(4, "big") for n in tables)).ljust(PAGE, b"\0")


def record(counter, deps, origin, value, doc=1):
    """The record of an insert of the replica into a document."""
    body = b"\1" + doc.to_bytes(4, "big") + counter.to_bytes(8, "big") + NAME + bytes([1 if deps else 0])
    body += NAME + deps.to_bytes(8, "big") if deps else b""
    body += b"\1" + origin.to_bytes(8, "big") + NAME if origin else b"\0"
    body += ord(value).to_bytes(4, "big")
    return len(body).to_bytes(4, "big") + body


def table(*numbers):
    return b"".join(n.to_bytes(4, "big") for n in numbers).ljust(PAGE, b"\0")


FIRST = record(1, 0, 0, "a")
SECOND = record(2, 1, 1, "b")
MADE = slot(1) + bytes(PAGE)
ONE = slot(1) + slot(2, 39, 1, (3,)) + FIRST.ljust(PAGE, b"\0") + table(2)
TWO = slot(3, 126, 2, (5,)) + ONE[PAGE:] + (FIRST + SECOND).ljust(PAGE, b"\0") + table(4)


def check_words(checks, program):
    for words, status in [
        (["fly"], 2), (["edit"], 2), (["edit", "a", "b"], 2), (["init", "a"], 2), (["dump", "a"], 2),
        (["dump", "a", "-1"], 2), (["--help"], 0), (["init", "--help"], 0),
    ]:
        found = run(program, *words)
        checks.same(f"status of {words}", found[0], status)
        checks.holds(f"text of {words}", found[1] if status == 0 else found[2])
    checks.same("version", run(program, "--version"), (0, b"peritext 0.1.0\n", b""))
    for words in ([], ["init"], ["edit"], ["dump"]):
        checks.holds(f"an example in the help of {words}", b"Example" in run(program, *words, "--help")[1])
    for doc in ["0", "4294967296", "1x", "1.0", "+1", " 1", ""]:
        checks.same(f"dump of document {doc!r}", run(program, "dump", "none", doc), fault(4))
    for uuid in ["00000000-0000-0000-0000-000000000000", "c1", ""]:
        checks.same(f"init of {uuid!r}", run(program, "init", "none", "--replica", uuid), fault(4))
    checks.holds("a refused init makes no file", not os.path.exists("none"))
    checks.same("edit of no file", run(program, "edit", "none"), fault(54))
    checks.same("dump of no file", run(program, "dump", "none", "1"), fault(54))
    checks.same("init in no folder", run(program, "init", "no/file", "--replica", REPLICA), fault(54))
    checks.holds("only init makes a file", not os.path.exists("none"))


def check_files(checks, program):
    checks.same("init", new_file(program, "file"), (0, OK, b""))
    checks.same("the new file", read("file"), MADE)
    checks.same("init again", run(program, "init", "file", "--replica", REPLICA), fault(48))
    checks.same("init again leaves the file", read("file"), MADE)
    write("empty", b"")
    checks.same("edit of an empty file", run(program, "edit", "empty"), fault(42))
    checks.same("init of an empty file", run(program, "init", "empty", "--replica", REPLICA), (0, OK, b""))
    mission = run(program, "edit", "file", lines=insert(0, "a"))
    checks.same("the first edit", mission, (0, b'{"ok":true,"rev":1}\n', b""))
    checks.same("the file after a first commit", read("file"), ONE)
    dumped = b'{"ok":true,"rev":1,"text":"a"}\n{"ok":true,"rev":1,"spans":[{"text":"a"}]}\n'
    checks.same("dump", run(program, "dump", "file", "1"), (0, dumped, b""))
    none = b'{"ok":true,"rev":0,"text":""}\n{"ok":true,"rev":0,"spans":[]}\n'
    checks.same("dump of another document", run(program, "dump", "file", "9"), (0, none, b""))
    checks.same("dump changes nothing", read("file"), ONE)
    second = run(program, "edit", "file", lines=insert(1, "b"))
    checks.same("the second edit", second, (0, b'{"ok":true,"rev":2}\n', b""))
    checks.same("the file after a second commit", read("file"), TWO)
    run(program, "edit", "file", lines=insert(2, "c"))
    third = read("file")
    checks.same("the size after a third commit", len(third), len(TWO))
    checks.same("its pages", (third[2 * PAGE :][:126], third[3 * PAGE :][:8]), (FIRST + SECOND, bytes([0, 0, 0, 2, 0, 0, 0, 0])))


def check_session(checks, program):
    asked = [
        (line(op="text", doc=9), {"ok": True, "rev": 0, "text": ""}),
        (line(op="status"), {"applied": 0, "ok": True, "settled": 0, "state": "open"}),
        (insert(0, "abc"), {"ok": True, "rev": 3}),
        (line(op="text", doc=1), {"ok": True, "rev": 3, "text": "abc"}),
        (line(op="mark", doc=1, **{"from": 0, "to": 3}, kind="strong"), {"ok": True, "rev": 4}),
        (insert(3, "d"), {"ok": True, "rev": 5}),
        (line(op="spans", doc=1), {"ok": True, "rev": 5, "spans": [{"strong": True, "text": "abcd"}]}),
        (line(op="delete", doc=1, at=0, count=1), {"ok": True, "rev": 6}),
        (line(op="unmark", doc=1, **{"from": 1, "to": 2}, kind="strong"), {"ok": True, "rev": 7}),
        (line(op="text", doc=1), {"ok": True, "rev": 7, "text": "bcd"}),
        (line(op="delete", doc=1, at=0, count=9), {"code": 5, "error": "range", "ok": False}),
        (insert(9, "x"), {"code": 5, "error": "range", "ok": False}),
        (insert(0, "x" * 257), {"code": 7, "error": "limit", "ok": False}),
        (line(op="insert", doc=1, at=0, text="x", rev=1), {"code": 6, "error": "stale", "ok": False}),
        (line(op="insert", doc=0, at=0, text="x"), {"code": 4, "error": "field", "ok": False}),
        (line(op="fly"), {"code": 3, "error": "request", "ok": False}),
        (b"[\n", {"code": 2, "error": "syntax", "ok": False}),
        (b"\n", {"code": 2, "error": "syntax", "ok": False}),
        (b"\xff\n", {"code": 2, "error": "syntax", "ok": False}),
        (b" " * 65_537 + b"\n", {"code": 11, "error": "line", "ok": False}),
        (b" " * 65_536 + b"\n", {"code": 2, "error": "syntax", "ok": False}),
        (line(op="stop"), {"ok": True}),
        (insert(0, "x"), {"code": 12, "error": "stopping", "ok": False}),
        (line(op="status"), {"applied": 7, "ok": True, "settled": 7, "state": "stopping"}),
        (line(op="stop"), {"ok": True}),
    ]
    new_file(program, "session")
    status, output, faults = run(program, "edit", "session", lines=b"".join(a for a, _ in asked) + b'{"op":"text"')
    wanted = b"".join(line(**answer) for _, answer in asked)
    checks.same("a session", (status, faults), (0, b""))
    for i, (found, answer) in enumerate(zip(output.splitlines(True), wanted.splitlines(True))):
        checks.same(f"answer to {asked[i][0][:60]!r}", found, answer)
    checks.same("number of answers", len(output.splitlines()), len(asked))
    checks.same("no words", run(program, lines=insert(0, "a")), (0, OK + b'{"ok":true,"rev":1}\n', b""))


def mark(first, behind, kind, **more):
    return line(op="mark", doc=1, **{"from": first, "to": behind}, kind=kind, **more)


def unmark(first, behind, kind, **more):
    return line(op="unmark", doc=1, **{"from": first, "to": behind}, kind=kind, **more)


def comment(last):
    return f"00000000-0000-4000-8000-0000000000{last}"


# Edits, one after another, and the spans and the number of operations that they give.
MARKED = [
    ("strong grows at its end", [insert(0, "abc"), mark(0, 3, "strong"), insert(3, "d")], [{"strong": True, "text": "abcd"}], 5),
    ("a link keeps its end", [insert(0, "abc"), mark(0, 2, "link", url="u"), insert(2, "x")],
     [{"link": "u", "text": "ab"}, {"text": "xc"}], 5),
    ("a link that ends on a tombstone", [insert(0, "ab"), mark(0, 2, "link", url="u"), delete(1, 1), insert(1, "x")],
     [{"link": "u", "text": "a"}, {"text": "x"}], 5),
    ("a link over nothing left", [insert(0, "a"), mark(0, 1, "link", url="u"), delete(0, 1), insert(0, "x")], [{"text": "x"}], 4),
    ("overlapping strong", [insert(0, "The fox jumped"), mark(0, 7, "strong"), mark(4, 14, "strong")],
     [{"strong": True, "text": "The fox jumped"}], 16),
    ("overlapping comments",
     [insert(0, "abc"), mark(0, 2, "comment", id=comment("c1")), mark(1, 3, "comment", id=comment("c2")),
      unmark(1, 2, "comment", id=comment("c1"))],
     [{"comments": [comment("c1")], "text": "a"}, {"comments": [comment("c2")], "text": "bc"}], 6),
    ("an ended strong doesn't grow", [insert(0, "ab"), mark(0, 2, "strong"), unmark(1, 2, "strong"), insert(2, "c")],
     [{"strong": True, "text": "a"}, {"text": "bc"}], 5),
    ("em grows before the next character", [insert(0, "abc"), mark(0, 2, "em"), insert(2, "x")],
     [{"em": True, "text": "abx"}, {"text": "c"}], 5),
]


def check_marks(checks, program):
    for what, lines, spans, rev in MARKED:
        new_file(program, "marked")
        status, output, faults = run(program, "edit", "marked", lines=b"".join(lines) + line(op="spans", doc=1))
        checks.same(f"status, {what}", (status, faults), (0, b""))
        checks.same(what, output.splitlines(True)[-1], line(ok=True, rev=rev, spans=spans))


def check(checks, program, _until):
    check_words(checks, program)
    check_files(checks, program)
    check_session(checks, program)
    check_marks(checks, program)
