"""Where a text stands in a document, and a document in the form of an export: in a session over a file, and in those of a daemon."""

import random
import time

from agreed import LIMITS
from daemon import new_daemon
from places import ABC, END, FIELD, answers_of, check_all, done, standing
from program import delete, insert, line, new_file, run

FOX = "🦊"
# How many places one request tells at most, and how long the text that is looked for.
MOST, LONGEST = LIMITS["found"], LIMITS["edit_characters"]
# How often what is found by chance is compared, and how long the texts are.
TEXTS, LENGTH = 60, 200
# How long a text is in which each place nearly matches, and how many seconds its answer may take at most.
LONG, PATIENCE = 200_000, 10
FORMS = ("text", "markdown", "html")
HEAD = '<!doctype html><meta charset="utf-8"><div style="white-space: pre-wrap">'


def find(text, start=None, doc=1, **more):
    return line(op="find", doc=doc, text=text, **({} if start is None else {"from": start}), **more)


def export(form, doc=1, **more):
    return line(op="export", doc=doc, to=form, **more)


def exported(rev, text):
    return {"ok": True, "rev": rev, "text": text}


# Of a fresh store each.
ROWS = {
    "a text": [
        ABC, (find("b"), standing(3, 1)), (find("abc"), standing(3, 0)), (find("abcd"), standing(3)), (find("c", 2), standing(3, 2)),
        (find("c", 3), standing(3)), (find("a", 2**32 - 1), standing(3)), (find("B"), standing(3)), (find("a", doc=9), standing(0)),
    ],
    "overlaps": [(insert(0, "aaaa"), done(4)), (find("aa"), standing(4, 0, 1, 2)), (find("aa", 1), standing(4, 1, 2)), (find("aaaaa"), standing(4))],
    "beside removed characters": [
        (insert(0, "axbxc"), done(5)), (delete(1, 1), done(6)), (find("ab"), standing(6, 0)), (find("bx"), standing(6, 1)), (find("axb"), standing(6)),
    ],
    "beyond the first plane": [(insert(0, FOX + "é" + FOX), done(3)), (find(FOX), standing(3, 0, 2)), (find("é" + FOX), standing(3, 1))],
    "how long": [
        (insert(0, "x" * LONGEST), done(LONGEST)), (find("x" * LONGEST), standing(LONGEST, 0)), (find("x" * (LONGEST + 1)), FIELD), (find(""), FIELD),
    ],
    "other fields of a search": [
        ABC, *[(find("a", it), FIELD) for it in (-1, 2**32, 1.5, "1", True)], (line(op="find", doc=1), FIELD), (line(op="find", text="a"), FIELD),
        (b'{"op":"find","doc":1,"text":"a","from":null}\n', FIELD), (find("a", 0, 0), FIELD), (find("a", rev=3), FIELD), (find(1), FIELD),
    ],
    "an export": [
        ABC, (line(op="mark", doc=1, **{"from": 0}, to=2, kind="em"), done(4)), (export("text"), exported(4, "abc")),
        (export("markdown"), exported(4, "*ab*c\n")),
        (export("html"), exported(4, f"{HEAD}<p><em>ab</em>c</p></div>\n")), (export("html", breaks=True), exported(4, f"{HEAD}<em>ab</em>c</div>\n")),
    ],
    "an export of paragraphs": [
        (insert(0, "a\n\nb"), done(4)), (export("text"), exported(4, "a\n\nb")), (export("text", breaks=True), exported(4, "a\n\nb")),
        (export("markdown"), exported(4, "a\n\n<!-- -->\n\nb\n")), (export("markdown", breaks=False), exported(4, "a\n\n<!-- -->\n\nb\n")),
        (export("markdown", breaks=True), exported(4, "a\\\n\\\nb\n")), (export("html"), exported(4, f"{HEAD}<p>a\n</p><p>\n</p><p>b</p></div>\n")),
        (export("html", breaks=True), exported(4, f"{HEAD}a\n\nb</div>\n")),
    ],
    "other fields of an export": [
        ABC, *[(export(it), FIELD) for it in ("", "HTML", "pdf", 1, None, True)], (line(op="export", doc=1), FIELD), (export("text", 0), FIELD),
        (export("text", rev=3), FIELD), *[(export("html", breaks=it), FIELD) for it in (None, 0, 1, "", "true", [], {})],
    ],
}


def stands(sought, text, start):
    """By the plainest program."""
    return [at for at in range(start, len(text)) if text[at:at + len(sought)] == sought][:MOST]


def check_rows(checks, program):
    check_all(checks, program, ROWS)


def check_chance(checks, program):
    """What is found in texts of few letters, which repeat themselves."""
    chance, asked, wanted = random.Random(71), [], []
    new_file(program, "found")
    for doc in range(1, TEXTS + 1):
        text = "".join(chance.choice("ab" if doc % 2 else "abc") for _ in range(chance.randrange(1, LENGTH)))
        asked.append(insert(0, text, doc))
        wanted.append(done(len(text)))
        for _ in range(4):
            at = chance.randrange(len(text))
            sought, start = text[at:at + chance.randrange(1, 9)], chance.choice((None, chance.randrange(LENGTH)))
            asked.append(find(sought, start, doc))
            wanted.append(standing(len(text), *stands(sought, text, start or 0)))
    checks.same("found by chance", answers_of(program, "found", asked), wanted)


def filled(program, name, text):
    """A file whose document is this text."""
    new_file(program, name)
    run(program, "edit", name, lines=b"".join(insert(at, text[at:at + LONGEST]) for at in range(0, len(text), LONGEST)))


def check_most(checks, program):
    """No more places than 1,024 are told at once, and from the last one on the others."""
    filled(program, "most", "ab" * 1_500)
    first, second = answers_of(program, "most", [find("ab"), find("ab", 2 * MOST - 1)])
    checks.same("the first places", first, standing(3_000, *range(0, 2 * MOST, 2)))
    checks.same("the other places", second, standing(3_000, *range(2 * MOST, 3_000, 2)))


def check_time(checks, program):
    """A text that repeats itself is looked for in one that repeats the same: the steps are those of both lengths, and not their product."""
    text = "a" * LONG
    filled(program, "slow", text)
    start = time.monotonic()
    answers = answers_of(program, "slow", [find("a" * (LONGEST - 1) + "b"), find("b" + "a" * (LONGEST - 1))])
    checks.same("a text that nearly stands everywhere", answers, [standing(LONG)] * 2)
    checks.holds("its time", time.monotonic() - start < PATIENCE)


def check_daemon(checks, program):
    """A document is exported by a daemon just as the program exports it by itself."""
    daemon = new_daemon(program, "finding")
    talk = daemon.talk()
    talk.ask(insert(0, "one *two* <three>\n# four"))
    talk.ask(line(op="mark", doc=1, **{"from": 4}, to=9, kind="strong"))
    answers = {(form, breaks): talk.ask(export(form, breaks=breaks)) for form in FORMS for breaks in (False, True)}
    talk.close()
    checks.same("the end of a daemon that exported", daemon.stop(), END)
    for (form, breaks), answer in answers.items():
        status, page, _ = run(program, "export", "finding", "1", "--to", form, *["--breaks"] * breaks)
        checks.same(f"exported as {form}, breaks: {breaks}", (status, answer["text"]), (0, page.decode()))


def check(checks, program, _end):
    check_rows(checks, program)
    check_chance(checks, program)
    check_most(checks, program)
    check_time(checks, program)
    check_daemon(checks, program)
