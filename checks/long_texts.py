"""Documents that pass the borders of chunks, against a plain list: typed at the front and at the end, with removals and a mark, and edited at random
places; asked of the session, and of the file when it is opened again. The files are in memory, since each edit is a commit."""

import json
import os
import random
import string
import tempfile

from program import REPLICA, delete, insert, line, run

LENGTHS = (511, 512, 513, 10_000)
EDITS = 3_000


def said(program, name, lines):
    """The answers of a session to these lines."""
    status, out, err = run(program, "edit", name, lines=b"".join(lines))
    return [json.loads(answer) for answer in out.splitlines()] if (status, err) == (0, b"") else []


def dumped(program, name):
    """The text and the spans of document 1 when the file is opened again."""
    status, out, _ = run(program, "dump", name, "1")
    answers = [json.loads(answer) for answer in out.splitlines()] if status == 0 else [{}, {}]
    return answers[0].get("text"), answers[1].get("spans")


def typed(length, at_front):
    """Lines that type a text, remove each third character and make the first half of the rest strong; the text and the spans that this gives."""
    letters = [string.ascii_lowercase[place % 26] for place in range(length)]
    if at_front:
        lines = [insert(0, letter) for letter in reversed(letters)]
    else:
        lines = [insert(place, letter) for place, letter in enumerate(letters)]
    lines += [delete(place, 1) for place in reversed(range(0, length, 3))]
    text = "".join(letter for place, letter in enumerate(letters) if place % 3)
    half = len(text) // 2
    lines.append(line(op="mark", doc=1, **{"from": 0, "to": half}, kind="strong"))
    return lines, text, [{"strong": True, "text": text[:half]}, {"text": text[half:]}]


def check_typed(checks, program):
    for length in LENGTHS:
        for at_front in (True, False):
            name = f"long-{length}-{at_front}"
            run(program, "init", name, "--replica", REPLICA)
            lines, text, spans = typed(length, at_front)
            answers = said(program, name, lines + [line(op="text", doc=1), line(op="spans", doc=1)])
            what = f"{length} characters typed at the {'front' if at_front else 'end'}"
            checks.holds(f"{what}: each edit is answered", len(answers) == len(lines) + 2 and all(a["ok"] for a in answers))
            checks.same(f"{what}: text", answers[-2].get("text") if answers else None, text)
            checks.same(f"{what}: spans", answers[-1].get("spans") if answers else None, spans)
            checks.same(f"{what}: opened again", dumped(program, name), (text, spans))


def check_random(checks, program):
    chance, name, held, lines = random.Random(9), "long-random", [], []
    run(program, "init", name, "--replica", REPLICA)
    for number in range(EDITS):
        at = chance.randrange(len(held) + 1)
        count = min(chance.choice((1, 1, 3, 256)), len(held) - at)
        if number % 3 == 2 and count:
            lines.append(delete(at, count))
            del held[at:at + count]
        else:
            text = "".join(chance.choices(string.ascii_letters, k=chance.choice((1, 1, 2, 256))))
            lines.append(insert(at, text))
            held[at:at] = text
    answers = said(program, name, lines + [line(op="text", doc=1)])
    checks.same("random edits of a long text: each is answered", len(answers), EDITS + 1)
    checks.same("random edits of a long text: text", answers[-1].get("text") if answers else None, "".join(held))
    checks.same("random edits of a long text: opened again", dumped(program, name)[0], "".join(held))


def check(checks, program, until):
    if not os.path.isdir("/dev/shm"):
        checks.skip("long texts", "there is no folder in memory, and a disk is slow for so many commits")
        return
    room = os.getcwd()
    with tempfile.TemporaryDirectory(dir="/dev/shm") as memory:
        os.chdir(memory)
        try:
            check_typed(checks, program)
            check_random(checks, program)
        finally:
            os.chdir(room)
