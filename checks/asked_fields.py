"""Each request of docs/protocol.json is asked of the running program with its fields as they have to be, missing, unknown and broken, at both ends of
each rule: the program answers 4 just where the table says so, and both clients say that a rule is broken just there."""

import json
import os
import shutil
import subprocess
import sys

from agreed import REQUESTS, ROOT, TABLE, refused
from daemon import new_daemon
from field_values import taken
from field_values import refused as broken_values
from program import insert, line, new_file, run

WATCH = "watch"
# A field that no request has.
UNKNOWN = {"unknown": 1}
FIELD, REQUEST = refused(4), refused(3)
SCRIPT = """
import { createInterface } from "node:readline";
const { broken } = await import(process.argv[1]);
for await (const line of createInterface({ input: process.stdin })) console.log(broken(JSON.parse(line)).length > 0);
"""


def base(op, kind=None):
    """A request with all that it needs."""
    request = REQUESTS[op]
    fields = dict(request["needed"]) | request.get("of_kind", {}).get(kind, {})
    made = {name: taken(it)[0] for name, it in fields.items()} | ({"kind": kind} if kind else {})
    return {"op": op, **made}, fields


def ways(op):
    """A request in each way to ask it: a mark of each kind."""
    return [base(op, kind) for kind in TABLE["types"]["kind"]["words"]] if "kind" in REQUESTS[op]["needed"] else [base(op)]


def right(op):
    """Requests whose fields keep their rules."""
    for request, fields in ways(op):
        yield request
        for name, it in (fields | REQUESTS[op].get("optional", {})).items():
            # The kind says which other fields there are: each has a way of its own.
            yield from ({**request, name: value} for value in taken(it) if name != "kind")
    yield from instead(op, taken)


def wrong(op):
    """Requests of which one field breaks its rule, is missing, or is none of theirs."""
    for request, fields in ways(op):
        yield {**request, **UNKNOWN}
        yield from ({name: value for name, value in request.items() if name != left} for left in fields)
        for name, it in (fields | REQUESTS[op].get("optional", {})).items():
            yield from ({**request, name: value} for value in broken_values(it))
        yield from ({**request, name: taken(it)[0]} for name, it in others(op, fields))
    yield from instead(op, broken_values)


def instead(op, values):
    return ({"op": op, name: value} for name, it in REQUESTS[op].get("instead", {}).items() for value in values(it))


def others(op, fields):
    """Fields that requests have, but not this one."""
    all_of = {name: it for request in REQUESTS.values() for part in ("needed", "optional", "instead") for name, it in request.get(part, {}).items()}
    return [(name, it) for name, it in all_of.items() if name not in fields and name not in REQUESTS[op].get("optional", {})]


def in_list(request):
    """An edit as one of several; its own `doc` and what stands beside the list are the line's."""
    return {"op": "edits", "doc": request.get("doc"), "edits": [{name: value for name, value in request.items() if name != "doc"}]}


def right_and_wrong():
    """All requests but a watch, and whether each keeps the rules."""
    for op, it in REQUESTS.items():
        if op == WATCH:
            continue
        yield from ((request, True) for request in right(op) if op != "stop")
        yield from ((request, False) for request in wrong(op))
        if it.get("is_edit"):
            beside = REQUESTS["edits"]["optional"]
            yield from ((in_list(request), True) for request in right(op) if not beside.keys() & request.keys())
            yield from ((in_list(request), False) for request in wrong(op) if request.get("doc") == 1)
            yield from ((in_list({**base(op)[0], name: taken(kind)[0]}), False) for name, kind in beside.items())
            yield {"op": "edits", "doc": 1, "edits": [base(op)[0]]}, False
        elif op != "edits":
            yield in_list(base(op)[0]) | {"doc": 1}, False


def short(request):
    return json.dumps(request)[:120]


def check_file(checks, program, asked):
    """In a session over a file."""
    new_file(program, "fields")
    status, output, faults = run(program, "edit", "fields", lines=insert(0, "abc") + b"".join(line(**request) for request, _ in asked))
    answers = [json.loads(answer) for answer in output.splitlines()][1:]
    checks.same("a session with broken fields", (status, faults, len(answers)), (0, b"", len(asked)))
    other = [(short(request), answer) for (request, is_right), answer in zip(asked, answers) if (answer != FIELD) != is_right]
    checks.same(f"{len(asked)} requests with right and broken fields", other, [])


def check_names(checks, program):
    """The table's requests are those that the program knows, and none else."""
    new_file(program, "names")
    known = [line(**base(op)[0]) for op in REQUESTS if op not in (WATCH, "stop")] + [line(op="stop")]
    unknown = [line(op=op) for op in ("fly", "", "Insert", "watch", None, 1, ["text"])] + [line(doc=1), b"7\n", b"[]\n"]
    answers = [json.loads(answer) for answer in run(program, "edit", "names", lines=b"".join(known + unknown))[1].splitlines()]
    checks.holds("each request is known", all(answer not in (FIELD, REQUEST) for answer in answers[: len(known)]))
    checks.same("no other one is", answers[len(known) :], [REQUEST] * len(unknown))


def check_watches(checks, program):
    """A watch is asked as the first line of a daemon's session. With broken fields it is no request (3)."""
    daemon = new_daemon(program, "watched-fields")
    daemon.talk().ask(insert(0, "a"))
    for request, is_right in [*((it, True) for it in right(WATCH)), *((it, False) for it in wrong(WATCH))]:
        talk = daemon.talk()
        answer = talk.ask(line(**request))
        checks.same(f"the answer to {short(request)}", answer if answer == REQUEST or not answer["ok"] else "told", "told" if is_right else REQUEST)
        talk.close()
    checks.same("the end of a daemon with broken watches", daemon.stop(), ({"ok": True}, (0, b"", b"")))


def python_says(asked):
    """For each request whether the Python client finds a broken rule."""
    sys.path.insert(0, os.path.join(ROOT, "clients", "python", "src"))
    from peritext.rules import broken

    return [bool(broken(request)) for request, _ in asked]


def script_says(asked):
    """The same of the JavaScript client."""
    module = "file://" + os.path.join(ROOT, "clients", "js", "src", "rules.js")
    lines = b"".join(line(**request) for request, _ in asked)
    ran = subprocess.run(["node", "--input-type=module", "-e", SCRIPT, module], input=lines, capture_output=True, timeout=60)
    return [word == b"true" for word in ran.stdout.split()]


def check_client(checks, name, found, asked):
    checks.same(f"how many requests {name} looked at", len(found), len(asked))
    other = [short(request) for (request, is_right), is_broken in zip(asked, found) if is_broken == is_right]
    checks.same(f"what {name} says of right and broken fields", other, [])


def check(checks, program, _until):
    asked = list(right_and_wrong())
    check_file(checks, program, asked)
    check_names(checks, program)
    check_watches(checks, program)
    asked += [*((it, True) for it in right(WATCH)), *((it, False) for it in wrong(WATCH))]
    check_client(checks, "the Python client", python_says(asked), asked)
    if shutil.which("node"):
        check_client(checks, "the JavaScript client", script_says(asked), asked)
    else:
        checks.skip("the rules of the JavaScript client", "there is no node")
