"""What `check` tells of a file: how much is in it, and what its two root slots say; and that it refuses what isn't whole."""

import json
import os
import shutil

from locks import Session
from program import PAGE, REPLICA, fault, insert, line, new_file, read, run, write

LINE = {"documents": 1, "format": 3, "ok": True, "replica": REPLICA, "replicas": 1}
# Where the body of a slot begins, and its version.
BODY, VERSION = 8, 16


def checked(program, name):
    """The line that a check prints; its bytes, if that is no such line."""
    status, output, faults = run(program, "check", name)
    try:
        found = json.loads(output)
    except ValueError:
        return status, output, faults
    is_compact = json.dumps(found, separators=(",", ":"), sort_keys=True).encode() + b"\n" == output
    return found if (status, faults, is_compact) == (0, b"", True) else (status, output, faults)


def slot_of(data, page):
    return data[PAGE * page : PAGE * (page + 1)]


def with_slot(data, page, slot):
    return data[: PAGE * page] + slot + data[PAGE * (page + 1) :]


def check_stale(checks, program, data, found):
    """What is in the other slot, which no commit has to leave whole."""
    live = found["live"]["page"]
    stale = slot_of(data, 1 - live)
    later = slot_of(data, live)[BODY:VERSION] + (found["live"]["version"] + 1).to_bytes(8, "big")
    for name, slot in (
        ("older", b"\0" + stale[1:]),
        ("unfinished", b"\0" * BODY + later + slot_of(data, live)[VERSION + 8 :]),
        ("empty", bytes(PAGE)),
        ("broken", b"\0" * BODY + stale[BODY:64] + b"\xff" * (PAGE - 64)),
        ("broken", b"\0" * BODY + b"x" + stale[BODY + 1 :]),
    ):
        write("other", with_slot(data, 1 - live, slot))
        checks.same(f"a stale slot that is {name}", checked(program, "other"), {**found, "stale": name})
        checks.same(f"and the file has its text: {name}", run(program, "dump", "other", "1")[0], 0)


def check(checks, program, _until):
    new_file(program, "checked")
    empty = {**LINE, "bytes": 0, "documents": 0, "operations": 0, "replicas": 0, "live": {"page": 0, "version": 1}, "stale": "empty"}
    checks.same("a new file", checked(program, "checked"), empty)
    run(program, "edit", "checked", lines=insert(0, "ab"))
    once = {**LINE, "bytes": 126, "operations": 2, "live": {"page": 1, "version": 2}, "stale": "older"}
    checks.same("a file with an edit", checked(program, "checked"), once)
    run(program, "edit", "checked", lines=insert(2, "c") + insert(0, "d", doc=2))
    room = json.loads(run(program, "list", "checked")[1].splitlines()[-1])
    found = checked(program, "checked")
    checks.same("more edits", (found["live"]["version"], found["documents"]), (4, 2))
    checks.same("the numbers of list", {name: found[name] for name in ("bytes", "documents", "operations", "replicas")},
                {name: room[name] for name in ("bytes", "documents", "operations", "replicas")})
    data = read("checked")
    check_stale(checks, program, data, found)
    checks.same("nothing was written", read("checked"), data)
    write("shorter", data[: 2 * PAGE])
    checks.same("a copy that was cut off", run(program, "check", "shorter"), run(program, "dump", "shorter", "1"))
    checks.same("is refused", run(program, "check", "shorter")[0], 1)
    write("nothing", b"")
    checks.same("no store", run(program, "check", "nothing"), fault(42))
    checks.same("no file", run(program, "check", "not there"), fault(54))
    shutil.copy("checked", "held")
    session = Session(program, "held")
    checks.same("a session has it", session.ask(line(op="status"))["state"], "open")
    checks.same("a file that another one has", run(program, "check", "held"), fault(54))
    session.end()
    os.chmod("held", 0o400)
    checks.same("a file that may only be read", checked(program, "held"), found)
