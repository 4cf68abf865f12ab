"""What `ask` sends to a daemon and prints, and its exit status."""

import json
import socket
import subprocess
import threading

from daemon import HOST, PATIENCE, free_ports, new_daemon, within
from program import fault, insert, line, run

TEXT, STATUS, STOP = line(op="text", doc=1), line(op="status"), line(op="stop")
# Edits, each followed by a text that grows.
MANY, PIECE = 40, "x" * 250


def asked(program, port, *lines, given=b""):
    """Exit status, the answers, and standard error."""
    status, output, faults = run(program, "ask", str(port), *(it.decode().strip() for it in lines), lines=given)
    return status, [json.loads(it) for it in output.splitlines()], faults


def check_lines(checks, program, daemon):
    port = daemon.sessions
    checks.same("an edit and a text", asked(program, port, insert(0, "ab"), TEXT),
                (0, [{"ok": True, "rev": 2}, {"ok": True, "rev": 2, "text": "ab"}], b""))
    range_error = {"code": 5, "error": "range", "ok": False}
    checks.same("a refusal, and what comes after it", asked(program, port, insert(9, "x"), TEXT),
                (1, [range_error, {"ok": True, "rev": 2, "text": "ab"}], b""))
    checks.same("the input's lines", asked(program, port, given=TEXT + TEXT.strip()), (0, [{"ok": True, "rev": 2, "text": "ab"}] * 2, b""))
    checks.same("no line at all", asked(program, port), (0, [], b""))
    checks.same("an empty line", asked(program, port, given=b"\n")[:2], (1, [{"code": 2, "error": "syntax", "ok": False}]))
    checks.same("a word with a line feed", run(program, "ask", str(port), (TEXT + TEXT).decode())[0], 1)
    checks.same("nine lines", run(program, "ask", str(port), *["{}"] * 9), fault(4))
    given = b"".join(insert(0, PIECE, doc=2) + line(op="text", doc=2) for _ in range(MANY))
    status, answers, _ = asked(program, port, given=given)
    checks.same("large answers, one after another", (status, len(answers), len(answers[-1]["text"])), (0, 2 * MANY, len(PIECE) * MANY))


def check_typed(checks, program, daemon):
    """Whoever types has each answer before the next line, and a watch goes on."""
    words = [program, "ask", str(daemon.sessions)]
    pipes = {"stdin": subprocess.PIPE, "stdout": subprocess.PIPE, "stderr": subprocess.PIPE}
    typed = subprocess.Popen(words, **pipes)
    for _ in range(2):
        typed.stdin.write(STATUS)
        typed.stdin.flush()
        checks.same("an answer while the input goes on", json.loads(typed.stdout.readline())["state"], "open")
    checks.same("its end", (typed.communicate(timeout=PATIENCE), typed.returncode), ((b"", b""), 0))
    watch = subprocess.Popen([*words, line(op="watch", doc=1).decode()], **pipes)
    first = json.loads(watch.stdout.readline())["rev"]
    asked(program, daemon.sessions, insert(0, "w"))
    checks.same("a watch goes on", json.loads(watch.stdout.readline())["rev"], first + 1)
    return watch


def check_ends(checks, program):
    """Daemons that aren't there, or end before they answer."""
    (free,) = free_ports(1)
    checks.same("no daemon", run(program, "ask", str(free), "{}"), fault(70))
    with socket.create_server((HOST, 0)) as server:
        def end():
            made, _ = server.accept()
            with made:
                made.recv(4096)

        other = threading.Thread(target=end)
        other.start()
        checks.same("one that doesn't answer", run(program, "ask", str(server.getsockname()[1]), "{}"), fault(71))
        other.join()


def check(checks, program, _until):
    daemon = new_daemon(program, "asked")
    check_lines(checks, program, daemon)
    watch = check_typed(checks, program, daemon)
    checks.same("a stop", asked(program, daemon.sessions, STOP), (0, [{"ok": True}], b""))
    checks.same("the daemon's end", daemon.ended(), (0, b"", b""))
    within("the watch ends", lambda: watch.poll() is not None)
    checks.same("with status 0", (watch.communicate()[1], watch.returncode), (b"", 0))
    check_ends(checks, program)
