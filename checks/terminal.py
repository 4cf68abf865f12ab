"""What a terminal shows below a refusal: the program with a pseudo terminal as standard error, and without one."""

import os
import pty
import shutil
import socket
import subprocess

from agreed import sentences
from daemon import HOST, free_ports
from locks import Session, as_nobody
from program import REPLICA, fault, insert, line, new_file, run, write
from words import MADE

STATUS = line(op="status")


def on_terminal(program, *words, **how):
    """Exit status, standard output, and what is shown on a terminal that is standard error."""
    shown, end = pty.openpty()
    ran = subprocess.Popen([program, *words], stdin=subprocess.DEVNULL, stdout=subprocess.PIPE, stderr=end, **how)
    os.close(end)
    said = b""
    while True:
        try:
            more = os.read(shown, 4096)
        except OSError:
            break
        if not more:
            break
        said += more
    os.close(shown)
    output, _ = ran.communicate(timeout=60)
    return ran.returncode, output, said.replace(b"\r\n", b"\n")


def shown(number, place, name):
    """What a terminal has to show: the line that is there without one, and one with a sentence."""
    status, output, line = fault(number)
    about = f"{place}: " if place else ""
    return status, output, line + f"peritext: {about}{sentences()[name][2]}\n".encode()


def same(checks, program, words, number, place, name, **how):
    """A refusal with and without a terminal."""
    checks.same(f"{words}, on a terminal", on_terminal(program, *words, **how), shown(number, place, name))
    checks.same(f"{words}, without one", run(program, *words, **how), fault(number))


def check_files(checks, program):
    write("no store", b"")
    write("other bytes", MADE[:8] + b"x" + MADE[9:])
    new_file(program, "there")
    os.mkdir("a_folder")
    for words, place, name in [
        (("edit", "none"), "none", "NotThere"),
        (("dump", "none", "1"), "none", "NotThere"),
        (("edit", "there/below"), "there/below", "NotThere"),
        (("init", "no/file", "--replica", REPLICA), "no/file", "NoFolder"),
        (("list", "a_folder"), "a_folder", "Folder"),
        (("init", "a_folder", "--replica", REPLICA), "a_folder", "Folder"),
        (("edit", "/dev/null"), "/dev/null", "NotPlain"),
    ]:
        same(checks, program, words, 54, place, name)
    same(checks, program, ("edit", "no store"), 42, "no store", "NoRoot")
    same(checks, program, ("edit", "other bytes"), 43, "other bytes", "BadBytes")
    same(checks, program, ("init", "there", "--replica", REPLICA), 48, "there", "NotEmpty")
    same(checks, program, ("dump", "there", "0"), 4, None, "Field")
    checks.same("no refusal, on a terminal", on_terminal(program, "dump", "there", "1")[::2], (0, b""))


def check_rights(checks, program):
    """Files and folders of which this user may not do what is asked, as one whom permission bits bind."""
    os.makedirs("bound/closed", mode=0o755)
    os.chmod(".", 0o755)
    copied, name = os.path.abspath("bound/peritext"), os.path.abspath("bound/not mine")
    shutil.copy(program, copied)
    os.chmod(copied, 0o755)
    write(name, MADE)
    os.chmod(name, 0)
    os.chmod("bound/closed", 0o555)
    new = os.path.abspath("bound/closed/new")
    try:
        same(checks, copied, ("edit", name), 54, name, "NoRight", **as_nobody())
        same(checks, copied, ("init", new, "--replica", REPLICA), 54, new, "NotMade", **as_nobody())
        checks.holds("nothing was made", not os.path.exists(new))
    except (PermissionError, subprocess.SubprocessError) as error:
        checks.skip("files without rights", error)
    os.chmod("bound/closed", 0o755)


def check_held(checks, program):
    new_file(program, "held")
    session = Session(program, "held")
    checks.same("a session", session.ask(insert(0, "a")), {"ok": True, "rev": 1})
    for words in (("edit", "held"), ("dump", "held", "1"), ("init", "held", "--replica", REPLICA)):
        same(checks, program, words, 54, "held", "Held")
    checks.same("its end", session.end(), (0, b""))


def check_ports(checks, program):
    new_file(program, "served")
    sessions, peers, free, taken = free_ports(4)
    with socket.socket() as other:
        other.bind((HOST, taken))
        other.listen()
        ports = ("--sessions", str(taken), "--peers", str(peers))
        same(checks, program, ("serve", "served", *ports), 70, f"port {taken}", "PortTaken")
    ports = ("--sessions", str(sessions), "--peers", str(peers))
    same(checks, program, ("serve", "served", *ports, "--link", str(free)), 70, f"port {free}", "NoPeer")
    same(checks, program, ("serve", "served", *ports, "--link", str(peers)), 70, f"port {peers}", "OwnPort")
    same(checks, program, ("serve", "none", *ports), 54, "none", "NotThere")
    same(checks, program, ("ask", str(free), "{}"), 70, f"port {free}", "NoDaemon")


GREETING = (
    b"peritext: a session over a new store in memory, which is gone at its end. It waits for requests, a line\n"
    b"peritext: each; Ctrl-D ends it. 'peritext --help' tells of files and of requests.\n"
)


def check_without_words(checks, program):
    """Who starts the program alone at a terminal is told what it waits for; on others' standard error nothing is said."""
    shown, end = pty.openpty()
    run = subprocess.Popen([program], stdin=end, stdout=subprocess.PIPE, stderr=end)
    os.close(end)
    os.write(shown, STATUS)
    answers = run.stdout.readline(), run.stdout.readline()
    os.write(shown, b"\x04")
    checks.same("a session at a terminal", (answers[0], b'"open"' in answers[1], run.wait(timeout=60)), (b'{"ok":true}\n', True, 0))
    run.stdout.close()
    said = os.read(shown, 4096).replace(b"\r\n", b"\n")
    os.close(shown)
    # The terminal shows what is typed too.
    checks.same("what it is told first", said.replace(STATUS, b""), GREETING)
    for words in ((), ("edit", "none")):
        said = on_terminal(program, *words)[2]
        checks.holds(f"without input from a terminal {words}", GREETING not in said)


def check(checks, program, _until):
    check_without_words(checks, program)
    check_files(checks, program)
    check_rights(checks, program)
    check_held(checks, program)
    check_ports(checks, program)
