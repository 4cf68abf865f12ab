"""A file that was put back from an older copy: a peer that has seen more of it says so as soon as they are linked. From then on the daemon makes
no edit, ends its links, is read and stopped as ever; a new replica's file gets all that the peer has.
"""

import shutil
import subprocess

from beside import link, seat
from daemon import PATIENCE, Daemon, new_daemon, within
from frames import Peer, have, replica
from program import NAME, REPLICA, insert, line

STATUS, TEXT = line(op="status"), line(op="text", doc=1)
OTHER, NEW = REPLICA[:-1] + "2", REPLICA[:-1] + "3"
STOPPED, STOPPING = {"ok": True}, {"code": 12, "error": "stopping", "ok": False}
OLD, SEEN = "old", "and what a peer has seen"
ENDED = (STOPPED, (0, b"", b""))


def edit(daemon, at, text):
    """What a session of its own is answered for an insert."""
    talk = seat(daemon)
    answer = talk.ask(insert(at, text))
    talk.close()
    return answer


def text(daemon):
    """What document 1 shows."""
    talk = seat(daemon)
    answer = talk.ask(TEXT)
    talk.close()
    return answer.get("text")


def state(daemon):
    talk = seat(daemon)
    answer = talk.ask(STATUS)
    talk.close()
    return answer["state"]


def put_back(program):
    """A peer that has all, and a daemon over an older copy of the file that it had it from, which joins that peer."""
    peer = new_daemon(program, "seen-by", OTHER)
    daemon = new_daemon(program, "kept", link=peer.peers)
    edit(daemon, 0, OLD)
    within("the peer has the old text", lambda: text(peer) == OLD)
    daemon.stop()
    shutil.copy("kept", "copy")
    again = Daemon(program, "kept", ports=(daemon.sessions, daemon.peers), link=peer.peers)
    edit(again, len(OLD), SEEN)
    within("the peer has the new text", lambda: text(peer) == OLD + SEEN)
    again.stop()
    shutil.copy("copy", "kept")
    return peer, Daemon(program, "kept", ports=(daemon.sessions, daemon.peers), link=peer.peers)


def check_put_back(checks, program):
    peer, daemon = put_back(program)
    try:
        within("the file is seen to be an older copy", lambda: state(daemon) == "stopping")
        checks.same("an edit of a file that was put back", edit(daemon, 0, "x"), STOPPING)
        checks.same("its text", text(daemon), OLD)
        checks.same("the text of its peer", text(peer), OLD + SEEN)
        checks.same("an edit of its peer", edit(peer, 0, "p")["ok"], True)
        later = Peer(daemon.peers, replica(9))
        checks.holds("a link to it ends", later.has_ended(PATIENCE))
        later.close()
        checks.same("its stop", daemon.stop(), ENDED)
        new = new_daemon(program, "anew", NEW, link=peer.peers)
        within("a new replica has all", lambda: text(new) == "p" + OLD + SEEN)
        checks.same("an edit of the new replica", edit(new, 0, "n")["ok"], True)
        checks.same("its end", new.stop(), ENDED)
        checks.same("the end of the peer", peer.stop(), ENDED)
    finally:
        for it in (peer, daemon):
            if it.run.poll() is None:
                it.kill()


def check_counts(checks, program):
    """A peer that counts just what there is changes nothing; one more, and all other links end too."""
    daemon = new_daemon(program, "counted")
    try:
        edit(daemon, 0, OLD)
        beside, peer = link(daemon, replica(8)), link(daemon, replica(9))
        for count in (len(OLD) - 1, len(OLD)):
            peer.say(have((NAME, count)))
        peer.frames(1)
        checks.same("an edit beside a peer that has all", edit(daemon, 0, "y")["ok"], True)
        peer.say(have((NAME, len(OLD) + 2)))
        checks.holds("a link over which more is counted than there is ends", peer.has_ended(PATIENCE))
        checks.holds("so does one beside it", beside.has_ended(PATIENCE))
        checks.same("an edit then", edit(daemon, 0, "z"), STOPPING)
        checks.same("the text then", text(daemon), "y" + OLD)
        checks.same("the stop then", daemon.stop(), ENDED)
        beside.close()
        peer.close()
    finally:
        if daemon.run.poll() is None:
            daemon.kill()


def check(checks, program, _until):
    for part in (check_put_back, check_counts):
        try:
            part(checks, program)
        except (OSError, TimeoutError, TypeError, subprocess.TimeoutExpired) as error:
            checks.same(f"{part.__name__} comes to its end", repr(error), None)
