"""Sessions that type while their daemon is killed at random moments: each edit is there once. KILL_SECONDS says for how long."""

import os
import random
import threading
import time

import peritext
from support import Daemon, WithDaemon

SESSIONS = 8
# Seconds between two kills at most.
BETWEEN = 0.8


class Kills(WithDaemon):
    def test_each_edit_is_made_once(self):
        until = time.monotonic() + float(os.environ.get("KILL_SECONDS", "5"))
        made = [[] for _ in range(SESSIONS)]

        def type_some(number):
            with peritext.connect(self.daemon.port, retry=60) as session:
                text = session.document(1 + number % 2)
                while time.monotonic() < until:
                    marks = [f"<{number}:{len(made[number]) + more}>" for more in range(random.randrange(1, 5))]
                    under_way = [text.send_insert(0, mark) for mark in marks]
                    for edit in under_way:
                        edit.result()
                    made[number] += marks

        threads = [threading.Thread(target=type_some, args=(number,)) for number in range(SESSIONS)]
        for thread in threads:
            thread.start()
        while time.monotonic() < until:
            time.sleep(BETWEEN * random.random())
            self.daemon.kill()
            self.daemon = Daemon(self.name, self.daemon.port)
            self.addCleanup(self.daemon.kill)
        for thread in threads:
            thread.join()
        session = self.connect()
        for number in (1, 2):
            there = [part + ">" for part in session.document(number).text().split(">") if part]
            self.assertEqual(sorted(there), sorted(mark for marks in made[number - 1 :: 2] for mark in marks))
        self.assertTrue(all(made))
