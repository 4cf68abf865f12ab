"""What the gate does with the proved program: the checks, and the tests of both clients, side by side, since most of them wait.

    python3 tools/over_program.py PROGRAM    from the project's root

The lines of the checks go on as they come, those of each client's tests once they have ended. Those of JavaScript are skipped if there is no node of
version 20 or later. The last lines say which of them passed.
"""

import os
import re
import subprocess
import sys
from concurrent.futures import ThreadPoolExecutor

LEAST_NODE = 20


def has_node():
    """Whether there is a node that the client's tests can take."""
    try:
        said = subprocess.run(["node", "--version"], capture_output=True, text=True, check=False).stdout
    except OSError:
        return False
    version = re.match(r"v(\d+)", said)
    return version is not None and int(version[1]) >= LEAST_NODE


def check(program):
    return subprocess.run([sys.executable, "checks/run.py", program], check=False).returncode == 0


def test(words, program):
    """Runs the tests of a client. Gives whether they passed, and what they said."""
    around = {**os.environ, "PERITEXT": program}
    ran = subprocess.run(words, env=around, stdout=subprocess.PIPE, stderr=subprocess.STDOUT, text=True, errors="replace", check=False)
    return ran.returncode == 0, ran.stdout


def main():
    program = os.path.abspath(sys.argv[1])
    clients = {"clients/python": [sys.executable, "clients/python/tests/run.py"]}
    if has_node():
        clients["clients/js"] = ["node", "clients/js/tests/run.mjs"]
    else:
        print(f"skipped: clients/js, for there is no node of version {LEAST_NODE} or later")
    with ThreadPoolExecutor(len(clients)) as pool:
        running = {name: pool.submit(test, words, program) for name, words in clients.items()}
        passed = {"checks": check(program)}
        for name, it in running.items():
            passed[name], said = it.result()
            print(f"== {name}\n{said}", end="", flush=True)
    for name, is_well in passed.items():
        print(f"{name}: {'passed' if is_well else 'FAILED'}")
    return 0 if all(passed.values()) else 1


if __name__ == "__main__":
    sys.exit(main())
