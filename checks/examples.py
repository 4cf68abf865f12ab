"""The examples of the first page and of the Python client's, run as they stand."""

import os
import re
import subprocess
import sys

HERE = os.path.dirname(os.path.abspath(__file__))
TOP = os.path.dirname(HERE)
BLOCK = re.compile(r"^```(console|python)\n(.*?)^```$", re.MULTILINE | re.DOTALL)


def blocks(page):
    """The blocks of a page: their language, and their lines."""
    with open(os.path.join(TOP, page), encoding="utf-8") as opened:
        return BLOCK.findall(opened.read())


def commands(block):
    """Each command of a console's block, with the lines that it prints."""
    found = []
    for line in block.splitlines():
        if line.startswith("$ "):
            found.append((line[2:], []))
        else:
            found[-1][1].append(line)
    return found


def surroundings(program):
    """Where `peritext` is this program, and Python finds the client."""
    os.makedirs("bin")
    os.symlink(program, "bin/peritext")
    return dict(
        os.environ,
        PATH=os.path.abspath("bin") + os.pathsep + os.environ["PATH"],
        PYTHONPATH=os.path.join(TOP, "clients", "python", "src"),
    )


def outcome(ran):
    """What a command printed, and what went wrong."""
    return ran.stdout.splitlines() + ran.stderr.splitlines()


def check_page(checks, page, around):
    for language, block in blocks(page):
        if language == "console":
            for command, wanted in commands(block):
                ran = subprocess.run(["sh", "-c", command], capture_output=True, text=True, env=around, timeout=60)
                checks.same(f"{page}: {command}", outcome(ran), wanted)
        else:
            ran = subprocess.run([sys.executable, "-c", block], capture_output=True, text=True, env=around, timeout=60)
            checks.same(f"{page}: its Python ends well", (ran.returncode, ran.stderr), (0, ""))
            checks.holds(f"{page}: its Python prints the text", ran.stdout.startswith("The quick fox"))


def check(checks, program, deadline):
    before = os.getcwd()
    for page in ("README.md", os.path.join("docs", "PROTOCOL.md"), os.path.join("clients", "python", "README.md")):
        room = os.path.abspath(page.replace(os.sep, "-"))
        os.makedirs(room)
        os.chdir(room)
        try:
            check_page(checks, page, surroundings(program))
        finally:
            os.chdir(before)
