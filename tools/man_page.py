"""The manual page of a program, in roff, made of what its --help says: python3 tools/man_page.py PROGRAM > peritext.1"""

import re
import subprocess
import sys


def said(program, *words):
    """What the program prints."""
    return subprocess.run([program, *words], check=True, capture_output=True, text=True).stdout.rstrip("\n")


def roff(text):
    """A text as roff has it: no character of it is an instruction."""
    text = text.replace("\\", "\\e").replace("-", "\\-").replace("'", "\\(aq").replace("`", "\\(ga")
    return "\n".join("\\&" + line if line.startswith(".") else line for line in text.split("\n"))


def verbatim(text):
    """Lines that stay as they are."""
    return [".nf", roff(text), ".fi"]


def commands(text):
    """The names of the commands that a help lists."""
    listed = text.partition("Commands:\n")[2].partition("\n\n")[0]
    return [line.split()[0] for line in listed.split("\n") if re.match(r"  \w", line) and line.split()[0] != "help"]


def page(program):
    """The lines of the page."""
    version, whole = said(program, "--version").split()[-1], said(program, "--help")
    about, _, rest = whole.partition("\n\n")
    lines = [f'.TH PERITEXT 1 "" "peritext {version}" "User Commands"', ".SH NAME", roff(f"peritext - {about}"), ".SH DESCRIPTION", *verbatim(rest)]
    for command in commands(whole):
        lines += [f'.SH "peritext {command}"', *verbatim(said(program, command, "--help"))]
    return lines


if __name__ == "__main__":
    print("\n".join(page(sys.argv[1])))
