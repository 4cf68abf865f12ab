"""The tables that are made of docs/protocol.json: the modules of both clients, and some tables of the documents.

    python3 tools/tables.py            makes them
    python3 tools/tables.py --check    changes nothing, and fails if one differs from what it would make

docs/protocol.json is changed by hand. What the program does is written in the crates, and checks/copies.py compares both.
"""

import os
import sys

from protocol import ROOT, protocol
from table_modules import modules
from table_pages import PAGES, with_tables


def text_of(path):
    """What a file holds; nothing if it isn't there."""
    if not os.path.exists(os.path.join(ROOT, path)):
        return ""
    with open(os.path.join(ROOT, path), encoding="utf-8") as file:
        return file.read()


def made(table):
    """What each file has to be, by its path."""
    return modules(table) | {path: with_tables(text_of(path), table, tables) for path, tables in PAGES.items()}


def main():
    differing = {path: text for path, text in made(protocol()).items() if text != text_of(path)}
    if "--check" in sys.argv[1:]:
        for path in differing:
            print(f"{path} isn't what `python3 tools/tables.py` makes of docs/protocol.json")
        return 1 if differing else 0
    for path, text in differing.items():
        with open(os.path.join(ROOT, path), "w", encoding="utf-8") as file:
            file.write(text)
    return 0


if __name__ == "__main__":
    sys.exit(main())
