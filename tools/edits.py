"""The must-fail edits: whether each can be applied, and which clause refused it.

    python3 tools/edits.py             from the project's root: fails where an edit's old text doesn't stand just once in its file
    python3 tools/edits.py LOG         with what a gate printed: a row for each edit, with the function and the clause that refused it

`rt ci` calls an edit that can't be applied a bad one, and passes: it says nothing of any contract then. A line that was laid out anew is
the usual cause.
"""

import collections
import glob
import os
import re
import sys

EDITS = "crates/*/must-fail/*.edit"
# What `rt ci` says of an edit: its crate, its name, and the first line of why it was refused.
REFUSED = re.compile(r"must-fail (\w+)/(\S+)\.edit: refused, as it must be(.*)")


def pairs(path):
    """The pairs of an edit: a file, its old text and the new one."""
    file, old, found = None, None, []
    with open(path, encoding="utf-8") as lines:
        for text in lines.read().splitlines():
            key, _, value = text.partition(":")
            value = value.removeprefix(" ")
            if key == "file":
                file = value
            elif key == "old":
                old = value
            elif key == "new":
                found.append((file, old, value))
    return found


def why_bad(path):
    """Why an edit can't be applied, or nothing."""
    folder = os.path.dirname(os.path.dirname(path))
    texts = {}
    for file, old, new in pairs(path):
        if file not in texts:
            try:
                with open(f"{folder}/{file}", encoding="utf-8") as read:
                    texts[file] = read.read()
            except OSError:
                return f"{file} isn't there"
        count = texts[file].count(old)
        if count != 1:
            return f"its old text stands {count} times in {file}: {old}"
        texts[file] = texts[file].replace(old, new)
    return None if texts else "it has no pair of old and new text"


def check():
    """Whether each edit can be applied; tells those that can't."""
    bad = {path: why for path in sorted(glob.glob(EDITS)) if (why := why_bad(path))}
    for path, why in bad.items():
        print(f"{path}: {why}")
    return not bad


def table(log):
    """A row for each edit that a gate's output names, with what refused it."""
    rows = collections.defaultdict(list)
    with open(log, encoding="utf-8", errors="replace") as lines:
        for text in lines:
            if told := REFUSED.search(text):
                crate, name, why = told.groups()
                rows[crate].append((name, why.strip(": ").replace("|", "/")[:160]))
    for crate in sorted(rows):
        for name, why in sorted(rows[crate]):
            print(f"| {crate}/{name} | {why} |")


def main():
    if len(sys.argv) > 1:
        table(sys.argv[1])
        return 0
    return 0 if check() else 1


if __name__ == "__main__":
    sys.exit(main())
