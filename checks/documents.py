"""The documents, here and where `make install` puts them: what they link to is there, and so are the files that they name; the page and the picture
of the layers are those of crates.txt."""

import glob
import os
import re
import subprocess
import sys

ROOT = os.path.dirname(os.path.dirname(os.path.abspath(__file__)))
# Those in crates/.
NOT_INSTALLED = 1
SHARE = "usr/local/share/doc/peritext"
CODE = re.compile(r"```.*?```|`[^`]*`", re.DOTALL)
LINK = re.compile(r"!?\[[^\]]*\]\(([^)\s]+)\)")
# A file or a folder that is named from the top, as docs/OPERATING.md.
NAMED = re.compile(r"`((?:docs|clients|examples|checks|bench|tools|crates)/[\w@./-]*\w)`")


def documents(root):
    found = glob.glob(os.path.join(root, "*.md"))
    found += glob.glob(os.path.join(root, "crates", "*.md"))
    for folder in ("docs", "clients", "examples"):
        found += glob.glob(os.path.join(root, folder, "**", "*.md"), recursive=True)
    return [path for path in found if "node_modules" not in path]


def text_of(path):
    with open(path, encoding="utf-8") as file:
        return file.read()


def dead_links(path):
    """The links of a document that lead nowhere."""
    links = [link.partition("#")[0] for link in LINK.findall(CODE.sub("", text_of(path))) if "://" not in link]
    return [link for link in links if link and not os.path.exists(os.path.join(os.path.dirname(path), link))]


def missing(path):
    """The files that a document names and that aren't there."""
    return [name for name in NAMED.findall(text_of(path)) if not os.path.exists(os.path.join(ROOT, name))]


def install(destination):
    """What `make install` does with all but the program and its manual page."""
    words = ["make", "-n", "--no-print-directory", "-o", "peritext", "install", f"DESTDIR={destination}"]
    # A make that this one runs below has nothing to say to it.
    around = {name: value for name, value in os.environ.items() if not name.startswith("MAKE")}
    lines = subprocess.run(words, cwd=ROOT, capture_output=True, text=True, check=True, env=around).stdout.splitlines()
    for it in lines:
        if "bin/peritext" not in it:
            subprocess.run(it, shell=True, cwd=ROOT, check=True)


def check(checks, _program, _until):
    for path in documents(ROOT):
        name = os.path.relpath(path, ROOT)
        checks.same(f"dead links of {name}", dead_links(path), [])
        checks.same(f"what {name} names", missing(path), [])
    layers = subprocess.run([sys.executable, "tools/layers.py", "--check"], cwd=ROOT, capture_output=True, text=True, check=False)
    checks.same("the layers of crates.txt", (layers.returncode, layers.stderr), (0, ""))
    install(os.path.abspath("installed"))
    found = [path for path in documents(os.path.join("installed", SHARE)) if os.path.exists(path)]
    checks.same("documents that are installed", len(found), len(documents(ROOT)) - NOT_INSTALLED)
    for path in found:
        checks.same(f"dead links of {path}", dead_links(path), [])
