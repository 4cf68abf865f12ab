"""Proves and tests what changed since the last whole gate that passed here, and what stands on it.

    python3 tools/quick.py             from the project's root; the program is left as bin/quick_program
    python3 tools/quick.py --list      says which crates these are, and does nothing
    python3 tools/quick.py --passed    notes the crates as they are: a whole gate has passed on them (`make test` does this)

Of the edits, those of the crates that changed are tried, and those of the rest are not. It is `rt ci` on a copy without the others' edits,
so what passes is kept for the next whole gate, which has only the edits left to try. Where no gate has passed here, all counts as changed.
"""

import hashlib
import os
import shutil
import subprocess
import sys
import tempfile
import time

PASSED = "bin/gate_sums"
PROGRAM = "edit_shell"
BUILT = "bin/quick_program"


def crates(path="crates.txt"):
    """The libraries that each crate lists, by its name."""
    found = {}
    with open(path, encoding="utf-8") as file:
        for line in file:
            name, colon, libraries = line.partition("#")[0].partition(":")
            if colon:
                found[name.split()[0]] = libraries.split()
    return found


def sum_of(crate, libraries):
    """One sum for what a crate is: its files, and the libraries that it lists."""
    total = hashlib.sha256(" ".join(sorted(libraries)).encode())
    for folder, folders, files in os.walk(f"crates/{crate}"):
        folders[:] = sorted(it for it in folders if it != "out")
        for name in sorted(files):
            path = f"{folder}/{name}"
            with open(path, "rb") as file:
                total.update(f"{path}\n".encode() + hashlib.sha256(file.read()).digest())
    return total.hexdigest()


def sums():
    """The sums of all crates, and the kit with what it allows, on which each stands."""
    kit = subprocess.run(["rt", "version"], stdout=subprocess.PIPE, text=True, check=True).stdout
    with open("HANDLES", encoding="utf-8") as file:
        kit += file.read()
    found = {"kit": hashlib.sha256(kit.encode()).hexdigest()}
    found.update((name, sum_of(name, libraries)) for name, libraries in crates().items())
    return found


def passed():
    """The sums of the last gate that passed here, none if there was none."""
    try:
        with open(PASSED, encoding="utf-8") as file:
            return dict(line.split() for line in file)
    except FileNotFoundError:
        return {}


def note(found):
    os.makedirs(os.path.dirname(PASSED), exist_ok=True)
    with open(PASSED, "w", encoding="utf-8") as file:
        file.writelines(f"{name} {total}\n" for name, total in found.items())


def changed(found, before):
    """The crates that aren't what they were."""
    if found["kit"] != before.get("kit"):
        return set(crates())
    return {name for name in crates() if found[name] != before.get(name)}


def standing_on(names):
    """The crates that stand on these, and aren't among them."""
    reached, every = set(names), crates()
    while True:
        more = {name for name, libraries in every.items() if name not in reached and reached & set(libraries)}
        if not more:
            return reached - set(names)
        reached |= more


def said(names):
    return " ".join(sorted(names)) or "none"


def prove(own):
    """Runs `rt ci` on a copy in which only these crates have edits, and keeps the program. The exit status is that of `rt ci`."""
    with tempfile.TemporaryDirectory(prefix="peritext-quick-") as room:
        leave_out = shutil.ignore_patterns("out")
        for crate in crates():
            shutil.copytree(f"crates/{crate}", f"{room}/crates/{crate}", ignore=leave_out)
            if crate not in own:
                shutil.rmtree(f"{room}/crates/{crate}/must-fail", ignore_errors=True)
        for file in ("crates.txt", "HANDLES"):
            shutil.copy(file, room)
        status = subprocess.run(["rt", "ci"], cwd=room, check=False).returncode
        if status == 0:
            os.makedirs(os.path.dirname(BUILT), exist_ok=True)
            shutil.copy(f"{room}/crates/{PROGRAM}/out/{PROGRAM}", BUILT)
        return status


def main():
    found = sums()
    if "--passed" in sys.argv[1:]:
        note(found)
        return 0
    own = changed(found, passed())
    print(f"changed: {said(own)}\nstanding on these: {said(standing_on(own))}", flush=True)
    if "--list" in sys.argv[1:]:
        return 0
    start = time.monotonic()
    status = prove(own)
    print(f"quick: {'passed' if status == 0 else 'FAILED'} in {(time.monotonic() - start) / 60:.1f} minutes, without the edits of the rest")
    return status


if __name__ == "__main__":
    sys.exit(main())
