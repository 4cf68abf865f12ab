"""Proves and builds programs of bench/crates, as bin/NAME, over what earlier runs proved of the crates that they stand on.

    python3 tools/benches.py NAME ..                from the project's root
    python3 tools/benches.py --unproved NAME ..     as bin/unproved/NAME, without any proof (tools/unproved.py)

They measure, and nothing stands on them, so the gate leaves them out. It refuses a tree with a .rt file that it doesn't prove: their sources end
in .rattle here, and in .rt in the copy of the tree in which they are crates like others. Each has to print there what its stdout says.
"""

import glob
import os
import shutil
import subprocess
import sys
import tempfile

import quick
import unproved

FOLDER = "bench/crates"
LIBRARIES = f"{FOLDER}/libraries.txt"


def below(name, crates):
    """The crates of this tree that a crate stands on."""
    found = set()
    for library in crates[name]:
        if library in crates and library not in found:
            found |= {library} | below(library, crates)
    return found


def put(file, place):
    """Puts a file there too, without its bytes where the file system can do that: they are some 3 GB, and nothing is written into them."""
    try:
        os.link(file, place)
    except OSError:
        shutil.copy2(file, place)


def lay_out(name, crates, room):
    """A tree with this program and what it stands on, without the work that only another proof of that would need."""
    for library in below(name, crates):
        shutil.copytree(f"crates/{library}", f"{room}/crates/{library}", ignore=shutil.ignore_patterns("incremental"), copy_function=put)
    shutil.copytree(f"{FOLDER}/{name}", f"{room}/crates/{name}")
    for path in glob.glob(f"{room}/crates/{name}/src/*.rattle"):
        os.rename(path, path.removesuffix("rattle") + "rt")
    shutil.copy("HANDLES", room)
    with open(f"{room}/crates.txt", "w", encoding="utf-8") as file:
        file.writelines(f"{it}: {' '.join(crates[it])}\n" for it in below(name, crates) | {name})


def prove(name, room):
    """Proves and runs the program of this tree, and keeps it if it says what it has to."""
    folder = f"{room}/crates/{name}"
    with open(f"{folder}/stdin", "rb") as given, open(f"{folder}/stdout", "rb") as due:
        run = subprocess.run(["rt", "run"], cwd=folder, stdin=given, stdout=subprocess.PIPE, check=False)
        if run.returncode != 0 or run.stdout != due.read():
            sys.exit(f"{name} isn't proved, or said other than its stdout: {run.stdout}")
    os.makedirs("bin", exist_ok=True)
    shutil.copy(f"{folder}/out/{name}", f"bin/{name}")
    print(f"bin/{name} is built of these sources, and proved")


def main():
    words = sys.argv[1:]
    is_proved, names = "--unproved" not in words, [it for it in words if it != "--unproved"]
    crates = {**quick.crates("crates.txt"), **quick.crates(LIBRARIES)}
    for name in names:
        if is_proved:
            subprocess.run([sys.executable, "tools/prove.py", *sorted(below(name, crates))], check=True)
        with tempfile.TemporaryDirectory(prefix="peritext-bench-") as room:
            lay_out(name, crates, room)
            if is_proved:
                prove(name, room)
            else:
                unproved.make(f"{room}/crates/{name}", name)


if __name__ == "__main__":
    main()
