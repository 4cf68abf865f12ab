"""Proves crates side by side, over what earlier runs kept in their out/ folders, and says how long each took.

    python3 tools/prove.py [--tests] [--jobs N] [NAME ..]    from the project's root; without names all crates
    python3 tools/prove.py --where NAME                      where the seconds of a crate's last proof went, by function

A crate is proved as `rt lib` does it, a program as `rt check`, and with --tests what `rt check --test` proves too, each crate once those below it
are through. The kit's own `rt all check` takes one crate after another. What is proved is kept, so after a change it takes what changed and what
stands on that; comments cost some fifteen seconds a crate. It is no gate: `make test` is. What each check said is in bin/prove/.
"""

import argparse
import collections
import copy
import glob
import importlib.machinery
import importlib.util
import os
import re
import subprocess
import sys
import time
from concurrent.futures import FIRST_COMPLETED, ThreadPoolExecutor, wait

SAID = "bin/prove"
PROOF, TESTS = "proof", "tests"
# The most jobs of one check, where nothing else waits.
MOST_JOBS = 4
# A longer pause between two files of a check is one between two checks.
PAUSE = 600


def kit():
    """The part of the kit that knows what a crate is and how it is proved."""
    page = subprocess.run(["rt", "doc"], stdout=subprocess.PIPE, text=True, check=True).stdout.strip()
    path = os.path.join(os.path.dirname(page), "bin", "rtlib.py")
    loader = importlib.machinery.SourceFileLoader("rtlib", path)
    found = importlib.util.module_from_spec(importlib.util.spec_from_loader("rtlib", loader))
    sys.modules["rtlib"] = found
    loader.exec_module(found)
    found.guarded()
    return found


def sum_once(found):
    """Has the sum of a crate's sources, and of those of all below, worked out once: the kit does it anew for each crate above."""
    sums, plain = {}, found.Crate.stamp

    def stamp(crate):
        if crate.folder not in sums:
            sums[crate.folder] = plain(crate)
        return sums[crate.folder]

    found.Crate.stamp = stamp


class Crates:
    """The crates of the project, as they are when this begins."""

    def __init__(self, names):
        self.kit = kit()
        sum_once(self.kit)
        self.by_name = {it.name: it for it in self.kit.crates_below(os.getcwd())}
        self.asked = names or list(self.by_name)

    def tasks(self, with_tests):
        """What there is to prove, the lowest first, and what each waits for."""
        reached = {below.name for name in self.asked for below in self.by_name[name].below()} | set(self.asked)
        order = sorted(reached, key=lambda name: len(self.by_name[name].below()))
        below = {name: [(it.name, PROOF) for it in self.by_name[name].below()] for name in order}
        found = {(name, PROOF): below[name] for name in order}
        if with_tests:
            found.update({(name, TESTS): [*below[name], (name, PROOF)] for name in self.asked if self.by_name[name].has_tests()})
        return found

    def lines(self, task):
        return self.by_name[task[0]].count(rb"\n")

    def prove(self, task, jobs):
        """Proves a crate or its tests, and gives whether it is proved, and the seconds, 0 where it was."""
        name, kind = task
        crate = copy.copy(self.by_name[name])
        os.makedirs(f"{crate.folder}/out", exist_ok=True)
        start = time.monotonic()
        with open(f"{SAID}/{name}.{kind}", "w", encoding="utf-8") as crate.out:
            try:
                if kind == PROOF and not crate.is_program:
                    if crate.is_built():
                        return True, 0
                    proved = crate.build_rlib(["--jobs", str(jobs)], anew=False) == 0
                else:
                    kept = f"{crate.folder}/out/{kind}.stamp"
                    if self.kit.text_of(kept) == crate.stamp():
                        return True, 0
                    flags = ["--jobs", str(jobs), *["--test"] * (kind == TESTS)]
                    proved = crate.call(self.kit.RATTLE, "check", *crate.words(flags), *self.kit.KEPT) == 0
                    if proved:
                        with open(kept, "w", encoding="utf-8") as file:
                            file.write(crate.stamp())
            except SystemExit:
                proved = False
        return proved, time.monotonic() - start


def run(crates, tasks, lanes):
    """Proves all that can be, those with the most behind them first; gives what isn't proved."""
    behind = {task: 0 for task in tasks}
    for task in reversed(list(tasks)):
        behind[task] += crates.lines(task)
        for it in tasks[task]:
            behind[it] = max(behind[it], behind[task])
    left, running, proved, jobs_of, start = sorted(tasks, key=lambda task: -behind[task]), {}, {}, {}, time.monotonic()
    with ThreadPoolExecutor(lanes) as pool:
        while left or running:
            for task in [it for it in left if any(proved.get(below) is False for below in tasks[it])]:
                left.remove(task)
                proved[task] = False
            ready = [it for it in left if all(below in proved for below in tasks[it])]
            for at, task in enumerate(ready):
                idle = lanes - sum(jobs_of[it] for it in running.values())
                if idle > 0:
                    left.remove(task)
                    jobs_of[task] = max(1, min(MOST_JOBS, idle // (len(ready) - at)))
                    running[pool.submit(crates.prove, task, jobs_of[task])] = task
            for it in wait(running, return_when=FIRST_COMPLETED).done if running else ():
                task = running.pop(it)
                proved[task], seconds = it.result()
                if seconds:
                    minutes = (time.monotonic() - start) / 60
                    print(f"{minutes:5.1f} min: {task[0]} {task[1]}: {'proved' if proved[task] else 'NOT PROVED'}, {seconds:.0f} s", flush=True)
    return [task for task in tasks if not proved[task]]


def where(name, most=25):
    """Prints the functions that a crate's last proof took longest for, by the times at which the check kept its parts."""
    files = sorted((os.stat(it).st_mtime, os.path.basename(it)[: -len(".oantt")]) for it in glob.glob(f"crates/{name}/out/incremental/*/Rattle*.oantt"))
    by_function, by_part = collections.Counter(), collections.Counter()
    for (before, _), (now, part) in zip(files, files[1:]):
        seconds = now - before if now - before < PAUSE else 0
        function, _, kind = re.sub(rf"^Rattle-{name}-(proofs|specs)\.", "", part).rpartition(".")
        by_function[function] += seconds
        by_part[kind] += seconds
    print(f"{name}: {sum(by_function.values()):.0f} s in {len(files)} parts")
    for function, seconds in by_function.most_common(most):
        print(f"{seconds:7.1f}  {function}")
    print("by kind of part:", ", ".join(f"{kind} {seconds:.0f}" for kind, seconds in by_part.most_common(8)))


def main():
    words = argparse.ArgumentParser(description=__doc__, formatter_class=argparse.RawDescriptionHelpFormatter)
    words.add_argument("--tests", action="store_true")
    words.add_argument("--jobs", type=int, default=os.cpu_count())
    words.add_argument("--where", metavar="NAME")
    words.add_argument("names", nargs="*", metavar="NAME")
    given = words.parse_args()
    if given.where:
        where(given.where)
        return 0
    os.makedirs(SAID, exist_ok=True)
    crates = Crates(given.names)
    for name in crates.asked:
        if crates.kit.fmt(crates.by_name[name].folder, "--check", sys.stdout):
            print(f"{name}: the gate wants the layout of rt fmt")
    lacking = run(crates, crates.tasks(given.tests), given.jobs)
    print("proved" if not lacking else "NOT PROVED: " + ", ".join(f"{name} {kind}" for name, kind in lacking))
    return 1 if lacking else 0


if __name__ == "__main__":
    sys.exit(main())
