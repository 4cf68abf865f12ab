"""Operations a second from one hub through two links into another one in memory, for 1,000 and 100,000 operations, beside merges alone
of the same operations.

python3 bench/links.py LINKS MERGES [--long], where LINKS and MERGES are what `python3 tools/benches.py link_bench merge_bench` builds,
bin/link_bench and bin/merge_bench; with --long a million operations too. A character each, typed at the end of document 1. Each program has
three runs, in turn; the middle one counts. Merges that are over before this script has read their beginning are left out.
"""

import os
import re
import subprocess
import sys
import time

COUNTS = (1_000, 100_000)
LONG = 1_000_000
RUNS = 3
# What a pipe and a change of process cost here: a shorter time isn't one of the merges.
SHORTEST = 200e-6


def linked(program, count):
    """The rates of the whole, of the first tenth and of the last."""
    told = subprocess.run([program, str(count)], check=True, stdout=subprocess.PIPE).stdout.decode()
    found = re.fullmatch(r"first tenth (\d+), last tenth (\d+), all (\d+)\n", told)
    if not found:
        raise SystemExit(f"the links' program said {told!r}")
    first, last, whole = map(int, found.groups())
    return whole, first, last


def merged(program, count):
    """The rate of merges alone, from the line `ready` to the next one; 0 where that is too short."""
    with subprocess.Popen([program], stdin=subprocess.PIPE, stdout=subprocess.PIPE) as run:
        run.stdin.write(f"0 end {count}\n".encode())
        run.stdin.close()
        ready = run.stdout.readline()
        started = time.perf_counter()
        told = run.stdout.readline()
        took = time.perf_counter() - started
    if (ready, told) != (b"ready\n", b"%d\n" % count):
        raise SystemExit(f"the merges' program said {ready} and {told}")
    return count / took if took >= SHORTEST else 0


def row(links, merges, count):
    rates, alone = [], []
    for _ in range(RUNS):
        rates.append(linked(links, count))
        alone.append(merged(merges, count))
    whole, first, last = sorted(rates)[RUNS // 2]
    middle = sorted(alone)[RUNS // 2]
    shown = f"{middle:,.0f}" if middle else "too short"
    print(f"| {count:,} | {whole:,} | {first:,} | {last:,} | {shown} |", flush=True)


def main():
    words = [word for word in sys.argv[1:] if word != "--long"]
    links, merges = map(os.path.abspath, words)
    print("| Operations | through the links | the first tenth | the last tenth | merges alone |")
    print("|---|---|---|---|---|")
    for count in COUNTS + ((LONG,) if "--long" in sys.argv else ()):
        row(links, merges, count)


if __name__ == "__main__":
    main()
