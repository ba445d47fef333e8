#!/usr/bin/env python3
"""Measures the lock and the partitions that take under it, and prints their tables of bench/README.md.

    python3 bench/partitions.py instructions   # by callgrind's slope between two counts, and allocations by valgrind's
    python3 bench/partitions.py threads        # seconds for ten million items, by 1, 2, 4 and 64 threads

The program is that of bench/partitions, proved and built in a repository of its own with a copy of the crates that it uses.
Its files end in .txt, since rt refuses sources that stand in no crate.
"""
import os
import re
import shutil
import subprocess
import sys
import tempfile
import time

from measure import ROOT, callgrind

NAME = "partitions"
USED = ("plinq_wait", "plinq_source", "plinq_keyed", "plinq_ticket", "plinq_enumerator", "plinq_partition")


def built(folder):
    """The path of the program, once it is built in that folder."""
    crate = os.path.join(folder, "crates", NAME)
    for at, _, names in os.walk(os.path.join(ROOT, "bench", NAME)):
        to = os.path.join(crate, os.path.relpath(at, os.path.join(ROOT, "bench", NAME)))
        os.makedirs(to, exist_ok=True)
        for name in names:
            shutil.copy(os.path.join(at, name), os.path.join(to, name.removesuffix(".txt")))
    for it in USED:
        shutil.copytree(os.path.join(ROOT, "crates", it), os.path.join(folder, "crates", it), symlinks=True)
    with open(os.path.join(ROOT, "crates.txt")) as file:
        known = [it for it in file if it.split(":")[0].strip() in USED]
    with open(os.path.join(folder, "crates.txt"), "w") as file:
        file.write("".join(known) + f"{NAME}: {' '.join(USED)}\n")
    said = subprocess.run(["rt", "run", "--jobs", "1", "--", "enter", "1"], cwd=crate, stdout=subprocess.PIPE, stderr=subprocess.STDOUT, text=True)
    assert said.returncode == 0, said.stdout
    return os.path.join(crate, "out", NAME)


def allocations_of(words):
    said = subprocess.run(["valgrind"] + words, stdout=subprocess.DEVNULL, stderr=subprocess.PIPE, check=True)
    return int(re.search(rb"total heap usage: ([\d,]+) allocs", said.stderr).group(1).replace(b",", b""))


def instructions(program):
    low, high = 10_000, 110_000
    slope = lambda count, work: (count([program, work, str(high)]) - count([program, work, str(low)])) / (high - low)
    ran = lambda words: callgrind(words, b"")
    print("| work | instructions | limit |\n|---|---|---|")
    print(f"| `enter` and `leave`, together | {slope(ran, 'enter'):.0f} | 300 |")
    print(f"| `enter_when_free` and `leave`, together | {slope(ran, 'free'):.0f} | 85 |")
    print(f"| `take` of one item | {slope(ran, 'one'):.0f} | 600 |")
    print(f"| `take` of 512 items, an item | {slope(ran, 'chunks') / 512:.1f} | 25 |")
    print(f"| allocations of a `take` of 512 items | {slope(allocations_of, 'chunks'):.2f} | 2 |")


def threads(program, items=10_000_000, rounds=5):
    best = {}
    for _ in range(rounds):
        for count in (1, 2, 4, 64):
            began = time.monotonic()
            said = subprocess.run([program, "threads", str(items), str(count)], stdout=subprocess.PIPE, check=True)
            seconds = time.monotonic() - began
            assert int(said.stdout) == items, said.stdout
            best[count] = min(seconds, best.get(count, seconds))
    print(f"{os.cpu_count()} cores\n")
    print("| threads | seconds | times one thread's |\n|---|---|---|")
    for count, seconds in best.items():
        print(f"| {count} | {seconds:.3f} | {seconds / best[1]:.2f} |")


if __name__ == "__main__":
    work = {it.__name__: it for it in (instructions, threads)}
    if len(sys.argv) != 2 or sys.argv[1] not in work:
        sys.exit(__doc__)
    if sys.argv[1] == "instructions" and not shutil.which("valgrind"):
        sys.exit("valgrind isn't there: apt-get install valgrind")
    with tempfile.TemporaryDirectory() as folder:
        work[sys.argv[1]](built(folder))
