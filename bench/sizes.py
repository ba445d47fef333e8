#!/usr/bin/env python3
"""Times the program with chunks whose sizes it chooses by time beside chunks of a growth that the document gives, and beside one
thread, all in turns; and prints the table of bench/README.md.

    python3 bench/sizes.py [ROUNDS]

The program is ./plinq's, or the one that the environment names as PLINQ.
"""
import json
import os
import subprocess
import sys
import time

ROOT = os.path.dirname(os.path.dirname(os.path.abspath(__file__)))
PROGRAM = os.environ.get("PLINQ") or os.path.join(ROOT, "crates", "plinq", "out", "plinq")
CHOSEN = None
GROWTHS = (("by time", CHOSEN), ("up to 512", [1, 3, 512]), ("up to 8,192", [1, 3, 8192]))
WORK = {
    "100,000,000 numbers, the even ones summed": {"source": {"range": [0, 100_000_000]}, "query": [["filter", "even"]], "aggregate": "sum"},
    "10,000,000 numbers, half of them printed": {"source": {"range": [0, 10_000_000]}, "query": [["as_ordered"], ["select", "add", 1], ["filter", "even"], ["select", "mul", 3]]},
    "10,000,000 numbers, delivered at once": {"source": {"range": [0, 10_000_000]}, "query": [["as_ordered"], ["with_merge", "full"], ["select", "add", 1], ["filter", "even"], ["select", "mul", 3]]},
    "20,000 numbers, each expanded to 1,000 and counted": {"source": {"range": [0, 20_000]}, "query": [["select_many", "repeat", 1_000], ["filter", "even"]], "aggregate": "count"},
    "1,000 numbers, printed": {"source": {"range": [0, 1_000]}, "query": [["as_ordered"], ["select", "add", 1]]},
}


def milliseconds(command, workers, document):
    begun = time.monotonic()
    subprocess.run([PROGRAM, command, "--workers", str(workers)], input=document, stdout=subprocess.DEVNULL, check=True)
    return 1_000 * (time.monotonic() - begun)


def main():
    rounds = int(sys.argv[1]) if len(sys.argv) > 1 else 7
    print("| work | workers | by time | up to 512 | up to 8,192 | one thread | by time beside 512 |")
    print("|---|---|---|---|---|---|---|")
    for name, work in WORK.items():
        documents = {it: json.dumps({"version": 1, **work, **({} if growth is CHOSEN else {"growth": growth})}).encode() for it, growth in GROWTHS}
        alone = []
        for workers in (1, 2, 4):
            times = {it: [] for it in documents}
            for _ in range(rounds):
                for it, document in documents.items():
                    times[it].append(milliseconds("run", workers, document))
                alone.append(milliseconds("seq", 1, documents["by time"]))
            best = {it: min(all_of) for it, all_of in times.items()}
            cells = [f"{best[it]:.1f} ms" for it, _ in GROWTHS] + [f"{min(alone):.1f} ms", f"x{best['by time'] / best['up to 512']:.2f}"]
            print(f"| {name} | {workers} | {' | '.join(cells)} |", flush=True)


main()
