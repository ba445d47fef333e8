#!/usr/bin/env python3
"""Measures closures beside a lambda type, `to_vec` beside a sink by hand, closures that change the type beside the engine's
operators, `order_by` beside a sort by one thread, and how much `first` and `any` ask for, and prints the tables of bench/README.md.

    python3 bench/library.py            # each row by 1 and by 4 workers, the best of seven runs of a process
    python3 bench/library.py ROUNDS     # the best of so many processes, which take turns

The program, bench/library/, is proved and built in a temporary folder over a copy of the crates. Its files end in .txt since
rt refuses a source that stands in no crate.
"""
import os
import re
import shutil
import subprocess
import sys
import tempfile

ROOT = os.path.dirname(os.path.dirname(os.path.abspath(__file__)))
NAME = "bench_library"
USES = "plinq_prelude plinq_source plinq_lambda plinq_aggregate plinq_groups plinq_enumerator plinq_ops plinq_run plinq_collect plinq_query plinq_sorted anyhow"
PLACES = {
    "src/main.rt": "src/main.rt.txt",
    "src/by_hand.rt": "src/by_hand.rt.txt",
    "src/ordered.rt": "src/ordered.rt.txt",
    "src/counted.rt": "src/counted.rt.txt",
    "src/spinning.rt": "src/spinning.rt.txt",
    "src/step.rt": "src/step.rt.txt",
    "src/steps.rt": "src/steps.rt.txt",
    "specs/Lib.antt": "specs/Lib.antt.txt",
    "specs/Spinning.antt": "specs/Spinning.antt.txt",
    "proofs/spinning/spun/Invariants.antt": "proofs/spun/Invariants.antt.txt",
}
ROWS = [
    ("cheap", "lambda", "closures", 10_000_000),
    ("heavy", "lambda", "closures", 1_000_000),
    ("list", "sink", "to_vec", 10_000_000),
    ("steps_list", "operators", "typed", 10_000_000),
    ("steps_sum", "operators", "typed", 10_000_000),
    ("order", "sort", "order_by", 4_000_000),
]


def build(folder):
    """The path of the program, built over a copy of the crates."""
    crates = os.path.join(folder, "crates")
    shutil.copytree(os.path.join(ROOT, "crates"), crates, ignore=shutil.ignore_patterns("incremental"))
    for place, source in PLACES.items():
        os.makedirs(os.path.dirname(os.path.join(crates, NAME, place)), exist_ok=True)
        shutil.copy(os.path.join(ROOT, "bench", "library", source), os.path.join(crates, NAME, place))
    shutil.copy(os.path.join(ROOT, "HANDLES"), folder)
    with open(os.path.join(ROOT, "crates.txt"), encoding="utf-8") as listed, open(os.path.join(folder, "crates.txt"), "w", encoding="utf-8") as written:
        written.write(listed.read() + f"{NAME}: {USES}\n")
    ran = subprocess.run(["rt", "run", "--", "list", "to_vec", "1", "10"], cwd=os.path.join(crates, NAME), stdout=subprocess.PIPE, stderr=subprocess.STDOUT, text=True)
    if ran.returncode:
        sys.exit(ran.stdout)
    return os.path.join(crates, NAME, "out", NAME)


def answer(program, work, form, workers, count):
    """The microseconds that it took, and how many items came."""
    said = subprocess.run([program, work, form, str(workers), str(count)], stdout=subprocess.PIPE, check=True, text=True).stdout
    return tuple(map(int, re.fullmatch(r"(\d+) us, (\d+)\n", said).groups()))


def print_table(best):
    print("| work | | 1 worker | 4 | | 1 worker | 4 | speed of the second to the first, 1 worker | 4 |\n|---|---|---|---|---|---|---|---|---|")
    for work, first, second, _ in ROWS:
        taken = {(form, workers): best[work, form, workers] for form in (first, second) for workers in (1, 4)}
        words = [work]
        for form in (first, second):
            words += [form, *(f"{taken[form, workers] / 1000:.0f} ms" for workers in (1, 4))]
        words += [f"{taken[first, workers] / taken[second, workers]:.2f}" for workers in (1, 4)]
        print("| " + " | ".join(words) + " |")


def print_asked(program, rounds):
    """How many elements after the one at 1,000,000 the source was asked for, at most."""
    print("\n| elements after the one that decides | 1 worker | 4 |\n|---|---|---|")
    for form in ("first", "any"):
        most = [max(answer(program, "asked", form, workers, 1_000_000)[1] for _ in range(4 * rounds)) for workers in (1, 4)]
        print(f"| `{form}` | " + " | ".join(f"{it:,}" for it in most) + " |")


def main():
    rounds = int(sys.argv[1]) if len(sys.argv) > 1 else 1
    with tempfile.TemporaryDirectory() as folder:
        program = build(folder)
        best = {}
        for _ in range(rounds):
            for work, *forms, count in ROWS:
                for workers in (1, 4):
                    seen = [answer(program, work, it, workers, count) for it in forms]
                    assert seen[0][1] == seen[1][1], seen
                    for form, (taken, _) in zip(forms, seen):
                        key = (work, form, workers)
                        best[key] = min(taken, best.get(key, taken))
        print_table(best)
        print_asked(program, rounds)


if __name__ == "__main__":
    main()
