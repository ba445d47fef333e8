#!/usr/bin/env python3
"""Measures operators by programs of their own, and prints the table of bench/README.md.

    python3 bench/operators.py             # `chunk_result` and `sequential` as they are here
    python3 bench/operators.py COMMIT      # `sequential` as it was at a commit

The programs, bench/operators/chunks.rt.txt and sequential.rt.txt, are built in a temporary folder over a copy of the crates
that they use, which are proved first if they aren't built, and run under callgrind. They end in .txt since rt refuses a
source that stands in no crate.
"""
import os
import re
import shutil
import subprocess
import sys
import tempfile

ROOT = os.path.dirname(os.path.dirname(os.path.abspath(__file__)))
BELOW = ["plinq_words", "plinq_source", "plinq_lambda", "plinq_keyed", "plinq_ops"]


def build(tree, name, folder):
    """The path of a program of bench/operators, built over the crates of a tree."""
    crates = os.path.join(folder, name, "crates")
    source = os.path.join(crates, f"bench_{name}", "src")
    os.makedirs(source)
    for it in BELOW:
        shutil.copytree(os.path.join(tree, "crates", it), os.path.join(crates, it), ignore=shutil.ignore_patterns("incremental"))
    with open(os.path.join(tree, "crates.txt")) as listed:
        lines = [it for it in listed if it.split(":")[0] in BELOW]
    with open(os.path.join(folder, name, "crates.txt"), "w") as written:
        written.writelines(lines + [f"bench_{name}: {' '.join(BELOW)}\n"])
    shutil.copy(os.path.join(ROOT, "bench", "operators", f"{name}.rt.txt"), os.path.join(source, "main.rt"))
    ran = subprocess.run(["rt", "run", "--", "none", "1"], cwd=os.path.dirname(source), stdout=subprocess.PIPE, stderr=subprocess.STDOUT, text=True)
    if ran.returncode:
        sys.exit(ran.stdout)
    return os.path.join(crates, f"bench_{name}", "out", f"bench_{name}")


def instructions(program, work, count):
    with tempfile.TemporaryDirectory() as folder:
        tool = ["valgrind", "--tool=callgrind", f"--callgrind-out-file={os.path.join(folder, 'out')}"]
        said = subprocess.run(tool + [program, work, str(count)], stdout=subprocess.DEVNULL, stderr=subprocess.PIPE, check=True)
    return int(re.search(rb"Collected : (\d+)", said.stderr).group(1))


def slope(program, work, low, high, items, operators):
    """Instructions an item and operator, by callgrind's slope between two counts, less those of the items alone."""
    through, alone = (instructions(program, it, high) - instructions(program, it, low) for it in (work, "none"))
    return (through - alone) / ((high - low) * items * operators)


def sequential(tree, folder, when):
    program = build(tree, "sequential", folder)
    for work, name, operators in (
        ("selects", "eight Selects", 8),
        ("mix", "three Selects and Filters in turn, a Skip, a Take", 8),
        ("dropping", "a Filter that keeps none", 1),
        ("skipping", "a SkipWhile that skips all", 1),
        ("over", "eight SkipWhiles that are over", 8),
    ):
        print(f"| `sequential`{when}, {name} | {slope(program, work, 10_000, 100_000, 1, operators):.1f} |", flush=True)
    an_item = (instructions(program, "nine", 100_000) - instructions(program, "nine", 10_000)) / 90_000
    print(f"\n`sequential`{when}, these eight and a Filter that keeps none: {an_item:.0f} instructions an item in all", flush=True)


def main():
    if not shutil.which("valgrind"):
        sys.exit("valgrind isn't there: apt-get install valgrind")
    print("| work | instructions an item and operator |\n|---|---|")
    with tempfile.TemporaryDirectory() as folder:
        if len(sys.argv) > 1:
            tree = os.path.join(folder, "tree")
            subprocess.run(["git", "-C", ROOT, "worktree", "add", "-q", "--detach", tree, sys.argv[1]], check=True)
            try:
                sequential(tree, folder, f" at {sys.argv[1]}")
            finally:
                subprocess.run(["git", "-C", ROOT, "worktree", "remove", "--force", tree], check=True)
            return
        program = build(ROOT, "chunks", folder)
        for work, name in (("selects", "four Selects"), ("mix", "two Selects and Filters in turn")):
            print(f"| `chunk_result`, chunks of 512, {name} | {slope(program, work, 20, 120, 512, 4):.1f} |", flush=True)
        for work, name, operators in (
            ("dropping", "a Filter that keeps none", 1),
            ("skipping", "a SkipWhile that skips all", 1),
            ("over", "four SkipWhiles that are over", 4),
        ):
            print(f"| a pipeline, blocks of 512, {name} | {slope(program, work, 20, 120, 512, operators):.1f} |", flush=True)
        sequential(ROOT, folder, "")


if __name__ == "__main__":
    main()
