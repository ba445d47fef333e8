#!/usr/bin/env python3
"""Times `plinq lines` by 1, 2 and 4 workers beside grep, mawk, cut and ripgrep as far as they are installed, all in turns, over one
log of 300 MB in the page cache, written to a pipe; and prints the table of bench/README.md.

    python3 bench/lines.py [ROUNDS]

The program is ./plinq's, or the one that the environment names as PLINQ.
"""
import os
import random
import resource
import shutil
import subprocess
import sys
import tempfile
import time

ROOT = os.path.dirname(os.path.dirname(os.path.abspath(__file__)))
PROGRAM = os.environ.get("PLINQ") or os.path.join(ROOT, "crates", "plinq", "out", "plinq")
WORDS = ["GET", "POST", "/index.html", "/api/v1/users", "200", "404", "500", "Mozilla/5.0", "10.0.0.1", "ok", "error", "timeout"]
WORK = {
    "one line in 1,000 by its text": ("filter contains disk_full", [["rg", "-F", "disk_full"], ["grep", "-F", "disk_full"], ["mawk", "index($0, \"disk_full\")"]]),
    "all lines but those": ("filter not contains disk_full", [["rg", "-v", "-F", "disk_full"], ["grep", "-v", "-F", "disk_full"], ["mawk", "!index($0, \"disk_full\")"]]),
    "a pattern without a text of its own": ("filter matches \" [45]0[0-9] .* [45]0[0-9]$\"", [["rg", " [45]0[0-9] .* [45]0[0-9]$"], ["grep", "-E", " [45]0[0-9] .* [45]0[0-9]$"], ["mawk", "/ [45]0[0-9] .* [45]0[0-9]$/"]]),
    "a pattern of any characters": (r'filter matches "\d+:\d+ host[0-3] \w+ "', [["rg", r"\d+:\d+ host[0-3] \w+ "], ["grep", "-E", r"[0-9]+:[0-9]+ host[0-3] [[:alnum:]_]+ "]]),
    "lines by their third field": ("filter field 3 is error", [["mawk", "$3 == \"error\""]]),
    "the third field between blanks": ("select field 3", [["mawk", "{print $3}"]]),
    "the third field by one byte": ("select field 3 by \" \"", [["cut", "-d", " ", "-f", "3"], ["mawk", "-F", "[ ]", "{print $3}"]]),
    "the fields three and one": ("select field 3 1", [["mawk", "{print $3, $1}"]]),
    "the first line of each third field": ("distinct by field 3", [["mawk", "!n[$3]++"]]),
    "how many lines have a text": ("filter contains error | count", [["rg", "-c", "error"], ["grep", "-c", "error"], ["mawk", "/error/ {n++} END {print n}"]]),
    "how often each third field comes": ("count by field 3", [["mawk", "{n[$3]++} END {for (k in n) print n[k], k}"]]),
    "lines whose number is above 900": ("filter field 5 > 900", [["mawk", "$5 > 900"]]),
    "the sum of a field by another": ("sum field 5 by field 3", [["mawk", "{n[$3] += $5} END {for (k in n) print n[k], k}"]]),
    "all but the first million lines": ("skip 1000000", [["tail", "-n", "+1000001"]]),
}


def log(path):
    by = random.Random(1)
    lines = []
    for _ in range(100_000):
        words = [by.choice(WORDS) for _ in range(2)] + [str(by.randrange(1_000))] + [by.choice(WORDS) for _ in range(11)] + (["disk_full"] if by.random() < 0.001 else [])
        lines.append(f"2026-12-01T08:{by.randrange(60):02}:{by.randrange(60):02} host{by.randrange(9)} {' '.join(words)}\n")
    with open(path, "w", encoding="ascii") as file:
        for _ in range(25):
            file.writelines(lines)


def times(command):
    """The wall and the processor's seconds of a command whose output another process reads."""
    before, begun = resource.getrusage(resource.RUSAGE_CHILDREN), time.monotonic()
    child = subprocess.Popen(command, stdout=subprocess.PIPE, env=os.environ | {"LC_ALL": "C"})
    while child.stdout.read(1 << 20):
        pass
    child.wait()
    after = resource.getrusage(resource.RUSAGE_CHILDREN)
    return time.monotonic() - begun, after.ru_utime + after.ru_stime - before.ru_utime - before.ru_stime


def main():
    rounds = int(sys.argv[1]) if len(sys.argv) > 1 else 5
    print("| work | plinq by 1, 2, 4: seconds (processor) | others |\n|---|---|---|")
    with tempfile.TemporaryDirectory() as folder:
        path = os.path.join(folder, "log")
        log(path)
        for name, (query, others) in WORK.items():
            commands = [[PROGRAM, "lines", "--workers", it, query, path] for it in ("1", "2", "4")]
            commands += [[*it, path] for it in others if shutil.which(it[0])]
            seen = [[] for _ in commands]
            for _ in range(rounds):
                for at, command in enumerate(commands):
                    seen[at].append(times(command))
            best = [f"{min(wall for wall, _ in it):.2f} ({min(cpu for _, cpu in it):.2f})" for it in seen]
            theirs = [f"{command[0]} {figure}" for command, figure in zip(commands[3:], best[3:])]
            print(f"| {name} | {', '.join(best[:3])} | {', '.join(theirs)} |", flush=True)


main()
