#!/usr/bin/env python3
"""Runs the workloads of crates/plinq_bench/out/plinq_bench, which `rt run -- check` in crates/plinq_bench builds.

    python3 bench/workloads.py times [PEERS [NAME=WORKLOAD..]]
    python3 bench/workloads.py instructions
    python3 bench/workloads.py load [--only NAMES] [--rounds N] [--scale S] [NAME=COMMAND..]
    python3 bench/workloads.py reader
    python3 bench/workloads.py beside

Each takes `--program PATH`, another program to measure in place of its own; the last three `--workers NUMBERS`, such as 4,64.

`times` runs each workload by 1, 2 and 4 workers, each in a process of its own, which reports the best of its rounds. PEERS is a
file of such lines that other programs printed, of the same workloads or of those that a NAME there stands for: the sums have to
be the same, and of each workload the shortest times of both are reported. `instructions` prints where the instructions of `cheap` go
by one worker: callgrind's slope between two counts of items, by the functions of the program.

`load` runs five workloads by 1 to 64 workers, each in a process of its own, with nothing beside them and then beside four
processes that only burn a core, and prints a table of each. A COMMAND is another program that takes turns with plinq: its words,
without a shell, in which {workload}, {workers}, {items} and {rounds} stand for what is asked. It prints such lines, one of its
plain loop (`..:loop`) and one of its run, and the sums have to be the same. `load` reports the seconds of the best round and their
ratio to the loop of the same process; user and system seconds are those of the whole process, with its loops and the rounds that
aren't counted, divided by its rounds. NAMES are workloads, such as cheap,heavy; S is the part of the usual items.

`reader` and `beside` measure crates/plinq/out/plinq over a range. `reader` is a reader of `plinq run --merge not` that falls
asleep for four seconds once the pipe is full, and reports what processor time the run took in them. `beside` reports how long
`plinq run` and `plinq seq` take, with nothing beside them and beside the four processes: the best of three rounds in which all
take turns.

Under each table of the last three commands stands how many cores all else on the machine took meanwhile, which spoils figures.
"""
import argparse
import contextlib
import json
import os
import re
import resource
import shlex
import subprocess
import sys
import tempfile
import time

ROOT = os.path.dirname(os.path.dirname(os.path.abspath(__file__)))
PROGRAM = os.path.join(ROOT, "crates", "plinq_bench", "out", "plinq_bench")
WORKLOADS = ("cheap", "grown", "full", "heavy", "skewed", "ramp", "late", "streamed", "take_while", "take", "sum")
WORKERS = (1, 2, 4)
LOW, HIGH = 100_000, 1_100_000

PLINQ = os.path.join(ROOT, "crates", "plinq", "out", "plinq")
# What `load` runs, with the items that are usual, and by how many workers.
LOADED = {"cheap": 10_000_000, "heavy": 1_000_000, "streamed": 200_000, "take_while": 100_000, "sum": 10_000_000}
LOADING = (1, 2, 4, 8, 64)
# By how many workers `reader` and `beside` run plinq, and the items of their range.
RUNNING = (1, 2, 4, 64)
RANGE = 10_000_000
STEPS = (["as_ordered"], ["select", "mul", 3], ["select", "add", 1], ["filter", "even"])
# Seconds that the pipe has to fill, that the reader then sleeps, and after which a process is ended.
FILLING, SLEEP, LIMIT = 0.5, 4, 600
# It ends also where whoever started it is gone.
BURN = """
import os
parent = os.getppid()
while os.getppid() == parent:
    for _ in range(1_000_000):
        pass
"""
BURNING = 4

# Each part by what the names of its functions begin with; what is called from one place alone stands in its caller.
PARTS = (
    ("the plain loop beside it", ("plinq_bench::workload::Workload::looped",)),
    ("operators", ("plinq_ops::",)),
    ("source, enumerator, and the worker's own part", ("core::scope::entry", "plinq_enumerator::", "plinq_source::", "plinq_partition::")),
    ("lock", ("plinq_ticket::", "atomic_table::")),
    ("queue, and the caller's loop", ("plinq_run::", "plinq_crew::", "plinq_stream::", "crossbeam_queue::", "crossbeam_utils::")),
    ("sink, and its batches cut", ("plinq_merge::sending::", "circular_buffer::", "plinq_bench::")),
    ("merger", ("plinq_merge::", "plinq_reorder::")),
)

LINE = re.compile(r"(\S+) (\S+) (\d+) ([\d.]+) (\S+) x[\d.]+ sum=(\S+)")


class Line:
    """A line of a program: a workload, what ran it, by how many threads, its seconds and its sum."""

    def __init__(self, match):
        self.text = match.string.rstrip("\n")
        self.workload, self.what, self.sum = match[1], match[2], match[6]
        self.threads, self.seconds = int(match[3]), float(match[4])
        self.is_loop = self.what.endswith(":loop")


def lines_of(text):
    return [Line(it) for it in map(LINE.match, text.splitlines()) if it]


def best_of(program, workload):
    """The best line of the loop, and that of each number of workers."""
    best = {}
    for workers in WORKERS:
        said = subprocess.run([program, workload, str(workers)], stdout=subprocess.PIPE, check=True, text=True).stdout
        for line in lines_of(said):
            key = line.what, line.threads
            if key not in best or line.seconds < best[key].seconds:
                best[key] = line
    return [best[key] for key in sorted(best)]


def peers_of(words):
    """The lines of the peers' file, by the workloads that their names stand for."""
    if not words:
        return []
    names = dict(word.split("=", 1) for word in words[1:])
    with open(words[0]) as file:
        lines = lines_of(file.read())
    for line in lines:
        line.workload = names.get(line.workload, line.workload)
    return lines


def differing(lines):
    """The texts of the lines whose sums aren't that of the first."""
    return [line.text for line in lines if line.sum != lines[0].sum]


def times(asked, program):
    peers, differ = peers_of(asked.words), []
    for workload in WORKLOADS:
        own = best_of(program, workload)
        print("\n".join(line.text for line in own), flush=True)
        beside = [line for line in peers if line.workload == workload]
        if not beside:
            continue
        differ += differing(beside + own)
        threaded = [line for line in beside if not line.is_loop]
        for threads in sorted({line.threads for line in threaded}):
            shortest = min((it for it in threaded if it.threads == threads), key=lambda it: it.seconds)
            print(f"  the shortest of the peers: {shortest.what} {threads} {shortest.seconds:.6f}")
    if differ:
        sys.exit("the sums differ:\n" + "\n".join(differ))
    if peers:
        print("all sums are the same")


def instructions_of(program, items):
    """The instructions of each function."""
    with tempfile.TemporaryDirectory() as folder:
        out = os.path.join(folder, "out")
        tool = ["valgrind", "--tool=callgrind", f"--callgrind-out-file={out}"]
        subprocess.run(tool + [program, "cheap", "1", str(items), "1"], stdout=subprocess.DEVNULL, stderr=subprocess.DEVNULL, check=True)
        said = subprocess.run(["callgrind_annotate", "--threshold=100", out], stdout=subprocess.PIPE, check=True, text=True).stdout
    found = {}
    for count, name in re.findall(r"^ *([\d,]+) \( *[\d.]+%\)  [^\s:]+:(\S.*)$", said, re.MULTILINE):
        found[name] = found.get(name, 0) + int(count.replace(",", ""))
    return found


def part_of(name):
    return next((part for part, heads in PARTS if name.startswith(heads)), "memory, and what else the C library does")


def instructions(_, program):
    low, high = instructions_of(program, LOW), instructions_of(program, HIGH)
    parts = {}
    for name in high:
        part = part_of(name)
        parts[part] = parts.get(part, 0) + (high[name] - low.get(name, 0)) / (HIGH - LOW)
    print("| part | instructions an item |\n|---|---|")
    for part, count in sorted(parts.items(), key=lambda it: -it[1]):
        print(f"| {part} | {count:.1f} |")


class Used:
    """Wall seconds from now on, and user and system seconds of the children that end meanwhile."""

    def __init__(self):
        self.since = self.now()

    @staticmethod
    def now():
        used = resource.getrusage(resource.RUSAGE_CHILDREN)
        return time.monotonic(), used.ru_utime, used.ru_stime

    def stop(self):
        self.wall, self.user, self.system = (now - then for now, then in zip(self.now(), self.since))


class Ran(Used):
    """A program run to its end, or to LIMIT: whether it ended, what it printed, and what it used."""

    def __init__(self, words, **streams):
        super().__init__()
        self.ended, self.said = True, ""
        try:
            self.said = subprocess.run(words, check=True, timeout=LIMIT, **streams).stdout
        except subprocess.TimeoutExpired:
            self.ended = False
        self.stop()


def row(cells):
    print(f"| {' | '.join(map(str, cells))} |", flush=True)


def header(names):
    row(names)
    print("|" + "---|" * len(names), flush=True)


def others():
    """Seconds that the cores have been busy or withheld, but for this process and its children that have ended."""
    with open("/proc/stat") as file:
        user, nice, system, _, _, irq, softirq, steal = map(int, file.readline().split()[1:9])
    used = [resource.getrusage(it) for it in (resource.RUSAGE_SELF, resource.RUSAGE_CHILDREN)]
    return (user + nice + system + irq + softirq + steal) / os.sysconf("SC_CLK_TCK") - sum(it.ru_utime + it.ru_stime for it in used)


@contextlib.contextmanager
def beside_burning(count):
    """A table's heading and last line, and meanwhile so many processes that burn a core."""
    print(f"\nBeside {count} processes that burn a core:\n" if count else "\nWith nothing beside it:\n", flush=True)
    start, before = time.monotonic(), others()
    burning = [subprocess.Popen([sys.executable, "-c", BURN]) for _ in range(count)]
    try:
        yield
    finally:
        for it in burning:
            it.kill()
            it.wait()
    taken = (others() - before) / (time.monotonic() - start)
    print(f"\nAll else took {max(taken, 0):.1f} cores meanwhile.", flush=True)


def cells_of(words, workers, rounds, lines):
    """The cells of a program: seconds, ratio to its loop, user and system seconds. Adds its lines to the others."""
    ran = Ran(words, stdout=subprocess.PIPE, text=True)
    if not ran.ended:
        return [f"over {LIMIT} in all", "", "", ""]
    found = lines_of(ran.said)
    loops = [it for it in found if it.is_loop]
    runs = [it for it in found if not it.is_loop and it.threads == workers]
    if len(loops) != 1 or len(runs) != 1:
        sys.exit(f"{shlex.join(words)} hasn't printed a line of its loop and one of its run:\n{ran.said}")
    lines += loops + runs
    ratio = loops[0].seconds / max(runs[0].seconds, 1e-6)
    return [f"{runs[0].seconds:.6f}", f"x{ratio:.2f}", f"{ran.user / rounds:.3f}", f"{ran.system / rounds:.3f}"]


def load(asked, program):
    commands = {"plinq": f"{shlex.quote(program)} {{workload}} {{workers}} {{items}} {{rounds}}"}
    commands.update(word.split("=", 1) for word in asked.words)
    said = {it: [] for it in asked.only or LOADED}
    for burning in (0, BURNING):
        with beside_burning(burning):
            header(["workload", "workers"] + [it for name in commands for it in (f"{name}: seconds", "to its loop", "user", "system")])
            for workload, lines in said.items():
                items = round(LOADED[workload] * asked.scale)
                for workers in asked.workers or LOADING:
                    places = {"workload": workload, "workers": workers, "items": items, "rounds": asked.rounds}
                    turns = [[word.format(**places) for word in shlex.split(it)] for it in commands.values()]
                    row([f"`{workload}`", workers] + [it for words in turns for it in cells_of(words, workers, asked.rounds, lines)])
    differ = [text for lines in said.values() for text in differing(lines)]
    if differ:
        sys.exit("the sums differ:\n" + "\n".join(differ))
    print("\nall sums are the same")


def document(steps):
    return json.dumps({"version": 1, "source": {"range": [0, RANGE]}, "query": steps}).encode()


def used_by(child):
    """User and system seconds that a process has used so far."""
    with open(f"/proc/{child.pid}/stat") as file:
        user, system = file.read().rpartition(")")[2].split()[11:13]
    return (int(user) + int(system)) / os.sysconf("SC_CLK_TCK")


def reader(asked, program):
    with beside_burning(0):
        header(["workers", "wall", f"processor seconds in the {SLEEP} s of sleep", "user", "system"])
        for workers in asked.workers or RUNNING:
            words, used = [program, "run", "--workers", str(workers), "--merge", "not"], Used()
            with subprocess.Popen(words, stdin=subprocess.PIPE, stdout=subprocess.PIPE, bufsize=0) as child:
                child.stdin.write(document([["as_ordered"]]))
                child.stdin.close()
                lines = child.stdout.read(1).count(b"\n")
                time.sleep(FILLING)
                asleep = used_by(child)
                time.sleep(SLEEP)
                asleep = used_by(child) - asleep
                while block := child.stdout.read(1 << 20):
                    lines += block.count(b"\n")
            used.stop()
            if child.returncode or lines != RANGE + 1:
                sys.exit(f"{shlex.join(words)} ended with status {child.returncode} and {lines} lines")
            row([workers, f"{used.wall:.2f}", f"{asleep:.2f}", f"{used.user:.2f}", f"{used.system:.2f}"])


def beside(asked, program):
    ways = {f"`run` by {it}": [program, "run", "--workers", str(it)] for it in asked.workers or RUNNING}
    ways["`seq`"] = [program, "seq"]
    for burning in (0, BURNING):
        with beside_burning(burning):
            best = {}
            for _ in range(3):
                for name, words in ways.items():
                    ran = Ran(words, input=document(STEPS), stdout=subprocess.DEVNULL)
                    if name not in best or ran.wall < best[name].wall:
                        best[name] = ran
            header(["way", "wall", "user", "system"])
            for name, ran in best.items():
                row([name, f"{ran.wall:.2f}" if ran.ended else f"over {LIMIT}", f"{ran.user:.2f}", f"{ran.system:.2f}"])


COMMANDS = {"times": times, "instructions": instructions, "load": load, "reader": reader, "beside": beside}


def asked_for():
    def numbers(text):
        return [int(it) for it in text.split(",")]

    def workloads(text):
        names = text.split(",")
        if not LOADED.keys() >= set(names):
            raise argparse.ArgumentTypeError(f"its workloads are {', '.join(LOADED)}")
        return names

    parser = argparse.ArgumentParser(description=__doc__, formatter_class=argparse.RawDescriptionHelpFormatter)
    parser.add_argument("command", choices=COMMANDS)
    parser.add_argument("words", nargs="*")
    parser.add_argument("--program")
    parser.add_argument("--only", type=workloads)
    parser.add_argument("--workers", type=numbers)
    parser.add_argument("--rounds", type=int, default=4)
    parser.add_argument("--scale", type=float, default=1)
    return parser.parse_intermixed_args()


def main():
    asked = asked_for()
    usual, maker = PROGRAM, "rt run -- check, in crates/plinq_bench"
    if asked.command in ("reader", "beside"):
        usual, maker = PLINQ, "./plinq --help"
    program = os.path.abspath(asked.program or usual)
    if not os.path.exists(program):
        sys.exit(f"{program} isn't there: {maker}")
    COMMANDS[asked.command](asked, program)


if __name__ == "__main__":
    main()
