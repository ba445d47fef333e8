#!/usr/bin/env python3
"""Many workers on one core, workers that are held back, a reader that pauses, and long expansions with little memory.

    python3 tests/load.py

Threads that wait have to sleep: what they wait for is computed on the cores that they leave. While a reader pauses, no thread
of the program may run at all.
"""
import array
import fcntl
import json
import os
import resource
import subprocess
import tempfile
import termios
import time

from support.program import HANGS, PROGRAM, Outcome, Tests, build, run, shared_library

ORDERED = ["as_ordered"]
MERGES = ("not", "auto", "full")


def document(source, steps, **more):
    return json.dumps({"version": 1, "source": source, "query": steps, **more}).encode()


SEVEN = 7
LONG = {"range": [0, 200_000]}
# (the aggregate is the same in any order)
PINNED = {
    "steps over a range": document(LONG, [ORDERED, ["select", "mul", 3], ["filter", "even"], ["take", 60_000]]),
    "expansions": document({"range": [0, 3_000]}, [ORDERED, ["select_many", "repeat", 40], ["select", "add", 1]]),
    "an early end": document(LONG, [ORDERED, ["take_while", "below", 1_000]]),
    "all but the last": document(LONG, [ORDERED, ["skip", 199_000]]),
    "an aggregate": document(LONG, [["filter", "even"]], aggregate="sum"),
    "a list that refuses": document({"list": list(range(700)), "refuse": 7}, [ORDERED, ["select", "add", 1]]),
    "chunks of one": document({"range": [0, 20_000]}, [ORDERED, ["select", "add", 1]], growth=[1, 1, 1]),
}


def pin():
    """Leaves a process one core of those that it has."""
    os.sched_setaffinity(0, {max(os.sched_getaffinity(0))})


def one_core(tests):
    for name, given in PINNED.items():
        for merge in MERGES:
            wanted = run(["seq", "--merge", merge], given, PROGRAM)
            for workers in (1, 2, 8, 64):
                seen = run(["run", "--merge", merge, "--workers", str(workers)], given, PROGRAM, preexec_fn=pin)
                is_so = seen == wanted and bool(seen.output)
                tests.check(f"one core: {name}, --merge {merge} by {workers}", is_so, f"wanted {wanted}; seen {seen}")


ADD_ONE = [ORDERED, ["select", "add", 1]]
SOME_EVEN = [ORDERED, ["filter", "even"], ["skip", 10], ["take", 300]]
# (sources of other kinds than lists and ranges)
HELD = {
    "a text": {"text": " ".join(str(it) for it in range(-300, 700))},
    "a text with a word": {"text": "\n".join(str(it) for it in range(900)) + " nine"},
    "copies": {"repeat": [SEVEN, 1_000]},
    "a list before a range": {"concat": [{"list": list(range(500))}, {"range": [-5, 500]}]},
    "a refusal between two lists": {"concat": [{"list": list(range(700)), "refuse": 8}, {"list": [3]}]},
}


def held_back(tests, shim):
    for name, source in HELD.items():
        for steps, merge, growth in ((ADD_ONE, "not", [1, 1, 1]), (SOME_EVEN, "auto", [1, 3, 16])):
            given = document(source, steps, growth=growth, version=2)
            wanted = run(["seq", "--merge", merge], given, PROGRAM)
            for workers in (2, 8, 64):
                reading, writing = os.pipe()
                env = os.environ | {"LD_PRELOAD": shim, "HELD_TO": str(writing)}
                words = ["run", "--merge", merge, "--workers", str(workers)]
                seen = run(words, given, PROGRAM, env=env, pass_fds=(writing,))
                os.close(writing)
                was_held = os.read(reading, 1) == b"!"
                os.close(reading)
                is_so = seen == wanted and bool(seen.output) and was_held
                tests.check(f"held back: {name}, {steps} by {workers}", is_so, f"wanted {wanted}; seen {seen}; held back: {was_held}")


READ_ON = 1_000_000
# How long threads may take to fall asleep, and how often in a row all have to be found asleep.
SETTLING, SAMPLES, BETWEEN = 60, 6, 0.05


def stillness(child):
    """What doesn't change while all threads of a process sleep, or None where one doesn't."""
    waiting = array.array("i", [0])
    fcntl.ioctl(child.stdout, termios.FIONREAD, waiting)
    switches = []
    tasks = f"/proc/{child.pid}/task"
    for task in sorted(os.listdir(tasks)):
        try:
            with open(f"{tasks}/{task}/status") as file:
                said = dict(line.rstrip("\n").split(":\t", 1) for line in file if ":\t" in line)
        except OSError:
            return None
        if not said["State"].startswith("S"):
            return None
        switches.append((task, said["voluntary_ctxt_switches"], said["nonvoluntary_ctxt_switches"]))
    with open(f"/proc/{child.pid}/stat") as file:
        times = file.read().rpartition(")")[2].split()[11:13]
    return (waiting[0], times, switches) if waiting[0] else None


def falls_asleep(child):
    """Whether all threads of a process whose output isn't read fall asleep, and stay so for a while."""
    end, last, count = time.monotonic() + SETTLING, None, 0
    while count < SAMPLES and time.monotonic() < end:
        time.sleep(BETWEEN)
        now = stillness(child)
        count = count + 1 if now is not None and now == last else 0
        last = now
    return count == SAMPLES


def pausing_reader(tests):
    numbers = "".join(f"{it}\n" for it in range(READ_ON)).encode() + b"end\n"
    for workers in (1, 2, 4, 64):
        for order, steps in (("by key", [ORDERED]), ("by arrival", [])):
            name = f"a reader that pauses: {order} by {workers}"
            words = [PROGRAM, "run", "--merge", "not", "--workers", str(workers)]
            with subprocess.Popen(words, stdin=subprocess.PIPE, stdout=subprocess.PIPE, stderr=subprocess.PIPE) as child:
                child.stdin.write(document({"range": [0, READ_ON]}, steps))
                child.stdin.close()
                child.stdin = None
                tests.check(f"{name}: all threads sleep", falls_asleep(child), "one still runs")
                try:
                    output, errors = child.communicate(timeout=HANGS)
                except subprocess.TimeoutExpired:
                    child.kill()
                    output, errors = child.communicate()
            if not steps:
                *lines, last = output.splitlines(keepends=True) or [b""]
                output = b"".join(sorted(lines, key=int)) + last
            seen = Outcome(child.returncode, output, errors)
            tests.check(f"{name}: the answer", seen == Outcome(0, numbers, b""), seen)


COPIES = 65_536
# How many elements there are, the steps after their expansion, and how many items are left.
EXPANDED = (
    (2_000, [["take", 50_000]], 50_000),
    (2_000, [["skip", 2_000 * COPIES - 1_000]], 1_000),
    (1_000_000, [["skip", 200_000_000], ["take", 100]], 100),
)
LIMITS = (40, 100, 400, 2_000)
FAILURES = (b"plinq: out of memory\n", b"plinq: no thread\n")


def sevens(count):
    """The output of so many sevens, in batches of 16."""
    batches = [b"7 " * 15 + b"7\n"] * (count // 16)
    rest = [b" ".join([b"7"] * (count % 16)) + b"\n"] if count % 16 else []
    return b"".join(batches + rest) + b"end\n"


def little_memory(tests):
    for elements, steps, left in EXPANDED:
        wanted = Outcome(0, sevens(left), b"")
        given = document({"repeat": [SEVEN, elements]}, [ORDERED, ["select_many", "repeat", COPIES], *steps])
        for limit in LIMITS:
            for workers in (1, 2, 4, 64):

                def limited():
                    resource.setrlimit(resource.RLIMIT_AS, (limit << 20, limit << 20))

                seen = run(["run", "--merge", "auto", "--workers", str(workers)], given, PROGRAM, preexec_fn=limited)
                failed = seen.status == 5 and seen.errors in FAILURES and wanted.output.startswith(seen.output)
                tests.check(f"{limit} MiB: {elements} elements, {steps} by {workers}", seen == wanted or failed, seen)


def main():
    build()
    tests = Tests()
    one_core(tests)
    with tempfile.TemporaryDirectory() as folder:
        held_back(tests, shared_library("holding.c", folder))
    pausing_reader(tests)
    little_memory(tests)
    tests.end()


if __name__ == "__main__":
    main()
