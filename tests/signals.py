#!/usr/bin/env python3
"""Signals and readers that leave in the middle of a run, and threads that the system doesn't start.

    python3 tests/signals.py

A run that a signal ends has written a beginning of the right output, and a shell sees that signal in its status. A reader
that leaves is a failing write. Where a thread isn't started the run is refused with the lines before that. Where memory runs
out as well, that is told.
"""
import array
import fcntl
import json
import os
import resource
import shutil
import signal
import subprocess
import tempfile
import termios
import time

from support.program import HANGS, PROGRAM, Outcome, Tests, build, run, shared_library
from support.threads import leaving, unused_user

# More than any test waits for, in lines that a test can count.
ENDLESS = {"range": [0, 2**40]}
ORDERED = ["as_ordered"]
DEGREES = (1, 2, 8, 64)
# How many workers a run starts before its caller's thread has waited for long.
CORES = len(os.sched_getaffinity(0))
WRITE_FAILED = b"plinq: write failed\n"
NO_THREAD = b"plinq: no thread\n"
NO_MEMORY = b"plinq: out of memory\n"
REFUSALS = (NO_THREAD, NO_MEMORY)
# How many bytes a test reads of the output.
READ = 100_000


def document(source, *steps, **more):
    return json.dumps({"version": 1, "source": source, "query": [ORDERED, *steps], **more}).encode()


# Words, the steps of a query over what never ends, and whether it prints meanwhile.
RUNS = {
    "one by one": (["run", "--merge", "not"], [], True),
    "in batches": (["run"], [], True),
    "without an item": (["run"], [["filter", "equal", -1]], False),
    "with an expansion": (["run", "--merge", "not"], [["select_many", "repeat", 3]], True),
}


def started(words, steps, **more):
    child = subprocess.Popen([PROGRAM, *words], stdin=subprocess.PIPE, stdout=subprocess.PIPE, stderr=subprocess.PIPE, bufsize=0)
    child.stdin.write(document(ENDLESS, *steps, **more))
    child.stdin.close()
    child.stdin = None
    return child


def read(child, count):
    """So many bytes of what the program writes, or all that there are."""
    output = b""
    while len(output) < count and (more := child.stdout.read(count - len(output))):
        output += more
    return output


def ended(child, output):
    """How a run ended, with what was read of it before."""
    try:
        rest, errors = child.communicate(timeout=HANGS)
    except subprocess.TimeoutExpired:
        child.kill()
        rest, errors = child.communicate()
    return Outcome(child.returncode, output + rest, errors)


def is_beginning(name, output):
    """Whether these are the numbers from 0 on, up to some byte, as this run prints them."""
    size = 16 if name == "in batches" else 1
    copies = 3 if name == "with an expansion" else 1
    numbers = [b"%d" % (it // copies) for it in range(len(output))]
    lines = b"".join(b" ".join(numbers[at : at + size]) + b"\n" for at in range(0, len(numbers), size))
    return lines.startswith(output)


def wait_until(is_so):
    end = time.monotonic() + HANGS
    while not is_so() and time.monotonic() < end:
        time.sleep(0.01)


def unread(child):
    """How many bytes the program has written that nobody has read."""
    count = array.array("i", [0])
    fcntl.ioctl(child.stdout, termios.FIONREAD, count)
    return count[0]


def wait_for_a_full_pipe(child):
    """Waits until the program has written, and for a while writes no more."""
    seen = [0]

    def is_full():
        seen.append(unread(child))
        return seen[-1] > 0 and seen[-5:] == seen[-1:] * 5

    wait_until(is_full)


def is_at_work(child, workers=1):
    """Whether so many workers were started; others are once the caller's thread lacks results."""
    return len(os.listdir(f"/proc/{child.pid}/task")) >= workers + 1


# (a shell shows the end by a signal as 128 and its number)
def signals(tests):
    for name, (words, steps, prints) in RUNS.items():
        for workers in DEGREES:
            words_so = [*words, "--workers", str(workers)]
            for kind in (signal.SIGINT, signal.SIGTERM):
                # (once while it is read, and once while nobody reads and the pipe is full)
                for count in (READ, 0) if prints else (0,):
                    child = started(words_so, steps)
                    wait_until(lambda: is_at_work(child, 1 if prints else min(workers, CORES)))
                    output = read(child, count)
                    if prints:
                        wait_for_a_full_pipe(child)
                    child.send_signal(kind)
                    seen = ended(child, output)
                    is_so = seen.status == -kind and seen.errors == b"" and is_beginning(name, seen.output)
                    tests.check(f"{kind.name}: {' '.join(words_so)}, {name}, {count} bytes read", is_so, seen)
    child = started(["run"], [], aggregate="sum")
    wait_until(lambda: is_at_work(child, min(4, CORES)))
    child.send_signal(signal.SIGTERM)
    seen = ended(child, b"")
    tests.check("SIGTERM: an aggregate is left unwritten", seen == Outcome(-signal.SIGTERM, b"", b""), seen)


def readers_that_leave(tests):
    for name, (words, steps, prints) in RUNS.items():
        for workers in DEGREES if prints else ():
            child = started([*words, "--workers", str(workers)], steps)
            output = read(child, READ)
            child.stdout.close()
            child.stdout = open(os.devnull, "rb")
            seen = ended(child, output)
            is_so = (seen.status, seen.errors) == (5, WRITE_FAILED) and is_beginning(name, seen.output)
            tests.check(f"a reader that leaves: {' '.join(words)} {name} by {workers}", is_so, seen)


NUMBERS = 20_000
RIGHT = Outcome(0, "".join(f"{it}\n" for it in range(NUMBERS)).encode() + b"end\n", b"")
SUM = Outcome(0, b"%d\nend\n" % sum(range(NUMBERS)), b"")
MANY = ["run", "--merge", "not", "--workers"]


def answers_or_refuses(seen, right):
    return seen == right or seen.status == 5 and seen.errors in REFUSALS and right.output.startswith(seen.output)


def has_no_thread(name, seen):
    lines_are_right = is_beginning(name, seen.output) if name == "one by one" else not seen.output
    return (seen.status, seen.errors) == (5, NO_THREAD) and lines_are_right


def few_threads(tests):
    user = unused_user()
    with tempfile.TemporaryDirectory() as folder:
        os.chmod(folder, 0o755)
        program = shutil.copy(PROGRAM, folder)
        for workers in range(1, 65):
            few = range(1, min(workers, 8) + 2) if workers <= 8 or workers in DEGREES else (1, workers - 1)
            for threads in sorted({*few, workers, workers + 1, workers + 200}):
                # (one is the caller's thread; where nothing is printed it lacks results, so that more workers are wanted)
                for name, more, right, wanted in (("one by one", {}, RIGHT, 1), ("a sum", {"aggregate": "sum"}, SUM, min(workers, CORES))):
                    are_few = threads <= wanted
                    given = document(ENDLESS if are_few else {"range": [0, NUMBERS]}, **more)
                    seen = run([*MANY, str(workers)], given, program, preexec_fn=leaving(threads, user))
                    is_so = has_no_thread(name, seen) if are_few else answers_or_refuses(seen, right)
                    tests.check(f"{threads} threads for {workers} workers: {name}", is_so, seen)
        no_thread_and_no_memory(tests, folder, program, user)


def no_thread_and_no_memory(tests, folder, program, user):
    """No thread is started, and allocations are refused in turn: the last of them is to close the source after that."""
    shim = shared_library("refusing.c", folder)
    for name, more in (("run", {}), ("sum", {"aggregate": "sum"})):
        seen, met = [], True
        while met:
            reading, writing = os.pipe()
            env = os.environ | {"LD_PRELOAD": shim, "REFUSE_AT": str(len(seen) + 1), "REFUSED_TO": str(writing)}
            given = document({"range": [0, NUMBERS]}, **more)
            seen.append(run([*MANY, "2"], given, program, preexec_fn=leaving(1, user), env=env, pass_fds=(writing,)))
            os.close(writing)
            met = os.read(reading, 1)
            os.close(reading)
        *refused, ample = seen
        no_thread, no_memory = Outcome(5, b"", NO_THREAD), Outcome(5, b"", NO_MEMORY)
        tests.check(f"no thread: {name}", ample == no_thread, ample)
        others = [it for it in refused if it not in (no_thread, no_memory)]
        tests.check(f"no thread, and an allocation is refused: {name}", not others, others[:1])
        is_told = bool(refused) and refused[-1] == no_memory
        tests.check(f"no thread, and no memory to close the source: {name}", is_told, refused[-1:])


def little_memory(tests):
    kinds = set()
    for workers in range(1, 65):
        # (a thread takes some MiB, so that of most numbers of workers some are started and some aren't)
        some = (10 + 4 * workers, 10 + 8 * workers, 20 + 20 * workers)
        for limit in (*range(10, 100, 10), *range(100, 1_000, 100)) if workers in DEGREES else some:

            def limited():
                resource.setrlimit(resource.RLIMIT_AS, (limit << 20, limit << 20))

            seen = run([*MANY, str(workers)], document({"range": [0, NUMBERS]}), PROGRAM, preexec_fn=limited)
            kinds.add(seen.errors)
            tests.check(f"{limit} MiB for {workers} workers", answers_or_refuses(seen, RIGHT), seen)
    tests.check("a thread had no memory, and there was enough", {b"", NO_THREAD} <= kinds, kinds)


def main():
    build()
    tests = Tests()
    signals(tests)
    readers_that_leave(tests)
    few_threads(tests)
    little_memory(tests)
    tests.end()


if __name__ == "__main__":
    # (what starts this in the background may have these ignored, and so would the program)
    signal.signal(signal.SIGINT, signal.default_int_handler)
    for which in (signal.SIGHUP, signal.SIGQUIT, signal.SIGTERM):
        signal.signal(which, signal.SIG_DFL)
    main()
