#!/usr/bin/env python3
"""Streams that are closed or full, readers that leave, folders as input, and reads and writes that fail in turn.

    python3 tests/streams.py

What a run may do after a failure: end with the line of that failure and status 5, with a beginning of the right output
written before it and nothing after it. A few lines of C, loaded before the C library, have single reads and writes fail.
"""
import errno
import json
import os
import subprocess
import tempfile

from support.program import EXAMPLES, HANGS, PLINQ, PROGRAM, ROOT, Outcome, Tests, build, run, shared_library

READ_FAILED = b"plinq: read failed\n"
WRITE_FAILED = b"plinq: write failed\n"


def document(count):
    return json.dumps({"version": 1, "source": {"range": [1, count]}, "query": [["as_ordered"]]}).encode()


# (one line at once, and then many elements that give none)
FIRST_OF_MANY = b'{"version":1,"source":{"range":[5,1000000]},"query":[["as_ordered"],["filter","equal",5]]}'
SHORT = ["run", "--merge", "not"], document(3)
# (several times what a buffer holds)
LONG = ["run", "--merge", "not"], document(100_000)
CASES = [
    SHORT,
    LONG,
    (["run", "--merge", "full"], document(100_000)),
    (["seq"], b'{"version":1,"source":{"list":[1,2],"refuse":7},"query":[]}'),
    (["run"], b'{"version":1,"source":{"list":[2,0]},"query":[["as_ordered"],["select","into",4]]}'),
    (["plan"], document(3)),
    (["parts", "--workers", "3"], document(5_000)),
    (["run"], b"{"),
    (["walk"], b""),
    (["--help"], b""),
    (["plan", "--help"], b""),
    (["history", "--workers", "3"], document(1_000)),
    (["run", "--merge", "not", "--cancel-after", "2"], document(20_000)),
    (["run", "--merge", "not"], FIRST_OF_MANY),
    (["run", "--merge", "not", "--cancel-after", "1"], FIRST_OF_MANY),
    (["seq", "--merge", "not"], document(20_000)),
    (["seq", "--merge", "not"], FIRST_OF_MANY),
    (["run", "--merge", "not", "--cancel-after", "1"], document(3)),
]


def as_shell(line, given=b""):
    ran = subprocess.run(["bash", "-c", line, PLINQ], input=given, cwd=EXAMPLES, capture_output=True, timeout=HANGS)
    return Outcome(ran.returncode, ran.stdout, ran.stderr)


def closed_and_full(tests):
    for line, wanted in (
        ("$0 run <&-", Outcome(5, b"", READ_FAILED)),
        ("$0 run </", Outcome(5, b"", READ_FAILED)),
        ("$0 run < add-one.json >&-", Outcome(5, b"", WRITE_FAILED)),
        ("$0 run < add-one.json >/dev/full", Outcome(5, b"", WRITE_FAILED)),
        ("$0 plan < shared.json >/dev/full", Outcome(5, b"", WRITE_FAILED)),
        ("$0 parts < shared.json >/dev/full", Outcome(5, b"", WRITE_FAILED)),
        ("$0 --help >/dev/full", Outcome(5, b"", WRITE_FAILED)),
        ("$0 run --help >&-", Outcome(5, b"", WRITE_FAILED)),
        # what is on standard error is lost there, and nothing else
        ("$0 seq < copies.json 2>&-", Outcome(0, b"2 1 2 3\nend\n", b"")),
        ("echo { | $0 run 2>&-", Outcome(2, b"", b"")),
        ("echo { | $0 run 2>/dev/full", Outcome(2, b"", b"")),
        ("$0 walk 2>/dev/full", Outcome(2, b"", b"")),
        ("$0 run < add-one.json >/dev/full 2>/dev/full", Outcome(5, b"", b"")),
        # a refused document has nothing to write, so an output that takes nothing isn't met
        ("echo { | $0 run >/dev/full", Outcome(2, b"", b"plinq: document: not JSON\n")),
        ("$0 seq <&- >&-", Outcome(5, b"", READ_FAILED)),
    ):
        seen = as_shell(line)
        tests.check(line.replace("$0", "plinq"), seen == wanted, f"wanted {wanted}; seen {seen}")


def cancelled_into_a_full_device(tests):
    for workers in ("1", "2", "64"):
        # With none nothing is written, and so nothing fails.
        for most, wanted in (("0", b"plinq: cancelled\n"), ("1", WRITE_FAILED), ("5000", WRITE_FAILED)):
            line = f"$0 run --workers {workers} --merge not --cancel-after {most} >/dev/full"
            seen = as_shell(line, document(1_000_000))
            tests.check(line.replace("$0", "plinq"), seen == Outcome(5, b"", wanted), seen)


def readers_that_leave(tests):
    for words, given in (("run --merge not", document(1_000_000)), ("seq --merge not", document(2**40))):
        for reader, wanted in (("head -n 2", b"1\n2\n"), ("head -c 5", b"1\n2\n3"), ("true", b"")):
            seen = as_shell(f"$0 {words} | {reader}; exit ${{PIPESTATUS[0]}}", given)
            tests.check(f"{words}, a reader that leaves: {reader}", seen == Outcome(5, wanted, WRITE_FAILED), seen)


def failing(case, shim, **how):
    """How a run ends some of whose reads or writes fail, whether it met one of these, and how often it wrote after one."""
    words, given = case
    reading, writing = os.pipe()
    os.set_blocking(reading, False)
    env = os.environ | {"LD_PRELOAD": shim, "MET_TO": str(writing)} | {name: str(it) for name, it in how.items()}
    seen = run(words, given, PROGRAM, env=env, pass_fds=(writing,))
    os.close(writing)
    met = b""
    while more := os.read(reading, 65536):
        met += more
    os.close(reading)
    return seen, b"!" in met, met.count(b"w")


def each_in_turn(tests, name, case, shim, problem, must_meet=True, **how):
    """Has the first read or write answer otherwise, then the second and so on, until a run meets none that does."""
    problems, at, is_met = [], 0, True
    while is_met:
        at += 1
        seen, is_met, later = failing(case, shim, AT=at, **how)
        why = problem(seen, is_met, later)
        problems += [f"number {at}: {why}"] if why else []
    name = f"{name}: plinq {' '.join(case[0])} < {case[1].decode()[:60]!r}"
    tests.check(name, not problems, f"{len(problems)} of {at}; {'; '.join(problems[:2])}")
    if must_meet:
        tests.check(f"{name}: it was met", at > 1, at)


def failing_writes(tests, shim):
    for case in CASES:
        right = run(*case, PROGRAM)
        writes = bool(right.output)

        def problem(seen, is_met, later):
            if not is_met:
                return None if seen == right else f"as before: wanted {right}; seen {seen}"
            if (seen.status, seen.errors) != (5, WRITE_FAILED):
                return f"the failure isn't told: {seen}"
            if later or not right.output.startswith(seen.output):
                return f"{later} writes after the failure: {seen}"
            return None

        for which in ("ENOSPC", "EAGAIN", "EPIPE", "EBADF"):
            for lasting in (0, 1):
                name = f"a write fails {'with all after it' if lasting else 'once'}, {which}"
                how = {"STREAM": "write", "ERROR": getattr(errno, which), "LASTING": lasting}
                each_in_turn(tests, name, case, shim, problem, writes, **how)


def failing_reads(tests, shim):
    for case in (SHORT, (["parts"], document(3)), (["run"], b"{"), (["run"], document(3) + b" " * 200_000), (["seq"], b" " * 10)):
        right = run(*case, PROGRAM)

        def problem(seen, is_met, _):
            wanted = Outcome(5, b"", READ_FAILED) if is_met else right
            return None if seen == wanted else f"wanted {wanted}; seen {seen}"

        for which in ("EIO", "EAGAIN", "EINTR"):
            each_in_turn(tests, f"a read fails, {which}", case, shim, problem, STREAM="read", ERROR=getattr(errno, which))


def short_and_interrupted(tests, shim):
    for case in CASES:
        right = run(*case, PROGRAM)

        def problem(seen, _is_met, _later):
            return None if seen == right else f"wanted {right}; seen {seen}"

        writes = bool(right.output)
        each_in_turn(tests, "a write takes one byte", case, shim, problem, writes, STREAM="write", ERROR=0)
        each_in_turn(tests, "a write is interrupted", case, shim, problem, writes, STREAM="write", ERROR=errno.EINTR)
    for case in (SHORT, CASES[5], CASES[6], CASES[9]):
        right = run(*case, PROGRAM)
        for stream, most in (("read", 1), ("write", 1), ("read", 3), ("write", 3)):
            seen, is_met, _ = failing(case, shim, STREAM=stream, ERROR=0, AT=1, LASTING=1, MOST=most)
            is_so = seen == right and is_met == (stream == "write" or bool(case[1]))
            tests.check(f"each {stream} moves {most} bytes at most: plinq {' '.join(case[0])}", is_so, f"wanted {right}; seen {seen}")


def main():
    build()
    tests = Tests()
    closed_and_full(tests)
    cancelled_into_a_full_device(tests)
    readers_that_leave(tests)
    with tempfile.TemporaryDirectory() as folder:
        shim = shared_library("streams.c", folder)
        failing_writes(tests, shim)
        failing_reads(tests, shim)
        short_and_interrupted(tests, shim)
    tests.end()


if __name__ == "__main__":
    main()
