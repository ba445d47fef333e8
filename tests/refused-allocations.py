#!/usr/bin/env python3
"""Refuses each allocation of the program in turn, alone and with all after it, and looks at what it answers.

    python3 tests/refused-allocations.py

Each run must end as it does with ample memory, or with status 5, the one line `plinq: out of memory` on standard error (or
`plinq: no thread`, of `run` and `lines` alone, which start threads), and a beginning of the right output. A few lines of C, loaded before
the C library, refuse the allocations.
"""
import json
import os
import tempfile

from support.program import PROGRAM, Outcome, Tests, build, run, shared_library

OUT_OF_MEMORY = b"plinq: out of memory\n"
NO_THREAD = b"plinq: no thread\n"


def document(source, *steps, version=1, **more):
    return json.dumps({"version": version, "source": source, "query": [["as_ordered"], *steps], **more}).encode()


LIST = {"list": [3, 1, 4]}
ANSWERED = [
    document(LIST, ["select", "add", 1]),
    document({"list": list(range(40)), "refuse": 7}, ["filter", "even"]),
    document({"text": "12 5\n-7 0 18"}, ["take_while", "above", -9]),
    document({"text": "1 2 x"}),
    document({"range": [1, 40]}, ["skip", 3], ["take", 20], growth=[1, 3, 512]),
    document({"repeat": [5, 20]}, ["with_degree", 3]),
    document({"list": [2, 3, 0, 5]}, ["select_many", "repeat", 30], ["select_many", "up_to"], ["take", 200]),
    document({"list": [1, 65537]}, ["select_many", "up_to"]),
    document({"list": [5, 0, 2]}, ["select", "into", 10]),
    document({"list": [9223372036854775807]}, ["select", "add", 1]),
    document({"list": [9, 3, 8]}, ["filter", "even"], aggregate="max"),
    # (a Take after a Filter isn't the workers', so that the caller's thread folds)
    document({"range": [1, 9]}, ["filter", "even"], ["take", 3], aggregate="sum"),
    document({"concat": [{"list": [3, 1, 4]}, {"text": "1 5 x"}]}, version=2),
]
# (one item, which has one order)
UNORDERED = b'{"version":1,"source":{"list":[4],"refuse":7},"query":[["select","add",1]]}'
SEVENTEEN = document({"range": [1, 17]})
# Four items, each in a chunk of its own; without an order they are the same, so that any order is the same.
BY_KEY = document({"range": [1, 4]}, growth=[1, 1, 1])
BY_ARRIVAL = b'{"version":1,"source":{"repeat":[5,4]},"query":[],"growth":[1,1,1]}'
MERGES = ("not", "auto", "full", "default")
REFUSED = [
    b'{"version":1,"source":{"list":[3,1,4]',
    b"{}",
    document(LIST, ["select", "add", 1]).replace(b'"version": 1', b'"version": 3'),
    document({"list": [1.5]}),
    document({"range": [9223372036854775807, 2]}),
    document(LIST, growth=[0, 3, 512]),
    document(LIST, ["take", 1], ["sort"]),
    document(LIST, ["take", 1], ["as_ordered"]),
]
# What is wrong with this document is found once all of it was read, so where no room is left on the way, that is answered. The
# C library does without one allocation. The text has an escape, so that its bytes are gathered in a list that grows.
WRONG_AT_ITS_END = document({"list": list(range(9))}, x=[1]), document({"text": "1\n2 3 " * 20}, x=[1])
DONE_WITHOUT = 1
# Lines in one block, and in three, of which each is longer than a block has to be.
FEW_LINES = b"a x\nb\nc x y\n"
NUMBERED_LINES = b"a 1\nb 2.5\na -3\n"
MANY_LINES = b"".join(b"%d x y\n" % it * 30 for it in range(3_000))
OF_LINES = ("filter contains x | select field 2", 'skip 1 | filter not is "b"', "take 2", "take_while contains x", 'filter field 2 matches "^[xy]"', "skip 1 | filter not matches b | take 2", "select field 2 1-", "count", "filter contains x | count by field 2 1", "skip 1 | count by line", "distinct by field 2 1 | take 1")
OF_NUMBERS = ("filter field 2 > 1", "skip 1 | take_while not field 2 above 3", "sum field 2", "max field 2 by field 1", "filter field 2 is_number | mean field 2")
CASES = (
    [(words, it) for it in ANSWERED for words in (["run", "--workers", "2", "--merge", "not"], ["run", "--workers", "1"], ["run", "--workers", "8"], ["seq"], ["plan", "--workers", "2"], ["parts"], ["history", "--workers", "2"])]
    + [(["run", "--workers", workers, "--merge", "not"], SEVENTEEN) for workers in ("1", "2")]
    + [(["run", "--workers", workers, "--merge", merge], it) for it in (BY_KEY, BY_ARRIVAL) for workers in ("1", "2", "8") for merge in MERGES]
    + [(["run", "--workers", workers, "--merge", merge], it[:-1] + b',"aggregate":"sum"}') for it in (BY_KEY, BY_ARRIVAL) for workers in ("1", "2", "8") for merge in MERGES]
    + [(["run", "--workers", "2"], UNORDERED), (["run", "--merge", "full"], ANSWERED[0]), (["seq", "--merge", "auto"], ANSWERED[6])]
    + [(["run", "--workers", workers, "--merge", "not", "--cancel-after", it], ANSWERED[0]) for workers in ("1", "2", "8") for it in ("1", "9")]
    # (of so long a range the close may not be forgotten that finds no room for its record: it is tried again)
    + [(["run", "--workers", "1", "--merge", "not"], document({"range": [0, 2**40]}, ["take", it], growth=[1, 1, 1])) for it in (4, 8)]
    + [(["lines", "--workers", workers, query], FEW_LINES) for workers in ("1", "2") for query in OF_LINES]
    + [(["lines", "--workers", workers, query], NUMBERED_LINES) for workers in ("1", "2") for query in OF_NUMBERS]
    + [(["lines", "--workers", workers, OF_LINES[0]], MANY_LINES) for workers in ("1", "2")]
    + [(["lines", "find"], FEW_LINES), (["lines"], FEW_LINES), (["lines", "--help"], b"")]
    + [(["run"], it) for it in REFUSED]
    + [(["seq"], it) for it in WRONG_AT_ITS_END]
    + [(words, ANSWERED[0]) for words in ([], ["walk"], ["run", "--workers", "0"], ["seq", "--merge", "some"], ["plan", "x"])]
    + [(words, b"") for words in (["--help"], ["run", "--help"], ["help"])]
)


def refusing(words, given, shim, which, at):
    """How a run ends whose allocations are refused so, and whether one was refused."""
    reading, writing = os.pipe()
    env = os.environ | {"LD_PRELOAD": shim, which: str(at), "REFUSED_TO": str(writing)}
    seen = run(words, given, PROGRAM, env=env, pass_fds=(writing,))
    os.close(writing)
    met = os.read(reading, 1)
    os.close(reading)
    return seen, bool(met)


def problem(words, seen, right):
    """What is wrong with how a run ended that met a refusal, if anything is."""
    lines = (OUT_OF_MEMORY, NO_THREAD) if words[:1] in (["run"], ["lines"]) else (OUT_OF_MEMORY,)
    if seen == right:
        return None
    if seen.status != 5 or seen.errors not in lines:
        return f"neither as with ample memory ({right}) nor out of memory: {seen}"
    if not right.output.startswith(seen.output):
        return f"what was written is no beginning of the right output ({right}): {seen}"
    # (`run` and `seq` write whole lines; help may break off anywhere)
    if words[:1] in (["run"], ["seq"], ["lines"]) and "--help" not in words and seen.output[-1:] not in (b"", b"\n"):
        return f"a line isn't whole: {seen}"
    return None


# How many allocations of a run by one worker are for its thread: each other one is memory.
FOR_ONE_THREAD = 2


def main():
    build()
    tests = Tests()
    with tempfile.TemporaryDirectory() as folder:
        shim = shared_library("refusing.c", folder)
        for words, given in CASES:
            right = run(words, given, PROGRAM)
            case = f"plinq {' '.join(words)} < {given.decode()[:70]!r}"
            tests.check(f"{case}: with ample memory", right.errors not in (OUT_OF_MEMORY, NO_THREAD), right)
            for which in ("REFUSE_AT", "REFUSE_FROM"):
                name = f"{case}, {which}"
                problems, memory, threads, at, met = [], 0, 0, 0, True
                while met:
                    at += 1
                    seen, met = refusing(words, given, shim, which, at)
                    why = problem(words, seen, right)
                    problems += [f"={at}: {why}"] if why else []
                    memory += seen.errors == OUT_OF_MEMORY
                    threads += seen.errors == NO_THREAD
                tests.check(name, not problems, f"{len(problems)} of {at}; the first is {problems[:1]}")
                if which == "REFUSE_AT" and words[:3] == ["run", "--workers", "1"]:
                    tests.check(f"{name}: out of memory isn't reported as a missing thread", threads <= FOR_ONE_THREAD, f"{threads} of {at - 1}")
                tests.check(f"{name}: an allocation was refused", at > 1 and memory > 0, f"{at - 1} refused, {memory} answered")
                if given in WRONG_AT_ITS_END:
                    tests.check(f"{name}: out of memory is answered whatever stands later", at - 1 - memory <= DONE_WITHOUT, f"{memory} of {at - 1}")
    tests.end()


if __name__ == "__main__":
    main()
