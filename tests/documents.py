#!/usr/bin/env python3
"""Documents of the greatest length and one byte more, input without an end, cut, deep and long documents, limited memory.

    python3 tests/documents.py
"""
import json
import os
import subprocess

from support.program import EXAMPLES, HANGS, PLINQ, PROGRAM, Outcome, Tests, build, run

GREATEST = 16_777_216
TOO_LONG = Outcome(2, b"", b"plinq: document: too long\n")
OUT_OF_MEMORY = Outcome(5, b"", b"plinq: out of memory\n")
NOT_JSON = Outcome(2, b"", b"plinq: document: not JSON\n")
WRONG_SHAPE = Outcome(2, b"", b"plinq: document: wrong shape\n")


def padded(head, fill, tail, length):
    """A document of so many bytes: its head, as much of the filling as there is room for, spaces, and its tail."""
    room = length - len(head) - len(tail)
    return head + fill * (room // len(fill)) + b" " * (room % len(fill)) + tail


def greatest(tests):
    query = b'"query":[["as_ordered"],["select","add",1]]}'
    last = b'0]},' + query
    unit = b"1234567,"
    count = (GREATEST - len(b'{"version":1,"source":{"list":[') - len(last)) // len(unit)
    numbers = b"".join(b"1234568\n" for _ in range(count)) + b"1\nend\n"
    text = (GREATEST - len(b'{"version":1,"source":{"text":"') - len(b'"},' + query)) // len(b"1234567 ")
    runs = b"".join(b" ".join([b"1234568"] * min(16, text - at)) + b"\n" for at in range(0, text, 16)) + b"end\n"
    for name, words, head, fill, tail, wanted in (
        ("spaces", ["run", "--merge", "not"], b"", b" ", b'{"version":1,"source":{"list":[3,1,4]},' + query, Outcome(0, b"4\n2\n5\nend\n", b"")),
        ("nothing but spaces", ["run"], b"", b" ", b"", NOT_JSON),
        ("nothing but spaces for one thread", ["seq"], b"", b" ", b"", NOT_JSON),
        ("a list", ["run", "--merge", "not"], b'{"version":1,"source":{"list":[', unit, last, Outcome(0, numbers, b"")),
        ("a text", ["run"], b'{"version":1,"source":{"text":"', b"1234567 ", b'"},' + query, Outcome(0, runs, b"")),
        ("a string without its end", ["run"], b'{"version":1,"source":{"text":"', b"1 ", b"", NOT_JSON),
        ("a name of this length", ["run"], b'{"', b"x", b'":0}', WRONG_SHAPE),
    ):
        for length, ends in ((GREATEST, wanted), (GREATEST + 1, TOO_LONG)):
            seen = run(words, padded(head, fill, tail, length))
            tests.check(f"{name} of {length} bytes", seen == ends, f"wanted {ends}; seen {seen}")


def endless(tests):
    with open("/dev/zero", "rb") as zeros:
        seen = run(["run"], stdin=zeros)
    tests.check("input without an end is too long", seen == TOO_LONG, seen)
    # (one that never ends and is written on until the program has left)
    with subprocess.Popen([PLINQ, "run"], stdin=subprocess.PIPE, stdout=subprocess.PIPE, stderr=subprocess.PIPE) as started:
        with open("/dev/zero", "rb") as zeros:
            feeding = subprocess.Popen(["cat"], stdin=zeros, stdout=started.stdin, stderr=subprocess.DEVNULL)
        started.stdin.close()
        output, errors = started.stdout.read(), started.stderr.read()
        started.wait(timeout=HANGS)
        feeding.wait(timeout=HANGS)
    seen = Outcome(started.returncode, output, errors)
    tests.check("a pipe without an end is too long, and isn't waited for", seen == TOO_LONG, seen)


def cut_and_deep(tests):
    with open(os.path.join(EXAMPLES, "add-one.json"), "rb") as file:
        whole = file.read().strip()
    wrong = [at for at in range(len(whole)) if run(["run"], whole[:at]) != NOT_JSON]
    tests.check("each proper beginning of a document is no JSON", not wrong, wrong)
    tests.check("nothing may stand after a document", run(["run"], whole + b"]") == NOT_JSON)
    tests.check("a byte that no text has", run(["run"], b"\xff") == NOT_JSON)
    tests.check("no bytes", run(["run"], b"") == NOT_JSON)
    tests.check("127 lists in one another are JSON", run(["run"], b"[" * 127 + b"]" * 127) == WRONG_SHAPE)
    tests.check("200 lists in one another are too deep", run(["run"], b"[" * 200 + b"]" * 200) == NOT_JSON)
    seen = run(["run"], b"[" * GREATEST)
    tests.check("as many as fit are too deep", seen == NOT_JSON, seen)


def long_queries(tests):
    def document(steps, **more):
        return json.dumps({"version": 1, "source": {"list": [0]}, "query": steps, **more}).encode()

    steps = [["select", "add", 1]] * 1000
    seen = run(["run"], document(steps))
    tests.check("1,000 steps are answered", seen == Outcome(0, b"1000\nend\n", b""), seen)
    seen = run(["plan"], document(steps))
    wanted = "workers 4\nmerge auto\norder arrival\nworker " + ", ".join(["select add 1"] * 1000) + "\nafter none\n"
    tests.check("of 1,000 steps the plan is shown", seen == Outcome(0, wanted.encode(), b""), seen)
    seen = run(["run"], document(steps + steps[:1]))
    tests.check("1,001 steps are refused", seen == WRONG_SHAPE, seen)
    seen = run(["run"], document([["take", 1]] * 999 + [["sort"]]))
    tests.check("the last of 1,000 steps is told by its number", seen == Outcome(2, b"", b"plinq: document: step 999: unknown\n"), seen)
    # (998 steps that each could give 65,536 items for one, of which the last asks for one)
    steps = [["select_many", "repeat", 65536]] * 998 + [["take", 1]]
    seen = run(["seq"], document(steps))
    tests.check("on one thread nested expansions give no more than is asked for", seen == Outcome(0, b"0\nend\n", b""), seen)


def limited(tests):
    # (objects take many times their text: bench/README.md has how many)
    nested = b'{"":' * 124 + b"0" + b"}" * 124
    for name, text in (
        ("a document that takes more memory than there is", padded(b'{"version":1,"source":{"list":[', nested + b",", b'0]},"query":[]}', GREATEST)),
        ("a batch that takes more memory than there is", b'{"version":1,"source":{"range":[0,1099511627776]},"query":[["as_ordered"]]}'),
    ):
        limited = 'ulimit -v 200000 && exec "$0" run --merge full'
        ran = subprocess.run(["bash", "-c", limited, PROGRAM], input=text, capture_output=True, timeout=HANGS)
        seen = Outcome(ran.returncode, ran.stdout, ran.stderr)
        tests.check(name, seen == OUT_OF_MEMORY, seen)


def main():
    build()
    tests = Tests()
    greatest(tests)
    endless(tests)
    cut_and_deep(tests)
    long_queries(tests)
    limited(tests)
    tests.end()


if __name__ == "__main__":
    main()
