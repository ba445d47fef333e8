#!/usr/bin/env python3
"""Measures the program beside python3, awk and jq doing the same work, and prints the tables of bench/README.md.

    python3 bench/measure.py times          # processor time and peak memory; the ratios are of one run
    python3 bench/measure.py memory         # peak memory of documents that are made to take much
    python3 bench/measure.py instructions   # instructions an item, by callgrind's slope between two sizes
    python3 bench/measure.py totals         # instructions of two long runs, by callgrind
    python3 bench/measure.py allocations    # how the number of allocations grows with the items

The program is ./plinq's, or the one that the environment names as PLINQ.
"""
import json
import os
import re
import shutil
import subprocess
import sys
import tempfile

ROOT = os.path.dirname(os.path.dirname(os.path.abspath(__file__)))
PROGRAM = os.environ.get("PLINQ") or os.path.join(ROOT, "crates", "plinq", "out", "plinq")
LONGEST = 16_777_216

JOIN = """
import json, sys
print("\\n".join([str(x + 1) for x in json.load(sys.stdin.buffer)["source"]["list"]]))
print("end")
"""
PRINT = """
import json, sys
for x in json.load(sys.stdin.buffer)["source"]["list"]:
    print(x + 1)
print("end")
"""
SUM_TEXT = """
import json, sys
print(sum(map(int, json.load(sys.stdin.buffer)["source"]["text"].split())))
"""
# The packages of Debian that are named otherwise than their command.
PACKAGES = {"awk": "gawk"}
AWK = '{ print $0 + 1 } END { print "end" }'


def document(source, query, **more):
    return json.dumps({"version": 1, "source": source, "query": query, **more}, separators=(",", ":")).encode()


# A process of its own, so that the peak isn't that of the documents that this one holds.
LAUNCH = """
import os, subprocess, sys
child = subprocess.Popen(sys.argv[2:], stdin=open(sys.argv[1], "rb"), stdout=subprocess.DEVNULL, stderr=subprocess.DEVNULL)
_, status, usage = os.wait4(child.pid, 0)
print(usage.ru_utime + usage.ru_stime, usage.ru_maxrss / 1024, os.waitstatus_to_exitcode(status))
"""


class Measured:
    """Processor seconds, the peak of memory in MB, and the status of a run."""

    def __init__(self, words, text):
        with tempfile.NamedTemporaryFile() as stdin:
            stdin.write(text)
            stdin.flush()
            said = subprocess.run([sys.executable, "-c", LAUNCH, stdin.name] + words, stdout=subprocess.PIPE, check=True)
        seconds, peak, status = said.stdout.split()
        self.seconds, self.peak, self.status = float(seconds), float(peak), int(status)


def beside(name, works, rounds=5):
    """Prints how the works, each with its words and text, do: the best of some rounds, in each of which all take turns."""
    missing = {it for it, (words, _) in works.items() if not shutil.which(words[0])}
    for it in sorted(missing):
        word = works[it][0][0]
        print(f"(not measured: {it}: apt-get install {PACKAGES.get(word, word)})")
    best = {}
    for _ in range(rounds):
        for it in works.keys() - missing:
            words, text = works[it]
            seen = Measured(words, text)
            assert seen.status == 0, (words, seen.status)
            if it not in best or seen.seconds < best[it].seconds:
                best[it] = seen
    ours = best["plinq"].seconds
    for it, seen in sorted(best.items(), key=lambda it: it[1].seconds):
        print(f"| {name} | {it} | {seen.seconds:.2f} s | {seen.peak:.0f} MB | {seen.seconds / ours:.1f} |")
        name = ""


def numbers(count):
    return [1_000_000 + i * 4 % 9_000_000 for i in range(count)]


def times():
    plus_one = [["as_ordered"], ["select", "add", 1]]
    print(f"{os.cpu_count()} cores\n")
    print("| work | program | processor time | peak | times plinq's |\n|---|---|---|---|---|")
    for count in (1_000_000, 2_000_000):
        text = document({"list": numbers(count)}, plus_one)
        lines = "".join(f"{it}\n" for it in numbers(count)).encode()
        works = {
            "plinq": ([PROGRAM, "run", "--merge", "not"], text),
            "awk, of plain lines": (["awk", AWK], lines),
            "python3, one join": (["python3", "-c", JOIN], text),
            "jq": (["jq", ".source.list[] + 1"], text),
            "python3, print for each": (["python3", "-c", PRINT], text),
        }
        beside(f"list of {count:,} numbers ({len(text) / 1e6:.0f} MB), add 1, one a line", works)
    for count in (1_000_000, 2_000_000):
        text = document({"text": " ".join(map(str, numbers(count)))}, [["as_ordered"], ["filter", "below", 0]])
        works = {"plinq": ([PROGRAM, "run"], text), "python3, summed": (["python3", "-c", SUM_TEXT], text)}
        beside(f"text of {count:,} tokens ({len(text) / 1e6:.0f} MB), none kept", works)
    for count in (1_000_000, 10_000_000):
        works = {"plinq": ([PROGRAM, "run", "--merge", "auto"], document({"range": [0, count]}, plus_one))}
        beside(f"range of {count:,}, add 1, `--merge auto`", works)


def filled(unit):
    """The longest document whose list holds this text, again and again."""
    head, tail = b'{"version":1,"source":{"list":[', b']},"query":[]}'
    count = (LONGEST - len(head) - len(tail) + 1) // (len(unit) + 1)
    return head + b",".join([unit] * count) + tail


EXPANDED = [["as_ordered"], ["select_many", "repeat", 65536]]


# The program as ./plinq starts it, with a limit.
WITHIN = ["env", f"PLINQ_MEMORY={1_000 * 2**20}", os.path.join(ROOT, "plinq")]


def memory():
    # (a text is nested at most 127 deep, of which the document's own objects and list take three)
    nested = b'{"":' * 124 + b"0" + b"}" * 124
    print("| document | bytes | peak | times its bytes | status | within 1,000 MB |\n|---|---|---|---|---|---|")
    nested_expansions = document({"list": [0]}, [["select_many", "repeat", 65536]] * 998 + [["take", 1]])
    run, seq = [PROGRAM, "run"], [PROGRAM, "seq"]
    limited = ["bash", "-c", 'ulimit -v 4000000; exec "$0" run', PROGRAM]
    for name, words, text in (
        ("list of objects, nested as deep as can be", run, filled(nested)),
        ('list of `{"":0}`', run, filled(b'{"":0}')),
        ("list of `[0]`", run, filled(b"[0]")),
        ("list of `0`", run, filled(b"0")),
        # (the last number is a fraction, which the reader by tokens leaves to the other one)
        ("the same with `1.5` at its end", run, filled(b"0").replace(b",0,0]", b",1.5]")),
        ("998 nested `select_many` of `repeat` 65,536, the first element taken, by `seq`", seq, nested_expansions),
        ("the same by `run`, within 4,000,000 KiB", limited, nested_expansions),
        ("one `select_many` of `repeat` 65,536 over 2,000 elements", run, document({"repeat": [7, 2_000]}, EXPANDED)),
        ("the same over 1,000,000 elements, the first 100,000,000 taken", run, document({"repeat": [7, 1_000_000]}, EXPANDED + [["take", 100_000_000]])),
        ("range of 3,000,000 in chunks of one element", run, document({"range": [0, 3_000_000]}, [["as_ordered"], ["filter", "below", 0]], growth=[1, 1, 1])),
    ):
        seen, within = Measured(words, text), Measured(WITHIN + (["run"] if words == limited else words[1:]), text)
        told = f"{within.peak:,.0f} MB, {within.status}"
        print(f"| {name} | {len(text):,} | {seen.peak:,.0f} MB | {seen.peak * 2**20 / len(text):,.0f} | {seen.status} | {told} |")


def callgrind(words, text, status=0):
    with tempfile.TemporaryDirectory() as folder, tempfile.TemporaryFile() as stdin, open(os.devnull, "wb") as stdout:
        stdin.write(text)
        stdin.flush()
        stdin.seek(0)
        out = os.path.join(folder, "out")
        tool = ["valgrind", "--tool=callgrind", f"--callgrind-out-file={out}"]
        said = subprocess.run(tool + words, stdin=stdin, stdout=stdout, stderr=subprocess.PIPE)
    assert said.returncode == status, (words, said)
    return int(re.search(rb"Collected : (\d+)", said.stderr).group(1))


SELECTS = [["select", "add", 1], ["filter", "above", -1], ["select", "mul", 1], ["filter", "above", -1],
           ["select", "add", 2], ["filter", "above", -1], ["skip", 1], ["take", 1_000_000_000]]


def totals():
    plus_one = [["as_ordered"], ["select", "add", 1]]
    print("| work | instructions |\n|---|---|")
    for name, source in (("range of 10,000,000", {"range": [0, 10_000_000]}), ("list of 2,000,000 numbers (16 MB)", {"list": numbers(2_000_000)})):
        print(f"| {name}, add 1, `--merge auto` | {callgrind([PROGRAM, 'run', '--merge', 'auto'], document(source, plus_one)) / 1e9:.2f} thousand million |")


def slope(make, words, status=0, low=10_000, high=100_000):
    return (callgrind(words, make(high), status) - callgrind(words, make(low), status)) / (high - low)


def instructions():
    print("| work | instructions an item |\n|---|---|")
    for name, make, words in (
        ("list, add 1, `--merge not`", lambda n: document({"list": numbers(n)}, [["as_ordered"], ["select", "add", 1]]), ["run", "--merge", "not"]),
        ("text, none kept", lambda n: document({"text": " ".join(map(str, numbers(n)))}, [["as_ordered"], ["filter", "below", 0]]), ["run"]),
        ("range, add 1, `--merge auto`", lambda n: document({"range": [0, n]}, [["as_ordered"], ["select", "add", 1]]), ["run", "--merge", "auto"]),
        ("range, none kept, by `seq`", lambda n: document({"range": [0, n]}, [["as_ordered"], ["filter", "below", 0]]), ["seq"]),
        ("two ranges one after the other, none kept, by `seq`", lambda n: document({"concat": [{"range": [0, n // 2]}, {"range": [n // 2, n - n // 2]}]}, [["as_ordered"], ["filter", "below", 0]], version=2), ["seq"]),
        ("range, a SkipWhile that all pass, by `seq`", lambda n: document({"range": [0, n]}, [["as_ordered"], ["skip_while", "below", 2**40]], version=2), ["seq"]),
        ("range, nine operators, none kept, by `seq`", lambda n: document({"range": [0, n]}, [["as_ordered"]] + SELECTS + [["filter", "below", 0]]), ["seq"]),
    ):
        print(f"| {name} | {slope(make, [PROGRAM] + words):.0f} |")
    printing()


def printing():
    """What printing adds for a number: what a range that is printed takes more than one that is computed and held as well, and
    of which nothing is printed, since its last number overflows."""
    plus_one = [["as_ordered"], ["select", "add", 1]]
    unprinted = slope(lambda n: document({"range": [2**63 - n, n]}, plus_one), [PROGRAM, "run", "--merge", "full"], status=4)
    for name, option in (("in a line of 16", "auto"), ("as a line of its own", "not")):
        printed = slope(lambda n: document({"range": [1_000_000, n]}, plus_one), [PROGRAM, "run", "--merge", option])
        print(f"| printing alone, a number of 7 digits {name} | {printed - unprinted:.0f} |")


def allocations_of(words, text):
    with tempfile.TemporaryFile() as stdin, open(os.devnull, "wb") as stdout:
        stdin.write(text)
        stdin.flush()
        stdin.seek(0)
        said = subprocess.run(["valgrind"] + words, stdin=stdin, stdout=stdout, stderr=subprocess.PIPE, check=True)
    return int(re.search(rb"total heap usage: ([\d,]+) allocs", said.stderr).group(1).replace(b",", b""))


def allocations():
    print("| work | 10,000 items | 100,000 items |\n|---|---|---|")
    make = lambda n: document({"range": [0, n]}, [["as_ordered"]] + SELECTS)
    counts = [allocations_of([PROGRAM, "seq"], make(n)) for n in (10_000, 100_000)]
    print(f"| range, eight operators, `seq` | {counts[0]:,} allocations | {counts[1]:,} allocations |")


if __name__ == "__main__":
    work = {it.__name__: it for it in (times, memory, instructions, totals, allocations)}
    if len(sys.argv) != 2 or sys.argv[1] not in work:
        sys.exit(__doc__)
    if sys.argv[1] in ("instructions", "totals", "allocations") and not shutil.which("valgrind"):
        sys.exit("valgrind isn't there: apt-get install valgrind")
    if "PLINQ" not in os.environ:
        subprocess.run([os.path.join(ROOT, "tools", "build")], check=True)
    work[sys.argv[1]]()
