"""Queries with answers of thousands of lines, which threads run in many chunks, and what a program says of each."""
import contextlib
import json
import os
import signal
import subprocess
import threading

from support.batches import batches_in, in_batches
from support.model import GREATEST, cancelled_after, wanted
from support.program import HANGS, Outcome, run
from support.reading import Refused, read

ORDERED = ["as_ordered"]
NUMBERS = [3 * it % 1_009 + 1 for it in range(3_000)]
# A source and the steps. Of those that refuse or fault, all but the last few elements come before.
BY_KEY = {
    "a step": ({"range": [0, 3_000]}, [["select", "mul", 3]]),
    "all but the first": ({"range": [-9, 4_000]}, [["filter", "even"], ["skip", 300], ["take", 1_500]]),
    "an early end": ({"range": [0, 9_000]}, [["take_while", "below", 2_900], ["select", "add", -1]]),
    "expansions": ({"list": NUMBERS[:700]}, [["select_many", "repeat", 3], ["skip", 1], ["select", "add", GREATEST - 2_000]]),
    "a late refusal": ({"list": NUMBERS, "refuse": 7}, [["select", "add", 1]]),
    "a late word": ({"text": " ".join(map(str, NUMBERS)) + "\n7x 8 9"}, [["filter", "above", 2]]),
    "a late division": ({"list": [*NUMBERS, 0, 1]}, [["select", "into", 1_000_000]]),
    "a late overflow": ({"range": [GREATEST - 3_000, 3_001]}, [["select", "add", 2], ["filter", "even"]]),
    "a late expansion": ({"list": [1, 2] * 900 + [65_537, 1]}, [["select_many", "up_to"]]),
}
# Those of them that are also asked without an order: their items are the same in any.
BY_ARRIVAL = ("a step", "a late refusal", "a late word")
# A source, the steps, and the aggregate, which is the same in whatever order the items come.
AGGREGATED = {
    "a great sum": ({"repeat": [GREATEST, 4_001]}, [], "sum"),
    "a sum of expansions": ({"range": [1, 700]}, [["select_many", "up_to"]], "sum"),
    "a count": ({"range": [0, 9_000]}, [["filter", "even"]], "count"),
    "the least": ({"list": NUMBERS}, [["select", "mul", -5]], "min"),
    "a sum of some": ({"range": [0, 9_000]}, [ORDERED, ["filter", "even"], ["take", 3_000]], "sum"),
    "the greatest of some": ({"range": [0, 9_000]}, [ORDERED, ["skip", 10], ["take", 5_000]], "max"),
    "a sum with a late refusal": ({"list": NUMBERS, "refuse": 9}, [], "sum"),
    "a count with a late fault": ({"list": [*NUMBERS, 0, 1]}, [ORDERED, ["select", "into", 9]], "count"),
}
GROWTHS = {"chunks of one": [1, 1, 1], "great chunks": [64, 1, 65_536], "chunks as they come": None}
DEGREES = (1, 2, 8, 64)
MERGES = ("not", "auto", "full", "default")


def right(source, steps, merge, aggregate=None):
    """What the model in Python says."""
    lines, status = wanted("seq", source, [["with_merge", merge], *steps], None, aggregate)
    return Outcome(status, "".join(it + "\n" for it in lines).encode(), b"")


# Numbers about which a formula does something else, or its loop over a block does, and formulas with such bounds.
EDGES = [-GREATEST - 1, -GREATEST, -(2**62) - 1, -(2**62), -2, -1, 0, 1, 2**62 - 1, 2**62, GREATEST - 1, GREATEST]
FORMULAS = [
    *(["add", it] for it in (1, -GREATEST - 1, 2**62, -(2**62), 1 - 2**62)),
    *(["mul", it] for it in (-1, GREATEST)),
    *(["mod", it] for it in (0, 2, -1)),
    *(["into", it] for it in (0, -GREATEST - 1)),
    *(["below", it] for it in (0, GREATEST)),
    *(["above", it] for it in (0, -GREATEST - 1)),
    ["equal", -1],
    ["even"],
    ["repeat", 2],
    ["up_to"],
]


def edges_in_blocks(length, places):
    """Blocks of that length: the edges in turn, and twos with each edge at each of these places."""
    yield [EDGES[it % 12] for it in range(length)]
    for place in places:
        for edge in EDGES:
            yield [edge if it == place else 2 for it in range(length)]


def blocks(program):
    """The same of blocks in which a formula meets its bounds, each block a chunk; of a great block, where a loop adds."""
    for formula in FORMULAS:
        for step in ("select", "filter", "take_while"):
            for length in (16, 511) if formula[0] == "add" and step == "select" else (16,):
                places = (0, length // 2, length - 1) if step == "select" else (length // 2,)
                for at, block in enumerate(edges_in_blocks(length, places)):
                    source, steps = {"list": block}, [ORDERED, [step, *formula]]
                    text = json.dumps({"version": 1, "source": source, "query": steps, "growth": [512, 1, 512]}).encode()
                    name = f"{step} {formula}, block {at} of {length}"
                    yield name, right(source, steps, "full"), run(["run", "--workers", "1", "--merge", "full"], text, program)


# The lengths of a block and of two by which one thread asks its source, and of what is one element shorter or longer.
AROUND_BLOCKS = (0, 1, 511, 512, 513, 1_023, 1_024, 1_025)


def around_blocks(program):
    """Answers of one thread that end, refuse, fault, or have their items so far, about where a block ends."""
    for length in AROUND_BLOCKS:
        numbers = list(range(length))
        cases = {
            "an end": ({"list": numbers}, [["select", "add", 1]]),
            "a refusal": ({"list": numbers, "refuse": 7}, []),
            "a wrong word": ({"text": " ".join(map(str, numbers)) + " x"}, [["skip", 1]]),
            "a division": ({"list": [1] * length + [0, 1]}, [["select", "into", 9]]),
            "a take": ({"range": [0, 2_000]}, [["filter", "above", -1], ["take", length]]),
            "a prefix": ({"range": [0, 2_000]}, [["take_while", "below", length]]),
            "a skip": ({"range": [0, length + 3]}, [["skip", length]]),
        }
        for name, (source, steps) in cases.items():
            for merge in ("not", "auto", "full"):
                text = document(source, [ORDERED, *steps])
                yield f"{name} after {length}: seq --merge {merge}", right(source, [ORDERED, *steps], merge), run([*SEQ, "--merge", merge], text, program)


def in_any_order(outcome, merge):
    """An outcome without the order of its items: with these sorted, and whether they came in the batches of this merge option."""
    batches, last = batches_in(outcome.output)
    items = sum(batches, [])
    is_cut_so = in_batches(merge, items, last) == batches
    return Outcome(outcome.status, f"{sorted(items)} {last} {is_cut_so}", outcome.errors)


def all_growths(source, steps, **more):
    for growth, sizes in GROWTHS.items():
        grows = {"growth": sizes} if sizes else {}
        yield growth, json.dumps({"version": 1, "source": source, "query": steps, **grows, **more}).encode()


SEQ = ["seq"]
RUNS = [["run", "--workers", str(it)] for it in DEGREES]


def answers(program):
    """The name of each run, what it is to say, and what the program says."""
    for merge in MERGES:
        for name, (source, steps) in BY_KEY.items():
            says = right(source, [ORDERED, *steps], merge)
            for growth, text in all_growths(source, [ORDERED, *steps]):
                for words in (SEQ, *RUNS):
                    yield f"{name}, {growth}: {' '.join(words)} --merge {merge}", says, run([*words, "--merge", merge], text, program)
        for name in BY_ARRIVAL:
            source, steps = BY_KEY[name]
            says = in_any_order(right(source, steps, merge), merge)
            for growth, text in all_growths(source, steps):
                for words in RUNS:
                    seen = in_any_order(run([*words, "--merge", merge], text, program), merge)
                    yield f"{name} in any order, {growth}: {' '.join(words)} --merge {merge}", says, seen


def aggregates(program):
    """The same of aggregates."""
    for name, (source, steps, aggregate) in AGGREGATED.items():
        says = right(source, steps, "auto", aggregate)
        for growth, text in all_growths(source, steps, aggregate=aggregate):
            for words in (SEQ, *RUNS):
                yield f"{name}, {growth}: {' '.join(words)}", says, run(words, text, program)


# ---- longer ones, by few runs each

NOT, FULL = "not", "full"
LONG = {
    "a full line": ({"range": [7, 100_000]}, [["select", "mul", 3]], FULL),
    "two sources": ({"concat": [{"range": [0, 2_500]}, {"list": NUMBERS[:2_000]}]}, [["select", "add", 5]], NOT),
    "two sources, of which the second refuses": ({"concat": [{"list": NUMBERS}, {"list": NUMBERS[:900], "refuse": 3}]}, [], NOT),
    "all but those at first": ({"list": [1] * 700 + NUMBERS}, [["skip_while", "below", 2], ["select", "add", 1]], NOT),
    "a fault after 200 KB": ({"list": [*range(1, 40_001), 0, 5]}, [["select", "into", 10**12]], NOT),
    "a refusal after 200 KB": ({"list": list(range(40_000)), "refuse": 8}, [["select", "add", 10**6]], "auto"),
    "a refusal with a long code": ({"list": NUMBERS, "refuse": 4_123_456_789}, [["select", "add", 1]], NOT),
    "a long text": ({"text": " ".join(map(str, range(6_000)))}, [["select", "add", 1]], NOT),
    "a take of copies": ({"list": NUMBERS}, [["select_many", "repeat", 3], ["take", 4_000]], NOT),
    "copies of copies": ({"list": NUMBERS}, [["select_many", "repeat", 2], ["select_many", "repeat", 2]], NOT),
    "as many copies as there may be": ({"list": [7, 8]}, [["select_many", "repeat", 65_536], ["skip", 65_500]], FULL),
    "a skip of what a filter leaves": ({"range": [0, 7_000]}, [["filter", "even"], ["skip", 500]], NOT),
    "a take of 2^32 and more": ({"range": [0, 3_000]}, [["take", 2**32 + 5], ["take", 2**33]], NOT),
    "a skip of 2^32 and more": ({"range": [0, 3_000]}, [["skip", 2**32 + 5]], NOT),
    "numbers below and above zero": ({"range": [-3_000, 6_000]}, [["select", "add", 1]], NOT),
    "those before one that fails": ({"range": [0, 5_000]}, [["take_while", "below", 3_000]], NOT),
}


def document(source, steps, **more):
    return json.dumps({"version": 2, "source": source, "query": steps, **more}).encode()


def outcome_of(lines, status, errors=b""):
    return Outcome(status, "".join(it + "\n" for it in lines).encode(), errors)


def long_answers(program):
    """Long answers by a few workers."""
    for name, (source, steps, merge) in LONG.items():
        says = outcome_of(*wanted("seq", source, [["with_merge", merge], *steps], None, None))
        text = document(source, [ORDERED, *steps])
        for words in (SEQ, ["run", "--workers", "2"], ["run", "--workers", "8"]):
            yield f"{name}: {' '.join(words)}", says, run([*words, "--merge", merge], text, program)
    # (without an order more items than the workers' first chunks have)
    source, steps = {"range": [0, 9_000]}, [["select", "mul", 3]]
    says = in_any_order(outcome_of(*wanted("seq", source, [["with_merge", NOT], *steps], None, None)), NOT)
    for workers in ("2", "64"):
        seen = run(["run", "--workers", workers, "--merge", NOT], document(source, steps), program)
        yield f"in any order by {workers}", says, in_any_order(seen, NOT)


def each_worker_count(program):
    """One answer and its values by each number of workers, asked for by words and by the document, and by growths of each kind."""
    source, steps = {"range": [0, 700]}, [["filter", "even"], ["skip", 3]]
    says = outcome_of(*wanted("seq", source, [["with_merge", NOT], *steps], None, None))
    values = {it: outcome_of(*wanted("seq", source, steps, None, it)) for it in ("count", "sum", "min", "max")}
    growths = ([1, 1, 1], [1, 3, 512], [2, 3, 16], [7, 5, 100], [1, 1, 65_536], [300, 2, 301], [3, 1, 3], [2, 1_000, 64], [1, 2_000, 512])
    for workers in range(1, 65):
        for growth in (growths[workers % len(growths)], growths[(workers + 3) % len(growths)]):
            text = document(source, [ORDERED, *steps], growth=growth)
            yield f"by {workers} workers, growth {growth}", says, run(["run", "--workers", str(workers), "--merge", NOT], text, program)
        text = document(source, [["with_degree", workers], ORDERED, *steps])
        yield f"by {workers} workers of the document", says, run(["run", "--merge", NOT], text, program)
        for aggregate, value in values.items():
            text = document(source, [ORDERED, *steps], aggregate=aggregate)
            yield f"a {aggregate} by {workers} workers", value, run(["run", "--workers", str(workers)], text, program)


def long_plans(program):
    """Plans of many operators, those of the workers and those after the merge."""
    some = [["select", "add", 1], ["take_while", "below", 90], ["take", 70], ["filter", "even"], ["select_many", "repeat", 2]]
    for count in (9, 40, 120):
        steps = [some[it % (3 if it < count // 2 else 5)] for it in range(count)]
        for before in ([ORDERED], []):
            lines, status = wanted("plan", {"range": [0, 9]}, [*before, *steps], None, None)
            name = f"plan of {count}{' by key' if before else ''}"
            yield name, outcome_of(lines, status), run(["plan"], document({"range": [0, 9]}, [*before, *steps]), program)


# What stands behind 2,000 numbers of a list or a text, and what comes after the list.
LAST_OF_A_LIST = ("1", "-1", "1.0", "1e5", "-0", "0", str(2**63 - 1), str(2**63), str(-(2**63)), str(-(2**63) - 1), "1,", "", "01", "+1", "[1]", '"1"', "null", "1 2")
LAST_OF_A_TEXT = ("1", "1\\r\\n2", "1\\n2", "1\\u00202", "1\\t2", "1\\u0000", "-", "--1", "00012", str(2**63), str(-(2**63)), "1.0", "\\ud83d\\ude00", "\\ud83d", "1\r\n2", "1\n2")
ENDS = ("}", "", "}}", "}\r\n", "} 1", ',"growth":[2,3,16]}', ',"growth":[0,3,16]}', ',"version":1}', ",}")


def outcome_of_document(text):
    """What the model says of a document, or of what is wrong with it."""
    try:
        asked = read(text)
    except Refused as why:
        return Outcome(2, b"", f"plinq: document: {why}\n".encode())
    return outcome_of(*wanted("seq", asked["source"], asked["query"], asked["growth"], asked.get("aggregate")))


def long_documents(program):
    """Documents of more than 8,000 bytes that are right or wrong in one place near their end."""
    numbers = [str(it) for it in range(1_000, 3_000)]
    lists = ((f'{{"list":[{",".join([*numbers, last])}]}}', "}", last) for last in LAST_OF_A_LIST)
    texts = ((f'{{"text":"{" ".join([*numbers, last])}"}}', "}", last) for last in LAST_OF_A_TEXT)
    ends = ((f'{{"list":[{",".join(numbers)}]}}', end, end) for end in ENDS)
    for source, end, name in (*lists, *texts, *ends):
        for version, steps in (("1", '[["as_ordered"],["skip",1990]]'), ("2", "[]")):
            text = f'{{"version":{version},"query":{steps},"source":{source}{end}'.encode()
            says = outcome_of_document(text)
            for words in (SEQ, ["run", "--workers", "3"]) if version == "1" else (SEQ,):
                yield f"behind 2,000 numbers {name!r}: {' '.join(words)}, version {version}", says, run(words, text, program)


def first_lines(program, patience=HANGS):
    """The first lines of an answer whose end is hours away."""
    text = document({"range": [0, 2**40]}, [ORDERED, ["filter", "below", 3]])
    says = b"0\n1\n2\n"
    for words in (SEQ, ["run", "--workers", "2"]):
        with subprocess.Popen([program, *words, "--merge", NOT], stdin=subprocess.PIPE, stdout=subprocess.PIPE, start_new_session=True) as started:
            given_up = threading.Timer(patience, os.killpg, (started.pid, signal.SIGKILL))
            given_up.start()
            started.stdin.write(text)
            started.stdin.close()
            seen = b"".join(started.stdout.readline() for _ in range(3))
            given_up.cancel()
            with contextlib.suppress(ProcessLookupError):
                os.killpg(started.pid, signal.SIGKILL)
        yield f"first lines: {' '.join(words)}", says, seen


def long_histories(program):
    """The requests of up to 64 partitions that take in turn."""
    for workers in (3, 17, 64):
        for growth in ([1, 1, 1], [1, 3, 512], [5, 2, 40]):
            source = {"list": NUMBERS[:400], "refuse": 6}
            says = outcome_of(*wanted("history", source, [["with_degree", workers]], growth, None))
            yield f"history of {workers}, growth {growth}", says, run(["history", "--workers", str(workers)], document(source, [], growth=growth), program)


def cancelled_runs(program):
    """Runs that stop after so many lines, in order: before the end, at it and after it, of an answer that ends in each way."""
    for name in ("a step", "a late refusal", "a late division", "a late overflow"):
        source, steps = BY_KEY[name]
        for merge in (NOT, "auto"):
            lines, status = wanted("seq", source, [["with_merge", merge], *steps], None, None)
            batches = len(lines) - 1
            for n in (0, 1, 5, 60, batches - 1, batches, batches + 1):
                words = ["run", "--workers", "3", "--merge", merge, "--cancel-after", str(n)]
                yield f"{name}: {' '.join(words)}", outcome_of(*cancelled_after(n, lines, status)), run(words, document(source, [ORDERED, *steps]), program)
