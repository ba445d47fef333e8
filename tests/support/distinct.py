"""Queries without an order over items that all differ, so that an answer tells which arrangement of them was taken."""
import json

from support.batches import batches_in, in_batches
from support.model import GREATEST
from support.program import run

COUNT = 900
LIMIT = 300
STEP = 1_000
ITEMS = [STEP * it for it in range(COUNT)]
SOURCE, AS_ITEMS = {"range": [0, COUNT]}, [["select", "mul", STEP]]
WORKERS = ("1", "2", "8", "64")
MERGES = ("not", "auto", "full")


def are_some(items, of):
    """Whether items are some of those, each once."""
    return len(set(items)) == len(items) and set(items) <= of


def some(n, items, last):
    return len(items) == n and are_some(items, set(ITEMS)) and last == "end"


def before_one_fails(items, last):
    """TakeWhile below a limit: those before the first that isn't below it."""
    return are_some(items, set(ITEMS[:LIMIT])) and last == "end"


def from_one_that_fails(items, last):
    """SkipWhile below a limit: one that isn't below it comes first, and all of those come."""
    return items[:1] and items[0] >= STEP * LIMIT and are_some(items, set(ITEMS)) and set(ITEMS[LIMIT:]) <= set(items) and last == "end"


def before_a_fault(items, last):
    """The last item of this source overflows."""
    return are_some(items, set(range(GREATEST - COUNT + 1, GREATEST + 1))) and last == "fault overflow"


# A source, the steps, and what its answer is to be.
ANSWERS = {
    "take": (SOURCE, [*AS_ITEMS, ["take", 250]], lambda items, last: some(250, items, last)),
    "skip": (SOURCE, [*AS_ITEMS, ["skip", 250]], lambda items, last: some(COUNT - 250, items, last)),
    "take_while": (SOURCE, [*AS_ITEMS, ["take_while", "below", STEP * LIMIT]], before_one_fails),
    "skip_while": (SOURCE, [*AS_ITEMS, ["skip_while", "below", STEP * LIMIT]], from_one_that_fails),
    "a fault": ({"range": [GREATEST - COUNT, COUNT + 1]}, [["select", "add", 1]], before_a_fault),
}
# An aggregate, the steps before it, and what its value is to be. (All items are multiples of STEP.)
VALUES = {
    "a count of some": ("count", [*AS_ITEMS, ["take", 250]], lambda value: value == 250),
    "a count of the rest": ("count", [*AS_ITEMS, ["skip", 250]], lambda value: value == COUNT - 250),
    "a sum of some": ("sum", [*AS_ITEMS, ["take", 250]], lambda value: value % STEP == 0 and sum(ITEMS[:250]) <= value <= sum(ITEMS[-250:])),
    "a sum of the rest": ("sum", [*AS_ITEMS, ["skip", 250]], lambda value: value % STEP == 0 and sum(ITEMS[:-250]) <= value <= sum(ITEMS[250:])),
    "a sum while below": ("sum", [*AS_ITEMS, ["take_while", "below", STEP * LIMIT]], lambda value: value % STEP == 0 and 0 <= value <= sum(ITEMS[:LIMIT])),
    "a count from one on": ("count", [*AS_ITEMS, ["skip_while", "below", STEP * LIMIT]], lambda value: COUNT - LIMIT <= value <= COUNT),
}
STATUS = {"end": 0, "fault overflow": 4}


def is_answer(seen, merge, is_right):
    """Whether this was printed for such an answer, in the batches of this merge option."""
    try:
        batches, last = batches_in(seen.output)
    except ValueError:
        return False
    items = sum(batches, [])
    if merge == "full" and last != "end":
        return (seen.status, seen.errors, items) == (4, b"", [])
    return bool(is_right(items, last)) and in_batches(merge, items, last) == batches and (seen.status, seen.errors) == (STATUS.get(last), b"")


def is_value(seen, is_right):
    lines = seen.output.decode().splitlines()
    return len(lines) == 2 and lines[1] == "end" and lines[0].isdigit() and is_right(int(lines[0])) and (seen.status, seen.errors) == (0, b"")


def is_cancelled(seen, n, items):
    """Whether this is so many lines of one item, each of these and each once."""
    lines = seen.output.decode().splitlines()
    return len(lines) == n and are_some([int(it) for it in lines if it.isdigit()], set(items)) and all(map(str.isdigit, lines)) and (seen.status, seen.errors) == (5, b"plinq: cancelled\n")


def document(source, steps, **more):
    return json.dumps({"version": 2, "source": source, "query": steps, **more}).encode()


def answers(program):
    """The name of each run, that it is to be right, and whether it is."""
    for name, (source, steps, is_right) in ANSWERS.items():
        for workers in WORKERS:
            for merge in MERGES:
                seen = run(["run", "--workers", workers, "--merge", merge], document(source, steps), program)
                yield f"{name} in any order: --workers {workers} --merge {merge}: {seen}", True, is_answer(seen, merge, is_right)


def values(program):
    for name, (aggregate, steps, is_right) in VALUES.items():
        for workers in WORKERS:
            seen = run(["run", "--workers", workers], document(SOURCE, steps, aggregate=aggregate), program)
            yield f"{name} in any order: --workers {workers}: {seen}", True, is_value(seen, is_right)


def cancelled_runs(program):
    """Runs that stop after so many lines."""
    for workers in WORKERS:
        for n in (0, 5, 60, COUNT - 1, COUNT):
            words = ["run", "--workers", workers, "--merge", "not", "--cancel-after", str(n)]
            seen = run(words, document(SOURCE, AS_ITEMS), program)
            yield f"in any order: {' '.join(words)}: {seen}", True, is_cancelled(seen, n, ITEMS)
