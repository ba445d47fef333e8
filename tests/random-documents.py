#!/usr/bin/env python3
"""Runs random documents, always the same ones, and compares what is printed with a model in Python (support/model.py).

    python3 tests/random-documents.py

What `run` prints of a query that gives the order up is compared with all answers that the query may have, for which its
source is cut to few items, unless its steps look at each item alone.
"""
import itertools
import json
import random
import re

from support.batches import batches_in, in_batches
from support.model import AGGREGATES, GREATEST, LEAST, MEANINGS, MOST, applied, cancelled_after, given, is_setting, setting, status_of, through, told, wanted
from support.program import PROGRAM, Outcome, Tests, build, run

FEW = 5


def shortened(source, few=FEW):
    """A source of few items, of the same kind."""
    if "concat" in source:
        first, second = source["concat"]
        return {"concat": [shortened(first, few // 2), shortened(second, few - few // 2)]}
    if "list" in source:
        return source | {"list": source["list"][:few]}
    if "text" in source:
        return {"text": " ".join(re.findall("[^ \n]+", source["text"])[:few])}
    ((kind, (first, count)),) = source.items()
    return {kind: [first, min(count, few)]}


def gives_order_up(steps):
    return ["as_ordered"] not in steps or ["as_unordered"] in steps


def is_cut_short(source, steps):
    """Whether the answers of a query that gives the order up differ by more than the order of their items."""
    items, ending = given(source)
    keyless = all(it[0] in ("select", "filter", "select_many", "as_unordered") or is_setting(it) for it in steps)
    return not keyless or through(steps, items, ending)[1] != ending


def may_answer(source, steps):
    """The answers that a query may have which gives the order up, as far as they differ by more than that of their items."""
    items, ending = given(source)
    is_one = len(items) > FEW or ["as_ordered"] in steps
    orders = [items] if is_one else map(list, set(itertools.permutations(items)))
    return (through(steps, it, ending) for it in orders)


def may_print(source, steps, seen):
    """Whether this is printed for an answer that a query may have which gives the order up; `as_unordered` stands last."""
    came, last = batches_in(seen.output)
    came_items = sum(came, [])
    option = setting(steps, "with_merge", "auto")
    if (seen.status, seen.errors) != (status_of(last), b"") or in_batches(option, came_items, last) != came:
        return False
    is_hidden = option == "full" and last != "end"
    order_of = sorted if ["as_unordered"] in steps or len(given(source)[0]) > FEW else list
    return any(last == e and (is_hidden or order_of(came_items) == order_of(xs)) for xs, e in may_answer(source, steps))


def may_tell(source, steps, aggregate, seen):
    """Whether this is the aggregate of such an answer."""
    outputs = ((told(None, aggregate, xs, e) + [e], status_of(e)) for xs, e in may_answer(source, steps))
    return seen.errors == b"" and (seen.output.decode().splitlines(), seen.status) in outputs


def some_number(chance):
    return chance.choice([chance.randint(-9, 9), chance.randint(-9, 9), chance.randint(-200, 200), LEAST, GREATEST, LEAST + 1, GREATEST - 9])


def some_formula(chance):
    name = chance.choice([*MEANINGS, "repeat", "up_to"])
    if name in ("even", "up_to"):
        return [name]
    if name == "repeat":
        return [name, chance.choice([-1, 0, 1, 2, 3, 20, MOST + 1])]
    return [name, some_number(chance)]


def some_source(chance, version):
    """A source that documents of this version may have."""
    if version == 2 and chance.random() < 0.5:
        return {"concat": [some_source(chance, 1), some_source(chance, 1)]}
    numbers = [some_number(chance) if chance.random() < 0.3 else chance.randint(-3, 30) for _ in range(chance.choice([0, 1, 3, 8, 20, 150]))]
    kind = chance.choice(["list", "refuse", "text", "range", "repeat"])
    if kind == "list":
        return {"list": numbers}
    if kind == "refuse":
        return {"list": numbers, "refuse": chance.choice([0, 1, 7, 2**32 - 1])}
    if kind == "range":
        return {"range": [chance.choice([0, -20, GREATEST - 200, LEAST]), len(numbers)]}
    if kind == "repeat":
        return {"repeat": [some_number(chance), len(numbers)]}
    tokens = [str(it) for it in numbers]
    if tokens and chance.random() < 0.4:
        tokens[chance.randrange(len(tokens))] = chance.choice(["x", "-", "+1", "1.0", "--2", "007", "-0", "9" * 19, "1\t2", "\r"])
    return {"text": "".join(it + chance.choice([" ", "\n", "  "]) for it in tokens)}


def some_steps(chance, version):
    steps = [["as_ordered"]] if chance.random() < 0.8 else []
    for _ in range(chance.choice([0, 1, 2, 3, 5])):
        name = chance.choice(["select", "filter", "select_many", "take_while", "take", "skip"] + ["skip_while"] * (version == 2))
        steps.append([name, chance.choice([-1, 0, 1, 2, 5, 16, 40])] if name in ("take", "skip") else [name, *some_formula(chance)])
    if chance.random() < 0.1:
        steps.append(["as_unordered"])
    for name, value in (("with_merge", chance.choice(["not", "auto", "full", "default"])), ("with_degree", chance.choice([1, 2, 3, 7, 64]))):
        if chance.random() < 0.6:
            steps.insert(chance.randint(0, len(steps)), [name, value])
    return steps


def some_words(chance, steps):
    """Settings of the command line that a query doesn't have already, and the steps that they stand for."""
    words, calls = [], []
    if setting(steps, "with_degree", None) is None and chance.random() < 0.5:
        calls.append(["with_degree", chance.randint(1, 64)])
        words += ["--workers", str(calls[-1][1])]
    if setting(steps, "with_merge", None) is None and chance.random() < 0.5:
        calls.append(["with_merge", chance.choice(["not", "auto", "full", "default"])])
        words += ["--merge", calls[-1][1]]
    return words, calls


def some_stop(chance, command, in_any_order):
    """After how many lines a run is cancelled whose lines are known, if it is."""
    is_stopped = command == "run" and not in_any_order and chance.random() < 0.3
    return chance.choice([0, 1, 2, 5, 20, 150, 2**32 - 1]) if is_stopped else None


def is_too_long(source, steps):
    """Whether a model on whole lists would take too long for a document."""
    items, ending = given(source)
    for step in steps:
        if step[0] == "select_many" and sum(min(abs(it), MOST) if step[1] == "up_to" else 20 for it in items) > 20_000:
            return True
        items, ending = applied(step, items, ending)
    return False


def main():
    build()
    tests = Tests()
    chance = random.Random(5)
    seen_endings, stops = set(), set()
    while tests.passed + tests.failed < 2000:
        version = chance.choice([1, 2])
        source, steps = some_source(chance, version), some_steps(chance, version)
        if is_too_long(source, steps):
            continue
        command = chance.choice(["run", "run", "run", "seq", "plan", "parts", "history"])
        in_any_order = command == "run" and gives_order_up(steps)
        if in_any_order and is_cut_short(source, steps):
            source = shortened(source)
        document = {"version": version, "source": source, "query": steps}
        growth = chance.choice([None, [1, 1, 1], [1, 1, 4], [2, 3, 16], [1, 3, 512]])
        if growth:
            document["growth"] = growth
        aggregate = chance.choice([None, None, None, None, *AGGREGATES])
        if aggregate:
            document["aggregate"] = aggregate
        text = json.dumps(document)
        words, calls = some_words(chance, steps)
        steps = calls + steps
        stop = some_stop(chance, command, in_any_order)
        if stop is not None:
            words += ["--cancel-after", str(stop)]
        seen = run([command, *words], text.encode(), PROGRAM)
        name = f"plinq {' '.join([command, *words])} < {text}"
        if in_any_order:
            is_right = may_tell(source, steps, aggregate, seen) if aggregate else may_print(source, steps, seen)
            tests.check(name, is_right, f"no answer of the query: {seen}")
        else:
            lines, status = wanted(command, source, steps, growth or [1, 3, 512], aggregate)
            errors = b""
            if stop is not None and not aggregate:
                lines, status, errors = cancelled_after(stop, lines, status)
                stops.add(status == 5)
            right = Outcome(status, "".join(it + "\n" for it in lines).encode(), errors)
            tests.check(name, seen == right, f"wanted {right}; seen {seen}")
        if command == "run" and seen.status != 5:
            seen_endings.add((in_any_order, seen.output.decode().splitlines()[-1].rstrip("0123456789")))
    ways = {True: set(), False: set()}
    for in_any_order, it in seen_endings:
        ways[in_any_order].add(it)
    all_ways = {"end", "refused ", "fault overflow", "fault division", "fault toomany"}
    tests.check("runs in order ended in every way", ways[False] == all_ways, ways[False])
    tests.check("some runs were cancelled, and some ended before", stops == {True, False}, stops)
    # (which of several faults comes isn't said)
    tests.check("runs in any order ended well, by a refusal and by a fault", {"end", "refused ", "fault overflow"} <= ways[True], ways[True])
    tests.end()


if __name__ == "__main__":
    main()
