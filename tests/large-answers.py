#!/usr/bin/env python3
"""Answers of thousands of lines, by one thread and by several, beside the model in Python.

    python3 tests/large-answers.py

Where the order is given up, the items all differ, so that the answer shows which arrangement of them was taken. That programs
which lie in such answers are found out is tested by lies.py.
"""
from itertools import chain

from support import distinct, large
from support.program import PROGRAM, Tests, build

RUNS = (
    large.answers,
    large.aggregates,
    large.long_answers,
    large.blocks,
    large.around_blocks,
    large.each_worker_count,
    large.long_plans,
    large.long_documents,
    large.first_lines,
    large.long_histories,
    large.cancelled_runs,
    distinct.answers,
    distinct.values,
    distinct.cancelled_runs,
)


def main():
    build()
    tests = Tests()
    for name, right, seen in chain.from_iterable(runs(PROGRAM) for runs in RUNS):
        tests.check(name, seen == right, f"wanted {right}; seen {seen}")
    tests.end()


if __name__ == "__main__":
    main()
