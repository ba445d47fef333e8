#!/usr/bin/env python3
"""Programs that lie, each in one thing, stand in the place of the program, and one of the runs of the other tests has to show each.

    python3 tests/lies.py

A liar runs the program, and changes what it says where the lie applies, or the document before the program reads it.
"""
import json
import os
import re
import subprocess
import sys
import tempfile

from itertools import islice

from support import distinct, large
from support.program import PROGRAM, Tests, build


class Told:
    """A run that a liar looks at: its words, its document and what was right to print."""

    def __init__(self, words, given, output):
        self.words, self.output = words, output
        self.document = json.loads(given) if given[:1] == b"{" else {}
        self.lines = output.splitlines(keepends=True)
        self.steps = self.document.get("query", [])
        self.is_run = words[:1] == ["run"]
        self.is_ordered = ["as_ordered"] in self.steps

    def has(self, name):
        return any(step[0] == name for step in self.steps)

    def option(self, name):
        return int(self.words[self.words.index(name) + 1]) if name in self.words else None


def swapped_lines(told):
    at = told.lines
    return b"".join([*at[:40], at[41], at[40], *at[42:]]) if len(at) > 42 else told.output


def swapped_in_a_line(told):
    """Two items of a line that stand behind its byte 20,000."""
    line, *rest = told.lines
    if len(line) < 30_000:
        return told.output
    items = line[20_000:].split(b" ")
    items[1], items[2] = items[2], items[1]
    return b"".join([line[:20_000] + b" ".join(items), *rest])


def swapped_in_a_batch(told):
    """The first two items of a line of 16."""
    line, *rest = told.lines
    first, second, *items = line.split(b" ")
    return b"".join([b" ".join([second, first, *items]), *rest])


def joined_lines(told):
    """Two lines as one."""
    return told.output.replace(b"\n", b" ", 1) if len(told.lines) > 2 else told.output


def without_the_last_batch(told):
    growth = told.document.get("growth")
    return told.output if not growth or growth[0] == 1 else b"".join([*told.lines[:-2], told.lines[-1]])


def ended_well(least):
    return lambda told: b"".join([*told.lines[:-1], b"end\n"]) if len(told.output) > least else told.output


def value_less_one(told):
    """One less, where the first of two lines is a number."""
    is_value = len(told.lines) == 2 and told.lines[0].strip().isdigit()
    return b"".join([b"%d\n" % (int(told.lines[0]) - 1), told.lines[1]]) if is_value else told.output


def great_value_less_one(told):
    return value_less_one(told) if told.lines[0].strip().isdigit() and int(told.lines[0]) > 2**64 else told.output


def where(applies, change):
    return lambda told: change(told) if applies(told) else told.output


def without_line(at):
    return lambda told: b"".join(it for n, it in enumerate(told.lines) if n != at % len(told.lines)) if len(told.lines) > 20 else told.output


def with_twice(at):
    return lambda told: b"".join(it * (1 + (n == at)) for n, it in enumerate(told.lines)) if len(told.lines) > 20 else told.output


def first_in_place_of_another(told):
    """The first line again in the place of the 20th."""
    return b"".join([*told.lines[:20], told.lines[0], *told.lines[21:]]) if len(told.lines) > 30 else told.output


def by_arrival(name):
    return lambda told: told.is_run and not told.is_ordered and told.has(name)


def cut_after_more_than_4(told):
    return (told.option("--cancel-after") or 0) > 4 and len(told.lines) > 4


def value_after(name):
    return lambda told: by_arrival(name)(told) and "aggregate" in told.document


def aggregate_is(name):
    return lambda told: told.document.get("aggregate") == name


def source_is(name):
    return lambda told: name in told.document.get("source", {})


def steps_one_after_the_other(name):
    return lambda told: any(one[0] == two[0] == name for one, two in zip(told.steps, told.steps[1:]))


def with_number(name, least, most=float("inf")):
    return lambda told: any(step[0] == name and least <= step[-1] <= most for step in told.steps if type(step[-1]) is int)


def having(name):
    return lambda told: told.has(name)


def many_lines(least):
    return lambda told: len(told.lines) > least


def all_of(*applies):
    return lambda told: all(it(told) for it in applies)


def without_an_operator(told):
    """A plan of more than 300 bytes, without one of the workers' operators."""
    return re.sub(rb"(worker .*?), [^,]+,", rb"\1,", told.output, count=1) if told.words[:1] == ["plan"] and len(told.output) > 300 else told.output


def another_copy(told):
    """A copy of the item behind it in the place of the third copy."""
    return b"".join([*told.lines[:2], told.lines[3], *told.lines[3:]]) if len(told.lines) > 300 else told.output


def modulo_2_to_32(told):
    """What steps of 2^32 and more say if their number is cut to 32 bits: nothing is taken, or not all is skipped."""
    return told.lines[-1] if told.has("take") else b"0\n" + told.output


def cut_code(told):
    """A refusal's code of ten digits without the last."""
    return re.sub(rb"(refused \d{9})\d\n$", rb"\1\n", told.output)


def has_degree(*degrees):
    return lambda told: any(step[0] == "with_degree" and step[1] in degrees for step in told.steps)


def repeats_1_000(told):
    return bool(told.document.get("growth")) and told.document["growth"][1] >= 1_000


# The lies: what each makes of the right output, and the runs that are to show it.
WRONG = {
    "swaps lines 41 and 42": (swapped_lines, large.answers),
    "swaps two items far into a line": (swapped_in_a_line, large.long_answers),
    "swaps two items of a line of 16": (where(lambda told: told.is_ordered and told.lines[0].count(b" ") == 15, swapped_in_a_batch), large.answers),
    "writes two lines as one": (joined_lines, large.answers),
    "leaves the ending out": (lambda told: b"".join(told.lines[:-1]), large.answers),
    "writes an empty line before the ending": (lambda told: b"".join([*told.lines[:-1], b"\n", told.lines[-1]]), large.answers),
    "gives nothing where all is one line": (where(lambda told: told.is_run and len(told.lines) == 2, lambda told: told.lines[-1]), large.answers),
    "says another code of a refusal": (lambda told: told.output.replace(b"refused 7", b"refused 8"), large.answers),
    "says that there is no value": (where(lambda told: "aggregate" in told.document, lambda told: b"none\n" + told.lines[-1]), large.aggregates),
    "loses the last batch where the first chunk has more than one element": (without_the_last_batch, large.answers),
    "says that an answer of more than 4,096 bytes ended well": (ended_well(4_096), large.answers),
    "says that an answer of more than 64 KiB ended well": (ended_well(65_536), large.long_answers),
    "is one too small in a great sum": (great_value_less_one, large.aggregates),
    "loses an item of two sources": (where(lambda told: "concat" in told.document.get("source", {}), without_line(900)), large.long_answers),
    "gives an item of two sources twice": (where(lambda told: "concat" in told.document.get("source", {}), with_twice(2_600)), large.long_answers),
    "loses an item after a skip_while": (where(lambda told: told.has("skip_while") and told.is_ordered, without_line(100)), large.long_answers),
    "loses a line with 11 workers": (where(lambda told: told.option("--workers") == 11, without_line(-2)), large.each_worker_count),
    "loses a line with 63 workers": (where(lambda told: told.option("--workers") == 63, without_line(5)), large.each_worker_count),
    "loses a line where chunks grow to 100": (where(lambda told: told.document.get("growth") == [7, 5, 100], without_line(9)), large.each_worker_count),
    "swaps lines where chunks grow from 300": (where(lambda told: told.document.get("growth") == [300, 2, 301], swapped_lines), large.each_worker_count),
    "loses a request behind 100 of 64": (where(lambda told: told.words[:1] == ["history"] and len(told.lines) > 100, without_line(101)), large.long_histories),
    "swaps requests of 17": (where(lambda told: told.words[:1] == ["history"] and told.option("--workers") == 17, swapped_lines), large.long_histories),
    "writes a line too many when it is cancelled after more than 4": (where(cut_after_more_than_4, lambda told: told.output + told.lines[-1]), large.cancelled_runs),
    "loses a line when it is cancelled after more than 4": (where(cut_after_more_than_4, lambda told: b"".join(told.lines[:-1])), large.cancelled_runs),
    "loses the line before a fault that comes before it is cancelled": (where(lambda told: told.option("--cancel-after") and told.lines[-1][:5] == b"fault", without_line(-2)), large.cancelled_runs),
    "writes a line too many when it is cancelled without an order": (where(cut_after_more_than_4, lambda told: told.output + told.lines[-1]), distinct.cancelled_runs),
    "loses a line when it is cancelled without an order": (where(cut_after_more_than_4, lambda told: b"".join(told.lines[:-1])), distinct.cancelled_runs),
    "gives a line twice when it is cancelled without an order": (where(cut_after_more_than_4, lambda told: b"".join([told.lines[1], *told.lines[1:]])), distinct.cancelled_runs),
    "takes one too few without an order": (where(by_arrival("take"), without_line(50)), distinct.answers),
    "takes an item twice without an order": (where(by_arrival("take"), first_in_place_of_another), distinct.answers),
    "skips one too many without an order": (where(by_arrival("skip"), without_line(50)), distinct.answers),
    "gives an item twice after a skip without an order": (where(by_arrival("skip"), first_in_place_of_another), distinct.answers),
    "gives an item twice before one that fails": (where(by_arrival("take_while"), first_in_place_of_another), distinct.answers),
    "skips one that fails without an order": (where(by_arrival("skip_while"), without_line(-2)), distinct.answers),
    "gives an item twice after one that fails": (where(by_arrival("skip_while"), first_in_place_of_another), distinct.answers),
    "counts one too few after a take": (where(value_after("take"), value_less_one), distinct.values),
    "counts one too few after a skip": (where(value_after("skip"), value_less_one), distinct.values),
    "sums one too little before one that fails": (where(value_after("take_while"), value_less_one), distinct.values),
    "says that a fault without an order is the end": (where(lambda told: told.is_run and not told.is_ordered and told.lines[-1][:5] == b"fault", lambda told: b"".join([*told.lines[:-1], b"end\n"])), distinct.answers),
    "gives an item twice before a fault": (where(lambda told: told.is_run and not told.is_ordered and told.lines[-1][:5] == b"fault", first_in_place_of_another), distinct.answers),
}
WRONG |= {
    "loses a line of a long text": (where(all_of(source_is("text"), many_lines(4_000)), without_line(3_000)), large.long_answers),
    "loses an operator of a plan of more than 300 bytes": (without_an_operator, large.long_plans),
    "gives a copy of another item in a take of copies": (where(all_of(with_number("select_many", 2), having("take")), another_copy), large.long_answers),
    "loses a copy of copies": (where(all_of(steps_one_after_the_other("select_many"), many_lines(300)), without_line(310)), large.long_answers),
    "skips one too many of what a filter leaves": (where(all_of(having("filter"), having("skip"), many_lines(2_000)), without_line(0)), large.long_answers),
    "takes a number of 2^32 and more modulo 2^32": (where(with_number("take", 2**32), modulo_2_to_32), large.long_answers),
    "skips a number of 2^32 and more modulo 2^32": (where(with_number("skip", 2**32), modulo_2_to_32), large.long_answers),
    "drops items below zero of a long answer": (where(many_lines(1_000), lambda told: b"".join(it for it in told.lines if it[:1] != b"-")), large.long_answers),
    "gives the item that ends a long take_while": (where(all_of(having("take_while"), many_lines(1_000)), lambda told: b"".join([*told.lines[:-1], b"3000\n", told.lines[-1]])), large.long_answers),
    "cuts a code of ten digits": (cut_code, large.long_answers),
    "counts one too few by 5 workers": (where(lambda told: told.option("--workers") == 5, value_less_one), large.each_worker_count),
    "gives a least that is one too small by 3 workers": (where(all_of(aggregate_is("min"), lambda told: told.option("--workers") == 3), value_less_one), large.each_worker_count),
    "loses a line by 48 workers of the document": (where(has_degree(33, 48, 63), without_line(7)), large.each_worker_count),
    "loses a copy of as many as there may be": (where(all_of(with_number("select_many", 65_536)), lambda told: told.output.replace(b"7 8", b"8", 1)), large.long_answers),
    "loses a line where each size of chunks is repeated 1,000 times": (where(repeats_1_000, without_line(3)), large.each_worker_count),
    "loses an item without an order by 64 workers": (where(lambda told: not told.is_ordered and told.option("--workers") == 64 and len(told.lines) > 3_000, without_line(3_500)), large.long_answers),
}
# The lies about a long document: what each makes of its bytes before the program reads them.
MISREAD = {
    "reads a point and a zero as a whole number": lambda text: text.replace(b"1.0]", b"1]"),
    "reads an exponent as a whole number": lambda text: text.replace(b"1e5]", b"100000]"),
    "reads minus zero as a whole number": lambda text: text.replace(b"-0]", b"0]"),
    "reads 2^63 as a whole number": lambda text: text.replace(b"%d]" % 2**63, b"%d]" % (2**63 - 1)),
    "reads a comma before the end of a list": lambda text: text.replace(b",]", b"]"),
    "reads a document without its last brace": lambda text: text if text.rstrip().endswith(b"}}") else text + b"}",
    "reads an escaped carriage return as no part of a number": lambda text: text.replace(rb"\r", b""),
    "reads an escaped space as another letter": lambda text: text.replace(rb"\u0020", b"x"),
    "reads a sign before a number": lambda text: text.replace(b"+", b""),
    "reads zeros before a number of a list": lambda text: text.replace(b",01]", b",1]"),
    "reads two documents as one": lambda text: re.sub(rb"\} 1$", b"}", text),
    "reads no growth behind a long list": lambda text: re.sub(rb',"growth":\[0.*?\]', b"", text),
    "reads a line feed within a text": lambda text: re.sub(rb'\r?\n(?=.*"\})', b" ", text),
}
# A liar that says nothing before its answer is whole.
HELD_BACK = "holds back all lines to the end"
RIGHT = "lies in nothing"


def first_lines_soon(program):
    """The same as a test that waits longer, for a liar that shows them hours later."""
    return large.first_lines(program, patience=20)


def lie(name, words):
    """Runs the program, and passes on what it says, all but one lie."""
    given = sys.stdin.buffer.read()
    if name in MISREAD and len(given) > 8_000:
        given = MISREAD[name](given)
    ran = subprocess.run([PROGRAM, *words], input=given, stdout=subprocess.PIPE)
    sys.stdout.buffer.write(WRONG[name][0](Told(words, given, ran.stdout)) if name in WRONG and ran.stdout else ran.stdout)
    return ran.returncode


def liar(folder, name):
    """A program that tells this lie."""
    path = os.path.join(folder, re.sub(r"\W", "-", name))
    with open(path, "w") as file:
        file.write(f'#!/bin/sh\nexec "{sys.executable}" -S "{os.path.abspath(__file__)}" --lie "{name}" "$@"\n')
    os.chmod(path, 0o755)
    return path


def main():
    build()
    tests = Tests()
    with tempfile.TemporaryDirectory() as folder:
        misread = dict.fromkeys(MISREAD, (None, large.long_documents))
        for name, (_, runs) in {**WRONG, **misread, HELD_BACK: (None, first_lines_soon)}.items():
            is_shown = any(seen != right for _, right, seen in runs(liar(folder, name)))
            tests.check(f"a program that {name}", is_shown, "not shown")
        # (so that each was shown for its lie, and not as one that doesn't run)
        for runs in {large.long_documents, *(runs for _, runs in WRONG.values())}:
            some = list(islice(runs(liar(folder, RIGHT)), 20))
            tests.check(f"a program that {RIGHT}", some and all(seen == right for _, right, seen in some), "shown as one that lies")
    tests.end()


if __name__ == "__main__":
    if sys.argv[1:2] == ["--lie"]:
        sys.exit(lie(sys.argv[2], sys.argv[3:]))
    main()
