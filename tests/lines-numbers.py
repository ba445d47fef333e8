#!/usr/bin/env python3
"""`plinq lines` with numbers, beside a plain model that reads a line at a time: comparisons, sums and their like, and the line that
has no number.

    python3 tests/lines-numbers.py

Random texts and queries by 1, 2, 4 and 64 workers and through a pipe that is written in pieces, with and without a line that has no
number where one is wanted, before and after the lines that a query needs.
"""
import os
import random
import re
import subprocess
import tempfile
import threading

from lines import WORKERS, fields_of, lines_of, words_of_field, words_of_numbers
from support.program import HANGS, PLINQ, Outcome, Tests, build, run, run_on_file

UNIT = 10**9
ORDERS = {
    "<": lambda a, b: a < b,
    "<=": lambda a, b: a <= b,
    ">": lambda a, b: a > b,
    ">=": lambda a, b: a >= b,
    "=": lambda a, b: a == b,
    "==": lambda a, b: a == b,
    "!=": lambda a, b: a != b,
    "below": lambda a, b: a < b,
    "above": lambda a, b: a > b,
    "equal": lambda a, b: a == b,
}
GOOD = (b"0", b"1", b"2", b"7", b"-3", b"2.5", b"007", b"+4", b".5", b"5.", b"-0.000000001", b"0.1", b"18446744073709551615", b"2\r", b"\t4", b"-18446744073709551615.999999999")
BAD = (b"x", b"- 1", b"-", b"1e3", b"1.2.3", b"0.0000000001", b"18446744073709551616", b"+-1", b"1,5", b"NaN", b"")


class Bad(Exception):
    """A line has no number."""


def number_of(text):
    """How many billionths a number is, or nothing."""
    parts = re.fullmatch(rb"([+-]?)([0-9]*)(?:\.([0-9]{0,9}))?", text.strip(b" \t\r"))
    if not parts or not (parts[2] or parts[3]) or int(parts[2] or b"0") >= 2**64:
        return None
    size = int(parts[2] or b"0") * UNIT + int((parts[3] or b"").ljust(9, b"0"))
    return -size if parts[1] == b"-" else size


def text_of(number):
    sign, size = b"-" if number < 0 else b"", abs(number)
    fraction = b"%09d" % (size % UNIT)
    return sign + b"%d" % (size // UNIT) + (b"." + fraction.rstrip(b"0") if size % UNIT else b"")


def wanted_number(text):
    number = number_of(text)
    if number is None:
        raise Bad()
    return number


class Answer:
    """Takes a line at a time, as the sequential query does."""

    def __init__(self, steps):
        self.steps = steps
        self.left = [values[0] if name in ("take", "skip") else True for name, *values in steps]
        self.output = []

    def is_over(self):
        return any(step[0] in ("take", "take_while") and not left for step, left in zip(self.steps, self.left))

    def come(self, text):
        for at, (name, *values) in enumerate(self.steps):
            if name in ("filter", "take_while"):
                field, negated, kind, wanted = values
                looked_at = fields_of(text, [field[0]], field[1]) if field else text
                if kind == "is_number":
                    passes = number_of(looked_at) is not None
                elif kind.startswith("length "):
                    passes = ORDERS[kind.split()[1]](len(looked_at), int(wanted))
                else:
                    passes = ORDERS[kind](wanted_number(looked_at), number_of(wanted))
                if passes == negated:
                    self.left[at] = name == "filter"
                    return
            elif name == "take":
                self.left[at] -= 1
            elif name == "skip":
                if self.left[at]:
                    self.left[at] -= 1
                    return
            elif name == "select":
                text = fields_of(text, *values)
        self.output.append(text)


def answer(steps, end, text):
    """The outcome of a query over a text, by the name of `standard input`."""
    took = Answer(steps)
    for at, line in enumerate(lines_of(text)):
        if took.is_over():
            break
        try:
            count = len(took.output)
            took.come(line.rstrip(b"\n"))
            if len(took.output) > count and end:
                took.output[-1] = (wanted_number(fields_of(took.output[-1], [end[1]], end[3])), end[2] and fields_of(took.output[-1], end[2], end[3]))
            elif len(took.output) > count:
                took.output[-1] += b"\n" if line.endswith(b"\n") else b""
        except Bad:
            said = b"plinq: standard input: line %d: no number where the query wants one\n" % (at + 1)
            return Outcome(4, b"" if end else b"".join(took.output[:count]), said)
    return Outcome(0, told(end, took.output) if end else b"".join(took.output), b"")


def told(end, pairs):
    """What a sum or its like writes of numbers and their keys."""
    groups = {}
    for number, key in pairs:
        groups.setdefault(key, []).append(number)
    if not groups and end[0] == "sum" and not end[2]:
        return b"0\n"
    return b"".join(text_of(value_of(end[0], numbers)) + (b"\t" + key if key else b"") + b"\n" for key, numbers in groups.items())


def value_of(name, numbers):
    total = sum(numbers)
    mean = abs(total) // len(numbers) * (-1 if total < 0 else 1)
    return {"sum": total, "min": min(numbers), "max": max(numbers), "mean": mean}[name]


def words_of(steps, end):
    said = []
    for name, *values in steps:
        if name in ("filter", "take_while"):
            field, negated, kind, wanted = values
            subject = words_of_field(*field) + " " if field else ""
            said.append(f"{name} {'not ' * negated}{subject}{kind}" + ("" if kind == "is_number" else f" {wanted.decode()}"))
        elif name == "select":
            said.append(f"select {words_of_field(words_of_numbers(values[0]), values[1])}")
        else:
            said.append(f"{name} {values[0]}")
    if end:
        name, field, key, separator = end
        parted = "" if separator is None else f' by "{separator.decode()}"'
        if key:
            said.append(f"{name} field {field} by {words_of_field(words_of_numbers(key), separator)}" if field % 2 else f"{name} field {field}{parted} by {words_of_field(words_of_numbers(key), None)}")
        else:
            said.append(name if field == 1 and separator is None else f"{name} field {field}{parted}")
    return " | ".join(said)


def some_step(by, separator):
    name = by.choice(("filter", "filter", "filter", "take_while", "select", "take", "skip"))
    if name in ("filter", "take_while"):
        field = (by.randint(1, 3), some_separator(by, separator)) if by.random() < 0.9 else None
        kind = by.choice(list(ORDERS) + ["is_number", "length " + by.choice(list(ORDERS))])
        if kind.startswith("length "):
            return name, field, by.random() < 0.3, kind, by.choice((b"0", b"1", b"2", b"5", b"18446744073709551615"))
        return name, field, by.random() < 0.3, kind, by.choice(GOOD[:11] + (b"-18446744073709551615",))
    if name == "select":
        return name, [by.randint(1, 3) for _ in range(3)], some_separator(by, separator)
    return name, by.choice((0, 1, 3, 40, 5_000))


def some_end(by, separator):
    return by.choice(("sum", "min", "max", "mean")), by.randint(1, 3), by.choice((None, [1], [2], [3, 1], [2, -3])), some_separator(by, separator)


def some_separator(by, separator):
    """That of the text, or now and then another one."""
    return separator if by.random() < 0.95 else by.choice((None, b","))


def some_text(by, separator, count, bad):
    """So many lines of fields, of which one in so many has something that is no number."""
    made = []
    for _ in range(count):
        parts = [by.choice(BAD if bad and by.randrange(bad) == 0 else GOOD) for _ in range(by.choice((3, 3, 3, 3, 4)))]
        made.append((separator or b" ").join(parts))
    return b"\n".join(made) + by.choice((b"\n", b"\n", b""))


def by_random(tests):
    by = random.Random(79)
    faults, sums = 0, {}
    for turn in range(360):
        large, separator = turn % 20 == 0, by.choice((None, b","))
        text = some_text(by, separator, 60_000 if large else by.choice((0, 1, 5, 40, 300)), by.choice((0, 0, 30, 1_000, 200_000)))
        steps = [some_step(by, separator) for _ in range(by.randint(0, 1) if turn % 2 else by.randint(1, 3))]
        end = some_end(by, separator) if turn % 2 else None
        wanted = answer(steps, end, text)
        faults += wanted.status == 4
        if end and wanted.output.count(b"\n") > 1:
            sums[end[0]] = sums.get(end[0], 0) + 1
        seen = (run_on_file if by.random() < 0.5 else run)(["lines", "--workers", by.choice(WORKERS), words_of(steps, end)], text)
        tests.check(f"random numbers {turn}: {words_of(steps, end)}", seen == wanted, f"{str(seen)[-400:]}; wanted {str(wanted)[-400:]}")
    tests.check("some have a line without a number, and some have none", 60 < faults < 260, faults)
    tests.check("each kind of sum has some with several keys", sorted(sums) == ["max", "mean", "min", "sum"] and min(sums.values()) > 5, sums)


def far_away(tests):
    """A line without a number is named by its own number, however far it is, by whatever step and worker."""
    rows = [b"%d %d %s of a line that is longer than its number\n" % (at, at % 7, b"abcdefg"[at % 7 : at % 7 + 1]) for at in range(200_000)]
    for bad in (0, 1, 99_999, 150_000, 199_999):
        text = b"".join(rows[:bad] + [b"%d x y\n" % bad] + rows[bad + 1 :])
        for steps, end in (
            ([("filter", (2, None), False, "<", b"0")], None),
            ([("filter", (1, None), False, "is_number", b""), ("filter", (2, None), False, "above", b"9")], None),
            ([("skip", 3), ("filter", (2, None), False, "equal", b"9")], None),
            ([("take_while", (2, None), False, "<=", b"7"), ("filter", (1, None), False, "=", b"120000")], None),
            ([("filter", (1, None), False, ">", b"10"), ("take", 1_000), ("filter", (2, None), False, "<", b"1")], None),
            ([], ("sum", 2, None, None)),
            ([], ("mean", 2, [3], None)),
            ([("take", 150_000)], ("max", 1, [3], None)),
            ([("take", 150_000)], ("min", 1, [3], None)),
        ):
            wanted = answer(steps, end, text)
            for workers, from_where in (("1", run), ("4", run), ("1", run_on_file), ("4", run_on_file), ("64", run_on_file)):
                seen = from_where(["lines", "--workers", workers, words_of(steps, end)], text)
                name = f"line {bad + 1} of `{words_of(steps, end)}` by {workers}, {from_where.__name__}"
                tests.check(name, seen == wanted, f"{str(seen)[-300:]}; wanted {str(wanted)[-300:]}")


def by_pieces(tests):
    """Through a pipe, whose reads end within lines."""
    by = random.Random(97)
    for turn in range(10):
        separator = by.choice((None, b","))
        text = some_text(by, separator, 4_000, by.choice((0, 1_000, 3_000)))
        steps, end = [some_step(by, separator)], some_end(by, separator) if turn % 2 else None
        child = subprocess.Popen([PLINQ, "lines", words_of(steps, end)], stdin=subprocess.PIPE, stdout=subprocess.PIPE, stderr=subprocess.PIPE)

        def write():
            at = 0
            try:
                while at < len(text):
                    count = by.choice((1, 100, 4_096, 20_000))
                    child.stdin.write(text[at : at + count])
                    child.stdin.flush()
                    at += count
                child.stdin.close()
            except BrokenPipeError:
                pass

        writer = threading.Thread(target=write)
        writer.start()
        output, errors = child.stdout.read(), child.stderr.read()
        writer.join()
        seen, wanted = Outcome(child.wait(timeout=HANGS), output, errors), answer(steps, end, text)
        tests.check(f"by pieces {turn}: {words_of(steps, end)}", seen == wanted, f"{seen}; wanted {wanted}")


def files(tests):
    with tempfile.TemporaryDirectory() as folder:
        first, second = os.path.join(folder, "first"), os.path.join(folder, "second")
        for name, text in ((first, b"a 1\nb 2"), (second, b"a 3.5\nb x\nc 4\n")):
            with open(name, "wb") as file:
                file.write(text)
        said = b"plinq: %s: line 2: no number where the query wants one\n" % second.encode()
        for query, output in (("filter field 2 > 1", b"b 2\na 3.5\n"), ("sum field 2", b""), ("sum field 2 by field 1", b"")):
            seen = run(["lines", query, first, second])
            tests.check(f"a line is counted within its file: {query}", seen == Outcome(4, output, said), str(seen))
        seen = run(["lines", "sum field 2 by field 1", first, first])
        tests.check("a sum goes on", seen == Outcome(0, b"2\ta\n4\tb\n", b""), str(seen))
        seen = run(["lines", "filter field 2 > 1 | take 2", first, second])
        tests.check("a line that isn't needed may be anything", seen == Outcome(0, b"b 2\na 3.5\n", b""), str(seen))


def mistakes(tests):
    end = "\n\nFor more information, try '--help'.\n"
    no_length = "step 1: length is compared with a number of bytes, as in length > 80"
    wants_a_test = "step 1 wants contains, starts_with, ends_with, is, matches or is_number, or a comparison like < or length >, with or without not before it"
    no_number = "step 1: a comparison wants a number with at most nine digits after the point, as in field 2 > 1.5"
    for query, said in (
        ("filter field 2 >", no_number),
        ("filter field 2 > x", no_number),
        ("filter field 2 > 1e3", no_number),
        ("filter field 2 below 0.0000000001", no_number),
        ("filter field 2 > 1 2", "step 1 goes on after its end: a bar parts two steps"),
        ("filter length", wants_a_test),
        ("filter length is 3", no_length),
        ("filter field 2 length > x", no_length),
        ("filter length > 1.5", no_length),
        ("filter length > -1", no_length),
        ("skip_while field 2 > 1", "step 1: skip_while compares no numbers, since it has to look at one line that may be none"),
        ("sum field", "step 1: field wants a number from 1 on, as in select field 2"),
        ("sum field 1-2", "step 1: field wants a number from 1 on, as in select field 2"),
        ("sum by line", 'step 1: by wants a text of one byte that isn\'t a line feed, as by "," or by "\\t"'),
        ("sum by field", "step 1: field wants a number from 1 on, as in select field 2"),
        ('mean field 1 by "," by field 2 by ";"', "step 1: a number and its key have one separator"),
        ("sum | take 1", "step 2 follows the last step of a query: count, sum, min, max and mean end it"),
        ("max field 2 3", "step 1 goes on after its end: a bar parts two steps"),
    ):
        seen = run(["lines", query], b"a\n")
        tests.check(f"the mistake in {query!r}", seen == Outcome(2, b"", f"error: {said}{end}".encode()), str(seen))


def main():
    build()
    tests = Tests()
    by_random(tests)
    far_away(tests)
    by_pieces(tests)
    files(tests)
    mistakes(tests)
    tests.end()


if __name__ == "__main__":
    main()
