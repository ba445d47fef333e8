#!/usr/bin/env python3
"""`plinq lines` beside a plain model, and beside grep, cut, head, tail, awk and sed where these do the same.

    python3 tests/lines.py

Random texts and queries by 1, 2, 4 and 64 workers, from files, from standard input, and from a pipe that is written in pieces of
random sizes. Lines that end at, before and after the end of a block or of a read; bytes that are no characters; carriage returns;
several files; a line of 128 MB and a large pattern through a pipe, in linear time; readers that leave, a full disk, memory that is
short; mistakes in words and queries.
"""
import collections
import os
import random
import re
import resource
import signal
import subprocess
import tempfile
import threading

from support.program import HANGS, PLINQ, ROOT, Outcome, Tests, build, run, run_on_file

# How many bytes a block of lines has at least, and a read at most (crates/plinq_rounds).
BLOCK, READ = 262_144, 4_194_304
WORKERS = ("1", "2", "4", "64", "auto")
BLANKS = b" \t\r"
TESTS = {
    "contains": lambda text, bytes_: bytes_ in text,
    "starts_with": lambda text, bytes_: text.startswith(bytes_),
    "ends_with": lambda text, bytes_: text.endswith(bytes_),
    "is": lambda text, bytes_: text == bytes_,
    "matches": lambda text, bytes_: re.search(PATTERNS[bytes_], text) is not None,
}
# Regular expressions, each with what means the same in Python over bytes.
PATTERNS = {
    rb"": rb"",
    rb"^a": rb"\Aa",
    rb"c$": rb"c\Z",
    rb"^$": rb"\A\Z",
    rb"b+c": rb"b+c",
    rb"[ab]{2,}": rb"[ab]{2,}",
    rb"a|\t": rb"a|\t",
    rb"(ab)*c": rb"(ab)*c",
    rb"\\": rb"\\",
    rb"[\"c] ?b": rb"[\"c] ?b",
    rb"(?i)A\r?$": rb"[aA]\r?\Z",
    rb"(?-u:b.*a)": rb"b[^\n]*a",
    rb"(?-u:[^a])b": rb"[^a]b",
}


def lines_of(text):
    """The lines of a text, each with the line feed that ends it."""
    *ended, last = text.split(b"\n")
    return [line + b"\n" for line in ended] + ([last] if last else [])


def words_between_blanks(text):
    word, words = b"", []
    for byte in text:
        if byte in BLANKS:
            words += [word] if word else []
            word = b""
        else:
            word += bytes([byte])
    return words + ([word] if word else [])


def field_of(text, number, separator):
    fields = words_between_blanks(text) if separator is None else text.split(separator)
    return fields[number - 1] if number <= len(fields) else b""


def fields_of(text, numbers, separator):
    """Several fields, with what stands between them, or a space for blanks; -3 is all from the third on."""
    return (separator or b" ").join((field_of if number > 0 else from_field)(text, abs(number), separator) for number in numbers)


def from_field(text, number, separator):
    if separator is not None:
        return separator.join(text.split(separator)[number - 1 :])
    for _ in range(number - 1):
        text = text.lstrip(BLANKS)
        text = text[next((at for at, byte in enumerate(text) if byte in BLANKS), len(text)) :]
    return text.lstrip(BLANKS)


def passes(text, field, negated, kind, bytes_):
    """Whether a line's text passes a test, of it or of its field."""
    return TESTS[kind](text if field is None else field_of(text, *field), bytes_) != negated


def answer(steps, lines):
    """What the steps make of lines, step by step over the whole list."""
    for name, *values in steps:
        texts = [(line.rstrip(b"\n"), line[len(line.rstrip(b"\n")) :]) for line in lines]
        if name == "filter":
            lines = [text + end for text, end in texts if passes(text, *values)]
        elif name == "select":
            lines = [fields_of(text, *values) + end for text, end in texts]
        elif name in ("take_while", "skip_while"):
            count = next((at for at, (text, _) in enumerate(texts) if not passes(text, *values)), len(lines))
            lines = lines[:count] if name == "take_while" else lines[count:]
        elif name == "take":
            lines = lines[: values[0]]
        elif name == "distinct":
            keys = [text if values[0] in (None, "line") else fields_of(text, *values[0]) for text, _ in texts]
            lines = [line for at, line in enumerate(lines) if keys.index(keys[at]) == at]
        elif name == "count":
            return counted([line.rstrip(b"\n") for line in lines], *values)
        else:
            lines = lines[values[0] :]
    return b"".join(lines)


def counted(texts, key):
    """What a count at the end of a query writes: how many texts there are, or how often each comes, or a field of it."""
    if key is None:
        return b"%d\n" % len(texts)
    keys = texts if key == "line" else [fields_of(text, *key) for text in texts]
    return b"".join(b"%d\t%s\n" % (count, text) for text, count in collections.Counter(keys).items())


def quoted(bytes_):
    escapes = {ord('"'): '\\"', ord("\\"): "\\\\", ord("\t"): "\\t", ord("\r"): "\\r"}
    return '"' + "".join(escapes.get(byte, chr(byte)) for byte in bytes_) + '"'


def words_of(steps):
    said = []
    for name, *values in steps:
        if name in ("filter", "take_while", "skip_while"):
            field, negated, kind, bytes_ = values
            text = f'"{bytes_.decode()}"' if kind == "matches" else quoted(bytes_)
            subject, no = "" if field is None else words_of_field(*field) + " ", "not " * negated
            said.append(f"{name} {no + subject if len(said) % 2 else subject + no}{kind} {text}")
        elif name == "select":
            numbers, separator = values
            said.append(f"select {words_of_field(words_of_numbers(numbers), separator)}")
        elif name in ("count", "distinct"):
            said.append(words_of_key(name, *values))
        else:
            said.append(f"{name} {values[0]}")
    return " | ".join(said)


def words_of_key(name, key):
    if key is None or key == "line":
        return name + (" by line" if key else "")
    numbers, separator = key
    return f"{name} by " + words_of_field(words_of_numbers(numbers), separator)


def words_of_numbers(numbers):
    """The numbers as a query has them: some parted by commas, and a row of them as a range."""
    if len(numbers) == 3 and numbers[0] + 2 == numbers[1] + 1 == numbers[2]:
        return f"{numbers[0]}-{numbers[2]}"
    return (" " if numbers[0] % 2 else ",").join(str(it) if it > 0 else f"{-it}-" for it in numbers)


def words_of_field(number, separator):
    return f"field {number}" + ("" if separator is None else f" by {quoted(separator)}")


def some_separator(by):
    return by.choice((None, None, b"a", b"\t", b" "))


def some_step(by):
    name = by.choice(("filter", "filter", "select", "take", "skip", "take_while", "skip_while", "distinct"))
    if name in ("filter", "take_while", "skip_while"):
        field = (by.randint(1, 4), some_separator(by)) if by.random() < 0.3 else None
        kind = by.choice(list(TESTS))
        bytes_ = by.choice(list(PATTERNS) if kind == "matches" else (b"", b"a", b"b c", b"ab", b"c", b"\t", b'"', b"\\", b"a\r"))
        return name, field, by.random() < 0.3, kind, bytes_
    if name == "distinct":
        return name, some_key(by)
    if name == "select":
        return name, some_numbers(by), some_separator(by)
    return name, by.choice((0, 1, 2, 5, 40, 2_000))


def some_key(by):
    return by.choice((None, "line", (some_numbers(by), some_separator(by))))


def some_numbers(by):
    numbers = [by.randint(1, 4) for _ in range(by.choice((1, 1, 2, 3)))]
    return numbers[:-1] + [-numbers[-1]] if by.random() < 0.3 else numbers


def some_count(by):
    return "count", some_key(by)


def some_text(by, size):
    """A text of about this many bytes: short and long lines, of few bytes that the steps speak of and of any."""
    parts, left = [], size
    while left > 0:
        long = by.choice((0, 1, 3, 8, 30, 30, 200, by.choice((200, 60_000))))
        alphabet = by.choice((b"abc \t\r\"\\", b"abc \t\r\"\\", bytes(it for it in range(256) if it != 10)))
        line = bytes(by.choice(alphabet) for _ in range(min(long, 400))) * max(1, long // 400)
        parts.append(line + b"\n")
        left -= len(line) + 1
    text = b"".join(parts)
    return text[:-1] if by.random() < 0.3 else text


def lines(query, given=b"", words=(), **how):
    return run(["lines", *words, query], given, **how)


def by_random(tests):
    by = random.Random(38)
    for turn in range(260):
        text = some_text(by, by.choice((0, 10, 300, 300, 5_000, 5_000, 700_000 if turn % 12 == 0 else 2_000)))
        steps = [some_step(by) for _ in range(by.randint(1, 4))]
        if turn % 3 == 0:
            steps = [*steps[1:], some_count(by)]
        wanted = Outcome(0, answer(steps, lines_of(text)), b"")
        seen = lines(words_of(steps), text, ["--workers", by.choice(WORKERS)])
        tests.check(f"random text {turn}: {words_of(steps)}", seen == wanted, f"{seen}; wanted {wanted}")


def at_edges(tests):
    """Lines that end at, before and after the end of a block and of a read, and lines longer than both."""
    steps = [("filter", None, False, "contains", b"x")]
    for size in (BLOCK, 2 * BLOCK, READ, 2 * READ):
        for off in (-2, -1, 0, 1, 2):
            first = b"x" * (size + off - 1) + b"\n"
            text = first + b"y\nxy\n" + b"z" * 300_000 + b"\nlast x"
            for workers in ("1", "4"):
                for how, by in (("a pipe", run), ("a file", run_on_file)):
                    seen = by(["lines", "--workers", workers, words_of(steps)], text)
                    tests.check(f"a line of {size + off} bytes from {how} by {workers}", seen == Outcome(0, answer(steps, lines_of(text)), b""), str(seen)[:200])
    text = b"".join(b"%d x\n" % it if it % 3 else b"%d\n" % it for it in range(1_500_000))
    for given in (steps, [("skip_while", None, True, "contains", b"700000 x"), ("take_while", None, True, "is", b"1400000 x")], [("skip", 700_001), ("filter", None, False, "contains", b"x"), ("take", 400_000)], [("select", [1], None), ("skip", 1_499_999)], [("select", [2, 1], None), ("filter", None, False, "starts_with", b"x 1")], [("skip_while", None, True, "is", b"700000 x"), ("select", [1, 2, 1], None), ("take", 500_000)], [("count", None)], [("filter", None, False, "contains", b"x"), ("skip", 1_000), ("count", None)], [("count", ([2], None))], [("select", [2], None), ("take", 900_000), ("count", "line")], [("filter", None, False, "contains", b"x"), ("take", 4_000), ("distinct", ([2, 1], None)), ("skip", 10)], [("filter", (1, None), False, "matches", b"b+c")], [("filter", None, False, "matches", b"(?i)A\\r?$"), ("take", 3)]):
        wanted = Outcome(0, answer(given, lines_of(text)), b"")
        for workers in ("1", "2", "64"):
            for how, by in (("a pipe", run), ("a file", run_on_file)):
                seen = by(["lines", "--workers", workers, words_of(given)], text)
                tests.check(f"{words_of(given)} of 14 MB from {how} by {workers}", seen == wanted, str(seen)[:200])


def by_pieces(tests):
    """A pipe that is written in pieces of random sizes."""
    by = random.Random(83)
    for turn in range(12):
        text = some_text(by, 60_000)
        steps = [some_step(by), some_count(by) if turn % 3 == 0 else some_step(by)]
        child = subprocess.Popen([PLINQ, "lines", words_of(steps)], stdin=subprocess.PIPE, stdout=subprocess.PIPE, stderr=subprocess.PIPE)

        def write():
            at = 0
            try:
                while at < len(text):
                    count = by.choice((1, 2, 100, 4_096, 20_000))
                    child.stdin.write(text[at : at + count])
                    child.stdin.flush()
                    at += count
                child.stdin.close()
            except BrokenPipeError:
                pass

        writer = threading.Thread(target=write)
        writer.start()
        output, errors = child.stdout.read(), child.stderr.read()
        writer.join()
        seen = Outcome(child.wait(timeout=HANGS), output, errors)
        tests.check(f"by pieces {turn}: {words_of(steps)}", seen == Outcome(0, answer(steps, lines_of(text)), b""), str(seen))


def at_once(tests):
    """A line that stands in a pipe is answered, though more may come."""
    child = subprocess.Popen([PLINQ, "lines", "filter contains x"], stdin=subprocess.PIPE, stdout=subprocess.PIPE)
    for line in (b"a x\n", b"x b\n"):
        child.stdin.write(b"no\n" + line)
        child.stdin.flush()
        tests.check("a line is answered at once", child.stdout.readline() == line)
    child.stdin.close()
    tests.check("and the rest at the end", child.stdout.read() == b"" and child.wait(timeout=HANGS) == 0)
    child.stdout.close()


def take_ends(tests):
    """Once a take has its lines the input is read no more, though it never ends."""
    endless = subprocess.Popen(["yes", "a b"], stdout=subprocess.PIPE)
    seen = run(["lines", "select field 2 | take 3"], stdin=endless.stdout)
    endless.stdout.close()
    tests.check("take of an endless input", seen == Outcome(0, b"b\nb\nb\n", b"") and endless.wait(timeout=HANGS) in (1, -signal.SIGPIPE), str(seen))
    endless = subprocess.Popen(["yes", "a b"], stdout=subprocess.PIPE)
    seen = run(["lines", "take_while not starts_with a"], stdin=endless.stdout)
    endless.stdout.close()
    tests.check("take_while of an endless input", seen == Outcome(0, b"", b"") and endless.wait(timeout=HANGS) in (1, -signal.SIGPIPE), str(seen))
    tests.check("take 0 reads nothing", lines("take 0", b"a\n") == Outcome(0, b"", b""))


def files(tests, folder):
    def made(name, bytes_):
        path = os.path.join(folder, name)
        with open(path, "wb") as file:
            file.write(bytes_)
        return path

    first, second, none = made("first", b"1 a\n2 b"), made("second", b"3 c\r\n4"), made("none", b"")
    both = Outcome(0, b"1 a\n2 b\n3 c\r\n4", b"")
    tests.check("two files", run(["lines", "skip 0", first, second]) == both)
    tests.check("an empty file between", run(["lines", "skip 0", first, none, second, none]) == Outcome(0, both.output + b"\n", b""))
    tests.check("counts go on", run(["lines", "skip 1 | take 2", first, second]) == Outcome(0, b"2 b\n3 c\r\n", b""))
    tests.check("standard input among files", run(["lines", "skip 0", first, "-", second], b"0") == Outcome(0, b"1 a\n2 b\n0\n3 c\r\n4", b""))
    tests.check("a file of a name with a blank", run(["lines", "take 1", made("a b", b"x\n")]) == Outcome(0, b"x\n", b""))
    tests.check("a count goes on", run(["lines", "count", first, none, second]) == Outcome(0, b"4\n", b""))
    tests.check("counts of texts go on", run(["lines", "count by field 3", first, first, none, second]) == Outcome(0, b"6\t\n", b""))
    tests.check("counts of fields go on", run(["lines", "count by field 2", first, first, second]) == Outcome(0, b"2\ta\n2\tb\n1\tc\n1\t\n", b""))
    tests.check("a distinct goes on", run(["lines", "distinct", first, second, first]) == Outcome(0, b"1 a\n2 b\n3 c\r\n4\n", b""))
    tests.check("a count of what is left", run(["lines", "skip 1 | take 2 | count", first, second]) == Outcome(0, b"2\n", b""))
    tests.check("a count of nothing", run(["lines", "count", none]) == Outcome(0, b"0\n", b"") and run(["lines", "count by line", none]) == Outcome(0, b"", b""))
    missing = os.path.join(folder, "missing")
    seen = run(["lines", "skip 0", first, missing, second])
    said = f"plinq: {missing}: No such file or directory (os error 2)\n".encode()
    tests.check("a file that isn't there, after those before it", seen == Outcome(5, b"1 a\n2 b\n", said), str(seen))
    seen = run(["lines", "count", first, missing, second])
    tests.check("no count if a file isn't there", seen == Outcome(5, b"", said), str(seen))
    tests.check("a folder", run(["lines", "skip 0", folder]) == Outcome(5, b"", f"plinq: {folder}: Is a directory (os error 21)\n".encode()))
    tests.check("no input", run(["lines", "skip 0"], stdin=subprocess.DEVNULL) == Outcome(0, b"", b""))


def mistakes(tests):
    end = "\n\nFor more information, try '--help'.\n"
    wants_a_test = "step 1 wants contains, starts_with, ends_with, is, matches or is_number, or a comparison like < or length >, with or without not before it"
    unknown = "none of filter, select, take, skip, take_while, skip_while, distinct, count, sum, min, max and mean"
    follows = "step 2 follows the last step of a query: count, sum, min, max and mean end it"
    wants_a_byte = 'step 1: by wants a text of one byte that isn\'t a line feed, as by "," or by "\\t"'
    wants_a_number = "step 1: field wants a number from 1 on, as in select field 2"
    for query, said in (
        ("", "step 1 is empty"),
        ("take 1 |", "step 2 is empty"),
        ("| take 1", "step 1 is empty"),
        ("find x", f"step 1 is {unknown}"),
        ('take 1 | "filter" is x', f"step 2 is {unknown}"),
        ("filter", wants_a_test),
        ("filter not", wants_a_test),
        ("filter finds x", wants_a_test),
        ("filter not field 2 not is x", wants_a_test),
        ("filter contains 'x'", "a word begins with a single quote: texts stand in double quotes"),
        ("filter field 2", wants_a_test),
        ('filter field 2 by "," x', wants_a_test),
        ("filter field is x", wants_a_number),
        ("filter field 0 is x", wants_a_number),
        ("filter field 2 by ab is x", wants_a_byte),
        ("filter matches", 'step 1: a text is missing, as in contains "disk full"'),
        ("take 1 | filter matches a(b", "step 2: the pattern is wrong: regex parse error at 1..2: unclosed group"),
        ('filter matches "x{2"', "step 1: the pattern is wrong: regex parse error at 1..3: unclosed counted repetition"),
        ("filter matches (?:a{1000}){1000}", "step 1: the pattern takes more than 10 MiB once it is compiled"),
        ("take_while 3", wants_a_test),
        ("filter contains", 'step 1: a text is missing, as in contains "disk full"'),
        ("select field", wants_a_number),
        ("select field 0", wants_a_number),
        ("select 2", wants_a_number),
        ('select field 2 by ", "', wants_a_byte),
        ("select field 2 by", wants_a_byte),
        ('select field 2 by "\n"', wants_a_byte),
        ("select field 2 0", wants_a_number),
        ("select field 2 3 0x", wants_a_number),
        ("select field 0-", wants_a_number),
        ("select field 2 0-", wants_a_number),
        ("select field x-", wants_a_number),
        ("select field 2- 4", wants_a_number),
        ("select field 1,,3", wants_a_number),
        ("select field 1,3-5-7", wants_a_number),
        ("select field -3", wants_a_number),
        ("select field 4-2", "step 1: a range of fields has its first one first, and at most 1,000"),
        ("select field 2-1002", "step 1: a range of fields has its first one first, and at most 1,000"),
        ("filter field 2-4 is x", wants_a_number),
        ("select field 2 field 3", "step 1 goes on after its end: a bar parts two steps"),
        ("filter field 2 3 is x", wants_a_test),
        ("select field 2 between x", "step 1 goes on after its end: a bar parts two steps"),
        ("take", "step 1: take and skip want a number of lines"),
        ("skip -1", "step 1: take and skip want a number of lines"),
        ("take 18446744073709551616", "step 1: take and skip want a number of lines"),
        ("take 1 2", "step 1 goes on after its end: a bar parts two steps"),
        ("count x", "step 1 goes on after its end: a bar parts two steps"),
        ("count by", "step 1: by wants line or a field, as in count by field 2"),
        ("count by x", "step 1: by wants line or a field, as in count by field 2"),
        ('count by "line"', "step 1: by wants line or a field, as in count by field 2"),
        ("distinct by", "step 1: by wants line or a field, as in count by field 2"),
        ("distinct field 2", "step 1 goes on after its end: a bar parts two steps"),
        ("distinct by field 0", wants_a_number),
        ("take 3 | count by field", wants_a_number.replace("step 1", "step 2")),
        ("count by line 2", "step 1 goes on after its end: a bar parts two steps"),
        ("count | take 1", follows),
        ("count by line | count", follows),
        ('filter contains "x', "a text has no closing quote"),
        ('filter contains "x\\', "a text has no closing quote"),
        ('filter contains "\\x"', 'a backslash in a text stands before ", \\, t or r'),
        ('filter contains a"b', "a quote stands within a word: a text in quotes is a word of its own"),
    ):
        seen = lines(query, b"a\n")
        tests.check(f"the mistake in {query!r}", seen == Outcome(2, b"", f"error: {said}{end}".encode()), str(seen))
    for words in (["lines"], ["lines", "--merge", "not", "take 1"], ["lines", "--workers", "0", "take 1"], ["lines", "--workers", "65", "take 1"], ["lines", "--workers", "x", "take 1"]):
        seen = run(words)
        tests.check(f"the words {words}", seen.status == 2 and seen.output == b"" and seen.errors.startswith(b"error: "), str(seen))
    seen = run(["lines", "--help"])
    tests.check("help", seen.status == 0 and b"plinq lines" in seen.output and seen.errors == b"", str(seen))


def streams(tests, folder):
    text = b"a x\n" * 300_000
    with open("/dev/full", "wb") as full:
        seen = lines("skip 1", text, stdout=full)
        counted = lines("count by line", text, stdout=full)
    tests.check("a count on a full disk", (counted.status, counted.errors) == (5, b"plinq: write failed: No space left on device (os error 28)\n"), counted.errors)
    tests.check("a full disk", (seen.status, seen.errors) == (5, b"plinq: write failed: No space left on device (os error 28)\n"), seen.errors)
    child = subprocess.Popen([PLINQ, "lines", "skip 1"], stdin=subprocess.PIPE, stdout=subprocess.PIPE, stderr=subprocess.PIPE)
    child.stdout.close()
    errors = feed(child, text)
    tests.check("a reader that has gone", (child.wait(timeout=HANGS), errors) == (5, b""), errors)
    seen = subprocess.run(["bash", "-c", "exec \"$0\" lines 'skip 1' <&-", PLINQ], capture_output=True, timeout=HANGS)
    tests.check("a closed input", (seen.returncode, seen.stdout) == (5, b"") and seen.stderr.startswith(b"plinq: standard input: "), seen.stderr)
    path = os.path.join(folder, "long")
    with open(path, "wb") as file:
        file.write(b"first\n" + b"x" * 60_000_000)
    seen = run(["lines", "skip 0", path], env=os.environ | {"PLINQ_MEMORY": "30M"})
    tests.check("a line longer than memory, after those before it", seen == Outcome(5, b"first\n", b"plinq: out of memory\n"), str(seen))
    seen = run(["lines", "filter contains x | take 1", path], env=os.environ | {"PLINQ_MEMORY": "200M"})
    tests.check("a line of 60 MB", seen.status == 0 and len(seen.output) == 60_000_000, str(seen)[:200])
    # (Through a pipe it comes by 64 KiB. If each read cost what was read before, this would take 40 seconds of processor time.)
    limited = ["bash", "-c", "ulimit -t 20; exec \"$0\" lines --workers 1 'filter not contains x'", PLINQ]
    seen = subprocess.run(limited, input=b"x" * 128_000_000, capture_output=True, timeout=HANGS)
    tests.check("a line of 128 MB in linear time", (seen.returncode, seen.stdout, seen.stderr) == (0, b"", b""), str(seen)[-200:])
    # (If each field were looked for from the line's start, this would take 7 seconds of processor time.)
    wide = b"".join(b" ".join(b"%d" % it for it in range(row, row + 1_000)) + b"\n" for row in range(2_000))
    for query in ("select field 1-1000", "select field 1,2-1000,1", "count by field 1-1000"):
        seen = subprocess.run(["bash", "-c", "ulimit -t 3; exec \"$0\" lines --workers 1 \"$1\"", PLINQ, query], input=wide, capture_output=True, timeout=HANGS)
        tests.check(f"{query} in linear time", (seen.returncode, seen.stderr) == (0, b"") and len(seen.stdout) >= len(wide), str(seen)[-200:])
    # (If each read compiled this pattern, that alone would take 20 seconds of processor time.)
    limited = ["bash", "-c", "ulimit -t 10; exec \"$0\" lines 'filter matches \"(\\w{1,40} ){10}x\"'", PLINQ]
    seen = subprocess.run(limited, input=(b"-" * 999 + b"\n") * 128_000, capture_output=True, timeout=HANGS)
    tests.check("a large pattern through a pipe", (seen.returncode, seen.stdout, seen.stderr) == (0, b"", b""), str(seen)[-200:])


def feed(child, text):
    try:
        child.stdin.write(text)
        child.stdin.close()
    except BrokenPipeError:
        pass
    return child.stderr.read()


def few_bytes(tests, folder):
    """Memory doesn't grow with the input."""
    path = os.path.join(folder, "many")
    with open(path, "wb") as file:
        for at in range(60):
            file.write(b"".join(b"%d some words of a line\n" % it for it in range(at, at + 100_000)))
    size = os.path.getsize(path)
    before = resource.getrusage(resource.RUSAGE_CHILDREN).ru_maxrss
    seen = run(["lines", "--workers", "4", "filter contains \"99999 \"", path], env=os.environ | {"PLINQ_MEMORY": "60M"})
    tests.check(f"{size} bytes in 60 MB", seen.status == 0 and len(seen.output) > 0, f"{seen}, {before}")


def beside_others(tests):
    """What grep, cut, head and tail print of the files of this repository."""
    with open(os.path.join(ROOT, "CHANGES.md"), "rb") as file:
        text = file.read()
    for query, words in (
        ("filter contains plinq", ["grep", "-F", "plinq"]),
        ("filter not contains plinq", ["grep", "-v", "-F", "plinq"]),
        ("filter starts_with \"- \"", ["grep", "^- "]),
        ("filter is \"\"", ["grep", "-x", ""]),
        ("select field 2 by \"`\"", ["cut", "-d", "`", "-f", "2"]),
        ("select field 4 1 3", ["awk", "{ print $4, $1, $3 }"]),
        ("select field 4,1-2,3", ["awk", "{ print $4, $1, $2, $3 }"]),
        ("select field 2-1001", ["awk", "{ for (i = 2; i <= 1001; i++) printf \"%s%s\", $i, i < 1001 ? \" \" : \"\\n\" }"]),
        ("filter contains \"`\" | select field 2- by \"`\"", ["sed", "-n", "s/^[^`]*`//p"]),
        ("take 7", ["head", "-n", "7"]),
        ("skip 7", ["tail", "-n", "+8"]),
        ("filter matches \"[0-9]+ [a-z]+[,.]\"", ["grep", "-E", "[0-9]+ [a-z]+[,.]"]),
        ("filter not matches ^-", ["grep", "-v", "-E", "^-"]),
        ("filter contains plinq | count", ["grep", "-c", "-F", "plinq"]),
        ("distinct by field 1 2", ["awk", "!n[$1 \" \" $2]++"]),
        ("count by field 1", ["awk", "{ if (!($1 in n)) key[++m] = $1; n[$1]++ } END { for (i = 1; i <= m; i++) print n[key[i]] \"\\t\" key[i] }"]),
        ("filter field 1 is -", ["awk", '$1 == "-"']),
        ("filter field 3 by \"`\" not contains plinq", ["awk", "-F", "`", "!index($3, \"plinq\")"]),
    ):
        theirs = subprocess.run(words, input=text, capture_output=True, env=os.environ | {"LC_ALL": "C"}).stdout
        # (cut prints a line without its separator whole, which is no field of it)
        if words[0] == "cut":
            theirs = b"".join(line if b"`" in whole else b"\n" for line, whole in zip(lines_of(theirs), lines_of(text)))
            query = "filter contains \"`\" | " + query
            theirs = b"".join(line for line, whole in zip(lines_of(theirs), lines_of(text)) if b"`" in whole)
        seen = lines(query, text)
        tests.check(f"{query} beside {words[0]}", seen == Outcome(0, theirs, b""), str(seen)[:200])


def of_examples(tests):
    """The queries of examples/README.md, beside the commands that stand there."""
    with open(os.path.join(ROOT, "examples", "README.md"), encoding="utf-8") as file:
        page = file.read().partition("| the lines | query | as others do it |\n")[2].partition("\n\n")[0]
    log = os.path.join(ROOT, "examples", "server.log")
    query = 'filter contains "disk_full" | select field 1 | take 10'
    with open(os.path.join(ROOT, "README.md"), encoding="utf-8") as file:
        tests.check("README.md has its example", f"./plinq lines '{query}' examples/server.log" in file.read())
    seen = run(["lines", query, log])
    tests.check("README.md's example prints what stands there", seen == Outcome(0, b"2026-12-01T08:00:05\n2026-12-01T08:01:15\n", b""), str(seen))
    rows = [re.fullmatch(r"\| (.*?) \| `(.*?)` \| `(.*?)` \|", row) for row in page.splitlines()[1:]]
    tests.check("the table of lines has its rows", len(rows) >= 40 and all(rows), page)
    for row in filter(None, rows):
        name, query, command = (it.replace("\\|", "|") for it in row.groups())
        theirs = subprocess.run(["bash", "-c", f"{command} {log!r}"], capture_output=True, env=os.environ | {"LC_ALL": "C"}, timeout=HANGS)
        seen = run(["lines", query, log])
        tests.check(f"the lines {name}", seen == Outcome(0, theirs.stdout, b"") and theirs.stdout != b"" and theirs.stderr == b"", f"{seen}; wanted {theirs}")


def main():
    build()
    tests = Tests()
    by_random(tests)
    at_edges(tests)
    by_pieces(tests)
    at_once(tests)
    take_ends(tests)
    mistakes(tests)
    beside_others(tests)
    of_examples(tests)
    with tempfile.TemporaryDirectory() as folder:
        files(tests, folder)
        streams(tests, folder)
        few_bytes(tests, folder)
    tests.end()


if __name__ == "__main__":
    main()
