#!/usr/bin/env python3
"""Documents with a byte changed or the rest cut off, numbers at each limit and one past it, names twice, and deep documents.

    python3 tests/changed-documents.py

What is said of a changed document is compared with a model in Python of how one is read (support/reading.py) and answered.
"""
import os

from support.large import outcome_of_document
from support.program import EXAMPLES, PROGRAM, Outcome, Tests, build, run

CHANGES = {"0": b"\0", "255": b"\xff", "a quote": b'"', "a bracket": b"[", "a digit": b"9"}


def refused(why):
    return Outcome(2, b"", f"plinq: document: {why}\n".encode())


def all_as_right(tests, name, texts):
    wrong = [(text, seen, outcome_of_document(text)) for text in texts if (seen := run(["seq"], text, PROGRAM)) != outcome_of_document(text)]
    told = [f"{text}: wanted {wants}; seen {seen}" for text, seen, wants in wrong[:1]]
    tests.check(name, texts and not wrong, f"{len(wrong)} of {len(texts)}; the first is {told}")


def changed_examples(tests):
    for name in sorted(os.listdir(EXAMPLES)):
        if not name.endswith(".json"):
            continue
        with open(os.path.join(EXAMPLES, name), "rb") as file:
            whole = file.read().strip()
        all_as_right(tests, f"{name} as it is", [whole])
        for what, byte in CHANGES.items():
            texts = [whole[:at] + byte + whole[at + 1 :] for at in range(len(whole))]
            all_as_right(tests, f"{name} with each byte replaced by {what}", texts)
        beginnings = [whole[:at] for at in range(len(whole))]
        wrong = [it for it in beginnings if run(["seq"], it, PROGRAM) != refused("not JSON")]
        tests.check(f"{name}: no proper beginning is JSON", not wrong, wrong[:1])


# Sources, steps and further names, and the answer or what is wrong.
LIMITS = [
    ('{"list":[9223372036854775807]}', "", "", "9223372036854775807\nend\n"),
    ('{"list":[9223372036854775808]}', "", "", "wrong shape"),
    ('{"list":[-9223372036854775808]}', "", "", "-9223372036854775808\nend\n"),
    ('{"list":[-9223372036854775809]}', "", "", "wrong shape"),
    ('{"list":[-0]}', "", "", "wrong shape"),
    ('{"list":[1e0]}', "", "", "wrong shape"),
    ('{"list":[1e308]}', "", "", "wrong shape"),
    ('{"list":[1e309]}', "", "", "not JSON"),
    ('{"list":[],"refuse":0}', "", "", "refused 0\n"),
    ('{"list":[],"refuse":4294967295}', "", "", "refused 4294967295\n"),
    ('{"list":[],"refuse":4294967296}', "", "", "wrong shape"),
    ('{"list":[],"refuse":-1}', "", "", "wrong shape"),
    ('{"range":[0,1099511627776]}', '["take",2]', "", "0 1\nend\n"),
    ('{"range":[0,1099511627777]}', '["take",2]', "", "source too large"),
    ('{"range":[9223372036854775807,1]}', "", "", "9223372036854775807\nend\n"),
    ('{"range":[9223372036854775807,2]}', "", "", "source too large"),
    ('{"range":[9223372036854775807,0]}', "", "", "end\n"),
    ('{"range":[9223372036854775808,0]}', "", "", "wrong shape"),
    ('{"range":[-9223372036854775808,1]}', "", "", "-9223372036854775808\nend\n"),
    ('{"range":[-9223372036854775809,1]}', "", "", "wrong shape"),
    ('{"range":[0,18446744073709551615]}', "", "", "source too large"),
    ('{"range":[0,18446744073709551616]}', "", "", "wrong shape"),
    ('{"range":[0,-1]}', "", "", "wrong shape"),
    ('{"repeat":[5,1099511627776]}', '["take",2]', "", "5 5\nend\n"),
    ('{"repeat":[5,1099511627777]}', '["take",2]', "", "source too large"),
    ('{"repeat":[5,18446744073709551615]}', "", "", "source too large"),
    ('{"repeat":[5,18446744073709551616]}', "", "", "wrong shape"),
    ('{"repeat":[5,0]}', "", "", "end\n"),
    ('{"repeat":[5,-1]}', "", "", "wrong shape"),
    ('{"repeat":[9223372036854775807,1]}', "", "", "9223372036854775807\nend\n"),
    ('{"repeat":[9223372036854775808,1]}', "", "", "wrong shape"),
    ('{"repeat":[-9223372036854775808,1]}', "", "", "-9223372036854775808\nend\n"),
    ('{"repeat":[-9223372036854775809,1]}', "", "", "wrong shape"),
    ('{"text":"9223372036854775807 -9223372036854775808"}', "", "", "9223372036854775807 -9223372036854775808\nend\n"),
    ('{"text":"9223372036854775808"}', "", "", "refused 2\n"),
    ('{"text":"-9223372036854775809"}', "", "", "refused 2\n"),
    ('{"list":[1]}', '["take",9223372036854775807]', "", "1\nend\n"),
    ('{"list":[1]}', '["take",9223372036854775808]', "", "step 0: unknown"),
    ('{"list":[1]}', '["take",-9223372036854775808]', "", "end\n"),
    ('{"list":[1]}', '["take",-9223372036854775809]', "", "step 0: unknown"),
    ('{"list":[1]}', '["skip",9223372036854775807]', "", "end\n"),
    ('{"list":[1]}', '["skip",9223372036854775808]', "", "step 0: unknown"),
    ('{"list":[1]}', '["skip",-9223372036854775808]', "", "1\nend\n"),
    ('{"list":[1]}', '["skip",-9223372036854775809]', "", "step 0: unknown"),
    ('{"list":[0]}', '["select","add",9223372036854775807]', "", "9223372036854775807\nend\n"),
    ('{"list":[1]}', '["select","add",9223372036854775807]', "", "fault overflow\n"),
    ('{"list":[0]}', '["select","add",9223372036854775808]', "", "step 0: unknown"),
    ('{"list":[1]}', '["select_many","repeat",65536],["skip",65535]', "", "1\nend\n"),
    ('{"list":[1]}', '["select_many","repeat",65537],["skip",65535]', "", "fault toomany\n"),
    ('{"list":[65536]}', '["select_many","up_to"],["skip",65535]', "", "65536\nend\n"),
    ('{"list":[65537]}', '["select_many","up_to"],["skip",65535]', "", "fault toomany\n"),
    ('{"list":[1]}', '["with_degree",1]', "", "1\nend\n"),
    ('{"list":[1]}', '["with_degree",64]', "", "1\nend\n"),
    ('{"list":[1]}', '["with_degree",0]', "", "step 0: degree out of range"),
    ('{"list":[1]}', '["with_degree",65]', "", "step 0: degree out of range"),
    ('{"list":[1]}', '["with_degree",18446744073709551615]', "", "step 0: degree out of range"),
    ('{"list":[1]}', '["with_degree",18446744073709551616]', "", "step 0: unknown"),
    ('{"list":[1]}', "", ',"growth":[65536,1,65536]', "1\nend\n"),
    ('{"list":[1]}', "", ',"growth":[1,1,65537]', "growth: max too large"),
    ('{"list":[1]}', "", ',"growth":[1,1,18446744073709551615]', "growth: max too large"),
    ('{"list":[1]}', "", ',"growth":[1,1,18446744073709551616]', "wrong shape"),
    ('{"list":[1]}', "", ',"growth":[18446744073709551615,1,1]', "growth: first above max"),
    ('{"list":[1]}', "", ',"growth":[18446744073709551616,1,1]', "wrong shape"),
    ('{"list":[1]}', "", ',"growth":[65536,1,65535]', "growth: first above max"),
    ('{"list":[1]}', "", ',"growth":[65538,1,65537]', "growth: first above max"),
    ('{"list":[1]}', "", ',"growth":[0,1,65537]', "growth: zero"),
    ('{"list":[1]}', "", ',"growth":[1,0,1]', "growth: zero"),
    ('{"list":[1]}', "", ',"growth":[1,1,0]', "growth: zero"),
    ('{"list":[1]}', "", ',"growth":[1,18446744073709551615,1]', "1\nend\n"),
    ('{"list":[1]}', "", ',"growth":[1,18446744073709551616,1]', "wrong shape"),
]
VERSIONS = [
    ("1", "1\nend\n"),
    ("2", "1\nend\n"),
    ("0", "unknown version"),
    ("-1", "unknown version"),
    ("3", "unknown version"),
    ("9223372036854775807", "unknown version"),
    ("9223372036854775808", "wrong shape"),
    ("-9223372036854775808", "unknown version"),
    ("-9223372036854775809", "wrong shape"),
    ("1.0", "wrong shape"),
    ("1e0", "wrong shape"),
    ("true", "wrong shape"),
    ("null", "wrong shape"),
]
# Of a name that stands twice the last value counts, and the first needn't even have the right shape.
TWICE = [
    ('{"version":3,"version":1,"source":{"list":[1]},"query":[]}', "1\nend\n"),
    ('{"version":1,"source":{"list":[1]},"query":[],"version":3}', "unknown version"),
    ('{"version":1,"source":7,"source":{"list":[1]},"query":[]}', "1\nend\n"),
    ('{"version":1,"source":{"list":[1]},"query":[],"source":7}', "wrong shape"),
    ('{"version":1,"source":{"list":[1]},"query":[["sort"]],"query":[]}', "1\nend\n"),
    ('{"version":1,"source":{"list":[1]},"query":[],"query":[["sort"]]}', "step 0: unknown"),
    ('{"version":1,"source":{"list":[1]},"query":[],"growth":[],"growth":[1,1,1]}', "1\nend\n"),
    ('{"version":1,"source":{"list":[1]},"query":[],"growth":[1,1,1],"growth":[0,1,1]}', "growth: zero"),
    ('{"version":1,"source":{"list":[4]},"query":[],"aggregate":"count","aggregate":"sum"}', "4\nend\n"),
    ('{"version":1,"source":{"list":[4]},"query":[],"aggregate":"sum","aggregate":null}', "wrong shape"),
    ('{"version":1,"source":{"list":[1],"list":[2]},"query":[]}', "2\nend\n"),
    ('{"version":1,"source":{"list":[1],"refuse":7,"list":[2]},"query":[]}', "2\nrefused 7\n"),
    ('{"version":1,"source":{"list":[1],"refuse":-1,"refuse":8},"query":[]}', "1\nrefused 8\n"),
    ('{"version":1,"source":{"range":[1,2],"range":[5,1]},"query":[]}', "5\nend\n"),
    ('{"version":1,"source":{"repeat":[1,2],"repeat":[5,1]},"query":[]}', "5\nend\n"),
    ('{"version":1,"source":{"text":"1","text":"2"},"query":[]}', "2\nend\n"),
    ('{"version":2,"source":{"concat":7,"concat":[{"list":[1]},{"list":[2],"list":[3]}]},"query":[]}', "1 3\nend\n"),
    # (also where one of the two is written otherwise)
    ('{"version":1,"source":{"list":[1]},"query":[],"quer\\u0079":[["take",0]]}', "end\n"),
]
# The formulas that have a number.
WITH_NUMBER = ("add", "mul", "mod", "into", "below", "above", "equal", "repeat")
STATUS = {"end": 0, "refused": 3, "fault": 4}


def answered(line):
    """How a run ends with this answer, or with this refusal of the document."""
    if not line.endswith("\n"):
        return refused(line)
    last = line.splitlines()[-1].split()[0]
    return Outcome(STATUS[last], line.encode(), b"")


def limits_and_names(tests):
    rows = [(f'{{"version":1,"source":{source},"query":[{steps}]{more}}}', line) for source, steps, more, line in LIMITS]
    rows += [(f'{{"version":{version},"source":{{"list":[1]}},"query":[]}}', line) for version, line in VERSIONS]
    for text, line in rows + TWICE:
        wants, seen = answered(line), run(["seq"], text.encode(), PROGRAM)
        tests.check(text, seen == wants, f"wanted {wants}; seen {seen}")


# Numbers that a formula may have, and one past each end.
WITHIN, PAST = (-(2**63), -1, 0, 1, 2**63 - 1), (-(2**63) - 1, 2**63)


def numbers_of_formulas(tests):
    for step in ("select", "filter", "select_many", "take_while", "skip_while"):
        for name in WITH_NUMBER:
            texts = [f'{{"version":2,"source":{{"list":[1,-1]}},"query":[["{step}","{name}",{it}]]}}'.encode() for it in WITHIN + PAST]
            all_as_right(tests, f"{step} {name} with numbers up to each end", texts)
            seen = [run(["seq"], it, PROGRAM) for it in texts[len(WITHIN) :]]
            tests.check(f"{step} {name} with a number past an end", seen == [refused("step 0: unknown")] * len(PAST), seen)


def deep(tests):
    for levels, why in ((127, "wrong shape"), (128, "not JSON"), (1_000_000, "not JSON")):
        inner = levels - 1
        for what, text in (
            ("lists", b"[" * levels + b"]" * levels),
            ("objects", b'{"":' * levels + b"0" + b"}" * levels),
            ("a list under a name", b'{"version":1,"x":' + b"[" * inner + b"]" * inner + b"}"),
            ("lists as a source", b'{"version":1,"query":[],"source":' + b"[" * inner + b"]" * inner + b"}"),
        ):
            seen = run(["seq"], text, PROGRAM)
            tests.check(f"{levels} levels of {what}", seen == refused(why), seen)


def main():
    build()
    tests = Tests()
    changed_examples(tests)
    limits_and_names(tests)
    numbers_of_formulas(tests)
    deep(tests)
    tests.end()


if __name__ == "__main__":
    main()
