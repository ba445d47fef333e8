#!/usr/bin/env python3
"""Holds share/plinq.schema.json and share/plinq-check against a model of how a document is read (support/reading.py).

    python3 tests/schema.py

A document is accepted by both or by neither. A schema alone can't tell 1.0 from 1, nor compare two numbers of a document;
plinq-check can.
"""
import json
import os
import random
import re
import shutil
import subprocess
import tempfile

from support.checking import CHECK, SHARE, checker, module
from support.model import given
from support.program import EXAMPLES, HANGS, ROOT, Outcome, Tests
from support.reading import Refused, read

# What may be wrong with a document that the schema alone accepts.
BEYOND = ("source too large", "growth: first above max")
# What is put in the place of something else, and under which names.
VALUES = [None, True, 0, 1, 2, 3, -1, 1.0, 2.5, -0.0, 64, 65, 512, 65536, 65537, 2**32, 2**40, 2**40 + 1, 2**63 - 1, 2**63, -(2**63), -(2**63) - 1, 2**64, "", "1", "add", "even", "not", "sum", "take", "as_ordered", "skip_while", [], [1], [1, 1], [1, 1, 1], ["take", 1], ["as_ordered"], ["with_merge", "full"], ["with_degree", 2], ["select", "add", 1], ["skip_while", "even"], {}, {"list": [1]}, {"text": "1"}, {"range": [2**63 - 1, 2]}, {"repeat": [1, 2]}, {"concat": [{"list": []}, {"list": []}]}]
NAMES = ["version", "source", "query", "growth", "aggregate", "list", "refuse", "text", "range", "repeat", "concat", "x"]


def why_not(text):
    """Why the model refuses a document, if it does."""
    try:
        read(text)
    except Refused as why:
        return str(why)
    return None


def has_whole_float(value):
    """Whether there is a whole number with a point or an exponent, which a schema takes for a whole number."""
    if isinstance(value, (dict, list)):
        return any(map(has_whole_float, value.values() if isinstance(value, dict) else value))
    return isinstance(value, float) and value.is_integer()


def is_so_of_schema(schema, text, why):
    """Whether the schema, over any reader of JSON, says of a document what the model says, or may say something else."""
    if why in ("not JSON", "too long"):
        return True
    value = json.loads(text, parse_int=lambda it: -0.0 if it == "-0" else int(it))
    return schema.is_valid(value) == (why is None or why in BEYOND) or why in BEYOND or why is not None and has_whole_float(value)


def is_so_of_check(found, why):
    """Whether this is what plinq-check may say of a document that the model refuses so."""
    if why is None or not found:
        return why is None and not found
    for beginning, of in (("not JSON: line ", "not JSON"), ("too long: ", "too long"), ("version: ", "unknown version")):
        if found[0].startswith(beginning) != (why == of) and not (of == "unknown version" and why == "wrong shape"):
            return False
    return all("\n" not in it for it in found)


class Comparing:
    """Compares what is said of documents, and keeps what the model said of them."""

    def __init__(self, tests, check):
        self.tests, self.check, self.seen = tests, check, {}
        with open(f"{SHARE}/plinq.schema.json", encoding="utf-8") as file:
            schema = json.load(file)
        check.jsonschema.Draft202012Validator.check_schema(schema)
        self.schema = check.jsonschema.Draft202012Validator(schema)

    def all(self, name, texts):
        wrong = []
        for text in texts:
            why, found = why_not(text), self.check.mistakes(text)
            self.seen[why and why.split(": ")[-1]] = self.seen.get(why and why.split(": ")[-1], 0) + 1
            if not is_so_of_check(found, why) or not is_so_of_schema(self.schema, text, why):
                wrong.append((text[:300], why, found[:3]))
        self.tests.check(name, texts and not wrong, f"{len(wrong)} of {len(texts)}; the first is {wrong[:1]}")


def example_texts():
    for name in sorted(os.listdir(EXAMPLES)):
        if name.endswith(".json"):
            with open(os.path.join(EXAMPLES, name), "rb") as file:
                yield name, file.read().strip()


def changed(comparing, changes):
    for name, whole in example_texts():
        comparing.all(f"{name} as it is", [whole])
        for what, byte in changes.CHANGES.items():
            comparing.all(f"{name} with each byte replaced by {what}", [whole[:at] + byte + whole[at + 1 :] for at in range(len(whole))])
        comparing.all(f"the beginnings of {name}", [whole[:at] for at in range(len(whole))])
    rows = [f'{{"version":1,"source":{source},"query":[{steps}]{more}}}' for source, steps, more, _ in changes.LIMITS]
    rows += [f'{{"version":{version},"source":{{"list":[1]}},"query":[]}}' for version, _ in changes.VERSIONS]
    comparing.all("numbers at each limit and one past it", [it.encode() for it in rows])
    comparing.all("names twice", [text.encode() for text, _ in changes.TWICE])
    for step in ("select", "filter", "select_many", "take_while", "skip_while"):
        texts = [f'{{"version":2,"source":{{"list":[1]}},"query":[["{step}","{name}",{it}]]}}' for name in changes.WITH_NUMBER for it in changes.WITHIN + changes.PAST]
        comparing.all(f"{step} with numbers up to each end", [it.encode() for it in texts])
    deep = [b"[" * levels + b"]" * levels for levels in (126, 127, 128, 1_000_000)]
    comparing.all("deep documents", deep + [b'{"version":1,"x":' + it + b"}" for it in deep])
    comparing.all("the longest and one byte more", [b" " * length + b"0" for length in (16_777_215, 16_777_216)])


def too_many(tests):
    """Far more steps or names than a document may have: each takes seconds, and a line of a length that can be read."""
    steps = ",".join(['["select","add","x"]'] * 600_000)
    seen = checked([], f'{{"version":1,"source":{{"list":[1]}},"query":[{steps}]}}'.encode())
    lines = seen.errors.decode().splitlines()
    is_so = seen.status == 2 and any("query: " in it and "a list of at most 1,000 steps" in it for it in lines) and len(lines) < 1_100
    tests.check("600,000 steps", is_so, (seen.status, len(lines), lines[:2]))
    names = ",".join(f'"name{it}":1' for it in range(600_000))
    seen = checked([], f"{{{names}}}".encode())
    is_so = seen.status == 2 and b'"name19" and 599980 more can\'t stand here; what can: "version"' in seen.errors and len(seen.errors) < 2_000
    tests.check("600,000 names", is_so, (seen.status, seen.errors[:200]))


def long_lists(tests):
    """One item that is wrong behind 1,400,000 that are right: its place is the one that it has in the document."""
    numbers = ",".join(map(str, range(1_400_000)))
    for item, shown in (('"x"', '"x"'), ("1e5", "1e5"), ("-0", "-0"), ("18446744073709551616", "18446744073709551616"), ("null", "null")):
        for source, place in ((f'{{"list":[{numbers},{item},5]}}', "source"), (f'{{"concat":[{{"list":[1]}},{{"list":[{numbers},{item}]}}]}}', "source.concat[1]")):
            seen = checked([], f'{{"version":2,"source":{source},"query":[]}}'.encode(), CHECK)
            line = f"plinq-check: {place}.list[1400000]: {shown} can't stand here; what can: a whole number of 64 bits, without a point or an exponent\n"
            tests.check(f"a long list with {item} in {place}", seen == Outcome(2, b"", line.encode()), seen)


def other_steps(comparing):
    """Each step alone with each value, and as_ordered and the settings in each order."""
    named = ["as_ordered", "as_unordered", "select", "filter", "select_many", "take_while", "skip_while", "take", "skip", "with_merge", "with_degree", "sort"]
    heads = [[name, *more] for name in named for more in ([], ["add"], ["even"], ["add", 1], ["even", 1], ["x+1"], ["not"])]
    steps = [*heads, *([*head, it] for head in heads for it in VALUES)]
    for version in (1, 2):
        comparing.all(f"each step of version {version}", [document(version, [it]) for it in steps])
    few = [["as_ordered"], ["as_unordered"], ["with_merge", "not"], ["with_degree", 2], ["take", 1]]
    orders = [[few[at // 5**k % 5] for k in range(4)][:length] for length in range(5) for at in range(5**length)]
    comparing.all("as_ordered and the settings in each order", [document(1, it) for it in orders])
    comparing.all("1,000 steps and one more", [document(1, [["take", 1]] * it) for it in (1_000, 1_001)])


def document(version, steps):
    return json.dumps({"version": version, "source": {"list": [1]}, "query": steps}).encode()


def places(value):
    """Each object and list of a document, the outer ones first."""
    if isinstance(value, (dict, list)):
        yield value
        for it in value.values() if isinstance(value, dict) else value:
            yield from places(it)


def change(chance, value):
    """One thing of a document made another."""
    it = chance.choice(list(places(value)))
    keys = list(it) if isinstance(it, dict) else list(range(len(it)))
    key = chance.choice(keys) if keys else None
    other = json.loads(json.dumps(chance.choice(VALUES)))
    way = chance.randrange(4)
    if way == 0 and keys:
        del it[key]
    elif way == 1 and isinstance(it, dict):
        it[chance.choice(NAMES)] = other
    elif way == 1:
        it.insert(chance.randint(0, len(it)), other)
    elif keys:
        it[key] = other


def refuses_in_a_text(source):
    return any(given(it)[1] != "end" for it in source.get("concat", [source]) if "text" in it)


def at_random(comparing, documents):
    chance = random.Random(7)
    whole, wrong = [], []
    for _ in range(400):
        version = chance.choice([1, 2])
        value = {"version": version, "source": documents.some_source(chance, version), "query": documents.some_steps(chance, version)}
        if chance.random() < 0.5:
            value["growth"] = [chance.choice([1, 2, 7]), chance.choice([1, 3]), chance.choice([7, 512])]
        if chance.random() < 0.3:
            value["aggregate"] = chance.choice(["sum", "count", "min", "max"])
        whole.append(json.dumps(value).encode())
        for _ in range(10):
            value = json.loads(whole[-1])
            for _ in range(chance.choice([1, 1, 1, 2])):
                change(chance, value)
            wrong.append(json.dumps(value).encode())
    comparing.all("random documents", whole)
    wrong_tokens = [it for it in whole if bool(list(comparing.check.remarks(json.loads(it)))) != refuses_in_a_text(json.loads(it)["source"])]
    comparing.tests.check("which texts refuse is said", not wrong_tokens, wrong_tokens[:1])
    comparing.all("random documents with a part changed", wrong)


def checked(words, text=b"", check=CHECK, **how):
    """A run of plinq-check."""
    ran = subprocess.run([check, *words], input=text, capture_output=True, timeout=HANGS, **how)
    return Outcome(ran.returncode, ran.stdout, ran.stderr)


def as_a_program(tests):
    for name, text in example_texts():
        seen = checked([os.path.join(EXAMPLES, name)])
        # (one of them has a text with a token that is no number, and says what it ends with)
        tests.check(f"plinq-check {name}", (seen.status, seen.output) == (0, b"") and bool(seen.errors) == (b"refused" in seen.errors and b"text" in text), seen)
    text = dict(example_texts())["add-one.json"]
    tests.check("plinq-check < DOCUMENT", checked([], text) == Outcome(0, b"", b""))
    with open(os.path.join(EXAMPLES, "README.md"), encoding="utf-8") as file:
        asked, told = re.search(r"^    \$ echo '(.*)' \| share/plinq-check\n((?:    .*\n)+)", file.read(), re.M).groups()
    seen = checked([], asked.encode())
    tests.check("what the page shows", seen == Outcome(2, b"", re.sub("^    ", "", told, flags=re.M).encode()), seen)
    seen = checked([], text.replace(b'"version":1', b'"version":"1"'))
    is_so = (seen.status, seen.output) == (2, b"") and seen.errors.startswith(b'plinq-check: version: "1" can\'t stand here; what can: ')
    tests.check("what is refused", is_so, seen)
    for words, how in ((["no-such-file"], {}), ([EXAMPLES], {}), ([], {"preexec_fn": lambda: os.close(0)})):
        seen = checked(words, **how)
        tests.check("what can't be read", (seen.status, seen.output) == (5, b"") and seen.errors.startswith(b"plinq-check: read failed: "), seen)
    seen = checked(["--help"])
    tests.check("help", (seen.status, seen.errors) == (0, b"") and b"plinq-check < DOCUMENT" in seen.output, seen)
    for level in ("1", "2"):
        tests.check(f"help with PYTHONOPTIMIZE={level}", checked(["--help"], env=os.environ | {"PYTHONOPTIMIZE": level}) == seen, seen)
    for streams, words, status, errors in (
        (">/dev/full", "--help", 5, b"plinq-check: write failed: [Errno 28] No space left on device\n"),
        ("2>/dev/full", "", 2, b""),
        ("2>&-", "", 2, b""),
    ):
        seen = subprocess.run(["sh", "-c", f'"$0" {words} {streams}', CHECK], input=b"{", capture_output=True, timeout=HANGS)
        tests.check(f"the status where nothing can be written: {streams}", (seen.returncode, seen.stdout, seen.stderr) == (status, b"", errors), seen)
    seen = checked(["one", "two"])
    tests.check("too many words", (seen.status, seen.output) == (2, b"") and b"plinq-check < DOCUMENT" in seen.errors, seen)
    big = b'{"version":1,"source":{"list":[' + b"1234567," * 2_000_000 + b'1]},"query":[]}'
    tests.check("a long list", checked([], big) == Outcome(0, b"", b""))


def elsewhere(tests):
    """Installed, and where no Python has the library."""
    with tempfile.TemporaryDirectory() as folder:
        os.makedirs(f"{folder}/bin")
        os.makedirs(f"{folder}/share/plinq")
        shutil.copy(CHECK, f"{folder}/bin")
        shutil.copy(f"{SHARE}/plinq.schema.json", f"{folder}/share/plinq")
        os.symlink(f"{folder}/bin/plinq-check", f"{folder}/linked")
        for it in ("bin/plinq-check", "linked"):
            tests.check(f"installed: {it}", checked([], b"[]", f"{folder}/{it}").status == 2)
        with open(f"{folder}/python3", "w", encoding="utf-8") as file:
            file.write('#!/bin/sh\nexec /usr/bin/python3 -S "$@"\n')
        os.chmod(f"{folder}/python3", 0o755)
        seen = checked([], b"[]", env={"PATH": f"{folder}:/usr/bin:/bin"})
        tests.check("the library that is missing is named", seen.status == 5 and b"python3-jsonschema" in seen.errors, seen)


def in_an_editor(tests):
    here = os.path.join(EXAMPLES, ".vscode")
    with open(f"{here}/settings.json", encoding="utf-8") as file:
        (entry,) = json.load(file)["json.schemas"]
    tests.check("the editor's settings name the schema", os.path.samefile(os.path.join(EXAMPLES, entry["url"]), f"{SHARE}/plinq.schema.json"), entry)
    tests.check("for all documents", entry["fileMatch"][0] == "*.json", entry)


def main():
    tests, check = Tests(), checker()
    comparing = Comparing(tests, check)
    changed(comparing, module(f"{ROOT}/tests/changed-documents.py"))
    other_steps(comparing)
    at_random(comparing, module(f"{ROOT}/tests/random-documents.py"))
    wants = {None, "not JSON", "too long", "wrong shape", "unknown version", "source too large", "zero", "first above max", "max too large", "unknown", "not at source", "merge twice", "degree twice", "degree out of range"}
    tests.check("every cause came", set(comparing.seen) == wants, comparing.seen)
    tests.check("many were accepted", comparing.seen[None] > 1_000, comparing.seen)
    too_many(tests)
    long_lists(tests)
    as_a_program(tests)
    elsewhere(tests)
    in_an_editor(tests)
    tests.end()


if __name__ == "__main__":
    main()
