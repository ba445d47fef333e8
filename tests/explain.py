#!/usr/bin/env python3
"""share/plinq-explain beside `plinq plan` and the answers of documents: what it says of the examples and of documents by chance, that
what it advises keeps the answer, and how it ends.

    python3 tests/explain.py
"""
import json
import os
import random
import re
import shutil
import subprocess
import tempfile

from support.program import EXAMPLES, HANGS, ROOT, Outcome, Tests, build, run

EXPLAIN = os.path.join(ROOT, "share", "plinq-explain")
DOCUMENTS = 300
FORMULAS = {
    "select": (["add", 1], ["mul", 3], ["mod", 7], ["into", 100], ["mul", 2**62]),
    "filter": (["even"], ["below", 40], ["above", 3]),
    "take_while": (["below", 60], ["even"]),
    "skip_while": (["below", 5], ["even"]),
}


def explained(text, *words, **how):
    return run(list(words), text, EXPLAIN, **how)


def document(steps, **more):
    return json.dumps({"version": 2, "source": {"range": [-5, 90]}, "query": steps, **more}).encode()


def step_by_chance(chance):
    name = chance.choice(["select", "select", "select", "filter", "take", "take", "skip", "take_while", "skip_while", "select_many"])
    if name in ("take", "skip"):
        return [name, chance.randrange(0, 9)]
    if name == "select_many":
        return [name, "repeat", 2]
    return [name, *chance.choice(FORMULAS[name])]


def words(step):
    return " ".join(map(str, step))


def moved(steps, after, selects):
    """The steps with these selects before the first of the last ones, so many, of which they are the first selects."""
    begin = len(steps) - after
    places = [n for n in range(begin, len(steps)) if steps[n][0] == "select"][: len(selects)]
    assert [words(steps[n]) for n in places] == selects
    return [*steps[:begin], *(steps[n] for n in places), *(it for n, it in enumerate(steps) if n >= begin and n not in places)]


def by_chance(tests):
    """Of documents by chance each step is named once as the workers' or the thread's, as `plinq plan` has it; and whatever it says is
    to be put before a Take leaves the answer as it was."""
    chance, advised = random.Random(7), 0
    for _ in range(DOCUMENTS):
        steps = [["as_ordered"]] * chance.randrange(2) + [step_by_chance(chance) for _ in range(chance.randrange(6))]
        text = document(steps)
        seen, plan = explained(text, "--workers", "3"), run(["plan", "--workers", "3"], text).output.decode().splitlines()
        said = seen.output.decode()
        parts = dict(it.split(" ", 1) for it in plan)
        listed = [re.search(form, said) for form in (r"each element: (.*)\.", r"One thread then does (.*), and prints\.")]
        found = [it[1].replace(" and ", ", ") if it else "none" for it in listed]
        is_so = (seen.status, seen.errors) == (0, b"") and found == [parts["worker"], parts["after"]]
        tests.check(f"the parts of {steps}", is_so, (seen, plan))
        for selects, take in re.findall(r"  Put (select .*) before (take \d+): ", said):
            advised += 1
            last = parts["after"].split(", ")
            before, after = (run(["seq"], document(it)) for it in (steps, moved(steps, len(last), selects.replace(" and ", ", ").split(", "))))
            tests.check(f"{selects} before {take} in {steps}", before == after and take == last[0], (str(before), str(after)))
    tests.check("some were advised", advised > 10, advised)


def reasons(tests):
    """Why one thread does what it does, by the first step of its part."""
    for steps, why in (
        ([["as_ordered"], ["filter", "even"], ["take", 3]], "take 3 goes by an element's position, which nobody knows after filter even"),
        ([["as_ordered"], ["skip_while", "even"]], "skip_while even looks at one element after another"),
        ([["take", 3]], "take 3 goes by an element's position, and without as_ordered"),
        ([["as_ordered"], ["as_unordered"], ["take", 3]], "From as_unordered on elements count as results come"),
    ):
        seen = explained(document(steps))
        tests.check(f"why: {steps}", f"\n  {why}" in seen.output.decode(), seen)
    for more, said in (
        ({"growth": [2, 3, 512]}, "Chunks begin with 2 elements and double every 3, up to 512, as the document says.\n  For cheap elements"),
        ({"growth": [2, 3, 4096]}, "up to 4096, as the document says.\n"),
        ({}, "Each worker doubles its chunks while one takes less than 25 microseconds.\n"),
        ({"aggregate": "sum"}, "The workers also fold what they have made, and one thread combines the parts to the sum.\n"),
    ):
        seen = explained(document([["filter", "even"]], **more)).output.decode()
        is_advised = ("For cheap elements" in seen) == ("For cheap elements" in said)
        tests.check(f"of {more}", said in seen and is_advised and ("prints" not in seen or "aggregate" not in more), seen)
    seen = explained(document([["select_many", "repeat", 2]])).output
    tests.check("of an operator that expands", b"Chunks grow up to 512 elements" in seen, seen)
    for count, is_few in ((4_999, True), (5_000, False)):
        text = json.dumps({"version": 1, "source": {"range": [0, count]}, "query": []}).encode()
        seen = explained(text).output
        tests.check(f"of {count} elements", (b"`plinq seq` is enough" in seen) == is_few, seen)


def cores(tests):
    """What it says of workers, by the cores that it may use."""
    text = json.dumps({"version": 1, "source": {"range": [0, 10**6]}, "query": []}).encode()
    one = {"preexec_fn": lambda: os.sched_setaffinity(0, {min(os.sched_getaffinity(0))})}
    for workers, how, said in (("1", one, None), ("2", one, b"may use 1 cores: more workers pay only"), ("64", {}, b"more workers pay only")):
        seen = explained(text, "--workers", workers, **how).output
        tests.check(f"{workers} workers", said in seen if said else b"cores" not in seen, seen)


def endings(tests):
    """The statuses and lines of `plinq plan`, and what is its own."""
    for text in (b"[", b"{}", b'{"version":3}', document([["sort"]])):
        seen, plan = explained(text), run(["plan"], text)
        tests.check(f"refused: {text}", seen == plan and seen.status == 2, (seen, plan))
    seen = explained(document([]), "--workers", "65")
    tests.check("an option that is refused", seen.status == 2 and b"65 is not in 1..=64" in seen.errors, seen)
    seen = explained(b"", "/nowhere")
    tests.check("a file that isn't there", (seen.status, seen.output) == (5, b"") and seen.errors.startswith(b"plinq-explain: read failed: "), seen)
    helped = explained(b"", "--help")
    tests.check("help", (helped.status, helped.errors) == (0, b"") and b"plinq-explain [--workers N]" in helped.output, helped)
    for level in ("1", "2"):
        tests.check(f"help with PYTHONOPTIMIZE={level}", explained(b"", "--help", env=os.environ | {"PYTHONOPTIMIZE": level}) == helped)
    with tempfile.TemporaryDirectory() as folder:
        shutil.copy(EXPLAIN, folder)
        for made, why in ((None, "plinq: No such file or directory"), ("echo 4 workers", f"{folder}/plinq printed no plan: is it plinq?")):
            if made:
                with open(f"{folder}/plinq", "w", encoding="utf-8") as file:
                    file.write(f"#!/bin/sh\n{made}\n")
                os.chmod(f"{folder}/plinq", 0o755)
            seen = run([], document([]), f"{folder}/plinq-explain", env={"PATH": "/usr/bin:/bin"})
            tests.check(f"beside {made}", seen == Outcome(5, b"", f"plinq-explain: {why}\n".encode()), seen)
    two = explained(b"", "one", "two")
    tests.check("two files", two == Outcome(2, b"", helped.output), two)
    for streams, status, errors in (
        (">/dev/full", 5, b"plinq-explain: write failed: [Errno 28] No space left on device\n"),
        (">/dev/full 2>&-", 5, b""),
        ("<&-", 5, b"plinq-explain: read failed: [Errno 9] Bad file descriptor\n"),
    ):
        seen = subprocess.run(["sh", "-c", f'"$0" {streams}', EXPLAIN], input=document([]), capture_output=True, timeout=HANGS)
        tests.check(f"streams: {streams}", (seen.returncode, seen.stderr) == (status, errors), seen)


def pages(tests):
    """What the page of examples shows, and that each example is explained."""
    with open(os.path.join(EXAMPLES, "README.md"), encoding="utf-8") as file:
        asked, options, told = re.search(r"^    \$ echo '(.*)' \| share/plinq-explain (.*)\n((?:    .*\n)+)", file.read(), re.M).groups()
    seen = explained(asked.encode(), *options.split()).output.decode()
    wanted = re.sub("^    ", "", told, flags=re.M)
    tests.check("what the page shows", seen.startswith(wanted), seen)
    for name in sorted(os.listdir(EXAMPLES)):
        if name.endswith(".json"):
            seen = explained(b"", os.path.join(EXAMPLES, name))
            tests.check(f"plinq-explain {name}", (seen.status, seen.errors) == (0, b"") and seen.output.count(b"\n") > 2, seen)


def main():
    build()
    tests = Tests()
    by_chance(tests)
    reasons(tests)
    cores(tests)
    endings(tests)
    pages(tests)
    tests.end()


if __name__ == "__main__":
    main()
