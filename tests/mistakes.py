#!/usr/bin/env python3
"""The likeliest mistakes of a user, and what plinq and plinq-check say of each: the table of tests/MISTAKES.md.

    python3 tests/mistakes.py
"""
import os
import re

from support.checking import CHECK, checker
from support.program import ROOT, Tests, build, run

SIGNS = {"<LF>": "\n", "<BOM>": "\ufeff"}
USAGE = re.compile(r"^Usage: plinq .* < DOCUMENT$", re.M)


def rows():
    """The rows of the table: a mistake, the command's words, the document or None, and the lines of both."""
    with open(os.path.join(ROOT, "tests", "MISTAKES.md"), encoding="utf-8") as file:
        lines = [it for it in file.read().splitlines() if it.startswith("|")]
    for line in lines[2:]:
        yield [it.strip().strip("`") for it in line.strip("|").split(" | ")]


def bytes_of(document):
    for sign, it in SIGNS.items():
        document = document.replace(sign, it)
    return document.removeprefix("<UTF-16>").encode("utf-16") if document.startswith("<UTF-16>") else document.encode()


def first_line(seen):
    """What a user reads first of what is said: on standard error, or the ending of an answer."""
    lines = seen.errors.decode().splitlines() or seen.output.decode().splitlines()[-1:]
    return lines[0] if lines else ""


def main():
    checker()
    build()
    tests = Tests()
    found = list(rows())
    for mistake, words, document, told, of_check, status in found:
        words, name = words.split()[1:], f"{mistake}: {words} {document}"
        if document == "-":
            seen = run(words)
            tests.check(f"{name}: the line", (seen.status, first_line(seen)) == (int(status), told), seen)
            says = "-"
            tests.check(f"{name}: what to do", (USAGE.search(seen.errors.decode()) or b"try '--help'" in seen.errors), seen)
        else:
            text = bytes_of(document)
            seen, check = run(words, text), run([], text, CHECK)
            tests.check(f"{name}: the line", (seen.status, first_line(seen)) == (int(status), told), seen)
            says = first_line(check)
            # (a text that refuses is a document as any other)
            tests.check(f"{name}: the status of plinq-check", check.status == (0 if status == "3" else 2), check)
        tests.check(f"{name}: plinq-check", says == of_check, says)
    documents = [it for it in found if it[2] != "-"]
    tests.check("34 mistakes in documents, and more in words", len(documents) >= 34 and len(found) > len(documents) + 10, len(found))
    tests.check("each is in the table once", len({tuple(it[1:3]) for it in found}) == len(found))
    tests.end()


if __name__ == "__main__":
    main()
