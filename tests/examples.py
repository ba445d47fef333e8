#!/usr/bin/env python3
"""Runs each row of the tables in examples/README.md through ./plinq, and compares every byte.

    python3 tests/examples.py

A row has a document (a file of examples/, or its text), a command, what it prints (or, in a table with the column 'says',
its line on standard error) and the exit status. A table that has a call of the program in a cell, and other columns than
these, is a failure.
"""
import os
import re

from support.program import EXAMPLES, Outcome, Tests, build, run


COLUMNS = (["document", "command", "prints", "status"], ["document", "command", "says", "status"])


def cells(line):
    return [it.strip() for it in line.strip().strip("|").split("|")]


def rows(page):
    """The rows of each table that calls the program, as (line number, columns by name); None where it has other columns."""
    names = None
    for number, line in enumerate(page.splitlines(), 1):
        if not line.startswith("|"):
            names = None
        elif names is None:
            names = cells(line)
        elif names in COLUMNS and not re.fullmatch(r"[|\- ]+", line):
            yield number, dict(zip(names, cells(line), strict=True))
        elif any(it.startswith("`plinq ") for it in cells(line)):
            yield number, None


def code(cell):
    return re.fullmatch(r"`([^`]+)`", cell)[1]


def document(cell):
    named = re.fullmatch(r"\[([\w.-]+)\]\(\1\)", cell)
    if not named:
        return code(cell).encode()
    with open(os.path.join(EXAMPLES, named[1]), "rb") as file:
        return file.read()


def lines(cell):
    return "".join(code(it) + "\n" for it in cell.split(" / ")).encode()


def main():
    build()
    tests = Tests()
    with open(os.path.join(EXAMPLES, "README.md"), encoding="utf-8") as file:
        page = file.read()
    told = set()
    for number, row in rows(page):
        if row is None:
            tests.check(f"examples/README.md, line {number}", False, f"its table has other columns than one of {COLUMNS}")
            continue
        program, *words = code(row["command"]).split()
        assert program == "plinq", row
        says, prints = (lines(row[it]) if it in row else b"" for it in ("says", "prints"))
        seen = run(words, document(row["document"]))
        wanted = Outcome(int(row["status"]), prints, says)
        tests.check(f"examples/README.md, line {number}", seen == wanted, f"wanted {wanted}; seen {seen}")
        told.add(row["document"])
    shown = {it for it in os.listdir(EXAMPLES) if it.endswith(".json")}
    missing = sorted(it for it in shown if f"[{it}]({it})" not in told)
    tests.check("each file of examples/ has a row", not missing, ", ".join(missing))
    tests.end()


if __name__ == "__main__":
    main()
