#!/usr/bin/env python3
"""Compares the lists of docs/CHANGING.md with the crates, the cluster, share/ and the tests' models: the files that a new operator,
formula, aggregate or option touches are those in whose code a neighbour of it is named.

    python3 tests/changing.py
"""
import os
import re

from support.program import ROOT, Tests

# `plinq lines` has steps of its own, some of which have an operator's name.
OF_LINES = r"crates/plinq_text"
OF_DOCUMENTS = rf"(?!{OF_LINES})"
# what is added, a neighbour's names, and where these are looked for
NEIGHBOURS = (
    ("An operator", r"SkipWhile|SkippingWhile|skip_while|skipped_while", OF_DOCUMENTS),
    ("A formula", r"UpTo|up_to(?=\")", OF_DOCUMENTS),
    ("An aggregate", r"Min|min(?=\")", OF_DOCUMENTS),
    ("An option of the command line", r"cancel_after", OF_DOCUMENTS),
    ("A step of lines", r"SkipWhile|skip_while", OF_LINES),
)

# rows are worked examples, a lib lists what its crate has, and laws retell what is listed
APART = r"Rows\.antt|/Lib\.antt|/lib\.rt|/laws\.rt|/tests/support/(?:large|distinct)\.py"


def code(path):
    """What stands in a file, without comments."""
    with open(os.path.join(ROOT, path), encoding="utf-8") as file:
        text = file.read()
    return re.sub(r"//.*" if path.endswith(".rt") else r"^\s*--.*", "", text, flags=re.M)


def files():
    """The sources, specifications and proofs of all crates but those of tests and examples, and what else knows the language of
    documents: the cluster, the schema, and the models of the tests."""
    for crate in sorted(os.listdir(os.path.join(ROOT, "crates"))):
        if crate.endswith(("_tests", "_testing", "_example", "_bench")):
            continue
        for part in ("src", "specs", "proofs"):
            for at, _, names in os.walk(os.path.join(ROOT, "crates", crate, part)):
                yield from (os.path.relpath(os.path.join(at, it), ROOT) for it in sorted(names))
    for folder in ("cluster/plinq_shards", "tests/support"):
        yield from (f"{folder}/{it}" for it in sorted(os.listdir(os.path.join(ROOT, folder))) if it.endswith(".py"))
    yield from ("share/plinq.schema.json", "share/plinq-check")


def listed(page, what):
    """The files that the page lists for what is added."""
    begin = page.index(f"**{what}**")
    end = page.find("\n**", begin + 1)
    crates = {f"crates/{it}" for it in re.findall(r"`(plinq_\w+/(?:src|specs|proofs)/[\w./]+)`", page[begin:end])}
    return crates | set(re.findall(r"`((?:cluster|share|tests)/[\w./-]+)`", page[begin:end]))


def main():
    tests = Tests()
    with open(os.path.join(ROOT, "docs", "CHANGING.md"), encoding="utf-8") as file:
        page = file.read()
    texts = {it: code(it) for it in files()}
    for what, names, place in NEIGHBOURS:
        named = {it for it, text in texts.items() if re.match(place, it) and re.search(rf"\b(?:{names})\b", text) and not re.search(APART, f"/{it}")}
        missing = sorted(named - listed(page, what))
        tests.check(f"{what}: each of {len(named)} files that know its neighbour is listed", len(named) > 3 and not missing, missing)
        gone = sorted(it for it in listed(page, what) if not os.path.exists(os.path.join(ROOT, it)))
        tests.check(f"{what}: each listed file is there", not gone, gone)
    tests.end()


main()
