#!/usr/bin/env python3
"""Takes the blocks of code out of docs/LIBRARY.md and tries them, in a repository of its own that has only the crates which the
page names, and imports each name of the page's tables from the prelude or the crate that the page says. Nothing is proved.

    python3 tests/library.py
"""
import os
import re
import shutil
import subprocess
import tempfile

from support.program import HANGS, ROOT, Tests

HEAD = """#![tactic(auto)]

ghost use Rattle.std.specs.Prelude.{◌≡◌, int_lt, nat_le, pos, Ok};

use anyhow::Result;
use plinq_prelude::*;
NAMES
use std::alloc::Global;
use std::sync::Wait;
use std::thread::Threads;
use std::time::Clock;

#[derive(Clone, Copy)]
struct Record<'a> {
    severity: u8,
    message: &'a str,
}

fn main(rt: HostRuntime) -> Result<()> {
    let numbers = numbers(&rt, rt.alloc())?;
    let records = records(&rt, rt.alloc())?;
    let pairs = pairs(&rt, rt.alloc())?;
    let kept = kept(&rt, rt.alloc())?;
    println!(rt; "{numbers} {records} {pairs} {kept}")?;
    Ok(())
}
"""

# what Rust has
STD = {"Option", "Reverse", "String", "Vec"}

# the function that each block stands in, by how the block begins; each answers how many items it was given
FUNCTIONS = {
    "let query": """
fn numbers<R: Clock + Threads + Wait + Sync>(rt: &R, alloc: Global) -> Result<usize> {
    let records = [1, 2, 4];
    let errors = Formula::Even;
BLOCK
    assert_end(ending, items.len())
}
""",
    "let big": """
fn pairs<R: Clock + Threads + Wait + Sync>(rt: &R, alloc: Global) -> Result<usize> {
    let numbers = [1i64, 2, 4];
BLOCK
    Ok(big.len())
}
""",
    "let flag": """
fn kept<R: Clock + Threads + Wait + Sync>(rt: &R, alloc: Global) -> Result<u64> {
    let numbers = [1i64, 2, 4, 3];
BLOCK
    Ok(kept)
}
""",
    "let chain": """
fn records<R: Clock + Threads + Wait + Sync>(rt: &R, alloc: Global) -> Result<usize> {
    let records = [Record { severity: 4, message: "a" }, Record { severity: 2, message: "b" }];
    let source = SliceSource::new(&records)?;
BLOCK
    assert_end(ending, items.iter().filter(|r| r.message == "b").count())
}
""",
}

TAIL = """
fn assert_end(ending: Ending, count: usize) -> Result<usize> {
    if ending != Ending::End {
        anyhow::bail!("it didn't end well");
    }
    Ok(count)
}
"""


def blocks(page):
    """The blocks of code of a page, each without its indentation."""
    for block in re.findall(r"(?:^    .*\n)+", page, flags=re.M):
        yield "".join(line[4:] for line in block.splitlines(keepends=True))


def names(page):
    """The types, functions and modules that the page's tables name."""
    found = set()
    for title, column in (("PLINQ's class, row by row", -1), ("The engine's queries", 0), ("Aggregates and groups", 0), ("The three traits", 0)):
        section = page.split(f"\n## {title}\n")[1].split("\n## ")[0]
        for row in re.findall(r"^\|(.*)\|$", section, flags=re.M):
            for code in re.findall(r"`([^`]+)`", re.split(r"(?<!\\)\|", row)[column]):
                found |= set(re.findall(r"(?<!:)\b[A-Z]\w+", code)) | set(re.findall(r"^([a-z]\w*)(?:::|\((?:rt|alloc|\.\.))", code))
    return found - STD


def exported(crate):
    """The names that a crate exports."""
    with open(os.path.join(ROOT, "crates", crate, "src", "lib.rt"), encoding="utf-8") as file:
        text = file.read()
    found = re.findall(r"^pub use [\w:]+::(?:\{([^}]*)\}|(\w+));", text, re.M) + [("", it) for it in re.findall(r"^pub mod (\w+);", text, re.M)]
    return {it.strip() for names, name in found for it in (names or name).split(",") if it.strip()}


def imports(found, page):
    """The line for each crate that exports some of these names, the prelude before those that the page names beside it; and what
    none exports."""
    lines, crates = [], []
    for crate in ("plinq_prelude", *re.findall(r"in `(plinq_\w+)`", page.split("\nGroups and ")[1].split("\n")[0])):
        there = found & exported(crate)
        if there:
            lines.append(f"use {crate}::{{{', '.join(sorted(there))}}};")
            crates.append(crate)
        found = found - there
    return lines, crates, found


def needed(listed, crates):
    """These crates of the repository, and those below them."""
    found, left = set(), [it for it in listed if it in crates]
    while left:
        crate = left.pop()
        if crate not in found:
            found.add(crate)
            left += [it for it in crates[crate] if it in crates]
    return found


def program(page):
    """The program of a page's blocks, and those that it has no place for."""
    text, without = HEAD, []
    for block in blocks(page):
        beginning = next((it for it in FUNCTIONS if block.startswith(it)), None)
        if beginning:
            text += FUNCTIONS[beginning].replace("BLOCK\n", block.replace("&rt,", "rt,"))
        elif not block.startswith("my_program: "):
            without.append(block)
    return text + TAIL, without


def main():
    tests = Tests()
    with open(os.path.join(ROOT, "docs", "LIBRARY.md"), encoding="utf-8") as file:
        page = file.read()
    with open(os.path.join(ROOT, "crates.txt"), encoding="utf-8") as file:
        lines = [it.split(":", 1) for it in file.read().splitlines() if it and not it.startswith("#")]
    crates = {name: below.split() for name, below in lines}
    line = re.search(r"^    my_program: (.*)$", page, flags=re.M).group(1)
    below = needed(line.split(), crates)
    named = set(re.findall(r"plinq_\w+", page))
    tests.check("the page names each crate that its line needs", len(below) > 10 and below <= named, sorted(below - named))
    text, without = program(page)
    tests.check("each block has its place in the program", not without, without)
    imported = names(page)
    uses, beside, none = imports(imported, page)
    tests.check("the tables name what is imported", len(imported) > 40 and not none, sorted(none or imported))
    text = text.replace("NAMES", "\n".join(uses))
    with tempfile.TemporaryDirectory() as top:
        below |= needed(beside, crates)
        for crate in sorted(below):
            shutil.copytree(os.path.join(ROOT, "crates", crate), os.path.join(top, "crates", crate), ignore=shutil.ignore_patterns("out"))
        shutil.copy(os.path.join(ROOT, "HANDLES"), top)
        os.makedirs(os.path.join(top, "crates", "my_program", "src"))
        with open(os.path.join(top, "crates", "my_program", "src", "main.rt"), "w", encoding="utf-8") as file:
            file.write(text)
        with open(os.path.join(top, "crates.txt"), "w", encoding="utf-8") as file:
            file.writelines(f"{it}: {' '.join(crates[it])}\n" for it in sorted(below))
            file.write(f"my_program: {line} {' '.join(beside[1:])} anyhow\n")
        tried = subprocess.run(
            ["rt", "try"], cwd=os.path.join(top, "crates", "my_program"), stdin=subprocess.DEVNULL, capture_output=True, timeout=3 * HANGS
        )
        said = (tried.stdout + tried.stderr).decode(errors="replace")
        tests.check("the page's blocks compile and answer", tried.returncode == 0 and tried.stdout.startswith(b"2 1 1 2\n"), said[-1500:])
    tests.end()


if __name__ == "__main__":
    main()
