#!/usr/bin/env python3
"""Measures the merger by a program of its own, and prints the table of bench/README.md.

    python3 bench/merge.py

The program is made in a temporary folder, over this repository's crates as they are built, and run under callgrind.
"""
import math
import os
import re
import shutil
import subprocess
import sys
import tempfile

ROOT = os.path.dirname(os.path.dirname(os.path.abspath(__file__)))
BELOW = ["plinq_words", "plinq_source", "plinq_lambda", "plinq_keyed", "plinq_ops", "plinq_reorder", "plinq_merge"]

PROGRAM = """
//! Makes results, and offers them to a merger: WHAT COUNT LENGTH.
#![tactic(auto)]

ghost use Rattle.std.specs.Prelude.{◌≤◌, ◌<◌, ◌^◌, ⊤, length, IfOk};
ghost use Rattle.plinq_ops.specs.Tails.{end_of_result};

use plinq_keyed::Tail;
use plinq_lambda::Formula;
use plinq_merge::{Merger, Sink};
use plinq_ops::{BuildFault, ChunkResult, FragEnd, MergeOption, Query};
use std::alloc::{AllocError, Global};
use std::process::ExitCode;
use std::{env, io};

/// Counts batches.
#[derive(Drop)]
struct Counted {
    batches: u64,
}

impl Sink for Counted {
    type Item = i64;

    ghost accepts = { λ _ _ _. ⊤ };

    ghost refuses = { λ _ _ _ _. ⊤ };

    fn batch(&mut self, _items: &[i64]) -> Result<(), u32> {
        self.batches = self.batches.wrapping_add(1);
        Ok(())
    }
}

/// What is done with the results.
#[derive(Clone, Copy, PartialEq, Eq)]
enum Work {
    Make,
    Auto,
    Not,
    Take,
    Reverse,
}

fn work_of(word: &str) -> Work {
    match word {
        "auto" => Work::Auto,
        "not" => Work::Not,
        "take" => Work::Take,
        "reverse" => Work::Reverse,
        _ => Work::Make,
    }
}

fn query_of(alloc: Global, work: Work) -> Result<Query<Formula>, BuildFault> {
    let query = Query::new(alloc).as_ordered().map_err(|(_, fault)| fault)?;
    if work != Work::Take {
        return Ok(query);
    }
    query
        .filter(Formula::Above(-1))
        .map_err(|(_, fault)| fault)?
        .take(1_000_000_000)
        .map_err(|(_, fault)| fault)
}

fn result_of(
    alloc: Global,
    at: u64,
    count: u64,
    items: &[i64],
) -> Result<ChunkResult<i64>, AllocError>
    requires { at < count × count ≤ 10000000 × length items.now ≤ 512 }
    ensures { IfOk result (λ made. end_of_result made ≤ 2 ^ 40) }
{
    let length = items.len() as u64;
    let tail = if at + 1 == count {
        Some(Tail::Ended)
    } else {
        None
    };
    Ok(ChunkResult {
        first: at * length,
        count: length,
        items: Vec::from_slice(alloc, items)?,
        ending: FragEnd::More,
        stop: None,
        tail,
    })
}

fn offer_all(alloc: Global, work: Work, count: u64, items: &[i64]) -> Option<u64>
    requires { count ≤ 10000000 × length items.now ≤ 512 }
{
    let query = query_of(alloc, work).ok()?;
    let option = if work == Work::Not {
        MergeOption::NotBuffered
    } else {
        MergeOption::AutoBuffered
    };
    let mut merger = Merger::new(alloc, &query.split(), option).ok()?;
    let mut sink = Counted { batches: 0 };
    for turn in 0..count {
        let at = if work == Work::Reverse {
            count - 1 - turn
        } else {
            turn
        };
        let made = result_of(alloc, at, count, items).ok()?;
        if work == Work::Make {
            sink.batches = sink.batches.wrapping_add(made.items.len() as u64);
        } else {
            merger.offer(made, &mut sink).ok()?;
        }
    }
    Some(sink.batches)
}

fn run(rt: &HostRuntime) -> io::Result<Option<u64>> {
    let words: Vec<String> = env::args(rt)?.collect(rt.alloc())?;
    let numbers = [7; 512];
    let (Some(what), Some(count), Some(length)) = (words.get(1), words.get(2), words.get(3)) else {
        return Ok(None);
    };
    let (Ok(count), Ok(length)) = (count.parse::<u64>(), length.parse::<usize>()) else {
        return Ok(None);
    };
    if count > 10_000_000 || length > 512 {
        return Ok(None);
    }
    Ok(offer_all(rt.alloc(), work_of(what), count, &numbers[..length]))
}

fn main(rt: HostRuntime) -> ExitCode {
    match run(&rt) {
        Ok(Some(batches)) => {
            let _ = println!(rt; "{batches}");
            ExitCode::SUCCESS
        }
        _ => ExitCode::FAILURE,
    }
}
"""


def build(folder):
    """Makes the program in a folder that has this repository's crates, and answers its path."""
    crates = os.path.join(folder, "crates")
    source = os.path.join(crates, "merge_bench", "src")
    os.makedirs(source)
    for name in BELOW:
        shutil.copytree(os.path.join(ROOT, "crates", name), os.path.join(crates, name), ignore=shutil.ignore_patterns("incremental"))
    with open(os.path.join(ROOT, "crates.txt")) as listed:
        lines = [it for it in listed if it.split(":")[0] in BELOW]
    with open(os.path.join(folder, "crates.txt"), "w") as written:
        written.writelines(lines + [f"merge_bench: {' '.join(BELOW)}\n"])
    with open(os.path.join(source, "main.rt"), "w") as written:
        written.write(PROGRAM.lstrip())
    subprocess.run(["git", "init", "-q", folder], check=True)
    ran = subprocess.run(["rt", "run", "--", "make", "1", "1"], cwd=os.path.dirname(source), stdout=subprocess.PIPE, stderr=subprocess.STDOUT, text=True)
    if ran.returncode:
        sys.exit(ran.stdout)
    return os.path.join(crates, "merge_bench", "out", "merge_bench")


def instructions(program, what, count, length):
    with tempfile.TemporaryDirectory() as folder:
        tool = ["valgrind", "--tool=callgrind", f"--callgrind-out-file={os.path.join(folder, 'out')}"]
        said = subprocess.run(tool + [program, what, str(count), str(length)], stdout=subprocess.DEVNULL, stderr=subprocess.PIPE, check=True)
    return int(re.search(rb"Collected : (\d+)", said.stderr).group(1))


def slope(program, what, low, high, length):
    """Instructions a result, by callgrind's slope between two counts, less those of making it."""
    offered, made = [(instructions(program, it, high, length) - instructions(program, it, low, length)) / (high - low) for it in (what, "make")]
    return offered - made


def main():
    if not shutil.which("valgrind"):
        sys.exit("valgrind isn't there: apt-get install valgrind")
    with tempfile.TemporaryDirectory() as folder:
        program = build(folder)
        print("| results of 512 items in order | instructions |\n|---|---|")
        for name, what, each in (
            ("AutoBuffered, nothing after the merge", "auto", "an item"),
            ("NotBuffered, nothing after the merge", "not", "a batch, with the sink's"),
            ("AutoBuffered, one Take after the merge", "take", "an item"),
        ):
            print(f"| {name} | {slope(program, what, 100, 1_100, 512) / 512:.1f} {each} |")
        print("\n| results of one item backwards | instructions an offer | for each doubling |\n|---|---|---|")
        for count in (1_000, 10_000, 100_000):
            offer = (instructions(program, "reverse", count, 1) - instructions(program, "make", count, 1)) / count
            print(f"| {count:,} | {offer:.0f} | {offer / math.log2(count):.0f} |")


if __name__ == "__main__":
    main()
