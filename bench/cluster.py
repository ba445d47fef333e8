#!/usr/bin/python3
"""Seconds of documents by a Dask cluster on this machine, beside `plinq run` by as many threads. It wants python3-distributed.

    bench/cluster.py NAME..     # of: cheap, printed, heavy, text, shards; each is one table
"""
import json
import os
import subprocess
import sys
import tempfile
import time

ROOT = os.path.dirname(os.path.dirname(os.path.abspath(__file__)))
PROGRAM = os.path.join(ROOT, "crates", "plinq", "out", "plinq")
sys.path.insert(0, os.path.join(ROOT, "cluster"))

from plinq_shards import answer, cluster, document, progress, shard, workers  # noqa: E402

CHEAP = [["as_ordered"], ["select", "add", 1], ["filter", "even"]]
# 60 steps, about a tenth of a microsecond an element: 1,000 million of them take a thread some two minutes.
HEAVY = [["as_ordered"], *[["select", "mul", 31], ["select", "add", 7], ["select", "mod", 1_000_003]] * 20]
THREADS = (1, 2, 4)


def seconds(work):
    """How long a piece of work takes."""
    began = time.perf_counter()
    work()
    return time.perf_counter() - began


def alone(text, threads):
    """One process of `plinq`, whose output is dropped."""
    subprocess.run([PROGRAM, "run", "--workers", str(threads)], input=text, stdout=subprocess.DEVNULL, check=True)


def shared(client, text, count=None, file=None):
    """The same by a cluster, whose output is dropped."""
    asked = document.understood(PROGRAM, text)
    there = cluster.Cluster(client, "scheduler", PROGRAM, asked.degree, progress.Progress(None))
    cut = shard.Cut(count, there.threads, shard.elements_for(asked.steps, asked.aggregate))
    parts = shard.of_text(*file, cut) if file else shard.parts_of(asked.source, cut)
    with open(os.devnull, "wb", buffering=0) as nowhere:
        answer.show(there, asked, shard.shards(parts), nowhere.write)


def table(name, texts):
    """One table: a row for each size, by so many threads and by so many workers."""
    print(f"{name}: seconds by {', '.join(map(str, THREADS))} threads of one process, and by as many workers")
    rows = {size: [seconds(lambda: alone(text, it)) for it in THREADS] for size, text in texts.items()}
    for count in THREADS:
        with workers.local(count) as client:
            shared(client, next(iter(texts.values())))
            for size, text in texts.items():
                rows[size].append(seconds(lambda: shared(client, text)))
    for size, row in rows.items():
        print(f"{size:>12,}", *(f"{it:8.2f}" for it in row), flush=True)


def over(sizes, query, **more):
    """Documents over ranges of these sizes."""
    return {it: json.dumps({"version": 1, "source": {"range": [0, it]}, "query": query, **more}).encode() for it in sizes}


def of_a_shard():
    """What a shard more costs: the same small range by few and by many."""
    text = over([100_000], CHEAP, aggregate="sum")[100_000]
    with workers.local(4) as client:
        shared(client, text, 20)
        few, many = (min(seconds(lambda: shared(client, text, it)) for _ in range(2)) for it in (100, 600))
    print(f"a shard: {(many - few) * 2:.2f} ms", flush=True)


def of_text():
    """A text of 100 MB, which no document holds."""
    with tempfile.TemporaryDirectory() as folder, open(f"{folder}/numbers", "w+b") as file:
        file.writelines(b"%d\n" % it for it in range(10_000_000, 21_000_000))
        length = file.tell()
        text = json.dumps({"version": 1, "source": {"text": ""}, "query": CHEAP, "aggregate": "sum"}).encode()
        for count in THREADS:
            with workers.local(count) as client:
                shared(client, text)
                file.seek(0)
                took = seconds(lambda: shared(client, text, file=(file, length)))
                print(f"text of {length:,} bytes by {count} workers: {took:.2f} s", flush=True)


TABLES = {
    "cheap": lambda: table("sum of cheap formulas", over([10**7, 10**8, 10**9], CHEAP, aggregate="sum")),
    "printed": lambda: table("cheap formulas, printed", over([10**7], CHEAP)),
    # It takes ten minutes.
    "heavy": lambda: table("sum of 60 steps", over([10**7, 10**8, 10**9], HEAVY, aggregate="sum")),
    "shards": of_a_shard,
    "text": of_text,
}


def main():
    workers.be_quiet()
    for name in sys.argv[1:]:
        TABLES[name]()


if __name__ == "__main__":
    main()
