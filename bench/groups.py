#!/usr/bin/env python3
"""Measures groups and mapped values by a program of its own beside plain loops, rayon and Java, and prints the tables of
bench/README.md.

    python3 bench/groups.py build FOLDER             # proves and builds the programs into this folder
    python3 bench/groups.py FOLDER [ROUNDS [PART]]   # measures them: the best of so many rounds, of one PART of the items

plinq's program, bench/groups/, is proved and built over a copy of the crates, whose libraries `rt ci` has left. Its files end in
.txt since rt refuses a source that stands in no crate. rayon's is built by cargo over Debian's librust-rayon-dev, Java's by javac;
if one of these isn't there, its table is left out. In a round all take turns.
"""
import glob
import os
import re
import shutil
import subprocess
import sys

ROOT = os.path.dirname(os.path.dirname(os.path.abspath(__file__)))
SOURCES = os.path.join(ROOT, "bench", "groups")
NAME = "bench_groups"
USES = "plinq_source plinq_lambda plinq_aggregate plinq_groups plinq_enumerator plinq_ops plinq_merge plinq_run plinq_mapped indexmap anyhow"
PLACES = {
    "src/main.rt": "src/main.rt.txt",
    "src/spinning.rt": "src/spinning.rt.txt",
    "specs/Lib.antt": "specs/Lib.antt.txt",
    "specs/Spinning.antt": "specs/Spinning.antt.txt",
    "proofs/spinning/spun/Invariants.antt": "proofs/spun/Invariants.antt.txt",
}
MANIFEST = '[package]\nname = "group_peer"\nversion = "0.1.0"\nedition = "2021"\n[[bin]]\nname = "group_peer"\npath = "peer.rs"\n[dependencies]\nrayon = "1.6"\n[profile.release]\ncodegen-units = 1\n[workspace]\n'
RAYON = sorted(glob.glob("/usr/share/cargo/registry/rayon-1*"))
DEFAULT, MIDDLE, LARGE = 0, 8_192, 65_536
CHEAP, HEAVY = 10_000_000, 1_000_000
ROWS = [("cheap", groups, chunk, CHEAP) for groups in (10, 1_000, 100_000) for chunk in (DEFAULT, MIDDLE, LARGE)]
ROWS += [("blocks", 65_536, 16, CHEAP), ("heavy", 1_024, DEFAULT, HEAVY), ("mapped", 1, DEFAULT, HEAVY), ("sent", 1, DEFAULT, HEAVY)]
PEAKS = [("cheap", groups, DEFAULT, CHEAP) for groups in (10, 1_000, 100_000, 1_000_000)]
KINDS = {"cheap": "cheap items", "blocks": "cheap items, expanded", "heavy": "heavy items", "mapped": "heavy maps, in a list", "sent": "heavy maps, `run_mapped`"}


def below(uses):
    """The crates of this project that a crate with these uses stands on, in their order, with what each uses."""
    with open(os.path.join(ROOT, "crates.txt"), encoding="utf-8") as file:
        lines = dict(line.rstrip("\n").split(":", 1) for line in file if ":" in line and not line.startswith("#"))
    wanted = set(uses.split())
    for name in reversed(lines):
        wanted |= set(lines[name].split()) if name in wanted else set()
    return {name: uses for name, uses in lines.items() if name in wanted}


def all_but_library(at, names):
    return [name for name in names if name != "rlib"] if os.path.basename(at) == "out" else []


def build_plinq(folder):
    crates = os.path.join(folder, "crates")
    shutil.rmtree(crates, ignore_errors=True)
    known = below(USES)
    for name in known:
        shutil.copytree(os.path.join(ROOT, "crates", name), os.path.join(crates, name), ignore=all_but_library)
    for place, source in PLACES.items():
        os.makedirs(os.path.dirname(os.path.join(crates, NAME, place)), exist_ok=True)
        shutil.copy(os.path.join(SOURCES, source), os.path.join(crates, NAME, place))
    shutil.copy(os.path.join(ROOT, "HANDLES"), folder)
    with open(os.path.join(folder, "crates.txt"), "w", encoding="utf-8") as file:
        file.writelines(f"{name}:{uses}\n" for name, uses in (known | {NAME: " " + USES}).items())
    ran = subprocess.run(["rt", "run", "--", "cheap", "1", "10", "0", "10"], cwd=os.path.join(crates, NAME), stdout=subprocess.PIPE, stderr=subprocess.STDOUT, text=True)
    if ran.returncode:
        sys.exit(ran.stdout)
    shutil.copy(os.path.join(crates, NAME, "out", NAME), os.path.join(folder, "plinq"))
    shutil.rmtree(crates)


def build_rayon(folder):
    if not RAYON or not shutil.which("cargo"):
        print("rayon's is left out: cargo or librust-rayon-dev isn't there")
        return
    work = os.path.join(folder, "rayon")
    os.makedirs(work, exist_ok=True)
    shutil.copy(os.path.join(SOURCES, "peers", "peer.rs"), work)
    with open(os.path.join(work, "Cargo.toml"), "w", encoding="utf-8") as file:
        file.write(MANIFEST)
    debian = ["--config", 'source.crates-io.replace-with="debian"', "--config", f'source.debian.directory="{os.path.dirname(RAYON[-1])}"']
    subprocess.run(["cargo", "build", "-q", "--release", "--offline", *debian], cwd=work, check=True)
    shutil.copy(os.path.join(work, "target", "release", "group_peer"), os.path.join(folder, "rayon_peer"))


def build_java(folder):
    if not shutil.which("javac"):
        print("Java's is left out: javac isn't there")
        return
    subprocess.run(["javac", "-d", os.path.join(folder, "java"), os.path.join(SOURCES, "peers", "GroupPeer.java")], check=True)


def microseconds(program, work, workers, groups, chunk, count):
    """How long it took, and the peak of its memory in megabytes."""
    ran = subprocess.Popen([program, work, *map(str, (workers, groups, chunk, count))], stdout=subprocess.PIPE, text=True)
    said = ran.stdout.read()
    _, status, used = os.wait4(ran.pid, 0)
    ran.returncode = os.waitstatus_to_exitcode(status)
    if ran.returncode:
        sys.exit(f"{work} by {workers}: status {ran.returncode}")
    return int(re.match(r"(\d+) us", said)[1]), used.ru_maxrss // 1024


def note(best, key, taken):
    best[key] = min(taken, best.get(key, taken))


def round_of_plinq(program, part, best, peaks):
    for row in ROWS:
        for workers in (0, 1, 4):
            count = row[3] // part
            note(best, (row, workers), microseconds(program, row[0], workers, row[1], row[2], count)[0])
    for row in PEAKS:
        for workers in (0, 4):
            note(peaks, (row, workers), microseconds(program, row[0], workers, row[1], row[2], row[3] // part)[1])


def round_of_peers(folder, part, best):
    """Each prints a line a row: the work, its groups, how it was done, and milliseconds."""
    commands = [[os.path.join(folder, "rayon_peer"), str(part)], ["java", "-cp", os.path.join(folder, "java"), "GroupPeer", str(part)]]
    for command, there in zip(commands, (commands[0][0], os.path.join(folder, "java"))):
        if not os.path.exists(there):
            continue
        said = subprocess.run(command, stdout=subprocess.PIPE, check=True, text=True).stdout
        for line in said.splitlines():
            work, groups, how, ms = re.match(r"(\w+) (\d+) (.*): ([\d.]+) ms", line).groups()
            note(best, (work, int(groups), how), float(ms))


def print_plinq(best, part):
    print("| work | groups | chunks up to | loop | 1 worker | 4 | 4 to 1 | 4 to the loop |\n|---|---|---|---|---|---|---|---|")
    for row in ROWS:
        loop, one, four = (best[row, workers] / 1000 for workers in (0, 1, 4))
        words = [f"{row[3] // part:,} {KINDS[row[0]]}", f"{row[1]:,}" if row[1] > 1 else "", f"{row[2] or 512:,}", *(f"{ms:.0f} ms" for ms in (loop, one, four)), f"x{one / four:.1f}", f"x{loop / four:.1f}"]
        print("| " + " | ".join(words) + " |")


def print_peers(best, peers):
    hows = ["threads 0", "threads 4", "java loop", "java groupingBy", "java groupingByConcurrent"]
    print("\n| work | groups | Rust's loop | rayon by 4 | Java's loop | `groupingBy` by 4 | `groupingByConcurrent` by 4 | plinq by 4, the best of its chunks |\n" + "|---" * 8 + "|")
    for work, groups in sorted({key[:2] for key in peers}, key=lambda key: (key[0], key[1])):
        own = [best[row, 4] / 1000 for row in ROWS if row[0] == work and (row[1] == groups or work == "mapped")]
        ms = [f"{peers[work, groups, how]:.0f} ms" if (work, groups, how) in peers else "" for how in hows]
        print("| " + " | ".join([work, f"{groups:,}" if groups else "", *ms, f"{min(own):.0f} ms" if own else ""]) + " |")


def print_peaks(peaks):
    print("\n| groups | peak of the loop | peak by 4 workers |\n|---|---|---|")
    for row in PEAKS:
        print(f"| {row[1]:,} | {peaks[row, 0]} MB | {peaks[row, 4]} MB |")


def main():
    words = sys.argv[1:]
    if len(words) == 2 and words[0] == "build":
        os.makedirs(words[1], exist_ok=True)
        for build in (build_plinq, build_rayon, build_java):
            build(os.path.abspath(words[1]))
        return
    if not 1 <= len(words) <= 3:
        sys.exit(__doc__)
    folder, rounds, part = os.path.abspath(words[0]), int(words[1]) if len(words) > 1 else 1, int(words[2]) if len(words) > 2 else 1
    best, peaks, peers = {}, {}, {}
    for _ in range(rounds):
        round_of_plinq(os.path.join(folder, "plinq"), part, best, peaks)
        round_of_peers(folder, part, peers)
    print_plinq(best, part)
    print_peers(best, peers)
    print_peaks(peaks)


if __name__ == "__main__":
    main()
