#!/usr/bin/env python3
"""docs/TRUSTED.md and docs/trusted/ beside what tools/trusted makes of the sources, whether a second way reaches the same, what the tool does with
words that it can't follow, and whether specs/inner/ of each crate has just what no public contract reaches.

    python3 tests/trusted.py
"""
import functools
import os
import re
import shutil
import subprocess
import sys
import tempfile

from support.program import ROOT, Tests

sys.path.insert(0, os.path.join(ROOT, "tools"))
from trusting.contracts import contract_at
from trusting.pages import pages
from trusting.reading import Reading
from trusting.rust import sources
from trusting.words import OWN

HEADLINE = "crates/plinq_run/specs/Headline.antt"
RUNNING = "crates/plinq_run/src/running.rt"
# A contract, a file, what stands there once, what stands there in a copy of the sources in which that contract can't be followed, and
# what the tool says of it.
LOST = {
    "an import that is gone": ("run:ordered", HEADLINE, "Sending.{Leads}", "Sending.{TakesBeginning}", "can't follow Leads"),
    "a definition that is gone": (
        "run:ordered",
        "crates/plinq_ops/specs/Query.antt",
        "pub record QueryView (",
        "pub record QueriesView (",
        "has no QueryView",
    ),
    "a module that is gone": ("run:ordered", HEADLINE, "specs.Meaning.{", "specs.Meanings.{", "there is no file"),
    "a clause that is gone": ("run:ordered", RUNNING, "ensures ordered {", "ensures arranged {", "has no clause ordered"),
    "a bound that is gone": ("run:ordered", RUNNING, "specs.Headline.{answers, HasDelivered};", "specs.Headline.{answers};", "can't follow HasDelivered"),
    "a definition that became a proof": ("run:ordered", HEADLINE, "use Rattle.plinq_merge.specs.Sending.{", "use Rattle.plinq_merge.proofs.Sending.{", "is a proof"),
    "a type that is gone from the parameters of a module": (
        "plinq_run::run",
        "crates/plinq_run/specs/Endings.antt",
        "(s s' : K) (result : Result Report RunFault) where",
        "(s s' : K) (result : Result Report RunFaults) where",
        "can't follow RunFaults",
    ),
}
# What a contract reaches, and what it doesn't.
REACHED = {
    "run:ordered": (
        ["HasDelivered", "answers", "or_fault", "enum RunFault", "ghost accepts", "ghost given", "source: S, .., sink", "{ Select(L), Filter(L),"],
        ["MayAnswer", "Stage", "IsLegalHistory", "struct Record", "degree_in_force", "ghost invariant ="],
    ),
    "plinq_run::run": (["TakesBeginning", "RefusesNext", "struct Record", "degree_in_force", "ghost invariant =", "-- `Where`"], ["IsCutOff", "StopsShort"]),
    "free_lock_has_handed_out_a_prefix": (["Lawful", "IsFree", "ghost holds =", "handed_out", "pub enum Phase"], ["HasDelivered"]),
    "free_lock_has_handed_out_a_prefix:lock": (["IsFree V.origin V.history", "ghost holds ="], ["FreeWhileHome"]),
    "ordered_run_is_sequential": (["MayAnswer", "cause_of", "pieces : (T → Trace T) → Stage T"], ["HasDelivered"]),
    "plinq_partition::take": (["IsTaken", "IsChunkOf", "size_at"], ["Lawful"]),
    # (a field of a record that it reaches has the name of a definition)
    "plinq_ops::history_glues": (["stop_keys", "abbrev pub is_cut :"], ["HasDelivered"]),
}

# A function's name and what its contract says, where several have one name.
NAMED = {
    "plinq_merge::Merger::new": "-> Result<Merger<'a, L>, MergeFault>",
    "plinq_merge::CancelFlag::new": "pub fn new() -> CancelFlag",
    "plinq_collect::collecting::to_vec": "GathersSome",
    "plinq_closures::Chain::to_vec": "GathersSome",
    "plinq_partition::chunked_keeps_its_promise": "pub KeepsPromise :",
    "plinq_stream::Stream::receive": "ghost admits: { T → Type 0 };",
    "plinq_crew::conduct": "ghost makes: { Self → ChunkResult T → ChunkResult Self.Part → Type 0 };",
    "plinq_groups::first_group_is_of_the_first_item": "abbrev pub grouping",
    "plinq_wait::WaitQueue::wake": "pub fn wake(&self)",
    "WaitQueue::wake": "pub fn wake(&self)",
}
PLANS = "ghost use Rattle.plinq_run.specs.inner.PlanAnswers.{MayTake};\npub fn taken()\n    ensures { MayTake }\n{}\n"
IS_REACHED = "plinq_run/specs/inner/PlanAnswers.antt: a public contract reaches it"
# A file, what stands there once, what stands there in a copy, what the tool then says of it, and with which status.
APART = {
    "a public clause that names an inner word": ("crates/plinq_run/src/laws.rt", "//! What a run", f"{PLANS}//! What a run", IS_REACHED, 0),
    "a public clause of a crate above that names one": (
        "crates/plinq_cli/src/failure.rt",
        "impl From<InputFault>",
        f"{PLANS}impl From<InputFault>",
        IS_REACHED,
        0,
    ),
    "a definition that names an inner word": (
        HEADLINE,
        "Sending.{Leads}",
        "Sending.{TakesBeginning}\nuse Rattle.plinq_run.specs.inner.PlanAnswers.{MayTake as Leads}",
        IS_REACHED,
        0,
    ),
    "a file whose last public contract is gone": (
        "crates/plinq_partition/src/laws.rt",
        "ensures { TakesAreOneHistory T }",
        "ensures { T ≡ T }",
        "plinq_partition/specs/Together.antt: no public contract reaches it",
        0,
    ),
    "a file whose type is public no more": (
        "crates/plinq_groups/src/lib.rt",
        "pub use collect::Collect;",
        "use collect::Collect;",
        "plinq_groups/specs/Collecting.antt: no public contract reaches it",
        0,
    ),
    "a member over a type that isn't there": (
        "crates/plinq_crew/src/task.rt",
        "{ Self → ChunkResult T →",
        "{ Self → ChunkResult U →",
        "can't follow U",
        1,
    ),
    "an impl's member that can't be followed": (
        "crates/plinq_aggregate/src/sum.rt",
        "{ λ _. summing-lawful }",
        "{ λ _. summing-legal }",
        "can't follow summing-legal",
        1,
    ),
}


def trusted(*words, root=ROOT):
    """What the tool says."""
    return subprocess.run([os.path.join(root, "tools", "trusted"), *words], capture_output=True, text=True)


def copied(folder):
    """A copy of what the tool reads."""
    for name in ("tools", "crates.txt"):
        there = os.path.join(ROOT, name)
        (shutil.copytree if os.path.isdir(there) else shutil.copy)(there, os.path.join(folder, name))
    for crate in os.listdir(os.path.join(ROOT, "crates")):
        for part in ("src", "specs"):
            there = os.path.join(ROOT, "crates", crate, part)
            if os.path.isdir(there):
                shutil.copytree(there, os.path.join(folder, "crates", crate, part))


def finds_lost(tests):
    with tempfile.TemporaryDirectory() as folder:
        copied(folder)
        tests.check("a copy of the sources can be followed", trusted("run:ordered", root=folder).returncode == 0)
        for name, (contract, path, old, new, says) in LOST.items():
            path = os.path.join(folder, path)
            with open(path, encoding="utf-8") as file:
                right = file.read()
            with open(path, "w", encoding="utf-8") as file:
                file.write(right.replace(old, new))
            seen = trusted(contract, root=folder)
            is_told = right.count(old) == 1 and seen.returncode == 1 and says in seen.stderr and not seen.stdout
            tests.check(name, is_told, f"status {seen.returncode}, {seen.stderr[-300:]!r}")
            with open(path, "w", encoding="utf-8") as file:
                file.write(right)


def apart(root=ROOT):
    """What stands on the wrong side of specs/inner/, as the tool says."""
    seen = trusted("--apart", root=root)
    return seen, seen.stdout.splitlines()


def stands_apart(tests):
    """Each file of specs/ is reached by a public contract of some crate, and none of specs/inner/ is; each public contract can be
    followed."""
    seen, wrong = apart()
    tests.check("words that no public contract reaches stand in specs/inner/, and no others", seen.returncode == 0 and not wrong, f"{wrong} {seen.stderr}")
    folders = [at for at, _, _ in os.walk(os.path.join(ROOT, "crates")) if at.endswith("specs/inner")]
    tests.check("some crates have such words", len(folders) > 2, folders)


def finds_apart(tests):
    """What the tool says of a copy in which one line is changed."""
    with tempfile.TemporaryDirectory() as folder:
        copied(folder)
        for name, (path, old, new, says, status) in APART.items():
            path = os.path.join(folder, path)
            with open(path, encoding="utf-8") as file:
                right = file.read()
            with open(path, "w", encoding="utf-8") as file:
                file.write(right.replace(old, new))
            seen, wrong = apart(folder)
            told = wrong if status == 0 else seen.stderr.splitlines()
            is_told = right.count(old) == 1 and seen.returncode == status and len(told) == 1 and says in told[0]
            tests.check(name, is_told, f"status {seen.returncode}, {wrong} {seen.stderr[-300:]!r}")
            with open(path, "w", encoding="utf-8") as file:
                file.write(right)


# A second way to find what contracts reach, which knows nothing of the tool's: by the words of texts alone.

USES = re.compile(r"^\s*(?:ghost |pub )?use Rattle\.(plinq_\w+)\.specs\.((?!declared|contracts)[\w.]+?)\.\{(.*)\};?$", re.M)
BEGINS = re.compile(r"^ *(?:abbrev |unfoldable )?(?:pub )?(?:record |data )?([^\s:(){}]+) (?:[({].*)?: ")
WORDS = re.compile(r"(?<!\.)[^\s(){}\[\],;.\"λ⟦⟧«»]+")
BOUND = re.compile(r"[({]((?:[^\s:(){}]+ )+):")


@functools.cache
def text_of(path):
    with open(os.path.join(ROOT, "crates", path), encoding="utf-8") as file:
        return file.read()


def imported(path):
    """Of each name that a file takes from a file of specs/, where it stands and its name there."""
    found = {}
    for crate, module, names in USES.findall(text_of(path)):
        for name in names.split(", "):
            there, _, here = name.partition(" as ")
            found[(here or there).strip("◌")] = (f"{crate}/specs/{module.replace('.', '/')}.antt", there)
    return found


def named_in(text, known):
    bound = {word for group in BOUND.findall(text) for word in group.split()}
    words = {word for word in WORDS.findall(text) if word in known and word not in bound}
    return {known[word] for word in words} | ({known[it] for it in (">>=", ">>") if it in known} if re.search(r"\bdo\b", text) else set())


@functools.cache
def definitions(path):
    """Of each definition of a file of specs/ those that its text, or a header of a module around it, names; and of each variant of
    a `data` that data."""
    texts, variants, headers, name = {}, {}, [], None
    for line in text_of(path).split("\n"):
        depth, begins = len(line) - len(line.lstrip(" ")), BEGINS.match(line)
        if line.strip().startswith(("--", "use ", "pub use ")):
            continue
        if not line.strip() or line.strip().startswith("module "):
            headers = [*(it for it in headers if it[0] < depth), (depth, line)] if line.strip() else headers
            name = None
        elif name is None and begins:
            headers, name = [it for it in headers if it[0] < depth], begins[1]
            texts[name] = " ".join(it[1] for it in headers) + line
        elif name is not None:
            texts[name] += "\n" + line
            if begins and re.search(r"\bdata \S", texts[name]):
                variants[begins[1]] = (path, name)
    known = imported(path) | {it.strip("◌"): (path, it) for it in texts}
    return {it: named_in(text, known) for it, text in texts.items()}, variants


def reached_otherwise(contract, others):
    """The definitions of specs/ that a contract reaches, by its text and by those of what else of Rust's it reaches."""
    left, seen = set(), set()
    for it in (contract, *others):
        lines = (re.sub(r"-- .*", "", line) for line in it.text)
        left |= named_in("\n".join(lines), imported(it.path))
    while left:
        path, name = left.pop()
        named, variants = definitions(path)
        there = variants.get(name, (path, name))
        if there not in seen:
            seen.add(there)
            left |= named.get(there[1], set())
    return seen


def reaches_the_same(tests):
    """Both ways reach the same definitions from each public contract of the engine and of the library."""
    count, wrong = 0, []
    for crate in sorted(OWN):
        if crate.endswith(("_tests", "_testing", "_example", "_bench")):
            continue
        for rust in sources(crate):
            for at, line in enumerate(rust.lines):
                if not re.match(r"\s*pub fn ", line):
                    continue
                contract, reading = contract_at(rust, at), Reading()
                for word in contract.names:
                    reading.reach(word)
                one = {(it.path, it.name) for it in reading.order if "/specs/" in it.path}
                other = reached_otherwise(contract, [it for it in reading.order if "/specs/" not in it.path])
                count += 1
                if one != other:
                    wrong.append((contract, one ^ other))
    tests.check("a second way reaches the same of each public contract", count > 200 and not wrong, wrong[:3])


def main():
    tests = Tests()
    for path, text in pages().items():
        with open(os.path.join(ROOT, path), encoding="utf-8") as file:
            tests.check(f"{path} is what tools/trusted --pages writes", file.read() == text, "make it again")
    with open(os.path.join(ROOT, "docs", "TRUSTED.md"), encoding="utf-8") as file:
        figures = {path: int(count) for path, count in re.findall(r"^\| \[.*\]\((.*)\) \| .* \| (\d+) \| \d+ \|$", file.read(), re.M)}
    with open(os.path.join(ROOT, "README.md"), encoding="utf-8") as file:
        lock = sum(count for path, count in figures.items() if path.startswith("trusted/lock.md#"))
        said = f"{figures['trusted/run.md#run-clause-ordered']} for an ordered run, {lock} for the lock and its chunks"
        tests.check("README has the pages' figures", said in file.read(), said)
    for name, (there, elsewhere) in REACHED.items():
        seen = trusted(name)
        missing = [it for it in there if it not in seen.stdout]
        more = [it for it in elsewhere if any(f"{it}{sign}" in seen.stdout for sign in (" :", " (", " {"))]
        tests.check(f"what {name} rests on", seen.returncode == 0 and not missing and not more, f"{missing} {more} {seen.stderr}")
    # (several types have one)
    seen = trusted("new")
    tests.check("a name that several functions have", seen.returncode == 1 and "public functions have the name new" in seen.stderr, seen.stderr)
    seen = trusted("Query::to_vec")
    listed = "\n  plinq_query::by_threads_calls::to_vec\n  plinq_query::on_one_thread::to_vec\n"
    tests.check("a name that several functions have lists them", seen.returncode == 1 and seen.stderr.endswith(listed), seen.stderr)
    for name, says in NAMED.items():
        seen = trusted(name)
        tests.check(f"{name} is found", seen.returncode == 0 and says in seen.stdout, seen.stderr)
    reaches_the_same(tests)
    finds_lost(tests)
    stands_apart(tests)
    finds_apart(tests)
    tests.end()


if __name__ == "__main__":
    main()
