#!/usr/bin/env python3
"""Tests tools/planted, which tries planted mistakes, in a folder of its own with a stand-in for rt: that it calls refused what a
goal of the edited function refuses, and nothing else.

    python3 tests/planted.py
"""
import importlib.machinery
import importlib.util
import itertools
import os
import shutil
import signal
import subprocess
import tempfile
import time

from support.program import HANGS, ROOT, Tests

# A stand-in for rt, whose check looks for texts in the sources, and says of each what stands beside it in the file says, in which
# a | begins a further line of a message. It notes how many of them each check finds.
RT = """#!/usr/bin/env python3
import os, pathlib, sys, time
top = os.environ["TOP"]
os.makedirs("out/incremental", exist_ok=True)
text = "".join(it.read_text() for it in sorted(pathlib.Path("src").iterdir()))
said = [it.split("=>", 1) for it in pathlib.Path(f"{top}/says").read_text().splitlines()]
found = [line.replace("|", "\\n  ") for word, line in said if word in text]
with open(f"{top}/calls", "a") as calls:
    print(os.getcwd().startswith(top), " ".join(sys.argv[1:]), len(found), file=calls)
while os.path.exists(f"{top}/waits") and os.getcwd().startswith(f"{top}/tmp"):
    time.sleep(0.02)
if "kills" in found:
    os.kill(os.getppid(), 9)
print("\\n".join(found or ["logic=proved"]))
sys.exit(1 if found else 0)
"""

LIB = """mod other;

const MOST: u64 = 16;

const UNUSED: u64 = 3;

/// A number.
pub fn first(
    n: u64,
) -> u64
where
    requires small { n < 9 }
{
    n + 1
}

fn second(n: u64) -> u64 {
    run(move || { n + 2 })
}

pub struct Thing<T> {
    of: T,
}

impl<T> From<Vec<T>> for Thing<T> {
    fn from(of: Vec<T>) -> Thing<T> {
        Thing { of: of.get(3) }
    }
}

pub trait Walks {
    fn next(&mut self) -> u64;

    fn fill(&mut self) -> u64 {
        self.next() + 4
    }
}

fn caller() -> u64 {
    first(5) + 6
}
"""

OTHER = """use crate::Thing;

impl<T> Thing<T>
where
    T: Fn(u64) -> u64,
{
    pub(crate) fn method(&self) -> u64 {
        7 + crate::MOST
    }
}

impl<T> Knows<T> for Thing<T> {
    ghost then = { 8 };
}
"""

SAYS = """n + 11=>fn low::first: no proof: expected answers in ./proofs/first/Answers.antt; `search` did not prove `returns`
n + 12=>fn low::first: no proof: expected answers in ./proofs/first/Answers.antt; `search` did not prove `returns`
n + 21=>fn low::fn::second::run: no proof: expected answers in ./proofs/fn/second/run/Answers.antt; `search` did not prove `returns`
n + 22=>fn low::fn::second::run+FnOnce::call_once: no proof: it calls `low::fn::second::run`, which is not proved
get(31)=>fn low::ThingFromVec::from: no proof: expected answers in ./proofs/Thing/from/Answers.antt; `search` did not prove `returns`
() + 41=>note: src/lib.rt:35:9: it is not proved that what the function ensures holds when it returns (`returns`)
n + 11=>fn low::caller: no proof: it calls `low::first`, which is not proved
(5) + 61=>fn low::caller: no proof: it calls `low::first`, which is not proved
71 + =>./proofs/Thing/method/Answers.antt:4:35: error: `returns`: as printed, the two types first differ where one has `8`
72 + =>./proofs/Thing/method/Answers.antt:13:46: error: `gone`: `goal.gone`: module `Rattle.low.proofs.Thing.method.Goals`|has no `gone` that can be named from here (names in it that begin alike: `returns`)
72 + =>fn low::Thing::method: not proved
72 + =>help: `Goals` has no `gone`; rattle asks for `returns`, `returns-then` and 13 more; a `use` line of it can name these places: `Then-first-self`
73 + =>./proofs/Thing/method/Answers.antt:62:52: error: `returns`: `.0` projects from a `×` type or a record, but this has type|`is_within 4 4 both.0 ≡ true`
75 + =>./proofs/Thing/method/Answers.antt:12:31: error: `returns`: record `Rattle.low.proofs.Thing.method.Lts.After-drop` (nearest: .in_ok-get) has no field `in_ok-all`|the fields that can be named here are `before`, `in_ok-get`
74 + =>./proofs/Thing/method/Answers.antt:4:35: error: `returns`: as printed, the two types|first differ where one has `8`
76 + =>./proofs/Thing/method/Answers.antt:5:49: error: `returns`: `has_key-inserted` is not in scope; did you mean `has_key-insert`?
77 + =>./proofs/Thing/method/Answers.antt:6:12: error: `returns`: `Span` was not admitted (it has holes or was rejected), so its derived definitions cannot be used
u64 = 17=>./proofs/Thing+T/method/Answers.antt:4:35: error: `returns`: as printed, the two types first differ where one has `8`
n + 17=>fn low::first_of_all: no proof: expected answers in ./proofs/first_of_all/Answers.antt; `search` did not prove `returns`
n + 13=>./proofs/+turns/Answers.antt:4:35: error: `first-returns`: as printed, the two types first differ where one has `8`
n + 14=>./proofs/+turns/Answers.antt:4:35: error: `second-returns`: as printed, the two types first differ where one has `8`
n + 15=>./proofs/+first/Answers.antt:4:35: error: `returns-in-Ok-clause-least`: as printed, the two types first differ where one has `8`
n + 16=>./proofs/+first/Answers.antt:4:35: error: `returns-in-Ok-clause-least`: as printed, the two types first differ where one has `8`
    11=>fn high::main: no proof: expected answers in ./proofs/main/Answers.antt; `search` did not prove `returns`
n + text=>src/lib.rt:13:9: error[E0425]: cannot find value `text` in this scope
n + ghost=>src/lib.rt:13:9: error: expected the end of the text
n + other=>src/lib.rt:13:9: error[E0425]: cannot find value `other` in this scope
n + other=>fn low::first: no proof: expected answers in ./proofs/first/Answers.antt; `search` did not prove `returns`
"""


class Place:
    """A folder with tools/planted, the stand-in for rt, and a crate with planted edits."""

    def __init__(self, folder):
        self.top = folder
        self.write("bin/rt", RT, 0o755)
        for it in ("tools", "tmp"):
            os.mkdir(f"{folder}/{it}")
        shutil.copy(f"{ROOT}/tools/planted", f"{folder}/tools")
        self.write("crates.txt", "# crates\nlow: std\nhigh: low\nbare: low\n")
        self.write("HANDLES", "Handles allowed: none.\n")
        self.write("crates/high/src/main.rt", "fn main() {\n    1\n}\n")
        self.write("crates/bare/src/lib.rt", "")
        self.write("crates/low/out/rlib/low.rlib/library", "built")

    def write(self, name, text="", mode=0o644):
        path = os.path.join(self.top, name)
        os.makedirs(os.path.dirname(path), exist_ok=True)
        with open(path, "w") as file:
            file.write(text)
        os.chmod(path, mode)

    def plant(self, folder="planted", says=SAYS, **edits):
        """Puts the edits in the place of those that are there: each a file of src/, and an old and a new text."""
        for it in ("calls", "crates/low/planted", "crates/low/must-fail", "crates/high/planted"):
            path = f"{self.top}/{it}"
            shutil.rmtree(path) if os.path.isdir(path) else os.path.exists(path) and os.remove(path)
        self.write("calls")
        self.write("says", says)
        self.write("crates/low/src/lib.rt", LIB)
        self.write("crates/low/src/other.rt", OTHER)
        self.add(folder, **edits)

    def add(self, folder, crate="low", **edits):
        for name, (file, old, new) in edits.items():
            self.write(f"crates/{crate}/{folder}/{name}.edit", f"file: src/{file}.rt\nold: {old}\nnew: {new}\n")

    def start(self, *words):
        env = os.environ | {"PATH": f"{self.top}/bin:{os.environ['PATH']}", "TOP": self.top, "TMPDIR": f"{self.top}/tmp"}
        how = {"stdin": subprocess.DEVNULL, "stdout": subprocess.PIPE, "stderr": subprocess.STDOUT, "env": env, "cwd": "/"}
        return subprocess.Popen([f"{self.top}/tools/planted", *words], text=True, start_new_session=True, **how)

    def run(self, *words):
        """The status, what is said of each edit by its name and of each crate that broke off, the last line, and how many texts each
        check finds."""
        started = self.start(*words)
        lines = started.communicate(timeout=HANGS)[0].splitlines()
        said = dict(it.split(".edit: ", 1) for it in lines if ".edit: " in it)
        said |= dict(it.split(": ", 1) for it in lines if ": BROKEN OFF: " in it)
        with open(f"{self.top}/calls") as calls:
            checks = [it.split() for it in calls]
        return started.returncode, said, lines[-1], checks


def refused(place, tests):
    """Every kind of function, and how many edits each check tries: none of one function beside another."""
    edits = {
        "free": ("lib", "n + 1", "n + 11"),
        "closure": ("lib", "n + 2", "n + 21"),
        "impl": ("lib", "get(3)", "get(31)"),
        "default": ("lib", "self.next() + 4", "self.next() + 41"),
        "method": ("other", "7 + ", "71 + "),
    }
    place.plant(**edits)
    before = [open(f"{place.top}/crates/low/src/{it}.rt").read() for it in ("lib", "other")]
    status, said, last, checks = place.run("--jobs", "2", "low")
    names = {f"low/planted/{it}" for it in edits}
    tests.check("each edit is refused", (status, set(said), set(said.values()), last) == (0, names, {"refused"}, "5 passed, 0 failed"), said)
    counts = [int(it[-1]) for it in checks]
    tests.check("all at once, over a check of the crate as it stands", counts == [0, 6] and checks[1][1:3] == ["check", "--allow-holes"], checks)
    after = [open(f"{place.top}/crates/low/src/{it}.rt").read() for it in ("lib", "other")]
    tests.check("the sources stay as they are, and no room is left", before == after and os.listdir(f"{place.top}/tmp") == [])
    place.plant(one=edits["free"], two=("lib", "n + 1", "n + 12"), three=edits["closure"])
    status, said, last, checks = place.run()
    tests.check("two edits of one function aren't tried at once", (status, [it[-1] for it in checks]) == (0, ["0", "3", "1"]), (said, checks))
    place.plant(constant=("lib", "u64 = 16", "u64 = 17"), method=edits["method"])
    status, said, last, checks = place.run()
    tests.check("a constant edits the functions that name it", (status, [it[-1] for it in checks]) == (0, ["0", "1", "1"]), (said, checks))
    place.plant(method=("other", "7 + ", "74 + "))
    tests.check("a goal that is told of in two lines", place.run()[2] == "1 passed, 0 failed")
    place.plant(turns=("lib", "n + 1", "n + 13"))
    tests.check("a function that others call in turn", place.run()[2] == "1 passed, 0 failed")
    place.plant(itself=("lib", "n + 1", "n + 15"))
    tests.check("a function that calls itself", place.run()[2] == "1 passed, 0 failed")
    place.plant(first=edits["free"])
    place.add("must-fail", second=edits["closure"])
    tests.check("those of must-fail/ stay out", place.run()[2] == "1 passed, 0 failed")
    tests.check("with --all they are tried too", place.run("--all")[2] == "2 passed, 0 failed")


def not_refused(place, tests):
    """What no goal of the edited function refuses is named, and the edits beside it are still judged rightly."""
    beside = {"beside": ("lib", "get(3)", "get(31)")}

    def names(what, edit, wanted, last="1 passed, 1 failed", **edits):
        place.plant(it=edit, **(edits or beside))
        status, said, ended, checks = place.run()
        came = said.pop("low/planted/it", "")
        is_so = status == 1 and wanted in came and set(said.values()) == {"refused"} and ended == last
        tests.check(what, is_so, (status, came, said, ended, checks))

    names("one that means the same", ("lib", "n + 1", "1 + n"), "NOT REFUSED: the crate is proved with it")
    first = {"first": ("lib", "n + 1", "n + 11")}
    names("one that means the same in a caller of what is refused", ("lib", "first(5) + 6", "6 + first(5)"), "NOT REFUSED: ", **first)
    names("one that only a callee refuses", ("lib", "(5) + 6", "(5) + 61"), "NOT REFUSED for a goal of low::caller: ")
    names("one that a function in turn with it refuses", ("lib", "n + 1", "n + 14"), "NOT REFUSED for a goal of low::first: ")
    names("one that a function which calls itself refuses", ("lib", "n + 2", "n + 16"), "NOT REFUSED for a goal of low::second: ")
    names("one that only renames a goal which is answered by hand", ("other", "7 + ", "72 + "), "NOT REFUSED for a goal of ")
    names("one of which a proof file reads a fact as another shape", ("other", "7 + ", "73 + "), "NOT REFUSED for a goal of ")
    names("one of which a proof file names a fact that is gone", ("other", "7 + ", "75 + "), "NOT REFUSED for a goal of ")
    names("one of which a proof file names what is not in scope", ("other", "7 + ", "76 + "), "NOT REFUSED for a goal of ")
    names("one of which a proof file names a type that was refused", ("other", "7 + ", "77 + "), "NOT REFUSED for a goal of ")
    names("one that a function refuses whose name begins alike", ("lib", "n + 1", "n + 17"), "NOT REFUSED for a goal of low::first: ")
    names("one that doesn't compile", ("lib", "n + 1", "n + text"), "BAD EDIT: it can't be compiled or read: src/lib.rt:13:9: error[E0425]")
    names("one that can't be read", ("lib", "n + 1", "n + ghost"), "BAD EDIT: it can't be compiled or read: src/lib.rt:13:9: error: ")
    names("one that doesn't compile, beside an open goal", ("lib", "n + 1", "n + other"), "BAD EDIT: it can't be compiled or read: ")
    names("one whose text isn't there", ("lib", "n + 9", "n + 11"), "BAD EDIT: an 'old:' text doesn't stand in src/lib.rt just once")
    names("one whose text is there twice", ("lib", "u64 = ", "u64 = 1"), "BAD EDIT: an 'old:' text doesn't stand in src/lib.rt just once")
    names("one of a file that isn't there", ("none", "n + 1", "n + 11"), "BAD EDIT: ")
    names("one that changes nothing", ("lib", "n + 1", "n + 1"), "BAD EDIT: it changes nothing")
    names("one of what no function names", ("lib", "u64 = 3", "u64 = 4"), "BAD EDIT: src/lib.rt:5 is edited, which lies in no function")
    # (a check says of the goals of others what it says, and shows nothing of them)
    seems = "n + text=>fn low::caller: no proof: expected answers in ./proofs/caller/Answers.antt; `search` did not prove `returns`\n"
    place.plant(says=SAYS + seems, it=("lib", "first(5) + 6", "6 + first(5)"), unread=("lib", "n + 1", "n + text"))
    status, said, last, _ = place.run()
    is_so = (status, last) == (1, "0 passed, 2 failed") and said["low/planted/it"].startswith("NOT REFUSED: ") and said["low/planted/unread"].startswith("BAD EDIT: ")
    tests.check("a goal that is open beside a text which can't be read shows nothing", is_so, said)
    place.plant(says=SAYS + "n + 1=>fn low::first: no proof: expected answers in ./proofs/first/Answers.antt\n", **first)
    status, said, last, _ = place.run()
    is_so = (status, last) == (1, "0 passed, 1 failed") and said["low/planted/first"].startswith("NOT TRIED: ")
    tests.check("where the crate isn't proved as it stands, nothing is tried", is_so, (status, said))
    place.plant(**first)
    for words, wanted in ((["bare"], "0 passed, 0 failed"), (["lower"], "tools/planted: crates.txt has no lower")):
        status, _, last, _ = place.run(*words)
        tests.check(f"{words[0]} passes nothing", (status, last) == (1, wanted), (status, last))


def side_by_side(place, tests):
    """Several crates, a process each: what each says and counts comes together, also where one breaks off."""
    place.plant(low=("lib", "n + 1", "n + 11"), other=("lib", "n + 2", "2 + n"))
    place.add("planted", "high", main=("main", "    1", "    11"))
    for words in ((), ("--jobs", "1")):
        status, said, last, checks = place.run(*words)
        is_so = (status, last, len(said)) == (1, "2 passed, 1 failed", 3) and said["high/planted/main"] == "refused"
        tests.check(f"two crates {' '.join(words)}", is_so, (status, said, last))
    place.plant(low=("lib", "n + 1", "n + 11"))
    place.add("planted", "high", main=("main", "    1", "    11"))
    status, said, last, checks = place.run("--jobs", "2")
    tests.check("all edits of two crates are refused", (status, last) == (0, "2 passed, 0 failed"), (status, said))
    tests.check("each by one job", {" ".join(it[1:-1]) for it in checks} == {"check --jobs 1", "check --jobs 1 --allow-holes"}, checks)
    place.plant(says=SAYS.replace("    11=>", "    12=>kills\n    11=>"), low=("lib", "n + 1", "n + 11"))
    place.add("planted", "high", main=("main", "    1", "    12"))
    status, said, last, checks = place.run("--jobs", "2")
    is_so = (status, last) == (1, "1 passed, 1 failed") and said.get("high") == "BROKEN OFF: its process ended with status -9"
    tests.check("a crate whose process is killed is one that failed, and is named", is_so, (status, said, last))
    # (nobody has removed its room)
    for it in os.listdir(f"{place.top}/tmp"):
        shutil.rmtree(f"{place.top}/tmp/{it}")


def interruption(place, tests):
    # (a terminal's Ctrl-C reaches all of a group, and `kill` one process)
    for which, kill in itertools.product((signal.SIGINT, signal.SIGTERM, signal.SIGHUP), (os.kill, os.killpg)):
        for crates in (1, 2):
            place.plant(one=("lib", "n + 1", "n + 11"))
            if crates == 2:
                place.add("planted", "high", main=("main", "    1", "    11"))
            # (what checks in the room waits there, however slow this machine is)
            place.write("waits")
            started = place.start("--jobs", "2")
            for _ in range(HANGS * 50):
                if len(os.listdir(f"{place.top}/tmp")) == crates:
                    break
                time.sleep(0.02)
            were_there = len(os.listdir(f"{place.top}/tmp")) == crates
            time.sleep(0.2)
            kill(started.pid, which)
            started.communicate(timeout=HANGS)
            os.remove(f"{place.top}/waits")
            ended = were_there and started.returncode != 0 and os.listdir(f"{place.top}/tmp") == []
            tests.check(f"{which.name} by {kill.__name__} ends it at {crates}, and no room is left", ended, (were_there, started.returncode))


def stand(tests):
    """That each edit of both folders is one of the sources as they stand."""
    loader = importlib.machinery.SourceFileLoader("planted", f"{ROOT}/tools/planted")
    planted = importlib.util.module_from_spec(importlib.util.spec_from_loader(loader.name, loader))
    loader.exec_module(planted)
    lost, count = [], 0
    for name in sorted(os.listdir(f"{ROOT}/crates")):
        crate = planted.Crate(name)
        for edit in crate.edits(True):
            count += 1
            try:
                edit.applied(crate.texts)
            except planted.Refused as why:
                lost.append(f"{edit.name}: {why}")
    tests.check("each edit stands in the sources", not lost and count > 0, lost)


def main():
    tests = Tests()
    stand(tests)
    with tempfile.TemporaryDirectory() as folder:
        place = Place(folder)
        refused(place, tests)
        not_refused(place, tests)
        side_by_side(place, tests)
        interruption(place, tests)
    tests.end()


if __name__ == "__main__":
    # (what starts this in the background may have these ignored, and what is started here would ignore them as well)
    signal.signal(signal.SIGINT, signal.default_int_handler)
    signal.signal(signal.SIGHUP, signal.SIG_DFL)
    main()
