#!/usr/bin/env python3
"""Tests ./plinq, which builds the program and runs it, or answers from a trial, in a folder of its own with a stand-in for rt.

    python3 tests/building.py
"""
import contextlib
import fcntl
import os
import pty
import select
import shutil
import signal
import subprocess
import tempfile
import time

from support.program import HANGS, ROOT, Tests

# What rt prints and leaves, without a proof. Each call adds a line to the file calls; what stands in the folder orders
# is done on the way. A library that was last built elsewhere, of the same sources, is taken from there; one that is begun over
# kept work adds a line to the file over. A trial ends with the status that stands in the order status, or has no answer.
RT = r"""#!/usr/bin/env bash
top=@top@
name=${PWD##*/}
if [ ../.. -ef "$top" ]; then echo "$name $*"; else echo "$name $* in a room"; fi >>"$top/calls"
[ ! -e "$top/orders/say-waiting" ] || echo "rt: waiting for another rt to finish in $PWD" >&2
is_of_sources() { [ -e "$1/stamp" ] && cmp -s "$1/stamp" <(cat "$2"/src/*); }
if [ "$1" = lib ]; then
    for it in $(sed -n "s/^$name:\([^#]*\).*/\1/p" ../../crates.txt); do
        if [ -d "../$it" ] && ! is_of_sources "../$it/out/rlib" "../$it"; then echo "error: $it is not built"; exit 1; fi
    done
    if is_of_sources out/rlib .; then exit 0; fi
    rm -rf out/rlib
    mkdir -p out/incremental
    built=$top/../built-$name
    if [ ! -e "$top/orders/no-sharing" ] && [ -e "$built" ] && is_of_sources "$(<"$built")" .; then cp -r "$(<"$built")" out/rlib; exit 0; fi
    [ ! -e out/incremental/begun ] || echo "$name" >>"$top/over"
    echo >out/incremental/begun
    [ "$2" = --jobs ] || echo "rt: chose --jobs 4 for $name"
    echo 'so far: 0 of 20 functions checked; the verdict comes last'
    echo 'so far: 9 of 20 functions checked'
    echo "fn $name::some: proved"
    if [ -e "$top/orders/wait" ] || [ -e "$top/orders/hold-$name" ]; then
        trap 'sleep 0.3; exit 143' TERM
        echo $$ >"$top/at-work-$name"
        while [ -e "$top/orders/wait" ] || [ -e "$top/orders/hold-$name" ]; do sleep 0.02; done
        echo 'so far: 20 of 20 functions checked'
    fi
    if [ -e "$top/orders/fail-$name" ]; then printf 'error: a goal is open in %s\nerror: the last line has no end' "$PWD"; exit 1; fi
    if [ -e "$top/orders/edit" ]; then rm "$top/orders/edit"; echo edited >"$top/crates/low/src/lib.rt"; fi
    mkdir out/rlib
    cat src/* >out/rlib/stamp
    echo "$PWD/out/rlib" >"$built"
elif [ "$1" = try ]; then
    shift 2
    if [ -e "$top/orders/wait" ]; then trap 'exit 143' TERM; echo $$ >"$top/at-work"; fi
    while [ -e "$top/orders/wait" ]; do sleep 0.02; done
    if [ -e "$top/orders/no-answer" ]; then
        printf "the end of the program's standard output:\n| some\n" >&2
        echo 'checked: no-answer: the program did not end within the time limit' >&2
        echo 'run=no-answer proved=no' >&2
        exit "$(<"$top/orders/no-answer")"
    fi
    printf 'tried: %s; ' "$*"
    cat
    status=0
    [ ! -e "$top/orders/status" ] || status=$(<"$top/orders/status")
    [ "$status" = 0 ] || printf 'plinq: of the program\nrun: the second line\nits last\n' >&2
    echo "checked: ended status=$status" >&2
    echo 'races: not looked for' >&2
    echo "run=ended status=$status runners=1 races=unchecked proved=no" >&2
    exit "$status"
else
    if [ -e "$top/orders/fail-$name" ]; then echo 'error: some cause'; exit 4; fi
    mkdir -p out
    { echo '#!/usr/bin/env bash'; echo '[ "${1-}" != folder ] || echo "$PWD"'; echo "echo \"words: \$*; built of: $(cat "$top"/crates/*/src/* | tr '\n' ' ')\""; echo cat; echo 'exit 3'; } >out/plinq.new
    chmod +x out/plinq.new
    mv out/plinq.new out/plinq
fi
"""
# What the machine has: so many processors, and so much free memory in GB, as stands in the orders.
MACHINE = {"nproc": 'cat "@top@/orders/processors"', "grep": 'echo "MemAvailable: $(cat "@top@/orders/memory")000000 kB"'}
TOOLS = "bash basename cat chmod cmp cp cut dirname env find flock head mkdir mktemp mv readlink rm sed sha256sum sleep sort touch tr true wc xargs yes".split()
SOURCES = {"low/src/lib.rt": "low", "low/specs/A.antt": "a", "side/src/lib.rt": "side", "mid/src/lib.rt": "mid", "apart/specs/B.antt": "b"}
SOURCES["plinq/src/main.rt"] = "main"
CRATES = "# The crates, lowest first.\nside:\nlow: thiserror\napart: low\nmid: low # and no other\nplinq: mid side\n"


class Place:
    """A folder with the scripts, the stand-ins and five crates, one of which the program doesn't use."""

    def __init__(self, folder):
        self.top = os.path.join(folder, "top")
        self.bin = os.path.join(folder, "bin")
        self.temporary = os.path.join(folder, "temporary")
        for it in (self.bin, self.temporary, f"{self.top}/tools", f"{self.top}/orders", f"{self.top}/.git"):
            os.makedirs(it)
        shutil.copy(f"{ROOT}/plinq", self.top)
        for it in ("build", "start.sh"):
            shutil.copy(f"{ROOT}/tools/{it}", f"{self.top}/tools")
        for name in TOOLS:
            os.symlink(shutil.which(name), f"{self.bin}/{name}")
        for name, text in [("rt", RT), *((it, f"#!/usr/bin/env bash\n{MACHINE[it]}\n") for it in MACHINE)]:
            os.chmod(self.write(f"../bin/{name}", text.replace("@top@", self.top)), 0o755)
        self.has(processors=1, memory=64)
        self.seen = 0
        self.write("HANDLES", "Threads\n")
        self.write("crates.txt", CRATES)
        for name, text in SOURCES.items():
            self.write(f"crates/{name}", f"{text}\n")
        self.write("crates/plinq_trial/args")

    def write(self, name, text=""):
        path = os.path.join(self.top, name)
        os.makedirs(os.path.dirname(path), exist_ok=True)
        with open(path, "w") as file:
            file.write(text)
        return path

    def has(self, **what):
        for name, number in what.items():
            self.write(f"orders/{name}", str(number))

    def forget(self):
        """Has no library and no program built."""
        for name in os.listdir(f"{self.top}/crates"):
            shutil.rmtree(f"{self.top}/crates/{name}/out", ignore_errors=True)

    def start(self, *words, program="./plinq", **how):
        env = {"PATH": self.bin, "TMPDIR": self.temporary, "HOME": self.temporary}
        streams = {"stdin": subprocess.PIPE, "stdout": subprocess.PIPE, "stderr": subprocess.PIPE} | how
        return subprocess.Popen([program, *words], cwd=self.top, env=env, text=True, preexec_fn=heed_signals, **streams)

    def run(self, *words, given="", **how):
        """The status, output and errors of ./plinq, and what it asked of rt."""
        before = len(self.calls())
        started = self.start(*words, **how)
        output, errors = started.communicate(given if how.get("stdin", subprocess.PIPE) == subprocess.PIPE else None, timeout=HANGS)
        return started.returncode, output, errors, self.calls()[before:]

    def calls(self):
        try:
            with open(f"{self.top}/calls") as file:
                return file.read().splitlines()
        except FileNotFoundError:
            return []

    def files(self):
        """All files but those of the crates' folders out and those that the stand-in tells by."""
        found = set()
        for top in (self.top, self.temporary):
            for at, folders, names in os.walk(top):
                folders[:] = [it for it in folders if it != "out"]
                found |= {os.path.join(at, it) for it in [*folders, *names] if not it.startswith(("calls", "over", "at-work"))}
        return found

    def new_calls(self):
        """The calls since it was last asked."""
        calls = self.calls()[self.seen :]
        self.seen += len(calls)
        return calls

    def over(self):
        """The libraries that were begun over kept work since it was last asked."""
        try:
            with open(f"{self.top}/over") as file:
                found = file.read().split()
            os.remove(f"{self.top}/over")
            return found
        except FileNotFoundError:
            return []

    @contextlib.contextmanager
    def held(self, *names):
        """Has these libraries be at work until they are let go."""
        for it in names:
            self.write(f"orders/hold-{it}")
        try:
            yield
        finally:
            for it in names:
                self.let_go(it)

    def let_go(self, name):
        for it in (f"orders/hold-{name}", f"at-work-{name}"):
            with contextlib.suppress(FileNotFoundError):
                os.remove(f"{self.top}/{it}")

    def wait_for_call(self, call):
        for _ in range(HANGS * 50):
            if call in self.calls()[self.seen :]:
                return
            time.sleep(0.02)
        raise TimeoutError(call)

    def wait_for(self, *names):
        """What these files of the top folder hold, once they hold anything: one text, or a list of several."""
        found = []
        for name in names:
            for _ in range(HANGS * 50):
                with contextlib.suppress(FileNotFoundError):
                    with open(f"{self.top}/{name}") as file:
                        text = file.read().strip()
                    if text:
                        found.append(text)
                        break
                time.sleep(0.02)
            else:
                raise TimeoutError(name)
        return found if len(found) > 1 else found[0]


ALL_CALLS = ["low lib", "side lib", "mid lib", "plinq run --jobs 1 -- --help"]
BUILT = "built of: low mid main side "


def is_alive(number):
    try:
        with open(f"/proc/{number}/stat") as file:
            return file.read().rpartition(")")[2].split()[0] != "Z"
    except FileNotFoundError:
        return False


def first_answers(place, tests):
    """What is answered from a trial, where no program was ever built."""
    for wanted in (0, 2, 4, 6):
        place.write("orders/status", str(wanted))
        status, output, errors, calls = place.run("seq", "two words", given="some\ninput")
        tests.check(f"a trial answers with status {wanted}", (status, calls) == (wanted, ["plinq_trial try -- seq two words"]), (status, calls))
        tests.check("its bytes are the program's", output == "tried: seq two words; some\ninput", output)
        first, *said, last = errors.splitlines()
        is_so = "without a proof" in first and "without a proof" in last and "./plinq --build" in last and "minutes" in last
        tests.check("before it and after it is said that nothing is proved, and how it will be", is_so, errors)
        of_program = [] if wanted == 0 else ["plinq: of the program", "run: the second line", "its last"]
        tests.check("what the program says stands between, and nothing else", said == of_program, said)
    os.remove(f"{place.top}/orders/status")
    with open("/dev/full", "w") as full:
        status, _, errors, _ = place.run("seq", stdout=full)
    tests.check("an output that takes nothing is a failed write", status == 5 and errors.endswith("plinq: write failed\n"), (status, errors))


def first_inputs(place, tests):
    for words, name in ((["--help"], "plinq"), (["-h"], "plinq"), (["seq", "--help"], "seq"), (["run", "-h"], "run"), (["--version"], "version"), (["-V"], "version")):
        place.write(f"share/help/{name}", f"the file {name}\n")
        seen = place.run(*words, given="some\ninput")
        tests.check(f"what {words} asks for stands in a file, and no rt is called", seen == (0, f"the file {name}\n", "", []), seen)
    shutil.rmtree(f"{place.top}/share")
    for words in (["run", "--workers", "2", "--help"], []):
        # (a pipe that nobody closes, as a terminal is)
        reading, writing = os.pipe()
        _, output, errors, calls = place.run(*words, stdin=reading)
        os.close(writing)
        os.close(reading)
        is_so = len(calls) == 1 and output.startswith("tried: ") and "waiting" not in errors
        tests.check(f"a trial of {words} reads nothing", is_so, (output, errors, calls))
    near, far = pty.openpty()
    started = place.start("run", stdin=far)
    os.close(far)
    said = [started.stderr.readline() for _ in range(2)]
    tests.check("at a terminal it says that it waits for a document", "waiting for a document" in said[1], said)
    os.write(near, b"typed\n\x04")
    output, errors = started.communicate(timeout=HANGS)
    os.close(near)
    tests.check("and then answers", (started.returncode, output) == (0, "tried: run; typed\n"), (output, errors))
    started = place.start("-c", "yes | ./plinq run | wc -c", program="bash", stdin=subprocess.DEVNULL)
    output, errors = started.communicate(timeout=HANGS)
    tests.check("of an input without an end no more is kept than the program may read", 16_777_216 < int(output) < 17_000_100, (output, errors))


def no_first_answer(place, tests):
    # (a status of a trial that has no answer is one that a program may have)
    for its_own in (2, 4, 5, 6):
        place.write("orders/no-answer", str(its_own))
        status, output, errors, calls = place.run("run", "--merge", "not", given="the document")
        is_so = (status, calls) == (3, ["plinq_trial try -- run --merge not", *ALL_CALLS])
        tests.check(f"where a trial ends with {its_own} and has no answer, the program is built and answers", is_so, (status, calls))
        tests.check("from the same input", output == f"words: run --merge not; {BUILT}\nthe document", output)
        is_so = "the trial has no answer" in errors and "some" not in errors and "--build" not in errors
        tests.check("it is said", is_so, errors)
        place.forget()
    os.remove(f"{place.top}/orders/no-answer")
    started = place.start("-c", "./plinq run <&-", program="bash")
    output, errors = started.communicate(timeout=HANGS)
    tests.check("a closed input is left to the program", f"words: run; {BUILT}" in output and "tried" not in output, (output, errors))
    place.forget()


def first_build(place, tests):
    seen = place.run("--build", "more", given="x")
    tests.check("with more words --build is the program's", seen[:2] == (0, "tried: --build more; x"), seen)
    status, output, errors, calls = place.run("--build", given="some\ninput")
    tests.check("--build asks rt for each library that the program uses, first for what others are above, and then for the program", calls == ALL_CALLS, calls)
    tests.check("it answers nothing", (status, output) == (0, ""), (status, output))
    said = errors.splitlines()
    tests.check("the first line says how long it takes, and what for", "first time" in said[0] and "proved" in said[0] and "minutes" in said[0], said)
    wanted = [f"plinq: proving {it}{so_far}" for it in ("low (1 of 4)", "side (2 of 4)", "mid (3 of 4)") for so_far in ("", ", 9 of 20 functions checked")]
    tests.check("each crate that is proved has its lines", said[1:] == wanted, said)
    seen = place.run("seq", "two words", given="some\ninput")
    tests.check("then the program answers, with no trial", seen == (3, f"words: seq two words; {BUILT}\nsome\ninput", "", []), seen)
    seen = place.run("--build")
    tests.check("where it is up to date --build does nothing", seen == (0, "", "", []), seen)


def side_by_side(place, tests):
    """A first build by four processors: low and side use no library of these, and mid uses low."""
    place.forget()
    place.has(processors=4)
    place.new_calls()
    before = place.files()
    with place.held("low", "side", "mid"):
        started = place.start("--build")
        place.wait_for("at-work-low", "at-work-side")
        calls = sorted(place.new_calls())
        tests.check("two that use no other are proved side by side, and none before what it uses", calls == in_rooms("low", "side"), calls)
        place.let_go("low")
        place.wait_for("at-work-mid")
        calls = place.new_calls()
        tests.check("what uses another is begun once that one is here", calls == ["low lib --jobs 1", "mid lib --jobs 1 in a room"], calls)
        rooms = [os.path.dirname(at) for at, _, names in os.walk(place.temporary) if "main.rt" in names and at.endswith("plinq/src")]
        low = [f"{it}/../low/out/rlib/stamp" for it in rooms]
        is_so = [os.path.exists(it) and os.path.samefile(it, f"{place.top}/crates/low/out/rlib/stamp") for it in low]
        tests.check("it has that one by a link, and rooms of which all is here are gone", sorted(is_so) == [False, True], low)
        place.let_go("mid")
    output, errors = started.communicate(timeout=HANGS)
    calls = place.new_calls()
    is_so = started.returncode == 0 and (sorted(calls[:2]), calls[2:]) == (["mid lib --jobs 1", "side lib --jobs 1"], ALL_CALLS[-1:])
    tests.check("then all are here, and the program is built", is_so, (started.returncode, calls, errors))
    wanted = [f"plinq: proving {it}" for it in ("low (1 of 4)", "side (2 of 4)", "mid (3 of 4)")]
    wanted += [f"{it}, {number} of 20 functions checked" for it in wanted for number in (9, 20)]
    tests.check("each has its lines", sorted(errors.splitlines()[1:]) == sorted(wanted), errors)
    tests.check("nothing is left behind, and nothing was proved twice", (place.files(), place.over()) == (before, []), place.files() ^ before)
    tests.check("the program that was built so answers", place.run("words")[:2] == (3, f"words: words; {BUILT}\n"))
    place.forget()
    with place.held("low"):
        started = place.start("--build")
        place.wait_for("at-work-low")
        place.wait_for_call("side lib --jobs 1")
        place.new_calls()
    started.communicate(timeout=HANGS)
    calls = place.new_calls()
    tests.check("what has nothing beside it is proved here", calls == ["low lib --jobs 1", "mid lib --jobs 1", *ALL_CALLS[-1:]], calls)
    place.write("crates/low/src/lib.rt", "changed\n")
    calls = place.run()[3]
    tests.check("where there is a program, each is proved here", calls == ALL_CALLS, calls)
    place.write("crates/low/src/lib.rt", "low\n")
    os.remove(f"{place.top}/crates/plinq/out/plinq")
    with open(place.write(".git/rt-ci.lock")) as lock:
        fcntl.flock(lock, fcntl.LOCK_EX)
        calls = place.run("--build")[3]
    os.remove(f"{place.top}/.git/rt-ci.lock")
    tests.check("and where an rt ci is at work", calls == ALL_CALLS, calls)


def in_rooms(*names, jobs=(1, 1, 1, 1)):
    """Each has one job, or as many as told."""
    return [f"{it} lib --jobs {given} in a room" for it, given in zip(names, jobs)]


def few_and_many(place, tests):
    """A first build by other numbers of processors, and of libraries."""
    for processors, memory, is_beside in ((1, 64, False), (4, 1, False), (4, 5, False), (2, 64, True), (4, 7, True), (8, 64, True)):
        place.forget()
        place.has(processors=processors, memory=memory)
        status, _, errors, calls = place.run("--build")
        is_so = status == 0 and (set(in_rooms("low", "side")) < set(calls) if is_beside else calls == ALL_CALLS)
        said = "two are proved side by side" if is_beside else "each is proved here, by as many jobs as rt gives it"
        tests.check(f"with {processors} processors and {memory} GB {said}", is_so, (calls, errors))
        is_so = "mid lib --jobs 1" in calls or not is_beside
        tests.check(f"with {processors} processors and {memory} GB one alone has one job", is_so, calls)
    place.new_calls()
    for name in ("third", "fourth"):
        place.write(f"crates/{name}/src/lib.rt", f"{name}\n")
    place.write("crates.txt", f"fourth:\nthird:\n{CRATES}".replace("mid side", "fourth third mid side"))
    for processors, memory, seconds, wanted, jobs, last in (
        (2, 64, "", ("low", "fourth"), (1, 1), 1),
        (4, 10, "", ("low", "fourth", "third"), (1, 1, 1), 1),
        (4, 64, "", ("low", "fourth", "third", "side"), (1, 1, 1, 1), 1),
        (8, 64, "# some\nside 200\nthird 61\n", ("side", "low", "third", "fourth"), (1, 1, 1, 1), 1),
        (4, 7, "# some\nside 200\nthird 61\n", ("side", "low"), (1, 1), 1),
        (4, 64, "side 200 2\nthird 100 1\nmid 10 4", ("side", "third", "low"), (2, 1, 1), 4),
        (2, 64, "side 200 4\nmid 10 4\n", ("side",), (2,), 2),
        (4, 64, "side 200 3\nlow 100 4\n", ("side", "low"), (3, 1), 1),
        (4, 64, "side 200 # slow\nlow slow 4\nmid 10 # quick\n", ("side", "low", "fourth", "third"), (1, 1, 1, 1), 1),
        (4, 10, "third 100\nlow 95 3\nmid 10 4\n", ("low",), (3,), 3),
    ):
        place.forget()
        place.has(processors=processors, memory=memory)
        place.write("tools/seconds", seconds)
        with place.held("low", "side", "third", "fourth"):
            started = place.start("--build")
            place.wait_for(*(f"at-work-{it}" for it in wanted))
            time.sleep(0.5)
            calls = sorted(place.new_calls())
            is_so = calls == sorted(in_rooms(*wanted, jobs=jobs))
            tests.check(f"{len(wanted)} are proved at a time, first what takes longest with others above it", is_so, calls)
        started.communicate(timeout=HANGS)
        calls = place.new_calls()
        is_so = started.returncode == 0 and ALL_CALLS[-1] in calls and f"mid lib --jobs {last}" in calls
        tests.check(f"and then the others, the last by {last} jobs", is_so, calls)
    os.remove(f"{place.top}/tools/seconds")
    for name in ("third", "fourth"):
        shutil.rmtree(f"{place.top}/crates/{name}")
    place.write("crates.txt", CRATES)
    place.has(processors=4, memory=64)
    place.forget()
    place.write("orders/no-sharing")
    place.over()
    status, _, errors, calls = place.run("--build")
    os.remove(f"{place.top}/orders/no-sharing")
    is_so = status == 0 and {"low", "side"} <= set(place.over())
    tests.check("where rt takes nothing over, it proves it here as well, over what was kept in the room", is_so, (errors, calls))
    place.forget()
    place.write("crates/low/out/incremental/begun")
    lock = os.open(f"{place.top}/crates/low", os.O_RDONLY)
    fcntl.flock(lock, fcntl.LOCK_EX)
    place.run("--build")
    os.close(lock)
    tests.check("kept work stays where another rt is at work", (place.over(), os.path.exists(f"{place.top}/crates/low/out/incremental/begun")) == ([], True))
    place.forget()
    place.write("crates.txt", CRATES.replace("side:", "side: mid").replace("mid: low", "mid: low side"))
    status, _, errors, calls = place.run("--build")
    tests.check("where two use each other, rt says so", status == 5 and "is not built\n" in errors, (status, errors, calls))
    place.write("crates.txt", CRATES)


def side_by_side_failure(place, tests):
    place.forget()
    place.write("orders/fail-side")
    before = place.files()
    with place.held("low", "side"):
        started = place.start("--build")
        at_work = int(place.wait_for("at-work-low", "at-work-side")[0])
        place.new_calls()
        place.let_go("side")
        started.wait(timeout=HANGS)
        tests.check("the other is ended", not is_alive(at_work), at_work)
        output, errors = started.communicate(timeout=HANGS)
        left = place.files() - {f"{place.top}/orders/hold-low"}
        tests.check("one that fails beside another ends the build with status 5", started.returncode == 5, (started.returncode, errors))
        is_so = f"\nerror: a goal is open in {place.top}/crates/side\nerror: the last line has no end\n" in errors
        tests.check("what rt said of it is shown, as of the file here", is_so, errors)
        tests.check("and which it was", errors.endswith("was not built: proving side (2 of 4) ended with status 1\n"), errors)
        tests.check("it isn't tried once more", place.new_calls() == [], place.calls())
        tests.check("nothing is left behind", left == before, left ^ before)
    os.remove(f"{place.top}/orders/fail-side")
    place.over()
    status, _, errors, calls = place.run("--build")
    tests.check("the next build goes on over what both have kept", (status, sorted(place.over())) == (0, ["low", "side"]), (errors, calls))
    place.forget()
    place.write("orders/fail-mid")
    place.run("--build")
    os.remove(f"{place.top}/orders/fail-mid")
    place.over()
    errors = place.run("--build")[2]
    tests.check("what was proved before another failed isn't proved again", "proving mid" in errors and "proving low" not in errors, errors)


def side_by_side_interruption(place, tests):
    for which in (signal.SIGINT, signal.SIGTERM, signal.SIGHUP):
        place.forget()
        before = place.files()
        with place.held("low", "side"):
            started = place.start("--build")
            at_work = [int(it) for it in place.wait_for("at-work-low", "at-work-side")]
            started.send_signal(which)
            started.wait(timeout=HANGS)
            tests.check(f"{which.name} ends both", not any(map(is_alive, at_work)), at_work)
            output, errors = started.communicate(timeout=HANGS)
            left = place.files() - {f"{place.top}/orders/hold-{it}" for it in ("low", "side")}
            tests.check(f"{which.name} ends a build with two at work", (started.returncode, output) == (-which, ""), (started.returncode, errors))
            tests.check(f"{which.name} leaves nothing of them behind", left == before, left ^ before)
        place.over()
        status, _, errors, calls = place.run("--build")
        is_so = (status, sorted(place.over())) == (0, ["low", "side"])
        tests.check(f"after {which.name} the next build goes on over what both have kept", is_so, (status, errors, calls))


def at_a_terminal(place, tests):
    def read(*wanted):
        nonlocal seen
        while not all(it in seen for it in wanted) and select.select([near], [], [], HANGS)[0]:
            try:
                seen += os.read(near, 10_000).decode().replace("\r\n", "\n")
            except OSError:
                return

    place.forget()
    near, far = pty.openpty()
    seen = ""
    low, side, mid = (f"proving {it}" for it in ("low (1 of 4)", "side (2 of 4)", "mid (3 of 4)"))
    both = [f"{it}, 9 of 20 functions checked" for it in (low, side)]
    with place.held("low", "side"):
        started = place.start("--build", stderr=far)
        os.close(far)
        read(*both)
        place.let_go("side")
        read(f"{side}, 20 of 20 functions checked\n")
    read("an end")
    os.close(near)
    started.communicate(timeout=HANGS)
    lines = [f"\r\x1b[K\x1b[?7lplinq: {one}; {other}\x1b[?7h" for one, other in (both, both[::-1])]
    tests.check("at a terminal one line has all that is at work, and is cut off at the last column", any(it in seen for it in lines), seen)
    tests.check("one that has ended isn't in it any more", f"\x1b[?7lplinq: {low}, 20 of 20 functions checked\x1b[?7h" in seen, seen)
    # (what stands in a line at last)
    last = [it.rpartition("\r\x1b[K")[2] for it in seen.split("\n")[1:]]
    wanted = [f"plinq: {it} of 20 functions checked" for it in (f"{side}, 20", f"{low}, 20", f"{mid}, 9")]
    tests.check("and has a line of its own", last == [*wanted, ""], last)


def further_uses(place, tests):
    seen = place.run("plan", given="x")
    tests.check("an up-to-date program is run at once", seen == (3, f"words: plan; {BUILT}\nx", "", []), seen)
    os.symlink(f"{place.top}/plinq", f"{place.temporary}/link")
    seen = place.run(program=f"{place.temporary}/link")
    os.remove(f"{place.temporary}/link")
    tests.check("it is found through a link", seen == (3, f"words: ; {BUILT}\n", "", []), seen)
    os.utime(place.write("crates/low/src/lib.rt", "low\n"))
    seen = place.run()
    tests.check("a source that was written again, the same, builds nothing", seen[2:] == ("", []), seen)
    place.write("crates.txt", f"{CRATES}own: mid\n")
    place.write("crates/own/src/main.rt", "own\n")
    seen = place.run("words")
    tests.check("a crate of one's own, which the program doesn't use, builds nothing", seen == (3, f"words: words; {BUILT}\n", "", []), seen)
    shutil.rmtree(f"{place.top}/crates/own")
    place.write("crates.txt", CRATES)


def closed_streams(place, tests):
    before = place.calls()
    for closed in ("<&-", ">&-", "2>&-", "<&- >&- 2>&-"):
        started = place.start("-c", f"./plinq words {closed}", program="bash", stdin=subprocess.DEVNULL)
        output, errors = started.communicate(timeout=HANGS)
        is_so = started.returncode in (1, 3) and place.calls() == before and (">&-" in closed.split() or "words: words" in output)
        tests.check(f"closed streams reach the program: {closed}", is_so, (started.returncode, output, errors))


def changes(place, tests):
    def rebuilds(name):
        status, output, errors, calls = place.run()
        tests.check(f"{name}: it is built anew", calls == ALL_CALLS and "built anew" in errors, (errors, calls))
        return output

    place.write("crates/mid/src/lib.rt", "new\n")
    tests.check("the new source is in it", "built of: low new main" in rebuilds("a source changed"))
    os.utime(place.write("crates/mid/src/lib.rt", "mid\n"), (1, 1))
    tests.check("the old source is in it", BUILT in rebuilds("a source was replaced by one of an old date"))
    os.remove(f"{place.top}/crates/low/specs/A.antt")
    rebuilds("a source went")
    os.utime(place.write("crates/low/specs/B.antt", "b\n"), (1, 1))
    rebuilds("a source of an old date came")
    place.write("crates.txt", "side:\nlow: thiserror\nmid: low thiserror\nplinq: mid side\n")
    rebuilds("the list of crates changed")
    place.write("crates/low/src/lib.rt", "lower\n")
    for name in ("that was built anew", "that is up to date"):
        status, output, errors, calls = place.run("-c", f"cd {place.temporary} && {place.top}/plinq folder", program="bash", stdin=subprocess.DEVNULL)
        tests.check(f"a program {name} runs in the caller's folder", output.startswith(f"{place.temporary}\n") and bool(calls) == ("anew" in name), (output, errors, calls))
    place.write("crates/low/src/lib.rt", "low\n")
    rebuilds("a source was put back")
    os.remove(f"{place.top}/crates/plinq/out/plinq")
    tests.check("where the program went, a trial answers", place.run()[3] == ["plinq_trial try --"])
    tests.check("and it is built again", place.run("--build")[3] == ALL_CALLS)


def copies(place, tests):
    out = f"{place.top}/crates/plinq/out"
    shutil.copytree(out, f"{place.temporary}/out")
    place.write("crates/mid/src/lib.rt", "newer\n")
    place.run()
    for kind in (shutil.copy, shutil.copy2):
        shutil.rmtree(out)
        shutil.copytree(f"{place.temporary}/out", out, copy_function=kind)
        status, output, _, calls = place.run()
        is_so = "built of: low newer main" in output and calls[-1:] == ALL_CALLS[-1:]
        tests.check(f"an old program that was copied here isn't taken for a new one ({kind.__name__})", is_so, (output, calls))
    shutil.rmtree(f"{place.temporary}/out")
    place.write("crates/mid/src/lib.rt", "tried\n")
    subprocess.run([f"{place.bin}/rt", "run"], cwd=f"{place.top}/crates/plinq", check=True)
    place.write("crates/mid/src/lib.rt", "newer\n")
    status, output, _, calls = place.run()
    tests.check("a program that rt made by hand of other sources isn't either", "built of: low newer main" in output, (output, calls))
    place.write("crates/mid/src/lib.rt", "mid\n")
    place.run()


def change_during_build(place, tests):
    place.write("crates/mid/src/lib.rt", "mid2\n")
    place.write("orders/edit")
    status, output, errors, calls = place.run()
    tests.check("a source that changes during the build is built", "built of: edited mid2 main" in output and calls == ALL_CALLS * 2, (output, calls))
    tests.check("it is said", "a source changed during the build" in errors, errors)
    tests.check("and not again", place.run()[3] == [], place.calls())
    place.write("crates/low/src/lib.rt", "low\n")
    place.write("crates/mid/src/lib.rt", "mid\n")
    place.run()


def failure(place, tests):
    place.write("crates/mid/src/lib.rt", "wrong\n")
    place.write("orders/fail-mid")
    status, output, errors, calls = place.run()
    tests.check("a build that fails ends with status 5 and runs nothing", (status, output, calls) == (5, "", ALL_CALLS[:3]), (status, output, calls))
    is_so = f"error: a goal is open in {place.top}/crates/mid\nerror: the last line has no end\n" in errors and "was not built: proving mid (3 of 4)" in errors and "some: proved" not in errors
    tests.check("it shows what rt said, and the crate", is_so, errors)
    os.remove(f"{place.top}/orders/fail-mid")
    place.write("orders/fail-plinq")
    errors = place.run()[2]
    os.remove(f"{place.top}/orders/fail-plinq")
    is_so = errors.endswith("error: some cause\nplinq: the program was not built: proving and compiling plinq (4 of 4) ended with status 4\n")
    tests.check("and so where the program itself fails", is_so, errors)
    status, output, _, calls = place.run()
    tests.check("the next use builds", status == 3 and "built of: low wrong main" in output and calls == ALL_CALLS, (status, output, calls))
    place.write("crates/mid/src/lib.rt", "mid\n")
    place.run()


def no_rt(place, tests):
    os.rename(f"{place.bin}/rt", f"{place.bin}/hidden")
    status, output, errors, _ = place.run()
    tests.check("a program that is up to date needs no rt", (status, errors) == (3, ""), (status, errors))
    place.write("crates/mid/src/lib.rt", "unbuilt\n")
    status, output, errors, _ = place.run()
    is_so = (status, output) == (5, "") and errors.count("\n") == 1 and "rt is not on the PATH" in errors
    tests.check("where rt isn't there, it is said", is_so, (status, output, errors))
    os.rename(f"{place.bin}/hidden", f"{place.bin}/rt")
    place.write("crates/mid/src/lib.rt", "mid\n")


def heed_signals():
    """What a gate that runs behind nohup, or in the background, passes on as ignored ends a program again."""
    for which in (signal.SIGINT, signal.SIGTERM, signal.SIGHUP):
        signal.signal(which, signal.SIG_DFL)


def interruption_of_a_trial(place, tests):
    for which in (signal.SIGINT, signal.SIGTERM, signal.SIGHUP):
        place.write("orders/wait")
        before = place.files()
        started = place.start("run", stdin=subprocess.DEVNULL)
        at_work = int(place.wait_for("at-work"))
        started.send_signal(which)
        output, errors = started.communicate(timeout=HANGS)
        tests.check(f"{which.name} ends a trial", (started.returncode, output) == (-which, ""), (started.returncode, output, errors))
        is_so = not is_alive(at_work) and place.files() == before
        tests.check(f"{which.name} waits for what it started, and leaves nothing behind", is_so, place.files() ^ before)
        os.remove(f"{place.top}/orders/wait")
        os.remove(f"{place.top}/at-work")
        reading, writing = os.pipe()
        started = place.start("run", stdin=reading)
        started.stderr.readline()
        started.send_signal(which)
        output, errors = started.communicate(timeout=HANGS)
        os.close(writing)
        os.close(reading)
        is_so = (started.returncode, output, place.files() | {f"{place.top}/orders/wait"}) == (-which, "", before)
        tests.check(f"{which.name} ends the wait for a document", is_so, (started.returncode, output, errors))


def interruption(place, tests):
    for which in (signal.SIGINT, signal.SIGTERM, signal.SIGHUP):
        place.write("crates/mid/src/lib.rt", f"{which}\n")
        place.write("orders/wait")
        before = place.files()
        started = place.start()
        at_work = int(place.wait_for("at-work-mid"))
        # (as a terminal does for the first, and kill for the others)
        started.send_signal(which)
        output, errors = started.communicate(timeout=HANGS)
        tests.check(f"{which.name} ends it", (started.returncode, output) == (-which, ""), (started.returncode, output, errors))
        for _ in range(250):
            if not is_alive(at_work):
                break
            time.sleep(0.02)
        tests.check(f"{which.name} ends what it started", not is_alive(at_work), at_work)
        tests.check(f"{which.name} leaves nothing behind", place.files() == before, place.files() ^ before)
        os.remove(f"{place.top}/orders/wait")
        os.remove(f"{place.top}/at-work-mid")
        status, output, _, calls = place.run()
        is_so = status == 3 and f"built of: low {which} main" in output and calls == ALL_CALLS
        tests.check(f"after {which.name} the next use builds", is_so, (status, output, calls))
    place.write("crates/mid/src/lib.rt", "mid\n")
    place.run()


def two_at_once(place, tests):
    place.write("crates/low/src/lib.rt", "both\n")
    place.write("orders/wait")
    before = len(place.calls())
    first = place.start("first")
    at_work = int(place.wait_for("at-work-low"))
    second = place.start("second")
    said = second.stderr.readline()
    tests.check("the second of two says that it waits", "waiting: another build" in said, said)
    third = place.start("third")
    said = third.stderr.readline()
    third.terminate()
    third.communicate(timeout=HANGS)
    is_so = third.returncode == -signal.SIGTERM and is_alive(at_work)
    tests.check("one that waits ends when it is told to, and the first goes on", is_so, (third.returncode, said))
    os.remove(f"{place.top}/orders/wait")
    os.remove(f"{place.top}/at-work-low")
    ended = [(it.communicate("", timeout=HANGS)[0], it.returncode) for it in (first, second)]
    wanted = [(f"words: {it}; built of: both mid main side \n", 3) for it in ("first", "second")]
    tests.check("both run the right program", ended == wanted, ended)
    tests.check("and the first alone has built it", place.calls()[before:] == ALL_CALLS, place.calls()[before:])
    place.write("crates/low/src/lib.rt", "four\n")
    before = len(place.calls())
    started = [place.start(str(it)) for it in range(4)]
    ended = [(it.communicate("", timeout=HANGS)[0], it.returncode) for it in started]
    wanted = [(f"words: {it}; built of: four mid main side \n", 3) for it in range(4)]
    tests.check("of four at once all run the right program", ended == wanted, ended)
    tests.check("and one builds it", sorted(place.calls()[before:]) == sorted(ALL_CALLS), place.calls()[before:])
    path = f"{place.top}/crates/plinq/out/plinq.built_from"
    with open(path) as earlier:
        place.write("crates/low/src/lib.rt", "four\n")
        calls = place.run()[3]
        with open(path) as later:
            is_so = not calls and not os.path.sameopenfile(earlier.fileno(), later.fileno()) and earlier.read() == later.read() != ""
    tests.check("who reads the note while it is written again reads a whole one", is_so, (calls, os.listdir(os.path.dirname(path))))
    beside = [it for it in os.listdir(os.path.dirname(path)) if it.startswith("plinq.built_from.")]
    tests.check("and nothing is left beside it", not beside, beside)


def notes(place, tests):
    """The note beside the program: its date, and what is left of one that can't be put in its place."""
    path = f"{place.top}/crates/plinq/out/plinq.built_from"
    place.write("crates/low/src/lib.rt", "dated\n")
    place.write("orders/wait")
    started = place.start()
    place.wait_for("at-work-low")
    looked = time.time()
    os.remove(f"{place.top}/orders/wait")
    os.remove(f"{place.top}/at-work-low")
    started.communicate("", timeout=HANGS)
    tests.check("the note is dated before the look at the sources", os.stat(path).st_mtime < looked, (os.stat(path).st_mtime, looked))
    os.remove(f"{place.bin}/mv")
    refuses = f'#!/usr/bin/env bash\n[[ $* != *built_from* ]] && exec {shutil.which("mv")} "$@"\n'
    os.chmod(place.write("../bin/mv", refuses), 0o755)
    place.write("crates/low/src/lib.rt", "unnoted\n")
    seen = place.run()
    os.remove(f"{place.bin}/mv")
    os.symlink(shutil.which("mv"), f"{place.bin}/mv")
    beside = [it for it in os.listdir(os.path.dirname(path)) if it.startswith("plinq.built_from.")]
    tests.check("a note that can't be put in its place leaves nothing", not beside, (beside, seen))
    status, output, _, calls = place.run()
    tests.check("and the next use builds", "built of: unnoted mid main" in output and calls[-1:] == ALL_CALLS[-1:], (output, calls))


def cannot_be_written(place, tests):
    """Another user of the machine in a clone that isn't theirs, of which a source has changed since."""
    is_there = os.path.lexists(f"{place.bin}/rm")
    if is_there:
        os.remove(f"{place.bin}/rm")
    refuses = f'#!/usr/bin/env bash\n[[ $* != *built_from* ]] && exec {shutil.which("rm")} "$@"\nexit 1\n'
    os.chmod(place.write("../bin/rm", refuses), 0o755)
    place.write("crates/low/src/lib.rt", "of another\n")
    status, output, errors, _ = place.run()
    os.remove(f"{place.bin}/rm")
    os.symlink(shutil.which("rm"), f"{place.bin}/rm")
    tests.check("where nothing can be written, it is said", status == 5 and "plinq: nothing can be built here: " in errors, (status, output, errors))
    status, output, _, calls = place.run()
    tests.check("and whoever can write builds", "built of: of another" in output, (status, output))


def waits_for_the_gate(place, tests):
    place.write("crates/low/src/lib.rt", "low\n")
    place.write("orders/say-waiting")
    with open(place.write(".git/rt-ci.lock")) as lock:
        fcntl.flock(lock, fcntl.LOCK_EX)
        errors = place.run()[2]
        tests.check("an rt ci that holds it up is named", "waiting: an rt ci is running here" in errors, errors)
    place.write("crates/low/src/lib.rt", "other\n")
    errors = place.run()[2]
    tests.check("another rt that holds it up is named", "waiting: another rt is at work here" in errors, errors)
    os.remove(f"{place.top}/orders/say-waiting")


def main():
    tests = Tests()
    with tempfile.TemporaryDirectory() as folder:
        place = Place(folder)
        before = place.files()
        first_answers(place, tests)
        first_inputs(place, tests)
        interruption_of_a_trial(place, tests)
        no_first_answer(place, tests)
        first_build(place, tests)
        tests.check("trials and a build leave nothing behind", place.files() == before, place.files() ^ before)
        side_by_side(place, tests)
        few_and_many(place, tests)
        side_by_side_failure(place, tests)
        side_by_side_interruption(place, tests)
        at_a_terminal(place, tests)
        place.has(processors=1)
        further_uses(place, tests)
        closed_streams(place, tests)
        changes(place, tests)
        copies(place, tests)
        change_during_build(place, tests)
        failure(place, tests)
        no_rt(place, tests)
        interruption(place, tests)
        two_at_once(place, tests)
        notes(place, tests)
        cannot_be_written(place, tests)
        waits_for_the_gate(place, tests)
    tests.end()


if __name__ == "__main__":
    # (a shell that starts this in the background has interrupts ignored, and what is started here would ignore them as well)
    signal.signal(signal.SIGINT, signal.default_int_handler)
    main()
