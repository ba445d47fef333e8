#!/usr/bin/env python3
"""Tests ./test, which installs the packages that the tests want, and counts what rt ci and the tests of the program say: in a
folder of its own, with stand-ins for all of them.

    python3 tests/gate.py
"""
import os
import re
import shutil
import signal
import subprocess
import tempfile
import time

from support.program import HANGS, ROOT, Tests

# A stand-in for rt, whose `rt ci` leaves a program, as rt does, unless there is a file no-program, and then runs what the
# file ci says. It removes nothing, so that an old program is gone only where ./test removes it.
RT = """#!/usr/bin/env bash
echo "$*" >>calls
[ "$1" = ci ] || exit 1
mkdir -p crates/plinq/out
if [ ! -e no-program ]; then printf '#!/usr/bin/env bash\\necho new\\n' >crates/plinq/out/plinq; chmod +x crates/plinq/out/plinq; fi
. ./ci
"""


class Place:
    """A folder with ./test, a crate, the stand-in for rt, and tests that do as they are told."""

    def __init__(self, folder):
        self.top = folder
        self.temporary = f"{folder}/temporary"
        os.makedirs(self.temporary)
        os.makedirs(f"{folder}/bin")
        os.makedirs(f"{folder}/tools")
        shutil.copy(f"{ROOT}/test", folder)
        shutil.copy(f"{ROOT}/tools/build", f"{folder}/tools")
        self.write("bin/rt", RT, 0o755)
        self.write("bin/dpkg-query", "#!/usr/bin/env bash\nprintf installed\n", 0o755)
        self.write("crates.txt", "plinq:\n")
        self.write("crates/plinq/src/main.rt", "main\n")

    def write(self, name, text="", mode=0o644):
        path = os.path.join(self.top, name)
        os.makedirs(os.path.dirname(path), exist_ok=True)
        with open(path, "w") as file:
            file.write(text)
        os.chmod(path, mode)

    def leave_old_program(self):
        """Leaves a program of an earlier build, with the note that it was built from the sources that are there."""
        self.write("crates/plinq/out/plinq", "#!/usr/bin/env bash\necho old\n", 0o755)
        summed = subprocess.check_output(["tools/build", "sum"], cwd=self.top, text=True).strip()
        subprocess.run(["tools/build", "note", summed], cwd=self.top, check=True)

    def tell(self, ci, **tests):
        """Has rt ci run some lines of bash, and each test some of Python."""
        self.write("ci", ci)
        shutil.rmtree(f"{self.top}/tests", ignore_errors=True)
        for name, text in tests.items():
            self.write(f"tests/{name}.py", text)

    def env(self):
        return os.environ | {"PATH": f"{self.top}/bin:{os.environ['PATH']}", "TMPDIR": self.temporary}

    def start(self, **how):
        streams = {"stdout": subprocess.PIPE, "stderr": subprocess.PIPE} | how
        return subprocess.Popen(["./test"], cwd=self.top, env=self.env(), text=True, **streams)

    def run(self, **how):
        started = self.start(**how)
        output, errors = started.communicate(timeout=HANGS)
        return started.returncode, output, errors


COUNTED = "echo some; echo 'in between: 9 passed, 9 failed'; echo '5 passed, 0 failed'"
PASSES = "print('a line'); print('2 passed, 0 failed')"


def sums(place, tests):
    place.tell(COUNTED, one=PASSES, two="print('08 passed, 0 failed')")
    status, output, _ = place.run(stdin=subprocess.DEVNULL)
    tests.check("all is added, and the status is 0", (status, output.splitlines()[-1]) == (0, "15 passed, 0 failed"), (status, output))
    is_so = output.startswith("some\nin between: 9 passed, 9 failed\n5 passed, 0 failed\n") and "a line\n2 passed, 0 failed\n" in output
    tests.check("what rt ci and the tests say is passed on", is_so, output)

    def ends(name, wanted, ci=COUNTED, **told):
        place.tell(ci, **told)
        status, output, _ = place.run()
        is_so = output.splitlines()[-1] == wanted and (status != 0) == (not wanted.endswith(" 0 failed"))
        tests.check(name, is_so, (wanted, status, output))

    # (a program that an rt ci leaves which counts nothing as passed is not trusted, so the test isn't run, and counts as failed)
    ends("what rt ci counts as failed is added", "6 passed, 2 failed", "echo '4 passed, 2 failed'; exit 1", one=PASSES)
    ends("an rt ci that fails and counts nothing as failed", "7 passed, 1 failed", COUNTED + "; exit 1", one=PASSES)
    ends("an rt ci that prints no line", "0 passed, 2 failed", "echo '5 passed'", one=PASSES)
    ends("an rt ci whose last line is another", "0 passed, 2 failed", COUNTED + "; echo more", one=PASSES)
    ends("an rt ci that prints nothing", "0 passed, 2 failed", "exit 0", one=PASSES)
    ends("an rt ci that is killed", "0 passed, 2 failed", "kill -9 $$", one=PASSES)
    ends("an rt ci that tests nothing", "0 passed, 2 failed", "echo '0 passed, 0 failed'", one=PASSES)
    ends("a last line without its end", "7 passed, 0 failed", "printf '5 passed, 0 failed'", one=PASSES)
    ends("a test that fails", "6 passed, 1 failed", one="print('1 passed, 1 failed'); exit(1)")
    ends("a test that breaks off", "7 passed, 1 failed", one=PASSES, two="raise Exception")
    ends("a test that breaks off after its line", "9 passed, 1 failed", one=PASSES, two=PASSES + "\nraise Exception")
    ends("a test that tests nothing", "7 passed, 1 failed", one=PASSES, two="print('0 passed, 0 failed')")


def jobs(place, tests):
    """Each proof of rt ci has one job, where memory allows that as many are proved at a time as there are processors, and no
    control group says otherwise."""
    place.tell("echo \"$RT_JOBS\" >jobs; " + COUNTED, one=PASSES)
    free = {"cpu.max": "max 100000", "memory.max": "max", "cpu.cfs_quota_us": "-1", "memory.limit_in_bytes": "9223372036854771712"}
    for processors, gigabytes, limits, given, wanted in (
        (4, 20, {}, "", "4"),
        (4, 20, free, "", "4"),
        (4, 19, {}, "", ""),
        (1, 5, {}, "", "1"),
        (64, 400, {}, "", "64"),
        (64, 400, {"cpu.max": "400000 100000"}, "", ""),
        (64, 400, free | {"memory.max": "17179869184"}, "", ""),
        (64, 400, free | {"cpu.cfs_quota_us": "400000"}, "", ""),
        (64, 400, free | {"memory.limit_in_bytes": "17179869184"}, "", ""),
        (4, 400, {"cpu.max": "400000 100000"}, "2", "2"),
    ):
        place.write("bin/nproc", f"#!/bin/sh\necho {processors}\n", 0o755)
        cases = "".join(f"/sys/fs/cgroup/*{name}) echo '{limit}' ;;\n" for name, limit in limits.items())
        place.write("bin/cat", f'#!/bin/sh\ncase "$1" in\n{cases}*) exit 1 ;;\nesac\n', 0o755)
        place.write("bin/grep", f"#!/bin/sh\necho 'MemAvailable: {gigabytes}000000 kB'\n", 0o755)
        ran = subprocess.run(["./test"], cwd=place.top, env=place.env() | {"RT_JOBS": given}, stdin=subprocess.DEVNULL, capture_output=True, text=True, timeout=HANGS)
        with open(f"{place.top}/jobs", encoding="utf-8") as file:
            said = file.read().strip()
        is_so = (ran.returncode, said) == (0, wanted)
        tests.check(f"with {processors} processors, {gigabytes} GB, {limits} and RT_JOBS={given} that is {wanted or 'left to rt'}", is_so, (ran, said))
    for name in ("nproc", "grep", "cat"):
        os.remove(f"{place.top}/bin/{name}")


def streams(place, tests):
    place.tell(COUNTED, one="import sys; assert sys.stdin.read() == ''\n" + PASSES)
    env = os.environ | {"PATH": f"{place.top}/bin:{os.environ['PATH']}"}
    for how in ("./test <&-", "bash ./test </dev/null", "echo input | ./test", "cd / && $OLDPWD/test"):
        ran = subprocess.run(["bash", "-c", how], cwd=place.top, env=env, capture_output=True, text=True, timeout=HANGS)
        is_so = (ran.returncode, ran.stdout.splitlines()[-1:]) == (0, ["7 passed, 0 failed"])
        tests.check(f"it runs as `{how}`", is_so, (ran.returncode, ran.stdout, ran.stderr))
    with open(f"{place.top}/log", "w+") as log:
        place.run(stdout=log)
        log.seek(0)
        lines = log.read().splitlines()
    tests.check("a file gets all lines", (lines[0], lines[-1]) == ("some", "7 passed, 0 failed"), lines)


def freshness(place, tests):
    sees = "import subprocess; assert subprocess.check_output(['crates/plinq/out/plinq']) == b'new\\n'\n" + PASSES
    place.tell(COUNTED, one=sees)
    place.leave_old_program()
    os.remove(f"{place.top}/calls")
    status, output, _ = place.run()
    with open(f"{place.top}/calls") as file:
        calls = file.read()
    is_so = (status, calls) == (0, "ci\n")
    tests.check("the tests get the program that rt ci made, which isn't built twice", is_so, (status, output, calls))
    for name, ci, wanted, marker in (
        ("rt ci makes none", "echo '1 passed, 0 failed'", "1 passed, 2 failed", "no-program"),
        ("rt ci stops before it makes one", "echo '0 passed, 1 failed'; exit 2", "0 passed, 3 failed", "no-program"),
        ("a source changes during rt ci", "echo changed >crates/plinq/src/main.rt; echo '1 passed, 0 failed'", "1 passed, 2 failed", "other"),
    ):
        place.tell(ci, one=PASSES, two=PASSES)
        place.leave_old_program()
        place.write(marker)
        status, output, _ = place.run()
        is_so = status != 0 and output.splitlines()[-1] == wanted and "tests/two.py: not run" in output
        tests.check(f"where {name}, and it can't be built, no old program is tested", is_so, (status, output))
        os.remove(f"{place.top}/{marker}")
    place.tell(COUNTED, one=PASSES)
    place.write("bin/sha256sum", "#!/usr/bin/env bash\nexit 1\n", 0o755)
    status, output, _ = place.run()
    os.remove(f"{place.top}/bin/sha256sum")
    is_so = status != 0 and output.splitlines()[-1] == "5 passed, 2 failed" and "FAILED: tools/build sum" in output
    tests.check("sources that can't be summed are counted as failed, and no program is taken for one of them", is_so, (status, output))


def no_rt(place, tests):
    place.tell(COUNTED, one=PASSES)
    os.rename(f"{place.top}/bin/rt", f"{place.top}/bin/hidden")
    tools = f"{place.top}/tools-alone"
    os.mkdir(tools)
    for name in "bash readlink dirname rm find sort xargs sha256sum cut flock sed".split():
        os.symlink(shutil.which(name), f"{tools}/{name}")
    ran = subprocess.run(["./test"], cwd=place.top, env={"PATH": tools}, capture_output=True, text=True, timeout=HANGS)
    lines = ran.stdout.splitlines()
    is_so = ran.returncode != 0 and "rt is not on the PATH" in ran.stdout and lines[-1] == "0 passed, 2 failed"
    tests.check("where rt isn't there, it is said", is_so, (ran.returncode, ran.stdout, ran.stderr))
    os.rename(f"{place.top}/bin/hidden", f"{place.top}/bin/rt")


# A test that is at work until it is let go.
HOLDS = """
import os, time
open("at-work-{name}", "w").close()
while not os.path.exists("go-{name}"):
    time.sleep(0.02)
os.remove("at-work-{name}")
print("1 passed, 0 failed")
"""
MINDS = "import signal; assert signal.getsignal(signal.SIGINT) == signal.default_int_handler and signal.getsignal(signal.SIGQUIT) == signal.SIG_DFL\n" + PASSES


def wait_for(holds):
    for _ in range(HANGS * 50):
        if holds():
            break
        time.sleep(0.02)


def side_by_side(place, tests):
    """The tests run side by side, as many as there are processors: where one has ended, the next one begins."""
    names = ["one", "two", "three", "four", "five"]

    def at_work():
        return [name for name in names if os.path.exists(f"{place.top}/at-work-{name}")]

    for processors in (1, 2, 3, 64):
        place.tell(COUNTED, **{name: HOLDS.replace("{name}", name) for name in names})
        place.write("bin/nproc", f"#!/bin/sh\necho {processors}\n", 0o755)
        started = place.start()
        wanted, seen = [min(processors, left) for left in (5, 4, 3, 2, 1)], []
        for many in wanted:
            wait_for(lambda: len(at_work()) >= many or started.poll() is not None)
            time.sleep(0.3)
            seen.append(len(at_work()))
            one = at_work()[-1]
            place.write(f"go-{one}")
            wait_for(lambda: one not in at_work())
        output, errors = started.communicate(timeout=HANGS)
        lines = output.splitlines()
        is_so = (started.returncode, seen, lines[-1]) == (0, wanted, "10 passed, 0 failed") and all(f"== tests/{it}.py" in lines for it in names)
        tests.check(f"five tests by {processors} processors", is_so, (started.returncode, seen, output, errors))
        for name in names:
            os.remove(f"{place.top}/go-{name}")
    # (bash 5.2 may have forgotten a test that ended while another one was waited for)
    forgets = """
wait() {
    [ "$1" != -n ] || [ "$((forgets = ${forgets:-0} + 1))" -gt FIRST ] || { builtin wait "${@:4}"; unset "$3"; return 127; }
    builtin wait "$@"
}
"""
    for first in (1, 2, 5):
        place.write("forgets", forgets.replace("FIRST", str(first)))
        place.tell(COUNTED, one=PASSES, two="print('1 passed, 1 failed'); exit(1)", three=PASSES)
        ran = subprocess.run(["./test"], cwd=place.top, env=place.env() | {"BASH_ENV": "forgets"}, capture_output=True, text=True, timeout=HANGS)
        is_so = (ran.returncode, ran.stdout.splitlines()[-1]) == (1, "10 passed, 1 failed")
        tests.check(f"a test's end that bash forgot the first {first} times", is_so, ran)
    place.tell(COUNTED, one=MINDS, two=MINDS)
    status, output, errors = place.run()
    tests.check("a test can be interrupted by its own signals", (status, output.splitlines()[-1]) == (0, "9 passed, 0 failed"), (output, errors))
    place.tell(COUNTED, one="import sys; print('one said', file=sys.stderr)\nprint('1 passed, 0 failed', end='')", two=PASSES)
    status, output, errors = place.run()
    lines = output.splitlines()
    tests.check("what each test says stands below its name", lines[lines.index("== tests/one.py") + 1] == "1 passed, 0 failed", lines)
    tests.check("and what it says of errors is passed on", errors.splitlines() == ["one said"], errors)
    os.remove(f"{place.top}/bin/nproc")
    tests.check("no file of theirs is left", not os.listdir(place.temporary), os.listdir(place.temporary))
    place.write("bin/mktemp", "#!/bin/sh\nexit 1\n", 0o755)
    status, output, errors = place.run()
    os.remove(f"{place.top}/bin/mktemp")
    is_so = status != 0 and output.splitlines()[-1] == "5 passed, 2 failed" and "tests/two.py: not run" in output
    tests.check("where there is no room for what they say, they count as failed", is_so, (status, output, errors))


# A test that ends a while after it was asked to, and leaves a file then.
CLEANS = """
import os, signal, sys, time
def end(*_):
    time.sleep(0.3)
    open(f"ended-{name}", "w").close()
    sys.exit(1)
signal.signal(signal.SIGTERM, end)
open("at-work-{name}.new", "w").close()
os.rename("at-work-{name}.new", "at-work-{name}")
while True:
    time.sleep(0.02)
"""


def interruption(place, tests):
    """An interruption ends rt ci, or the tests, as well, and ./test ends after them. (Each stand-in takes a while, and leaves a file
    then.)"""
    cleans = "trap 'sleep 0.3; echo >ended-ci; exit 1' TERM; echo $$ >at-work.new; mv at-work.new at-work-ci; while :; do sleep 0.02; done"
    place.write("bin/nproc", "#!/bin/sh\necho 2\n", 0o755)
    for what, ci, names in (("rt ci", cleans, ["ci"]), ("the tests that run", COUNTED, ["one", "two"])):
        for which in (signal.SIGINT, signal.SIGTERM, signal.SIGHUP):
            place.tell(ci, one=CLEANS.replace("{name}", "one"), two=CLEANS.replace("{name}", "two"), z=PASSES)
            started = place.start(stdout=subprocess.DEVNULL, stderr=subprocess.DEVNULL)
            wait_for(lambda: all(os.path.exists(f"{place.top}/at-work-{name}") for name in names))
            started.send_signal(which)
            status = started.wait(timeout=HANGS)
            ended, left = [name for name in names if os.path.exists(f"{place.top}/ended-{name}")], os.listdir(place.temporary)
            tests.check(f"{which.name} ends {what}, and then ./test", (status, ended, left) == (-which, names, []), (status, ended, left))
            for name in names:
                os.remove(f"{place.top}/at-work-{name}")
            for name in ended:
                os.remove(f"{place.top}/ended-{name}")
    os.remove(f"{place.top}/bin/nproc")


# Stand-ins for dpkg-query, which finds the packages that stand in the file installed, and for apt-get, which does as told.
DEBIAN = {"dpkg-query": 'grep -qxF -e "${!#}" installed && printf installed', "apt-get": 'echo "$*" >>calls; echo noise; exit "$(<apt)"'}


def packages(place, tests):
    os.makedirs(f"{place.top}/.ci")
    shutil.copy(f"{ROOT}/.ci/run", f"{place.top}/.ci")
    for name, line in DEBIAN.items():
        place.write(f"bin/{name}", f"#!/usr/bin/env bash\n{line}\n", 0o755)
    with open(f"{ROOT}/test", encoding="utf-8") as file:
        wanted = re.search(r"^packages=\((.*)\)$", file.read(), re.M)[1].split()
    tests.check("the packages are named in order, each once", wanted == sorted(set(wanted)) and wanted, wanted)
    place.tell(COUNTED, one=PASSES)
    for name, installed, status, calls in (
        ("nothing is installed where all is there", wanted, 100, []),
        ("what is missing is installed", wanted[1:-1], 0, ["update -qq", "install"]),
        ("the tests run where nothing can be had", wanted[1:-1], 100, ["update -qq"]),
    ):
        place.write("installed", "".join(f"{it}\n" for it in installed))
        place.write("apt", str(status))
        place.write("calls")
        seen = subprocess.run([".ci/run"], cwd=place.top, env=place.env(), capture_output=True, text=True, timeout=HANGS)
        is_so = (seen.returncode, seen.stdout.splitlines()[-1]) == (0, "7 passed, 0 failed") and "noise" not in seen.stdout
        tests.check(name, is_so, seen)
        with open(f"{place.top}/calls", encoding="utf-8") as file:
            asked = [it for it in file.read().splitlines() if it != "ci"]
        tests.check(f"{name}: what apt-get was asked", [it if it == "update -qq" else it.split()[0] for it in asked] == calls, asked)
        if len(calls) == 2:
            tests.check("and nothing else", asked[1].endswith(f" {wanted[0]} {wanted[-1]}"), asked)
        is_named = f"not installed: {wanted[0]} {wanted[-1]}\n" in seen.stderr
        tests.check(f"{name}: what could not be had is named", is_named == (len(calls) == 1), seen.stderr)


def main():
    tests = Tests()
    with tempfile.TemporaryDirectory() as folder:
        place = Place(folder)
        sums(place, tests)
        jobs(place, tests)
        streams(place, tests)
        freshness(place, tests)
        no_rt(place, tests)
        side_by_side(place, tests)
        interruption(place, tests)
    with tempfile.TemporaryDirectory() as folder:
        packages(Place(folder), tests)
    tests.end()


if __name__ == "__main__":
    # (what starts this in the background may have these ignored, and what is started here would ignore them as well)
    signal.signal(signal.SIGINT, signal.default_int_handler)
    signal.signal(signal.SIGHUP, signal.SIG_DFL)
    main()
