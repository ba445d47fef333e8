#!/usr/bin/env python3
"""What `--plain` prints and says, the second lines on standard error, and `--workers auto`.

    python3 tests/plain.py
"""
import contextlib
import os
import pty
import re
import shutil
import subprocess
import tempfile

from answers import ANSWERS
from support.program import EXAMPLES, HANGS, PLINQ, PROGRAM, ROOT, Outcome, Tests, build, run
from support.threads import leaving, unused_user

ORDERED = '{"version":1,"source":{%s},"query":[["as_ordered"]%s]%s}'
ENDING = re.compile(rb"(end|refused \d+|fault \w+)\n\Z")
MANY = b'{"version":1,"source":{"range":[1,1000000]},"query":[["as_ordered"]]}'


def plain_of(seen):
    """What is to be printed where `seen` is printed with an ending, and the first line on standard error."""
    ending = ENDING.search(seen.output)
    said = b"" if ending[1] == b"end" else b"plinq: " + ending[0]
    return seen.output[: ending.start()], said


def lines_of(errors):
    """The lines on standard error: the first, and whether there is just one more, which says why."""
    first, _, rest = errors.partition(b"\n")
    return first + b"\n", re.fullmatch(rb"  \S.*\n", rest) is not None


def answers(tests):
    """Elements, or an aggregate's value, without the ending; the same status."""
    for option, source, steps, output, status in ANSWERS:
        for aggregate in ("", ',"aggregate":"sum"', ',"aggregate":"min"'):
            text = (ORDERED % (source, steps, aggregate)).encode()
            words = ["--merge", option] if option else []
            for command in (["seq"], ["run"], ["run", "--workers", "1"], ["run", "--workers", "64"]):
                told = run([*command, *words], text)
                seen = run([*command, "--plain", *words], text)
                wanted, said = plain_of(told)
                first, is_explained = lines_of(seen.errors)
                is_so = (seen.status, seen.output) == (told.status, wanted)
                is_said = seen.errors == b"" if said == b"" else first == said and is_explained
                tests.check(f"plinq {' '.join([*command, *words])} --plain of {text.decode()[:200]}", is_so and is_said, f"wanted {wanted!r} {said!r}; seen {seen}")


def as_shell(line, given=b"", **more):
    ran = subprocess.run(["bash", "-c", line, PLINQ], input=given, cwd=EXAMPLES, capture_output=True, timeout=HANGS, env=os.environ | more)
    return Outcome(ran.returncode, ran.stdout, ran.stderr)


WHY = [
    # a line, its input, the status, the first line, and what stands in the second
    ("$0 run %s </", b"", 5, b"plinq: read failed\n", b"Is a directory (os error 21)"),
    ("$0 run %s <&-", b"", 5, b"plinq: read failed\n", b"Bad file descriptor (os error 9)"),
    ("$0 run %s < add-one.json > /dev/full", b"", 5, b"plinq: write failed\n", b"No space left on device (os error 28)"),
    ("$0 seq %s > /dev/full", MANY, 5, b"plinq: write failed\n", b"No space left on device (os error 28)"),
    ("$0 run %s", b"{", 2, b"plinq: document: not JSON\n", b"plinq-check < DOCUMENT"),
    ("$0 seq %s", b"{}", 2, b"plinq: document: wrong shape\n", b"plinq-check < DOCUMENT"),
    ("$0 run %s", b'{"version":1,"source":{"list":[]},"query":[["sort"]]}', 2, b"plinq: document: step 0: unknown\n", b"plinq-check < DOCUMENT"),
    ("$0 run %s", b"[" * 16_777_217, 2, b"plinq: document: too long\n", b"16777216 bytes; plinq-cluster --text FILE"),
    ("PLINQ_MEMORY=8M $0 seq %s", ORDERED.encode() % (b'"text":"' + b"1 " * 4_000_000 + b'"', b"", b""), 5, b"plinq: out of memory\n", b"PLINQ_MEMORY"),
    ("$0 run %s --cancel-after 0 < add-one.json", b"", 5, b"plinq: cancelled\n", b"--cancel-after"),
]


def reasons(tests):
    """The lines that scripts read stay as they are; a second one says why, by --plain or where it is asked for."""
    for line, given, status, first, why in WHY:
        seen = as_shell(line % "", given)
        tests.check(f"one line: {line}", (seen.status, seen.errors) == (status, first), seen)
        for name, words, more in (("--plain", "--plain", {}), ("PLINQ_EXPLAIN", "", {"PLINQ_EXPLAIN": "yes"})):
            seen = as_shell(line % words, given, **more)
            said, is_explained = lines_of(seen.errors)
            tests.check(f"by {name} a second line says why: {line}", seen.status == status and said == first and is_explained and why in seen.errors, seen)
    for words in ("run", "run --workers 1", "run --workers auto", "seq"):
        seen = as_shell(f"$0 {words} --plain --merge not | head -n 2; exit ${{PIPESTATUS[0]}}", MANY)
        tests.check(f"of a reader that has gone nothing is said: {words}", seen == Outcome(5, b"1\n2\n", b""), seen)
        seen = as_shell(f"$0 {words} --merge not | head -n 2; exit ${{PIPESTATUS[0]}}", MANY, PLINQ_EXPLAIN="yes")
        is_so = (seen.status, seen.output) == (5, b"1\n2\n") and seen.errors.startswith(b"plinq: write failed\n  Broken pipe (os error 32)")
        tests.check(f"without --plain it is said, and why: {words}", is_so, seen)
    # (what clap says of refused words explains itself)
    seen = as_shell("$0 run --workers 65", b"", PLINQ_EXPLAIN="yes")
    tests.check("refused words have no further line", seen.status == 2 and b"\n  " not in seen.errors, seen)


def without_a_thread(tests, folder):
    """What is said where the system starts no thread, by a limit on a user who has no process."""
    os.chmod(folder, 0o755)
    program = shutil.copy(PROGRAM, folder)
    first, user = b"plinq: no thread\n", unused_user()
    for aggregate in ("", ',"aggregate":"sum"'):
        text = (ORDERED % ('"range":[0,1000000]', "", aggregate)).encode()
        for words, more in (("--plain", {}), ("", {"PLINQ_EXPLAIN": "yes"})):
            seen = run(["run", *words.split()], text, program, preexec_fn=leaving(1, user), env=os.environ | more)
            said, is_explained = lines_of(seen.errors)
            is_so = (seen.status, seen.output, said, is_explained) == (5, b"", first, True) and b"ulimit -u" in seen.errors
            tests.check(f"no thread: {words or more} {aggregate}", is_so, seen)
        seen = run(["run"], text, program, preexec_fn=leaving(1, user))
        tests.check(f"no thread in one line: {aggregate}", seen == Outcome(5, b"", first), seen)


def on_a_terminal(tests):
    """./plinq asks for second lines where standard error is a terminal, and else for none."""
    for words, given, wanted in (
        (["run"], b"{", b"plinq: document: not JSON\r\n  plinq-check < DOCUMENT"),
        (["run", "--workers", "1"], b'{"version":1,"source":{"text":"x"},"query":[]}', b""),
        (["run", "--plain"], b'{"version":1,"source":{"text":"x"},"query":[]}', b"plinq: refused 1\r\n  of a text: "),
    ):
        near, far = pty.openpty()
        run(words, given, stderr=far)
        os.write(far, b"over")
        os.close(far)
        seen = b""
        while not seen.endswith(b"over"):
            seen += os.read(near, 65_536)
        os.close(near)
        tests.check(f"on a terminal: plinq {' '.join(words)}", seen.startswith(wanted) and (wanted != b"" or seen == b"over"), seen)


# How many cores there are to be: by the list of those that are allowed, of those that are there, and by control groups: the files
# of these, and what the process says of its own.
COUNTED = {
    "as many as are allowed": (6, "0-3,8,10", "0-15", {}, ""),
    "no more than are there": (4, "0-127", "0-3", {}, ""),
    "those that are allowed and there": (4, "1-4,9-20", "0-2,4-8,12", {}, ""),
    "no list of those that are there": (2, "5-6", None, {}, ""),
    "more than there can be workers": (64, "0-255", "0-255", {}, ""),
    "no list at all": (0, None, "0-3", {}, ""),
    "a quota of version 2": (2, "0-7", "0-7", {"a/cpu.max": "200000 100000"}, "0::/a"),
    "a quota of one and a half": (2, "0-7", "0-7", {"a/cpu.max": "150000 100000"}, "0::/a"),
    "a quota below one core": (1, "0-7", "0-7", {"a/cpu.max": "1000 100000"}, "0::/a"),
    "no quota": (8, "0-7", "0-7", {"a/cpu.max": "max 100000"}, "0::/a"),
    "the quota of a parent": (3, "0-7", "0-7", {"a/b/cpu.max": "400000 100000", "a/cpu.max": "300000 100000"}, "0::/a/b"),
    "a quota above the affinity": (2, "0-1", "0-7", {"a/cpu.max": "400000 100000"}, "0::/a"),
    "the path of a host, in a container": (2, "0-7", "0-7", {"cpu.max": "200000 100000"}, "0::/docker/0123"),
    "a quota of version 1": (2, "0-7", "0-7", {"cpu/a/cpu.cfs_quota_us": "50000", "cpu/a/cpu.cfs_period_us": "25000"}, "4:memory:/\n3:cpuacct,cpu:/a\n0::/"),
    "no quota of version 1": (8, "0-7", "0-7", {"cpu/a/cpu.cfs_quota_us": "-1", "cpu/a/cpu.cfs_period_us": "100000"}, "3:cpu:/a"),
    "a quota without a period": (8, "0-7", "0-7", {"cpu/a/cpu.cfs_quota_us": "50000"}, "3:cpu:/a"),
    "a period of nothing": (8, "0-7", "0-7", {"a/cpu.max": "200000 0"}, "0::/a"),
    "an empty file": (8, "0-7", "0-7", {"a/cpu.max": ""}, "0::/a"),
}


def counted(tests, folder):
    """What the lines count, with no commands but the shell's own, and that the number stands in the place of the word alone."""
    with open(f"{ROOT}/tools/start.sh", encoding="utf-8") as file:
        lines = file.read()
    says = f"{folder}/says"
    with open(says, "w", encoding="utf-8") as file:
        file.write('#!/bin/sh\nfor it in "$@"; do echo "$it"; done\n')
    os.chmod(says, 0o755)
    for name, (wanted, allowed, online, files, own) in COUNTED.items():
        status = "Name:\tsh\n" + ("" if allowed is None else f"Cpus_allowed:\tff\nCpus_allowed_list:\t{allowed}\nMems_allowed:\t1")
        there = {f"groups/{path}": text for path, text in files.items()} | {"cgroup": own, "status": status} | ({} if online is None else {"online": online})
        for path, text in there.items():
            os.makedirs(os.path.dirname(f"{folder}/{name}/{path}"), exist_ok=True)
            with open(f"{folder}/{name}/{path}", "w", encoding="utf-8") as file:
                file.write(f"{text}\n")
        script = lines
        for real, path in (("/proc/self/cgroup", "cgroup"), ("/proc/self/status", "status"), ("/sys/devices/system/cpu/online", "online"), ("/sys/fs/cgroup", "groups")):
            tests.check(f"{real} is read", real in script)
            script = script.replace(real, f"'{folder}/{name}/{path}'")
        for shell in ("sh", "bash"):
            ran = subprocess.run([f"/bin/{shell}", "-c", f'set -eu\n{script}\ncount_cores\necho "$cores"'], env={"PATH": ""}, capture_output=True, text=True, timeout=HANGS)
            tests.check(f"{shell}: {name}", (ran.returncode, ran.stdout, ran.stderr) == (0, f"{wanted}\n", ""), (ran.stdout, ran.stderr))
            words = ["run", "--merge", "auto", "--workers", "auto", "a b", "", "--merge=auto", "auto"]
            number = [str(wanted)] if wanted else ["auto"]
            for given, told in ((words, [*words[:4], *number, *words[5:]]), (["--workers=auto"], [f"--workers={number[0]}"]), (["--workers", "auto", "--workers", "3"], ["--workers", *number, "--workers", "3"])):
                passed_on(tests, says, shell, name, script, given, told)
            # (lines have as many workers as cores unless they are given a number)
            without = ["lines", "skip 0", "a b"]
            passed_on(tests, says, shell, name, script, without, ["lines", f"--workers={wanted}", *without[1:]] if wanted else without)
            passed_on(tests, says, shell, name, script, ["lines", "--workers", "3", "skip 0"], ["lines", "--workers", "3", "skip 0"])


def passed_on(tests, says, shell, name, script, given, told):
    """The words that the start script gives the program."""
    line = f'set -eu\n{script}\nstart_program "{says}" "$@"'
    ran = subprocess.run([f"/bin/{shell}", "-c", line, "plinq", *given], env={"PATH": ""}, capture_output=True, text=True, timeout=HANGS)
    tests.check(f"{shell}: {name}: {given}", (ran.returncode, ran.stdout.splitlines(), ran.stderr) == (0, told, ""), (ran.stdout, ran.stderr))


def quota_group():
    """The folder of a new control group that may use one and a half cores, or None if this machine lets none be made."""
    with open("/proc/self/cgroup", encoding="utf-8") as file:
        own = [line.rstrip("\n").split(":", 2) for line in file]
    for _, controllers, path in own:
        is_first_version = "cpu" in controllers.split(",")
        if not (is_first_version or controllers == ""):
            continue
        top, name, quota = ("/sys/fs/cgroup/cpu", "cpu.cfs_quota_us", "150000") if is_first_version else ("/sys/fs/cgroup", "cpu.max", "150000 100000")
        made = f"{top}{path.rstrip('/')}/plinq-{os.getpid()}"
        try:
            os.mkdir(made)
            with open(f"{made}/{name}", "w", encoding="utf-8") as file:
                file.write(quota)
            return made
        except OSError:
            with contextlib.suppress(OSError):
                os.rmdir(made)
    return None


def by_quota(tests):
    """In a real control group `--workers auto` is what its quota says."""
    group = quota_group()
    if group is None:
        print("(this machine lets no control group be made)", flush=True)
        return
    try:
        for line in ("--workers auto", "--workers=auto"):
            seen = as_shell(f'echo $$ >"{group}/cgroup.procs" && exec $0 plan {line} < add-one.json')
            wanted = b"workers %d\n" % min(2, len(os.sched_getaffinity(0)))
            tests.check(f"in a group of one and a half cores: {line}", seen.status == 0 and seen.output.startswith(wanted), seen)
    finally:
        os.rmdir(group)


def as_many_as_cores(tests):
    """`--workers auto` is as many as the process may use, and else a number of workers like any other."""
    cores = sorted(os.sched_getaffinity(0))
    for count in sorted({1, 2, len(cores)}):
        if count > len(cores):
            continue
        seen = as_shell(f"taskset -c {','.join(map(str, cores[:count]))} $0 plan --workers auto < add-one.json")
        number = re.match(rb"workers (\d+)\n", seen.output)
        # (a quota may be lower)
        is_so = seen.status == 0 and number is not None and (int(number[1]) == count if count == 1 else 1 <= int(number[1]) <= count)
        tests.check(f"on {count} cores", is_so, seen)
    # (a start script counts before the program does)
    for words, wanted in (("--workers auto --merge some", b"'some'"), ("--merge some --workers=auto", b"'some'"), ("--workers auto --bogus", b"'--bogus'"), ("--workers auto --workers 3", b"multiple times")):
        seen = as_shell(f"$0 run {words} < add-one.json")
        tests.check(f"what is wrong beside it is said: {words}", seen.status == 2 and wanted in seen.errors and b"'auto'" not in seen.errors.split(b"[")[0], seen)
    text = b'{"version":1,"source":{"range":[1,100]},"query":[["as_ordered"],["with_degree",2]]}'
    seen = run(["run", "--workers", "auto"], text)
    tests.check("it is a settings call", seen == Outcome(2, b"", b"plinq: document: step 1: degree twice\n"), seen)
    for words in (["--workers", "auto"], ["--workers=auto"]):
        seen = run(["run", *words, "--merge", "not", "--plain"], MANY)
        tests.check(f"a run by {' '.join(words)}", seen == Outcome(0, b"".join(b"%d\n" % it for it in range(1, 1_000_001)), b""), seen)
        for command in ("seq", "parts", "history"):
            seen = run([command, *words], b'{"version":1,"source":{"list":[5]},"query":[]}')
            tests.check(f"{command} by {' '.join(words)}", seen.status == 0 and seen.errors == b"", seen)


def main():
    build()
    tests = Tests()
    answers(tests)
    reasons(tests)
    on_a_terminal(tests)
    as_many_as_cores(tests)
    by_quota(tests)
    with tempfile.TemporaryDirectory() as folder:
        without_a_thread(tests, folder)
        counted(tests, folder)
    tests.end()


if __name__ == "__main__":
    main()
