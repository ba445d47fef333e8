#!/usr/bin/env python3
"""The limit of memory under which ./plinq starts the program (tools/start.sh): what it is, also in a control group, and that a run
which wants more reports it, and one that doesn't never does. Then what some runs take, that first lines come at once, and that memory is used again.

    python3 tests/memory.py
"""
import contextlib
import os
import re
import shutil
import subprocess
import tempfile
import threading

from support.program import HANGS, PLINQ, PROGRAM, ROOT, Outcome, Tests, build, run

STACK = 2**20
OUT_OF_MEMORY = Outcome(5, b"", b"plinq: out of memory\n")
NO_THREAD = Outcome(5, b"", b"plinq: no thread\n")
# Documents of few bytes that want more memory than any machine has.
HUNGRY = {
    "one line of 2^40 numbers": ("run --merge full", '{"version":1,"source":{"range":[0,1099511627776]},"query":[["as_ordered"]]}'),
    "one line of 2^40 numbers in one thread": ("seq --merge full", '{"version":1,"source":{"range":[0,1099511627776]},"query":[["as_ordered"]]}'),
    "expansions of great chunks": ("run", '{"version":1,"source":{"range":[0,1099511627776]},"query":[["select_many","repeat",65536],["take",390]],"growth":[65536,1,65536]}'),
    "expansions of great chunks in order": ("run", '{"version":1,"source":{"range":[0,1099511627776]},"query":[["as_ordered"],["select_many","repeat",65536],["take",390]],"growth":[65536,1,65536]}'),
    "nested expansions": ("run", '{"version":1,"source":{"list":[1]},"query":[["select_many","repeat",65536],["select_many","repeat",65536],["select_many","repeat",65536],["take",1]]}'),
}
# Documents of 20 and of 131 million items that are folded or filtered, and not held: the words, the document, the number that is
# printed, the most bytes.
SPARING = {
    "an aggregate in one thread": ("seq", '{"version":1,"source":{"range":[0,200000]},"query":[["select_many","repeat",100]],"aggregate":"count"}', 20_000_000, 60_000_000),
    "an aggregate after the merge": ("run", '{"version":1,"source":{"range":[0,200000]},"query":[["as_ordered"],["select_many","repeat",100],["take",100000000]],"aggregate":"count"}', 20_000_000, 60_000_000),
    "an aggregate of great expansions": ("run", '{"version":1,"source":{"range":[0,2000]},"query":[["select_many","repeat",65536]],"aggregate":"count"}', 131_072_000, 60_000_000),
    "a filter that keeps one, fully buffered": ("run --merge full", '{"version":1,"source":{"range":[0,20000000]},"query":[["as_ordered"],["filter","equal",7]]}', 7, 60_000_000),
}
# A million items that are counted: the growth, and the least and the most bytes that it takes. Each chunk leaves a record of 48 bytes.
GROWN = {
    "chunks of one, as the document says": (',"growth":[1,1,1]', 48_000_000, 300_000_000),
    "chunks by time, if it doesn't say": ("", 0, 40_000_000),
}
# Documents of 2^40 items whose first lines come at once: the words, the operator, the first line, how many MB more are read.
ENDLESS = {
    "lines of 16 numbers in one thread": ("seq", '["skip",0]', b"0 1 2 3 4 5 6 7 8 9 10 11 12 13 14 15\n", 50),
    "lines of one number in one thread": ("seq --merge not", '["skip",0]', b"0\n", 50),
    "one number of all in one thread": ("seq --merge not", '["filter","equal",7]', b"7\n", 0),
    "one number of all": ("run --merge not", '["filter","equal",7]', b"7\n", 0),
}
# 5,000 chunks, of each of which a worker makes a result of 16 KB.
AGAIN = '{"version":1,"source":{"range":[0,10000000]},"query":[["as_ordered"],["filter","below",0]],"growth":[1,3,2048]}'
ADDED = b'{"version":1,"source":{"list":[3,1,4]},"query":[["as_ordered"],["select","add",1]]}'


def limit_of(text, name="data"):
    return re.search(rf"^Max {name} size +(\S+) +(\S+)", text, re.M).groups()


# What the fake control groups of a test have: of version 2, with a parent that has less left; of version 1; and without a limit.
GROUPS = {
    "none": ({}, ""),
    "one of version 2": ({"a/b/memory.max": "400000000", "a/b/memory.current": "0", "a/memory.max": "max"}, "0::/a/b"),
    "a parent that has less": ({"a/b/memory.max": "400000000", "a/b/memory.current": "0", "a/memory.max": "300000000", "a/memory.current": "100000000"}, "0::/a/b"),
    "pages of files are given up": (
        {"memory.max": "300000000", "memory.current": "200000000", "memory.stat": "anon 50000000\ninactive_file 100000000\nactive_file 50000000"},
        "0::/",
    ),
    "the path of a host, in a container": ({"memory.max": "200000000", "memory.current": "0"}, "0::/docker/0123"),
    "one of version 1": (
        {"memory/a/memory.limit_in_bytes": "200000000", "memory/a/memory.usage_in_bytes": "0", "memory/memory.limit_in_bytes": "9223372036854771712"},
        "3:cpu,cpuacct:/\n2:hugetlb,memory:/a\n0::/",
    ),
    "one that is full": ({"memory.max": "100000000", "memory.current": "100000000"}, "0::/"),
}
LEFT = {"none": None, "one of version 2": 400_000_000, "a parent that has less": 200_000_000, "pages of files are given up": 250_000_000}
LEFT |= {"the path of a host, in a container": 200_000_000, "one of version 1": 200_000_000, "one that is full": 2**20}


# How many workers' stacks the words of a call have room for.
WORDS = {"run --workers 64": 64, "run --workers=1 --merge not": 1, "run --merge not --workers 7": 7, "run --workers": 4, "run --workers 70": 4}
WORDS |= {"run --workers x": 4, "run --workers auto": 64, "parts": 4, "seq": 0, "seq --workers 64": 0}


def limits(tests, folder):
    """What the lines set, with a machine that has 1,000,000 kB available, and with no commands but the shell's own."""
    with open(f"{ROOT}/tools/start.sh", encoding="utf-8") as file:
        lines = file.read()
    tests.check("it reads what the machine and its groups have", (lines.count("/proc/meminfo"), lines.count("/proc/self/cgroup")) == (2, 4))
    with open(f"{folder}/meminfo", "w", encoding="utf-8") as file:
        file.write("MemTotal:        9000000 kB\nMemFree:          500000 kB\nMemAvailable:    1000000 kB\nBuffers: 7 kB\n")
    with open(f"{folder}/old", "w", encoding="utf-8") as file:
        file.write("MemTotal:        9000000 kB\n")
    for name, (files, own) in GROUPS.items():
        for path, text in {**{f"groups/{it}": text for it, text in files.items()}, "cgroup": own}.items():
            os.makedirs(os.path.dirname(f"{folder}/{name}/{path}"), exist_ok=True)
            with open(f"{folder}/{name}/{path}", "w", encoding="utf-8") as file:
                file.write(f"{text}\n")
    shown = 'limit_memory "$@"\nwhile read -r line; do echo "$line"; done </proc/self/limits\n'
    available = 1_000_000 * 1024

    def ran(shell, before, meminfo, group, value, *words):
        text = lines.replace("/proc/meminfo", f"{folder}/{meminfo}").replace("/proc/self/cgroup", f"'{folder}/{group}/cgroup'")
        text = text.replace("/sys/fs/cgroup", f"'{folder}/{group}/groups'")
        env = {"PATH": ""} | ({} if value is None else {"PLINQ_MEMORY": value})
        return subprocess.run([f"/bin/{shell}", "-c", f"set -eu\n{before}\n{text}\n{shown}", "plinq", *words], env=env, capture_output=True, text=True, timeout=HANGS)

    def bytes_of(number, workers=4, group=None):
        most = number // 1024 * 1024 + workers * STACK
        has_room = group is not None and group >= workers * STACK + 2**24
        return str(min(most, group // 1024 * 1024) if has_room else most)

    default = bytes_of(available)
    for shell in ("sh", "bash"):
        for name, value, before, meminfo, wanted in (
            ("what is available", None, "", "meminfo", (default, "unlimited")),
            ("an empty word", "", "", "meminfo", (default, "unlimited")),
            ("a number of bytes", "300000500", "", "meminfo", (bytes_of(300_000_500), "unlimited")),
            ("a number of kilobytes", "30000k", "", "meminfo", (bytes_of(30_000 * 1024), "unlimited")),
            ("a number of megabytes", "300M", "", "meminfo", (bytes_of(300 * 2**20), "unlimited")),
            ("a number of gigabytes, which aren't there", "2G", "", "meminfo", (default, "unlimited")),
            ("a number of gigabytes", "2G", "", "gone", (bytes_of(2 * 2**30), "unlimited")),
            ("more than a shell computes with", "99999999999999999999", "", "meminfo", (default, "unlimited")),
            ("more gigabytes than that", "99999999999G", "", "meminfo", (default, "unlimited")),
            ("the least", "1M", "", "meminfo", (bytes_of(2**20), "unlimited")),
            ("no limit", "unlimited", "", "meminfo", ("unlimited", "unlimited")),
            ("a lower limit stays", None, "ulimit -d 5000", "meminfo", ("5120000", "5120000")),
            ("a lower limit that could be raised stays", None, "ulimit -S -d 5000", "meminfo", ("5120000", "unlimited")),
            ("below a limit", "4096000", "ulimit -d 50000", "meminfo", (bytes_of(4_096_000), "51200000")),
            ("no number of what is available", None, "", "old", ("unlimited", "unlimited")),
            ("no file of what is available", None, "", "gone", ("unlimited", "unlimited")),
        ):
            seen = ran(shell, before, meminfo, "none", value)
            tests.check(f"{shell}: {name}", (seen.returncode, seen.stderr) == (0, "") and limit_of(seen.stdout) == wanted, seen)
        for before, value, wanted in (("", None, str(STACK)), ("ulimit -S -s 512", None, "524288"), ("", "unlimited", None)):
            seen = ran(shell, before, "meminfo", "none", value)
            is_so = limit_of(seen.stdout, "stack")[0] == wanted if wanted else limit_of(seen.stdout, "stack")[0] != str(STACK)
            tests.check(f"{shell}: a thread's stack {before} {value}", seen.returncode == 0 and is_so, seen)
        for name, left in LEFT.items():
            for meminfo, least in (("meminfo", min(left or available, available)), ("gone", left)):
                wanted = bytes_of(least, group=left) if least else "unlimited"
                seen = ran(shell, "", meminfo, name, None)
                is_so = (seen.returncode, seen.stderr) == (0, "") and limit_of(seen.stdout)[0] == wanted
                tests.check(f"{shell}: a control group: {name}, {meminfo}", is_so, (wanted, seen))
        seen = ran(shell, "", "meminfo", "one of version 1", "100M")
        tests.check(f"{shell}: less than a control group has", limit_of(seen.stdout)[0] == bytes_of(100 * 2**20), seen)
        for words, workers in WORDS.items():
            seen = ran(shell, "", "meminfo", "none", None, *words.split())
            is_so = (seen.returncode, seen.stderr) == (0, "") and limit_of(seen.stdout)[0] == bytes_of(available, workers)
            tests.check(f"{shell}: the stacks of {words}", is_so, seen)
        # (of 200 MB there is room for 64 stacks, and of 100,000,000 bytes for 64 less some)
        for name, words, value in (("one of version 1", "run --workers 64", None), ("one of version 1", "run --workers 64", "190M"), ("one that is full", "run", None)):
            seen = ran(shell, "", "meminfo", name, value, *words.split())
            wanted = bytes_of(min(LEFT[name], 190 * 2**20), 64 if "64" in words else 4, LEFT[name])
            tests.check(f"{shell}: no more than {name} has, by {words}, {value}", limit_of(seen.stdout)[0] == wanted, (wanted, seen))
        # (long words and environment want more)
        for length in (120_000, 300_000):
            wanted = STACK + 8 * length
            seen = ran(shell, "", "meminfo", "none", None, *["x" * 30_000] * (length // 30_000))
            stack = int(limit_of(seen.stdout, "stack")[0])
            is_so = (seen.returncode, seen.stderr) == (0, "") and wanted <= stack < wanted + 2**17
            is_so = is_so and int(limit_of(seen.stdout)[0]) == available + 4 * stack
            tests.check(f"{shell}: the stacks if the words take {length} bytes", is_so, (stack, seen.stderr))


# Control groups of version 1 or 2, if this machine lets them be made: how many bytes each has, and by how many workers it is tried.
LIMITED = {300_000_000: 64, 60_000_000: 32}


def new_group(limit):
    """The folder of a new control group with a limit in bytes, or None."""
    with open("/proc/self/cgroup", encoding="utf-8") as file:
        own = [line.rstrip("\n").split(":", 2) for line in file]
    for _, controllers, path in own:
        version_1 = "memory" in controllers.split(",")
        if not (version_1 or controllers == ""):
            continue
        top, name = ("/sys/fs/cgroup/memory", "memory.limit_in_bytes") if version_1 else ("/sys/fs/cgroup", "memory.max")
        made = f"{top}{path.rstrip('/')}/plinq-{os.getpid()}"
        try:
            os.mkdir(made)
            with open(f"{made}/{name}", "w", encoding="utf-8") as file:
                file.write(str(limit))
            return made
        except OSError:
            with contextlib.suppress(OSError):
                os.rmdir(made)
    return None


def in_a_group(tests):
    """What a run says in a control group that has less than it wants: never is it killed, also if many workers start while it grows."""
    for limit, workers in LIMITED.items():
        group = new_group(limit)
        if group is None:
            print("(this machine lets no control group be made)", flush=True)
            return
        try:
            for name, (words, document) in HUNGRY.items():
                more = f" --workers {workers}" if words.startswith("run") else ""
                script = f'echo $$ >"{group}/cgroup.procs" && exec "{PLINQ}" {words}{more}'
                seen = subprocess.run(["sh", "-c", script], input=document.encode(), capture_output=True, timeout=HANGS)
                is_so = Outcome(seen.returncode, seen.stdout, seen.stderr) == OUT_OF_MEMORY
                tests.check(f"{name}, in a group of {limit} bytes{more}", is_so, seen)
        finally:
            os.rmdir(group)


# The least limit in bytes from which on no right run of these fails, whatever its threads do, and how often each is tried.
ENOUGH = 8 * 2**20
TIMES = 50


def one_outcome(tests):
    """A small run under each limit from 1 MB up, by few and many workers: from ENOUGH on it is always right, and below it says that
    memory ran out, or that no thread could be had for its lack, and nothing else."""
    right = Outcome(0, b"4\n2\n5\nend\n", b"")
    by_words = {f"--workers {it}": (["--workers", it], ADDED) for it in ("1", "4", "16", "64")}
    by_document = {f"with_degree {it}": ([], ADDED.replace(b'["as_', b'["with_degree",%d],["as_' % it)) for it in (4, 16, 64)}
    for megabytes in (1, 2, 3, 4, 6, 8, 12, 16, 32, 64, 80):
        for name, (words, document) in (by_words | by_document).items():
            env = os.environ | {"PLINQ_MEMORY": f"{megabytes}M"}
            seen = [run(["run", "--merge", "not", *words], document, env=env) for _ in range(TIMES)]
            others = [it for it in seen if it != right]
            # (the start script doesn't know how many workers a document asks for)
            unknown = int(name.split()[1]) * STACK if name in by_document else 0
            is_enough = megabytes * 2**20 >= ENOUGH + unknown
            is_so = not others if is_enough else all(it == OUT_OF_MEMORY or unknown and it == NO_THREAD for it in others)
            tests.check(f"{megabytes} MB, {name}", is_so, f"{len(others)} of {TIMES}: {others[:1]}")


def started(tests):
    """What the program runs under that ./plinq starts."""
    with subprocess.Popen([PLINQ, "run", "--merge", "not"], stdin=subprocess.PIPE, stdout=subprocess.PIPE) as program:
        # (it reads what comes before it ends)
        while "crates/plinq/out/plinq" not in os.readlink(f"/proc/{program.pid}/exe"):
            pass
        with open(f"/proc/{program.pid}/limits", encoding="utf-8") as file:
            soft, _ = limit_of(file.read())
        with open("/proc/meminfo", encoding="utf-8") as file:
            total = int(re.search(r"^MemTotal: +(\d+)", file.read(), re.M)[1]) * 1024
        output, _ = program.communicate(ADDED, timeout=HANGS)
    tests.check("the program has a limit below all memory and the stacks", soft != "unlimited" and 4 * STACK < int(soft) < total + 4 * STACK, soft)
    tests.check("and answers within it", output == b"4\n2\n5\nend\n", output)
    neither = b'plinq: PLINQ_MEMORY is neither a number of bytes, as 500M, nor "unlimited"\n'
    below = b"plinq: PLINQ_MEMORY is below 1M, in which the program cannot start\n"
    odd = ("1e9", "-1", "1 000", "all", "0100", "0x100", "0", "0M", "M", "1T", "5.5M", "5MB", "5 M")
    for value in (*odd, "1", "1023", "4096", "1023k", "1048575"):
        seen = run(["run"], ADDED, env=os.environ | {"PLINQ_MEMORY": value})
        wanted = Outcome(2, b"", neither if value in odd else below)
        tests.check(f"PLINQ_MEMORY={value} is refused", seen == wanted, seen)
    seen = run(["run", "--merge", "not"], ADDED, env=os.environ | {"PLINQ_MEMORY": "unlimited"})
    tests.check("PLINQ_MEMORY=unlimited", seen == Outcome(0, b"4\n2\n5\nend\n", b""), seen)
    # (more than the kernel passes on to a program whose stack is 256 KB, though less than to most)
    seen = run(["run", "--merge", "not"], ADDED, env=os.environ | {f"PLINQ_TESTS_{it}": "x" * 100_000 for it in range(4)})
    tests.check("an environment of 400 KB", seen == Outcome(0, b"4\n2\n5\nend\n", b""), seen)


def bare(tests, folder):
    """In a root that has a shell, the program and their libraries alone: no /proc, /sys and /dev say what there is."""
    if os.getuid() != 0:
        print("(only root changes the root)", flush=True)
        return
    root = f"{folder}/bare"
    for path, name in (("/bin/sh", "/bin/sh"), (PROGRAM, "/plinq")):
        libraries = re.findall(r"(/\S+) \(", subprocess.run(["ldd", path], capture_output=True, text=True, timeout=HANGS).stdout)
        for source, there in ((path, name), *((it, it) for it in libraries)):
            os.makedirs(os.path.dirname(root + there), exist_ok=True)
            shutil.copy(source, root + there)
    with open(f"{ROOT}/tools/start.sh", encoding="utf-8") as file:
        line = f'set -eu\n{file.read()}\nstart_program /plinq "$@"'
    for value in ({}, {"PLINQ_MEMORY": "64M"}):
        for words in ([], ["--workers", "auto"]):
            program = ["chroot", root, "/bin/sh", "-c", line, "sh", "run", "--merge", "not", *words]
            seen = subprocess.run(program, input=ADDED, env={"PATH": os.environ["PATH"]} | value, capture_output=True, timeout=HANGS)
            is_so = (seen.returncode, seen.stdout, seen.stderr) == (0, b"4\n2\n5\nend\n", b"")
            tests.check(f"in a bare root, {value}, {words}", is_so, seen)


def deep(tests):
    """The deepest documents and the longest queries, by stacks of 768 KB, where the start script gives 1,024."""
    nested = b'{"":' * 124 + b"0" + b"}" * 124

    def query(step):
        return b'{"version":1,"source":{"range":[1,3]},"query":[["as_ordered"],' + b",".join([step] * 999) + b"]}"

    for name, document in {
        "lists": b"[" * 127 + b"]" * 127,
        "objects": b'{"version":1,"source":{"list":[' + nested + b']},"query":[]}',
        "steps": query(b'["select","add",1]'),
        "expansions": query(b'["select_many","repeat",1]'),
    }.items():
        wanted = run(["run", "--merge", "not"], document)
        smaller = subprocess.run(["sh", "-c", 'ulimit -S -s 768 && exec "$0" run --merge not', PLINQ], input=document, capture_output=True, timeout=HANGS)
        is_so = wanted.status in (0, 2) and run(["seq", "--merge", "not"], document) == wanted and Outcome(smaller.returncode, smaller.stdout, smaller.stderr) == wanted
        tests.check(f"{name}: by a smaller stack", is_so, (wanted, smaller))


def measured(words, document, env=None):
    """What the program answers, the most memory that it took, and how many pages it met that weren't there."""
    with subprocess.Popen([PLINQ, *words.split()], stdin=subprocess.PIPE, stdout=subprocess.PIPE, stderr=subprocess.PIPE, env=env) as program:
        program.stdin.write(document.encode())
        program.stdin.close()
        output, errors = program.stdout.read(), program.stderr.read()
        _, status, usage = os.wait4(program.pid, 0)
        program.returncode = os.waitstatus_to_exitcode(status)
    return Outcome(program.returncode, output, errors), usage.ru_maxrss * 1024, usage.ru_minflt


def hungry(tests):
    for name, (words, document) in HUNGRY.items():
        seen, taken, _ = measured(words, document, os.environ | {"PLINQ_MEMORY": "300000000"})
        tests.check(f"{name}, within 300 MB", seen == OUT_OF_MEMORY, seen)
        tests.check(f"{name}: it took no more", taken < 320_000_000, taken)


def sparing(tests):
    for name, (words, document, number, most) in SPARING.items():
        seen, taken, _ = measured(words, document)
        tests.check(name, seen == Outcome(0, f"{number}\nend\n".encode(), b""), seen)
        tests.check(f"{name}: it took {most} bytes at most", taken < most, taken)


def grown(tests):
    for name, (growth, least, most) in GROWN.items():
        document = f'{{"version":1,"source":{{"range":[0,1000000]}},"query":[["select","add",1]],"aggregate":"count"{growth}}}'
        seen, taken, _ = measured("run --workers 1", document)
        tests.check(name, seen == Outcome(0, b"1000000\nend\n", b""), seen)
        tests.check(f"{name}: it took {least} to {most} bytes", least <= taken <= most, taken)


def endless(tests):
    for name, (words, operator, line, more) in ENDLESS.items():
        document = f'{{"version":1,"source":{{"range":[0,1099511627776]}},"query":[["as_ordered"],{operator}]}}'
        with subprocess.Popen([PLINQ, *words.split()], stdin=subprocess.PIPE, stdout=subprocess.PIPE) as program:
            late = threading.Timer(HANGS, program.kill)
            late.start()
            program.stdin.write(document.encode())
            program.stdin.close()
            first = program.stdout.readline()
            read = sum(len(program.stdout.read(1_000_000)) for _ in range(more))
            with open(f"/proc/{program.pid}/status", encoding="utf-8") as file:
                taken = int(re.search(r"^VmHWM:\s+(\d+) kB", file.read(), re.M)[1]) * 1024
            late.cancel()
            program.kill()
        tests.check(f"{name}: the first line comes before the source ends", (first, read) == (line, more * 1_000_000), (first, read))
        tests.check(f"{name}: no more is held", taken < 30_000_000, taken)


def again(tests):
    seen, _, pages = measured("run --workers 4", AGAIN)
    tests.check("what results gave back", seen == Outcome(0, b"end\n", b""), seen)
    tests.check("what results gave back is taken again, and no new pages", pages < 5_000, pages)


def main():
    build()
    tests = Tests()
    with tempfile.TemporaryDirectory() as folder:
        limits(tests, folder)
        bare(tests, folder)
    started(tests)
    one_outcome(tests)
    deep(tests)
    hungry(tests)
    in_a_group(tests)
    sparing(tests)
    grown(tests)
    endless(tests)
    again(tests)
    tests.end()


if __name__ == "__main__":
    main()
