#!/usr/bin/python3
"""Runs documents by `cluster/plinq-cluster` over clusters of this machine, and compares what it prints with `plinq`.

    python3 tests/cluster.py

It wants Dask (apt-get install python3-distributed), which the system's own python3 has, and without it tries no more than
what is refused before a cluster is asked. As root and where `ip` is, one of its clusters has hosts in network namespaces.
"""
import asyncio
import concurrent.futures
import contextlib
import importlib
import io
import json
import logging
import multiprocessing
import os
import pathlib
import pickle
import pty
import random
import re
import signal
import subprocess
import sys
import tempfile
import threading
import time
import types

SYSTEM = "/usr/bin/python3"
try:
    import distributed
except ImportError:
    has_dask = os.path.exists(SYSTEM) and subprocess.run([SYSTEM, "-c", "import distributed"], capture_output=True).returncode == 0
    if has_dask and os.path.realpath(sys.executable) != os.path.realpath(SYSTEM):
        os.execv(SYSTEM, [SYSTEM, *sys.argv])
    distributed = None

from support.program import HANGS, PROGRAM, ROOT, Outcome, Tests, build, run
from support.workers import COMMAND, Machines, Net, end

sys.path.insert(0, os.path.join(ROOT, "cluster"))
documents = importlib.import_module("random-documents")
ORDERED = ["as_ordered"]
DOCUMENTS = 1_000


def text_of(source, *steps, **more):
    return json.dumps({"version": 2, "source": source, "query": [ORDERED, *steps], **more}).encode()


def command(words, text, **how):
    return run(words, text, COMMAND, **how)


def lines(numbers):
    return b"".join(b"%d\n" % it for it in numbers)


def closes(_):
    """What Dask raises if a client is closed while it fetches."""
    raise Exception("after closing")


class InProcess:
    """A cluster of three workers in this very process, so that thousands of documents need no other."""

    def __enter__(self):
        from plinq_shards import workers

        workers.be_quiet()
        self.cluster = distributed.LocalCluster(n_workers=3, threads_per_worker=1, processes=False, dashboard_address=None)
        self.client = distributed.Client(self.cluster)
        return self

    def __exit__(self, *_):
        self.client.close()
        self.cluster.close()

    def answer(self, text, count, path=PROGRAM):
        """What the command prints of a document over so many shards of each source, and its status."""
        from plinq_shards import answer, cluster, document, program, progress, shard, trouble

        asked = document.understood(PROGRAM, text)
        there = cluster.Cluster(self.client, "scheduler", path, asked.degree, progress.Progress(None))
        written = []
        shards = shard.shards(shard.parts_of(asked.source, shard.Cut(count, 3)))
        try:
            ending = answer.show(there, asked, shards, written.append)
        except trouble.Trouble as it:
            return Outcome(it.status, b"".join(written), it.line.encode())
        return Outcome(program.STATUSES[ending.split(" ")[0]], b"".join(written), b"")


def some_documents(chance):
    """Random documents of both versions."""
    while True:
        version = chance.choice([1, 2])
        source, steps = documents.some_source(chance, version), documents.some_steps(chance, version)
        if documents.is_too_long(source, steps):
            continue
        document = {"version": version, "source": source, "query": steps}
        aggregate = chance.choice([None, None, None, None, *documents.AGGREGATES])
        yield document | ({"aggregate": aggregate} if aggregate else {})


def compare(tests, local, document, counts=(1, 3, 8)):
    """A document by so many shards, beside the program, or its `seq` where `run` may give another order."""
    text = json.dumps(document).encode()
    word = "seq" if documents.gives_order_up(document["query"]) else "run"
    right = run([word], text, PROGRAM)
    for count in counts:
        seen = local.answer(text, count)
        tests.check(f"{count} shards of {text.decode()}", seen == right, f"wanted {right}; seen {seen}")
    return right.output.splitlines()[-1].rstrip(b"0123456789")


def most_steps(tests, local):
    """Queries of the most steps, which leave a shard's document no room for one more."""
    adds = [["select", "add", 1]] * 998
    for steps in ([ORDERED, *adds, ["take", 9]], [["skip", 5], *adds, ["take", 9]], [*adds, ["skip", 5], ["take_while", "below", 1020]]):
        compare(tests, local, {"version": 1, "source": {"range": [0, 40]}, "query": steps})
    compare(tests, local, {"version": 2, "source": {"range": [0, 40]}, "query": [*adds, ["skip_while", "below", 1020], ["select", "add", 1]]})
    compare(tests, local, {"version": 1, "source": {"range": [0, 40]}, "query": [["select", "add", 1], ["take", 30]] * 500}, [1])


def random_documents(tests, local):
    found = some_documents(random.Random(11))
    chosen = [next(found) for _ in range(DOCUMENTS)]
    with concurrent.futures.ThreadPoolExecutor(4) as pool:
        endings = set(pool.map(lambda it: compare(tests, local, it), chosen))
    tests.check("documents ended in every way", endings == {b"end", b"refused ", b"fault overflow", b"fault division", b"fault toomany"}, endings)



def wrapper(folder, name, script):
    """A program that stands in the place of `plinq` for all but plans."""
    path = os.path.join(folder, name)
    with open(path, "w") as file:
        file.write(f'#!/bin/bash\n[ "$1" = plan ] && exec {PROGRAM} "$@"\n{script}\n')
    os.chmod(path, 0o755)
    return path


def slow(folder, name, seconds):
    """A program that takes its time for each shard, and writes down that it was asked."""
    return wrapper(folder, name, f'echo $$ >> {folder}/{name}.asked\nsleep {seconds}\nexec {PROGRAM} "$@"')


def asked(folder, name):
    """The processes that such a program was so far."""
    with contextlib.suppress(FileNotFoundError), open(f"{folder}/{name}.asked") as file:
        return [int(it) for it in file]
    return []


def wait_until(is_so, what):
    until = time.monotonic() + HANGS / 2
    while not is_so():
        if time.monotonic() > until:
            raise RuntimeError(f"waited in vain: {what}")
        time.sleep(0.02)


def liars(tests, local, folder):
    """Programs that lie about each shard: the comparison of these tests finds them."""
    text = text_of({"range": [-2000, 4000]}, ["select", "into", 10**6], ["with_merge", "not"])
    right = run(["run"], text, PROGRAM)
    lies = {
        "two lines swapped": ("awk 'NR == 1 { first = $0; next } NR == 2 { print; print first; next } 1'", "$?"),
        "a line lost": ("sed 3d", "$?"),
        "end for a fault": ("sed 's/fault.*/end/'", "0"),
        "none": ("cat", "$?"),
    }
    for name, (filter, status) in lies.items():
        path = wrapper(folder, name.replace(" ", "-"), f'set -o pipefail\n{PROGRAM} "$@" | {filter}\nexit {status}')
        seen = local.answer(text, 3, path)
        tests.check(f"a program that lies is found: {name}", (seen == right) == (name == "none"), seen)


def portions(tests, local):
    """Answers of more bytes than one question brings."""
    from plinq_shards import cluster

    before, cluster.MOST_BYTES = cluster.MOST_BYTES, 1_000
    try:
        for merge in ("not", "auto", "full"):
            text = text_of({"range": [-3, 600]}, ["select_many", "up_to"], ["take", 2345], ["select", "mul", 7], ["with_merge", merge])
            right = run(["run"], text, PROGRAM)
            seen = local.answer(text, 3)
            tests.check(f"a shard's answer in portions: {merge}", seen == right, f"wanted {right}; seen {seen}")
    finally:
        cluster.MOST_BYTES = before


async def by_coroutines(local):
    """What the call says in a coroutine of an asynchronous client, and what it returns from another thread."""
    import distributed
    import plinq_shards
    from plinq_shards import trouble

    document = {"version": 1, "source": {"range": [1, 9]}, "query": [ORDERED, ["take", 2]]}
    where = local.cluster.scheduler_address
    async with distributed.Client(where, security=local.cluster.security, asynchronous=True, set_as_default=False) as client:
        try:
            said = plinq_shards.run(client, document, PROGRAM)
        except trouble.Trouble as why:
            said = why.line
        return said, await asyncio.to_thread(plinq_shards.run, client, document, PROGRAM)


def calls(tests, local):
    """The call for who has a Dask client, beside what the program prints."""
    import plinq_shards
    from plinq_shards import cluster, program, trouble

    for document in (
        {"version": 1, "source": {"range": [0, 1_000]}, "query": [ORDERED, ["filter", "even"], ["take", 7]]},
        {"version": 2, "source": {"concat": [{"list": [3, 1]}, {"text": "4 x"}]}, "query": [ORDERED, ["select", "add", 1]]},
        {"version": 1, "source": {"list": [2, 0, 5]}, "query": [ORDERED, ["select", "into", 10]]},
        {"version": 1, "source": {"list": [2, 0, 5]}, "query": [["with_merge", "full"], ORDERED, ["select", "into", 10]]},
        {"version": 1, "source": {"range": [1, 100]}, "query": [], "aggregate": "sum"},
        {"version": 1, "source": {"list": []}, "query": [], "aggregate": "min"},
    ):
        text = json.dumps(document).encode()
        *lines, ending = run(["seq"], text, PROGRAM).output.decode().splitlines()
        wanted = plinq_shards.Answer([int(it) for it in " ".join(lines).split() if it != "none"], ending)
        for given in (document, text, text.decode()):
            seen = plinq_shards.run(local.client, given, PROGRAM, shards=3)
            tests.check(f"a call from Python: {text.decode()}", seen == wanted, (wanted, seen))
    try:
        said = plinq_shards.run(local.client, {"version": 1, "source": {"list": []}, "query": [["sort"]]}, PROGRAM)
    except trouble.Trouble as why:
        said = why.line, why.status
    tests.check("a call from Python: a document that is refused", said == ("plinq: document: step 0: unknown", 2), said)
    closed = distributed.Client(local.cluster, set_as_default=False)
    closed.close()
    try:
        said = plinq_shards.run(closed, {"version": 1, "source": {"list": []}, "query": []})
    except trouble.Trouble as why:
        said = why.line, why.status
    tests.check("a call from Python: a client that is closed", said == ("plinq-cluster: the client is closed", 5), said)
    # (some shards are asked for before it is closed, and others would be after it)
    leaves = distributed.Client(local.cluster, set_as_default=False)
    threading.Timer(0.3, leaves.close).start()
    long = {"version": 1, "source": {"range": [0, 4_000_000_000]}, "query": [["filter", "even"]], "aggregate": "sum"}
    try:
        said = plinq_shards.run(leaves, long, PROGRAM, shards=6_400)
    except trouble.Trouble as why:
        said = why.line, why.status
    gone = f"plinq-cluster: scheduler {local.client.scheduler.address}: gone"
    tests.check("a call from Python: a client that is closed meanwhile", said == (gone, 5), said)
    # (the same in the midst of fetching, where Dask's exception has no type of its own)
    for status, wanted in (("closed", "plinq-cluster: here: gone"), ("running", "after closing")):
        there = cluster.Cluster.__new__(cluster.Cluster)
        there.client, there.where, there.fetched = types.SimpleNamespace(status=status), "here", closes
        try:
            said = there.result(None, None)
        except Exception as why:
            said = getattr(why, "line", str(why))
        tests.check(f"an answer is fetched from a client that is {status}", said == wanted, said)
    # (as a newer Dask pickles a graph, and its scheduler reads it, which has no file of this folder)
    sent = pickle.dumps([cluster.Sent(it) for it in (program.answer, program.ending_of)])
    reads = "import pickle, sys; print(*(it.__name__ for it in pickle.load(sys.stdin.buffer)))"
    seen = subprocess.run([sys.executable, "-I", "-c", reads], input=sent, cwd="/", capture_output=True, timeout=HANGS)
    tests.check("what workers call needs no file of the cluster's", (seen.returncode, seen.stdout) == (0, b"answer ending_of\n"), seen)
    seen = asyncio.run(by_coroutines(local))
    waits = "plinq-cluster: the client's own loop would wait for itself: call run by asyncio.to_thread"
    tests.check("a call from Python: an asynchronous client", seen == (waits, plinq_shards.Answer([1, 2], "end")), seen)
    with open(f"{ROOT}/docs/SCALING.md", encoding="utf-8") as file:
        (code,) = re.findall(r"^```python\n(.*?)^```", file.read(), re.M | re.S)
    with contextlib.redirect_stdout(io.StringIO()) as printed:
        exec(code, {"sys": sys, "client": local.client})
    tests.check("the page's call from Python", printed.getvalue() == "[0, 2, 4, 6, 8] end\n", printed.getvalue())


def unwanted(tests, local):
    """Shards that nobody wants any more, since those before them had all that is taken: no worker reports that one has failed."""
    import plinq_shards

    document = {"version": 1, "source": {"range": [0, 4_000_000_000]}, "query": [ORDERED, ["filter", "below", 10], ["take", 5]]}
    logger, said, before = logging.getLogger("distributed.worker"), io.StringIO(), logging.root.manager.disable
    handler = logging.StreamHandler(said)
    logger.addHandler(handler)
    logging.disable(logging.NOTSET)
    try:
        for _ in range(5):
            seen = plinq_shards.run(local.client, document, PROGRAM, shards=8)
            tests.check("a call whose last shards aren't wanted", seen == plinq_shards.Answer([0, 1, 2, 3, 4], "end"), seen)
            # (a worker looks now and then whether what it runs is wanted)
            time.sleep(1)
    finally:
        logging.disable(before)
        logger.removeHandler(handler)
    tests.check("shards that aren't wanted haven't failed", "Failed" not in said.getvalue(), said.getvalue()[:1_000])


def mistaken(tests, local):
    """What a call from Python can't be given."""
    import plinq_shards

    document = {"version": 1, "source": {"list": [1]}, "query": []}
    for given, shards, error in ((None, None, TypeError), ([document], None, TypeError), (document, 0, ValueError), (document, "3", TypeError)):
        try:
            said = plinq_shards.run(local.client, given, PROGRAM, shards)
        except (TypeError, ValueError) as why:
            said = type(why)
        tests.check(f"a call from Python: {given}, {shards!r}", said == error, said)
    try:
        said = plinq_shards.run(local.cluster, document, PROGRAM)
    except TypeError as why:
        said = str(why)
    tests.check("a cluster in the place of a client", str(said).startswith("a Dask client is wanted"), said)
    try:
        said = plinq_shards.run(local.client, {"version": 3}, PROGRAM)
    except plinq_shards.Trouble as why:
        said = (str(why), why.status)
    tests.check("a document that is refused", said == ("plinq: document: unknown version", 2), said)
    try:
        said = plinq_shards.run(local.client, '{"version":1,"source":{"text":"\ud800"},"query":[]}', PROGRAM)
    except (plinq_shards.Trouble, UnicodeError) as why:
        said = (str(why), getattr(why, "status", None))
    tests.check("a document with half of a character", said == ("plinq: document: not JSON", 2), said)
    said = plinq_shards.run(local.client, document, pathlib.Path(PROGRAM))
    tests.check("a program by a Path", said == plinq_shards.Answer([1], "end"), said)


def unknown(tests, folder):
    """Steps and sources of a later program, which this one doesn't refuse."""
    with open(f"{folder}/later", "w") as file:
        file.write("#!/bin/bash\ncat > /dev/null\necho merge auto\n")
    os.chmod(f"{folder}/later", 0o755)
    for text, what in ((text_of({"list": [1]}, ["sort"]), "step sort"), (text_of({"primes": 9}), "source primes")):
        seen = command(["--scheduler", "127.0.0.1:1", "--program", f"{folder}/later"], text)
        tests.check(f"refused: {what}", seen == Outcome(5, b"", f"plinq-cluster: {what}: not known here\n".encode()), seen)


def refused(tests):
    """What is refused before a cluster is asked: there is none at this address."""
    words = ["--scheduler", "127.0.0.1:1"]
    for text in (b"[", b"{}", b'{"version":3}', text_of({"range": [2**63 - 1, 2]}), text_of({"list": []}, ["sort"])):
        seen, right = command(words, text), run(["run"], text, PROGRAM)
        tests.check(f"refused: {text.decode()}", seen == right and seen.status == 2, seen)
    seen, right = command(words, b"[", env=os.environ | {"PYTHONSAFEPATH": "1"}), run(["run"], b"[", PROGRAM)
    tests.check("refused: where Python leaves out a script's folder", seen == right and seen.status == 2, seen)
    twice = text_of({"list": [1]}, ["with_merge", "full"])
    seen, right = command([*words, "--merge", "not"], twice), run(["run", "--merge", "not"], twice, PROGRAM)
    tests.check("refused: a merge option twice", seen == right and seen.status == 2, seen)
    closed = ["-c", 'exec "$@" <&-', "bash"]
    seen, right = run([*closed, COMMAND, *words], program="/bin/bash"), run([*closed, PROGRAM, "run"], program="/bin/bash")
    tests.check("refused: a closed input", seen == right and seen.status == 5, f"wanted {right}; seen {seen}")
    seen = command([*words, "--text", "/nowhere"], text_of({"list": [1]}))
    tests.check("refused: a text that isn't there", seen == Outcome(5, b"", b"plinq-cluster: /nowhere: No such file or directory\n"), seen)
    for name, shown in ((b"/nowhere\n2", rb"/nowhere\n2"), (b"/nowhere\xff", rb"/nowhere\udcff")):
        seen = command(["--local", "1", "--text", os.fsdecode(name)], text_of({"list": []}))
        wanted = Outcome(5, b"", b"plinq-cluster: " + shown + b": No such file or directory\n")
        tests.check(f"refused: a text that isn't there, {shown}", seen == wanted, seen)
    for option, kind in (("scheduler", "HOST:PORT"), ("text", "FILE"), ("program", "PATH")):
        for empty in ("", " "):
            seen = command([f"--{option}", empty], text_of({"list": [1]}))
            tests.check(f"refused: the {option} {empty!r}", seen.status == 2 and f"invalid {kind} value".encode() in seen.errors, seen)
    seen = command([*words, "--program", "/tmp"], text_of({"list": [1]}))
    is_said = seen.status == 5 and seen.errors.startswith(b"plinq-cluster: /tmp is no file that may be run: ")
    tests.check("refused: a folder as the program", is_said, seen)
    seen = command([*words, "--program", "/nowhere"], text_of({"list": [1]}))
    tests.check("refused: a program that isn't there", seen.status == 5 and seen.errors.startswith(b"plinq-cluster: /nowhere isn't there: "), seen)
    for program, status in (("/bin/true", 0), ("/bin/false", 1), ("/bin/cat", 1)):
        seen = command([*words, "--program", program], text_of({"list": [1]}))
        wanted = f"plinq-cluster: {program} printed no plan (status {status}): is it plinq?\n".encode()
        tests.check(f"refused: {program} in the place of plinq", seen == Outcome(5, b"", wanted), seen)


def is_trouble(seen, right, said):
    """Whether this is one line on standard error that says so, after a beginning of the right lines."""
    is_beginning = right.startswith(seen.output) and seen.output[-1:] in (b"", b"\n")
    return seen.status == 5 and is_beginning and seen.errors.count(b"\n") == 1 and said in seen.errors.decode()


SHARDS = 24
STEPS = ["filter", "even"], ["skip", 7], ["select", "mul", 3]
WORK = text_of({"range": [0, 240_000]}, *STEPS, ["with_merge", "not"])
ANSWER = lines(range(42, 720_000, 6)) + b"end\n"


def begun(words, text=WORK, prefix=(), **how):
    """The command at work on a document. Where nothing else is said it writes into a file, so nobody has to read it meanwhile."""
    how = {"stdout": tempfile.TemporaryFile()} | how
    child = subprocess.Popen([*prefix, COMMAND, *words], stdin=subprocess.PIPE, stderr=subprocess.PIPE, **how)
    child.written = how["stdout"]
    child.stdin.write(text)
    child.stdin.close()
    return child


def ended(child):
    """How the command ended."""
    try:
        child.wait(HANGS)
    except subprocess.TimeoutExpired:
        child.kill()
    errors = child.stderr.read()
    child.written.seek(0)
    return Outcome(child.wait(), child.written.read(), errors)


def over(machines, path, *words):
    return ["--scheduler", machines.address, "--shards", str(SHARDS), "--program", path, *words]


def lost_worker(tests, folder):
    """One of three workers is killed in the middle, another while items are held on it, and at last the scheduler."""
    with Machines(folder) as machines:
        workers = [machines.worker(name, "--no-nanny") for name in ("a", "b", "c")]
        machines.are_there("a", "b", "c")
        child = begun(over(machines, slow(folder, "first", 0.1)))
        wait_until(lambda: len(asked(folder, "first")) > 9, "shards that are asked")
        end(workers[1])
        seen = ended(child)
        tests.check("a worker that is killed in the middle", seen == Outcome(0, ANSWER, b""), seen)
        child = begun(over(machines, slow(folder, "held", 0.1), "--merge", "full"), text_of({"range": [0, 240_000]}, *STEPS))
        wait_until(lambda: len(asked(folder, "held")) > 20, "shards that are asked")
        end(workers[0])
        seen = ended(child)
        in_one_line = ANSWER[: -len("\nend\n")].replace(b"\n", b" ") + b"\nend\n"
        tests.check("a worker that is killed with items on it", seen == Outcome(0, in_one_line, b""), seen)
        child = begun(over(machines, slow(folder, "second", 0.1)))
        wait_until(lambda: len(asked(folder, "second")) > 9, "shards that are asked")
        end(machines.scheduler)
        seen = ended(child)
        tests.check("a scheduler that is killed in the middle", is_trouble(seen, ANSWER, f"plinq-cluster: scheduler {machines.address}: gone"), seen)


def last_worker(tests, folder):
    """The only worker is killed, and none comes in its place."""
    with Machines(folder) as machines:
        worker = machines.worker("last", "--no-nanny")
        machines.are_there("last")
        child = begun(over(machines, slow(folder, "short", 0.1)))
        wait_until(lambda: len(asked(folder, "short")) > 9, "shards that are asked")
        end(worker)
        seen = ended(child)
        tests.check("the last worker is killed", is_trouble(seen, ANSWER, f"plinq-cluster: scheduler {machines.address}: no worker is left"), seen)


def lost_answer(tests, folder):
    """The only worker is killed when a shard is answered, before the answer is fetched."""
    from plinq_shards import cluster, progress, shard, trouble, workers

    workers.be_quiet()
    said = []
    before, cluster.PATIENCE = cluster.PATIENCE, 3

    def fetch(machines, worker):
        with workers.remote(machines.address) as client:
            there = cluster.Cluster(client, "here", PROGRAM, 1, progress.Progress(None))
            asked = there.ask(shard.Shard(0, {"range": [0, 9]}, 9), ())
            distributed.wait([asked.future], HANGS)
            end(worker)
            try:
                said.append(asked.answer())
            except trouble.Trouble as it:
                said.append(it.line)

    with Machines(folder) as machines:
        worker = machines.worker("brief", "--no-nanny")
        machines.are_there("brief")
        fetching = threading.Thread(target=fetch, args=(machines, worker), daemon=True)
        fetching.start()
        fetching.join(HANGS)
    cluster.PATIENCE = before
    tests.check("the last worker is killed with an answer on it", said == ["plinq-cluster: here: no worker is left"], said)


def deadly_shard(tests, folder):
    """A worker is killed at each try of one shard."""
    path = wrapper(folder, "deadly", f"""document=$(cat)\n[[ $document = *'[60000, 10000]'* ]] && kill -9 $PPID\n{PROGRAM} "$@" <<< "$document" """)
    seen = ended(begun(["--local", "2", "--shards", str(SHARDS), "--program", path]))
    tests.check("a worker that is killed at each try", is_trouble(seen, ANSWER, "lost with its worker 4 times, the last time tls://"), seen)


def cut_link(tests, folder):
    """Three hosts in network namespaces, one link cut in the middle."""
    with Net(3) as net, Machines(folder, "10.77.0.1", net.within(net.hub)) as machines:
        for at, host in enumerate(net.hosts):
            machines.worker(f"host{at}", "--no-nanny", prefix=net.within(host), host=net.address(at))
        machines.are_there("host0", "host1", "host2")
        child = begun(over(machines, slow(folder, "far", 0.1)), prefix=net.within(net.hub))
        wait_until(lambda: len(asked(folder, "far")) > 9, "shards that are asked")
        net.cut(1)
        seen = ended(child)
        # (that a host says nothing may be said before its link is given up)
        is_so = (seen.status, seen.output) == (0, ANSWER) and all("says nothing" in it for it in seen.errors.decode().splitlines())
        tests.check("a link that is cut in the middle", is_so, seen)


def hung_worker(tests, folder):
    """One of two workers says nothing any more, with shards that it is to answer: it is waited for, and given up."""
    # (the scheduler itself would wait for an hour)
    with Machines(folder, env={"DASK_DISTRIBUTED__SCHEDULER__WORKER_TTL": "1h"}) as machines:
        workers = [machines.worker(name, "--no-nanny") for name in ("awake", "asleep")]
        machines.are_there("awake", "asleep")
        child = begun(over(machines, slow(folder, "hung", 0.1), "--patience", "6"))
        wait_until(lambda: len(asked(folder, "hung")) > 5, "shards that are asked")
        os.killpg(workers[1].pid, signal.SIGSTOP)
        seen = ended(child)
        tests.check("a worker that hangs: the answer", (seen.status, seen.output) == (0, ANSWER), seen)
        said = seen.errors.decode().splitlines()
        named = rf"plinq-cluster: scheduler {machines.address}: worker tcp://127.0.0.1:\d+"
        is_so = len(said) == 2 and re.fullmatch(f"{named} says nothing, and is given up 6 seconds after its last word", said[0]) and re.fullmatch(f"{named} is given up", said[1])
        tests.check("it is said when the wait begins, and when it is given up", is_so, said)


def unstarted_worker(tests):
    """A worker of a local cluster hangs before it is there, of which Dask says no more than that. As many workers as there are start
    side by side, so more of them may take longer."""
    from plinq_shards import trouble, workers

    given = []

    def hangs(**settings):
        given.append(settings["death_timeout"])
        raise AssertionError("Status.running")

    before, distributed.LocalCluster = distributed.LocalCluster, hangs
    said = []
    for patience in (1, 60):
        try:
            with workers.local(3, patience):
                said.append("there is a cluster")
        except trouble.Trouble as why:
            said.append(why.line)
    distributed.LocalCluster = before
    wanted = "plinq-cluster: a cluster can't be started on this machine: a worker doesn't start"
    tests.check("a worker hangs as it starts", (said, given) == ([wanted] * 2, [36, 66]), (said, given))


def early_signals(tests, folder):
    """Signals while a local cluster starts, and soon afterwards: no process and no file is left."""
    own = os.path.join(folder, "temporary")
    os.makedirs(own)
    for number in (signal.SIGTERM, signal.SIGINT, signal.SIGHUP, signal.SIGQUIT):
        for seconds in (0, 0.3, 0.6, 0.9, 1.5):
            work = text_of({"range": [0, 2**36]}, ["filter", "below", 0])
            child = begun(["--local", "3", "--program", PROGRAM], work, env=os.environ | {"TMPDIR": own})
            wait_until(lambda: os.listdir(own), "its folder")
            time.sleep(seconds)
            child.send_signal(number)
            seen = ended(child)
            # (a process that is left holds standard error, which was read to its end)
            seen = (seen.status, seen.errors, os.listdir(own))
            tests.check(f"{number.name} {seconds} s after the start of a local cluster", seen == (-number, b"", []), seen)


def writes(folder):
    """Makes a folder again and again."""
    while True:
        with contextlib.suppress(OSError):
            os.makedirs(f"{folder}/late", exist_ok=True)


def remade_folder(tests, folder):
    """A process that is started while a local cluster ends, and makes its folder anew: both are gone afterwards."""
    from plinq_shards import workers

    end_processes, calls = workers.end_processes, []

    def too_early():
        end_processes()
        calls.append(1)
        if len(calls) == 1:
            multiprocessing.get_context("fork").Process(target=writes, args=(own,), daemon=True).start()
            wait_until(lambda: os.path.exists(f"{own}/late"), "the folder")

    workers.end_processes = too_early
    try:
        with workers.own_folder() as own:
            is_there = os.path.isdir(own)
    finally:
        workers.end_processes = end_processes
    seen = (is_there, os.path.exists(own), multiprocessing.active_children(), len(calls) > 1)
    tests.check("a folder that is made anew while its cluster ends", seen == (True, False, [], True), seen)


def few_shards(tests, folder):
    """What ends early asks for few shards."""
    text = text_of({"range": [0, 2**40]}, ["filter", "even"], ["take", 10])
    seen = ended(begun(["--local", "2", "--program", slow(folder, "counting", 0)], text))
    count = len(asked(folder, "counting"))
    right = Outcome(0, b"0 2 4 6 8 10 12 14 16 18\nend\n", b"")
    tests.check("ten of 2^40", seen == right and 0 < count < 10, (seen, count))


def peak(child):
    """The greatest memory that a process had, in MB, and its output's length."""
    length = 0
    while block := child.stdout.read(1 << 20):
        length += len(block)
    _, status, used = os.wait4(child.pid, 0)
    child.returncode = status
    return used.ru_maxrss / 1024, length, status


def flat_memory(tests, machines):
    """Of ten million lines this process holds no more than of one million."""
    peaks = []
    for count in (10**6, 10**7):
        child = begun(["--scheduler", machines.address, "--merge", "not"], text_of({"range": [10**8, count]}), stdout=subprocess.PIPE)
        used, length, status = peak(child)
        tests.check(f"{count} lines", (length, status) == (10 * count + 4, 0), (length, status))
        peaks.append(used)
    tests.check("memory is flat", peaks[1] < 1.25 * peaks[0], peaks)


def is_running(process):
    try:
        with open(f"/proc/{process}/stat") as file:
            return file.read().rpartition(")")[2].split()[0] != "Z"
    except OSError:
        return False


def endless(folder, name, but):
    """A program that never answers a shard, but for those of which the document has this text."""
    script = f"document=$(cat)\n[[ $document = *'{but}'* ]] || {{ echo $$ >> {folder}/{name}.asked; exec sleep 1000; }}"
    return wrapper(folder, name, f'{script}\n{PROGRAM} "$@" <<< "$document"')


def left(tests, machines, folder):
    """Ctrl-C, and a reader that leaves: what runs on the workers ends."""
    text = text_of({"range": [0, 2**40]})
    words = ["--scheduler", machines.address, "--program"]
    child = begun([*words, endless(folder, "silent", "no shard")], text)
    wait_until(lambda: len(asked(folder, "silent")) >= 2, "shards that are asked")
    child.send_signal(signal.SIGINT)
    seen = ended(child)
    tests.check("Ctrl-C", seen == Outcome(-signal.SIGINT, b"", b""), seen)
    child = begun([*words, endless(folder, "loud", '"range": [0,')], text, stdout=subprocess.PIPE)
    child.stdout.read(1000)
    wait_until(lambda: len(asked(folder, "loud")) >= 2, "shards that are asked")
    child.stdout.close()
    errors = child.stderr.read()
    tests.check("a reader that leaves", (child.wait(), errors) == (5, b"plinq: write failed\n"), (child.returncode, errors))
    closed = ["-c", 'exec "$@" >&-', "bash", COMMAND, "--scheduler", machines.address]
    seen = run(closed, text_of({"list": [1]}), "/bin/bash")
    tests.check("a closed output", seen == Outcome(5, b"", b"plinq: write failed\n"), seen)
    running = asked(folder, "silent") + asked(folder, "loud")
    wait_until(lambda: not any(map(is_running, running)), "shards that end")
    tests.check("what ran has ended", len(running) >= 4, running)


def large_text(tests, machines, folder):
    """A text that no document can hold, and one with a number that none can hold."""
    words = ["--scheduler", machines.address, "--text"]
    with open(f"{folder}/large", "wb") as file:
        file.write(lines(range(10**6, 3 * 10**6)))
    seen = command([*words, f"{folder}/large"], b'{"version":1,"query":[["filter","even"]],"aggregate":"sum"}')
    tests.check("a text of 16,000,000 bytes", seen == Outcome(0, b"%d\nend\n" % sum(range(10**6, 3 * 10**6, 2)), b""), seen)
    with open(f"{folder}/long", "wb") as file:
        file.write(b"1 -" + b"0" * 20_000_000 + b"7\n3\r\n5")
    seen = command([*words, f"{folder}/long"], b'{"version":1,"query":[["as_ordered"]]}')
    tests.check("a number of 20,000,000 digits", seen == Outcome(3, b"1 -7\nrefused 1\n", b""), seen)
    seen = command([*words, "/dev/zero"], b'{"version":1,"query":[["as_ordered"]]}')
    tests.check("a text that isn't one, and has no end", seen == Outcome(3, b"refused 1\n", b""), seen)


def other_programs(tests, folder):
    """Workers that have no program, or another one than this machine."""
    own, other = f"{folder}/own", f"{folder}/other"
    for it in (own, other):
        os.mkdir(it)
    os.symlink(PROGRAM, f"{own}/plinq")
    wrapper(other, "plinq", f'exec {PROGRAM} "$@"')
    here = os.environ | {"PATH": f"{own}:{os.environ['PATH']}"}
    for name, path, why in (("none", "/usr/bin:/bin", "plinq isn't there"), ("changed", f"{other}:/usr/bin:/bin", f"{other}/plinq is another program than here")):
        with Machines(folder) as machines:
            machines.worker(name, "--no-nanny", env={"PATH": path}.items())
            machines.are_there(name)
            seen = ended(begun(over(machines, "plinq"), env=here))
        tests.check(f"a worker's program: {name}", is_trouble(seen, ANSWER, why) and b"worker tcp://127.0.0.1:" in seen.errors, seen)
    seen = ended(begun(["--scheduler", "127.0.0.1:1"]))
    tests.check("a scheduler that isn't there", is_trouble(seen, ANSWER, "plinq-cluster: scheduler 127.0.0.1:1: "), seen)
    seen = ended(begun(["--scheduler", "tls://127.0.0.1:1"]))
    tests.check("TLS that isn't set up", is_trouble(seen, ANSWER, "plinq-cluster: scheduler tls://127.0.0.1:1: TLS expects "), seen)
    keys = os.environ | {f"DASK_DISTRIBUTED__COMM__TLS__{it}": f"/nowhere/{it}" for it in ("CA_FILE", "CLIENT__CERT", "CLIENT__KEY")}
    seen = ended(begun(["--scheduler", "tls://127.0.0.1:1"], env=keys))
    why = "plinq-cluster: scheduler tls://127.0.0.1:1: /nowhere/CA_FILE: No such file or directory"
    tests.check("TLS with a file that isn't there", is_trouble(seen, ANSWER, why), seen)
    seen = ended(begun(["--local", "3"], prefix=["prlimit", "--nofile=40"]))
    why = "plinq-cluster: a cluster can't be started on this machine: Too many open files"
    tests.check("too few files for a local cluster", is_trouble(seen, ANSWER, why), seen)


def installed_programs(tests, folder):
    """Programs behind one start script, as `tools/install` makes it: what a worker is compared by has the program itself as well."""
    from plinq_shards import program

    sums = {}
    for name in ("one", "other"):
        for path, text in (("bin/plinq", "exec ../lib/plinq/plinq"), ("lib/plinq/plinq", f"echo {name}")):
            os.makedirs(os.path.dirname(f"{folder}/{name}/{path}"), exist_ok=True)
            wrapper(os.path.dirname(f"{folder}/{name}/{path}"), os.path.basename(path), text)
        sums[name] = program.sum_of(f"{folder}/{name}/bin/plinq")[1]
    tests.check("programs behind one start script", sums["one"] != sums["other"], sums)
    known = {}
    before = program.known_sum_of(f"{folder}/one/bin/plinq", known)[1]
    wrapper(f"{folder}/one/lib/plinq", "plinq", "echo another")
    after = program.known_sum_of(f"{folder}/one/bin/plinq", known)[1]
    tests.check("a program that is replaced behind its start script", before == sums["one"] and after not in sums.values(), (before, after))


# A client of another user of this machine, who would have the workers run what they like.
CLIENT = "import distributed, sys; print(distributed.Client(sys.argv[1], timeout=4).submit(sum, [40, 2]).result())"


def other_users(tests, folder):
    """Who asks a cluster of --local: all its ports are this machine's own, and no client without its keys is let in."""
    import psutil

    child = begun(["--local", "2", "--program", slow(folder, "held", 30)])
    try:
        wait_until(lambda: asked(folder, "held"), "a shard is at work")
        ports = set()

        def are_found():
            command = psutil.Process(child.pid)
            for process in (command, *command.children(recursive=True)):
                with contextlib.suppress(psutil.Error):
                    ports.update(it.laddr for it in process.connections("inet") if it.status == psutil.CONN_LISTEN)
            return len(ports) >= 5

        # (one of the scheduler, and of each of two workers one of its own and one of the process that looks after it)
        wait_until(are_found, "all ports are open")
        elsewhere = {it for it in ports if it.ip not in ("127.0.0.1", "::1")}
        tests.check("all ports of a local cluster are on the loopback", len(ports) >= 5 and not elsewhere, (ports, elsewhere))
        nobody = ["setpriv", "--reuid", "65534", "--regid", "65534", "--clear-groups"] if os.getuid() == 0 else []
        for port in sorted(it.port for it in ports):
            for how in ("tcp", "tls"):
                words = [*nobody, SYSTEM, "-c", CLIENT, f"{how}://127.0.0.1:{port}"]
                seen = subprocess.run(words, capture_output=True, text=True, timeout=HANGS, cwd="/")
                tests.check(f"another user's client by {how}", seen.returncode != 0 and "42" not in seen.stdout, seen)
    finally:
        child.terminate()
        child.wait(timeout=HANGS)


def help_and_progress(tests, folder):
    """The example that help shows, on a terminal."""
    seen = command(["--version"], b"")
    tests.check("version", seen.status == 0 and re.fullmatch(rb"plinq-cluster [0-9.]+\n", seen.output) and seen.errors == b"", seen)
    for word in ("--help", "--version"):
        seen = subprocess.run(["sh", "-c", '"$0" "$1" >/dev/full', COMMAND, word], capture_output=True, timeout=HANGS)
        is_said = (seen.returncode, seen.stderr) == (5, b"plinq-cluster: No space left on device\n")
        tests.check(f"{word} on a full disk", is_said, seen)
    seen = command(["--shards", "0"], b"")
    is_said = seen.errors.startswith(b"usage: plinq-cluster ") and b"\nplinq-cluster: error: argument --shards: " in seen.errors
    tests.check("a mistake of the words", seen.status == 2 and seen.output == b"" and is_said, seen)
    for stream in ("2>/dev/full", "2>&-"):
        seen = subprocess.run(["sh", "-c", f'"$0" --shards 0 {stream}', COMMAND], capture_output=True, timeout=HANGS)
        tests.check(f"a mistake of the words: {stream}", (seen.returncode, seen.stdout, seen.stderr) == (2, b"", b""), seen)
    seen = command(["--help"], b"")
    tests.check("help", seen.status == 0 and b"--scheduler HOST:PORT" in seen.output and seen.errors == b"", seen)
    shown = seen.output.decode()
    text = shown[shown.index('{"version"') : shown.index("' |")].encode()
    ours, theirs = pty.openpty()
    child = subprocess.Popen([COMMAND, "--local", "1", "--program", slow(folder, "seen", 1)], stdin=subprocess.PIPE, stdout=subprocess.PIPE, stderr=theirs)
    output = child.communicate(text, timeout=HANGS)[0]
    os.close(theirs)
    said = b""
    with contextlib.suppress(OSError):
        while block := os.read(ours, 1000):
            said += block
    tests.check("the example of help", output.decode() in shown.replace("\n  ", "\n") and output.endswith(b"end\n"), output)
    tests.check("progress on a terminal", b" shards done, " in said and said.endswith(b"\r\x1b[K"), said)


def processes(tests, folder):
    """What wants a cluster of processes."""
    for it in (lost_worker, last_worker, hung_worker, early_signals, remade_folder, lost_answer, deadly_shard, few_shards, other_programs, installed_programs, other_users, help_and_progress):
        it(tests, folder)
    with Machines(folder) as machines:
        for name in ("e", "f"):
            machines.worker(name, "--no-nanny")
        machines.are_there("e", "f")
        flat_memory(tests, machines)
        left(tests, machines, folder)
        large_text(tests, machines, folder)
    why_not = Net.why_not()
    if why_not:
        print(f"left out: a link that is cut: {why_not}")
    else:
        cut_link(tests, folder)


def main():
    build()
    tests = Tests()
    refused(tests)
    with tempfile.TemporaryDirectory() as folder:
        unknown(tests, folder)
        if distributed is None:
            print("left out: all that wants a cluster: Dask isn't installed (apt-get install python3-distributed)")
            tests.end()
        unstarted_worker(tests)
        with InProcess() as local:
            calls(tests, local)
            unwanted(tests, local)
            mistaken(tests, local)
            random_documents(tests, local)
            most_steps(tests, local)
            portions(tests, local)
            liars(tests, local, folder)
        processes(tests, folder)
    tests.end()


if __name__ == "__main__":
    main()
