"""Runs `plinq` on a shard's document, on the machine of a worker.

Dask sends this module to the workers by its text, so it uses nothing else of this folder, and raises no type of its own.
"""
import hashlib
import json
import os
import select
import shutil
import subprocess
import time

# The last version, which has all that the others have.
VERSION = 2
MOST_STEPS = 1_000
# After how many seconds without output it is looked whether the shard is still wanted.
LOOK = 0.2
STATUSES = {"end": 0, "refused": 3, "fault": 4}


async def give_up(address, patience, dask_scheduler=None):
    """Runs on the scheduler: it forgets a worker that has said nothing for so many seconds, but doesn't blame what that did."""
    worker = dask_scheduler.workers.get(address)
    if worker is not None and time.time() - worker.last_seen >= patience / 2:
        await dask_scheduler.remove_worker(address, stimulus_id=f"plinq-cluster-{time.time()}", safe=True)


def files_of(path):
    """The file of a program, and if it is a start script, as `tools/install` and the repository have one, the program behind it."""
    folder = os.path.dirname(os.path.realpath(path))
    behind = (os.path.join(folder, "..", "lib", "plinq", "plinq"), os.path.join(folder, "crates", "plinq", "out", "plinq"))
    return [path, *(it for it in behind if os.path.exists(it))]


def sum_of(program):
    """The path of a program on this machine, and a sum of the bytes of its files; nothing if it isn't there."""
    path = shutil.which(program)
    if path is None:
        return None, None
    found = hashlib.sha256()
    for it in files_of(path):
        with open(it, "rb") as file:
            found.update(hashlib.sha256(file.read()).digest())
    return path, found.hexdigest()


def known_sum_of(program, known):
    """As `sum_of`, read once for the files that the program was."""
    path = shutil.which(program)
    if path is None:
        return None, None
    seen = [(it, os.stat(it)) for it in files_of(path)]
    key = tuple((it, stat.st_ino, stat.st_size, stat.st_mtime_ns) for it, stat in seen)
    if key not in known:
        known[key] = sum_of(path)[1]
    return path, known[key]


def words_and_document(question):
    """The words and the document by which `plinq` answers a shard in its source's order.

    A query of the most steps has no room for `as_ordered`: it is answered by `seq`, which needs none.
    """
    steps = question["steps"]
    is_full = len(steps) >= MOST_STEPS
    document = {"version": VERSION, "source": question["source"], "query": steps if is_full else [["as_ordered"], *steps]}
    if question["aggregate"]:
        document["aggregate"] = question["aggregate"]
    words = ["seq" if is_full else "run", "--merge", question["merge"], "--workers", str(question["degree"])]
    return words, json.dumps(document).encode()


def started(path, words, document):
    """`plinq` at work on a document. Where the system can, it ends with the worker that started it."""
    given = os.memfd_create("document")
    try:
        with open(given, "wb", closefd=False) as file:
            file.write(document)
        os.lseek(given, 0, os.SEEK_SET)
        setpriv = shutil.which("setpriv")
        with_worker = [setpriv, "--pdeathsig", "KILL", "--"] if setpriv else []
        return subprocess.Popen([*with_worker, path, *words], stdin=given, stdout=subprocess.PIPE, stderr=subprocess.PIPE, pipesize=1 << 20)
    finally:
        os.close(given)


def output_of(process, most, is_wanted):
    """What a process prints, and whether that is all: it is stopped after the most bytes, or once nobody wants them any more. Then
    Dask forgets the task, or has it run again if it is wanted after all."""
    import distributed

    blocks, length = [], 0
    while length <= most:
        ready = select.select([process.stdout], [], [], LOOK)[0]
        if not is_wanted():
            process.kill()
            # (a worker reports any other exception as a failure, though nothing has failed)
            raise distributed.Reschedule
        if ready:
            block = os.read(process.stdout.fileno(), 1 << 20)
            if not block:
                return b"".join(blocks), True
            blocks.append(block)
            length += len(block)
    process.kill()
    return b"".join(blocks), False


def read_answer(output, status, errors):
    """The items and the ending that a whole output is made of."""
    at = output.rfind(b"\n", 0, -1) + 1
    ending = output[at:-1].decode("ascii", "replace")
    if output[-1:] != b"\n" or STATUSES.get(ending.split(" ")[0]) != status:
        said = errors.decode("utf-8", "replace").strip() or repr(ending[:80])
        raise RuntimeError(f"plinq ended with status {status}: {said}")
    return output[:at], ending


def run(path, question, is_wanted):
    """The answer to a question: items as lines, and their ending. It is None if only the first items are there."""
    process = started(path, *words_and_document(question))
    try:
        output, is_whole = output_of(process, question["most"], is_wanted)
        errors = process.stderr.read()
        status = process.wait()
    finally:
        process.kill()
        process.wait()
        process.stdout.close()
        process.stderr.close()
    if not is_whole:
        # (a whole line may be the ending)
        return output[: output.rfind(b"\n", 0, output.rfind(b"\n")) + 1], None
    return read_answer(output, status, errors)


def answer(question):
    """The task of a worker: items and ending of a shard, or what is wrong with the program of this machine."""
    from distributed import get_worker

    worker = get_worker()
    key = worker.get_current_task()
    known = worker.__dict__.setdefault("plinq_sums", {})
    path, found = known_sum_of(question["program"], known)
    if found != question["sum"]:
        why = "isn't there" if path is None else "is another program than here"
        return {"trouble": f"worker {worker.address}: {path or question['program']} {why}"}

    def is_wanted():
        task = worker.state.tasks.get(key)
        return task is not None and task.state == "executing"

    try:
        items, ending = run(path, question, is_wanted)
    except OSError as error:
        raise RuntimeError(f"worker {worker.address}: {error}") from None
    except RuntimeError as error:
        raise RuntimeError(f"worker {worker.address}: {error}") from None
    # (each item is followed by a space or a line feed)
    return {"items": items, "ending": ending, "count": items.count(b" ") + items.count(b"\n")}


def ending_of(answered):
    """What of an answer is small: all but its items, which stay where they are."""
    return {name: it for name, it in answered.items() if name != "items"}
