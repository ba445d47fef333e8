"""Asks the workers of a Dask cluster. What is scheduled, sent again and moved between machines is Dask's work."""
import asyncio
import collections
import concurrent.futures
import contextlib
import functools
import pickle
import time

import cloudpickle
import distributed

from . import program
from .trouble import own

# Dask sends a shard again so often if its answer failed on a worker.
RETRIES = 3
# How many seconds there may be no worker at all.
PATIENCE = 30
# How many seconds a worker may say nothing until it is given up, unless another number is asked for, and until it is said that
# it is waited for.
SILENCE = 60
SILENCE_IS_SAID = 10
TICK = 0.25
# What a call to a cluster ends with that is gone, now by one of them and now by another.
GONE = (asyncio.CancelledError, concurrent.futures.CancelledError, distributed.CancelledError, distributed.comm.CommClosedError)
# How many bytes of items one answer brings.
MOST_BYTES = 16 << 20


class Sent:
    """A function of `program` that workers call without this folder's files: it is pickled by value, whoever pickles it. A newer
    Dask pickles whole graphs, of which it asks only where the graph's own class stands."""

    def __init__(self, call):
        self.call, self.__name__ = call, call.__name__
        self.pickled = cloudpickle.dumps(call)

    def __call__(self, *words):
        return self.call(*words)

    def __reduce__(self):
        return pickle.loads, (self.pickled,)


# One of each function, which Dask then pickles once.
sent = functools.cache(Sent)


class Asked:
    """A question that a worker has, and what it answers."""

    def __init__(self, cluster, shard, future):
        self.cluster, self.shard, self.future = cluster, shard, future

    def answer(self):
        """The answer, once it is there, with all its items."""
        return self.cluster.result(self.shard, self.future)

    def summary(self):
        """The ending and the number of items. The items stay on their worker."""
        return self.cluster.result(self.shard, self.cluster.submit(program.ending_of, self.future))

    def count(self):
        """How many items a shard has, of which a count was asked for, and its ending."""
        answer = self.answer()
        return int(answer["items"] or 0), answer["ending"]

    def has_items(self):
        """Whether there are items, and the ending."""
        answer = self.answer()
        return bool(answer["items"]), answer["ending"]


class Cluster:
    """The workers, the program that each of them is to have, and what shows how far they are."""

    def __init__(self, client, where, path, degree, progress, patience=SILENCE):
        self.client, self.where, self.path, self.degree, self.progress = client, where, path, degree, progress
        self.patience = patience
        # Of each worker: what the scheduler heard of it last, since when that is so, and how long a silence was spoken of.
        self.heard = {}
        self.sum = program.sum_of(path)[1]
        self.looked, self.threads, self.empty_since = 0, 1, None
        self.look()

    def look(self):
        """Looks now and then how many threads the workers have."""
        now = time.monotonic()
        if now < self.looked + 1:
            return
        self.looked = now
        # (from 2025 on Dask says five of them unless it is asked for all; before, it takes no such word and says all)
        workers = self.client.scheduler_info(n_workers=-1)["workers"]
        self.threads = max(1, sum(it["nthreads"] for it in workers.values()))
        self.progress.has_workers(set(workers))
        self.look_for_silence(workers, now)
        self.empty_since = None if workers else self.empty_since or now
        if not workers and now > self.empty_since + PATIENCE:
            raise own(f"{self.where}: no worker is left")

    def look_for_silence(self, workers, now):
        """Gives up a worker that hangs: the scheduler forgets it, and has its shards answered by others."""
        self.heard = {it: self.heard[it] for it in workers if it in self.heard}
        for address, worker in workers.items():
            last, since, is_said = self.heard.get(address, (None, now, False))
            if worker["last_seen"] != last:
                self.heard[address] = worker["last_seen"], now, False
            elif now >= since + self.patience:
                self.progress.say(f"plinq-cluster: {self.where}: worker {address} is given up")
                self.heard[address] = last, now, True
                give_up = self.client.run_on_scheduler(program.give_up, address, self.patience, asynchronous=True)
                asyncio.run_coroutine_threadsafe(give_up, self.client.loop.asyncio_loop)
            elif not is_said and now >= since + min(SILENCE_IS_SAID, self.patience / 2):
                self.heard[address] = last, since, True
                waits = f"worker {address} says nothing, and is given up {self.patience} seconds after its last word"
                self.progress.say(f"plinq-cluster: {self.where}: {waits}")

    def ask(self, shard, steps, aggregate=None, merge="not"):
        """Asks the workers what these steps make of a shard's source."""
        question = {
            "program": self.path,
            "sum": self.sum,
            "degree": self.degree,
            "source": shard.source,
            "steps": list(steps),
            "aggregate": aggregate,
            "merge": merge,
            # (what is left is asked for by one step more)
            "most": MOST_BYTES if len(steps) < program.MOST_STEPS else float("inf"),
        }
        return Asked(self, shard, self.submit(program.answer, question))

    def submit(self, call, words):
        """Has a worker call this."""
        with self.while_open():
            return self.client.submit(sent(call), words, pure=False, retries=RETRIES)

    @contextlib.contextmanager
    def while_open(self):
        """A client that is closed meanwhile is a cluster that is gone: Dask has no exception of its own for that."""
        try:
            yield
        except Exception:
            if self.client.status in ("closing", "closed"):
                raise own(f"{self.where}: gone") from None
            raise

    def in_order(self, shards, question):
        """Each shard in order with what was asked of it, some ahead for each worker; a shard may need no question."""
        ahead = collections.deque()
        for shard in shards:
            words = question(shard)
            ahead.append((shard, words and self.ask(shard, *words)))
            if len(ahead) > 2 * self.threads:
                yield ahead.popleft()
        while ahead:
            yield ahead.popleft()

    def result(self, shard, future):
        """What a future comes to, or the one line that says why it comes to nothing."""
        try:
            with self.while_open():
                answer = self.fetched(future)
        except distributed.scheduler.KilledWorker as error:
            times, last = error.allowed_failures + 1, error.last_worker.address
            raise own(f"shard {shard.at}: lost with its worker {times} times, the last time {last}") from None
        except GONE:
            raise own(f"{self.where}: gone") from None
        except RuntimeError as error:
            raise own(f"shard {shard.at}: {error}") from None
        if "trouble" in answer:
            raise own(answer["trouble"])
        return answer

    def fetched(self, future):
        """Waits for a future's result and fetches it, and shows meanwhile how far the cluster is. A result that is lost with its
        worker before it is here is computed again, as soon as there is a worker."""
        coming = asyncio.run_coroutine_threadsafe(self.client.gather(future, asynchronous=True), self.client.loop.asyncio_loop)
        while not concurrent.futures.wait([coming], TICK).done:
            self.look()
            self.progress.show()
        return coming.result()
