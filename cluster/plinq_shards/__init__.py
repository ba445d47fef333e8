"""What `plinq-cluster` is made of: a document is cut into shards, which `plinq` answers on the workers of a Dask cluster.

Who has a Dask client calls `run`, as this folder's parent is on Python's path.
"""
import dataclasses
import json
import operator
import os

from .trouble import Trouble

__all__ = ["Answer", "Trouble", "run"]

# The program that `./plinq --build` makes.
PROGRAM = os.path.join(os.path.dirname(os.path.dirname(os.path.dirname(os.path.realpath(__file__)))), "crates", "plinq", "out", "plinq")
# Into how many shards a source may be cut, as many as a range may have elements.
MOST_SHARDS = 2**40


@dataclasses.dataclass(frozen=True)
class Answer:
    """The items of an answer, or the one value of an aggregate (none if no item has one), and how the answer ended."""

    items: list
    ending: str


def run(client, document, program=PROGRAM, shards=None):
    """Answers a document, a `dict` or the text of one, by the workers of a Dask client, of which each has the same program: the
    one that `./plinq --build` makes, or another by its path, or by its name on the PATH (`program="plinq"` once it is installed).

        >>> run(client, {"version": 1, "source": {"range": [0, 10]}, "query": [["as_ordered"], ["filter", "even"]]})
        Answer(items=[0, 2, 4, 6, 8], ending='end')

    The ending is 'end', 'refused N' or 'fault NAME', as `plinq run` prints it; the items before a fault are there. Items are held
    in memory. The merge option has no effect but that a fully buffered answer that doesn't end well has none. The source is cut
    into so many shards, or into as many as suit the cluster.

    What has no answer raises `Trouble` with the line and the status of plinq-cluster: a document that is refused, a worker with
    another program, a cluster that is gone. A coroutine awaits it by `asyncio.to_thread`.
    """
    import cloudpickle
    import distributed

    from . import program as by_worker
    from .answer import show
    from .cluster import Cluster
    from .document import found, understood
    from .progress import Progress
    from .shard import Cut, elements_for, parts_of
    from .shard import shards as shards_of
    from .trouble import own

    if not isinstance(client, distributed.Client):
        raise TypeError(f"a Dask client is wanted, as distributed.Client(cluster) gives: {repr(client)[:80]}")
    if not isinstance(document, (dict, str, bytes)):
        raise TypeError(f"a document is a dict, or the text of one as str or bytes: {repr(document)[:80]}")
    if shards is not None and not 1 <= operator.index(shards) <= MOST_SHARDS:
        raise ValueError(f"shards is a whole number from 1 to {MOST_SHARDS}: {shards}")
    if client.scheduler is None:
        raise own("the client is closed")
    if client.asynchronous:
        raise own("the client's own loop would wait for itself: call run by asyncio.to_thread")
    # (workers need no file of this folder)
    cloudpickle.register_pickle_by_value(by_worker)
    name, path = found(program)
    # (half of a character that is written as two is plinq's to refuse)
    text = document.encode("utf-8", "surrogatepass") if isinstance(document, str) else document
    text = text if isinstance(text, bytes) else json.dumps(text).encode()
    asked = understood(path, text)
    there = Cluster(client, f"scheduler {client.scheduler.address}", name, asked.degree, Progress(None))
    parts = parts_of(asked.source, Cut(shards, there.threads, elements_for(asked.steps, asked.aggregate)))
    written = []
    ending = show(there, asked, shards_of(parts), written.append)
    # (the last of what was written is the ending)
    items = [int(it) for it in b"".join(written[:-1]).split() if it != b"none"]
    return Answer(items, ending)
