"""What the command does with its options: from the document on standard input to the status."""
import os

from . import document
from .progress import Progress
from .shard import Cut, elements_for, of_text, parts_of, shards
from .trouble import own


def opened(name):
    """A file of numbers, and its length, if it has one before it is read."""
    try:
        file = open(name, "rb")
        return file, os.fstat(file.fileno()).st_size
    except OSError as error:
        raise own(f"{name}: {error.strerror}") from None


def read(args, program):
    """The document, and the file that stands in the place of its source, if there is one."""
    text = document.read()
    if args.text is None:
        return document.understood(program, text, args.workers, args.merge), None
    asked = document.understood(program, document.with_empty_text(text), args.workers, args.merge)
    return asked, opened(args.text)


def answered(args, errors):
    """Answers a document, and gives the status. What is refused is refused before a cluster is asked for anything."""
    name, path = document.found(args.program)
    asked, file = read(args, path)
    # (Dask is slow to load, and no refused document waits for it)
    try:
        from . import workers
    except ImportError as error:
        raise own(f"{error}: Dask is wanted (apt-get install python3-distributed)") from None
    from .answer import Output, show
    from .cluster import Cluster
    from .program import STATUSES

    workers.be_quiet()
    there = workers.remote(args.scheduler) if args.scheduler else workers.local(args.local or os.cpu_count(), args.patience)
    with there as client:
        progress = Progress(errors, client.dashboard_link if workers.has_dashboard() else None)
        cluster = Cluster(client, f"scheduler {client.scheduler.address}", name, asked.degree, progress, args.patience)
        cut = Cut(args.shards, cluster.threads, elements_for(asked.steps, asked.aggregate))
        parts = of_text(*file, cut, args.text) if file else parts_of(asked.source, cut)
        try:
            ending = show(cluster, asked, shards(parts), Output(progress).write)
        finally:
            progress.clear()
    return STATUSES[ending.split(" ")[0]]
