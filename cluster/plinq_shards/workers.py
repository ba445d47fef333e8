"""Starts a Dask cluster on this machine, or finds one that is there."""
import contextlib
import importlib.util
import logging
import multiprocessing
import os
import shutil
import signal
import tempfile
import time
import warnings

import cloudpickle
import dask
import distributed

from . import program
from .trouble import own, reason

# How many seconds a scheduler may take to answer, and then to have its first worker.
PATIENCE = 10
PATIENCE_FOR_WORKERS = 30
# How many seconds each worker of a local cluster may take to start beside the others, on a busy machine.
SECONDS_TO_START = 2
# How many seconds a local cluster's processes may take to end.
SECONDS_TO_END = 5


def be_quiet():
    """Leaves standard error to this command: what a cluster has to report comes as the one line of its trouble."""
    logging.disable(logging.CRITICAL)
    warnings.simplefilter("ignore")
    # (workers need no file of this folder)
    cloudpickle.register_pickle_by_value(program)
    # (Dask would look up the lines by which each shard is asked for, which takes as long as sending it)
    dask.config.set({"distributed.diagnostics.computations.ignore-modules": [""]})


@contextlib.contextmanager
def without_interrupts():
    """Starts processes that don't hear Ctrl-C: they end with the cluster. One that comes meanwhile is heard afterwards."""
    before = signal.pthread_sigmask(signal.SIG_BLOCK, {signal.SIGINT})
    try:
        yield
    finally:
        signal.pthread_sigmask(signal.SIG_SETMASK, before)


# Dask's web servers, of the scheduler and of each worker, listen for this machine alone, at any free port.
HERE = "127.0.0.1:0"


def has_dashboard():
    """Whether the scheduler's web server shows Dask's own dashboard: if its library is installed."""
    return importlib.util.find_spec("bokeh") is not None


def own_keys():
    """TLS with keys that are made for this cluster alone, so that no other user of the machine has its workers run anything."""
    try:
        return distributed.Security.temporary()
    except ImportError as error:
        raise own(f"{error}: --local wants Python's cryptography (apt-get install python3-cryptography)") from None


class Late(BaseException):
    """A start that takes too long. Dask, which would wait for what it started, doesn't catch it."""


@contextlib.contextmanager
def within(seconds):
    """Raises Late after so many seconds: not each wait of Dask's own has an end."""

    def late(*_):
        raise Late

    before = signal.signal(signal.SIGALRM, late)
    signal.alarm(seconds)
    try:
        yield
    finally:
        signal.alarm(0)
        signal.signal(signal.SIGALRM, before)


def started(count, security, folder, patience):
    """A cluster of so many workers of one thread each on this machine. One that hangs as it starts is given up as any other."""
    longest = max(patience, PATIENCE_FOR_WORKERS) + count * SECONDS_TO_START
    try:
        with within(longest + PATIENCE), without_interrupts():
            return distributed.LocalCluster(
                n_workers=count,
                threads_per_worker=1,
                processes=True,
                security=security,
                dashboard_address=HERE,
                worker_dashboard_address=HERE,
                silence_logs=logging.CRITICAL,
                local_directory=folder,
                death_timeout=longest,
            )
    except Late:
        raise own("a cluster can't be started on this machine: it takes too long") from None
    except Exception as error:
        # (what Dask raises after a system call that failed is of any type; of a worker that doesn't start it asserts that it runs)
        unsaid = "a worker doesn't start" if isinstance(error, (AssertionError, TimeoutError)) else None
        raise own(f"a cluster can't be started on this machine: {reason(error, unsaid)}") from None


def end_processes():
    """Ends the workers that are left, as those of a cluster that was starting when a signal came: they would write into their folder
    again. What watches them is ended first, since it would start others."""
    with contextlib.suppress(Exception):
        distributed.deploy.spec.close_clusters()
    for it in multiprocessing.active_children():
        it.kill()
        it.join(SECONDS_TO_START)


@contextlib.contextmanager
def own_folder():
    """A folder for a cluster's processes. It is gone only once they are: one that was started again meanwhile makes it anew."""
    folder = tempfile.mkdtemp(prefix="plinq-cluster-")
    # (the folder is a newer Dask's scheduler's as well, which may come late)
    with dask.config.set({"temporary-directory": folder}):
        try:
            yield folder
        finally:
            latest = time.monotonic() + SECONDS_TO_END
            while True:
                end_processes()
                shutil.rmtree(folder, ignore_errors=True)
                if not multiprocessing.active_children() and not os.path.exists(folder) or time.monotonic() > latest:
                    break
                time.sleep(0.05)


@contextlib.contextmanager
def local(count, patience=0):
    """Such a cluster, for as long as it is wanted."""
    security = own_keys()
    with own_folder() as folder:
        cluster = started(count, security, folder, patience)
        try:
            with distributed.Client(cluster) as client:
                yield client
        finally:
            with contextlib.suppress(Exception):
                cluster.close(timeout=10)


def missing_key():
    """A file of keys that Dask's settings name and that isn't there. Python's error doesn't name it."""
    for name in ("ca-file", "client.cert", "client.key"):
        path = dask.config.get(f"distributed.comm.tls.{name}", None)
        if path and "\n" not in path and not os.path.exists(path):
            return f"{path}: "
    return ""


@contextlib.contextmanager
def remote(address):
    """The cluster of a scheduler that is there."""
    try:
        with dask.config.set({"distributed.comm.timeouts.connect": f"{PATIENCE}s"}):
            client = distributed.Client(address, timeout=PATIENCE)
    except FileNotFoundError as error:
        raise own(f"scheduler {address}: {missing_key()}{error.strerror}") from None
    except (OSError, ValueError, TypeError, ImportError, distributed.TimeoutError) as error:
        # (a TypeError says what TLS lacks, an ImportError what a scheme does)
        raise own(f"scheduler {address}: {str(error) or 'no answer'}") from None
    try:
        try:
            client.wait_for_workers(1, timeout=PATIENCE_FOR_WORKERS)
        except distributed.TimeoutError:
            raise own(f"scheduler {address}: it has no worker") from None
        yield client
    finally:
        with contextlib.suppress(Exception):
            client.close(timeout=5)
