"""A scheduler and workers as processes of their own, on this machine or each in a network namespace, for tests/cluster.py."""
import contextlib
import os
import re
import shutil
import signal
import subprocess
import time

from support.program import HANGS, ROOT

COMMAND = os.path.join(ROOT, "cluster", "plinq-cluster")
# (so that a lost link is noticed soon)
SOON = {"DASK_DISTRIBUTED__COMM__TIMEOUTS__TCP": "12s", "DASK_DISTRIBUTED__SCHEDULER__WORKER_TTL": "8s"}


def started(words, **how):
    """A process in a group of its own, which ends with this one where it isn't ended before."""
    words = ["setpriv", "--pdeathsig", "KILL", "--", *words]
    return subprocess.Popen(words, stdin=subprocess.DEVNULL, start_new_session=True, **how)


def end(process):
    """Ends a process and what it started."""
    with contextlib.suppress(ProcessLookupError):
        os.killpg(process.pid, signal.SIGKILL)
    process.wait()


class Machines:
    """A scheduler and its workers. All of them end with the `with` block."""

    def __init__(self, folder, host="127.0.0.1", prefix=(), env=()):
        self.folder, self.host, self.processes = folder, host, []
        self.scheduler = self.start("scheduler", "dask-scheduler", env, "--host", host, "--port", "0", "--no-dashboard", prefix=prefix)
        self.address = self.wait_for("scheduler", r"Scheduler at:\s+(tcp://\S+)")

    def __enter__(self):
        return self

    def __exit__(self, *_):
        for it in self.processes:
            end(it)

    def start(self, name, program, env, *words, prefix=()):
        """Starts one of Dask's programs by the system's own python3, and keeps what it prints in a file."""
        with open(f"{self.folder}/{name}.log", "wb") as log:
            command = [*prefix, "/usr/bin/python3", f"/usr/bin/{program}", *words]
            process = started(command, stdout=log, stderr=log, cwd=self.folder, env=os.environ | SOON | dict(env))
        self.processes.append(process)
        return process

    def worker(self, name, *words, env=(), prefix=(), host=None):
        """Starts a worker of one thread."""
        words = ["--nthreads", "1", "--no-dashboard", "--host", host or self.host, "--local-directory", f"{self.folder}/{name}.files", *words]
        return self.start(name, "dask-worker", env, self.address, *words, prefix=prefix)

    def wait_for(self, name, pattern):
        """What a process prints, once it does."""
        until = time.monotonic() + HANGS / 2
        while True:
            with open(f"{self.folder}/{name}.log", encoding="utf-8") as log:
                said = log.read()
            found = re.search(pattern, said)
            if found:
                return found[1]
            if time.monotonic() > until:
                raise RuntimeError(f"{name} didn't print {pattern}: {said[-2000:]}")
            time.sleep(0.05)

    def are_there(self, *names):
        """Waits until these workers are registered."""
        for it in names:
            self.wait_for(it, r"(Registered to)")


def ip(*words):
    """Runs `ip`, which has to succeed."""
    subprocess.run(["ip", *words], check=True, capture_output=True)


class Net:
    """Hosts in network namespaces, each with a link to a bridge in one more. All of them go with the `with` block."""

    def __init__(self, count):
        self.hub = f"plinq{os.getpid()}"
        self.hosts = [f"{self.hub}n{it}" for it in range(count)]

    def __enter__(self):
        try:
            self.make()
        except Exception:
            self.__exit__()
            raise
        return self

    @classmethod
    def why_not(cls):
        """Why no such hosts can be made here, if they can't."""
        if os.geteuid() != 0 or not shutil.which("ip"):
            return "it wants root and ip (apt-get install iproute2)"
        try:
            with cls(1):
                return None
        except (OSError, subprocess.CalledProcessError) as error:
            return f"no network namespace can be made here: {error}"

    def make(self):
        ip("netns", "add", self.hub)
        ip("-n", self.hub, "link", "set", "lo", "up")
        ip("-n", self.hub, "link", "add", "bridge", "type", "bridge")
        ip("-n", self.hub, "addr", "add", "10.77.0.1/24", "dev", "bridge")
        ip("-n", self.hub, "link", "set", "bridge", "up")
        for at, host in enumerate(self.hosts):
            ip("netns", "add", host)
            ip("link", "add", f"link{at}", "netns", self.hub, "type", "veth", "peer", "name", "eth0", "netns", host)
            ip("-n", self.hub, "link", "set", f"link{at}", "master", "bridge", "up")
            ip("-n", host, "link", "set", "lo", "up")
            ip("-n", host, "addr", "add", f"{self.address(at)}/24", "dev", "eth0")
            ip("-n", host, "link", "set", "eth0", "up")

    @staticmethod
    def address(at):
        return f"10.77.0.{at + 2}"

    @staticmethod
    def within(name):
        """The words before a command that has it run in a namespace."""
        return ["ip", "netns", "exec", name]

    def cut(self, at):
        """Cuts the link of a host: nothing goes through, and nobody is told."""
        ip("-n", self.hub, "link", "set", f"link{at}", "down")

    def __exit__(self, *_):
        for it in (self.hub, *self.hosts):
            subprocess.run(["ip", "netns", "del", it], capture_output=True)
