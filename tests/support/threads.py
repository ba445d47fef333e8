"""A limit on threads that holds for the program alone."""
import contextlib
import glob
import os
import pwd
import random
import resource


def users_at_work():
    """The numbers of the users who have a process here."""
    for process in glob.glob("/proc/[0-9]*"):
        with contextlib.suppress(FileNotFoundError):
            yield os.stat(process).st_uid


def unused_user():
    """The number of a user who has no process, or None if this process can't become another user.

    The system counts a user's threads over all containers that share its numbers, so a user such as nobody won't do.
    """
    if os.geteuid() != 0:
        return None
    with open("/proc/self/uid_map") as lines:
        first, count = max(((int(it.split()[0]), int(it.split()[2])) for it in lines), key=lambda it: it[1])
    taken = {it.pw_uid for it in pwd.getpwall()} | set(users_at_work())
    mapped = range(first + min(100_000, count // 2), min(first + count, 2**31))
    return next(it for it in random.sample(mapped, min(1_000, len(mapped))) if it not in taken)


def leaving(threads, user):
    """What leaves a new process of that user so many threads, by a limit of the system that holds for each user but root."""

    def limited():
        resource.setrlimit(resource.RLIMIT_NPROC, (threads, threads))
        if user is not None:
            os.setuid(user)

    return limited
