"""Gives each shard the steps that are to be done on it alone.

What is left of the operators after one shard answers the next. Of Select, Where and SelectMany all is left, so each shard has
them as they are. Of a Take or a Skip less is left, by the items of the shards before it; a TakeWhile stops, and a SkipWhile is
over, with the first item that fails. So the shards are asked in order, some ahead, for these counts and items, and each
becomes a slice by a step of its own. Shards after the last that is needed aren't asked.
"""
import itertools
import sys

from .program import MOST_STEPS
from .trouble import own

# Each step that counts asks the one before it for shards, by some calls within one another.
CALLS_OF_A_STEP = 5


def glued(shards, steps):
    """Steps that look at each item alone."""
    for shard in shards:
        for it in steps:
            shard = shard.then(it)
        yield shard


def counted(cluster, shards, left):
    """Each shard in order, and what tells how many items it has, as far as so many are left to be counted."""

    def question(shard):
        if left() == 0 or shard.length is not None:
            return None
        return shard.then(["take", left()]).steps, "count"

    for shard, asked in cluster.in_order(shards, question):
        yield shard, (lambda: (shard.length, "end")) if asked is None else asked.count


def tested(cluster, shards, formula, is_over=lambda: False):
    """Each shard in order, and what tells whether one of its items fails, and how it ends before that."""

    def question(shard):
        if is_over():
            return None
        steps = (*shard.steps, ["skip_while", *formula], ["take", 1])
        # (one is enough; without a Take the shard looks at the others as well)
        return steps[:MOST_STEPS], None

    for shard, asked in cluster.in_order(shards, question):
        yield shard, asked and asked.has_items


def take(cluster, shards, step):
    """The first shards up to the one with the last item that is taken; a shard that doesn't end well is the last as well."""
    left = max(step[1], 0)
    if left == 0:
        return
    for shard, count in counted(cluster, shards, lambda: left):
        had, ending = count()
        if had >= left or ending != "end":
            yield shard.then(["take", left])
            return
        left -= had
        yield shard


def skip(cluster, shards, step):
    """The shards from the one with the first item that isn't skipped."""
    left = max(step[1], 0)
    for shard, count in counted(cluster, shards, lambda: left):
        if left == 0:
            yield shard
            continue
        had, ending = count()
        if had >= left or ending != "end":
            yield shard.then(["skip", left])
            if ending != "end":
                return
        left -= min(had, left)


def take_while(cluster, shards, step):
    """The first shards up to the one with the first item that fails, or that can't be tested."""
    for shard, has_items in tested(cluster, shards, step[1:]):
        fails, ending = has_items()
        if fails or ending != "end":
            yield shard.then(step)
            return
        yield shard


def skip_while(cluster, shards, step):
    """The shards from the one with the first item that fails, or that can't be tested."""
    is_over = False
    for shard, has_items in tested(cluster, shards, step[1:], lambda: is_over):
        if is_over:
            yield shard
            continue
        fails, ending = has_items()
        if fails or ending != "end":
            yield shard.then(step)
            if not fails:
                return
        is_over = fails


GLUING = ("select", "filter", "select_many")
BY_NAME = {"take": take, "skip": skip, "take_while": take_while, "skip_while": skip_while}


def refuse_unknown(steps):
    """Refuses a step of which nothing is known here: a later `plinq` may have others."""
    for name, *_ in steps:
        if name not in GLUING and name not in BY_NAME:
            raise own(f"step {name}: not known here")


def sliced(cluster, shards, steps):
    """The shards with their own steps, in order: the items of one after another are the answer, up to an ending that isn't good."""
    sys.setrecursionlimit(max(sys.getrecursionlimit(), 1_000 + CALLS_OF_A_STEP * len(steps)))
    for counts, together in itertools.groupby(steps, lambda it: it[0] in BY_NAME):
        if not counts:
            shards = glued(shards, list(together))
            continue
        for step in together:
            shards = BY_NAME[step[0]](cluster, shards, step)
    return shards
