"""Puts the shards' answers together: lines as one machine prints them, or the value of an aggregate."""
import collections
import os

from .slicing import sliced
from .trouble import Trouble

OF_A_LINE = 16
# How many bytes of items are looked at as items at once.
BLOCK = 1 << 16
# How two values of an aggregate become one: sums and counts wrap.
COMBINED = {
    "sum": lambda x, y: (x + y + 2**127) % 2**128 - 2**127,
    "count": lambda x, y: (x + y) % 2**64,
    "min": min,
    "max": max,
}


class Output:
    """Standard output. Where it is refused, the command ends as the program does."""

    def __init__(self, progress):
        self.progress = progress

    def write(self, block):
        """Writes all of a block at once."""
        self.progress.clear()
        left = memoryview(block)
        try:
            while left:
                left = left[os.write(1, left) :]
        except OSError:
            raise Trouble("plinq: write failed") from None


class Lines:
    """Writes items in lines of 16, wherever the lines of their shards end."""

    def __init__(self, write):
        self.write, self.open = write, []

    def add(self, items):
        """Writes the lines that are full with these items."""
        at = 0
        if not self.open:
            # (a shard's own lines are full, but for its last)
            at = items.rfind(b"\n", 0, -1) + 1
            self.write(items[:at])
        while at < len(items):
            end = items.find(b"\n", at + BLOCK) + 1 or len(items)
            self.join(items[at:end].split())
            at = end

    def join(self, words):
        """Writes the lines that are full with these few items."""
        words = self.open + words
        full = len(words) - len(words) % OF_A_LINE
        self.open = words[full:]
        self.write(b"".join(b" ".join(words[at : at + OF_A_LINE]) + b"\n" for at in range(0, full, OF_A_LINE)))

    def end(self):
        """Writes the last line, which isn't full."""
        if self.open:
            self.write(b" ".join(self.open) + b"\n")


def portions(cluster, shards, merge, look):
    """Each portion of the answer in order, with what is looked at of it: a shard of too many items is asked again for the rest."""
    for shard, asked in cluster.in_order(shards, lambda it: (it.steps, None, merge)):
        ending, had = None, 0
        while ending is None:
            got = look(asked)
            ending, had = got["ending"], had + got["count"]
            yield asked, got
            if ending is None:
                rest = shard.then(["skip", had])
                asked = cluster.ask(rest, rest.steps, None, merge)
        cluster.progress.is_done(shard)
        if ending != "end":
            return


def each_at_once(cluster, shards, write):
    """Writes each item as a line of its own."""
    ending = "end"
    for _, answer in portions(cluster, shards, "not", lambda it: it.answer()):
        write(answer["items"])
        ending = answer["ending"]
    return ending


def by_sixteen(cluster, shards, write):
    """Writes lines of 16 items."""
    ending, lines = "end", Lines(write)
    for _, answer in portions(cluster, shards, "auto", lambda it: it.answer()):
        lines.add(answer["items"])
        ending = answer["ending"]
    lines.end()
    return ending


def all_or_nothing(cluster, shards, write):
    """Writes all items as one line, once all of them are there; they stay on their workers until then."""
    ending, held = "end", collections.deque()
    for asked, summary in portions(cluster, shards, "auto", lambda it: it.summary()):
        ending = summary["ending"]
        if summary["count"]:
            held.append(asked)
    if ending != "end" or not held:
        return ending
    before = b""
    while held:
        write(before + held.popleft().answer()["items"][:-1].replace(b"\n", b" "))
        before = b" "
    write(b"\n")
    return ending


def value_of(cluster, shards, kind, write):
    """Writes the value of an aggregate, if all shards end well."""
    value = None if kind in ("min", "max") else 0
    for shard, asked in cluster.in_order(shards, lambda it: (it.steps, kind)):
        answer = asked.answer()
        if answer["ending"] != "end":
            return answer["ending"]
        word = answer["items"].strip()
        if word != b"none":
            value = int(word) if value is None else COMBINED[kind](value, int(word))
        cluster.progress.is_done(shard)
    write(b"none\n" if value is None else b"%d\n" % value)
    return "end"


SHOWN = {"not": each_at_once, "auto": by_sixteen, "full": all_or_nothing}


def show(cluster, document, shards, write):
    """Writes the lines of a document's answer over these shards of its source, and answers its ending."""
    shards = sliced(cluster, shards, document.steps)
    if document.aggregate:
        ending = value_of(cluster, shards, document.aggregate, write)
    else:
        ending = SHOWN[document.merge](cluster, shards, write)
    write(ending.encode() + b"\n")
    return ending
