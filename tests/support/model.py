"""A model of what the program prints, in Python.

It is written from the words of examples/README.md and docs/MODEL.md, on whole lists, and shares nothing with the program.
"""
import re

from support.batches import in_batches

LEAST, GREATEST = -(2**63), 2**63 - 1
MOST = 65_536
MEANINGS = {
    "add": lambda x, c: x + c,
    "mul": lambda x, c: x * c,
    "mod": lambda x, c: x - c * quotient(x, c),
    "into": lambda x, c: quotient(c, x),
    "below": lambda x, c: x < c,
    "above": lambda x, c: x > c,
    "equal": lambda x, c: x == c,
    "even": lambda x: x % 2 == 0,
}
AGGREGATES = {
    "sum": lambda items: (sum(items) + 2**127) % 2**128 - 2**127,
    "count": len,
    "min": lambda items: min(items, default="none"),
    "max": lambda items: max(items, default="none"),
}


class Fault(Exception):
    pass


def quotient(x, y):
    """x by y, cut toward zero."""
    if y == 0:
        raise Fault("fault division")
    return abs(x) // abs(y) * (1 if (x < 0) == (y < 0) else -1)


def mapped(formula, x):
    name, *number = formula
    if name in ("repeat", "up_to"):
        return x
    value = int(MEANINGS[name](x, *number))
    if not LEAST <= value <= GREATEST:
        raise Fault("fault overflow")
    return value


def tested(formula, x):
    return mapped(formula, x) != 0


def expanded(formula, x):
    name, *number = formula
    if name not in ("repeat", "up_to"):
        return [mapped(formula, x)]
    count = number[0] if name == "repeat" else x
    if count > MOST:
        raise Fault("fault toomany")
    return [x] * max(count, 0) if name == "repeat" else list(range(1, count + 1))


def joined(piece, items, ending):
    """The pieces of all items, up to the first that faults."""
    made = []
    for x in items:
        try:
            made += piece(x)
        except Fault as fault:
            return made, str(fault)
    return made, ending


def applied(step, items, ending):
    """What a step makes of a list of items and how it ends."""
    name, *rest = step
    if name == "select":
        return joined(lambda x: [mapped(rest, x)], items, ending)
    if name == "filter":
        return joined(lambda x: [x] if tested(rest, x) else [], items, ending)
    if name == "select_many":
        return joined(lambda x: expanded(rest, x), items, ending)
    if name == "take_while":
        for at, x in enumerate(items):
            try:
                if not tested(rest, x):
                    return items[:at], "end"
            except Fault as fault:
                return items[:at], str(fault)
    if name == "skip_while":
        for at, x in enumerate(items):
            try:
                if not tested(rest, x):
                    return items[at:], ending
            except Fault as fault:
                return [], str(fault)
        return [], ending
    if name in ("take", "skip"):
        n = max(rest[0], 0)
        if name == "skip":
            return items[n:], ending
        if len(items) >= n:
            return items[:n], "end"
    return items, ending


def through(steps, items, ending):
    for step in steps:
        items, ending = applied(step, items, ending)
    return items, ending


def given(source):
    """The items of a source, and how it ends."""
    if "concat" in source:
        (items, ending), second = map(given, source["concat"])
        return (items + second[0], second[1]) if ending == "end" else (items, ending)
    if "list" in source:
        return source["list"], f"refused {source['refuse']}" if "refuse" in source else "end"
    if "range" in source:
        start, count = source["range"]
        return list(range(start, start + count)), "end"
    if "repeat" in source:
        value, count = source["repeat"]
        return [value] * count, "end"
    items = []
    for token in filter(None, re.split("[ \n]", source["text"])):
        if not re.fullmatch("-?[0-9]+", token):
            return items, "refused 1"
        if not LEAST <= int(token) <= GREATEST:
            return items, "refused 2"
        items.append(int(token))
    return items, "end"


def is_setting(step):
    return step[0] in ("as_ordered", "with_merge", "with_degree")


def setting(steps, name, otherwise):
    return next((it[1] for it in steps if it[0] == name), otherwise)


def worker_length(calls, knows_order):
    """How many steps the workers take: those for which they know enough of an element from its key."""
    knows_place = knows_order
    for at, (name, *_) in enumerate(calls):
        needs = {"take": knows_place, "skip": knows_place, "take_while": knows_order, "skip_while": False, "as_unordered": False}
        if not needs.get(name, True):
            return at
        if name in ("filter", "select_many"):
            knows_place = False
    return len(calls)


def words_of(steps):
    return ", ".join(" ".join(map(str, it)) for it in steps) or "none"


def requests(items, ending, growth, degree):
    """The lines of partitions that take in turn, each until it has had the tail."""
    first, repeat, most = growth
    lines, at, asked, waiting = [], 0, [0] * degree, list(range(degree))
    while waiting:
        p = waiting.pop(0)
        size = min(most, first * 2 ** (asked[p] // repeat))
        asked[p] += 1
        count = min(size, len(items) - at)
        tail = "" if count == size else " ended" if ending == "end" else f" {ending}"
        lines.append(f"ticket {len(lines)} ask {size} first {at} count {count}{tail}")
        at += count
        if count == size:
            waiting.append(p)
    return lines


def told(option, aggregate, items, ending):
    """The lines of an answer, the last left out: its batches, or the value of an aggregate."""
    if aggregate:
        return [str(AGGREGATES[aggregate](items))] if ending == "end" else []
    return [" ".join(map(str, it)) for it in in_batches(option, items, ending)]


def wanted(command, source, steps, growth, aggregate):
    """What the program is to print, and its status."""
    items, ending = given(source)
    option, degree = setting(steps, "with_merge", "auto"), setting(steps, "with_degree", 4)
    calls = [it for it in steps if not is_setting(it)]
    if command == "plan":
        cut = worker_length(calls, ["as_ordered"] in steps)
        order = "key" if ["as_ordered"] in steps else "arrival"
        lines = [f"workers {degree}", f"merge {option.replace('default', 'auto')}", f"order {order}"]
        return lines + [f"worker {words_of(calls[:cut])}", f"after {words_of(calls[cut:])}"], 0
    lines = []
    if command == "parts":
        lines.append("properties true true true")
        for p in range(degree):
            low, high = p * len(items) // degree, (p + 1) * len(items) // degree
            lines.append(f"{p}:" + "".join(f" {key}={items[key]}" for key in range(low, high)))
    elif command == "history":
        lines += requests(items, ending, growth, degree)
    else:
        items, ending = through(calls, items, ending)
        lines += told(option, aggregate, items, ending)
    return lines + [ending], status_of(ending)


def status_of(ending):
    return {"e": 0, "r": 3, "f": 4}.get(ending[:1])


def cancelled_after(n, lines, status):
    """What a run prints that stops after so many lines of an answer, and its status and its line on standard error."""
    if n < len(lines):
        return lines[:n], 5, b"plinq: cancelled\n"
    return lines, status, b""
