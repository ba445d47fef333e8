"""A model of how the program reads a document, in Python: what it asks for, or the line of the first thing that is wrong.

It is written from the words of examples/README.md, over Python's own reader of JSON.
"""
import json

from support.model import GREATEST, LEAST

LONGEST = 16_777_216
DEEPEST = 127
MOST_STEPS, MOST_ELEMENTS, MOST_WORKERS, LARGEST_CHUNK = 1_000, 2**40, 64, 65_536
FORMULAS = {"add": 1, "mul": 1, "mod": 1, "into": 1, "below": 1, "above": 1, "equal": 1, "repeat": 1, "even": 0, "up_to": 0}
# The steps with a formula by the version of the document.
WITH_FORMULA = {1: ("select", "filter", "select_many", "take_while"), 2: ("select", "filter", "select_many", "take_while", "skip_while")}


class Refused(Exception):
    """The first thing that is wrong with a document."""


def number(text):
    """A number of a JSON text: whole, or of any other kind."""
    if text != "-0" and text.lstrip("-").isdigit() and LEAST <= int(text) < 2**64:
        return int(text)
    if abs(float(text)) == float("inf"):
        raise ValueError("too great")
    return float(text)


def no_number(text):
    raise ValueError(text)


def depth(value):
    inner = value.values() if isinstance(value, dict) else value if isinstance(value, list) else None
    return 0 if inner is None else 1 + max(map(depth, inner), default=0)


def json_of(text):
    try:
        value = json.loads(text.decode(), parse_int=number, parse_float=number, parse_constant=no_number)
        # (half of a character that is written as two)
        json.dumps(value, ensure_ascii=False).encode()
    except (ValueError, RecursionError):
        raise Refused("not JSON") from None
    if depth(value) > DEEPEST:
        raise Refused("not JSON")
    return value


def has_shape(is_so):
    if not is_so:
        raise Refused("wrong shape")


def is_count(value):
    return type(value) is int and value >= 0


def is_whole(value):
    return type(value) is int and value <= GREATEST


def is_pair(value):
    return isinstance(value, list) and len(value) == 2 and is_whole(value[0]) and is_count(value[1])


def has_source_shape(source):
    has_shape(isinstance(source, dict) and set(source) in ({"list"}, {"list", "refuse"}, {"text"}, {"range"}, {"repeat"}))
    if "list" in source:
        has_shape(isinstance(source["list"], list) and all(map(is_whole, source["list"])))
        has_shape(is_count(source.get("refuse", 0)) and source.get("refuse", 0) < 2**32)
    if "text" in source:
        has_shape(isinstance(source["text"], str))
    for name in ("range", "repeat"):
        has_shape(name not in source or is_pair(source[name]))


def bound(source):
    """The most elements that a source of this shape may have, by what its value states."""
    if "range" in source:
        first, count = source["range"]
        if first + max(count, 1) - 1 > GREATEST:
            raise Refused("source too large")
    if "text" in source:
        return len(source["text"].encode())
    return len(source["list"]) if "list" in source else source.get("range", source.get("repeat"))[1]


def read_source(source, version):
    is_two = version == 2 and isinstance(source, dict) and set(source) == {"concat"}
    has_shape(not is_two or isinstance(source["concat"], list) and len(source["concat"]) == 2)
    parts = source["concat"] if is_two else [source]
    for part in parts:
        has_source_shape(part)
    if sum(map(bound, parts)) > MOST_ELEMENTS:
        raise Refused("source too large")


def read_growth(growth):
    first, repeat, most = growth
    if 0 in growth:
        raise Refused("growth: zero")
    if first > most:
        raise Refused("growth: first above max")
    if most > LARGEST_CHUNK:
        raise Refused("growth: max too large")


def is_known(name, rest, version):
    if name in WITH_FORMULA[version]:
        return bool(rest) and isinstance(rest[0], str) and FORMULAS.get(rest[0]) == len(rest) - 1 and all(map(is_whole, rest[1:]))
    if name in ("take", "skip"):
        return len(rest) == 1 and is_whole(rest[0])
    if name == "with_merge":
        return rest in (["not"], ["auto"], ["full"], ["default"])
    if name == "with_degree":
        return len(rest) == 1 and is_count(rest[0])
    return name in ("as_ordered", "as_unordered") and not rest


def why_not(name, rest, earlier):
    """Why a step can't stand after these names, if it can't."""
    if name == "as_ordered" and any(it not in ("with_merge", "with_degree") for it in earlier):
        return "not at source"
    if name in ("with_merge", "with_degree") and name in earlier:
        return "merge twice" if name == "with_merge" else "degree twice"
    if name == "with_degree" and not 1 <= rest[0] <= MOST_WORKERS:
        return "degree out of range"
    return None


def read_steps(steps, version):
    names = []
    for at, step in enumerate(steps):
        if not isinstance(step, list) or not step or not isinstance(step[0], str) or not is_known(step[0], step[1:], version):
            raise Refused(f"step {at}: unknown")
        why = why_not(step[0], step[1:], names)
        if why:
            raise Refused(f"step {at}: {why}")
        names.append(step[0])


def read(text):
    """The document that these bytes are. It asks for a source, steps, a growth and perhaps an aggregate."""
    if len(text) > LONGEST:
        raise Refused("too long")
    value = json_of(text)
    has_shape(isinstance(value, dict) and is_whole(value.get("version")))
    version = value["version"]
    if version not in (1, 2):
        raise Refused("unknown version")
    has_shape(set(value) <= {"version", "source", "query", "growth", "aggregate"} and "source" in value)
    has_shape(isinstance(value.get("query"), list) and len(value["query"]) <= MOST_STEPS)
    growth = value.setdefault("growth", [1, 3, 512])
    has_shape(isinstance(growth, list) and len(growth) == 3 and all(map(is_count, growth)))
    has_shape("aggregate" not in value or value["aggregate"] in ("sum", "count", "min", "max"))
    read_source(value["source"], version)
    read_growth(growth)
    read_steps(value["query"], version)
    return value
