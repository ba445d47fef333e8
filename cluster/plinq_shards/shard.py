"""Cuts a source into shards, which are sources of documents again."""
import dataclasses
import io

from .trouble import own

# How many elements a shard has at most; a list's and a text's have to fit into a document, even of twice this length.
MOST_ELEMENTS = 1 << 19
MOST_OF_AGGREGATE = 1 << 24
MOST_OF_LIST = 1 << 18
MOST_OF_TEXT = 4 << 20
# No shard is worth its way for less, if nobody says how many there are to be.
LEAST_ELEMENTS = 1 << 13
# In a text only digits, signs, spaces and line feeds mean anything, and any other byte makes its number malformed.
MEANT = bytes(it if it in b"0123456789- " else ord(" ") if it == ord("\n") else ord("x") for it in range(256))


@dataclasses.dataclass(frozen=True)
class Shard:
    """A part of a source, with its place among the others, and the steps that are to be done on it alone.

    The length is how many items it has, if that is known before it is asked; the size is about how many elements.
    """

    at: int
    source: dict
    size: int
    length: int = None
    steps: tuple = ()

    def then(self, step):
        """The shard with one step more."""
        length = None
        if self.length is not None and step[0] == "take":
            length = min(self.length, step[1])
        if self.length is not None and step[0] == "skip":
            length = max(self.length - step[1], 0)
        return dataclasses.replace(self, steps=(*self.steps, step), length=length)


@dataclasses.dataclass(frozen=True)
class Cut:
    """How a source is to be cut: into so many shards, or, if that isn't said, for so many threads."""

    shards: int
    threads: int
    elements: int = MOST_ELEMENTS

    def parts(self, length, most):
        """Into how many parts so many elements are cut, each of at most so many."""
        least = -(-length // most)
        if self.shards:
            return max(min(self.shards, length), least, 1)
        return max(least, min(4 * self.threads, -(-length // LEAST_ELEMENTS)), 1)


def elements_for(steps, aggregate):
    """How many elements a shard may have: fewer if each may become many."""
    most = MOST_OF_AGGREGATE if aggregate else MOST_ELEMENTS
    for name, *rest in steps:
        if name == "select_many" and rest[0] == "repeat":
            most //= min(max(rest[1], 1), 1 << 16)
        elif name == "select_many" and rest[0] == "up_to":
            most >>= 6
    return max(most, 64)


def bounds(length, parts):
    """From where to where each part goes that has anything."""
    for p in range(parts):
        low, high = p * length // parts, (p + 1) * length // parts
        if low < high:
            yield low, high


def shortened(token):
    """The beginning of a token in few bytes, of the same meaning whatever follows: it may be longer than any document."""
    if b"x" in token or b"-" in token[1:]:
        return b"x"
    sign = token[: token.startswith(b"-")]
    digits = token[len(sign) :]
    return sign + digits[: digits.startswith(b"0")] + digits.lstrip(b"0")[:40]


def pieces(file, size, name):
    """The parts of a text, cut between its tokens."""
    rest = b""
    while True:
        try:
            block = file.read(size)
        except OSError as error:
            raise own(f"{name}: {error.strerror}") from None
        if not block:
            break
        block = rest + block.translate(MEANT)
        end = 1 + block.rfind(b" ")
        if end:
            yield block[:end]
        rest = block[end:] if end else shortened(block)
        # (whatever follows, the text refuses there: it may have no end)
        if b"x" in rest:
            break
    if rest:
        yield rest


def of_text(file, length, cut, name="text"):
    """The parts of a text in a file; no length is given of what can only be read to its end."""
    # (a number has a byte at least, and a space)
    parts = cut.parts(length // 2, MOST_OF_TEXT // 2)
    for piece in pieces(file, min(MOST_OF_TEXT, -(-length // parts)) or MOST_OF_TEXT, name):
        yield {"text": piece.decode()}, piece.count(b" "), None


def of_list(source, cut):
    """The parts of a list; the last of them has its refusal."""
    items, refuses = source["list"], {"refuse": source["refuse"]} if "refuse" in source else {}
    last = len(items)
    for low, high in bounds(last, cut.parts(last, min(cut.elements, MOST_OF_LIST))):
        yield {"list": items[low:high]} | (refuses if high == last else {}), high - low, None if refuses and high == last else high - low
    if refuses and not items:
        yield source, 0, None


def of_range(source, cut):
    """The parts of a range."""
    start, count = source["range"]
    for low, high in bounds(count, cut.parts(count, cut.elements)):
        yield {"range": [start + low, high - low]}, high - low, high - low


def of_repeat(source, cut):
    """The parts of a repeated value."""
    value, count = source["repeat"]
    for low, high in bounds(count, cut.parts(count, cut.elements)):
        yield {"repeat": [value, high - low]}, high - low, high - low


def parts_of(source, cut):
    """The parts of a source in its order, each with its size, and its length if that is known and it ends well."""
    if "concat" in source:
        for it in source["concat"]:
            yield from parts_of(it, cut)
    elif "text" in source:
        text = source["text"].encode()
        yield from of_text(io.BytesIO(text), len(text), cut)
    else:
        for name, of_kind in (("list", of_list), ("range", of_range), ("repeat", of_repeat)):
            if name in source:
                yield from of_kind(source, cut)


def refuse_unknown(source):
    """Refuses a source that can't be cut here: a later `plinq` may have others."""
    known = {"list", "refuse", "range", "repeat", "text", "concat"}
    for it in [source, *source.get("concat", [])]:
        if not set(it) <= known:
            raise own(f"source {' '.join(it)}: not known here")


def shards(parts):
    """The shards of these parts."""
    for at, (source, size, length) in enumerate(parts):
        yield Shard(at, source, size, length)
