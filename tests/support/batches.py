"""The lines of an answer: its items in batches, and how it ended."""


def in_batches(option, items, ending):
    """The batches of an answer with these items, by its merge option."""
    if option == "full":
        return [items] if items and ending == "end" else []
    size = 1 if option == "not" else 16
    return [items[at : at + size] for at in range(0, len(items), size)]


def batches_in(output):
    """The batches that were printed, and the last line."""
    *lines, last = output.decode().splitlines() or [""]
    return [[int(it) for it in line.split(" ")] for line in lines], last
