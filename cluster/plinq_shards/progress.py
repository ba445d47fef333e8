"""Shows on a terminal how far a cluster is, and shows nothing elsewhere."""
import os
import time

EVERY = 0.25


class Progress:
    """A line on a terminal that changes: shards that are done, elements a second, workers that were lost."""

    def __init__(self, stream, dashboard=None):
        self.stream, self.dashboard = stream, dashboard
        self.is_shown = stream is not None and stream.isatty()
        self.began = self.shown = time.monotonic()
        self.shards = self.elements = self.lost = 0
        self.workers = set()
        self.is_open = False

    def has_workers(self, workers):
        """Counts those that were there before and aren't any more."""
        self.lost += len(self.workers - workers)
        self.workers = workers

    def is_done(self, shard):
        """Counts a shard whose part of the answer is there."""
        self.shards += 1
        self.elements += shard.size
        self.show()

    def line(self):
        """What the line says now."""
        seconds = max(time.monotonic() - self.began, 0.001)
        said = f"{self.shards} shards done, {self.elements / seconds:,.0f} elements a second, {len(self.workers)} workers"
        if self.lost:
            said += f", {self.lost} lost"
        return f"{said}, {self.dashboard}" if self.dashboard else said

    def show(self):
        """Shows the line, if there is a terminal and it hasn't just been shown."""
        now = time.monotonic()
        if not self.is_shown or now < self.shown + EVERY:
            return
        self.shown = now
        width = os.get_terminal_size(self.stream.fileno()).columns or 80
        self.stream.write(f"\r\x1b[K{self.line()[: width - 1]}")
        self.stream.flush()
        self.is_open = True

    def say(self, line):
        """Writes a line that stays."""
        if self.stream is not None:
            self.clear()
            self.stream.write(f"{line}\n")
            self.stream.flush()

    def clear(self):
        """Takes the line back, before anything else is written to the terminal."""
        if self.is_open:
            self.stream.write("\r\x1b[K")
            self.stream.flush()
            self.is_open = False
