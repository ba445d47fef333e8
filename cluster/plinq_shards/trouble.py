"""What ends a command without an answer."""


class Trouble(Exception):
    """One line for standard error, and the status to end with."""

    def __init__(self, line, status=5):
        super().__init__(line)
        self.line, self.status = line, status


def own(line):
    """Trouble of this command's own, in the place of a line that `plinq` printed. It is one line, also if a name in it has more."""
    return Trouble("plinq-cluster: " + line.replace("\n", r"\n"))


def reason(error, unsaid=None):
    """Why there was an error: what the system said, if that is what it came from, else these words, or what the error says."""
    at = error
    while at is not None:
        if isinstance(at, OSError) and at.strerror:
            return at.strerror
        at = at.__cause__ or at.__context__
    return unsaid or " ".join(str(error).split()) or type(error).__name__
