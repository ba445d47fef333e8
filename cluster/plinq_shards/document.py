"""Reads a document, and has `plinq` refuse what it refuses."""
import dataclasses
import json
import os
import shutil
import subprocess

from . import shard, slicing
from .trouble import Trouble, own

LONGEST = 16_777_216
# Steps that move no element: which element comes before which is the source's order here.
SETTINGS = ("as_ordered", "as_unordered", "with_merge", "with_degree")


@dataclasses.dataclass(frozen=True)
class Document:
    """What is to be answered: a source as it stands in the document, operators in their order, and how the answer is shown."""

    source: dict
    steps: list
    merge: str
    degree: int
    aggregate: str


def read():
    """All of standard input, or as much as shows that it is too long."""
    try:
        with open(0, "rb", closefd=False) as file:
            return file.read(LONGEST + 1)
    except OSError:
        raise Trouble("plinq: read failed") from None


def with_empty_text(text):
    """The document with an empty text for its source: of a name that is given twice the last one counts."""
    body = text.rstrip(b" \t\r\n")
    if not body.endswith(b"}"):
        return text
    body = body[:-1]
    comma = b"" if body.strip(b" \t\r\n") == b"{" else b","
    return body + comma + b'"source":{"text":""}}'


def judged(program, text, workers, merge):
    """The lines of `plinq plan`, which reads the document as `plinq run` does. What it refuses is refused here."""
    words = [program, "plan"]
    words += ["--workers", str(workers)] if workers else []
    words += ["--merge", merge] if merge else []
    try:
        ran = subprocess.run(words, input=text, capture_output=True)
    except OSError as error:
        raise own(f"{program}: {error.strerror}") from None
    said = ran.stderr.decode("utf-8", "replace").rstrip("\n")
    if ran.returncode and said.startswith("plinq: "):
        raise Trouble(said, ran.returncode)
    lines = ran.stdout.decode("utf-8", "replace").splitlines()
    if ran.returncode or not any(it.startswith("merge ") for it in lines):
        raise own(f"{program} printed no plan (status {ran.returncode}): is it plinq?")
    return lines


def understood(program, text, workers=None, merge=None):
    """The document of these bytes."""
    lines = judged(program, text, workers, merge)
    value = json.loads(text.decode())
    steps = value["query"]
    operators = [it for it in steps if it[0] not in SETTINGS]
    shard.refuse_unknown(value["source"])
    slicing.refuse_unknown(operators)
    asked = next((it[1] for it in steps if it[0] == "with_degree"), workers)
    return Document(
        source=value["source"],
        steps=operators,
        merge=next(it[len("merge ") :] for it in lines if it.startswith("merge ")),
        # (one of each worker's threads has a shard, so a shard has one thread if nothing else is asked for)
        degree=asked or 1,
        aggregate=value.get("aggregate"),
    )


def found(program):
    """The program's name, by which each machine finds its own, and its path on this one."""
    program = os.fspath(program)
    name = os.path.abspath(program) if "/" in program else program
    path = shutil.which(name)
    if path is None and "/" in program and os.path.exists(name):
        raise own(f"{program} is no file that may be run: --program (in Python, program=) names another")
    if path is None:
        raise own(f"{program} isn't there: ./plinq --build makes one, and --program (in Python, program=) names another")
    return name, path
