#!/usr/bin/env python3
"""Words of the command line: what is shown of refused ones, the texts of help, and what is accepted.

    python3 tests/words.py
"""
import os
import re
import subprocess

from support.program import EXAMPLES, HANGS, ROOT, Outcome, Tests, build, run

MORE = "\nFor more information, try '--help'.\n"
USAGE = "\nUsage: plinq <COMMAND> [OPTIONS] < DOCUMENT\n" + MORE
OPTIONS = "\nUsage: plinq run [OPTIONS] < DOCUMENT\n" + MORE

REFUSED = {
    "": "error: 'plinq' requires a subcommand but one was not provided\n  [subcommands: run, seq, plan, parts, history]\n" + USAGE,
    "walk": "error: unrecognized subcommand 'walk'\n" + USAGE,
    "help": "error: unrecognized subcommand 'help'\n" + USAGE,
    "RUN": "error: unrecognized subcommand 'RUN'\n" + USAGE,
    "ru": "error: unrecognized subcommand 'ru'\n\n  tip: a similar subcommand exists: 'run'\n" + USAGE,
    "--workers 2 run": "error: unexpected argument '--workers' found\n\n  tip: 'run --workers' exists\n" + USAGE,
    "--merge not run": "error: unexpected argument '--merge' found\n\n  tip: 'run --merge' exists\n" + USAGE,
    "run document.json": "error: unexpected argument 'document.json' found\n" + OPTIONS,
    "run more": "error: unexpected argument 'more' found\n" + OPTIONS,
    "run seq": "error: unexpected argument 'seq' found\n" + OPTIONS,
    "run --version": "error: unexpected argument '--version' found\n" + OPTIONS,
    "run -w 2": "error: unexpected argument '-w' found\n" + OPTIONS,
    "run --workers 1 --workers 2": "error: the argument '--workers <N>' cannot be used multiple times\n" + OPTIONS,
    "run --workers": "error: a value is required for '--workers <N>' but none was supplied\n" + MORE,
    "run --workers 0": "error: invalid value '0' for '--workers <N>': 0 is not in 1..=64\n" + MORE,
    "run --workers 65": "error: invalid value '65' for '--workers <N>': 65 is not in 1..=64\n" + MORE,
    "run --workers -1": "error: unexpected argument '-1' found\n" + OPTIONS,
    "run --workers=-1": "error: invalid value '-1' for '--workers <N>': invalid digit found in string\n" + MORE,
    "run --workers Auto": "error: invalid value 'Auto' for '--workers <N>': invalid digit found in string\n" + MORE,
    "run --workers=": "error: invalid value '' for '--workers <N>': cannot parse integer from empty string\n" + MORE,
    "run --workers 2 --workers auto": "error: the argument '--workers <N>' cannot be used multiple times\n" + OPTIONS,
    "run --workers auto --workers auto": "error: the argument '--workers <N>' cannot be used multiple times\n" + OPTIONS,
    "run --workers auto --merge some": "error: invalid value 'some' for '--merge <OPTION>'\n  [possible values: not, auto, full, default]\n" + MORE,
    "run --plain --plain": "error: the argument '--plain' cannot be used multiple times\n" + OPTIONS,
    "run --plain=yes": "error: unexpected value 'yes' for '--plain' found; no more were expected\n" + OPTIONS,
    "plan --plain": "error: unexpected argument '--plain' found\n\nUsage: plinq plan [OPTIONS] < DOCUMENT\n" + MORE,
    "history --plain": "error: unexpected argument '--plain' found\n\nUsage: plinq history [OPTIONS] < DOCUMENT\n" + MORE,
    "run --workers x": "error: invalid value 'x' for '--workers <N>': invalid digit found in string\n" + MORE,
    "run --cancel-after -1": "error: unexpected argument '-1' found\n" + OPTIONS,
    "run --cancel-after=-1": "error: invalid value '-1' for '--cancel-after <N>': invalid digit found in string\n" + MORE,
    "run --cancel-after 4294967296": "error: invalid value '4294967296' for '--cancel-after <N>': 4294967296 is not in 0..=4294967295\n" + MORE,
    "run --cancel-after": "error: a value is required for '--cancel-after <N>' but none was supplied\n" + MORE,
    "seq --cancel-after 1": "error: unexpected argument '--cancel-after' found\n\nUsage: plinq seq [OPTIONS] < DOCUMENT\n" + MORE,
    "seq --merge some": "error: invalid value 'some' for '--merge <OPTION>'\n  [possible values: not, auto, full, default]\n" + MORE,
    "run --merge some": "error: invalid value 'some' for '--merge <OPTION>'\n  [possible values: not, auto, full, default]\n" + MORE,
}

ABOUT = ("run", "seq", "plan", "parts", "history", "lines")


def help_of(name):
    """What help is to print: a file of share/help, which ./plinq shows as well where no program is built."""
    with open(f"{ROOT}/share/help/{name}", encoding="utf-8") as file:
        return file.read()


HELP = help_of("plinq")
RUN_HELP = help_of("run")


def with_open_input(words):
    """How a run ends whose input stays open and empty, or None where it waits for that."""
    reading, writing = os.pipe()
    try:
        return run(words, stdin=reading)
    except subprocess.TimeoutExpired:
        return None
    finally:
        os.close(reading)
        os.close(writing)


def main():
    build()
    tests = Tests()

    def ends(words, wanted, given=b""):
        seen = run(words, given)
        tests.check(f"plinq {' '.join(map(str, words))}", seen == wanted, f"wanted {wanted}; seen {seen}")

    for words, text in REFUSED.items():
        ends(words.split(), Outcome(2, b"", text.encode()))
    no_text = Outcome(2, b"", b"error: invalid UTF-8 was detected in one or more arguments\n")
    for words in ([b"\xff"], ["run", "--merge", b"\xff"]):
        ends(words, no_text)
    for word in ("--help", "-h"):
        ends([word], Outcome(0, HELP.encode(), b""))
        for command in ABOUT:
            ends([command, word], Outcome(0, help_of(command).encode(), b""))
    ends(["run", "--workers", "2", "--help"], Outcome(0, RUN_HELP.encode(), b""))
    with open(os.path.join(ROOT, "CHANGES.md"), encoding="utf-8") as file:
        number = re.search(r"^## ([\d.]+), ", file.read(), re.M)[1]
    for word in ("--version", "-V"):
        ends([word], Outcome(0, f"plinq {number}\n".encode(), b""))
    tests.check("the version that ./plinq shows where no program is built", help_of("version") == f"plinq {number}\n", help_of("version"))

    # (neither reads the input first)
    for words in ([], ["walk"], ["run", "--workers", "0"], ["seq", "more"]):
        seen = with_open_input(words)
        tests.check(f"plinq {' '.join(words)}, with an open input", seen is not None and (seen.status, seen.output) == (2, b""), seen)
    for words in (["--help"], ["run", "--help"]):
        seen = with_open_input(words)
        tests.check(f"plinq {' '.join(words)}, with an open input", seen is not None and (seen.status, seen.errors) == (0, b""), seen)

    # (the command as it stands in help, with ./plinq for plinq)
    example = next(line for line in HELP.splitlines() if line.startswith("  echo "))
    ran = subprocess.run(["bash", "-c", example], env=os.environ | {"PATH": f"{ROOT}:{os.environ['PATH']}"}, capture_output=True, timeout=HANGS)
    seen = Outcome(ran.returncode, ran.stdout, ran.stderr)
    tests.check("the example of help prints what help says", seen == Outcome(0, b"4\n2\n5\nend\n", b""), seen)

    with open(os.path.join(EXAMPLES, "add-one.json"), "rb") as file:
        document = file.read()
    for words in (["--merge", "full"], ["--merge=full"], ["--workers", "64", "--merge", "full"], ["--merge", "full", "--workers=1"]):
        ends(["run", *words], Outcome(0, b"4 2 5\nend\n", b""), document)
    tests.end()


if __name__ == "__main__":
    main()
