#!/usr/bin/env python3
"""Compares the man page and the completions of share/ with what the program's help shows.

    python3 tests/shell.py
"""
import os
import re
import shutil
import subprocess

from support.checking import module
from support.program import HANGS, ROOT, Tests, build, run

SHARE = os.path.join(ROOT, "share")


def described(text, heading):
    """The names and descriptions of a section of help."""
    section = text.split(f"\n{heading}:\n", 1)[1].split("\n\n", 1)[0]
    return {name: about for name, about in re.findall(r"^ {2,}(?:-\w, )?(\S+).*?  +(\S.*)$", section, re.M)}


def completed(*words):
    """What bash completes the last of these words to."""
    line = f'source "$0"; COMP_WORDS=("$@"); COMP_CWORD=$(($# - 1)); _plinq; printf "%s\\n" "${{COMPREPLY[@]}}"'
    ran = subprocess.run(["bash", "-c", line, f"{SHARE}/plinq.bash", *words], capture_output=True, text=True, timeout=HANGS)
    return ran.stdout.split()


def mandoc(path):
    """What mandoc finds at fault in a man page."""
    if not shutil.which("mandoc"):
        return "this test wants mandoc (apt-get install mandoc)"
    ran = subprocess.run(["mandoc", "-T", "lint", path], capture_output=True, text=True, timeout=HANGS)
    return ran.stdout + ran.stderr


def main():
    build()
    tests = Tests()
    commands = described(run(["--help"]).output.decode(), "Commands")
    text = run(["run", "--help"]).output.decode()
    options = described(text, "Options")
    # (those of the program, and with a command)
    all_options = options | described(run(["--help"]).output.decode(), "Options")
    tests.check("the program has a version", set(all_options) - set(options) == {"--version"}, all_options)
    merge_words = re.search(r"\[possible values: (.*)\]", text)[1].split(", ")
    status_lines = re.findall(r"^  (\d)  (.*)$", run(["--help"]).output.decode(), re.M)
    tests.check("help has commands, options, words and statuses", (len(commands), set(options), len(merge_words), len(status_lines)) == (5, {"--workers", "--merge", "--plain", "--cancel-after", "--help"}, 4, 5), (commands, options, merge_words, status_lines))
    for command in commands:
        without = {"run": set(), "seq": {"--cancel-after"}}.get(command, {"--cancel-after", "--plain"})
        wanted = {name: about for name, about in options.items() if name not in without}
        tests.check(f"{command} has the same options", described(run([command, "--help"]).output.decode(), "Options") == wanted)

    files = {}
    for name in ("plinq.1", "plinq.bash", "plinq.fish", "_plinq"):
        with open(f"{SHARE}/{name}", encoding="utf-8") as file:
            files[name] = file.read()
    # (without the ends of lines within a text)
    page = re.sub(r"(?<=\n)((?![.\n]).+)\n(?=(?![.\n]).)", r"\1 ", files["plinq.1"].replace("\\-", "-"))
    sections = dict(re.findall(r"^\.SH (.*)\n((?:(?!\.SH).*\n)*)", page, re.M))
    tests.check("the man page has the commands", re.findall(r"^\.TP\n\.B (\w+)$", sections["COMMANDS"], re.M) == list(commands), sections["COMMANDS"])
    for name, about in commands.items():
        tests.check(f"and what {name} does", f".B {name}\n{about}." in sections["COMMANDS"])
    tests.check("and what --workers is for", f"{options['--workers']}." in sections["OPTIONS"], sections["OPTIONS"])
    tests.check("the man page has the options", set(re.findall(r"--\w[\w-]*", sections["OPTIONS"])) == set(all_options), sections["OPTIONS"])
    tests.check("and the words of --merge", re.findall(r"^\.B(?:R)? (\w+)(?: \.)?$", sections["OPTIONS"].split("--merge")[1].split(".TP")[0], re.M)[:4] == merge_words, sections["OPTIONS"])
    wanted = [(status, f"{about[0].upper()}{about[1:]}.") for status, about in status_lines]
    tests.check("the man page has the statuses", re.findall(r"^\.TP\n\.B (\d)\n(.*)$", sections["EXIT STATUS"], re.M) == wanted, sections["EXIT STATUS"])

    with open(f"{ROOT}/examples/README.md", encoding="utf-8") as file:
        made = module(f"{ROOT}/tools/man").page_of(files["plinq.1"], file.read())
    tests.check("the man page's section DOCUMENT is what tools/man makes of examples/README.md", made == files["plinq.1"])
    headings = re.findall(r"^\.SS (.*)$", sections["DOCUMENT"], re.M)
    tests.check("it has a table of each kind", headings == ["Names", "Sources", "Steps", "Formulas", "Merge options", "Aggregates"], headings)
    lines = [it.strip() for it in run(["--help"]).output.decode().splitlines()]
    for about in ("not JSON", "wrong shape", "step K: unknown", "refused 1", "refused 2"):
        told = next(it for it in lines if it.startswith(f"{about}  "))[len(about) :].strip()
        tests.check(f"the man page explains {about} as help does", f"{about}\n{told}.".lower() in page.lower().replace("\nit is ", "\n"), told)
    for name in ("plinq.1", "plinq-check.1", "plinq-explain.1"):
        tests.check(f"{name} has no fault", mandoc(f"{SHARE}/{name}") == "", mandoc(f"{SHARE}/{name}"))

    # (the words of `lines` are its own, and so are its help and its section)
    about_lines = run(["lines", "--help"]).output.decode()
    every = commands | {"lines": about_lines.partition("\n")[0]}
    steps = re.findall(r"^  (\S.*?)(?:   (.*))?\n((?:           .*\n)*)", about_lines.partition("parted by bars:\n")[2].partition("A TEXT stands")[0], re.M)
    names = [words.split()[0] for words, _, _ in steps]
    tests.check("help has the steps of lines", names == "filter filter filter select take skip take_while skip_while distinct count count sum".split(), steps)
    plain = re.sub(r"\\f[BIR]", "", sections["LINES"])
    for words, about, more in steps:
        told = " ".join(f"{words} {about} {more}".split())
        tests.check(f"the man page has {words} of lines as help does", f".TP\n{told}\n" in plain, plain)
    tests.check("bash completes the commands", completed("plinq", "") == [*every, "--help", "--version"], completed("plinq", ""))
    tests.check("bash completes the options of lines", completed("plinq", "lines", "--") == ["--workers", "--help"], completed("plinq", "lines", "--"))
    tests.check("bash completes the options", set(completed("plinq", "run", "--")) == set(options), completed("plinq", "run", "--"))
    tests.check("bash completes an option that was begun", completed("plinq", "seq", "--m") == ["--merge"], completed("plinq", "seq", "--m"))
    tests.check("bash completes the words of --merge", completed("plinq", "run", "--merge", "") == merge_words)
    tests.check("bash completes the word for a number of workers", completed("plinq", "run", "--workers", "") == ["auto"])
    tests.check("bash completes no number of batches", completed("plinq", "run", "--cancel-after", "") == [])
    tests.check("bash completes no cancellation of seq", "--cancel-after" not in completed("plinq", "seq", "--"), completed("plinq", "seq", "--"))
    tests.check("bash completes no plain plan", "--plain" not in completed("plinq", "plan", "--"), completed("plinq", "plan", "--"))

    fish = files["plinq.fish"]
    tests.check("fish has the commands", dict(re.findall(r"use_subcommand -a (\w+) -d '(.*)'", fish)) == every, fish)
    tests.check("fish has the options", {f"--{it}" for it in re.findall(r"-l ([\w-]+)", fish)} == set(all_options), fish)
    by_word = dict(re.findall(r"-l merge -x -a (\w+) -d '(.*)'", fish))
    tests.check("fish has the words of --merge", list(by_word) == merge_words, fish)
    tests.check("and says what each is for, as help does", all(re.search(rf"^  {it} +{re.escape(about)}$", text, re.M) for it, about in by_word.items()), by_word)
    zsh = files["_plinq"]
    tests.check("zsh has the commands", dict(re.findall(r'(\w+)\\:"(.*?)"', zsh)) == every, zsh)
    tests.check("zsh has the options", set(re.findall(r"--\w[\w-]*(?=[=}']?[\[}])", zsh)) == set(all_options), zsh)
    tests.check("zsh has the words of --merge", re.findall(r"OPTION:\((.*?)\)", zsh) == [" ".join(merge_words)], zsh)
    tests.end()


if __name__ == "__main__":
    main()
