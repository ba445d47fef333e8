#!/usr/bin/env python3
"""Types at bash, zsh and fish on a terminal, with the completions of share/ where an installation has them.

    python3 tests/completions.py

In the place of plinq stands a script that prints its words, and what it is given where that is no terminal.
"""
import contextlib
import os
import pty
import re
import select
import shutil
import signal
import subprocess
import tempfile
import time

from support.program import HANGS, ROOT, Tests

PLINQ = "#!/bin/sh\necho \"got: $*\"\n[ -t 0 ] || cat\n"
BASH_COMPLETION = "/usr/share/bash-completion/bash_completion"
# Each shell: the package that has it, the file that has to be there, how it is started, and what is typed first.
SHELLS = {
    "bash": ("bash-completion", BASH_COMPLETION, ["bash", "--norc", "--noprofile", "-i"], f". {BASH_COMPLETION}"),
    "bash alone": ("bash", "/bin/bash", ["bash", "--norc", "--noprofile", "-i"], '. "$HOME/.local/share/bash-completion/completions/plinq"'),
    "zsh": ("zsh", shutil.which("zsh"), ["zsh", "-f", "-i"], 'fpath=("$HOME/site-functions" $fpath); autoload -U compinit; compinit -u -D'),
    "fish": ("fish", shutil.which("fish"), ["fish", "-i"], "set -g fish_greeting; set -g fish_autosuggestion_enabled 0"),
}
PLACES = {"plinq.bash": ".local/share/bash-completion/completions/plinq", "_plinq": "site-functions/_plinq", "plinq.fish": ".config/fish/completions/plinq.fish"}

# What is typed, with a TAB in it, and what the program is then given.
COMPLETED = [
    ("plinq his\t", "got: history"),
    ("plinq --ver\t", "got: --version"),
    ("plinq ru\t--wor\t", "got: run --workers"),
    ("plinq run --workers a\t", "got: run --workers auto"),
    ("plinq seq --pl\t", "got: seq --plain"),
    ("plinq run --merge n\t", "got: run --merge not"),
    ("plinq run --merge=f\t", "got: run --merge=full"),
    ("plinq run --workers 2 --merge=d\t", "got: run --workers 2 --merge=default"),
    ("plinq run < docu\t", "got: run\nthe document"),
    ("plinq run <docu\t", "got: run\nthe document"),
    ("plinq run --merge=not < docu\t", "got: run --merge=not\nthe document"),
    ("plinq run < document.json --merge n\t", "got: run --merge not\nthe document"),
    ("plinq run <document.json --merge=n\t", "got: run --merge=not\nthe document"),
    ("plinq run > /dev/null < ../here/docu\t", ""),
    # Of lines alone a file is an argument, after its query.
    ("plinq lines take docu\t", "got: lines take document.json"),
    ("plinq lines --workers a\t", "got: lines --workers auto"),
    ("plinq run docu\t", "got: run docu"),
    ("plinq run --workers docu\t", "got: run --workers docu"),
]
# What is typed before a TAB (in bash two), the words that are shown beside one another, and those that aren't.
SHOWN = [
    ("plinq ", "run seq plan parts history lines", "--merge document.json"),
    ("plinq run --merge ", "not auto full default", "--workers document.json"),
    ("plinq run --merge=", "not auto full default", "--workers document.json"),
    ("plinq run --", "--workers --merge --plain --cancel-after --help", "document.json"),
    ("plinq seq --", "--workers --merge --plain --help", "--cancel-after document.json"),
    ("plinq history --", "--workers --merge --help", "--plain --cancel-after document.json"),
    ("plinq run < ", "document.json other.json", "--workers"),
    ("plinq run --merge=not < ", "document.json other.json", "--workers"),
    ("plinq seq < document.json > ", "other.json", "--workers"),
]


class Terminal:
    """A shell that is typed at."""

    def __init__(self, words, folder):
        env = {"HOME": folder, "PATH": f"{folder}/bin:{os.environ['PATH']}", "TERM": "xterm", "LC_ALL": "C.UTF-8", "COLUMNS": "200", "PS1": "$ "}
        self.typed, self.number = b"", 0
        self.pid, self.end = pty.fork()
        if self.pid == 0:
            os.chdir(f"{folder}/here")
            os.execvpe(words[0], words, env)
        subprocess.run(["stty", "columns", "200", "rows", "50"], stdin=self.end, check=True)

    def read(self, shown, is_all, seconds=HANGS):
        """What is shown, without the terminal's own signs, until it is all or the time is over."""
        until = time.time() + seconds
        while not is_all(plain(shown)) and time.time() < until:
            if select.select([self.end], [], [], 0.1)[0]:
                shown += os.read(self.end, 65_536)
        return shown

    def type(self, keys, words=()):
        """What is shown after these keys, with all of these words where they come. The next line says when it is all."""
        self.number += 1
        os.write(self.end, keys.encode())
        shown = self.read(b"", lambda text: all(it in text.replace(keys.strip(), "") for it in words), 60) if words else b""
        os.write(self.end, (b"\x15" if words else b"") + f"printf 'end-of-%s\\n' {self.number}\n".encode())
        return plain(self.read(shown, lambda text: f"\nend-of-{self.number}\n" in text))

    def leave(self):
        os.kill(self.pid, signal.SIGKILL)
        os.waitpid(self.pid, 0)
        os.close(self.end)


def plain(shown):
    text = re.sub(r"\x1b\][^\x07\x1b]*(\x07|\x1b\\)|\x1b\[[0-9;?>=]*[A-Za-z]|\x1b[()][AB0]|\x1b[=>]|[\x0e\x0f]", "", shown.decode(errors="replace"))
    return re.sub(r"\r+\n?", "\n", text)


def given(shown):
    """What the program printed."""
    return "\n".join(re.findall("^(?:got: .*|the document)$", shown, re.M)).rstrip()


def types(tests, name, terminal):
    for keys, wanted in COMPLETED:
        shown = terminal.type(keys + "\n")
        tests.check(f"{name}: {keys!r}", given(shown) == wanted, f"wanted {wanted!r}; shown {shown!r}")
    for keys, wanted, others in SHOWN:
        shown = terminal.type(keys + ("\t\t" if name.startswith("bash") else "\t"), wanted.split())
        text = shown.replace(keys.strip(), "").split("printf")[0]
        is_so = all(it in text for it in wanted.split()) and not any(it in text for it in others.split())
        tests.check(f"{name}: {keys!r} and TAB", is_so, f"wanted {wanted}; shown {shown!r}")


@contextlib.contextmanager
def installed():
    with tempfile.TemporaryDirectory() as folder:
        # (where the last of these isn't there, fish fills it from all man pages, beside the test and after its end)
        for it in ("here", "bin", ".local/share/fish/generated_completions"):
            os.makedirs(f"{folder}/{it}")
        with open(f"{folder}/bin/plinq", "w", encoding="utf-8") as file:
            file.write(PLINQ)
        os.chmod(f"{folder}/bin/plinq", 0o755)
        for it, text in (("document", "the document\n"), ("other", "another\n")):
            with open(f"{folder}/here/{it}.json", "w", encoding="utf-8") as file:
                file.write(text)
        for it, place in PLACES.items():
            os.makedirs(os.path.dirname(f"{folder}/{place}"))
            shutil.copy(f"{ROOT}/share/{it}", f"{folder}/{place}")
        yield folder


def main():
    tests = Tests()
    for name, (package, needed, words, first) in SHELLS.items():
        if not needed or not os.path.exists(needed):
            tests.check(name, False, f"this test wants {package} (apt-get install {package})")
            continue
        with installed() as folder:
            terminal = Terminal(words, folder)
            try:
                terminal.type(first + "\n")
                types(tests, name, terminal)
            finally:
                terminal.leave()
    tests.end()


if __name__ == "__main__":
    main()
