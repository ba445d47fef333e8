"""What the tests of the built program share: the program itself, never a stale one, and the count of what passed."""
import os
import subprocess
import sys
import tempfile

ROOT = os.path.dirname(os.path.dirname(os.path.dirname(os.path.abspath(__file__))))
EXAMPLES = os.path.join(ROOT, "examples")
PLINQ = os.path.join(ROOT, "plinq")
PROGRAM = os.path.join(ROOT, "crates", "plinq", "out", "plinq")

# No run of these tests takes longer than seconds: a run that takes this long hangs.
HANGS = 300


class Outcome:
    """How a run ended: its status, and the bytes on standard output and standard error."""

    def __init__(self, status, output, errors):
        self.status, self.output, self.errors = status, output, errors

    def __eq__(self, other):
        return (self.status, self.output, self.errors) == (other.status, other.output, other.errors)

    def __str__(self):
        def short(text):
            return repr(text) if len(text) <= 120 else f"{text[:40]!r} .. {text[-40:]!r} ({len(text)} bytes)"

        return f"status {self.status}, output {short(self.output)}, errors {short(self.errors)}"


class Tests:
    """Counts what passed and what failed, and says at once what failed."""

    def __init__(self):
        self.passed = self.failed = 0

    def check(self, name, is_so, seen=""):
        if is_so:
            self.passed += 1
        else:
            self.failed += 1
            print(f"FAILED: {name}: {seen}", flush=True)

    def end(self):
        """Ends the test with the line that ./test reads."""
        print(f"{self.passed} passed, {self.failed} failed", flush=True)
        sys.exit(1 if self.failed or not self.passed else 0)


def build():
    """Brings the program up to date with the very sources that are there."""
    if subprocess.run([os.path.join(ROOT, "tools", "build")], stdin=subprocess.DEVNULL).returncode:
        print("0 passed, 1 failed")
        sys.exit(1)


def run(words, given=b"", program=PLINQ, **how):
    """Runs the program on these words and this input."""
    streams = {"stdout": subprocess.PIPE, "stderr": subprocess.PIPE} | how
    if "stdin" not in streams:
        streams["input"] = given
    ran = subprocess.run([program, *words], timeout=HANGS, **streams)
    return Outcome(ran.returncode, ran.stdout, ran.stderr)


def run_on_file(words, given, **how):
    """The same with a file as input, of which a read gives as much as is asked for; a pipe gives little at a time."""
    with tempfile.TemporaryFile() as file:
        file.write(given)
        file.seek(0)
        return run(words, stdin=file, **how)


def shared_library(source, folder):
    """Compiles some lines of C to a library that can be loaded before the C library, or ends the test where nothing can."""
    made = os.path.join(folder, os.path.basename(source).replace(".c", ".so"))
    words = ["-O2", "-Wall", "-shared", "-fPIC", "-o", made, os.path.join(ROOT, "tests", "support", source), "-ldl"]
    try:
        status = subprocess.run([os.environ.get("CC", "cc"), *words]).returncode
    except FileNotFoundError:
        status = None
    if status != 0:
        print(f"FAILED: tests/support/{source} wasn't compiled: this test wants a C compiler, cc (apt-get install gcc libc6-dev)")
        print("0 passed, 1 failed")
        sys.exit(1)
    return made
