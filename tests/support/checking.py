"""share/plinq-check as a module, in a Python that has jsonschema."""
import importlib.machinery
import importlib.util
import os
import subprocess
import sys

from support.program import ROOT

SHARE = os.path.join(ROOT, "share")
CHECK = os.path.join(SHARE, "plinq-check")
DEBIAN = "/usr/bin/python3"


def has_jsonschema(python):
    return os.access(python, os.X_OK) and subprocess.run([python, "-c", "import jsonschema"], stderr=subprocess.DEVNULL).returncode == 0


def checker():
    """The module. Where Debian's python3 has jsonschema and this isn't that one, the test begins anew in it."""
    if os.path.realpath(sys.executable) != os.path.realpath(DEBIAN) and has_jsonschema(DEBIAN):
        os.execv(DEBIAN, [DEBIAN, *sys.argv])
    if not has_jsonschema(sys.executable):
        print(f"FAILED: {sys.argv[0]} wants Python's jsonschema (apt-get install python3-jsonschema)\n0 passed, 1 failed")
        sys.exit(1)
    return module(CHECK)


def module(path):
    """A file of Python as a module, whatever its name."""
    loader = importlib.machinery.SourceFileLoader(os.path.basename(path).replace("-", "_"), path)
    made = importlib.util.module_from_spec(importlib.util.spec_from_loader(loader.name, loader))
    loader.exec_module(made)
    return made
