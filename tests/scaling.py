#!/usr/bin/env python3
"""Runs the recipes of docs/SCALING.md, by which several machines answer, or a shell's loop, and compares what they print.

    python3 tests/scaling.py

Those of a cluster want Dask (apt-get install python3-distributed), and those that call GNU parallel want it (apt-get install
parallel). They are counted as skipped where it isn't there; the plain loops are always run. In the place of other machines
stands this one, by a name for which parallel needs no ssh.
"""
import contextlib
import json
import os
import random
import re
import shutil
import socket
import subprocess
import tempfile

from support.program import HANGS, ROOT, Tests, build

# Debian's own python3, which has Debian's Dask.
SYSTEM = "/usr/bin/python3"
NUMBERS = range(100_000)
ANSWER = [3 * it for it in NUMBERS if it % 2 == 0]
SUM = 7_499_850_000
QUERY = [["as_ordered"], ["filter", "even"], ["select", "mul", 3], ["with_merge", "not"]]


def recipes():
    """The indented blocks of the page, each under the heading of its section."""
    with open(os.path.join(ROOT, "docs", "SCALING.md"), encoding="utf-8") as file:
        page = file.read()
    for section in page.lstrip("# ").split("\n## "):
        heading = section.split("\n", 1)[0]
        for block in re.findall(r"(?:^    .*\n|^\n(?=    ))+", section, re.M):
            yield heading, "".join(line[4:] or "\n" for line in block.splitlines(True)).strip("\n")


def free_port():
    """A port that is free, below those that the kernel gives to whoever asks for any, as other tests do meanwhile."""
    with open("/proc/sys/net/ipv4/ip_local_port_range", encoding="utf-8") as file:
        least = int(file.read().split()[0])
    while True:
        port = random.randrange(least // 2, least)
        with contextlib.suppress(OSError), socket.create_server(("127.0.0.1", port)):
            return port


def on_this_machine(recipe):
    """The commands of a cluster, of which all but the last go on, at a port that is free."""
    recipe = re.sub(r"(?m)^(dask .*)", r"\1 2> /dev/null &", recipe).replace("8786", str(free_port())).replace("node0", "127.0.0.1")
    return f"trap 'kill $(jobs -p); wait' EXIT\n{recipe}"


def wants(recipe):
    """What a recipe wants that isn't installed."""
    if recipe.startswith("parallel ") and not shutil.which("parallel"):
        return "parallel"
    if recipe.startswith(("dask ", "cluster/")):
        has_dask = os.path.exists(SYSTEM) and subprocess.run([SYSTEM, "-c", "import distributed"], capture_output=True).returncode == 0
        return None if has_dask else "python3-distributed"
    return None


def run(recipe, folder):
    env = os.environ | {"PATH": f"{ROOT}:{os.environ['PATH']}", "HOME": folder}
    recipe = recipe.replace("--sshlogin node1,node2", "--sshlogin :")
    if recipe.startswith("dask "):
        recipe = on_this_machine(recipe)
    ran = subprocess.run(["bash", "-euo", "pipefail", "-c", recipe], cwd=folder, env=env, capture_output=True, text=True, timeout=HANGS)
    return ran.returncode, ran.stdout, ran.stderr


def main():
    build()
    tests = Tests()
    skipped = []
    lines = "".join(f"{it}\n" for it in ANSWER)
    # (what each recipe prints, in the order of the page)
    of_cluster = f"{lines}end\n"
    prints = [of_cluster, of_cluster, "", lines + lines, lines, f"{SUM}\n"]
    with tempfile.TemporaryDirectory() as folder:
        with open(f"{folder}/numbers.txt", "w") as file:
            file.writelines(f"{it}\n" for it in NUMBERS)
        with open(f"{folder}/document.json", "w") as file:
            json.dump({"version": 1, "source": {"range": [0, len(NUMBERS)]}, "query": QUERY}, file)
        os.symlink(f"{ROOT}/cluster", f"{folder}/cluster")
        found = list(recipes())
        tests.check("the page has its recipes", len(found) == len(prints), found)
        for (heading, recipe), wanted in zip(found, prints):
            if wants(recipe):
                skipped.append(wants(recipe))
                continue
            status, output, errors = run(recipe, folder)
            is_so = (status, output) == (0, wanted)
            tests.check(f"{heading}: {recipe.splitlines()[0]}", is_so, (status, output[:200], errors[-500:]))

        # what the page says of the operators and of a shard that fails
        first = '{"version":1,"source":{"range":[%d,2]},"query":[["as_ordered"],["%s",1]]}'
        for operator, whole in (("take", [0]), ("skip", [1, 2, 3])):
            shards = [run(f"echo '{first % (start, operator)}' | plinq run --plain --merge not", folder)[1] for start in (0, 2)]
            seen = [int(it) for it in "".join(shards).split()]
            tests.check(f"shards of {operator} are not the whole answer", seen != whole, seen)
        with open(f"{folder}/bad", "w") as file:
            file.write("2\n4\nx\n6\n")
        seen = run("./shard < bad", folder)
        tests.check("a shard that fails has plinq's status, and its lines so far", seen[:2] == (3, "6\n12\n"), seen)
    if skipped:
        print(f"skipped {len(skipped)} recipes: not installed: {' '.join(sorted(set(skipped)))}")
    tests.end()


if __name__ == "__main__":
    main()
