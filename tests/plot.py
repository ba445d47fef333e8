#!/usr/bin/env python3
"""Tests bench/plot.py on tables of its own, and compares bench/speed.svg with what it draws from bench/speed.txt.

    python3 tests/plot.py
"""
import os
import subprocess
import sys
import tempfile
import xml.etree.ElementTree as tree

from support.program import HANGS, ROOT, Tests

TABLE = """| workload | workers | plinq: seconds | to its loop | user | system | rust: seconds | to its loop | user | system |
|---|---|---|---|---|---|---|---|---|---|
| `cheap` | 1 | 0.07 | 0.50 | 0.10 | 0.00 | 0.09 | 0.40 | 0.10 | 0.00 |
| `heavy` | 1 | 0.80 | 1.00 | 0.90 | 0.00 | 0.81 | 0.99 | 0.90 | 0.00 |
| `heavy` | 4 | 0.20 | 4.00 | 0.90 | 0.00 | 0.40 | 2.00 | 0.90 | 0.00 |
"""
TEXT = f"With nothing beside it:\n\n{TABLE}\nAll else took 0.0 cores meanwhile.\n\nBeside 4 processes that burn a core:\n\n{TABLE}"


def drawn(text, *words):
    with tempfile.NamedTemporaryFile("w", suffix=".txt") as file:
        file.write(text)
        file.flush()
        words = [sys.executable, os.path.join(ROOT, "bench", "plot.py"), file.name, *words]
        ran = subprocess.run(words, capture_output=True, text=True, timeout=HANGS)
    return ran.returncode, ran.stdout, ran.stderr


def main():
    tests = Tests()
    status, output, errors = drawn(TEXT)
    tests.check("it draws", status == 0 and output.startswith("<svg "), (status, errors))
    root = tree.fromstring(output)
    points = [it.attrib["points"] for it in root.iter("{http://www.w3.org/2000/svg}polyline")]
    # (a panel is 300 wide and 200 high, its lower left corner at 40, 240 and at 390, 240, and the greatest ratio is 4)
    wanted = ["40.0,190.0 340.0,40.0", "40.0,190.5 340.0,140.0", "390.0,190.0 690.0,40.0", "390.0,190.5 690.0,140.0"]
    tests.check("a line for each program in each panel, at its ratios", points == wanted, points)
    texts = [it.text for it in root.iter("{http://www.w3.org/2000/svg}text")]
    titles = ["With nothing beside it", "Beside 4 processes that burn a core", "plinq", "rust"]
    tests.check("with titles and names", all(it in texts for it in titles), texts)
    tests.check("of a workload that has no rows it says so", drawn(TEXT, "ramp")[0] == 1, drawn(TEXT, "ramp"))
    renamed = drawn(TEXT.replace("`heavy`", "`ramp`"), "ramp")
    tests.check("of another workload it draws the rows", renamed == (status, output, errors), renamed)

    stored = os.path.join(ROOT, "bench", "speed.txt")
    plot = os.path.join(ROOT, "bench", "speed.svg")
    tests.check("speed.txt and speed.svg come together", os.path.exists(stored) == os.path.exists(plot))
    if os.path.exists(stored):
        with open(stored, encoding="utf-8") as file, open(plot, encoding="utf-8") as kept:
            tests.check("bench/speed.svg is what bench/speed.txt gives", drawn(file.read())[1] == kept.read())
    tests.end()


if __name__ == "__main__":
    main()
