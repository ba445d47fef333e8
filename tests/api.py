#!/usr/bin/env python3
"""docs/api/ beside what tools/api makes of the sources: that each page is fresh, that each name which the library exports has an
entry with the whole contract of its source, and that the links lead where they say.

    python3 tests/api.py
"""
import os
import re
import shutil
import subprocess
import tempfile

from support.program import ROOT, Tests

FOLDER = os.path.join(ROOT, "docs", "api")


def text_of(*path):
    with open(os.path.join(ROOT, *path), encoding="utf-8") as file:
        return file.read()


def stale(root):
    """The status, and the pages that `tools/api --check` calls stale."""
    seen = subprocess.run([os.path.join(root, "tools", "api"), "--check"], capture_output=True, text=True)
    return seen.returncode, re.findall(r"docs/api/(\S+) is stale", seen.stdout)


def exported():
    """What the prelude and the crates beside it export, by crate, read by the words of their texts alone."""
    found = {}
    for crate, names in re.findall(r"pub use (plinq_\w+)::\{?([^;}]*)\}?;", text_of("crates", "plinq_prelude", "src", "lib.rt")):
        found[crate] = set(re.findall(r"\w+", names))
    for crate in ("plinq_groups", "plinq_mapped", "plinq_query", "plinq_sorted"):
        found[crate] = set(re.findall(r"(?m)^pub use \w+::(\w+);", text_of("crates", crate, "src", "lib.rt")))
        for names in re.findall(r"(?m)^pub use \w+::\{([^}]*)\};", text_of("crates", crate, "src", "lib.rt")):
            found[crate] |= set(re.findall(r"\w+", names))
    return found


def entries(tests):
    for crate, names in exported().items():
        page = text_of("docs", "api", f"{crate}.md")
        lacking = sorted(it for it in names if page.count(f"\n## `{it}`\n") != 1)
        tests.check(f"each name of {crate} has one entry", names and not lacking, lacking)


def contracts(tests):
    """The clauses of some functions, as they stand in the sources and in the pages."""
    for crate, module in (("plinq_collect", "telling"), ("plinq_collect", "collecting"), ("plinq_run", "running"), ("plinq_run", "cancelling"), ("plinq_run", "aggregating"), ("plinq_slice", "slice")):
        source = text_of("crates", crate, "src", f"{module}.rt")
        page = re.sub(r"\s+", " ", text_of("docs", "api", f"{crate}.md"))
        for function in re.findall(r"(?ms)^ *pub fn .*?^ *\{$", source):
            name = re.search(r"pub fn (\w+)", function)[1]
            clauses = re.findall(r"(?ms)^ *((?:requires|ensures)\b.*?)(?=^ *(?:requires|ensures)\b|\Z)", function.rstrip().removesuffix("{"))
            lost = [it for it in clauses if re.sub(r"\s+", " ", it).strip() not in page]
            tests.check(f"the contract of {crate}::{name}", clauses and not lost, lost)


def links(tests):
    index = text_of("docs", "api", "README.md")
    wrong = []
    for page, name in re.findall(r"\]\((plinq_\w+\.md)#(\w+)\)", index):
        if f"\n## `{name}`\n" not in text_of("docs", "api", page) and not re.search(rf"(?mi)^## `{name}`$", text_of("docs", "api", page)):
            wrong.append(f"{page}#{name}")
    tests.check("the index leads to entries", index.count("](plinq_") > 50 and not wrong, wrong)
    count, wrong = 0, []
    for page in sorted(os.listdir(FOLDER)):
        for name, path, line in re.findall(r"- \[`([^`]+)`\]\(\.\./\.\./(\S+)#L(\d+)\)", text_of("docs", "api", page)):
            count += 1
            if name not in re.split(r"[\s(){}:]+", text_of(path).split("\n")[int(line) - 1]):
                wrong.append(f"{page}: {name}: {path}:{line}")
    tests.check("each definition is where its link leads", count > 50 and not wrong, wrong)


# A file, what stands there once, what stands there in a copy, and the pages that are stale then.
CHANGED = {
    "a signature": ("crates/plinq_collect/src/telling.rt", "pub fn count<L, S, R>(\n    rt: &R,", "pub fn count<L, S, R>(\n    runtime: &R,", ["plinq_collect.md"]),
    "a comment": ("crates/plinq_groups/src/last.rt", "/// The last item (.NET's", "/// The final item (.NET's", ["plinq_groups.md"]),
    "a clause": ("crates/plinq_run/src/running.rt", "ensures closed {", "ensures shut {", ["plinq_run.md"]),
    "the English of a definition": ("crates/plinq_collect/specs/ItemFoldings.antt", "-- whether there is none", "-- whether none is there", ["plinq_closures.md", "plinq_collect.md"]),
    "what the prelude exports": ("crates/plinq_prelude/src/lib.rt", "pub use plinq_enumerator::Growth;\n", "", ["README.md", "plinq_enumerator.md"]),
}


def finds_stale(tests):
    with tempfile.TemporaryDirectory() as folder:
        for name in ("tools", "docs", "crates.txt"):
            there = os.path.join(ROOT, name)
            (shutil.copytree if os.path.isdir(there) else shutil.copy)(there, os.path.join(folder, name))
        for crate in os.listdir(os.path.join(ROOT, "crates")):
            for part in ("src", "specs"):
                there = os.path.join(ROOT, "crates", crate, part)
                if os.path.isdir(there):
                    shutil.copytree(there, os.path.join(folder, "crates", crate, part))
        tests.check("a copy is fresh", stale(folder) == (0, []))
        for name, (path, old, new, pages) in CHANGED.items():
            path = os.path.join(folder, path)
            with open(path, encoding="utf-8") as file:
                right = file.read()
            with open(path, "w", encoding="utf-8") as file:
                file.write(right.replace(old, new))
            seen = stale(folder)
            tests.check(f"pages are stale after a change of {name}", right.count(old) == 1 and seen == (1, pages), seen)
            with open(path, "w", encoding="utf-8") as file:
                file.write(right)
        os.remove(os.path.join(folder, "docs", "api", "plinq_run.md"))
        tests.check("a page that is gone", stale(folder) == (1, ["plinq_run.md"]), stale(folder))
        seen = subprocess.run([os.path.join(folder, "tools", "api")], capture_output=True, text=True)
        tests.check("it makes it anew", (seen.returncode, stale(folder)) == (0, (0, [])), seen)


def main():
    tests = Tests()
    tests.check("each page is what tools/api makes", stale(ROOT) == (0, []), "make them again: tools/api")
    entries(tests)
    contracts(tests)
    links(tests)
    finds_stale(tests)
    tests.end()


if __name__ == "__main__":
    main()
