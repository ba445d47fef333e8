"""The pages of docs/ that have what a contract rests on, made of templates.

A template is a page in which some lines are comments that say what stands in their place:

    <!-- after PAGE -->               the page adds to that one, whose definitions it doesn't show again
    <!-- contract NAME | WORDS -->    a contract, and what the table says of it
    <!-- definitions to WORD -->      what it adds, up to that one
    <!-- definitions -->              what it adds, or the rest of that
    <!-- table -->                    a row for each contract of all pages
    <!-- ports -->                    what the program uses of the kit's libraries
    <!-- words -->                    the words of these libraries that definitions cite

`{count}` and `{lines}` are how many definitions stand since the last contract, and how many lines they have.
"""
import os
import re

from .reading import Reading, lines_of, told
from .rust import Rust
from .words import CRATES, KIT, OWN, ROOT

# The first page has the table of the others, so that it is made last.
TOP = "docs/TRUSTED.md"
PAGES = [f"docs/trusted/{name}.md" for name in ("run", "lock", "program", "library")]
# What is read first of what a contract reaches, if the order of its words isn't that of a story.
FIRST = ("Query", "Ending", "Trace", "Lambda", "Source.whole", "Source", "answers", "merge_in_force", "Sink", "Leads", "HasDelivered", "Guarded", "IsFree")
ORDER = re.compile(r"<!-- (\w+) ?(.*?) ?-->")


def template_of(page):
    return page.replace(".md", ".template.md")


def used():
    """What the program's crates use of std and of ports, by library."""
    found = {}
    for crate in sorted(OWN):
        if crate.endswith(("_tests", "_testing", "_example", "_bench")):
            continue
        for at, _, names in os.walk(os.path.join(CRATES, crate, "src")):
            for name in sorted(names):
                for there in Rust.of(crate, os.path.relpath(os.path.join(at, name), os.path.join(CRATES, crate, "src"))[:-3]).types.values():
                    library = there[0].split("::")[0]
                    if library in KIT:
                        found.setdefault(library, set()).add(there[1])
    return found


def anchor(heading):
    """What a link to a heading ends with."""
    return re.sub(r"[^\w\- ]", "", heading.lower()).replace(" ", "-")


class Page:
    """One page in the making: what was read for it, and its rows of the table."""

    def __init__(self, path, others):
        self.path, self.others = path, others
        self.reading, self.rows, self.heading = Reading(), [], ""
        self.added, self.shown, self.before = [], 0, None
        with open(os.path.join(ROOT, template_of(path)), encoding="utf-8") as file:
            self.text = "".join(filter(None, map(self.line, file)))

    def line(self, line):
        if line.startswith("#"):
            self.heading = line.lstrip("#").strip()
        order = ORDER.fullmatch(line.rstrip("\n"))
        if order:
            made = getattr(self, order[1])(order[2])
            return made and f"{made}\n"
        shown = self.added[: self.shown]
        return line.replace("{count}", str(len(shown))).replace("{lines}", str(lines_of(shown)))

    def after(self, name):
        self.before = next(it for it in self.others if it.path.endswith(f"/{name}.md"))
        self.reading = self.before.reading.copy()

    def contract(self, words):
        name, _, says = words.partition(" | ")
        it, self.added = self.reading.take(name, FIRST)
        self.shown = 0
        link = f"{os.path.relpath(self.path, os.path.dirname(TOP))}#{anchor(self.heading)}"
        self.rows.append((f"[{self.heading}]({link})", says, len(self.added), lines_of(self.added)))
        return "\n".join(["```text", *told([it]), "```"])

    def definitions(self, words):
        last = words.removeprefix("to ")
        end = [it.name for it in self.added].index(last) + 1 if last else len(self.added)
        found, self.shown = self.added[self.shown : end], end
        return "\n".join(["```text", *told(found), "```"])

    def table(self, _):
        rows = [f"| {title} | {says} | {count} | {lines} |" for it in self.others for title, says, count, lines in it.rows]
        return "\n".join(["| contract | what it says | definitions it adds | lines |", "|---|---|---|---|", *rows])

    def ports(self, _):
        return "\n".join(f"| `{library}` | {', '.join(f'`{name}`' for name in sorted(names))} |" for library, names in sorted(used().items()))

    def words(self, _):
        found = {}
        for it in self.others:
            for module, names in it.reading.outside.items():
                found.setdefault(module, set()).update(names)
        return "\n".join(f"| `{module}` | {' '.join(f'`{name}`' for name in sorted(found[module]))} |" for module in sorted(found))


def pages():
    """Each page by its path, as text."""
    made = []
    for path in PAGES:
        made.append(Page(path, list(made)))
    return {it.path: it.text for it in (*made, Page(TOP, made))}


def write():
    for path, text in pages().items():
        with open(os.path.join(ROOT, path), "w", encoding="utf-8") as file:
            file.write(text)
