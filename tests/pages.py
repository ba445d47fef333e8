#!/usr/bin/env python3
"""Looks whether what the pages name is there: each link's target, and each file that is named by its path in a crate; and
whether no sentence of README.md and docs/ has more than 30 words (TRUSTED.md, trusted/ and api/, which tools make, are left out, but not their templates), and no page or
help, and no item's documentation, has a twisted form that the field says otherwise. No line of a crate's sources has more than 160 columns.

    python3 tests/pages.py
"""
import os
import re

from support.program import ROOT, Tests


def named(page, text):
    """The paths that a page names, from the top."""
    here = os.path.dirname(page)
    for target in re.findall(r"\]\(([^)#\s]+)", text):
        if "://" not in target:
            yield os.path.normpath(os.path.join(here, target))
    for path in re.findall(r"`((?:plinq\w*|tests|bench|docs|examples|tools)/[\w./-]*\w)`", text):
        yield path if os.path.exists(os.path.join(ROOT, path)) else f"crates/{path}"


def pages():
    for at, folders, names in os.walk(ROOT):
        folders[:] = sorted(it for it in folders if it not in (".git", "out"))
        yield from (os.path.relpath(os.path.join(at, it), ROOT) for it in sorted(names) if it.endswith(".md"))


def sentences(text):
    """The sentences of a page's paragraphs, and those of each cell of its tables; code that stands apart is left out."""
    text = re.sub(r"^    .*$", "", re.sub(r"<!--.*?-->", "", text, flags=re.S), flags=re.M)
    text = re.sub(r"\]\([^)]*\)", "]", text)
    for part in re.split(r"\n\n|\n(?=[-|>#])", text):
        for cell in part.split("|") if part.startswith("|") else [part]:
            # (a sentence in bold ends before its stars)
            yield from re.split(r"(?<=[.:;?!])\s+|(?<=[.:;?!]\*\*)\s+", cell.strip())


def is_made(page):
    """Whether a tool makes a page, of what stands in the sources."""
    return page == "docs/TRUSTED.md" or page.startswith(("docs/api/", "docs/trusted/")) and not page.endswith(".template.md")


def lengths(tests):
    for page in ("README.md", *(it for it in pages() if it.startswith("docs/") and not is_made(it))):
        with open(os.path.join(ROOT, page), encoding="utf-8") as file:
            found = list(sentences(file.read()))
        long = [it for it in found if len(re.findall(r"\S*\w\S*", it)) > 30]
        tests.check(f"{page} has sentences, none of more than 30 words", len(found) > (8 if page.endswith(".template.md") else 20) and not long, long or len(found))


# Forms that were in these pages, and what to write in their place.
TWISTED = (
    (r"\bhanded over\b", "delivered, passed"),
    (r"(?:\bas|\balso|[,;]) where (?:none|no)\b", "if none, by default"),
    (r"\b[Aa]lso where\b", "also if"),
    (r"\bjust what\b", "only what"),
    (r"\bdoes for\b", "is enough for"),
    (r"\banswered as\b", "reported as"),
    (r"\bWhere (?:an?|the|it|they|there|no|nothing|all|more|one|operators|tickets)\b(?!.* (?:lies|go(?:es)?)\b)", "If, When, Once"),
    (r"\blets go of\b", "releases, drops"),
    (r"\bsed '\$d'", "--plain, which keeps the status"),
)


def twisted(tests):
    for page in (*(it for it in pages() if not is_made(it)), *(f"share/help/{it}" for it in sorted(os.listdir(f"{ROOT}/share/help")))):
        with open(os.path.join(ROOT, page), encoding="utf-8") as file:
            text = file.read()
        found = [f"{it[0]!r}: {better}" for form, better in TWISTED for it in re.finditer(form, text)]
        tests.check(f"{page} has no twisted form", not found, found)


# such forms in the documentation of an item
DOCUMENTED = (
    (r"\] where\b|\b(?:[Aa]lso|only|none|exactly) where\b|\bWhere there\b", "if"),
    (r"\bAnswers (?:how|whether)\b", "Returns"),
)


def documented(tests):
    """Whether the documentation of the crates' items has a form of DOCUMENTED."""
    found, lines = [], 0
    for at, folders, names in os.walk(os.path.join(ROOT, "crates")):
        folders[:] = sorted(it for it in folders if it != "out")
        for path in (os.path.join(at, it) for it in sorted(names) if it.endswith(".rt")):
            with open(path, encoding="utf-8") as file:
                for number, line in enumerate(file, 1):
                    if re.match(r"\s*//[/!]", line):
                        lines += 1
                        place = f"{os.path.relpath(path, ROOT)}:{number}"
                        found += [f"{place} {it[0]!r}: {better}" for form, better in DOCUMENTED for it in re.finditer(form, line)]
    tests.check("no item's documentation has a twisted form", lines > 2_000 and not found, found or lines)


def wide_lines(tests):
    files, wide = 0, []
    for at, folders, names in os.walk(os.path.join(ROOT, "crates")):
        folders[:] = sorted(it for it in folders if it != "out")
        for path in (os.path.join(at, it) for it in sorted(names) if it.endswith((".rt", ".antt"))):
            with open(path, encoding="utf-8") as file:
                wide += [f"{os.path.relpath(path, ROOT)}:{number}" for number, line in enumerate(file, 1) if len(line.rstrip("\n")) > 160]
            files += 1
    tests.check("no line of the crates' sources has more than 160 columns", files > 1_000 and not wide, wide or files)


def main():
    tests = Tests()
    for page in pages():
        with open(os.path.join(ROOT, page), encoding="utf-8") as file:
            missing = sorted({it for it in named(page, file.read()) if not os.path.exists(os.path.join(ROOT, it))})
        tests.check(page, not missing, f"names what isn't there: {', '.join(missing)}")
    lengths(tests)
    twisted(tests)
    documented(tests)
    wide_lines(tests)
    tests.end()


if __name__ == "__main__":
    main()
