"""The words that both languages have, and what is read of either: a definition."""
import os
import re

ROOT = os.path.dirname(os.path.dirname(os.path.dirname(os.path.realpath(__file__))))
CRATES = os.path.join(ROOT, "crates")

# What the language itself means: no import gives it.
LANGUAGE = set("Type where record abbrev unfoldable pub data module let in if then else absurd tt _ ⊥ ∥ ∥₁ Unit → : = × λ ← 0 1".split())
# Names that a clause may use of any function, and the methods' own.
CLAUSE = set("result self old new now field 𝓛".split())
# Traits that Rust has without an import, and where they stand.
PRELUDE = dict.fromkeys("Eq Ord PartialEq PartialOrd".split(), "std::cmp")
PRELUDE |= dict.fromkeys("Fn FnMut FnOnce".split(), "std::ops") | {"Clone": "std::clone", "From": "std::convert", "Hash": "std::hash", "HostRuntime": "std::rt"}
# Types of std's that a Rust type names without an import.
STD_TYPES = set("""u8 u16 u32 u64 u128 usize i8 i16 i32 i64 i128 isize bool str String Vec Option Result Box Self Send Sync Copy
Drop Ok Err Some None mut dyn const as crate for""".split())

TOKEN = re.compile(r'"[^"]*"|«[^»]*»|\.(?=\s|$)|\.[^\s(){}\[\],;.]+|λ|⟦|⟧|\[\]|[(){},;\[\]]|[^\s(){}\[\],;."λ⟦⟧«»]+')


class Lost(Exception):
    """A word that can't be followed."""


def read(path):
    with open(path, encoding="utf-8") as file:
        return file.read().splitlines()


def indent_of(line):
    return len(line) - len(line.lstrip(" "))


def is_word(token):
    return bool(re.search(r"\w", token)) and token[0] not in '."'


class Definition:
    """Something to read: its file, its line of English, its text, and what it names."""

    def __init__(self, path, name, english, text, headers=()):
        self.path, self.name, self.english, self.text, self.headers = path, name, english, text, list(headers)
        self.names = []

    def __repr__(self):
        return f"{self.path}: {self.name}"


def uses_of(lines, starts="use "):
    """Imports: the name here, the module, the name there. And modules under another name."""
    imports, modules = {}, {}
    for line in lines:
        line = line.strip().rstrip(";")
        if not line.startswith(starts):
            continue
        path = line[len(starts):]
        if ".{" in path:
            module, names = path[:-1].split(".{", 1)
            for name in names.split(", "):
                there, _, here = name.partition(" as ")
                imports[here or there] = (module, there)
        elif " as " in path:
            module, here = path.split(" as ")
            modules[here] = module
    return imports, modules


def binders(tokens):
    """The names that a text binds by itself: by λ, let and ←, and in groups such as (x y : T)."""
    found = set()
    for at, token in enumerate(tokens):
        if token == "λ":
            for after in tokens[at + 1:]:
                if after == ".":
                    break
                if is_word(after):
                    found.add(after)
        elif token in "({":
            names = []
            for after in tokens[at + 1:]:
                if after == ":":
                    found.update(names)
                    break
                if not is_word(after):
                    break
                names.append(after)
        elif token == "←":
            found.add(tokens[at - 1])
        elif token == "let":
            for after in tokens[at + 1:]:
                if after in (":", "="):
                    break
                if is_word(after):
                    found.add(after)
    return found


LINES = [line for line in read(os.path.join(ROOT, "crates.txt")) if ":" in line and line[0] not in "# "]
OWN = {line.split(":")[0].split()[0] for line in LINES}
KIT = {"std"} | {word for line in LINES for word in line.split(":")[1].split()} - OWN
