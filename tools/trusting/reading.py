"""What a contract reaches, lowest first, and where its words stand."""
import os
import re

from .contracts import around, contract, contract_at, head_of, owner_of
from .rust import Rust, bounds_of, sources
from .words import CRATES, OWN, TOKEN, Definition


class Reading:
    """What was reached so far: definitions, lowest first, and words from outside. For a clause alone types are read in brief: a struct
    without its invariant, and without the types of fields that no definition reads. What is left is read with the first contract
    that names the struct."""

    def __init__(self):
        self.order, self.seen, self.outside = [], set(), {}
        self.read, self.left = None, {}

    def copy(self):
        """What goes on from here, apart from this."""
        it = Reading()
        it.order, it.seen, it.left = list(self.order), set(self.seen), dict(self.left)
        it.outside = {module: set(names) for module, names in self.outside.items()}
        return it

    def reach(self, it):
        if isinstance(it, tuple):
            if isinstance(it[0], Definition):
                self.reach(it[0].rust.member_of_trait(*it))
            else:
                self.outside.setdefault(it[0], set()).add(it[1])
            return
        if id(it) in self.seen:
            for word in self.left.pop(id(it), []) if self.read is None else []:
                self.reach(word)
            return
        self.seen.add(id(it))
        told = it
        if self.read is not None and getattr(it, "kind", "") == "type" and re.search(r"\b(?:enum|struct)\b", it.bare[0]):
            told, self.left[id(it)] = it.rust.in_brief(it, self.read)
        for word in (told.rust if hasattr(told, "rust") else told.specs).words(told):
            self.reach(word)
        if told.text:
            self.order.append(told)

    def take(self, name, first=()):
        """A contract with all that it reaches, and what of that was new; what these words reach is read first."""
        it, before = contract(name), len(self.order)
        words = sorted(it.names, key=lambda word: next((at for at, name in enumerate(first) if name in names_of(word)), len(first)))
        is_clause = ":" in name.replace("::", "")
        self.read = fields_read(it, words) if is_clause else None
        for word in words:
            self.reach(word)
        return it, self.order[before:]


def names_of(word):
    """The name of a word, and of a trait's ghost member that of the trait as well."""
    there = word[0] if isinstance(word, tuple) else word
    name = getattr(there, "name", None)
    return {name, f"{name}.{word[1]}"} if isinstance(word, tuple) else {name}


def fields_read(it, words):
    """The names of fields that a contract reads, or a definition that it reaches."""
    reading = Reading()
    for word in words:
        reading.reach(word)
    text = " ".join(line for there in [*reading.order, it] for line in there.text if not line.startswith("ghost invariant "))
    return set(re.findall(r"\.(\w+)", text))


def public_words(crate):
    """What the public statements of a crate name: contracts of public functions; and of the types and traits that its lib.rt
    exports the methods' contracts and all ghost members."""
    lib = Rust.of(crate, "lib")
    exports = {word for line in lib.lines if line.startswith("pub use ") for word in re.findall(r"\b[A-Z]\w*", line)}
    for rust in sources(crate):
        for at, line in enumerate(rust.lines):
            begin = None if re.match(r"\s*//", line) else around(rust, at)
            head = head_of(rust, begin) if begin is not None else ""
            owner = owner_of(rust, at) if head.startswith("impl") else None
            is_trait = head.startswith("pub trait") and re.match(r"pub trait (\w+)", head)[1] in exports
            is_impl = " for " in head and (owner in exports or owner in bounds_of(head))
            if re.match(r"\s*pub fn ", line) or (is_trait or is_impl) and re.match(r"    fn ", line):
                yield from contract_at(rust, at).names
            elif is_trait and re.match(r"    ghost \w+:", line):
                trait = rust.type_or_trait(re.match(r"pub trait (\w+)", head)[1], "")
                yield (trait, line.split()[1].rstrip(":"))
            elif is_impl and re.match(r"    ghost \w+ =", line):
                yield rust.impl_member(begin, re.match(r".*?(\w+)(?:<.*>)? for ", head)[1], owner, line.split()[1])


def passes_on(path):
    """Whether a file has no word of its own, and only passes on those of others."""
    with open(path, encoding="utf-8") as file:
        return all(re.match(r"--|(?:pub )?use |$", line) for line in file)


def apart():
    """The files of specs/ that stand on the wrong side of specs/inner/."""
    reading = Reading()
    crates = [crate for crate in sorted(OWN) if os.path.isdir(os.path.join(CRATES, crate, "specs")) and not crate.endswith(("_example", "_bench"))]
    for crate in crates:
        for word in public_words(crate):
            reading.reach(word)
    reached = {it.path for it in reading.order if it.text}
    for crate in crates:
        top = os.path.join(CRATES, crate, "specs")
        for at, _, names in sorted(os.walk(top)):
            for file in sorted(names):
                path = os.path.relpath(os.path.join(at, file), CRATES)
                is_inner = os.path.relpath(path, crate).startswith("specs/inner/")
                if re.search(r"/specs/(?:inner|Lib|\w*Rows)\.antt$", path) or passes_on(os.path.join(CRATES, path)):
                    continue
                if is_inner == (path in reached):
                    print(f"crates/{path}: {'a public contract reaches it' if is_inner else 'no public contract reaches it'}")


def lines_of(found):
    return sum(1 for it in found for line in it.text if line.strip() and not line.strip().startswith("--"))


def renamed(it):
    """What the words of a definition are called elsewhere that its file imports under another name."""
    imports = it.specs.imports if hasattr(it, "specs") else {}
    words = set(TOKEN.findall(" ".join(it.text)))
    for here, (module, there) in imports.items():
        if here != there and here in words:
            yield f"-- ({here} is {there} of {module.removesuffix('.TheVariants').split('.')[-1]})"


def told(found):
    """Definitions as text: under each file's name what stands in it, with the headers of its modules."""
    lines, path, headers = [], None, None
    for it in found:
        if it.path != path:
            lines += ["", f"---- crates/{it.path}"]
            path, headers = it.path, None
        text = it.text[1:] if headers == it.headers and getattr(it, "kind", "") == "member" else it.text
        if it.headers and it.headers != headers and getattr(it, "kind", "") != "member":
            lines += ["", *it.headers]
        headers = it.headers
        lines += [""] * (text is it.text) + it.english + list(renamed(it)) + text
    return lines[1:]


def show(names):
    reading, contracts = Reading(), []
    for name in names:
        contracts.append(reading.take(name)[0])
    print("\n".join(told(reading.order) + [""] + told(contracts)))
    for module in sorted(reading.outside):
        print(f"\n{module}: {' '.join(sorted(reading.outside[module]))}")
    print(f"\n{len(reading.order)} definitions, {lines_of(reading.order)} lines")
