"""What Rust declares: types with their views, traits, impls and their ghost members."""
import copy
import itertools
import os
import re

from . import specs
from .words import CLAUSE, CRATES, LANGUAGE, OWN, PRELUDE, STD_TYPES, TOKEN, Definition, Lost, binders, read, uses_of


def block_at(lines, at):
    """A declaration's lines: to its `;`, or to the brace that closes it."""
    depth, end = 0, at
    while True:
        line = re.sub(r"//.*$", "", lines[end])
        depth += line.count("{") - line.count("}")
        end += 1
        if depth == 0 and (line.rstrip().endswith((";", "}"))):
            return lines[at:end]


def doc_above(lines, at):
    """The first paragraph of the comment above a declaration."""
    found, at = [], at - 1
    while at >= 0 and lines[at].strip().startswith(("///", "#[", "//")):
        if not lines[at].strip().startswith("#["):
            found.insert(0, re.sub(r"\[([^\]]*)\]\([^)]*\)", r"\1", lines[at].strip().lstrip("/").strip()))
        at -= 1
    return [f"-- {line}" for line in found[:found.index("")] if line] if "" in found else [f"-- {line}" for line in found]


def beside(text, line):
    """The English of a variant or a field, as it stands beside it."""
    found = doc_above(text, text.index(line))
    english = " ".join([*found[:1], *(more[3:] for more in found[1:])])
    return re.sub(r"\[(`[^`]+`)\]", r"\1", f"    {english}") if found else ""


class Rust:
    """A file of src/."""

    files = {}

    def __init__(self, crate, module):
        self.crate, self.module = crate, module
        self.path = f"{crate}/src/{module}.rt"
        full = os.path.join(CRATES, self.path)
        if not os.path.exists(full):
            raise Lost(f"there is no file {self.path}")
        self.lines = read(full)
        self.imports, self.modules = uses_of(self.lines, "ghost use ")
        self.types = self.rust_imports()
        self.made = {}

    @classmethod
    def of(cls, crate, module):
        if (crate, module) not in cls.files:
            cls.files[crate, module] = cls(crate, module)
        return cls.files[crate, module]

    def rust_imports(self):
        found = {}
        # (a list of names may span lines)
        for match in re.finditer(r"(?m)^\s*(?:pub )?use ([\w:]+?)::(?:\{([^{}]*)\}|(\w+))(?: as (\w+))?;", "\n".join(self.lines)):
            for name in filter(None, map(str.strip, (match[2] or match[3]).split(","))):
                there, _, here = name.partition(" as ")
                found[here or match[4] or there] = (match[1], there)
        return found

    def at(self, pattern):
        for number, line in enumerate(self.lines):
            if re.match(pattern, line):
                return number
        return None

    def declares(self, name):
        return self.at(rf"\s*(?:pub(?:\([\w ]+\))? )?(?:struct|enum|trait|type) {name}\b")

    def type_or_trait(self, name, there):
        at = self.declares(name)
        if at is None:
            raise Lost(f"{self.path} declares no {name}")
        if name not in self.made:
            text = block_at(self.lines, at)
            is_trait = re.search(r"\btrait\b", text[0])
            it = self.trait(name, at, text) if is_trait else self.plain(name, at, text)
            self.made[name] = it
        return self.made[name]

    def plain(self, name, at, text):
        kept = [line for line in text if not line.strip().startswith(("//", "#["))]
        it = Definition(self.path, name, doc_above(self.lines, at), kept)
        it.rust, it.kind = self, "type"
        it.views = self.views(name)
        it.bare = kept
        it.text = [kept[0], *(line + beside(text, line) for line in kept[1:])]
        if it.views:
            it.text += [line[4:] for line in it.views[0]]
        return it

    def views(self, name):
        """What the values of a type stand for: the ghost members of its Model, each in a line."""
        at = self.at(rf"impl.* Model for {name}\b")
        if at is None:
            return []
        block, found = block_at(self.lines, at), []
        for line in block[1:-1]:
            if found and not line.strip().startswith("ghost "):
                found[-1] = f"{found[-1]} {line.strip()}".rstrip()
            elif line.strip() and not line.strip().startswith("ghost use"):
                found.append(line)
        return found, uses_of(block, "ghost use ")[0]

    def trait(self, name, at, text):
        it = Definition(self.path, name, doc_above(self.lines, at), [])
        it.rust, it.kind, it.block = self, "trait", text
        return it

    def member_of_trait(self, trait, member):
        """A ghost member of a trait. What the trait asks of it isn't followed: whoever implements the trait has proved that."""
        name = f"{trait.name}.{member}"
        if name not in self.made:
            at = next(n for n, line in enumerate(trait.block) if re.match(rf"\s*ghost {member}\b", line))
            start = at
            while trait.block[start - 1].strip().startswith("//"):
                start -= 1
            above = [line.replace("//", "--") for line in trait.block[start:at]]
            head = [f"{headed(trait.block[0])}:"]
            it = Definition(self.path, name, [], head + above + block_at(trait.block, at), [name.split(".")[0]])
            it.rust, it.kind, it.imports, it.bounds = self, "member", self.imports, bounds_of(trait.block[0])
            it.siblings = members_of(trait)
            self.made[name] = it
        return self.made[name]

    # ---- following

    def named(self, word):
        """A Rust type, by its name in this file, or by its path."""
        path, _, last = word.rpartition("::")
        if path:
            first, _, rest = path.partition("::")
            crate, there = self.types.get(first, (first, ""))
            return ("::".join(part for part in (crate, there, rest) if part), last)
        if word in self.types:
            crate, there = self.types[word]
        elif self.declares(word) is not None:
            return self.type_or_trait(word, word)
        elif word in PRELUDE or word in STD_TYPES:
            return (PRELUDE.get(word, "std::marker"), word)
        else:
            raise Lost(f"{self.path}: can't follow the type {word}")
        parts = crate.split("::")
        if parts[0] == "crate":
            return Rust.of(self.crate, "/".join(parts[1:])).type_or_trait(there, there)
        if parts[0] in OWN:
            return exported(parts[0], there)
        return (crate, there)

    def ghost(self, text, imports, locals_, it):
        """The words of a ghost line."""
        tokens = TOKEN.findall(text)
        bound = binders(tokens) | locals_
        found, skip = [], -1
        for at, token in enumerate(tokens):
            after = tokens[at + 1] if at + 1 < len(tokens) else ""
            before = tokens[at - 1] if at else ""
            if at <= skip:
                continue
            if token == "⟦":
                skip = tokens.index("⟧", at)
                found += self.member_of_impl(" ".join(tokens[at + 1:skip]), tokens[skip + 1])
                continue
            if token[0] in '."(){},;[]«' and token != "[]" or re.fullmatch(r"[0-9]+", token) or token in LANGUAGE:
                continue
            if after == "=" and before in ("{", ";"):
                continue
            if after.startswith(".") and token in it.bounds:
                path = [part[1:] for part in itertools.takewhile(lambda part: part[0] == "." and part != ".", tokens[at + 1:])]
                found += self.member(it, token, path)
                continue
            if token in bound or token in CLAUSE:
                continue
            found.append(self.word(token, after, imports, it))
        return found

    def word(self, token, after, imports, it):
        for name in (token, f"◌{token}◌", f"{token}◌", f"◌{token}"):
            if name in imports:
                return specs.follow(*imports[name])
        if token in ("Ok", "Err", "Some", "None", "true", "false"):
            return ("Rattle.std.specs.Prelude", token)
        if token[0].isupper() and (token in self.types or self.declares(token) is not None):
            return self.named(token)
        raise Lost(f"{self.path}: {it.name}: can't follow {token}")

    def member(self, it, generic, path):
        """A ghost member of a trait that bounds a generic parameter, or a type of it: `F.keys`, `F.Key.eq`, `F.Key.Eq.laws`."""
        traits = [self.named(bound) for bound in it.bounds[generic]]
        for name in path if path != ["row"] else []:
            for trait in traits:
                bounds = self.types_in(trait).get(name)
                if bounds is not None:
                    traits = [self.named(bound) for bound in it.bounds.get(f"{generic}::{name}", [])]
                    traits += [trait.rust.named(bound) for bound in bounds]
                    break
                if trait[1] == name if isinstance(trait, tuple) else trait.name == name:
                    traits = [trait]
                    break
                found = self.trait_with(trait, name)
                if found:
                    return [found]
            else:
                raise Lost(f"{self.path}: {it.name}: no bound of {generic} has the member {'.'.join(path)}")
        return []

    def above(self, trait):
        """The traits that a trait asks for."""
        words = re.findall(r"[A-Z]\w*", re.sub(r"<.*?>", "", trait.block[0].partition(":")[2]))
        return [trait.rust.named(it) for it in words if it in trait.rust.types or trait.rust.declares(it) is not None]

    def types_in(self, trait):
        """The types of a trait and of those that it asks for, with their bounds."""
        if isinstance(trait, tuple):
            return types_of(trait)
        found = {}
        for it in self.above(trait):
            found |= self.types_in(it)
        return found | types_of(trait)

    def trait_with(self, trait, name):
        if isinstance(trait, tuple):
            return trait if trait[0].startswith("std") else None
        if any(re.match(rf"\s*ghost {name}\b", line) for line in trait.block):
            return (trait, name)
        return next(filter(None, (self.trait_with(it, name) for it in self.above(trait))), None)

    def member_of_impl(self, text, member):
        match = re.match(r"<\s*(\w+).* as (\w+)", text)
        owner = self.named(match[1])
        if isinstance(owner, tuple):
            return [owner]
        pattern = rf"impl.* {match[2]}(?:<.*>)? for {match[1]}\b"
        rust = next((file for file in [owner.rust, *sources(owner.rust.crate)] if file.at(pattern) is not None), None)
        if rust is None:
            raise Lost(f"{owner.rust.path}: no impl of {match[2]} for {match[1]}")
        at = rust.at(pattern)
        if member.startswith("."):
            return [rust.impl_member(at, match[2], match[1], member[1:])]
        members = re.findall(r"(?m)^\s*ghost (\w+) =", "\n".join(block_at(rust.lines, at)))
        return [rust.impl_member(at, match[2], match[1], it) for it in members]

    def impl_member(self, at, trait, owner, member):
        name = f"{owner} as {trait}, {member}"
        if name not in self.made:
            block = block_at(self.lines, at)
            start = next((n for n, line in enumerate(block) if re.match(rf"\s*ghost {member}\b", line)), None)
            if start is None:
                raise Lost(f"{self.path}: the impl of {trait} for {owner} has no {member}")
            it = Definition(self.path, name, [], [block[0].rstrip(" {")] + block_at(block, start))
            it.rust, it.kind, it.imports = self, "impl", {**self.imports, **uses_of(block, "ghost use ")[0]}
            it.bounds, it.siblings = bounds_of(block[0]), set()
            self.made[name] = it
        return self.made[name]

    def invariant(self, it):
        """What is so of each value of a type, apart from what the values stand for."""
        lines = [line[4:] for line in it.views[0] if line.strip().startswith("ghost invariant ")] if it.views else []
        if not lines:
            return []
        name = f"{it.name}, invariant"
        if name not in self.made:
            made = Definition(self.path, name, [], [it.bare[0].rstrip(" {"), *lines])
            made.rust, made.kind, made.bounds, made.siblings = self, "impl", {}, set(re.findall(r"\b[A-Z]\b", it.bare[0]))
            made.imports = {**self.imports, **it.views[1]}
            self.made[name] = made
        return [self.made[name]]

    def in_brief(self, it, read):
        """A type as a clause sees it: an enum in a line; a struct by its view without the invariant, and else with the types of those
        fields alone that are read. And the words that are left."""
        short = copy.copy(it)
        if re.search(r"\benum\b", it.bare[0]):
            short.text = [" ".join(line.strip() for line in it.bare).replace(", }", " }")]
            return short, []
        fields = [re.match(r"\s*(?:pub(?:\([\w ]+\))? )?(\w+):", line) for line in it.bare]
        short.bare = [line for line, field in zip(it.bare, fields) if not field or field[1] in read]
        if it.views:
            short.views = ([line for line in it.views[0] if not line.strip().startswith("ghost invariant ")], it.views[1])
            short.text = [f"{it.bare[0]} .. }}", *(line[4:] for line in short.views[0])]
        return short, [*self.words(it), *self.invariant(it)]

    def words(self, it):
        if it.kind == "type":
            generics = set(bounds_of(it.bare[0])) | set(re.findall(r"\b[A-Z]\b", it.bare[0]))
            found = []
            body = " ".join(line for line in it.bare[1:] if not line.strip().startswith("ghost ")) if len(it.bare) > 1 else it.bare[0]
            is_enum = re.search(r"\benum\b", it.bare[0])
            body = re.sub(r"(?m)^\s*[A-Z]\w*", "", "\n".join(it.bare[1:])) if is_enum else body
            for word in rust_words(re.sub(r" as [A-Z]\w*>::\w+", "", body)):
                if word not in generics and word not in STD_TYPES and word != it.name:
                    found.append(self.named(word))
            # (what is so of each value, by its fields)
            fields = set(re.findall(r"(?m)^\s*(?:pub(?:\([\w ]+\))? )?(?:ghost )?(\w+):", "\n".join(it.bare)))
            for text in re.findall(r"(?m)^\s*(?:pub )?ghost \w+: \{ (.*?) \}(?: by \{.*\})?,$", "\n".join(it.bare)):
                it.bounds = bounds_of(it.bare[0])
                found += self.ghost(text, self.imports, generics | fields, it)
            if it.views:
                lines, imports = it.views
                it.bounds = {}
                for line in lines:
                    text = re.sub(r"^\s*ghost \w+ = ", "", line)
                    found += self.ghost(text, {**self.imports, **imports}, generics, it)
            return found
        if it.kind == "trait":
            return [(it, member) for member in re.findall(r"(?m)^\s*ghost (\w+):", "\n".join(it.block))]
        if it.kind in ("impl", "member"):
            text = " ".join(line for line in it.text[1:] if not line.strip().startswith("--"))
            text = re.sub(r"\bSelf(?:\.\w+)?", "_", re.sub(r"^\s*ghost \w+(?: =|:) ", "", text.strip()))
            return self.ghost(text, it.imports, it.siblings | set(it.bounds), it)
        raise Lost(f"{self.path}: {it.name} is nothing that can be followed")


def sources(crate):
    """The files of a crate's src/."""
    top = os.path.join(CRATES, crate, "src")
    for at, _, names in sorted(os.walk(top)):
        for file in sorted(names):
            if file.endswith(".rt"):
                yield Rust.of(crate, os.path.relpath(os.path.join(at, file), top)[:-3])


def headed(line):
    """The head of a trait without what it stands on: `pub trait Task<T: Copy>: Sync {` is `pub trait Task<T: Copy>`."""
    generics = bracketed(line)
    return f"{line[:line.index('<')]}<{generics}>" if re.match(r"[^:]*<", line) else line.split(":")[0].rstrip(" {")


def members_of(trait):
    """The names of a trait's ghost members."""
    return set(re.findall(r"ghost (\w+):", "\n".join(trait.block)))


def types_of(trait):
    """Of each type that a trait has the names of its bounds."""
    if isinstance(trait, tuple):
        return {}
    found = re.findall(r"(?m)^    type (\w+)(?:: (.*))?;", "\n".join(trait.block))
    return {name: re.findall(r"\b[A-Z]\w+", re.sub(r"<.*>", "", bounds)) for name, bounds in found}


def rust_words(text):
    """The types that a piece of Rust names, without those that a trait has (`S::Item`)."""
    for word in re.findall(r"(?:\w+::)*\w+", re.sub(r"\w+ = |&'\w+|\b[A-Z]\w*::\w+", "", text)):
        last = word.rpartition("::")[2]
        if last[:1].isupper() and not re.fullmatch(r"[A-Z][A-Z0-9_]+", last):
            yield word


def parted(text):
    """The parts of a list, at the commas that stand in no bracket."""
    parts, depth, last = [], 0, 0
    for at, letter in enumerate(text):
        depth += letter in "<(" or -(letter in ">)" and text[at - 1] != "-")
        if letter == "," and depth == 0:
            parts.append(text[last:at])
            last = at + 1
    return parts + [text[last:]]


def bracketed(text):
    """What stands in the first angle brackets of a text."""
    if "<" not in text:
        return ""
    start, depth = text.index("<"), 0
    for at in range(start, len(text)):
        depth += (text[at] == "<") - (text[at] == ">" and text[at - 1] != "-")
        if depth == 0:
            return text[start + 1:at]
    return ""


def without_brackets(text):
    """A text without its angle brackets and what stands in them: `Taker<Item = T> + TakeInto<O>` is `Taker + TakeInto`."""
    bare = re.sub(r"<[^<>]*>", "", text)
    return text if bare == text else without_brackets(bare)


def bounds_of(text):
    """Of each generic parameter, and of a type of one, as `S::Item`, the names of its bounds."""
    found = {}
    head, _, where = text.partition(" where ")
    generics = bracketed(head) if re.match(r"[^(]*<", head) else ""
    for part in parted(generics) + parted(where):
        name, _, bound = re.fullmatch(r"((?:::|[^:])*)(:?)(.*)", part.strip(), re.S).groups()
        if re.fullmatch(r"[A-Z]\w*(?:::[A-Z]\w*)?", name):
            found.setdefault(name, []).extend(re.findall(r"\b[A-Z]\w+", without_brackets(bound).partition("(")[0]))
    return found


def exported(crate, name):
    """A public name of a crate, through the `pub use` lines of its lib.rt."""
    lib = Rust.of(crate, "lib")
    if name not in lib.types:
        raise Lost(f"{crate} exports no {name}")
    module, there = lib.types[name]
    if module.split("::")[0] in OWN:
        return exported(module.split("::")[0], there)
    return Rust.of(crate, module.replace("crate::", "").replace("::", "/")).type_or_trait(there, there)
