"""The definitions of specs/, by the layout that `rt fmt` fixes."""
import itertools
import os
import re

from . import rust
from .words import CRATES, LANGUAGE, OWN, TOKEN, Definition, Lost, binders, indent_of, is_word, read, uses_of


class Specs:
    """A file of specs/."""

    files = {}

    def __init__(self, crate, module):
        self.crate = crate
        self.path = f"{crate}/specs/{module.replace('.', '/')}.antt"
        full = os.path.join(CRATES, self.path)
        if not os.path.exists(full):
            raise Lost(f"there is no file {self.path}")
        self.lines = read(full)
        self.imports, self.modules = uses_of(self.lines)
        self.found, self.constructors = {}, {}
        self.parse()

    @classmethod
    def of(cls, crate, module):
        if (crate, module) not in cls.files:
            cls.files[crate, module] = cls(crate, module)
        return cls.files[crate, module]

    def parse(self):
        headers, comment, at = [], [], 0
        while at < len(self.lines):
            line = self.lines[at]
            text, depth = line.strip(), indent_of(line)
            while text and headers and headers[-1][0] >= depth:
                headers.pop()
            if not text or text.startswith(("use ", "pub use ")):
                comment, at = [], at + 1
            elif text.startswith("--"):
                comment.append(text)
                at += 1
            elif text.startswith("module "):
                while not text.endswith(" where"):
                    at += 1
                    text += " " + self.lines[at].strip()
                headers.append((depth, text))
                comment, at = [], at + 1
            else:
                end = at + 1
                while end < len(self.lines) and self.belongs(text, depth, self.lines[end]):
                    end += 1
                self.take(text, depth, self.lines[at:end], comment, [it for _, it in headers])
                comment, at = [], end

    @staticmethod
    def head(text):
        return re.match(r"(?:abbrev |unfoldable )?(?:pub )?(record |data )?(\S+)", text).groups()

    def belongs(self, first, depth, line):
        """Whether a line goes on with the declaration: it is deeper, or an equation of the same name."""
        if not line.strip():
            return False
        if indent_of(line) > depth or indent_of(line) == depth and line.strip()[0] in "})":
            return True
        kind, name = self.head(first)
        return indent_of(line) == depth and not kind and self.is_equation(name, line.strip())

    @staticmethod
    def is_equation(name, text):
        if "◌" in name:
            return bool(re.search(r"(?:^|\s)=(?:\s|$)", text)) and not text.startswith(("abbrev", "unfoldable", "pub", "--"))
        return text.split(" ")[0] == name

    def take(self, text, depth, lines, comment, headers):
        kind, name = self.head(text)
        it = Definition(self.path, name, comment, [line[depth:] for line in lines], headers)
        it.specs = self
        self.found[name] = it
        it.locals, it.fields = set(), set()
        for header in headers:
            it.locals |= binders(TOKEN.findall(header))
        it.locals |= binders(TOKEN.findall(" ".join(lines)))
        if kind:
            for line in it.text[1:]:
                inner = line.strip()
                if inner and not inner.startswith("--") and ":" in inner:
                    field = inner.removeprefix("pub ").split(" ")[0]
                    if kind == "data " and indent_of(line) == 2:
                        self.constructors[field] = it
                    it.fields.add(field)

    def words(self, it):
        """What a definition names, in the order of its text, each resolved. Of a lemma only what it says: its proof is checked."""
        tokens = []
        for header in it.headers:
            tokens += TOKEN.findall(header)
        first = it.text[0]
        is_lemma = not first.startswith(("abbrev ", "unfoldable ")) and not self.head(first)[0]
        said = list(itertools.takewhile(lambda line: not self.is_equation(it.name, line) and not line.startswith("unfolding"), it.text[1:]))
        for number, line in enumerate([first, *said] if is_lemma else it.text):
            code = re.sub(r"\s*--.*$", "", line) if line.strip().startswith("--") else line
            parts = TOKEN.findall(code)
            if number and indent_of(line) == 0 and "=" in parts and not self.head(it.text[0])[0]:
                left = parts[:parts.index("=")]
                it.locals |= {word for word in left if is_word(word) and not self.is_constructor(word) and word not in self.imports}
            tokens += parts
        found = []
        for at, token in enumerate(tokens):
            after = tokens[at + 1] if at + 1 < len(tokens) else ""
            before = tokens[at - 1] if at else ""
            if token == "do":
                found += [self.resolve(name, "", it) for name in ("◌>>=◌", "◌>>◌") if name in self.imports or name in self.found]
                continue
            if token[0] in '."(){},;[]«' and token != "[]" or token in it.locals or token == it.name:
                continue
            if re.fullmatch(r"[0-9]+", token) or token in LANGUAGE:
                continue
            if after == "=" and before in ("{", ";"):
                continue
            # (a field may have the name of a definition, which its own type reads)
            if token in it.fields and (after == ":" or not (token in self.imports or token in self.found)):
                continue
            found.append(self.resolve(token, after, it))
        return found

    def is_constructor(self, word):
        if word in self.constructors:
            return True
        if word not in self.imports:
            return False
        module, there = self.imports[word]
        return module.endswith(".TheVariants") or there[0].isupper() or is_own(module) and there in specs_of(module).constructors

    def resolve(self, token, after, it):
        for name in (token, f"◌{token}◌", f"{token}◌", f"◌{token}"):
            if name in self.imports:
                return follow(*self.imports[name])
            if name in self.constructors:
                return self.constructors[name]
            if name in self.found:
                return self.found[name]
        if token in self.modules:
            return follow(self.modules[token], after.removeprefix("."))
        raise Lost(f"{self.path}: {it.name}: can't follow {token}")


def is_own(module):
    parts = module.split(".")
    return parts[0] == "Rattle" and parts[1] in OWN and parts[2] == "specs" and parts[3] not in ("declared", "contracts")


def specs_of(module):
    parts = module.split(".")
    return Specs.of(parts[1], ".".join(parts[3:]))


def follow(module, name):
    """What an import gives."""
    parts = module.split(".")
    if parts[0] != "Rattle" or parts[1] not in OWN:
        return (module, name)
    if parts[2] == "proofs":
        raise Lost(f"{module}.{name} is a proof, not a definition")
    if parts[3] == "contracts":
        # (what the toolchain makes of the contracts of a file's functions: that these lend a value, say)
        return (module, name)
    if parts[3] == "declared":
        path = parts[4:-1] if parts[-1] == "TheVariants" else parts[4:]
        return rust.Rust.of(parts[1], "/".join(path[:-1])).type_or_trait(path[-1], name)
    specs = specs_of(module)
    if name in specs.constructors:
        return specs.constructors[name]
    if name in specs.found:
        return specs.found[name]
    raise Lost(f"{specs.path} has no {name}")
