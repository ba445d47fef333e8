"""The contracts of functions."""
import itertools
import re

from .rust import block_at, bounds_of, bracketed, doc_above, headed, parted, rust_words, sources
from .words import OWN, STD_TYPES, Definition, Lost, indent_of


def functions(name):
    """The files and lines in which a public function of this name stands: `run`, `CRATE::run`, `CRATE::MODULE::run`,
    `CRATE::Type::new`, `Type::new`."""
    *path, last = name.split("::")
    crates = [path.pop(0)] if path and path[0] in OWN else sorted(OWN)
    for folder in crates:
        if folder.endswith(("_tests", "_testing")):
            continue
        for rust in sources(folder):
            for number, line in enumerate(rust.lines):
                if re.match(rf"\s*pub fn {last}\b", line) and path in ([], [rust.module], [owner_of(rust, number)]):
                    yield rust, number


def around(rust, at):
    """The line that begins the impl or the trait in which a line stands, if it does."""
    begin = next((n for n in range(at, -1, -1) if re.match(r"(?!where$)\w", rust.lines[n])), at)
    return begin if begin != at and re.match(r"(?:pub )?(?:impl|trait)\b", rust.lines[begin]) else None


def head_of(rust, begin):
    """The head of an impl or a trait, in one line."""
    end = next(n for n in range(begin, len(rust.lines)) if rust.lines[n].endswith(("{", "{}")))
    return re.sub(r",? \{\}?$", "", " ".join(line.strip() for line in rust.lines[begin:end + 1]))


def owner_of(rust, at):
    """The type of whose impl a method is."""
    begin = around(rust, at)
    return None if begin is None else owner_in(head_of(rust, begin))


def owner_in(head):
    """The type of an impl, by its head."""
    head = head.split(" where ")[0]
    generics = f"<{bracketed(head)}>" if head.startswith("impl<") else ""
    return re.match(r"\w*", head.removeprefix("impl").removeprefix(generics).strip().rpartition(" for ")[2])[0]


def contract(name):
    """A function's contract, or of NAME:CLAUSE that clause alone."""
    name, _, clause_name = name.partition(":") if "::" not in name else (name, "", "")
    found = list(functions(name))
    if len(found) != 1:
        others = "".join(f"\n  {rust.crate}::{rust.module.replace('/', '::')}::{name.rpartition('::')[2]}" for rust, _ in found)
        raise Lost(f"{len(found)} public functions have the name {name}{': take one of' if found else ''}{others}")
    return contract_at(*found[0], clause_name)


def contract_at(rust, at, clause_name=""):
    """The contract of the function that begins at a line."""
    depth, text = indent_of(rust.lines[at]), []
    for line in rust.lines[at:]:
        clauses = re.search(r"\b(?:requires|ensures)\b", " ".join(text + [line]))
        if text and line[depth:].startswith("{"):
            break
        text.append(line[depth:])
        is_whole = is_closed(text)
        if line.endswith(";") and is_whole or line.endswith((" {", " {}")) and not clauses:
            text[-1] = re.sub(r";$| \{\}?$", "", text[-1])
            break
        if line.endswith(" {}") and "ensures" not in line:
            break
    text = [line for line in text if line.strip() and not line.strip().startswith("//")]
    it = Definition(rust.path, re.match(r"(?:pub )?fn (\w+)", text[0])[1], doc_above(rust.lines, at), text)
    it.rust, it.names = rust, []
    whole = " ".join(text)
    signature = re.split(r"\b(?:requires|ensures)\b", whole)[0]
    it.bounds = bounds_of(signature)
    own, begin = set(), around(rust, at)
    if begin is not None:
        head = head_of(rust, begin)
        it.bounds = {**bounds_of(head), **it.bounds}
        it.text = [headed(head) if "trait " in head else head] + [f"    {line}" for line in text]
        if head.startswith("pub trait"):
            own = set(re.findall(r"ghost (\w+):", "\n".join(block_at(rust.lines, begin))))
    if clause_name:
        first = [n for n, line in enumerate(text) if re.match(rf"\s*ensures {clause_name} ", line)]
        if len(first) != 1:
            raise Lost(f"{rust.path}: {it.name} has no clause {clause_name}")
        last = next(n for n in range(first[0], len(text)) if is_closed(text[first[0]:n + 1]))
        kept = [line for n, line in enumerate(text) if first[0] <= n <= last or line.strip().startswith("requires ")]
        whole = " ".join(line.strip() for line in kept)
    generics = f"<{bracketed(signature)}>" if re.match(r"[^(]*<", signature) else ""
    arguments = signature.replace(generics, "", 1) if generics else signature
    arguments, _, bounds = arguments.partition(" where ")
    arguments = arguments.partition("(")[2]
    parameters = set(re.findall(r"(?:^|,)\s*(?:mut )?(\w+)\s*:", arguments))
    if clause_name:
        it.text = in_brief(text, arguments, bounds, kept)
    clauses = re.findall(r"(?:requires|ensures)\*?\s*\w*\s*\{(.*?)\}\s*(?=requires|ensures|$)", whole)
    if len(clauses) != len(re.findall(r"(?<!\w)(?:requires|ensures)(?!\w)", whole)):
        raise Lost(f"{rust.path}: {it.name}: can't tell its clauses apart")
    for clause in clauses:
        clause = re.sub(r"\bSelf(?:\.\w+)?", "_", clause)
        it.names += rust.ghost(clause, rust.imports, parameters | set(it.bounds) | own, it)
    for part in parted(arguments) + re.findall(r"Fn\w*(\(.*)", generics):
        named = re.match(r"\s*(?:mut )?(\w+)\s*:", part)
        if clause_name and not (named and re.search(rf"\b{named[1]}\b", whole)):
            continue
        for word in rust_words(part):
            if word not in it.bounds and word not in STD_TYPES:
                it.names.append(rust.named(word))
    return it


def is_closed(lines):
    """Whether as many braces are closed as were opened."""
    return " ".join(lines).count("{") == " ".join(lines).count("}")


def in_brief(text, arguments, bounds, clauses):
    """A function's text with those of its parameters and bounds alone that some clauses name."""
    said = " ".join(clauses)
    taken, _, gives = arguments.partition(") ->") if ") ->" in arguments else (arguments.strip().removesuffix(")"), "", "")
    parts = [part.strip() for part in parted(taken) if part.strip()]
    kept = [part if re.search(rf"\b{part.split(':')[0]}\b", said) else ".." for part in parts]
    brief = [part for part, _ in itertools.groupby(kept)]
    where = ", ".join(part.strip() for part in parted(bounds) if part.strip() and re.search(rf"\b{part.split(':')[0].strip()}\b", said))
    head = f"{text[0].partition('(')[0]}({', '.join(brief)})" + (f" ->{gives.rstrip()}" if gives else "")
    return [head, *([f"where {where}"] if where else []), *clauses]
