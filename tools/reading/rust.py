"""Reads Rattle's sources (.rt) so far as tools/audited needs it: items, what is public, clauses, ghost members and models."""

import re
from dataclasses import dataclass, field
from typing import Dict, Iterator, List, Optional, Set, Tuple

from antt import OPENING, Path, Scope, imports

REMARK = re.compile(r"//[^\n]*|\"(?:\\[\s\S]|[^\"\\])*\"|(?<![\w'])b?'(?:\\[^'\n]+|[^\\'\n])'")
HEAD = re.compile(
    r"(?P<pub>pub(?:\([^)]*\))?\s+)?(?:(?:const|unsafe|async|final|default)\s+(?=fn|unsafe|impl|trait))*"
    r"(?P<kind>fn|struct|enum|trait|impl|mod|use|type|const|static|ghost use|ghost)\b\s*(?P<name>\w*)")
ATTRIBUTE = re.compile(r"#!?\[")
CLAUSE = re.compile(r"\b(requires|ensures|ghost)\b[\s\w*:=]*$")
CAPITAL = re.compile(r"(?:\b\w+::)*\b[A-Z]\w*")
PARAMETER = re.compile(r"\b(\w+)\s*:(?!:)")
# ghost members that are proofs, or of use only to proofs: their statements are the traits' own
PROOFS = {"coded", "laws", "total", "matches_partial_cmp", "matches_eq", "respects_eq", "inverse", "inverse_ok", "size"}


@dataclass
class Clause:
    """A text that says names of definitions, with what they mean there and the parameters that it may say."""

    text: str
    scope: Scope
    module: Path
    bound: Set[str] = field(default_factory=set)
    name: str = ""  # a ghost member's


@dataclass
class Item:
    """A function, type, trait, constant or `impl` of a module."""

    kind: str
    name: str
    is_public: bool
    line: int
    head: str  # from behind the name up to the body, clauses left out
    clauses: List[Clause] = field(default_factory=list)  # a function's, a trait's and an impl's ghost members, a struct's facts
    proofs: List[Clause] = field(default_factory=list)
    fields: str = ""
    inner: List["Item"] = field(default_factory=list)  # a trait's and an impl's functions


@dataclass
class Source:
    """A file, as a module of a crate."""

    path: Path  # the crate, then the modules
    file: str
    scope: Scope
    items: List[Item] = field(default_factory=list)
    uses: Dict[str, Tuple[bool, Path]] = field(default_factory=dict)
    modules: Dict[str, bool] = field(default_factory=dict)  # by name, whether it is public


def blanked(text: str) -> str:
    """The text with blanks for comments and literals, each character in its place."""
    return REMARK.sub(lambda it: re.sub(r"[^\n]", " ", it[0]), text)


def closed(text: str, at: int) -> int:
    """The place behind the bracket that closes the one which opens here."""
    depth = 0
    for place in range(at, len(text)):
        depth += (text[place] in OPENING) - (text[place] in OPENING.values())
        if depth == 0:
            return place + 1
    raise ValueError(f"a bracket that isn't closed: {text[at:at + 40]!r}")


def source_of(text: str, path: Path, file: str) -> Source:
    """A file's items."""
    shape = blanked(text)
    source = Source(path, file, imports(outside(shape)))
    for item in items(shape, 0, len(shape), source, source.scope):
        source.items.append(item)
    return source


def outside(text: str) -> str:
    """The text without what stands in the braces of blocks; those of a `use` stay."""
    kept, at = [], 0
    for brace in re.finditer(r"\{", text):
        if brace.start() < at or re.search(r"use [\w.:]+\s*$", text[:brace.start()]):
            continue
        kept.append(text[at:brace.start()])
        at = closed(text, brace.start())
    return "".join([*kept, text[at:]])


def items(text: str, at: int, end: int, source: Source, scope: Scope) -> Iterator[Item]:
    """The items that stand from here to there, without those of tests."""
    is_test = False
    while at < end:
        if text[at].isspace():
            at += 1
        elif ATTRIBUTE.match(text, at):
            stop = closed(text, text.index("[", at))
            is_test = is_test or re.match(r"#\[(?:test|cfg\(test\))\]", text[at:stop]) is not None
            at = stop
        else:
            head = HEAD.match(text, at)
            if not head:
                raise ValueError(f"{source.file}:{text.count(chr(10), 0, at) + 1}: what is this? {text[at:at + 40]!r}")
            item, at = one_item(text, head, end, source, scope)
            if item and not is_test:
                yield item
            is_test = False


def one_item(text: str, head: "re.Match[str]", end: int, source: Source, scope: Scope) -> Tuple[Optional[Item], int]:
    """An item, if it is one to keep, and where it ends."""
    kind, name, at = head["kind"], head["name"], head.start()
    is_public = (head["pub"] or "").strip() == "pub"
    line = text.count("\n", 0, at) + 1
    if kind in ("use", "mod"):
        stop = text.index(";", at) + 1
        if kind == "mod":
            source.modules[name] = is_public
        else:
            source.uses.update({known: (is_public, path) for known, path in taken(text[head.end("kind"):stop - 1])})
        return None, stop
    if kind in ("ghost use", "type", "const", "static", "ghost"):
        stop = ended(text, at, end)
        return Item(kind, name, is_public, line, text[head.end("name"):stop]), stop
    if kind == "fn":
        return function(text, head, is_public, line, Clause("", scope, source.path))
    return block(text, head, is_public, line, source, scope)


def ended(text: str, at: int, end: int) -> int:
    """The place behind the `;` that ends what begins here, not counting those in brackets."""
    while at < end and text[at] != ";":
        at = closed(text, at) if text[at] in OPENING else at + 1
    return at + 1


def taken(text: str) -> Iterator[Tuple[str, Path]]:
    """What a `use` takes: each name as it is known here, with its path."""
    text = " ".join(text.split())
    brace = text.find("{")
    if brace < 0:
        path, _, known = text.strip().partition(" as ")
        parts = tuple(path.strip().split("::"))
        yield known.strip() or parts[-1], parts
        return
    base = text[:brace].strip()
    for part in split(text[brace + 1:closed(text, brace) - 1]):
        if part.strip() == "self":
            yield base.rstrip(":").split("::")[-1], tuple(base.rstrip(":").split("::"))
        elif part.strip():
            yield from taken(base + part.strip())


def split(text: str) -> Iterator[str]:
    """The parts between commas that stand in no bracket."""
    start = at = 0
    while at < len(text):
        if text[at] == ",":
            yield text[start:at]
            start = at + 1
        at = closed(text, at) if text[at] in OPENING else at + 1
    yield text[start:]


def function(text: str, head: "re.Match[str]", is_public: bool, line: int, empty: Clause) -> Tuple[Item, int]:
    """A function with its clauses, and those of closures in its body among the proofs."""
    told, found, at = parted(text, head.end())
    item = Item("fn", head["name"], is_public, line, told)
    names = {"self", "result", *PARAMETER.findall(told)}
    item.clauses = [Clause(it, empty.scope, empty.module, names) for it in found]
    if text[at] == ";":
        return item, at + 1
    stop = closed(text, at)
    item.proofs = [Clause(it, empty.scope, empty.module) for it in clauses_within(text[at + 1:stop - 1])]
    return item, stop


def parted(text: str, at: int) -> Tuple[str, List[str], int]:
    """A function's head behind its name, without its clauses; these; and where its body begins, or the `;` in its place."""
    heads: List[str] = []
    found: List[str] = []
    last = at
    while text[at] != ";":
        if text[at] != "{":
            at = closed(text, at) if text[at] in "([" else at + 1
            continue
        label = CLAUSE.search(text[last:at])
        if not label:
            break
        stop = closed(text, at)
        heads.append(text[last:last + label.start()])
        found.append(text[at + 1:stop - 1])
        at = last = stop
    return "".join([*heads, text[last:at]]), found, at


def clauses_within(text: str) -> Iterator[str]:
    """The clauses that stand within a function's body."""
    for brace in re.finditer(r"\{", text):
        if CLAUSE.search(text[:brace.start()]):
            yield text[brace.start() + 1:closed(text, brace.start()) - 1]


def block(text: str, head: "re.Match[str]", is_public: bool, line: int, source: Source, scope: Scope) -> Tuple[Item, int]:
    """A struct, an enum, a trait or an impl."""
    kind, at = head["kind"], head.end("kind")
    while text[at] not in "{;":
        at = closed(text, at) if text[at] in "([" else at + 1
    item = Item(kind, head["name"], is_public, line, text[head.end("kind" if kind == "impl" else "name"):at])
    if text[at] == ";":
        item.fields = item.head
        return item, at + 1
    stop = closed(text, at)
    body = text[at + 1:stop - 1]
    if kind in ("struct", "enum"):
        facts = list(re.finditer(r"\bghost\s+\w+\s*:\s*\{", body))
        item.clauses = [Clause(body[it.end():closed(body, it.end() - 1) - 1], scope, source.path) for it in facts]
        item.fields = re.sub(r"\bghost\s+\w+\s*:\s*\{[^{}]*\}", "", body)
        return item, stop
    scope = scope.inner(imports(outside(body)))
    for inner in items(text, at + 1, stop - 1, source, scope):
        if inner.kind == "fn":
            item.inner.append(inner)
        elif inner.kind == "ghost":
            (item.proofs if inner.name in PROOFS else item.clauses).append(
                Clause(inner.head[inner.head.index("{") + 1:inner.head.rindex("}")], scope, source.path, set(), inner.name))
    return item, stop
