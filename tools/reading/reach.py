"""Follows names from contracts to the definitions that they stand on, across crates.

A place in the sources is a path: ("vxlan_wire", "specs", "Vxlan", "header_of") a definition, ("vxlan_wire", "src", "vxlan",
"Refusal") a type of Rust, which definitions call `Rattle.vxlan_wire.specs.declared.vxlan.Refusal.Refusal`.
"""

import re
from dataclasses import dataclass, field
from pathlib import Path as File
from typing import Dict, Iterable, Iterator, List, Optional, Set, Tuple

import antt
import rust
from antt import Definition, Module, Path
from rust import CAPITAL, Clause, Item, Source

NAMED = ("struct", "enum", "trait", "type", "const", "static")  # items that definitions may name
ITEMS = (*NAMED, "fn")
Found = Tuple[Source, Item]


@dataclass
class Project:
    """The sources of all crates."""

    crates: List[str]  # the lowest first
    modules: Dict[Path, Module] = field(default_factory=dict)
    sources: Dict[Path, Source] = field(default_factory=dict)

    @property
    def definitions(self) -> Dict[Path, Definition]:
        """All definitions of all specs."""
        return {it.path: it for module in self.modules.values() for it in module.definitions.values()}

    @property
    def variants(self) -> Dict[Path, Path]:
        """The constructors of families, with the family's place."""
        families = [it for it in self.definitions.values() if it.kind == "data"]
        return {(*it.path[:-1], name): it.path for it in families for name in it.constructors}


def lowest_first(text: str) -> List[str]:
    """The crates of crates.txt, each behind those that it stands on."""
    lines = [line.split("#")[0].partition(":") for line in text.splitlines()]
    below = {head.split()[0]: rest.split() for head, colon, rest in lines if colon}
    order: List[str] = []

    def enter(name: str) -> None:
        """Enters a crate behind those below it."""
        for lower in sorted(below[name]):
            if lower in below and lower not in order:
                enter(lower)
        if name not in order:
            order.append(name)

    for name in sorted(below):
        enter(name)
    return order


def project_at(top: File) -> Project:
    """Reads the crates of a repository."""
    project = Project(lowest_first((top / "crates.txt").read_text(encoding="utf-8")))
    for crate in project.crates:
        folder = top / "crates" / crate
        for file in sorted((folder / "specs").rglob("*.antt")):
            path = (crate, "specs", *file.relative_to(folder / "specs").with_suffix("").parts)
            project.modules[path] = antt.module_of(file.read_text(encoding="utf-8"), path, str(file.relative_to(top)))
        for file in sorted((folder / "src").rglob("*.rt")):
            parts = file.relative_to(folder / "src").with_suffix("").parts
            if "tests" not in parts:
                path = (crate,) if parts in (("lib",), ("main",)) else (crate, *parts)
                project.sources[path] = rust.source_of(file.read_text(encoding="utf-8"), path, str(file.relative_to(top)))
    return project


def locate(project: Project, at: Path, name: Path, seen: Tuple[Tuple[Path, Path], ...] = ()) -> Optional[Found]:
    """The item of this name as a module has it: its own, a module's below it, or one that it takes by `use`."""
    while len(name) > 1 and (*at, name[0]) in project.sources:
        at, name = (*at, name[0]), name[1:]
    source = project.sources.get(at)
    if source is None or not name or (at, name) in seen:
        return None
    for item in source.items:
        if item.name == name[0] and item.kind in ITEMS:
            return source, item
    if name[0] in source.uses:
        return meant(project, source, (*source.uses[name[0]][1], *name[1:]), (*seen, (at, name)))
    return None


def meant(project: Project, source: Source, name: Path, seen: Tuple[Tuple[Path, Path], ...] = ()) -> Optional[Found]:
    """The item that a path of Rust means in a file, if it is one of this repository."""
    crate, first = source.path[0], name[0]
    if first == "crate":
        return locate(project, (crate,), name[1:], seen)
    if first == "super":
        return locate(project, source.path[:-1], name[1:], seen)
    if first == "self":
        return locate(project, source.path, name[1:], seen)
    found = locate(project, source.path, name, seen)
    return found or (locate(project, (first,), name[1:], seen) if first in project.crates else None)


def place(found: Optional[Found]) -> Optional[Path]:
    """Where a type or constant of Rust stands, as a path."""
    if found is None or found[1].kind not in NAMED:
        return None
    return (found[0].path[0], "src", *found[0].path[1:], found[1].name)


def declared(project: Project, path: Path) -> Optional[Path]:
    """The type or constant of Rust that a name in `specs.declared` belongs to."""
    at, rest = (path[0],), tuple(part for part in path[3:] if part != "TheConstants")
    while rest and (*at, rest[0]) in project.sources:
        at, rest = (*at, rest[0]), rest[1:]
    return place(locate(project, at, rest[:1]))


class Follower:
    """Follows names from place to place."""

    def __init__(self, project: Project):
        self.project = project
        self.definitions = project.definitions
        self.variants = project.variants
        self.unknown: Set[str] = set()  # names of this repository's specs that stand nowhere
        self.impls: Dict[Path, List[Found]] = {}
        for source in project.sources.values():
            for item in source.items:
                of = place(meant(project, source, self_type(item))) if item.kind == "impl" and self_type(item) else None
                if of:
                    self.impls.setdefault(of, []).append((source, item))

    def place_of(self, path: Optional[Path]) -> Optional[Path]:
        """The place that an imported name stands for, if it is one of this repository's."""
        if path is None or path[0] not in self.project.crates:
            return None
        if path[1:3] == ("specs", "declared"):
            return declared(self.project, path)
        path = self.variants.get(path, path)
        if path not in self.definitions and path[1:3] != ("specs", "contracts"):
            self.unknown.add(".".join(path))
        return path if path in self.definitions else None

    def is_variant(self, path: Optional[Path]) -> bool:
        """Whether a pattern's name is a variant, and so no variable."""
        return path is not None and ("TheVariants" in path or path in self.variants)

    def said_by_clause(self, clause: Clause) -> Iterator[Path]:
        """The places that a clause names."""
        source = self.project.sources[clause.module]
        for name in antt.names_in(clause.text, clause.bound):
            meaning = clause.scope.meaning(name)
            to = self.place_of(meaning) if meaning else place(locate(self.project, source.path, name[:1]))
            if to:
                yield to

    def said_by_head(self, source: Source, text: str) -> Iterator[Path]:
        """The types and constants of Rust that a text of Rust names."""
        for name in CAPITAL.findall(text):
            to = place(meant(self.project, source, tuple(name.split("::"))))
            if to:
                yield to

    def said_by(self, path: Path) -> Iterator[Path]:
        """The places that a definition or a type names."""
        if path in self.definitions:
            definition = self.definitions[path]
            scope = self.project.modules[path[:-1]].scope
            for name in antt.names_of(definition, lambda it: self.is_variant(scope.meaning(it))):
                to = self.place_of(scope.meaning(name))
                if to:
                    yield to
            return
        found = locate(self.project, (path[0], *path[2:-1]), path[-1:])
        if found:
            yield from self.said_by_type(path, *found)

    def models(self, path: Path) -> List[Item]:
        """The model of a type, if it has one."""
        return [it for _, it in self.impls.get(path, []) if trait_of(it)[-1:] == ("Model",)]

    def said_by_type(self, path: Path, source: Source, item: Item) -> Iterator[Path]:
        """What a type is made of where definitions name it: its model's Value, or its fields; a trait's clauses."""
        models = self.models(path)
        if models:
            values = [clause for it in models for clause in it.clauses if clause.name == "Value"]
            yield from (to for clause in values for to in self.said_by_clause(clause))
            return
        for clause in (*item.clauses, *(it for inner in item.inner for it in inner.clauses)):
            yield from self.said_by_clause(clause)
        for text in (item.fields, item.head, *(inner.head for inner in item.inner)):
            yield from self.said_by_head(source, text)

    def reached(self, start: Iterable[Path]) -> Set[Path]:
        """All places that names lead to from these."""
        known: Set[Path] = set()
        waiting = list(start)
        while waiting:
            path = waiting.pop()
            if path not in known:
                known.add(path)
                waiting += self.said_by(path)
        return known


def bare(head: str) -> str:
    """An impl's head without the parameters in front."""
    head = head.strip()
    if head.startswith("<"):
        depth = 0
        for at, sign in enumerate(head):
            depth += (sign == "<") - (sign == ">" and head[at - 1] not in "-=")
            if depth == 0:
                return head[at + 1:].strip()
    return head


def self_type(item: Item) -> Path:
    """The type that an `impl` is about, as it is written, without arguments."""
    name = re.match(r"[\w:]+", bare(item.head).split(" for ")[-1].strip().lstrip("&"))
    return tuple(name[0].split("::")) if name else ()


def trait_of(item: Item) -> Path:
    """The trait that an `impl` is of, as it is written; none where it is a type's own."""
    parts = bare(item.head).split(" for ")
    name = re.match(r"[\w:]+", parts[0].strip()) if len(parts) > 1 else None
    return tuple(name[0].split("::")) if name else ()


def surface(project: Project, at: Path) -> Iterator[Found]:
    """The items that a module's users see; of a program, `main` and what main.rt takes from the modules below."""
    source = project.sources[at]
    is_program = source.file.endswith("src/main.rt")
    for item in source.items:
        if item.kind in ITEMS and (item.is_public or is_program and item.name == "main"):
            yield source, item
    for name, is_public in source.modules.items():
        if is_public and (*at, name) in project.sources:
            yield from surface(project, (*at, name))
    for name, (is_public, path) in source.uses.items():
        found = meant(project, source, path) if is_public or is_program and path[0] == "crate" else None
        if found:
            yield found


@dataclass
class Contracts:
    """Clauses, how many functions have them, and the types beside them."""

    clauses: List[Clause] = field(default_factory=list)
    heads: List[Tuple[Source, str]] = field(default_factory=list)
    functions: int = 0

    def take(self, source: Source, item: Item, is_modelled: bool = False) -> None:
        """Takes the clauses of a function or trait, or of a type itself; the fields of one with a model aren't seen."""
        self.clauses += item.clauses
        self.heads += [(source, item.head), (source, "" if is_modelled else item.fields)]
        self.functions += item.kind == "fn" and bool(item.clauses)
        for inner in item.inner if item.kind == "trait" else []:
            self.take(source, inner)


def public_contracts(follower: Follower, crate: str) -> Contracts:
    """What a crate promises to its users."""
    contracts = Contracts()
    seen: Set[int] = set()
    visible = {place(found) for name in follower.project.crates for found in surface(follower.project, (name,))}
    for source, item in surface(follower.project, (crate,)):
        if id(item) in seen:
            continue
        seen.add(id(item))
        at = place((source, item)) or ()
        contracts.take(source, item, bool(follower.models(at)))
        for where, impl in follower.impls.get(at, []):
            trait = trait_of(impl)
            to = place(meant(follower.project, where, trait)) if trait else None
            if to is None or to in visible:
                contracts.clauses += impl.clauses
            for inner in impl.inner:
                if inner.is_public or trait and (to is None or to in visible):
                    contracts.take(where, inner)
    return contracts


def all_contracts(project: Project, crate: str) -> Contracts:
    """What all functions of a crate promise, private ones too, and what their types and traits say."""
    contracts = Contracts()
    for path, source in project.sources.items():
        for item in source.items if path[0] == crate else []:
            for it in (item, *item.inner):
                contracts.clauses += [*it.clauses, *it.proofs]
                contracts.heads += [(source, it.head), (source, it.fields)]
    return contracts


def named(follower: Follower, contracts: Contracts) -> Set[Path]:
    """The places that contracts name."""
    found = {to for clause in contracts.clauses for to in follower.said_by_clause(clause)}
    return found | {to for source, text in contracts.heads for to in follower.said_by_head(source, text)}


@dataclass
class Reading:
    """What an auditor reads of the definitions, and what not."""

    project: Project
    contracts: Dict[str, Contracts]  # of each crate, the public ones
    public: Set[Path]  # what public contracts lead to
    inner: Set[Path]  # definitions that contracts of private items or proofs in src/ lead to

    def part_of(self, path: Path) -> str:
        """Whether a place is to be read, cited inside alone, or by proofs alone."""
        return "read" if path in self.public else "inner" if path in self.inner else "proofs"

    def definitions(self, crate: str, part: str) -> List[Definition]:
        """A crate's definitions of a part, in the order of the files."""
        return [it for path, it in self.project.definitions.items() if path[0] == crate and self.part_of(path) == part]

    def lines(self, crate: str, *parts: str) -> int:
        """How many lines the definitions of these parts have."""
        return sum(it.lines for part in parts for it in self.definitions(crate, part))

    def types(self, crate: str) -> List[Found]:
        """The types and constants of Rust that contracts and definitions name, in the order of the files."""
        paths = [path for path in self.public if path[:2] == (crate, "src")]
        found = [locate(self.project, (crate, *path[2:-1]), path[-1:]) for path in paths]
        return sorted(filter(None, found), key=lambda it: (it[0].file, it[1].line))

    def unread_files(self, crate: str) -> List[Module]:
        """The files that have definitions, none of them to be read."""
        modules = [it for path, it in self.project.modules.items() if path[0] == crate and it.definitions]
        return [it for it in modules if not self.is_read(it)]

    def is_read(self, module: Module) -> bool:
        """Whether a file has a definition to be read."""
        return any(it.path in self.public for it in module.definitions.values())

    def files_in_order(self, crate: str) -> List[Module]:
        """The files that have definitions to be read, each behind those whose names it takes."""
        order: List[Module] = []

        def enter(module: Module) -> None:
            """Enters a file behind those of its crate that it stands on."""
            if module in order or module in waiting:
                return
            waiting.append(module)
            taken = {path[:-1] for path in module.scope.names.values()} | set(module.scope.modules.values())
            for path in sorted(taken):
                if path[0] == crate and path in self.project.modules:
                    enter(self.project.modules[path])
            order.append(module)

        waiting: List[Module] = []
        for path in sorted(self.project.modules):
            if path[0] == crate:
                enter(self.project.modules[path])
        return [it for it in order if self.is_read(it)]


def reading_of(project: Project) -> Reading:
    """Follows all contracts of a project."""
    follower = Follower(project)
    contracts = {crate: public_contracts(follower, crate) for crate in project.crates}
    public = follower.reached(to for it in contracts.values() for to in named(follower, it))
    inner = follower.reached(to for crate in project.crates for to in named(follower, all_contracts(project, crate)))
    if follower.unknown:
        raise ValueError(f"names that stand nowhere: {', '.join(sorted(follower.unknown))}")
    return Reading(project, contracts, public, inner)
