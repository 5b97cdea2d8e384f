"""Reads files of definitions (.antt) so far as tools/audited needs it: what is defined where, and which names it says.

A name that a definition binds itself (a pattern's, a binder's, a field's, after `let`, `λ` or `←`) isn't said by it. A name
is known by where it is defined: `use Rattle.vxlan_wire.specs.Vxlan.{header_of}` takes ("vxlan_wire", "specs", "Vxlan",
"header_of").
"""

import re
from dataclasses import dataclass, field
from typing import Callable, Dict, Iterator, List, Optional, Set, Tuple

Path = Tuple[str, ...]
TOKEN = re.compile(r"[(){}\[\],;|]|\.(?=\s|$)|[^\s(){}\[\],;|]+")
WORD = re.compile(r"[^\s(){}\[\],;|.:=]+")
USE = re.compile(r"^[ \t]*(?:pub )?(?:ghost )?use (?:Rattle\.|(?=mathlib\.|lib\.))([\w.]+?)(?:\.\{([^}]*)\}| as (\S+?)|);?[ \t]*$", re.M)
PARAMETERS = re.compile(r"module _ .* where$")
KINDS = "abbrev pub|abbrev|unfoldable pub|unfoldable|pub record|record|pub data|data|pub"
HEAD = re.compile(rf"(?:{KINDS})\s+([^\s:(]+)|([^\s:(]+)(?= : )")
CONSTRUCTOR = re.compile(r"^\s+(?:pub )?([^\s:]+) :", re.M)
OPENING = {"(": ")", "{": "}", "[": "]"}
NO_NAMES = set("; , | = : → ← × _ record in as where do elim pub if then else".split())


@dataclass
class Scope:
    """What names mean in a file or in a block of one."""

    names: Dict[str, Path] = field(default_factory=dict)
    modules: Dict[str, Path] = field(default_factory=dict)

    def inner(self, other: "Scope") -> "Scope":
        """This scope with another's names before its own."""
        return Scope({**self.names, **other.names}, {**self.modules, **other.modules})

    def meaning(self, said: Path) -> Optional[Path]:
        """Where the name is defined that is written so, as far as imports tell."""
        if said[0] in self.modules and len(said) > 1:
            return (*self.modules[said[0]], said[1])
        for name in (said[0], f"◌{said[0]}◌"):
            if name in self.names:
                return self.names[name]
        return None


@dataclass
class Definition:
    """A definition, with the comment above it."""

    path: Path
    kind: str
    file: str
    first: int
    last: int
    signature: str = ""
    clauses: List[str] = field(default_factory=list)

    @property
    def lines(self) -> int:
        """How many lines it has."""
        return self.last - self.first + 1

    @property
    def constructors(self) -> List[str]:
        """A family's constructors."""
        return CONSTRUCTOR.findall(self.signature) if self.kind == "data" else []


@dataclass
class Module:
    """A file of definitions."""

    path: Path
    file: str
    scope: Scope
    lines: int
    definitions: Dict[str, Definition] = field(default_factory=dict)


def imports(text: str) -> Scope:
    """What the `use` lines of a text take."""
    scope = Scope()
    for use in USE.finditer(text):
        path = tuple(use[1].split("."))
        if use[2] is not None:
            for name in filter(None, (part.strip() for part in use[2].split(","))):
                taken, _, known = name.partition(" as ")
                scope.names[known or taken] = (*path, taken)
        else:
            scope.modules[use[3] or path[-1]] = path
    return scope


def without_remarks(text: str) -> str:
    """The text with blanks for comments and strings, each line in its place."""
    text = re.sub(r'"(?:\\.|[^"\\\n])*"', lambda it: " " * len(it[0]), text)
    return re.sub(r"(?m)(?<!\S)--(?=\s|-|$).*$", "", text)


def flat(text: str) -> str:
    """The text with what stands in a module of parameters at the left edge, each line in its place."""
    lines, is_inside = text.split("\n"), False
    for at, line in enumerate(lines):
        if PARAMETERS.match(line):
            lines[at], is_inside = "", True
        elif is_inside and line.startswith("  "):
            lines[at] = line[2:]
        elif line.strip():
            is_inside = False
    return "\n".join(lines)


def module_of(text: str, path: Path, file: str) -> Module:
    """A file's imports and definitions."""
    text = flat(text)
    module = Module(path, file, imports(without_remarks(text)), text.count("\n"))
    for statement in statements(text):
        add(module, *statement)
    for definition in module.definitions.values():
        for name in (definition.path[-1], *definition.constructors):
            module.scope.names.setdefault(name, (*path, name))
    return module


def statements(text: str) -> Iterator[Tuple[int, int, int, str]]:
    """What begins at the left edge, but for imports: the lines of the comment above, of its beginning and end, and the text."""
    told = text.split("\n")
    lines = without_remarks(USE.sub(lambda it: "\n" * it[0].count("\n"), text)).split("\n")
    starts = [at for at, line in enumerate(lines) if line[:1].strip() and line[0] not in "}])"]
    for at, end in zip(starts, [*starts[1:], len(lines)]):
        last = max(line for line in range(at, end) if lines[line].strip())
        above = at
        while above > 0 and told[above - 1].startswith("--") and not told[above - 1].startswith("-- ----"):
            above -= 1
        yield above + 1, at + 1, last + 1, "\n".join(lines[at:last + 1])


def add(module: Module, above: int, first: int, last: int, text: str) -> None:
    """Adds a statement to a module's definitions: a new one's signature, or a clause of the last one."""
    word = text.split(None, 1)[0]
    current = list(module.definitions.values())[-1] if module.definitions else None
    if word in ("infixl", "infixr", "infix"):
        return
    if word == "unfolding" and current:
        current.signature += " " + text.split(None, 1)[1]
        current.last = last
        return
    if word == "pub" and text.startswith("pub mod "):
        return
    head = HEAD.match(text)
    if current and defines(current.path[-1], text):
        current.clauses.append(text)
        current.last = last
    elif head:
        name = head[1] or head[2]
        kind = next((it for it in ("record", "data", "abbrev", "unfoldable") if it in text[:head.end()].split()), "abstract")
        module.definitions[name] = Definition((*module.path, name), kind, module.file, above, last, text[head.end():])
    else:
        raise ValueError(f"{module.file}:{first}: what is this? {text.splitlines()[0]}")


def defines(name: str, text: str) -> bool:
    """Whether a statement is a clause of the definition of this name."""
    left = left_of(text)
    if name.startswith("◌"):
        return left is not None and name.strip("◌") in left.split()
    return left is not None and left.split()[:1] == [name]


def left_of(text: str) -> Optional[str]:
    """What stands before the `=` of a clause, if it is one."""
    depth = 0
    for token in TOKEN.finditer(text):
        depth += (token[0] in OPENING) - (token[0] in OPENING.values())
        if token[0] == "=" and depth == 0:
            return text[:token.start()]
        if token[0] == ":" and depth == 0:
            return None
    return None


def names_of(definition: Definition, is_constructor: Callable[[Path], bool]) -> Iterator[Path]:
    """The names that a definition says, as they are written."""
    if definition.kind == "data":
        yield from names_in(CONSTRUCTOR.sub(" ", definition.signature), set(definition.constructors))
    else:
        yield from names_in(definition.signature, set())
    for clause in definition.clauses:
        left = left_of(clause) or ""
        bound = set()
        for name in names_in(left.replace("{", " ").replace("}", " "), {definition.path[-1]}):
            if is_constructor(name):
                yield name
            elif len(name) == 1:
                bound.add(name[0])
        yield from names_in(clause[len(left):], bound | {definition.path[-1]})


@dataclass
class Frame:
    """What is bound between two brackets."""

    bound: Set[str]
    is_binding: bool = False  # behind a λ, before its dot
    behind: Set[str] = field(default_factory=set)  # bound behind the closing bracket


def names_in(text: str, bound: Set[str]) -> Iterator[Path]:
    """The names that a term says and doesn't bind itself, as they are written: `a.b` is ("a", "b")."""
    tokens = [it[0] for it in TOKEN.finditer(without_remarks(text))]
    frames = [Frame(set(bound))]
    at = 0
    while at < len(tokens):
        token, after = tokens[at], tokens[at + 1:at + 3] + ["", ""]
        at += 1
        if token in OPENING:
            frames.append(Frame(set()))
            at += taken_by_binder(tokens, at, frames[-1])
        elif token in OPENING.values():
            closed = frames.pop() if len(frames) > 1 else Frame(set())
            frames[-1].bound |= closed.behind
        elif token == ".":
            frames[-1].is_binding = False
        elif token == "λ":
            frames[-1].is_binding = True
        elif token == "let" or token == "pub" and after[1] == ":":
            frames[-1].bound.add(after[0])
            at += 1
        elif after[0] == "←" or frames[-1].is_binding:
            frames[-1].bound.add(token.rstrip("."))
            frames[-1].is_binding = frames[-1].is_binding and not token.endswith(".")
        elif token == "do":
            yield (">>=",)
        elif not (is_label(tokens, at - 1) or token in NO_NAMES or token.startswith(".")):
            name = tuple(part.strip("«»") for part in token.strip(".").split("."))
            if not any(name[0] in frame.bound for frame in frames):
                yield name


def taken_by_binder(tokens: List[str], at: int, frame: Frame) -> int:
    """How many tokens behind a bracket are the names of a binder, `(x y : ..`, which then are bound behind the bracket."""
    end = at
    while end < len(tokens) and WORD.fullmatch(tokens[end]):
        end += 1
    if end == at or end >= len(tokens) or tokens[end] != ":":
        return 0
    frame.behind = set(tokens[at:end])
    return end - at + 1


def is_label(tokens: List[str], at: int) -> bool:
    """Whether a token is the label of a record's field or of an argument: `{ label = ..; label = .. }`."""
    return tokens[at + 1:at + 2] == ["="] and at > 0 and tokens[at - 1] in ("{", ";")
