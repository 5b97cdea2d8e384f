"""Reads Rattle sources as far as these tools need it: where a function's body is, and how a check calls the function."""
import collections
import os
import re

# a comment, or a literal
TOKEN = re.compile(r'//[^\n]*|/\*.*?\*/|b?"(?:\\.|[^"\\])*"|b?\'(?:\\[^\n]+?|[^\'\\\n])\'', re.S)
# what stands before a brace that opens a clause, and no body
CLAUSE = re.compile(r"\b(?:requires|ensures|ghost)\b[^{};]*$")
IMPL = re.compile(
    r"^(?:unsafe )?impl\b(?:<[^{\n]*?>(?= ))?\s+(?:(?:\w+::)*(\w+)(?:<[^{\n]*?>)?\s+for\s+)?&?(\w+)"
    r"|^(?:pub(?:\([^)]*\))? )?(?:unsafe )?trait (\w+)",
    re.M,
)


def shape_of(text):
    """Returns a source's text with blanks for its comments and literals, each character at its place."""
    return TOKEN.sub(lambda it: re.sub(r"[^\n]", " ", it[0]), text)


def closed(shape, start):
    """Returns the place behind the brace that closes the one which opens here."""
    depth = 0
    for it in re.finditer(r"[{}]", shape[start:]):
        depth += 1 if it[0] == "{" else -1
        if depth == 0:
            return start + it.end()
    return len(shape)


def head_end(shape, at):
    """Returns where the next opening brace or semicolon is, or None. One in brackets is part of an array's type."""
    depth = 0
    for it in re.finditer(r"[\[\]{;]", shape[at:]):
        depth += {"[": 1, "]": -1}.get(it[0], 0)
        if depth == 0 and it[0] in "{;":
            return at + it.start()
    return None


def body_of(shape, at):
    """Returns from where to where the body goes of the function whose name ends here, or None if it has none."""
    while True:
        start = head_end(shape, at)
        if start is None or shape[start] == ";":
            return None
        end = closed(shape, start)
        if not CLAUSE.search(shape[at:start]):
            return start, end
        at = end


def bodies(shape):
    """Returns of each function with a body its name, where its head begins, and from where to where the body goes. A function
    inside another's body is part of that."""
    found, at = [], 0
    for head in re.finditer(r"(?<!ghost )\bfn (\w+)", shape):
        body = None if head.start() < at else body_of(shape, head.end())
        if body:
            found.append((head[1], head.start(), *body))
            at = body[1]
    return found


def type_in(head):
    """Returns the name that a check prints for the type of an impl, or for a trait, by the match of its head."""
    of_trait, kind, trait = (it or "" for it in head.groups())
    is_parameter = kind and re.match(rf"(?:unsafe )?impl<(?:[^{{]*, )?{kind}\b[:,>]?", head[0])
    return ("Any" if is_parameter else kind) + of_trait or trait


def name_of(path, name, before):
    """Returns the end of a function's name, as a check prints it: with its type if it is a method, else with its module.

    `before` is the shape of the source before the function. Of `impl Tr for Ty` a check prints TyTr, of `impl<T> Tr for T` AnyTr, of
    `impl Ty` Ty; and a type's module can be another than that of its impl.
    """
    types = [type_in(it) for it in IMPL.finditer(before)]
    if before.rpartition("\n")[2].startswith(" ") and types:
        return f"{types[-1]}::{name}"
    module = [it for it in os.path.splitext(path)[0].split("/")[1:] if it not in ("lib", "main", "mod")]
    return "::".join([*module, name])


def function_at(path, text, old):
    """Returns the end of the name of the function in whose body this text stands, or None."""
    at, shape = text.index(old), shape_of(text)
    for name, head, start, end in bodies(shape):
        if start < at and at + len(old) < end:
            return name_of(path, name, shape[:head])
    return None


def is_end_of(end, full, crate):
    """Returns `True` if this is the function's full name, or the end of it. Of `impl Ty<Arg<T>>` a check prints Ty+Arg+T."""
    full = re.sub(r"(?<=\w)(?:\+\w+)+(?=::)", "", full)
    return full in (end, f"{crate}::{end}") or full.endswith(f"::{end}")


def without_tests(shape):
    """Returns a source's shape without its module of tests."""
    inside = re.search(r"#\[cfg\(test\)\]\s*mod \w+\s*\{", shape)
    return shape[: inside.start()] + shape[closed(shape, inside.end() - 1) :] if inside else shape


def sources_in(folder):
    """Returns the shapes of a crate's sources by their paths below its folder, the files of its tests left out."""
    found = {}
    for at, _, files in os.walk(f"{folder}/src"):
        for file in sorted(files):
            path = os.path.relpath(f"{at}/{file}", folder)
            if path.endswith(".rt") and not re.match(r"src/(.*/)?tests(\.rt|/)", path):
                with open(f"{at}/{file}", encoding="utf-8") as it:
                    found[path] = shape_of(it.read())
    return found


def with_argument(end, proved):
    """Returns the proved functions of this end's trait with an argument: of two `impl From<A> for Ty` a check prints TyFromA::from."""
    kind, _, name = end.rpartition("::")
    pattern = re.compile(rf"(?:^|::){re.escape(kind)}[A-Z]\w*::{re.escape(name)}$")
    return [it for it in proved if kind and pattern.search(it)]


def unproved(folder, crate, proved):
    """Returns the ends of the names of the functions in a crate's sources, tests left out, that no check has called proved."""
    ends = collections.Counter()
    for path, shape in sources_in(folder).items():
        shape = without_tests(shape)
        ends.update(name_of(path, name, shape[:head]) for name, head, *_ in bodies(shape))
    lacking = []
    for end, count in ends.items():
        if not any(is_end_of(end, it, crate) for it in proved):
            lacking += [end] * (count - min(count, len(with_argument(end, proved))))
    return sorted(lacking)
