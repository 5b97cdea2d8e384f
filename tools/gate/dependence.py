"""Finds by names which texts of a crate the proof of a function can depend on.

With it, edits of definitions are tried in one check if none of them can have a part in the refusal of another. A proof reads the text of
its function, the files of the proof, and all texts that these name: contracts of functions, types with their invariants, definitions and
lemmas, which name further texts. A name in a file of antt is one of that file or of a `use` line. A name of Rattle is found by its word
only, so each item with that word counts. The result is too large rather than too small.
"""
import collections
import functools
import os
import re

import sources
from project import PARTS, files_below

# a name, or a run of signs: an operator. `◌` marks the place of an operator's argument
WORD = re.compile(r"[\w'](?:[\w'-]*[\w'])?|[^\s\w'(){}\[\],;.◌\"]+")
# the words before what a declaration of antt names
MODIFIERS = {"pub", "abbrev", "unfoldable", "record", "data", "mod", "module"}
DECLARATION = re.compile(r"(?:pub|abbrev|unfoldable|record|data|mod|module)\s|\S+\s*:(?:\s|$)")
# a name with a type inside a declaration: of a module's, a constructor
INNER = re.compile(r"\s+(?:(?:pub|abbrev|unfoldable|record|data)\s+)*([^\s:]+)\s*(?:[:({].*)?$")
# an import: `use` in a file of antt, `ghost use` in a file of Rattle
IMPORT = re.compile(r"^[ \t]*(?:ghost )?use (Rattle\.\S+?)(?:\.\{([^}]*)\})?(?: as (\S+?))?;?[ \t]*$", re.M)
# a lemma or definition that a Rattle text names by its path
CITED = re.compile(r"\b(specs|proofs)::((?:\w+::)*)([\w-]+)")
# the name in a declaration of Rattle
NAMED = re.compile(r"\b(?:const|static|struct|enum|trait|type|fn|union)\s+(?:fn\s+)?(\w+)")
VARIANT = re.compile(r"^[ \t]+(\w+)[ \t]*(?:[,({=]|$)", re.M)
ALIAS = re.compile(r"\b(\w+) as (\w+)\b")
ATTRIBUTE = re.compile(r"^#!\[.*?\][ \t]*$", re.M | re.S)


# an edit changes one text or two, so what was read of the others is kept
kept = functools.lru_cache(maxsize=None)


@kept
def words_of(text):
    """Returns the words of a text."""
    return frozenset(WORD.findall(text))


@kept
def declarations(text):
    """Returns the words and the text of each declaration of a text of antt, without comments and `use` lines.

    A module inside the text counts as one declaration with the names of all that it declares. If a line belongs to none of the
    declarations that are found, the whole text counts as one.
    """
    found, kind, is_clear = [], "", True
    for line in re.sub(r"(?m)--.*$", "", text).split("\n"):
        first = next(iter(line.split()), "")
        if not first or first == "use" and not line.startswith(" "):
            continue
        if DECLARATION.match(line):
            words = line.split()
            kind = next((it for it in ("data", "module") if it in words[:3]), "")
            found.append([set(words_of(next((it for it in words if it not in MODIFIERS), ""))), line])
            continue
        if not found:
            found.append([set(), ""])
            is_clear = False
        if line.startswith(" "):
            inner = INNER.match(line)
            found[-1][0] |= words_of(inner[1]) if inner and kind else set()
        else:
            own = words_of(line.partition(" = ")[0])
            is_clear = is_clear and (first == "unfolding" or first[0] in "})]" or not found[-1][0].isdisjoint(own))
        found[-1][1] += f"\n{line}"
    if is_clear:
        return [(frozenset(named), text) for named, text in found]
    names = set().union(*(named for named, _ in found), *(words_of(line.partition(" ")[0]) for _, text in found for line in text.split("\n")))
    return [(frozenset(names), "\n".join(text for _, text in found))]


@kept
def items(path, text):
    """Returns the items of a text of Rattle, without comments and literals. Each has its words and its text, and a function also the end
    of its full name and its body. An item of `impl Tr for Ty` counts as one of Ty and Tr, since an operator calls it without its name."""
    shape, found, rest, at = sources.shape_of(text), [], [], 0
    for name, head, start, end in sources.bodies(shape):
        # attributes stand before the head
        begin = max(at, *(shape.rfind(it, at, head) + 1 for it in ("\n\n", "}\n", "{\n", ";\n")))
        rest.append(shape[at:begin])
        inside = sources.IMPL.findall(shape[:head]) if shape[:head].rpartition("\n")[2].startswith(" ") else []
        types = inside[-1][:2] if inside and inside[-1][0] else ()
        found.append((frozenset([name, *types]), shape[begin:start], sources.name_of(path, name, shape[:head]), shape[start:end]))
        at = end
    parts, is_attribute = [""], False
    for line in "".join([*rest, shape[at:]]).split("\n"):
        if re.match(r"#|(?!where\b)\w", line) and not is_attribute:
            parts.append("")
        is_attribute = line.startswith("#") or is_attribute and not re.match(r"\w", line)
        parts[-1] += f"{line}\n"
    for part in parts:
        named = {*NAMED.findall(part), *(it for names in sources.IMPL.findall(part) for it in names if it)}
        named |= set(VARIANT.findall(part)) if "enum" in part else set()
        found.append((frozenset(named), part, None, ""))
    return found


@kept
def matches(pattern, text):
    """Returns the matches of a pattern in a text without comments and literals; those of imports in the text as it is."""
    return pattern.findall(text if pattern is IMPORT else sources.shape_of(text))


def is_of_proof(path, end):
    """Returns `True` if this is a file of the proof of the function of this name's end. The folder of a type's method can have the type's
    arguments behind its name."""
    *types, name = end.split("::")
    folders = os.path.dirname(path).split("/")
    is_of_type = not types or (len(folders) > 1 and folders[-2].startswith(types[-1]))
    return folders[0] == "proofs" and folders[-1] == name and is_of_type


def texts_of(folder):
    """Returns the texts of a crate's sources, definitions and proofs by their paths below its folder."""
    found = {}
    for path in [it for part in PARTS for it in files_below(f"{folder}/{part}") if it.endswith((".rt", ".antt"))]:
        with open(path, encoding="utf-8") as it:
            found[os.path.relpath(path, folder)] = it.read()
    return found


class Reach:
    """The items of a crate's texts, and the meanings of the names in each file."""

    def __init__(self, name, texts):
        self.name, self.texts = name, texts
        # The declarations by file and word. Each has its file, its words, and its text if it is one of Rattle. The key of a name of Rattle
        # has no file.
        self.named, self.functions, self.always = collections.defaultdict(list), [], set()
        self.imports = collections.defaultdict(set)
        for path, text in self.texts.items():
            self.add(path, text)
        self.types = {word for path, word in self.named if not path and word[:1].isupper()}

    def add(self, path, text):
        """Adds the items and the imports of a file."""
        if path.endswith(".rt"):
            for named, head, end, body in items(path, text):
                for it in named:
                    self.named["", it].append((path, words_of(head), head))
                if end:
                    self.functions.append((end, path, head + body))
            for old, new in matches(ALIAS, text):
                self.named["", new].append((path, words_of(old), ""))
            for it in matches(ATTRIBUTE, text):
                self.always |= {(path, word) for word in words_of(it)} | set(self.cited(it))
        else:
            for named, whole in declarations(text):
                for it in named:
                    self.named[path, it].append((path, words_of(whole), ""))
        for module, names, alias in matches(IMPORT, text):
            self.add_import(path, module, names, alias)

    def add_import(self, path, module, names, alias):
        """Notes the meanings of names that a file imports from a module of this crate."""
        parts = module.split(".")[1:]
        if not parts or parts[0] != self.name:
            return
        file = f"{'/'.join(parts[1:])}.antt"
        for it in filter(None, re.split(r",\s*", names.strip())):
            old, _, new = it.partition(" as ")
            for word in words_of(new or old):
                if file in self.texts:
                    self.imports[path, word] |= {(file, own) for own in words_of(old)}
                else:
                    # made by the kit of a text of Rattle
                    self.imports[path, word] |= {("", own) for own in (*words_of(old), *parts[2:])}
        if not names:
            # a module under another name: all of its declarations
            self.imports[path, alias or parts[-1]] |= {("", it) for it in parts[2:]} | {(file, None)}

    def meaning(self, path, word):
        """Returns the keys of the meanings that a word of this file can have."""
        found = {(path, word)} if path.endswith(".antt") else {("", word)}
        return found | self.imports.get((path, word), set())

    def of(self, end, more=""):
        """Returns the keys of all texts that the proof of a function can depend on, if `more` is added to its text. `end` is the end of the
        function's name. Returns None if no function has this name, or several."""
        found = [it for it in self.functions if sources.is_end_of(it[0], end, self.name) or sources.is_end_of(end, it[0], self.name)]
        if len(found) != 1 or "#[cycle" in found[0][2]:
            return None
        end, path, text = found[0]
        left = [*self.always, *((path, it) for it in words_of(f"{text} {more}")), *self.cited(text)]
        for file, inner in self.texts.items():
            if is_of_proof(file, end):
                left += [(file, it) for it in words_of(re.sub(r"(?m)--.*$", "", inner))]
        return self.closed(left)

    def cited(self, text):
        """Returns the lemmas and definitions that a text of Rattle names by their paths, as words of their files."""
        found = [(f"{part}/{module.strip(':').replace('::', '/')}.antt", name) for part, module, name in CITED.findall(text)]
        return [it for it in found if it[0] in self.texts]

    def closed(self, left):
        """Returns the keys of all declarations that these words of files lead to."""
        words, keys, left = set(), set(), list(left)
        while left:
            path, word = left.pop()
            if (path, word) in words:
                continue
            words.add((path, word))
            for key in self.meaning(path, word):
                if key[1] is None or (key[0] and key[0] != path and key not in self.named):
                    # a whole file, or a name in another file that isn't found there
                    left += [it for it in self.named if it[0] == key[0]]
                elif key not in keys:
                    keys.add(key)
                    for file, more, text in self.named.get(key, []):
                        left += [*((file, it) for it in more), *self.cited(text)]
                    if not key[0] and key not in self.named and word[:1].isupper():
                        # the kit names an impl of Tr for Ty TyTr
                        left += [("", it) for it in self.types if word.startswith(it)]
        return keys


def touched(path, old, new):
    """Returns the keys of the declarations that differ in two texts of a file; None if that isn't clear."""
    def parts(text):
        if path.endswith(".rt"):
            return collections.Counter((named, " ".join(f"{head} {body}".split())) for named, head, _, body in items(path, text))
        return collections.Counter((named, " ".join(whole.split())) for named, whole in declarations(text))

    def lines(text):
        return collections.Counter(re.findall(r"(?m)^[ \t]*(?:pub |ghost )?use .*$", text))

    before, after = parts(old), parts(new)
    changed = [named for named, _ in (before - after) + (after - before)]
    imports = (lines(old) - lines(new)), (lines(new) - lines(old))
    imported = words_of(" ".join(imports[0])) ^ words_of(" ".join(imports[1]))
    if not changed or not all(changed):
        return None
    file = "" if path.endswith(".rt") else path
    return {(file, it) for named in changed for it in named} | {(file, it) for it in imported}
