"""Makes a kit that isn't this one: links to the kit's folders, another KIT-ID, and scripts whose own names are other ones."""

import ast
import io
import os
import re
import shutil
import subprocess
import tokenize
from typing import Dict, List, Set

INNER = re.compile(r"(?<!\{)\{([^{}]*)\}")
FORMAT = re.compile(r"(?i)r?fr?[\"']")
NO_TEXT = (tokenize.ENDMARKER, tokenize.NEWLINE, tokenize.NL, tokenize.INDENT, tokenize.DEDENT)


def make(folder: str) -> int:
    """Makes the kit in a new folder, and returns how many names of its scripts have changed."""
    told = subprocess.run(["rt", "doc"], stdin=subprocess.DEVNULL, stdout=subprocess.PIPE, text=True, check=True).stdout
    kit = os.path.dirname(told.strip())
    os.makedirs(f"{folder}/bin")
    for name in os.listdir(kit):
        if name not in ("bin", "KIT-ID"):
            os.symlink(f"{kit}/{name}", f"{folder}/{name}")
    scripts = []
    for name in os.listdir(f"{kit}/bin"):
        if is_script(f"{kit}/bin/{name}"):
            shutil.copy2(f"{kit}/bin/{name}", f"{folder}/bin/{name}")
            scripts.append(f"{folder}/bin/{name}")
        else:
            os.symlink(f"{kit}/bin/{name}", f"{folder}/bin/{name}")
    with open(f"{kit}/KIT-ID", encoding="utf-8") as source, open(f"{folder}/KIT-ID", "w", encoding="utf-8") as to:
        to.write(re.sub(r"rattle-kit-\S+", "rattle-kit-other", source.read()))
    return rename(scripts)


def is_script(path: str) -> bool:
    """Returns `True` if this is a script of Python."""
    with open(path, "rb") as stream:
        first = stream.readline(200)
    return path.endswith(".py") or first.startswith(b"#!") and b"python" in first


def rename(paths: List[str]) -> int:
    """Gives each function, class and constant of these scripts another name, and returns how many there are."""
    texts = {}
    for path in paths:
        with open(path, encoding="utf-8") as stream:
            texts[path] = stream.read()
    names = own_names(texts)
    for path, text in texts.items():
        with open(path, "w", encoding="utf-8") as stream:
            stream.write(renamed(text, names))
    return len(names)


def own_names(texts: Dict[str, str]) -> Set[str]:
    """Returns the names that scripts define at their top. A name that is also an attribute of something else, or a script's, stays."""
    names: Set[str] = set()
    for text in texts.values():
        for item in ast.parse(text).body:
            if isinstance(item, (ast.FunctionDef, ast.ClassDef)):
                names.add(item.name)
            elif isinstance(item, ast.Assign):
                names |= {it.id for it in item.targets if isinstance(it, ast.Name)}
    scripts = {os.path.splitext(os.path.basename(it))[0] for it in texts}
    attributes = re.compile(r"(?<!\b%s)\.(\w+)" % "rtlib")
    used = {it for text in texts.values() for it in attributes.findall(text)}
    return names - scripts - used - {"main"}


def renamed(text: str, names: Set[str]) -> str:
    """Returns a script with other names in the place of these. In a format's text only what stands in braces is a name."""

    def word(it: str) -> str:
        return f"of_other_{it}" if it in names else it

    lines, made, at = text.splitlines(keepends=True), [], (1, 0)
    for token in tokenize.generate_tokens(io.StringIO(text).readline):
        if token.type in NO_TEXT:
            continue
        while at[0] < token.start[0]:
            made.append(lines[at[0] - 1][at[1] :])
            at = (at[0] + 1, 0)
        string = token.string
        if token.type == tokenize.NAME:
            string = word(string)
        elif token.type == tokenize.STRING and FORMAT.match(string):
            string = INNER.sub(lambda it: "{" + re.sub(r"\b[A-Za-z_]\w*\b", lambda name: word(name[0]), it[1]) + "}", string)
        made += [lines[token.start[0] - 1][at[1] : token.start[1]], string]
        at = token.end
    return "".join([*made, lines[at[0] - 1][at[1] :], *lines[at[0] :]])
