"""Copies of functions for edits, so that two edits of one function are tried in one check.

A copy has the text of the function with the edit applied, and a name of its own. It stands right after the function, with the same
attributes and the same contract, and its proof has the same files. No other function calls it. So its goals are those of the function with
this edit. A function has no copy if it is a method of a trait or calls itself, if it has a closure with a proof of its own, or if its
proof is written as a whole.
"""
import os
import re

import sources
from project import files_below

# the words of an error about a name or a module that isn't there
UNFOUND = re.compile(r"is not in scope|was not admitted|has no `|no module|not found")


class Copy:
    """A copy of a function: the file of the function and the end of its name, the end of the copy's name, the copy's text, and the files
    of its proof by their paths."""

    def __init__(self, file, end, own, text, proof):
        self.file, self.end, self.own, self.text, self.proof = file, end, own, text, proof

    def is_read_in(self, said, goal):
        """Returns `True` if a check has read the answers of the copy and found all modules that they name: it refused the answer for this
        goal, which isn't there, and reported no other missing name but a field."""
        errors = [line for line in said.splitlines() if any(f"{path}:" in line for path in self.proof)]
        others = [line for line in errors if f"`{goal}`" not in line]
        return len(others) < len(errors) and not any(UNFOUND.search(line) for line in others)


def place_of(file, text, end):
    """Returns the places in a text at which a function, its head and its body begin, and at which it ends; None if it isn't there."""
    shape, at = sources.shape_of(text), 0
    for name, head, start, stop in sources.bodies(shape):
        if sources.name_of(file, name, shape[:head]) == end:
            # attributes and comments stand before the head
            return max(at, *(shape.rfind(it, at, head) + 1 for it in ("\n\n", "}\n", "{\n", ";\n"))), head, start, stop
        at = stop
    return None


def copy_of(edit, crate, folder, proved, number):
    """Returns a copy for this edit of one function's body, or None if the function can have none. `number` tells copies apart."""
    if len(edit.functions) != 1 or len(edit.texts) != 1:
        return None
    (end,), ((file, text),) = edit.functions, edit.texts.items()
    full, place = [it for it in proved if sources.is_end_of(end, it, crate)], place_of(file, text, end)
    *types, name = end.split("::")
    if len(full) != 1 or place is None or "+" in full[0] or any(f"::fn::{name}::" in it for it in proved):
        return None
    begin, head, start, stop = place
    shape = sources.shape_of(text)
    inside = sources.IMPL.findall(shape[:head])[-1:] if shape[:head].rpartition("\n")[2].startswith(" ") else []
    if any(of_trait or trait for of_trait, _, trait in inside) or re.search(rf"\b{name}\b", shape[start:stop]):
        return None
    own = f"{name}_copy{number}"
    at = text.index(name, head)
    parts = full[0].split("::")[1:]
    old, new = "/".join(["proofs", *parts]), "/".join(["proofs", *parts[:-1], own])
    proof = proof_of(folder, old, new, f".proofs.{'.'.join(parts)}.", f".proofs.{'.'.join([*parts[:-1], own])}.")
    whole = f"{text[begin:at]}{own}{text[at + len(name) : stop]}"
    return None if proof is None else Copy(file, end, "::".join([*types, own]), whole, proof)


def proof_of(folder, start, to, old, new):
    """Returns the files of a proof in another folder with this module's name replaced; None if it is written as a whole."""
    found = {f"{to}/Answers.antt": ""}
    for path in files_below(f"{folder}/{start}"):
        inner = os.path.relpath(path, f"{folder}/{start}")
        if inner not in ("Answers.antt", "Invariants.antt"):
            return None
        with open(path, encoding="utf-8") as it:
            found[f"{to}/{inner}"] = it.read().replace(old, new)
    return found


def with_copies(texts, copied, originals, answer):
    """Returns the texts with these copies, each right after its function, and with the files of their proofs, to whose answers `answer` is
    added. `originals` has the texts of files that no edit changes."""
    texts = dict(texts)
    for it in copied:
        text = texts.get(it.file, originals[it.file])
        *_, stop = place_of(it.file, text, it.end)
        texts[it.file] = f"{text[:stop]}\n\n{it.text.strip(chr(10))}{text[stop:]}"
        texts.update({path: inner + (answer if path.endswith("/Answers.antt") else "") for path, inner in it.proof.items()})
    return texts
