"""What rules found: a file for each rule of each crate, one fact a line.

`pass N` and `fail WHY` are what the gate counts. `proved NAME`, `functions N`, `tests N`, `refused EDIT: WHY` and `weak EDIT: WHY` say
what passed; `note TEXT` is printed at the end; `slow SECONDS FUNCTION` says which functions took long by the clock; `seconds PROCESSOR
CLOCK MIB` and `left MEMORY DISK` say what the rule took; `inputs SUM` what it read.
"""
import os


def path_of(folder, name, rule):
    """Returns the path of a rule's facts below a gate's folder."""
    return f"{folder}/{name}.{rule}"


def read(folder, name, rule):
    """Returns a rule's facts; a failure if the rule left none."""
    try:
        with open(path_of(folder, name, rule), encoding="utf-8") as it:
            return it.read().splitlines()
    except OSError:
        return ["fail never tried"]


def write(folder, name, rule, found):
    """Writes a rule's facts, all or none of them."""
    os.makedirs(folder, exist_ok=True)
    path = path_of(folder, name, rule)
    with open(f"{path}.new", "w", encoding="utf-8") as it:
        it.write("".join(" ".join(fact.splitlines()) + "\n" for fact in found))
    os.replace(f"{path}.new", path)


def of_kind(found, word):
    """Returns what stands behind this word in the facts that begin with it."""
    return [it[len(word) + 1 :] for it in found if it.startswith(f"{word} ")]


def is_well(found):
    """Returns `True` if no fact is a failure."""
    return not of_kind(found, "fail")
