#!/usr/bin/env python3
"""Prints what callgrind counted of an edge's events, ours beside plain, as a table.

usage: bench/edge_counts.py OURS PLAIN      (folders with callgrind's parts, one at each look at the clock)

A program looks at the clock before and behind each kind of event, with 1,000 stations and then with 65,536. So every second part
is that of a kind. The plain program has no second.
"""
import re
import sys

KINDS = ["new", "take_new", "local", "remote", "flood", "move", "take_newer", "take_known", "announce", "second"]
SIZES = [1000, 65536]
# The calls that are counted, with the names of each.
CALLS = [("clears", r"memset"), ("copies", r"mem(cpy|move)"), ("memory", r"^(malloc|realloc|calloc)$")]


def counted(path):
    """Returns the instructions of a part, and how often each function was called in it."""
    names, calls, called, total = {}, {}, None, 0
    with open(path, encoding="utf-8") as part:
        for line in part:
            named = re.match(r"c?fn=\((\d+)\)(?: (.*))?$", line)
            if named:
                if named[2]:
                    names[named[1]] = named[2]
                called = named[1] if line.startswith("cfn") else called
            elif line.startswith("calls="):
                calls[called] = calls.get(called, 0) + int(line[6:].split()[0])
            elif line.startswith("totals:"):
                total = int(line.split()[1])
    return total, {names[key]: count for key, count in calls.items()}


def row(folder, kinds, size, kind):
    """Returns what one event of a kind makes on average: its instructions, and the calls of each sort."""
    place = 2 * (SIZES.index(size) * len(kinds) + kinds.index(kind)) + 2
    total, calls = counted(f"{folder}/part.{place}")
    sorts = [sum(count for name, count in calls.items() if re.search(pattern, name)) for _, pattern in CALLS]
    return total / size, [count / size for count in sorts]


def main(ours, plain):
    for size in SIZES:
        print(f"| {size:,} stations | ours | plain | ours / plain | " + " | ".join(name for name, _ in CALLS) + " | plain's |")
        print("|" + "---|" * (5 + len(CALLS)))
        for kind in KINDS:
            mine, calls = row(ours, KINDS, size, kind)
            words = [kind, f"{mine:,.0f}", "", ""]
            others = []
            if kind != "second":
                theirs, others = row(plain, KINDS[:-1], size, kind)
                words[2:] = [f"{theirs:,.0f}", f"{mine / theirs:.2f}"]
            words += [f"{count:.2f}" for count in calls] + [", ".join(f"{count:.2f}" for count in others)]
            print("| " + " | ".join(words) + " |")
        print()


if __name__ == "__main__":
    main(*sys.argv[1:]) if len(sys.argv) == 3 else sys.exit(__doc__)
