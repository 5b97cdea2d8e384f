"""Adds up what the rules found."""
import collections

import facts
import graph
from calls import processors
from project import kit_version

COLUMNS = {"proof": "proof", "backend": "proof", "house": "looks", "layout": "looks", "texts": "looks", "tests": "tests", "edits": "edits"}
TOLD = {"fail": "FAILED ", "note": "", "weak": "an edit that shows little: "}
KINDS = ("proof", "looks", "tests", "edits")
MOST_SLOW = 12


def print_costs(found):
    """Prints the processor seconds of each crate by kind, and the most memory of one process."""
    took, most = collections.defaultdict(float), collections.defaultdict(int)
    for (name, rule), its in found.items():
        for line in facts.of_kind(its, "seconds"):
            seconds, _, memory = line.split()
            took[name, COLUMNS.get(rule, "looks")] += float(seconds)
            most[name] = max(most[name], int(memory))
    print(f"{'processor seconds':<20}" + "".join(f"{it:>8}" for it in KINDS) + "   MiB")
    for name in sorted(most, key=lambda it: -sum(took[it, kind] for kind in KINDS)):
        print(f"{name:<20}" + "".join(f"{took[name, it]:8.0f}" for it in KINDS) + f"{most[name]:6}")
    sums = [sum(took[it, kind] for it in most) for kind in KINDS]
    print(f"{'all':<20}" + "".join(f"{it:8.0f}" for it in sums) + f"   {sum(took.values()) / 60:.0f} minutes")


def print_slow(found):
    """Prints the functions whose proofs, or whose refusals in checks of edits, took most seconds by the clock."""
    slow = [(int(seconds), name, rule, function) for (name, rule), its in found.items() for seconds, function in map(str.split, facts.of_kind(its, "slow"))]
    for seconds, name, rule, function in sorted(slow, reverse=True)[:MOST_SLOW]:
        print(f"gate: slow, by the clock: {name} {rule}: {seconds} s for {function}")


def print_room(found):
    """Prints which kit this was, how many processors there are, and the least memory and disk that were left."""
    left = [[int(number) for number in line.split()] for its in found.values() for line in facts.of_kind(its, "left")]
    if left:
        memory, disk = map(min, zip(*left))
        print(f"gate: {kit_version()}; {processors()} processors; at least {memory} MiB of memory and {disk} MB of disk were left")


def print_total(project, crates, rules):
    """Prints what these rules of these crates found. The last line is 'N passed, M failed'. Returns `True` if none failed."""
    found = {(name, rule): facts.read(project.gate, name, rule) for rule, name in graph.steps(project, crates, rules)}
    if "texts" in rules:
        found["repository", "files"] = facts.read(project.gate, "repository", "files")
    print_costs(found)
    print_slow(found)
    print_room(found)
    for (name, rule), its in found.items():
        for line in its:
            word, _, rest = line.partition(" ")
            if word in TOLD:
                print(f"gate: {TOLD[word]}{name} {rule}: {rest}")
    count = collections.Counter()
    for its in found.values():
        for word in ("functions", "tests", "pass"):
            count[word] += sum(int(it) for it in facts.of_kind(its, word))
        count["refused"] += len(facts.of_kind(its, "refused"))
        count["fail"] += len(facts.of_kind(its, "fail"))
        count["lacking"] += sum(it.startswith("no check has proved") for it in facts.of_kind(its, "fail"))
        count["crates"] += any(it.startswith("functions ") for it in its) and facts.is_well(its)
    print(f"gate: {count['functions']} functions proved, {count['lacking']} of the sources not among them")
    print(f"gate: {count['crates']} crates proved, {count['tests']} tests run unproved, {count['refused']} edits refused")
    print(f"{count['pass']} passed, {count['fail']} failed", flush=True)
    return not count["fail"]
