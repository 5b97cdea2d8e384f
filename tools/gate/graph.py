"""The gate as a graph of files for ninja: which rule waits for which, and in which order they start.

ninja starts what is ready in the order of its file. Proofs come first, that with the longest chain of other proofs behind it before
all; second builds of programs, edits, tests and looks fill what proofs leave free. Pools hold as many checks of large crates as memory does beside a proof of the
longest chain: one for other proofs, one for edits and searches. Proofs of the chain are in no pool. When they were in that of the
proofs, the next one waited five minutes for a place, and with one pool for all ten.
"""
import subprocess
from concurrent.futures import FIRST_COMPLETED, ThreadPoolExecutor, wait

from calls import free_memory

# in the order in which tasks that are ready start
RULES = ("proof", "backend", "edits", "tests", "house", "layout", "texts")
# The memory in MiB of the largest crates' checks, as measured: of a proof with two jobs, as those of the longest chain have, and of
# another check, which has one job.
PROOF, CHECK = 5500, 3500
# how many crates below a crate make it large
MANY = 15
HEAD = """builddir = {folder}
{pools}
rule work
  command = {command} rule $rule $crate
  description = $crate $rule
build always: phony
"""


def steps(project, crates, rules):
    """Returns the rules of these crates, each with its crate, in the order in which they start: a library has no second build."""
    return [(rule, name) for rule in rules for name in longest_first(project, crates) if rule != "backend" or project.is_program(name)]


def needs_of(project, rules, rule, name):
    """Returns the rules and crates that this rule of a crate waits for, if these are the rules that are done."""
    proof = ("proof", name)
    needs = {"proof": [("proof", it) for it in project.below[name]], "backend": [proof], "edits": [proof], "house": [proof, ("edits", name)]}
    return [it for it in needs.get(rule, []) if it[0] in rules]


def lines_above(project, crates):
    """Returns for each crate the most lines of source in a chain that begins with it and leads upwards."""
    found = {}
    for name in reversed(crates):
        above = [found[it] for it in crates if it in found and name in project.below[it]]
        found[name] = project.lines_of(name) + max(above, default=0)
    return found


def longest_first(project, crates):
    """Returns the crates, that with the most lines of source in a chain above it first."""
    above = lines_above(project, crates)
    return sorted(crates, key=lambda it: -above[it])


def longest_chain(project):
    """Returns the chain of crates with the most lines of source, lowest first. No gate ends before the proofs of such a chain."""
    above, chain = lines_above(project, project.order), []
    while True:
        ready = [it for it in project.order if not chain or chain[-1] in project.below[it]]
        if not ready:
            return chain
        chain.append(max(ready, key=above.get))


def pool_of(project, rule, name, pools, chain):
    """Returns the pool of a rule that takes as much memory as a large crate's check, or None if the rule takes less. A proof of the
    longest chain has a pool only if this pool is for all large checks."""
    if rule not in ("proof", "backend", "edits", "house") or len(project.reach(name)) <= MANY:
        return None
    if rule == "proof" and name in chain and "all" not in pools:
        return None
    kind = "proofs" if rule in ("proof", "backend") else "edits"
    return kind if kind in pools else next(iter(pools))


def pools_for(memory):
    """Returns how many checks of large crates these MiB carry beside a proof of the longest chain: other proofs and other checks. Only
    one pool if one check fits beside it, or none."""
    places = (memory * 85 // 100 - PROOF) // CHECK
    if places < 2:
        return {"others": 1} if places == 1 else {"all": 1}
    proofs = min(2, places - 1)
    return {"proofs": proofs, "edits": places - proofs}


def ninja_file(project, crates, rules, command):
    """Returns the text of a build.ninja that does these rules of these crates, each by this command."""
    pools, chain = pools_for(free_memory()), longest_chain(project)
    told = "\n".join(f"pool {name}\n  depth = {depth}" for name, depth in pools.items())
    parts = [HEAD.format(pools=told, command=command, folder=project.gate)]
    for rule, name in steps(project, crates, rules):
        waits = " ".join([*(f"{project.gate}/{crate}.{it}" for it, crate in needs_of(project, rules, rule, name)), "always"])
        pool = pool_of(project, rule, name, pools, chain)
        line = f"  pool = {pool}\n" if pool else ""
        parts.append(f"build {project.gate}/{name}.{rule}: work | {waits}\n  rule = {rule}\n  crate = {name}\n{line}")
    return "\n".join(parts)


def run_without_ninja(project, crates, rules, command, jobs):
    """Does what ninja does, in the same order, where there is no ninja."""
    left = steps(project, crates, rules)
    pools, chain, done, running = pools_for(free_memory()), longest_chain(project), set(), {}

    def can_start(step):
        if not done.issuperset(needs_of(project, rules, *step)):
            return False
        pool = pool_of(project, *step, pools, chain)
        return pool is None or sum(pool_of(project, *it, pools, chain) == pool for it in running.values()) < pools[pool]

    with ThreadPoolExecutor(jobs) as pool:
        while left or running:
            for step in [it for it in left if can_start(it)][: jobs - len(running)]:
                if can_start(step):
                    left.remove(step)
                    words = [*command.split(), "rule", *step]
                    running[pool.submit(subprocess.run, words, cwd=project.top, stdin=subprocess.DEVNULL, check=False)] = step
            for it in wait(running, return_when=FIRST_COMPLETED).done:
                done.add(running.pop(it))
