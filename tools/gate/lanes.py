"""Counts the rules at work, so that a proof gets a second job of a processor that no rule uses. The proofs of the longest chain get one
in any case, except for crates far up, and all other rules give way to them: the gate waits for that chain in the end."""
import contextlib
import fcntl
import os
import time

from calls import free_memory, processors

# crates with fewer lines: a second job would read all crates below once more, some half of their proofs
SMALL = 800
# Crates with as many crates below them, or more, have one job. Each job reads all that is below, and most of their functions call each
# other: two jobs of ev_peers used 1.1 processors, 986 s of a processor and 914 by the clock (2026-11-28). One took 494 (2026-11-26).
FAR = 20
# MiB that have to be free for a second job
ENOUGH = 11_000
# the niceness of a proof beside the longest chain, and of any other rule
OTHER_PROOF, OTHER_RULE = 5, 10


def lanes():
    """Returns how many rules run side by side: GATE_JOBS, or as many as there are processors."""
    return int(os.environ.get("GATE_JOBS") or processors())


@contextlib.contextmanager
def working(folder, lane=""):
    """Marks that this process works on a rule, by a locked file of this folder, which ends with it. `lane` names a further lane of it."""
    os.makedirs(f"{folder}/running", exist_ok=True)
    path = f"{folder}/running/{os.getpid()}{lane}"
    with open(path, "w", encoding="utf-8") as it:
        fcntl.flock(it, fcntl.LOCK_EX)
        try:
            yield
        finally:
            with contextlib.suppress(OSError):
                os.unlink(path)


def at_work(folder):
    """Returns how many lanes work on rules."""
    count = 0
    for name in os.listdir(f"{folder}/running") if os.path.isdir(f"{folder}/running") else []:
        with contextlib.suppress(OSError), open(f"{folder}/running/{name}", encoding="utf-8") as it:
            try:
                fcntl.flock(it, fcntl.LOCK_SH | fcntl.LOCK_NB)
            except BlockingIOError:
                count += 1
    return count


@contextlib.contextmanager
def second(folder):
    """Gives `True` if a lane is idle and memory is free for a second check of this rule, and marks the lane as this rule's meanwhile."""
    if free_memory() <= ENOUGH:
        yield False
        return
    with working(folder, ".second"):
        yield at_work(folder) <= lanes()


def niceness_of(rule, is_in_chain):
    """Returns the niceness of a rule: 0 for a proof of the longest chain. Proofs come before rules that no proof waits for."""
    if rule != "proof":
        return OTHER_RULE
    return 0 if is_in_chain else OTHER_PROOF


def jobs_for(project, name, is_in_chain):
    """Returns how many jobs the crate's proof gets: two if it is neither small nor far up, memory is free, and the gate waits for it or a
    lane is idle. With two lanes it gets one: there the sum of all work is the limit and not the chain, and a second job adds a fifth."""
    if project.lines_of(name) < SMALL or len(project.reach(name)) >= FAR or lanes() < 3:
        return 1
    # what can start beside it has started by then
    time.sleep(1)
    is_wanted = is_in_chain or at_work(project.gate) < lanes()
    return 2 if is_wanted and free_memory() > ENOUGH else 1
