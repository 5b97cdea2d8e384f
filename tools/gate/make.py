#!/usr/bin/env python3
"""The gate's proofs, edits and tests, each function proved once, by the kit's documented commands.

usage: tools/gate/make.py [CRATE..]      (at the top of the repository; CRATE: these and those below them; default: all)
       tools/gate/make.py graph [CRATE..]      prints the build.ninja
       tools/gate/make.py rule RULE CRATE      does one rule's work
       tools/gate/make.py sum [CRATE..]        adds up what the rules found
       tools/gate/make.py tests [CRATE..]      runs the tests of these crates alone (default: all), which needs no proof

Each crate has seven rules. `proof` proves it from nothing and builds its library (`rt lib`), or builds a program by LLVM and runs it
(`rt run`); each function of the sources has to be among those proved. `backend` builds and runs a program by Rattle's own compiler,
over what the proof kept. `edits` tries its must-fail edits over what the proof
kept, many in one check. `tests` runs its tests, compiled with the kit's checks and not proved (`rt try --test`). `house` searches for
contracts that no call can meet (`rt check --empty-contracts`), if no check of edits has done so. `layout` runs `rt fmt` on a copy.
`texts` looks for what `rt ci` alone refuses. ninja runs them side by side. Each works in a room of its own, since `rt` locks the
folders of a crate and of all below it.

What a rule found is in .gate/CRATE.RULE, also if it failed, so that a gate goes through all crates. A check that fails and refuses
nothing is run once more with one job. The last line is 'N passed, M failed', and the status is 0 only if M is 0.

    GATE_RESUME=FOLDER tools/gate/make.py

goes on with an earlier gate's work, for a day's work and never in CI. FOLDER is the .gate of this or of another clone. What a rule
found well is kept if all that it reads is the same: the crate, those below it, and the kit. Other proofs start with what FOLDER kept
of them, so that only what changed is proved again. Without GATE_RESUME a gate deletes .gate and begins with nothing.

    GATE_RULES='RULE ..'   does these rules only, for a day's work and never in CI
    GATE_JOBS=N           how many rules run side by side (default: as many as there are processors)
    GATE_TIDY=yes         deletes what a proof kept once no rule reads it, and at the end all but the facts, so that some 10 GB less
                          of disk are needed, `rt ci` finds no crates.txt in .gate, and a later gate has nothing to resume from
    GATE_NINJA=no         does without ninja, as where it can't be installed
    GATE_FOLDER=FOLDER    where facts and rooms are (default: .gate, at the top)

Last lines of checks say incremental=trusted: a check trusts whoever can write to its folder, and that is this run alone.
"""
import contextlib
import os
import shutil
import subprocess
import sys
import traceback

sys.dont_write_bytecode = True
sys.path.insert(0, os.path.dirname(os.path.realpath(__file__)))
import edits
import facts
import graph
import lanes
import looks
import own_kit
import proofs
import rooms
import summary
import tried
from calls import Calls
from project import Project

COMMAND = f"{sys.executable} {os.path.realpath(__file__)}"


def earlier_folders(project):
    """Returns the folders of earlier gates whose work may count: none unless GATE_RESUME names one."""
    named = os.environ.get("GATE_RESUME")
    return list(dict.fromkeys([project.gate, os.path.realpath(named)])) if named else []


def inputs_of(project, rule, name):
    """Returns a checksum of what a rule reads."""
    tests = [tried.unproved_tests(project, name)]
    more = {"tests": tests, "layout": tests, "edits": [f"{project.folder(name)}/must-fail"]}
    return project.inputs(name, more.get(rule, ()))


def adopted(project, rule, name, inputs):
    """Takes over what an earlier gate found well of the same inputs. Returns `True` if there is such a gate."""
    for folder in earlier_folders(project):
        found = facts.read(folder, name, rule)
        if not facts.is_well(found) or facts.of_kind(found, "inputs") != [inputs]:
            continue
        if rule == "proof" and folder != project.gate:
            room = f"{project.gate}/{name}.proof.room"
            shutil.rmtree(room, ignore_errors=True)
            rooms.fill(project, name, room, f"{folder}/{name}.proof.room/crates/{name}/out")
        if rule == "backend" and folder != project.gate:
            shutil.copy2(proofs.kept_program(folder, name, rule), proofs.kept_program(project.gate, name, rule))
        if folder != project.gate:
            facts.write(project.gate, name, rule, found)
        return True
    return False


def kept_of(project, name):
    """Returns the folder of what an earlier gate kept of the crate's proof, or None."""
    for folder in earlier_folders(project):
        out = f"{folder}/{name}.proof.room/crates/{name}/out"
        if os.path.isdir(out):
            return out
    return None


def broken_below(project, rule, name):
    """Returns a crate whose proof this rule needs and that isn't proved, or None."""
    needs = {"proof": project.reach(name), **{it: [*project.reach(name), name] for it in ("backend", "edits", "house")}}
    return next((it for it in needs.get(rule, []) if not facts.is_well(facts.read(project.gate, it, "proof"))), None)


def is_searched(project, name):
    """Returns `True` if a check of the crate's edits, as they are, searched for contracts that no call can meet, and found none."""
    found = facts.read(project.gate, name, "edits")
    return bool(facts.of_kind(found, "searched")) and facts.of_kind(found, "inputs") == [inputs_of(project, "edits", name)]


def found_by(project, rule, name, calls):
    """Does a rule's work, and returns the facts."""
    broken = broken_below(project, rule, name)
    if broken:
        return [f"fail not tried, since {broken} isn't proved"]
    if rule == "house" and is_searched(project, name):
        return ["pass 0"]
    if rule == "proof":
        jobs = lanes.jobs_for(project, name, name in graph.longest_chain(project))
        return proofs.proof(project, name, calls, jobs, kept_of(project, name))
    if rule == "backend":
        return proofs.backend(project, name, calls)
    if rule == "edits":
        proved = facts.of_kind(facts.read(project.gate, name, "proof"), "proved")
        return edits.Trial(project, name, calls, project.proof_out(name), project.proof_out, proved).all()
    return {"tests": tried.tests, "house": looks.house, "layout": looks.layout, "texts": looks.texts}[rule](project, name, calls)


def tidy(project, name):
    """Deletes what the crate's proof kept, if no rule reads it any more: it may be a gigabyte."""
    over = ("proof", "edits", "house", *["backend"] * project.is_program(name))
    if all(os.path.exists(facts.path_of(project.gate, name, it)) for it in over):
        shutil.rmtree(f"{project.proof_out(name)}/{proofs.KEPT}", ignore_errors=True)


def work(project, rule, name):
    """Does a rule's work and writes what it found, with what it took."""
    inputs = inputs_of(project, rule, name)
    if adopted(project, rule, name, inputs):
        print(f"{name} {rule}: as before")
    else:
        calls = Calls(project.gate)
        with lanes.working(project.gate):
            try:
                found = found_by(project, rule, name, calls)
            except Exception as fault:
                traceback.print_exc()
                found = [f"fail the rule itself failed: {fault!r}"]
        found += [*calls.facts(), f"inputs {inputs}"]
        facts.write(project.gate, name, rule, found)
        print(f"{name} {rule}: " + "; ".join(it for it in found if not it.startswith(("proved ", "inputs ", "left ")))[:1000], flush=True)
    if os.environ.get("GATE_TIDY"):
        tidy(project, name)
    if rule in ("proof", "backend") and project.is_program(name) and facts.is_well(facts.read(project.gate, name, rule)):
        proofs.hand_over(project, name, rule)
    return 0


def ninja():
    """Returns the path of ninja, which is installed if it is missing and this is root, or None."""
    if os.environ.get("GATE_NINJA") == "no":
        return None
    if not shutil.which("ninja") and os.geteuid() == 0 and shutil.which("apt-get"):
        how = {"stdin": subprocess.DEVNULL, "stdout": subprocess.DEVNULL, "check": False, "timeout": 240}
        how["env"] = {**os.environ, "DEBIAN_FRONTEND": "noninteractive"}
        for words in (["update"], ["install", "-y", "--no-install-recommends", "ninja-build"]):
            with contextlib.suppress(subprocess.TimeoutExpired):
                subprocess.run(["apt-get", "-q", "-o", "Acquire::http::Timeout=20", *words], **how)
    return shutil.which("ninja")


def run(project, crates, rules):
    """Does these rules of these crates, and adds up."""
    if lanes.at_work(project.gate):
        sys.exit(f"another gate is at work in {project.gate}")
    if not os.environ.get("GATE_RESUME"):
        shutil.rmtree(project.gate, ignore_errors=True)
    os.makedirs(project.gate, exist_ok=True)
    rooms.sweep(project)
    own_kit.make(project.gate)
    facts.write(project.gate, "repository", "files", looks.files(project, Calls(project.gate)))
    jobs, program = lanes.lanes(), ninja()
    if program:
        with open(f"{project.gate}/build.ninja", "w", encoding="utf-8") as it:
            it.write(graph.ninja_file(project, crates, rules, COMMAND))
        words = [program, "-k", "0", "-j", str(jobs), "-f", f"{project.gate}/build.ninja"]
        subprocess.run(words, cwd=project.top, stdin=subprocess.DEVNULL, check=False)
    else:
        print("gate: there is no ninja (Debian's ninja-build): the rules run without it", flush=True)
        graph.run_without_ninja(project, crates, rules, COMMAND, jobs)
    is_well = summary.print_total(project, crates, rules)
    if os.environ.get("GATE_TIDY"):
        rooms.clear(project)
    return 0 if is_well else 1


def tests_alone(project, names):
    """Runs the tests of these crates, or of all, in a folder beside the gate's."""
    os.environ["GATE_FOLDER"] = project.gate = f"{project.gate}-tests"
    status = run(project, names or project.order, ["tests"])
    shutil.rmtree(project.gate, ignore_errors=True)
    return status


def main(words):
    """Does what the words say."""
    if words[:1] in (["--help"], ["-h"]):
        print(__doc__)
        return 0
    project = Project(os.getcwd())
    if words[:1] == ["rule"]:
        if len(words) != 3 or words[1] not in graph.RULES or words[2] not in project.lines:
            return 2
        os.nice(lanes.niceness_of(words[1], words[2] in graph.longest_chain(project)))
        return work(project, *words[1:])
    verb, *names = words if words[:1] and words[0] in ("graph", "sum", "tests") else ["run", *words]
    unknown = [it for it in names if it not in project.lines]
    if unknown:
        sys.exit(f"crates.txt has no {unknown[0]}\n{__doc__}")
    crates = project.wanted(names)
    if verb == "graph":
        print(graph.ninja_file(project, crates, graph.RULES, COMMAND))
        return 0
    if verb == "sum":
        return 0 if summary.print_total(project, crates, graph.RULES) else 1
    rules = os.environ.get("GATE_RULES", " ".join(graph.RULES)).split()
    return tests_alone(project, names) if verb == "tests" else run(project, crates, [it for it in graph.RULES if it in rules])


if __name__ == "__main__":
    sys.exit(main(sys.argv[1:]))
