"""The rules `proof` and `backend`. The first proves a crate and builds its library, or builds and runs a program by LLVM. The second builds
and runs a program by Rattle's own compiler. No proof waits for it."""
import contextlib
import os
import re
import shutil

import facts
import rooms
import sources
from calls import RESULT, text_of

# the files of kept work, below a crate's out/
KEPT = "incremental"
# what `rt` prints if a check doesn't begin with nothing
BEGUN = "begins with what a check kept in"
# a word of a check's last line that a verdict refuses
UNWANTED = ("hides", "bugs", "foreign", "cache", "pinned")
TOLD = re.compile(r"^fn \S+: (?:not|no|could)|.*error|logic=|rattle: |rt: ")


def proof(project, name, calls, jobs=1, kept=None):
    """Proves the crate in a room of its own, from nothing, or over kept work if its folder is given. Returns the facts."""
    room, aside = f"{project.gate}/{name}.proof.room", f"{project.gate}/{name}.proof.kept"
    shutil.rmtree(aside, ignore_errors=True)
    if kept and os.path.isdir(f"{kept}/{KEPT}"):
        rooms.linked(f"{kept}/{KEPT}", aside)
    shutil.rmtree(room, ignore_errors=True)
    folder = rooms.fill(project, name, room, libraries=project.proof_out)
    if os.path.isdir(aside):
        os.makedirs(f"{folder}/out")
        os.rename(aside, f"{folder}/out/{KEPT}")
    if project.is_program(name):
        found = program(project, name, folder, calls, jobs)
    else:
        status, out, err = calls.check(folder, "lib", jobs=jobs)
        found = judged(project, name, status, text_of(out, err))
    return found + ["pass 1"] * facts.is_well(found) + ["note proved over kept work"] * bool(kept)


def judged(project, name, status, said):
    """Returns the facts of a check that ended so."""
    proved = sorted({*re.findall(r"^fn (\S+): proved\b", said, re.M)})
    lacking = sources.unproved(project.folder(name), name, proved)
    if status or RESULT.findall(said)[-1:] != ["proved"]:
        told = [f"fail {it}" for it in said.splitlines() if TOLD.match(it)][:8]
        missed = [f"fail no check has proved {len(lacking)} functions: {', '.join(lacking[:8])}"] * bool(lacking)
        return [f"fail its check ended with status {status}", *told, *missed]
    words = dict(it.partition("=")[::2] for it in re.findall(r"^logic=proved (.*)$", said, re.M)[-1].split())
    allowed = dict(it.split("=") for it in project.lines[name].partition(":")[0].split()[1:] if "=" in it)
    found = [f"fail the last line has {it}={words[it]}" for it in UNWANTED if it in words]
    for word, setting in (("may-abort", "may_abort"), ("may-serve", "may_serve")):
        if words.get(word, "0") != allowed.get(setting, "0"):
            found.append(f"fail the last line has {word}={words[word]}")
    found += [f"fail it isn't proved from nothing: {it}" for it in said.splitlines() if BEGUN in it]
    found += [f"proved {it}" for it in proved] + [f"functions {words['functions']}"]
    return found + [f"fail no check has proved {it}" for it in lacking]


def program(project, name, folder, calls, jobs):
    """Proves a program, builds it by LLVM and runs it. Leaves it in the crate's out/. Returns the facts."""
    status, out, err = run_as(project, name, folder, calls, "llvm", jobs)
    is_proved = RESULT.findall(text_of(err))[-1:] == ["proved"]
    return judged(project, name, 0 if is_proved else status or 1, text_of(err)) + differing(project, name, "llvm", folder, (status, out, err))


def backend(project, name, calls):
    """Builds a program by Rattle's own compiler, over what its proof kept, and runs it. Keeps it in the gate's folder. Returns the facts."""
    with rooms.room_for(project, name, "backend", project.proof_out(name), project.proof_out) as folder:
        built = f"{folder}/out/{name}"
        with contextlib.suppress(FileNotFoundError):
            os.unlink(built)
        found = differing(project, name, "rattle", folder, run_as(project, name, folder, calls, "rattle"))
        if not found:
            shutil.copy2(built, kept_program(project.gate, name, "backend"))
    return found or ["pass 1"]


def run_as(project, name, folder, calls, compiler, jobs=1):
    """Builds a program in this folder by a compiler, and runs it on the crate's input. Returns its status, output and errors."""
    path = f"{project.folder(name)}/stdin"
    words = ["--", *read_of(project, name, "args").decode().split()]
    with open(path if os.path.exists(path) else os.devnull, "rb") as stdin:
        return calls.check(folder, "run", "--backend", compiler, jobs=jobs, stdin=stdin, after=words)


def differing(project, name, compiler, folder, ended):
    """Returns as facts how a run ended otherwise than the crate's files say, and that it left no program."""
    (status, out, err), wanted = ended, (int(read_of(project, name, "status") or 0), read_of(project, name, "stdout"))
    if (status, out) != wanted:
        return [f"fail as {compiler} builds it, it ended with status {status} and wrote {len(out)} octets: {text_of(err)[-300:]}"]
    return [] if os.path.exists(f"{folder}/out/{name}") else [f"fail {compiler} left no program out/{name}"]


def read_of(project, name, file):
    """Returns what stands in one of the files beside src/ that say how the program is run; nothing if it isn't there."""
    path = f"{project.folder(name)}/{file}"
    if not os.path.exists(path):
        return b""
    with open(path, "rb") as it:
        return it.read()


def kept_program(gate, name, rule):
    """Returns the path at which a gate keeps the program that this rule built."""
    return f"{gate}/{name}.proof.room/crates/{name}/out/{name}" if rule == "proof" else f"{gate}/{name}.by-rattle"


def hand_over(project, name, rule):
    """Copies the program that this rule built to crates/NAME/out/: NAME by LLVM, and NAME.by-rattle."""
    to = f"{project.folder(name)}/out"
    os.makedirs(to, exist_ok=True)
    target = f"{to}/{name}" if rule == "proof" else f"{to}/{name}.by-rattle"
    shutil.copy2(kept_program(project.gate, name, rule), f"{target}.new")
    os.replace(f"{target}.new", target)
