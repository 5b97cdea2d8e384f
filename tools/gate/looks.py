"""The rules that look at a crate without proving it anew: `layout`, `house` and `texts`."""
import filecmp
import os
import re
import shutil
import stat
import subprocess
import tempfile

import rooms
import tried
from calls import UNENDED, text_of
from project import PARTS, files_below
from sources import shape_of, sources_in

# what `rt check` warns of, and a verdict refuses
WARNING = re.compile(r"^(?:rt: warning: .*|warning: (?:no call of|calls of a tactic that chose) .*)$", re.M)
# the flag of `rt check` for that search
SEARCH = "--empty-contracts"
# texts that no crate of this repository may have, with the reason
NEVER = (
    (r"\bAbort\b", "ends the process"),
    (r"\bmacro_rules\b", "is a macro of our own"),
    # (literals are blanks there)
    (r"\bextern\s+(?:\{|fn\b)", "declares C functions"),
    (r"->[^{;]*\b(?:dyn \w|fn\()", "hands out a `dyn` value or a function pointer"),
    (r"\b(?:mod|struct|enum|trait|type|fn|const|static) __\w", "has a name that begins with two underscores"),
    (r"\buse (?:std|core) as\b|\bextern crate\b", "names std another way"),
)
# handles beside Abort, each allowed only where HANDLES names it
HANDLES = ("Threads", "Wait", "Net", "Processes")
# an own name for an operator or a plain word of the library
OWN_OPERATOR = re.compile(r"(?:◌\S*◌|\bOn\w+) as [^\s,;}]+")
# the files of Rattle that no check reads and that scripts build in copies. `.txt` ends their names, since a plain `rt ci` stops at a
# Rattle file outside of crates/
RUN_ONLY = re.compile(r"(?:bench|tests/outside)/.*\.(?:rt|antt)\.txt")


def layout(project, name, calls):
    """Runs `rt fmt`, which writes, on a copy of the crate with its tests of tests/unproved/. Each file has to stay as it is."""
    with rooms.room_for(project, name, "layout") as folder:
        origins = {f"{folder}/src/{to}": path for path, to in tried.copy_unproved(project, name, folder).items()}
        for path in files_of(project.folder(name)):
            origins[f"{folder}/{os.path.relpath(path, project.folder(name))}"] = path
        status, out, err = calls.rt(folder, "fmt")
        changed = differing(origins, files_of(folder))
    return out_of_layout(project, changed, status, text_of(out, err)) + ["pass 0"]


def layout_of_others(project, paths, calls):
    """Runs `rt fmt` on copies of these files in one folder of sources. Each has to stay as it is. Returns the facts that fail."""
    with tempfile.TemporaryDirectory(prefix="others.layout.", dir=project.gate) as room:
        folder, origins = f"{room}/crates/others", {}
        for number, path in enumerate(paths):
            ending = os.path.splitext(path.removesuffix(".txt"))[1]
            copy = f"{folder}/{'src' if ending == '.rt' else 'proofs'}/others{number}{ending}"
            os.makedirs(os.path.dirname(copy), exist_ok=True)
            shutil.copyfile(f"{project.top}/{path}", copy)
            origins[copy] = f"{project.top}/{path}"
        with open(f"{room}/crates.txt", "w", encoding="utf-8") as it:
            it.write("others:\n")
        status, out, err = calls.rt(folder, "fmt") if origins else (0, b"", b"")
        return out_of_layout(project, differing(origins, files_of(folder)), status, text_of(out, err))


def out_of_layout(project, changed, status, said):
    """Returns as facts which files `rt fmt` has changed, and how it ended if it failed."""
    found = [f"fail not in the layout: {os.path.relpath(it, project.top)}" for it in changed]
    return found + [f"fail rt fmt ended with status {status}: {said[-300:]}"] * (status != 0)


def files_of(folder):
    """Returns the paths of all files of a crate's sources, definitions and proofs."""
    return [it for part in PARTS for it in files_below(f"{folder}/{part}")]


def differing(origins, copies):
    """Returns the files that differ from their copies. `origins` has the origin of each copy; other files are additions."""
    changed = [path for copy, path in origins.items() if not os.path.exists(copy) or not filecmp.cmp(copy, path, shallow=False)]
    return changed + [it for it in copies if it not in origins]


def faults_of_search(said):
    """Returns what a check's search for contracts that no call can meet found, and what it warned of; that there was none, if so."""
    found = re.search(r"^empty contracts: (\d+) found; tried (\d+) of (\d+) functions", said, re.M)
    faults = [] if found and found[1] == "0" else [found[0] if found else "no search for empty contracts"]
    return faults + [it for it in said.splitlines() if WARNING.match(it) or UNENDED in it]


def house(project, name, calls):
    """Searches over kept work for contracts that no call can meet, and looks for warnings that a verdict refuses."""
    with rooms.room_for(project, name, "house", project.proof_out(name), project.proof_out) as folder:
        status, out, err = calls.check(folder, "check", after=[SEARCH])
    faults = faults_of_search(text_of(out, err)) or [f"its check ended with status {status}"] * (status != 0)
    return [f"fail {it}" for it in faults] + ["pass 0"]


def texts(project, name, _calls):
    """Looks at the crate's sources for what `rt ci` refuses and no check of a crate does."""
    allowed = []
    if os.path.exists(f"{project.top}/HANDLES"):
        with open(f"{project.top}/HANDLES", encoding="utf-8") as it:
            allowed = re.findall(r"\w+", it.read().partition(":")[2])
    words = [*NEVER, *((rf"\b{it}\b", "is a handle beyond HANDLES") for it in HANDLES if it not in allowed)]
    found = []
    for path, shape in sources_in(project.folder(name)).items():
        found += [f"fail {path}: {it[0]} {why}" for word, why in words for it in re.finditer(word, shape)]
    for path in files_below(project.folder(name)):
        inner = os.path.relpath(path, project.folder(name))
        if path.endswith((".rt", ".antt")) and inner.startswith(PARTS):
            with open(path, encoding="utf-8") as it:
                text = it.read()
            found += [f"fail {inner}: {it[0]} is an own name of an operator" for it in OWN_OPERATOR.finditer(text)]
            found += [f"fail {inner}: an ignored test"] * ("#[ignore" in shape_of(text))
    return found + ["pass 0"]


def files(project, calls):
    """Looks at the files of git: none is a link, and each of Rattle is in a place where a check reads it. The layout of the run-only files
    in bench/ and tests/outside/ is that of `rt fmt`. Returns the facts."""
    words = ["git", "ls-files", "-z", "--cached", "--others", "--exclude-standard"]
    ran = subprocess.run(words, cwd=project.top, stdin=subprocess.DEVNULL, stdout=subprocess.PIPE, check=False)
    if ran.returncode:
        return ["fail git doesn't list the files"]
    found, others = [], []
    for path in filter(None, ran.stdout.decode(errors="replace").split("\0")):
        whole = f"{project.top}/{path}"
        if not os.path.lexists(whole):
            continue
        if stat.S_ISLNK(os.lstat(whole).st_mode):
            found.append(f"fail {path} is a link")
        part = re.fullmatch(r"crates/(\w+)/(src|specs|proofs)/.*\.(rt|antt)", path)
        is_read = part and part[1] in project.lines and (part[2] == "src") == (part[3] == "rt")
        if RUN_ONLY.fullmatch(path):
            others.append(path)
        elif path.endswith((".rt", ".antt")) and not is_read:
            found.append(f"fail no check reads {path}")
    return found + layout_of_others(project, others, calls) + ["pass 0"]
