#!/usr/bin/env python3
"""Plants wrong bodies that no goal refuses, and checks that the test that each names fails.

usage: tests/planted.py --mutants [--apart] [CRATE | NAME]..      (default: all)

tests/mutants/CRATE.edits has the wrong bodies of a crate: blocks as in more-edits/all.edits, each with a line `test:` that names the
test which has to fail. `why:` says why no clause can refuse the body, and nothing reads it.

  test: tests::loaded::each_number_is_printed_at_its_place    one of the crate's own, by `rt try --test`: half a minute
  test: test_serve.Asked.test_edges                    one in a folder of tests/, on a program with the wrong body: some minutes
  test: statuses: two edges run                        one of the statuses of the program, on such a program

Wrong bodies of different functions whose tests differ share a build, if they have the same word after `group:`, or none: a body that
disturbs the tests of others has a word of its own. `--apart` builds each on its own: then no test can fail because of another body.
The sources stay as they are. The last line is 'N passed, M failed'.
"""
import os
import re
import shutil
import subprocess
import sys
import tempfile
import time
from pathlib import Path
from typing import Dict, List, NamedTuple

TOP = os.path.dirname(os.path.dirname(os.path.realpath(__file__)))
sys.path[:0] = [f"{TOP}/tests", f"{TOP}/tools/gate"]
import more_edits
import rooms
import tried
from calls import Calls, text_of
from project import PARTS, Project

PROGRAM = "evpnd"
STATUSES = "statuses: "
SECONDS = 600  # for the tests of one build


class Mutant(NamedTuple):
    """A wrong body, and the test that has to fail."""

    name: str
    crate: str
    test: str
    word: str
    edit: more_edits.Edit

    @property
    def build(self) -> str:
        """The crate whose tests are built, or the program."""
        return self.crate if "::" in self.test else PROGRAM


class Group(NamedTuple):
    """Mutants that share a build, the texts with all of them, and the functions that they change."""

    mutants: List[Mutant]
    texts: Dict[Path, str]
    functions: List[tuple]


def mutants_of(file: Path) -> List[Mutant]:
    """Returns the mutants in a file."""
    found = []
    for edit in more_edits.blocks_of(file, file.stem):
        tests = re.findall(r"^test: (\S.*)$", edit.text, re.M)
        if len(tests) != 1:
            sys.exit(f"{edit}: one line 'test: NAME' is wanted")
        word = " ".join(re.findall(r"^group: (\S.*)$", edit.text, re.M))
        found.append(Mutant(more_edits.plain_name(edit), file.stem, tests[0], word, edit))
    return found


def all_mutants() -> List[Mutant]:
    """Returns the mutants of all crates, with the top as the working folder."""
    return [it for file in sorted(Path("tests/mutants").glob("*.edits")) for it in mutants_of(file)]


def added(mutant: Mutant, group: Group) -> bool:
    """Adds a mutant to a group if they can share a build. Returns `True` if they can."""
    first = group.mutants[0] if group.mutants else None
    is_other = first and (first.build, first.word) != (mutant.build, mutant.word)
    if is_other or mutant.test in [it.test for it in group.mutants]:
        return False
    texts, functions = more_edits.apply(mutant.edit, group.texts)
    if texts is None:
        if first is None:
            sys.exit(f"{mutant.edit}: {functions}")
        return False
    changed = [(mutant.crate, it) for it in functions]
    if any(it in group.functions for it in changed):
        return False
    group.mutants.append(mutant)
    group.texts.update(texts)
    group.functions.extend(changed)
    return True


def groups_of(mutants: List[Mutant], are_apart: bool) -> List[Group]:
    """Returns the mutants as groups, as few as come out if each goes into the first one that takes it."""
    groups: List[Group] = []
    for mutant in mutants:
        if are_apart or not any(added(mutant, group) for group in groups):
            groups.append(Group([], {}, []))
            added(mutant, groups[-1])
    return groups


def copy_with(project: Project, name: str, texts: Dict[Path, str], room: str) -> Project:
    """Returns a copy of a crate, of those below it, of their unproved tests and of the tools, with these texts."""
    os.makedirs(room)
    shutil.copy(f"{project.top}/crates.txt", room)
    if os.path.exists(f"{project.top}/HANDLES"):
        shutil.copy(f"{project.top}/HANDLES", room)
    shutil.copytree(f"{project.top}/tools", f"{room}/tools")
    for crate in [*project.reach(name), name]:
        for part in PARTS:
            if os.path.isdir(f"{project.folder(crate)}/{part}"):
                shutil.copytree(f"{project.folder(crate)}/{part}", f"{room}/crates/{crate}/{part}")
    if os.path.isdir(tried.unproved_tests(project, name)):
        shutil.copytree(tried.unproved_tests(project, name), f"{room}/tests/unproved/{name}")
    for path, text in texts.items():
        Path(room, path).write_text(text, encoding="utf-8")
    return Project(room)


def failed_in_crate(said: str, test: str) -> bool:
    """Returns `True` if `rt try --test` printed that this test failed."""
    return bool(re.search(rf"^test {re.escape(test)} \.\.\. (?!ok$)", said, re.M))


def run_crate(copy: Project, name: str, tests: List[str]) -> Dict[str, str]:
    """Runs a crate's tests. Returns of each of these that didn't fail what came instead."""
    with rooms.room_for(copy, name, "mutants") as folder:
        tried.add_unproved(copy, name, folder)
        _, out, err = Calls(copy.gate).rt(folder, "try", "--test", "--seconds", str(SECONDS))
    said = text_of(out, err)
    if not re.search(r"^test \S+ \.\.\. ", said, re.M):
        return {it: f"no test was run:\n{said[-2000:]}" for it in tests}
    return {it: "it passed" for it in tests if not failed_in_crate(said, it)}


def words_of(test: str) -> List[str]:
    """Returns the command that runs a test of the program."""
    if test.startswith(STATUSES):
        return [sys.executable, "-B", f"{TOP}/tests/statuses.py"]
    return [sys.executable, "-B", f"{TOP}/tests/run.py", test]


def said_on(program: str, test: str) -> str:
    """Returns what the command of a test says of a program."""
    how = {"cwd": TOP, "env": {**os.environ, "EVPND": program}, "stdin": subprocess.DEVNULL, "stderr": subprocess.STDOUT}
    try:
        return text_of(subprocess.run(words_of(test), stdout=subprocess.PIPE, timeout=SECONDS, check=False, **how).stdout)
    except subprocess.TimeoutExpired as late:
        return text_of(late.stdout or b"")


def kept_on(program: str, tests: List[str]) -> Dict[str, str]:
    """Runs tests of a program. Returns of each that didn't fail what came instead."""
    statuses = next((said_on(program, it) for it in tests if it.startswith(STATUSES)), "")
    kept = {}
    for test in tests:
        if test.startswith(STATUSES):
            said, wanted = statuses, rf"^failed: {re.escape(test[len(STATUSES) :])} \(status "
        else:
            said, wanted = said_on(program, test), rf"^(FAIL|ERROR): {re.escape(test.rpartition('.')[2])} \((?!unittest\.loader)"
        if not re.search(wanted, said, re.M):
            kept[test] = f"it passed, or wasn't run:\n{said[-400:]}"
    return kept


def run_program(copy: Project, tests: List[str]) -> Dict[str, str]:
    """Builds the program and runs these tests on it. Returns of each that didn't fail what came instead."""
    words = [sys.executable, "-B", f"{copy.top}/tools/try", "--fast", "--build", PROGRAM]
    built = subprocess.run(words, stdin=subprocess.DEVNULL, capture_output=True, text=True, errors="replace", check=False)
    program = built.stdout.strip()
    if built.returncode or not os.access(program, os.X_OK):
        return {it: f"no program was built:\n{built.stderr[-2000:]}" for it in tests}
    return kept_on(program, tests)


def look_at(project: Project, group: Group) -> List[str]:
    """Plants the mutants of a group. Returns a line for each whose test didn't fail."""
    build, tests, start = group.mutants[0].build, [it.test for it in group.mutants], time.monotonic()
    with tempfile.TemporaryDirectory(prefix="mutants-") as room:
        copy = copy_with(project, build, group.texts, f"{room}/top")
        kept = run_program(copy, tests) if build == PROGRAM else run_crate(copy, build, tests)
    for it in group.mutants:
        print(f"{it.crate}: {it.name}: {'NOT REFUSED by' if it.test in kept else 'refused by'} {it.test}", flush=True)
    print(f"  (one build of {build}: {time.monotonic() - start:.0f} s)", flush=True)
    return [f"{it.crate}: {it.name}: {it.test}: {kept[it.test]}" for it in group.mutants if it.test in kept]


def main(words: List[str]) -> int:
    """Plants the mutants of these crates or names, or all."""
    os.chdir(TOP)
    are_apart = "--apart" in words
    names = [it for it in words if it != "--apart"]
    mutants = [it for it in all_mutants() if not names or it.crate in names or it.name in names]
    lost = [line for group in groups_of(mutants, are_apart) for line in look_at(Project(TOP), group)]
    print(*lost, f"{len(mutants) - len(lost)} passed, {len(lost)} failed", sep="\n")
    return 1 if lost or not mutants else 0


if __name__ == "__main__":
    sys.exit(main(sys.argv[1:]))
