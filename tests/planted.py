#!/usr/bin/env python3
"""Sees that the gate notices what it is for: in each crate a wrong body, a wrong expectation, a function that no check has seen.

usage: tests/planted.py [CRATE..]      (at the top of the repository, where `rt check` has kept work of the crates; default: all)
       tests/planted.py --mutants [--apart] [CRATE | NAME]..      wrong bodies that no goal refuses: see tests/mutants.py

The wrong body is that of the crate's first must-fail edit which changes one; the wrong expectation is the first comparison of
its tests, turned round. Each is planted into a copy of the sources. What judges is what the gate calls of a crate (the rules `proof`
and `tests` of tools/gate), over a copy of the kept work, since from nothing it would take an hour. No part of the gate. The last line
is 'N passed, M failed'.
"""
import os
import re
import shutil
import sys
import tempfile
import time

TOP = os.path.dirname(os.path.dirname(os.path.realpath(__file__)))
sys.path.insert(0, f"{TOP}/tools/gate")
import edits
import facts
import mutants
import proofs
import rooms
import tried
from calls import Calls
from project import RUN_FILES, Project, files_below

ASSERT = re.compile(r"\bassert(_eq)?!\((?:rt; )?")


class Planted(Project):
    """A copy of a crate, of those below it and of their unproved tests, in which texts stand in the place of its own."""

    def __init__(self, project, name, room, texts):
        self.start, crates = project, [*project.reach(name), name]
        shutil.copytree(os.path.dirname(os.path.dirname(rooms.fill(project, name, f"{room}/room"))), f"{room}/top")
        for file in RUN_FILES:
            if os.path.exists(f"{project.folder(name)}/{file}"):
                shutil.copy(f"{project.folder(name)}/{file}", f"{room}/top/crates/{name}/{file}")
        for crate in crates:
            if os.path.isdir(tried.unproved_tests(project, crate)):
                shutil.copytree(tried.unproved_tests(project, crate), f"{room}/top/tests/unproved/{crate}")
        for path, text in texts.items():
            with open(f"{room}/top/{path}", "w", encoding="utf-8") as it:
                it.write(text)
        super().__init__(f"{room}/top")

    def proof_out(self, name):
        """Returns the folder of what `rt check` kept of a crate below in the real repository."""
        return f"{self.start.folder(name)}/out"


def wrong_body(project, name):
    """Returns the texts of the crate's first must-fail edit that changes bodies alone, and its name, or None."""
    folder = project.folder(name)
    for path in edits.edits_of(folder):
        made = edits.applied(path, folder, {})
        if made and made.functions and all(it.startswith("src/") for it in made.texts):
            return {f"crates/{name}/{it}": text for it, text in made.texts.items()}, os.path.basename(path)
    return None


def end_of_condition(text, start):
    """Returns the place behind an assertion's condition, which begins here: that of its comma, or of the closing parenthesis."""
    depth = 0
    for it in re.finditer(r"[()\[\]{},]", text[start:]):
        if depth == 0 and it[0] in "),":
            return start + it.start()
        depth += (it[0] in "([{") - (it[0] in ")]}")
    return len(text)


def turned_round(text):
    """Returns a text of tests with its first comparison turned round, or None where it has none."""
    first = text.find("#[test]")
    found = ASSERT.search(text, first) if first >= 0 else None
    if found is None:
        return None
    if found[1]:
        return f"{text[: found.start()]}assert_ne!({text[found.start() + len('assert_eq!(') :]}"
    end = end_of_condition(text, found.end())
    return f"{text[: found.end()]}!({text[found.end() : end]}){text[end:]}"


def wrong_expectation(project, name):
    """Returns the first file of the crate's tests that has a comparison, and its text with that turned round, or None."""
    for path in [*files_below(f"{project.folder(name)}/src"), *files_below(tried.unproved_tests(project, name))]:
        with open(path, encoding="utf-8") as it:
            text = turned_round(it.read())
        if text:
            return os.path.relpath(path, project.top), text
    return None


def look_at_body(project, name):
    """Plants a wrong body, and looks whether the gate refuses the crate and misses the function."""
    texts, edit = wrong_body(project, name) or (None, None)
    if texts is None:
        # (a crate of laws, whose edits change definitions)
        print(f"{name}: no edit of a body", flush=True)
        return []
    with tempfile.TemporaryDirectory(prefix="planted-") as room:
        copy = Planted(project, name, room, texts)
        found = proofs.proof(copy, name, Calls(copy.gate), 1, f"{project.folder(name)}/out")
    failed = facts.of_kind(found, "fail")
    lost = [it for it in failed if re.match(r"fn \S+: (?:not proved|no proof)", it)]
    print(f"{name}: {edit}: {failed[:1]}, not proved: {len(lost)}", flush=True)
    missed = any(it.startswith("no check has proved ") for it in failed)
    return [f"{edit} was not refused"] * (not lost or "pass 1" in found) + [f"{edit}: no function was missed"] * (not missed)


def look_at_tests(project, name):
    """Plants a wrong expectation, and looks whether the gate fails the crate's tests."""
    path, text = wrong_expectation(project, name) or (None, None)
    if path is None:
        print(f"{name}: no tests", flush=True)
        return []
    with tempfile.TemporaryDirectory(prefix="planted-") as room:
        copy = Planted(project, name, room, {path: text})
        failed = facts.of_kind(tried.tests(copy, name, Calls(copy.gate)), "fail")
    print(f"{name}: a comparison turned round in {path}: {failed[:1]}", flush=True)
    return [f"a wrong expectation in {path} passed"] * (not any("FAILED" in it for it in failed))


def main(names):
    """Looks at these crates, or at all; behind `--mutants`, at the wrong bodies that a test has to refuse."""
    if names[:1] == ["--mutants"]:
        return mutants.main(names[1:])
    project, lost, passed, start = Project(TOP), [], 0, time.monotonic()
    for name in names or project.order:
        for look in (look_at_body, look_at_tests):
            found = look(project, name)
            passed += not found
            lost += [f"{name}: {it}" for it in found]
    for it in lost:
        print(it)
    print(f"{time.monotonic() - start:.0f} s")
    print(f"{passed} passed, {len(lost)} failed")
    return 1 if lost else 0


if __name__ == "__main__":
    sys.exit(main(sys.argv[1:]))
