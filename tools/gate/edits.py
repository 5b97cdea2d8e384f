#!/usr/bin/env python3
"""Tries must-fail edits, many in one check.

usage: tools/gate/edits.py CRATE..      (at the top of the repository, over what `rt check` kept of these crates)

A function is proved from the contracts of those that it calls, never from their bodies. So edits of the bodies of different
functions don't disturb each other, and one check tries them together. It checks these functions alone (`--only`). If two edits change the
same function, the second one is applied to a copy of the function (copies.py). An edit counts as refused if the check refuses the function
that it changes, for a goal of its own. A function that only calls one that isn't proved is tried again in other company. A check with
`--only` may pass an edit that a whole check refuses, and never the other way round. So each edit that isn't refused like this is tried
alone: first in a check of the functions that it changes, then in one of the whole crate. These are edits outside a body, those whose
function has no clear name, those that aren't read or are proved, and callers of each other.

An edit of a definition may name a function whose contract depends on the definition, by a line `only: NAME`, which the kit doesn't read.
The edit counts as refused if the check refuses this function, for a goal of its own or for a lemma that its proof needs. Such an edit is
tried together with others if no other function of that check can depend on the changed definition, and this function on none that the
others change. The names in the crate's texts show that (dependence.py). If the edit isn't refused there, a check of this function only follows.

A check prints what is to be written for the goals that are left of a function, and the prover runs once more for that. So each
function that an edit changes gets one answer more, for a goal that isn't there. Such a function is never proved, but that is no
evidence: an edit counts as refused only for goals of the function's own.

For each refused edit the goals that refused it are printed. If they only miss a name that the edit took away, that is printed too:
such an edit shows little of a contract. So does one whose body the kit's borrow checker doesn't cover: no goal of it is tried, and no
function that calls it is judged in that check.

Each check works in a room of its own, so two of them run side by side while a lane of the gate is idle.

The first check of edits of bodies also searches the whole crate for contracts that no call can meet: no body has part in that, and it
saves a check.
"""
import functools
import os
import re
import sys

sys.path.insert(0, os.path.dirname(os.path.realpath(__file__)))
import copies
import lanes
import looks
import rooms
from calls import MISSING, Calls, text_of
from project import Project
from dependence import Reach, texts_of, touched
from sources import function_at, is_end_of
from tasks import Tasks

# the line of a check about a name that an edit took away
LOST = re.compile(r"has no field|is not in scope|has no `|was not admitted")
# the line of a check about a function whose body the kit can't judge, as it says ahead of all goals
UNCOVERED = re.compile(r"^fn (\S+): no proof: .*the borrow checker does not cover this function yet", re.M)
# the line about one that wasn't judged, since it calls another that isn't proved
CALLER = re.compile(r"^fn (\S+): (?:not proved.*; it calls |no proof: it calls |no proof: the borrow checker's part .*: a call of )", re.M)
# a text that can't be read or compiled: nothing was judged
UNREAD = re.compile(r"^(?:\./)?(?:src|specs)/\S+: error\b|\berror\[[\w-]+\]", re.M)
NO_GOAL = "no-goal-of-this-name"
REFUSED_ANSWER = f"\npub {NO_GOAL} : {NO_GOAL}\n{NO_GOAL} = ?\n"


class Edit:
    """An edit: the texts that it makes, by path, and the ends of the names of the functions that it changes: none if it changes more."""

    def __init__(self, path, texts, functions):
        self.path, self.texts, self.functions = path, texts, functions

    def __str__(self):
        return os.path.basename(self.path)


class Scope:
    """The functions whose refusal counts for an edit, by the ends of their names. `changed` has the keys of the declarations that the edit
    changes, and is empty for an edit of bodies, which no other proof reads. `read` has the keys of all declarations that the proofs of
    these functions can read; it is None if that isn't known."""

    def __init__(self, judged, changed, read):
        self.judged, self.changed, self.read = judged, changed, read

    def fits(self, other):
        """Returns `True` if neither of two edits can have a part in the other's refusal."""
        return self.judged.isdisjoint(other.judged) and self.spares(other) and other.spares(self)

    def spares(self, other):
        """Returns `True` if the functions of the other edit can't depend on the declarations that this one changes."""
        return not self.changed or (other.read is not None and self.changed.isdisjoint(other.read))


class Verdict:
    """What a check judged: 'proved', 'not-proved' or why it judged nothing, each refused function's own goals, and its output.

    A goal goes with `True` if the check only missed a name there.
    """

    def __init__(self, status, said):
        self.said, self.goals, self.status = said, goals_of(said), status
        words = re.findall(r"^logic=(proved|not-proved)\b", said, re.M) or ["not-proved"] * bool(re.search(r"^only=", said, re.M))
        is_judged = (status, words[-1:]) in ((0, ["proved"]), (1, ["not-proved"])) or status == 0 and "only=" in said
        self.is_void = bool(UNREAD.search(said)) or not is_judged
        if self.is_void:
            self.word = f"the check judged nothing (status {status})"
        else:
            self.word = "proved" if status == 0 else "not-proved"

    def refusal(self, end, crate):
        """Returns the full name and the goals of the function of this name's end, if it was refused for goals of its own."""
        full = [it for it in self.goals if is_end_of(end, it, crate)]
        return (full[0], self.goals[full[0]]) if len(full) == 1 and self.goals[full[0]] else (None, {})


def goals_of(said):
    """Returns of each function that a check refused the goals of its own that it names."""
    found, pending = {}, []
    for line in said.splitlines():
        note = re.match(r"note: \S+: it is not proved that .*?\(`([^`]+)`\)", line)
        head = re.match(r"fn (\S+): (.*)", line)
        if note:
            pending.append(note[1])
        elif head:
            if re.match(r"not proved|no proof", head[2]):
                named = [it for names in re.findall(r"`search` did not prove ([^;]*)", head[2]) for it in re.findall(r"`([^`]+)`", names)]
                found[head[1]] = dict.fromkeys([*pending, *named], False)
            pending = []
    for name in UNCOVERED.findall(said):
        found[name] = {"its proof": True}
    for name, goals in found.items():
        folder = re.escape("/".join(name.split("::")[1:]))
        for goal, why in re.findall(rf"^(?:\./)?proofs/{folder}/\S+: error: (?:`([^`]*)`: )?(.*)$", said, re.M):
            if goal != NO_GOAL and not why.startswith("rattle does not read"):
                goals[goal or "its proof"] = bool(LOST.search(why)) and goals.get(goal or "its proof", True)
    return found


def pairs_of(path):
    """Returns the file, the old text and the new text of each pair of an edit."""
    found, file, old = [], None, None
    with open(path, encoding="utf-8") as it:
        for line in it.read().split("\n"):
            word, _, rest = line.partition(":")
            rest = rest[rest.startswith(" ") :]
            if word == "file":
                file = rest.strip()
            elif word == "old":
                old = rest
            elif word == "new":
                found.append((file, old, rest))
                old = None
    return found


def is_proof_of(path, functions):
    """Returns `True` if this is a file of the proof of one of these functions."""
    return path.startswith("proofs/") and any(os.path.dirname(path).endswith("/" + it.replace("::", "/")) for it in functions)


def applied(path, folder, texts):
    """Applies an edit of the crate in this folder over the texts so far. Returns it, or None if it can't be applied."""
    texts, functions, are_bodies = dict(texts), set(), True
    pairs = pairs_of(path)
    for file, old, new in pairs:
        if not file or not old or not re.match(r"(src|specs|proofs)/", file) or ".." in file:
            return None
        if file not in texts:
            if not os.path.exists(f"{folder}/{file}"):
                return None
            with open(f"{folder}/{file}", encoding="utf-8") as it:
                texts[file] = it.read()
        if texts[file].count(old) != 1:
            return None
        end = function_at(file, texts[file], old) if file.startswith("src/") else None
        are_bodies = are_bodies and bool(end or is_proof_of(file, functions))
        functions |= {end} if end else set()
        texts[file] = texts[file].replace(old, new)
    return Edit(path, texts, functions if are_bodies else set()) if pairs else None


def edits_of(folder):
    """Returns the paths of a crate's must-fail edits."""
    shelf = f"{folder}/must-fail"
    return [f"{shelf}/{it}" for it in sorted(os.listdir(shelf)) if it.endswith(".edit")] if os.path.isdir(shelf) else []


def asked_of(path):
    """Returns the function that alone is checked first against this edit of a definition, or None."""
    with open(path, encoding="utf-8") as it:
        found = re.findall(r"^only: *(\S+) *$", it.read(), re.M)
    return found[0] if len(found) == 1 else None


class Trial:
    """The trial of a crate's edits: where its kept work and the libraries below are, and which functions' full names are known."""

    def __init__(self, project, name, calls, kept, libraries, proved=()):
        self.project, self.name, self.calls = project, name, calls
        self.kept, self.libraries, self.proved = kept, libraries, proved
        self.folder, self.found, self.is_searched, self.singly = project.folder(name), [], False, set()
        # the edits of which a copy of the function was tried in vain
        self.reach, self.scopes, self.uncopied = Reach(name, texts_of(self.folder)), {}, set()

    def scope(self, path):
        """Returns the scope of an edit; None if it has to be tried alone."""
        if path not in self.scopes:
            edit, name = applied(path, self.folder, {}), asked_of(path)
            self.scopes[path] = self.scope_of(edit, name) if edit.functions or name else None
        return self.scopes[path]

    def scope_of(self, edit, name):
        """Returns the scope of an edit of bodies, or of one that names this function; None if it isn't clear."""
        if edit.functions:
            more = " ".join(new for _, _, new in pairs_of(edit.path))
            reads = [self.reach.of(it, more) for it in edit.functions]
            return Scope(edit.functions, set(), None if None in reads else set().union(*reads))
        changed = [touched(file, self.reach.texts.get(file, ""), text) for file, text in edit.texts.items()]
        reads = [it.of(name) for it in (self.reach, Reach(self.name, {**self.reach.texts, **edit.texts}))]
        return None if None in (*changed, *reads) else Scope({name}, set().union(*changed), set().union(*reads))

    def check(self, texts, only=(), flags=()):
        """Checks a copy of the crate with these texts, over a copy of the kept work: a check keeps what it made of wrong bodies."""
        words = [*flags, *(word for it in only for word in ("--only", self.printed(it)))]
        with rooms.room_for(self.project, self.name, "edits", self.kept, self.libraries) as folder:
            for path, text in texts.items():
                os.makedirs(os.path.dirname(f"{folder}/{path}"), exist_ok=True)
                with open(f"{folder}/{path}", "w", encoding="utf-8") as it:
                    it.write(text)
            status, out, err = self.calls.check(folder, "check", after=words)
        return Verdict(status, text_of(out, err))

    def printed(self, end):
        """Returns the name by which a check knows a function: of `impl Ty<Arg<T>>` only the one that it prints, with Ty+Arg+T."""
        full = [it for it in self.proved if "+" in it and is_end_of(end, it, self.name)]
        return full[0] if len(full) == 1 else end

    def with_refused_answers(self, texts, functions):
        """Returns the texts with an answer that is refused for each of these functions whose full name is known."""
        texts = dict(texts)
        for end in functions:
            full = [it for it in self.proved if is_end_of(end, it, self.name)]
            folder = f"proofs/{'/'.join(full[0].split('::')[1:])}" if len(full) == 1 else None
            if folder and not os.path.exists(f"{self.folder}/{folder}/Proof.antt"):
                path = f"{folder}/Answers.antt"
                if path not in texts and os.path.exists(f"{self.folder}/{path}"):
                    with open(f"{self.folder}/{path}", encoding="utf-8") as it:
                        texts[path] = it.read()
                texts[path] = texts.get(path, "") + REFUSED_ANSWER
        return texts

    def refuse(self, edit, goals, lemmas=()):
        """Notes that a check refused an edit, for these goals of functions, and because these lemmas aren't proved."""
        strong = {full: [it for it, is_lost in own.items() if not is_lost] for full, own in goals.items()}
        told = [f"{full}: {', '.join(strong[full] or own)}" for full, own in goals.items()]
        self.found.append(f"refused {edit}: {'; '.join([*lemmas, *told])}")
        if not lemmas:
            self.found += [f"weak {edit}: only names that the edit took away, or no goal at all: {it}" for it in goals if not strong[it]]

    def together(self, waiting):
        """Tries edits that fit in one check. Returns the groups that wait for another one, and those to be tried alone."""
        # the check that searches for contracts which no call can meet has edits of bodies only
        is_searching = not self.is_searched and any(not self.scope(it).changed for it in waiting)
        texts, taken, copied, later = {}, [], {}, []
        for path in waiting:
            made, scope = applied(path, self.folder, texts), self.scope(path)
            company = [self.scope(it) for it in (*(edit.path for edit in taken), *copied)]
            if made and not (is_searching and scope.changed) and all(scope.fits(it) for it in company):
                texts = made.texts
                taken.append(made)
                continue
            copy = self.copy_for(path, len(copied)) if all(it.spares(scope) for it in company) else None
            if copy:
                copied[path] = copy
            else:
                later.append(path)
        if not taken:
            return [], later
        groups = [later] if later else []
        functions = sorted({it for edit in taken for it in self.scope(edit.path).judged})
        flags = [looks.SEARCH] if is_searching else []
        self.is_searched |= is_searching
        texts = copies.with_copies(self.with_refused_answers(texts, functions), copied.values(), self.reach.texts, REFUSED_ANSWER)
        verdict = self.check(texts, [*functions, *(it.own for it in copied.values())], flags)
        paths = [*(it.path for it in taken), *copied]
        if verdict.is_void and len(paths) > 1:
            self.is_searched, unknown = self.is_searched and not flags, MISSING.findall(verdict.said)
            missing = [it.path for it in taken if any(self.printed(end) in unknown for end in self.scope(it.path).judged)]
            uncopied = {path for path, copy in copied.items() if copy.own in unknown}
            if missing or copied:
                # if each function was found, a copy may not compile
                self.uncopied |= uncopied or (set() if missing else set(copied))
                return [[it for it in waiting if it not in missing]], missing
            # one of them may not compile: halves find it in a few checks
            half = len(paths) // 2
            return [*groups, paths[:half], paths[half:]], []
        if flags and not looks.faults_of_search(verdict.said):
            self.found.append("searched for contracts that no call can meet: none")
        self.singly |= set(paths) if len(paths) == 1 else set()
        again, alone = [], []
        for edit in taken:
            if self.is_refused_in(edit, verdict, len(paths) > 1):
                pass
            elif verdict.word == "not-proved" and len(paths) > 1 and self.only_calls(edit, verdict):
                again.append(edit.path)
            else:
                alone.append(edit.path)
        rest = [path for path, copy in copied.items() if not self.is_refused_as(copy, path, verdict)]
        self.uncopied |= set(rest)
        if len(again) == len(taken):
            # another check in this company would end in the same way
            alone, again = alone + again, []
        left = sorted([*later, *again, *rest], key=lambda it: bool(self.scope(it).changed))
        return [left] if left else [], alone

    def copy_for(self, path, number):
        """Returns a copy of the function for this edit of its body, or None if there can be none."""
        if self.scope(path).changed or path in self.uncopied:
            return None
        return copies.copy_of(applied(path, self.folder, {}), self.name, self.folder, self.proved, number)

    def is_refused_as(self, copy, path, verdict):
        """Returns `True` if a check refused this copy for a goal of its own that isn't only a lost name, and has read its answers."""
        full, goals = verdict.refusal(copy.own, self.name)
        if verdict.word != "not-proved" or not full or all(goals.values()) or not copy.is_read_in(verdict.said, NO_GOAL):
            return False
        self.refuse(os.path.basename(path), {full.removesuffix(copy.own) + copy.end: goals})
        return True

    def only_calls(self, edit, verdict):
        """Returns `True` if the check said of one of the edit's functions only that it calls another that isn't proved."""
        return any(is_end_of(end, it, self.name) for end in self.scope(edit.path).judged for it in CALLER.findall(verdict.said))

    def is_refused_in(self, edit, verdict, has_company=False):
        """Returns `True` if a check refused each function that the edit changes, for goals of its own, or the one that it names."""
        scope = self.scope(edit.path)
        if scope.changed:
            return self.is_refused_for(edit, *scope.judged, verdict, scope.read if has_company else None)
        goals = dict(verdict.refusal(it, self.name) for it in edit.functions)
        if verdict.word != "not-proved" or None in goals or not all(goals.values()):
            return False
        self.refuse(edit, goals)
        return True

    def group(self, waiting):
        """Tries edits of bodies together, and returns the tasks that follow."""
        groups, alone = self.together(waiting)
        return [*(functools.partial(self.group, it) for it in groups), *(functools.partial(self.single, it) for it in alone)]

    def single(self, path):
        """Tries one edit alone. No task follows."""
        self.alone(path)
        return []

    def alone(self, path):
        """Tries one edit alone: first checks the functions that it names or changes, and the whole crate if these do not refuse it."""
        edit, name = applied(path, self.folder, {}), asked_of(path)
        if name:
            is_tried = path in self.singly and not edit.functions
            if not is_tried and self.is_refused_for(edit, name, self.check(self.with_refused_answers(edit.texts, [name]), [name])):
                return
            self.calls.notes.append(f"{edit}: the check of {name} alone did not refuse it, so the whole crate is checked")
        if edit.functions and path not in self.singly:
            functions = sorted(edit.functions)
            if self.is_refused_in(edit, self.check(self.with_refused_answers(edit.texts, functions), functions)):
                return
        verdict = self.check(edit.texts)
        if verdict.word == "not-proved":
            self.refuse(edit, {full: goals for full, goals in verdict.goals.items() if goals}, lemmas_of(verdict.said))
        elif verdict.word == "proved":
            self.found.append(f"fail {edit}: NOT REFUSED: it is proved")
        else:
            self.found.append(f"fail {edit}: BAD EDIT: {verdict.word}: {first_line_of(verdict.said)}")

    def is_refused_for(self, edit, name, verdict, read=None):
        """Returns `True` if a check refused this function, for a goal of its own that isn't only a lost name or for a lemma that isn't
        proved. If `read` is given, a lemma counts only if its key is among these."""
        own = {full: goals for full, goals in verdict.goals.items() if is_end_of(name, full, self.name) and goals}
        lemmas = [it for it in lemmas_of(verdict.said) if read is None or tuple(it.split(": ")) in read]
        is_strong = lemmas or any(not is_lost for goals in own.values() for is_lost in goals.values())
        if verdict.word != "not-proved" or not own or not is_strong:
            return False
        self.refuse(edit, own, lemmas)
        return True

    def all(self):
        """Tries all edits of the crate, and returns the facts."""
        bodies, definitions, alone = [], [], []
        for path in edits_of(self.folder):
            if applied(path, self.folder, {}) is None:
                self.found.append(f"fail {os.path.basename(path)}: BAD EDIT: it can't be applied")
            elif self.scope(path):
                (definitions if self.scope(path).changed else bodies).append(path)
            else:
                alone.append(path)
        together = [*bodies, *definitions]
        first = [functools.partial(self.group, together)] if together else []
        Tasks(self.project.gate, [*first, *(functools.partial(self.single, it) for it in alone)]).run()
        return [*self.found, f"pass {sum(it.startswith('refused ') for it in self.found)}"]


def lemmas_of(said):
    """Returns the lemmas that a check refused for themselves, each with its file."""
    errors = re.findall(r"^(?:\./)?(proofs/\S+?\.antt):\d+:\d+: error: `([^`]*)`: (.*)$", said, re.M)
    return list(dict.fromkeys(f"{file}: {name}" for file, name, why in errors if name != NO_GOAL and not LOST.search(why)))


def first_line_of(said):
    """Returns the first line of an output that tells of an error."""
    return next((it[:200] for it in said.splitlines() if re.search(r"error|not proved|no proof", it)), said[-200:])


def main(names):
    """Tries the edits of crates over what `rt check` kept in their folders."""
    if names == ["--help"]:
        print(__doc__)
        return 0
    project, passed, failed = Project(os.getcwd()), 0, 0
    for name in names or project.order:
        if name not in project.lines:
            sys.exit(f"crates.txt has no {name}")
        kept = f"{project.folder(name)}/out"
        if not os.path.isdir(kept):
            sys.exit(f"crates/{name}/out has no kept work: run `rt check` in crates/{name} first")
        calls = Calls(project.gate)
        with lanes.working(project.gate):
            found = Trial(project, name, calls, kept, lambda it: f"{project.folder(it)}/out").all()
        print("".join(f"{name}: {it}\n" for it in [*found[:-1], *calls.notes]), end="", flush=True)
        passed += sum(it.startswith("refused ") for it in found)
        failed += sum(it.startswith("fail ") for it in found)
    print(f"{passed} passed, {failed} failed")
    return 1 if failed else 0


if __name__ == "__main__":
    sys.exit(main(sys.argv[1:]))
