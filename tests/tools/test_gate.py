"""The gate: its own reading of sources, edits and checks, and whole runs of it over small repositories with a stub in the kit's place."""

import contextlib
import io
import os
import re
import runpy
import shutil
import subprocess
import sys
import tempfile
import threading
import types
import unittest
from unittest import mock

from test_records import TOP

sys.path.insert(0, os.path.join(TOP, "tools", "gate"))
import calls
import copies
import dependence
import edits
import graph
import lanes
import looks
import project
import rooms
import sources
import summary
import tasks

check = types.SimpleNamespace(**runpy.run_path(os.path.join(TOP, "tools", "check"), run_name="check_of_a_change"))
seconds = types.SimpleNamespace(**runpy.run_path(os.path.join(TOP, "tools", "seconds"), run_name="seconds_of_a_check"))

SOURCE = """//! Numbers: fn in_a_comment() { .. }

pub trait Shape {
    fn area(&self) -> u64
        ensures { result ≡ area self.now };
}

impl Shape for Square {
    fn area(&self) -> u64
        requires { self.now.side < 2 ^ 32 }
        ensures { result ≡ area self.now }
    {
        let text = "fn no() { }";
        self.side * self.side
    }
}

/// Twice.
pub fn twice(number: u32) -> u64
    ghost it: { ℕ }
    ensures {
        result ≡ 2 * number
    }
{
    u64::from(number) * 2
}

fn pair(number: u32) -> [[u8; 2]; 2] {
    [[0; 2]; 2]
}
"""

# as the kit's check says it (its terms shortened)
SAID = """./proofs/table/Table/shift/Answers.antt:20:58: error: `invariant_of-self`: as printed, the two types first differ
  (expected), right after `IsTable`
./proofs/table/Table/shift/Answers.antt:26:58: error: `returns-clause-after`: computed as far as they go, the two types differ
./proofs/table/Table/learn/Answers.antt:15:37: error: `hear-requires-clause-at`: record `After-hear` has no field `hold`
fn low::orders::Orders::leave: no proof: expected answers in ./proofs/orders/Orders/leave/Answers.antt; `search` did not prove `returns`
fn low::orders::Orders::hold: proved
fn low::table::Table::shift: not proved
fn low::table::Table::learn: not proved
fn low::table::Table::move: not proved; it calls `low::table::Table::shift`, which is not proved
note: src/shape.rt:14:9: it is not proved that what the function ensures holds when it returns (`returns`); `search` gave up
note: src/shape.rt:20:1: it is not proved that what the function ensures holds when it returns (`returns-again`)
fn low::shape::SquareShape::area: not proved
./proofs/pair/Answers.antt:2:1: error: `no-goal-of-this-name`: `no-goal-of-this-name` is not in scope
fn low::pair: not proved
./proofs/table/Table/keep/Answers.antt: error: rattle does not read `Answers.antt` of `low::table::Table::keep`, since the borrow checker does not cover it yet
fn low::table::Table::keep: no proof: expected `keep_spec` in ./proofs/table/Table/keep/Proof.antt; the borrow checker does not cover this function yet: src/table.rt:9:5: a parameter that is a `&mut` is moved
only=8 proved=1
"""


class Sources(unittest.TestCase):
    """Where functions' bodies are."""

    def test_bodies_are_told_from_clauses(self):
        shape = sources.shape_of(SOURCE)
        self.assertEqual(len(shape), len(SOURCE))
        found = [(name, SOURCE[start:end].split("\n")[1].strip()) for name, _, start, end in sources.bodies(shape)]
        self.assertEqual(found, [("area", 'let text = "fn no() { }";'), ("twice", "u64::from(number) * 2"), ("pair", "[[0; 2]; 2]")])


    def test_names_are_those_that_a_check_prints(self):
        heads = ("impl Square {", "impl Shape for Square {", "impl<T: Side> Shape for Square<T> {", "impl<T: Side> Shape for T {", "trait Shape {")
        heads += ("unsafe impl<'x, T: Side, U> Shape for U {", "impl<T: Shape> Square<T> {", "pub trait Shape {")
        names = [sources.name_of("src/low.rt", "area", f"{head}\n    ") for head in heads]
        wanted = ["Square", "SquareShape", "SquareShape", "AnyShape", "Shape", "AnyShape", "Square", "Shape"]
        self.assertEqual(names, [f"{it}::area" for it in wanted])


class Unproved(unittest.TestCase):
    """Which functions of the sources no check has called proved."""

    def lacking(self, proved):
        """Returns what the gate lacks of a crate with SOURCE and a test, where these functions were proved."""
        with tempfile.TemporaryDirectory() as room:
            os.makedirs(f"{room}/src/tests")
            for path, text in {"src/lib.rt": SOURCE, "src/tests/shapes.rt": "#[test]\nfn tested() {\n}\n"}.items():
                with open(f"{room}/{path}", "w", encoding="utf-8") as it:
                    it.write(text)
            return sources.unproved(room, "low", proved)

    def test_all_proved_lacks_nothing(self):
        self.assertEqual(self.lacking({"low::SquareShape::area", "low::twice", "low::pair"}), [])

    def test_function_left_out_is_missed(self):
        self.assertEqual(self.lacking({"low::SquareShape::area", "low::pair"}), ["twice"])

    def test_namesake_of_another_type_is_no_stand_in(self):
        self.assertEqual(self.lacking({"low::CircleShape::area", "low::twice", "low::pair"}), ["SquareShape::area"])

    def test_arguments_of_a_type_stand_in_its_name(self):
        self.assertEqual(self.lacking({"low::SquareShape+Told+J::area", "low::twice", "low::pair"}), [])

    def test_crate_left_out_is_missed(self):
        self.assertEqual(self.lacking(set()), ["SquareShape::area", "pair", "twice"])


class Changes(unittest.TestCase):
    """What tools/check takes for a change of a body alone."""

    def test_body_is_parted_from_what_callers_know(self):
        rest, found = check.parted(SOURCE)
        self.assertEqual(sorted(found), ["area", "pair", "twice"])
        changed = check.parted(SOURCE.replace("u64::from(number) * 2", "2 * u64::from(number)"))
        self.assertEqual(changed[0], rest)
        self.assertNotEqual(changed[1]["twice"], found["twice"])
        self.assertEqual(changed[1]["area"], found["area"])

    def test_changed_clause_is_no_body(self):
        rest, found = check.parted(SOURCE)
        changed = check.parted(SOURCE.replace("2 * number", "3 * number"))
        self.assertNotEqual(changed[0], rest)
        self.assertEqual(changed[1], found)

    def test_changed_comment_is_no_change(self):
        self.assertEqual(check.parted(SOURCE.replace("/// Twice.", "/// Two times.")), check.parted(SOURCE))


class Rooms(unittest.TestCase):
    """What the checks of edits begin with."""

    def test_what_a_check_keeps_of_an_edit_is_not_for_the_next_one(self):
        with tempfile.TemporaryDirectory() as top:
            write(f"{top}/kept/table.oantt", "proved")
            rooms.linked(f"{top}/kept", f"{top}/copy")
            # as a check does it: it writes another file, and puts that in the place
            write(f"{top}/copy/new", "of a wrong body")
            os.replace(f"{top}/copy/new", f"{top}/copy/table.oantt")
            with open(f"{top}/kept/table.oantt", encoding="utf-8") as it:
                self.assertEqual(it.read(), "proved")


class Edits(unittest.TestCase):
    """Which function an edit changes, and what a check said of it."""

    def refusal(self, end):
        """Returns what SAID says of the function of this name's end."""
        return edits.Verdict(1, SAID).refusal(end, "low")

    def test_edit_of_a_body_has_its_function(self):
        found = sources.function_at("src/shape.rt", SOURCE, "self.side * self.side")
        self.assertEqual(found, "SquareShape::area")
        found = sources.function_at("src/numbers/twice.rt", SOURCE, "u64::from(number) * 2")
        self.assertEqual(found, "numbers::twice::twice")

    def test_what_stands_outside_is_no_body(self):
        self.assertIsNone(sources.function_at("src/shape.rt", SOURCE, "/// Twice."))
        self.assertIsNone(sources.function_at("src/shape.rt", SOURCE, "result ≡ 2 * number"))

    def test_refused_edit_tells_its_goals(self):
        goals = {"invariant_of-self": False, "returns-clause-after": False}
        self.assertEqual(self.refusal("Table::shift"), ("low::table::Table::shift", goals))
        self.assertEqual(self.refusal("Orders::leave"), ("low::orders::Orders::leave", {"returns": False}))

    def test_lost_name_is_told(self):
        self.assertEqual(self.refusal("Table::learn"), ("low::table::Table::learn", {"hear-requires-clause-at": True}))

    def test_goals_before_a_function_s_line_are_its_own(self):
        self.assertEqual(self.refusal("SquareShape::area"), ("low::shape::SquareShape::area", {"returns": False, "returns-again": False}))

    def test_refused_answer_alone_refuses_no_edit(self):
        self.assertEqual(self.refusal("pair"), (None, {}))

    def test_function_that_a_definition_s_edit_names(self):
        with tempfile.NamedTemporaryFile("w", suffix=".edit") as it:
            it.write("file: specs/Laws.antt\nonly: laws::starts\nold: one\nnew: two\n")
            it.flush()
            self.assertEqual(edits.asked_of(it.name), "laws::starts")

    def test_named_function_may_have_its_crate_before_it(self):
        for name in ("wire::refusal::number", "refusal::number", "number"):
            with self.subTest(name=name):
                self.assertTrue(sources.is_end_of(name, "wire::refusal::number", "wire"))
        self.assertFalse(sources.is_end_of("l::number", "wire::refusal::number", "wire"))

    def test_neither_a_caller_nor_what_is_proved_has_goals(self):
        self.assertEqual(self.refusal("Table::move"), (None, {}))
        self.assertEqual(self.refusal("Orders::hold"), (None, {}))

    def test_body_that_is_not_covered_shows_no_goal(self):
        self.assertEqual(self.refusal("Table::keep"), ("low::table::Table::keep", {"its proof": True}))

    def test_verdicts(self):
        words = [edits.Verdict(*it).word for it in ((1, SAID), (0, "logic=proved functions=1\n"), (1, "logic=not-proved functions=1\n"))]
        self.assertEqual(words, ["not-proved", "proved", "not-proved"])
        unjudged = (3, "logic=not-proved\n"), (1, "./src/lib.rt:1:1: error: no\nlogic=not-proved\n"), (2, ""), (-9, "")
        for status, said in unjudged:
            self.assertIn("judged nothing", edits.Verdict(status, said).word)


class Printed(unittest.TestCase):
    """By which name a check knows a function that an edit changes."""

    def test_arguments_of_a_type_are_named(self):
        with tempfile.TemporaryDirectory() as top:
            write(f"{top}/crates.txt", "low:\n")
            write(f"{top}/crates/low/src/lib.rt", SOURCE)
            trial = edits.Trial(project.Project(top), "low", None, "", None, ["low::peers::Peers+Told+J::send", "low::pair"])
            named = [trial.printed(it) for it in ("Peers::send", "pair", "lost")]
        self.assertEqual(named, ["low::peers::Peers+Told+J::send", "pair", "lost"])


UNCOVERED = "no proof: expected `f0_spec` in ./proofs/f0/Proof.antt; the borrow checker does not cover this function yet: src/lib.rt:2:5: moved"
ABOVE = "no proof: the borrow checker's part in its proof is not made yet: a call of `low::f0`, which has no proof: help: prove it first"


class Together(unittest.TestCase):
    """Edits of different functions in one check, of which some don't compile."""

    def tried(self, bodies):
        """Tries edits of a crate that write these bodies, each into a function of its own. Returns the facts and the checks' numbers of edits."""
        with tempfile.TemporaryDirectory() as top:
            names = [f"f{it}" for it in range(len(bodies))]
            write(f"{top}/crates.txt", "low:\n")
            write(f"{top}/crates/low/src/lib.rt", "".join(f"pub fn {name}() -> u8 {{\n    {it + 10}\n}}\n" for it, name in enumerate(names)))
            for it, body in enumerate(bodies):
                write(f"{top}/crates/low/must-fail/{names[it]}.edit", f"file: src/lib.rt\nold:     {it + 10}\nnew:     {body}\n")
            trial, sizes = edits.Trial(project.Project(top), "low", None, "", None), []

            def check(texts, only=(), _flags=()):
                sizes.append(len(only))
                if "unknown" in texts["src/lib.rt"] and len(only) > 1:
                    return edits.Verdict(2, "rattle: error: `low` has no function `f1`: help: write the name that a check prints\n")
                if "wrong" in texts["src/lib.rt"]:
                    return edits.Verdict(1, "./src/lib.rt:2:5: error[unresolved]: no `wrong` here\n")
                goal = "note: src/lib.rt:1:1: it is not proved that what the function ensures holds (`returns`)\n"
                callers = re.findall(r"fn (\w+)\(\) -> u8 \{\n    calls", texts["src/lib.rt"]) if len(only) > 1 else []
                uncovered, above = (re.findall(rf"fn (\w+)\(\) -> u8 \{{\n    {it}", texts["src/lib.rt"]) for it in ("moves", "above"))
                said = {it: f"{goal}fn low::{it}: not proved\n" for it in only}
                said |= {it: f"fn low::{it}: not proved; it calls another\n" for it in callers}
                said |= {it: f"fn low::{it}: {UNCOVERED}\n" for it in uncovered}
                said |= {it: f"fn low::{it}: {ABOVE}\n" for it in above if uncovered}
                return edits.Verdict(1, "".join(said.values()) + "only=1 proved=0\n")

            trial.check = check
            return trial.all(), sizes

    def test_all_compile(self):
        found, sizes = self.tried(["200", "201", "202"])
        self.assertEqual((found[-1], sizes), ("pass 3", [3]))

    def test_callers_of_each_other_are_tried_by_themselves(self):
        found, sizes = self.tried(["calls(1)", "calls(0)"])
        self.assertEqual((found[-1], sizes), ("pass 2", [2, 1, 1]))

    def test_callers_of_a_body_that_is_not_covered_are_tried_together(self):
        found, sizes = self.tried(["moves(0)", "above(1)", "above(2)"])
        self.assertEqual((found[-1], sizes), ("pass 3", [3, 2]))
        self.assertEqual([it for it in found if it.startswith("weak")], ["weak f0.edit: only names that the edit took away, or no goal at all: low::f0"])

    def test_function_that_the_check_does_not_find_is_tried_alone(self):
        found, sizes = self.tried(["200", "unknown", "202", "203"])
        # after the check of all four, two checks run side by side, so either may come first
        self.assertEqual((found[-1], sizes[0], sorted(sizes[1:])), ("pass 4", 4, [1, 3]))

    def test_one_does_not_compile(self):
        found, sizes = self.tried([*(str(200 + it) for it in range(7)), "wrong"])
        self.assertEqual(found[-1], "pass 7")
        self.assertEqual([it for it in found if it.startswith("fail")], ["fail f7.edit: BAD EDIT: the check judged nothing (status 1): "
                         "./src/lib.rt:2:5: error[unresolved]: no `wrong` here"])
        # eight, then halves; the last is the whole check of the edit that is left
        self.assertEqual(sorted(sizes), [0, 1, 1, 2, 2, 4, 4, 8])


# a crate with two laws, each of its own definition; the second law's proof needs a lemma
LAWS = {
    "src/lib.rt": "//! Laws.\n#![tactic(auto)]\n\nmod laws;\n",
    "src/laws.rt": "ghost use Rattle.low.specs.Laws.{First, Second};\n\npub fn first()\n    ensures { First }\n{\n}\n\npub fn second()\n    ensures { Second }\n{\n}\n",
    "specs/Lib.antt": "pub mod Laws\n",
    "specs/Laws.antt": "use Rattle.std.specs.Prelude.{ℕ, ◌≤◌}\n\n-- one\npub record First : Type 0 where\n  pub at : 1 ≤ three\n\n"
    "abbrev pub Second : Type 0\nSecond = 1 ≤ two\n\nabbrev pub two : ℕ\ntwo = 2\n\nabbrev pub three : ℕ\nthree = 3\n",
    "proofs/Lib.antt": "mod Lemmas\n",
    "proofs/Lemmas.antt": "use Rattle.low.specs.Laws.{Second}\n\nholds : Second\nholds = search rules\n",
    "proofs/laws/second/Answers.antt": "use Rattle.low.proofs.Lemmas.{holds}\nuse Rattle.low.proofs.laws.second.Goals as goal\n\n"
    "pub returns : goal.returns\nreturns c = holds\n",
}


class Definitions(unittest.TestCase):
    """Edits of definitions, of which those that have nothing to do with each other are tried together."""

    def of_laws(self, top):
        """Writes the crate of the laws, and returns its folder."""
        for path, text in LAWS.items():
            write(f"{top}/crates/low/{path}", text)
        return f"{top}/crates/low"

    def test_what_a_proof_can_depend_on(self):
        with tempfile.TemporaryDirectory() as top:
            texts = dependence.Reach("low", dependence.texts_of(self.of_laws(top)))
            first, second = texts.of("laws::first"), texts.of("second")
        laws, lemmas = "specs/Laws.antt", "proofs/Lemmas.antt"
        self.assertLessEqual({(laws, "First"), (laws, "three")}, first)
        self.assertTrue(first.isdisjoint({(laws, "Second"), (laws, "two"), (lemmas, "holds")}))
        self.assertLessEqual({(laws, "Second"), (laws, "two"), (lemmas, "holds")}, second)
        self.assertTrue(second.isdisjoint({(laws, "First"), (laws, "three")}))
        self.assertIsNone(texts.of("laws::third"))

    def test_what_a_module_declares_belongs_to_it(self):
        text = "one : First\none = first\n\nmodule _ (x : First) where\n  two : Second\n  two = go x\n    where\n      go : First → Second\n      go _ = second\n"
        found = dependence.declarations(text)
        self.assertEqual([sorted(named & {"one", "two", "go"}) for named, _ in found], [["one"], ["go", "two"]])
        self.assertIn("second", found[1][1])

    def test_text_with_a_line_that_belongs_to_nothing_counts_as_one(self):
        found = dependence.declarations("pub one : ℕ\none = 1\nstrange two\npub three : ℕ\nthree = 3\n")
        self.assertEqual(len(found), 1)
        self.assertLessEqual({"one", "strange", "three"}, found[0][0])

    def test_methods_of_a_trait_belong_to_its_type(self):
        texts = {
            "src/lib.rt": "pub struct Own {\n    at: u8,\n}\n\nimpl PartialEq for Own {\n    fn eq(&self, other: &Own) -> bool\n"
            "        ensures { Told }\n    {\n        true\n    }\n}\n\nimpl Own {\n    pub fn alone(&self) -> u8\n        ensures { Other }\n    {\n        1\n    }\n}\n\n"
            "pub fn same(a: &Own, b: &Own) -> bool {\n    a == b\n}\n",
        }
        found = dependence.Reach("low", texts).of("same")
        self.assertIn(("", "Told"), found)
        self.assertNotIn(("", "Other"), found)

    def test_lists_of_names_may_go_over_lines(self):
        texts = dict(LAWS)
        texts["src/laws.rt"] = LAWS["src/laws.rt"].replace("{First, Second}", "{\n  First,\n  Second as Later,\n}").replace("{ Second }", "{ Later }")
        self.assertIn(("specs/Laws.antt", "two"), dependence.Reach("low", texts).of("laws::second"))

    def test_what_an_edit_changes(self):
        laws = LAWS["specs/Laws.antt"]
        for old, new, names in (
            ("two = 2", "two = 1", {"two"}),
            ("pub at : 1", "pub at : 2", {"First"}),
            ("-- one", "-- a", None),
            ("{ℕ, ◌≤◌}", "{ℕ, ◌≤◌, suc}", None),
        ):
            with self.subTest(new=new):
                found = dependence.touched("specs/Laws.antt", laws, laws.replace(old, new))
                self.assertEqual(found, names and {("specs/Laws.antt", it) for it in names})
        constant = "pub const MOST: u8 = 3;\n\npub enum Kind {\n    One,\n    Two,\n}\n"
        self.assertEqual(dependence.touched("src/a.rt", constant, constant.replace("3", "4")), {("", "MOST")})
        self.assertEqual(dependence.touched("src/a.rt", constant, constant.replace("One", "Other")), {("", it) for it in ("Kind", "One", "Two", "Other")})

    def tried(self, *pairs, said=""):
        """Tries edits of the laws' definitions, each with the function that it names. Returns the facts and the checks' functions."""
        with tempfile.TemporaryDirectory() as top:
            write(f"{top}/crates.txt", "low:\n")
            folder = self.of_laws(top)
            for number, (old, new, name) in enumerate(pairs):
                write(f"{folder}/must-fail/e{number}.edit", f"only: {name}\nfile: specs/Laws.antt\nold: {old}\nnew: {new}\n")
            trial, checks = edits.Trial(project.Project(top), "low", mock.Mock(notes=[]), "", None), []

            def check(texts, only=(), flags=()):
                checks.append((sorted(only), *flags))
                goal = "note: src/laws.rt:1:1: it is not proved that what the function ensures holds (`returns`)\n"
                lines = said or "".join(f"{goal}fn low::{it}: not proved\n" for it in only)
                return edits.Verdict(1, f"{lines}only=1 proved=0\n")

            trial.check = check
            return trial.all(), checks

    def test_those_of_two_laws_are_tried_in_one_check(self):
        found, checks = self.tried(("two = 2", "two = 0", "laws::second"), ("three = 3", "three = 0", "laws::first"))
        self.assertEqual((found[-1], checks), ("pass 2", [(["laws::first", "laws::second"],)]))
        self.assertEqual(found[0], "refused e0.edit: low::laws::second: returns")

    def test_those_of_one_law_are_not(self):
        found, checks = self.tried(("two = 2", "two = 0", "laws::second"), ("Second = 1 ≤ two", "Second = 3 ≤ two", "laws::second"))
        self.assertEqual((found[-1], checks), ("pass 2", [(["laws::second"],), (["laws::second"],)]))

    def test_one_that_the_other_law_may_read_is_tried_by_itself(self):
        both = ("two = 2", "two = 0", "laws::second"), ("three = 3", "three = suc two", "laws::first")
        found, checks = self.tried(*both)
        self.assertEqual((found[-1], checks), ("pass 2", [(["laws::second"],), (["laws::first"],)]))

    def test_lemma_counts_for_the_law_that_needs_it(self):
        said = (
            "./proofs/Lemmas.antt:4:1: error: `holds`: computed as far as they go, the two types differ\n"
            "./proofs/laws/second/Answers.antt:5:1: error: `returns`: `holds` was not admitted\nfn low::laws::second: not proved\n"
            "./proofs/laws/first/Answers.antt:5:1: error: `returns`: `other` was not admitted\nfn low::laws::first: not proved\n"
        )
        found, checks = self.tried(("two = 2", "two = 0", "laws::second"), ("three = 3", "three = 0", "laws::first"), said=said)
        self.assertIn("refused e0.edit: proofs/Lemmas.antt: holds; low::laws::second: returns", found)
        self.assertEqual(checks[:2], [(["laws::first", "laws::second"],), (["laws::first"],)])

    def test_whole_crate_follows_the_check_of_the_function_alone(self):
        found, checks = self.tried(("two = 2", "two = 3", "laws::second"), said="fn low::laws::second: not proved\n")
        self.assertEqual(checks, [(["laws::second"],), ([],)])
        self.assertEqual(found, ["refused e0.edit: ", "pass 1"])

    def test_search_for_contracts_has_no_definition_changed(self):
        with tempfile.TemporaryDirectory() as top:
            write(f"{top}/crates.txt", "low:\n")
            folder = self.of_laws(top)
            write(f"{folder}/src/lib.rt", LAWS["src/lib.rt"] + "\npub fn one() -> u8 {\n    11\n}\n")
            write(f"{folder}/must-fail/a.edit", "only: laws::second\nfile: specs/Laws.antt\nold: two = 2\nnew: two = 0\n")
            write(f"{folder}/must-fail/b.edit", "file: src/lib.rt\nold:     11\nnew:     12\n")
            trial, checks = edits.Trial(project.Project(top), "low", mock.Mock(notes=[]), "", None), []

            def check(_texts, only=(), flags=()):
                checks.append((sorted(only), *flags))
                goal = "note: src/lib.rt:1:1: it is not proved that what the function ensures holds (`returns`)\n"
                return edits.Verdict(1, "".join(f"{goal}fn low::{it}: not proved\n" for it in only) + "only=1 proved=0\n")

            trial.check = check
            trial.all()
        self.assertEqual(checks, [(["one"], looks.SEARCH), (["laws::second"],)])


PAIR = """//! Pairs.

pub struct Pair {
    one: u8,
}

impl Pair {
    /// The first.
    #[tactic(auto)]
    pub fn first(&self) -> u8
        ensures { result ≡ first self.now }
    {
        self.one
    }

    pub fn again(&self, n: u8) -> u8 {
        if n == 0 { 0 } else { self.again(n - 1) }
    }
}

impl Clone for Pair {
    fn copied(&self) -> u8 {
        self.one
    }
}

pub fn all(xs: &[u8]) -> bool {
    xs.iter().all(|x| *x > 0)
}
"""
PROVED_OF_PAIR = ["low::pair::Pair::first", "low::pair::Pair::again", "low::pair::PairClone::copied", "low::pair::all", "low::pair::fn::all::all"]


class Copies(unittest.TestCase):
    """Copies of functions, so that two edits of one function are tried in one check."""

    def of_pair(self, top):
        """Writes the crate of the pair, and returns its folder."""
        write(f"{top}/crates.txt", "low:\n")
        folder = f"{top}/crates/low"
        write(f"{folder}/src/lib.rt", "//! Low.\n\nmod pair;\n")
        write(f"{folder}/src/pair.rt", PAIR)
        write(f"{folder}/proofs/pair/Pair/first/Answers.antt", "use Rattle.low.proofs.pair.Pair.first.Goals as goal\n\npub returns : goal.returns\nreturns c = refl\n")
        return folder

    def copy(self, folder, end):
        """Returns a copy of a function as it is."""
        return copies.copy_of(edits.Edit("e.edit", {"src/pair.rt": PAIR}, {end}), "low", folder, PROVED_OF_PAIR, 1)

    def test_method_and_its_proof(self):
        with tempfile.TemporaryDirectory() as top:
            made = self.copy(self.of_pair(top), "Pair::first")
        self.assertEqual((made.end, made.own), ("Pair::first", "Pair::first_copy1"))
        texts = copies.with_copies({}, [made], {"src/pair.rt": PAIR}, "more\n")
        answers = "use Rattle.low.proofs.pair.Pair.first_copy1.Goals as goal\n\npub returns : goal.returns\nreturns c = refl\nmore\n"
        self.assertEqual(texts["proofs/pair/Pair/first_copy1/Answers.antt"], answers)
        part = PAIR[PAIR.index("    /// The first") : PAIR.index("    pub fn again")]
        self.assertEqual(texts["src/pair.rt"], PAIR.replace(part, f"{part}{part.replace('fn first', 'fn first_copy1', 1)}"))

    def test_functions_without_a_copy(self):
        with tempfile.TemporaryDirectory() as top:
            folder = self.of_pair(top)
            for end in ("Pair::again", "PairClone::copied", "pair::all", "Pair::other"):
                with self.subTest(end=end):
                    self.assertIsNone(self.copy(folder, end))
            write(f"{folder}/proofs/pair/Pair/first/Proof.antt", "pub first_spec : statement\n")
            self.assertIsNone(self.copy(folder, "Pair::first"))

    def tried(self, reads=True, compiles=True, goal="note: src/pair.rt:1:1: it is not proved that the result is right (`returns`)\n"):
        """Tries two edits of one function. Returns the facts, and the functions of each check. `goal` is a line about each copy."""
        with tempfile.TemporaryDirectory() as top:
            folder = self.of_pair(top)
            for number, body in enumerate(("0", "1")):
                write(f"{folder}/must-fail/e{number}.edit", f"file: src/pair.rt\nold: let one = self.one;\nnew: let one = {body};\n")
            write(f"{folder}/src/pair.rt", PAIR.replace("    {\n        self.one\n", "    {\n        let one = self.one;\n        one\n", 1))
            trial, checks = edits.Trial(project.Project(top), "low", mock.Mock(notes=[]), "", None, PROVED_OF_PAIR), []

            def check(texts, only=(), flags=()):
                checks.append(sorted(only))
                if not compiles and any("_copy" in it for it in only):
                    return edits.Verdict(1, "./src/pair.rt:9:5: error[unresolved]: no such name here\n")
                said = ""
                for it in only:
                    path = f"proofs/pair/{it.replace('::', '/')}/Answers.antt"
                    said += f"./{path}:9:1: error: `{edits.NO_GOAL}`: not in scope\n" if reads and edits.NO_GOAL in texts.get(path, "") else ""
                    said += (goal if "_copy" in it else "note: src/pair.rt:1:1: it is not proved that it is so (`returns`)\n") + f"fn low::pair::{it}: not proved\n"
                return edits.Verdict(1, f"{said}only=1 proved=0\n")

            trial.check = check
            return trial.all(), checks

    def test_two_edits_of_one_function_are_tried_in_one_check(self):
        found, checks = self.tried()
        self.assertEqual((found[-1], checks), ("pass 2", [["Pair::first", "Pair::first_copy0"]]))
        self.assertIn("refused e1.edit: low::pair::Pair::first: returns", found)

    def test_copy_whose_answers_are_not_read_shows_nothing(self):
        found, checks = self.tried(reads=False)
        self.assertEqual((found[-1], checks), ("pass 2", [["Pair::first", "Pair::first_copy0"], ["Pair::first"]]))

    def test_copy_may_miss_a_field_beside_another_goal(self):
        path = "proofs/pair/Pair/first_copy0/Answers.antt"
        lost = f"./{path}:3:1: error: `other`: record `After-x` has no field `y`\n"
        goal = "note: src/pair.rt:1:1: it is not proved that the result is right (`returns`)\n"
        self.assertEqual(len(self.tried(goal=lost + goal)[1]), 1)
        self.assertEqual(len(self.tried(goal=lost)[1]), 2)
        self.assertEqual(len(self.tried(goal=lost.replace("record `After-x` has no field `y`", "`y` is not in scope") + goal)[1]), 2)

    def test_copy_that_does_not_compile_is_left_out(self):
        found, checks = self.tried(compiles=False)
        self.assertEqual((found[-1], checks), ("pass 2", [["Pair::first", "Pair::first_copy0"], ["Pair::first"], ["Pair::first"]]))

    def test_copy_without_a_goal_shows_nothing(self):
        found, checks = self.tried(goal="")
        self.assertEqual((found[-1], checks), ("pass 2", [["Pair::first", "Pair::first_copy0"], ["Pair::first"]]))


class Ends(unittest.TestCase):
    """How a crate's check ended that failed."""

    UNENDED = "fn low::f: proved\nnote: the search for empty contracts did not end\n\nlogic=proved functions=1 sum=1\n"

    def test_check_that_refused_nothing_is_run_again(self):
        unsure = "fn low::f: could not tell\nrattle: no verdict: out of memory\n"
        for status, said in ((3, unsure), (3, self.UNENDED), (-6, "memory allocation failed\n"), (-9, "")):
            self.assertTrue(calls.could_not_tell(status, said))

    def test_check_that_refused_is_not(self):
        for said in ("fn low::f: not proved\nlogic=not-proved\n", "src/lib.rt:1:1: error[unresolved]: no `g` here\n", "only=2 proved=1\n"):
            self.assertFalse(calls.could_not_tell(1, said))
        self.assertFalse(calls.could_not_tell(2, "rattle: error: `low` has no function `f`: help: write the name that a check prints\n"))

    def test_neither_is_one_that_is_well(self):
        self.assertFalse(calls.could_not_tell(0, "logic=proved functions=1 sum=1\n"))

    def test_its_last_lines_are_told(self):
        told = ["its check ended with status 3", "note: the search for empty contracts did not end", "logic=proved functions=1 sum=1"]
        self.assertEqual(calls.ends_of(3, self.UNENDED), told)


class Texts(unittest.TestCase):
    """What `rt ci` alone refuses in a crate's sources."""

    def faults(self, text):
        """Returns what the gate has against a source with this text, in a repository that allows Threads and Wait."""
        with tempfile.TemporaryDirectory() as top:
            write(f"{top}/crates.txt", "low:\n")
            write(f"{top}/HANDLES", "Handles allowed: Threads, Wait.\n")
            write(f"{top}/crates/low/src/lib.rt", text)
            return [it.partition(": ")[2] for it in looks.texts(project.Project(top), "low", None) if it.startswith("fail ")]

    def test_what_is_refused(self):
        cases = {
            "use std::Net;": "Net is a handle beyond HANDLES", "fn f<R: Abort>(rt: R) {}": "Abort ends the process",
            'unsafe extern "C" { fn f(); }': "extern     { declares C functions", "macro_rules! m { }": "macro_rules is a macro of our own",
            "fn f() -> Box<dyn Fn(u8) -> u8> {}": "-> Box<dyn F hands out a `dyn` value or a function pointer",
            "fn __f() {}": "fn __f has a name that begins with two underscores", "use std as other;": "use std as names std another way",
            "ghost use Rattle.std.specs.Prelude.{◌≤◌ as ◌≡◌};": "◌≤◌ as ◌≡◌ is an own name of an operator",
        }
        for text, why in cases.items():
            with self.subTest(text=text):
                self.assertEqual([" ".join(it.split()) for it in self.faults(text)], [" ".join(why.split())])

    def test_what_is_not(self):
        taken = "fn f(take: impl Fn(u8) -> u8) -> u8 {}", "fn f() -> u8 { 0 }\nfn g(a: fn(u8) -> u8) {}"
        for text in (*taken, "fn f<R: Threads>(rt: R) {}", "// Net and Abort\n"):
            self.assertEqual(self.faults(text), [], text)


class Pools(unittest.TestCase):
    """How many checks of large crates run side by side."""

    def test_memory_is_shared(self):
        # MiB that are free: a proof of the longest chain may take 5,500 of 85 in 100 of them, each other check 3,500
        checks = {0: {"all": 1}, 10_000: {"all": 1}, 11_000: {"others": 1}, 16_000: {"proofs": 1, "edits": 1},
                  18_000: {"proofs": 1, "edits": 1}, 19_000: {"proofs": 2, "edits": 1}, 23_000: {"proofs": 2, "edits": 2}}
        for memory, pools in checks.items():
            with self.subTest(memory=memory):
                self.assertEqual(graph.pools_for(memory), pools)

    def test_no_check_takes_the_place_of_a_proof_of_the_chain(self):
        large = type("Large", (), {"reach": lambda self, name: range(graph.MANY + 1)})()

        def pools_of(pools, chain):
            return [graph.pool_of(large, rule, "top", pools, chain) for rule in ("proof", "edits", "tests", "house")]

        both = {"proofs": 2, "edits": 1}
        self.assertEqual(pools_of(both, ["top"]), [None, "edits", None, "edits"])
        self.assertEqual(pools_of(both, []), ["proofs", "edits", None, "edits"])
        self.assertEqual(pools_of({"others": 1}, ["top"]), [None, "others", None, "others"])
        self.assertEqual(pools_of({"others": 1}, []), ["others", "others", None, "others"])
        self.assertEqual(pools_of({"all": 1}, ["top"]), ["all", "all", None, "all"])


class Chain(unittest.TestCase):
    """The crates whose proofs the gate waits for in the end, and the jobs of a proof."""

    # NAME: the crates below it, and its lines; lowest first
    CRATES = {"names": ([], 900), "table": (["names"], 1000), "words": (["names"], 10), "edge": (["table", "words"], 900), "page": (["words"], 1000)}

    def project(self):
        below = {name: it for name, (it, _) in self.CRATES.items()}
        found = {"below": below, "order": list(self.CRATES), "gate": "/nowhere", "lines_of": lambda _, name: self.CRATES[name][1]}
        found["reach"] = lambda _, name: self.below(name)
        return type("Chained", (), found)()

    def below(self, name):
        """Returns all crates below one."""
        return {name for it in self.CRATES[name][0] for name in (it, *self.below(it))}

    def test_chain_has_the_most_lines(self):
        self.assertEqual(graph.longest_chain(self.project()), ["names", "table", "edge"])

    def test_its_proofs_have_two_jobs_though_no_lane_is_idle(self):
        for lanes_at_work, memory, is_in_chain, jobs in ((4, 20_000, True, 2), (4, 20_000, False, 1), (3, 20_000, False, 2), (3, 9_000, True, 1)):
            state = {"at_work": lambda _, found=lanes_at_work: found, "free_memory": lambda found=memory: found, "lanes": lambda: 4}
            with self.subTest(lanes_at_work=lanes_at_work, memory=memory), mock.patch.multiple(lanes, time=mock.DEFAULT, **state):
                self.assertEqual(lanes.jobs_for(self.project(), "edge", is_in_chain), jobs)
                self.assertEqual(lanes.jobs_for(self.project(), "words", is_in_chain), 1)

    def test_proofs_on_two_processors_have_one_job(self):
        state = {"at_work": lambda _: 1, "free_memory": lambda: 20_000}
        for number, jobs in ((2, 1), (3, 2)):
            with self.subTest(lanes=number), mock.patch.multiple(lanes, time=mock.DEFAULT, lanes=lambda found=number: found, **state):
                self.assertEqual(lanes.jobs_for(self.project(), "edge", True), jobs)

    def test_crate_far_up_has_one_job(self):
        state = {"at_work": lambda _: 1, "free_memory": lambda: 20_000, "lanes": lambda: 4}
        for far, jobs in ((3, 1), (4, 2)):
            with self.subTest(far=far), mock.patch.multiple(lanes, time=mock.DEFAULT, FAR=far, **state):
                self.assertEqual(lanes.jobs_for(self.project(), "edge", True), jobs)

    def test_other_rules_give_way_to_them(self):
        found = [lanes.niceness_of(rule, is_in_chain) for rule, is_in_chain in (("proof", True), ("proof", False), ("edits", True), ("tests", False))]
        self.assertEqual(found, [0, 5, 10, 10])


class Seconds(unittest.TestCase):
    """The processor seconds that `tools/seconds` prints."""

    def test_those_of_a_process_below_that_has_ended_count(self):
        works = "import time\nwhile time.process_time() < 0.5:\n    pass\nprint(flush=True)"
        words = ["bash", "-c", f"{sys.executable} -c '{works}'; read"]
        with subprocess.Popen(words, stdin=subprocess.PIPE, stdout=subprocess.PIPE) as ran:
            self.assertLess(seconds.used_by(ran.pid), 0.5)
            ran.stdout.readline()
            self.assertGreaterEqual(seconds.used_by(ran.pid), 0.4)


class Slow(unittest.TestCase):
    """The functions that took long, by the lines that a check prints as it ends with each."""

    def test_each_function_has_the_seconds_since_the_one_before(self):
        with tempfile.TemporaryDirectory() as top:
            made = calls.Calls(top)
            clock = iter([100.0, 104.0, 104.0, 140.0, 140.0, 165.0, 165.0])
            with mock.patch("calls.time.monotonic", lambda: next(clock)):
                lines = made.timed([b"checked low::a, 1 of 3\n", b"note: other\n", b"checked low::b, 2 of 3\n", b"checked low::T::c, 3 of 3\n"])
            self.assertEqual(len(lines), 4)
            self.assertEqual([it for it in made.facts() if it.startswith("slow")], ["slow 36 low::b", "slow 25 low::T::c"])

    def test_the_slowest_are_told(self):
        found = {("low", "edits"): ["slow 25 low::a", "pass 1"], ("high", "proof"): ["slow 90 high::b"]}
        with contextlib.redirect_stdout(io.StringIO()) as said:
            summary.print_slow(found)
        told = "gate: slow, by the clock: high proof: 90 s for high::b\ngate: slow, by the clock: low edits: 25 s for low::a\n"
        self.assertEqual(said.getvalue(), told)


class SecondLane(unittest.TestCase):
    """Tasks of one rule, two side by side while a lane is idle."""

    def setUp(self):
        folder = tempfile.TemporaryDirectory()
        self.addCleanup(folder.cleanup)
        self.folder = folder.name

    def with_lanes(self, count, memory=20_000):
        return mock.patch.multiple(lanes, lanes=lambda: count, free_memory=lambda: memory)

    def test_idle_lane_is_marked(self):
        for count, memory, found in ((2, 20_000, (True, 2)), (1, 20_000, (False, 2)), (2, 9_000, (False, 1))):
            with self.subTest(count=count, memory=memory), self.with_lanes(count, memory), lanes.working(self.folder):
                with lanes.second(self.folder) as is_idle:
                    self.assertEqual((is_idle, lanes.at_work(self.folder)), found)
                self.assertEqual(lanes.at_work(self.folder), 1)

    def most_at_once(self, count):
        """Runs four tasks, of which the first has two more behind it, with this many lanes. Returns how many began, and how many ran at once."""
        begun, now, most, both = [], [], [0], threading.Barrier(2)

        def task(*more):
            begun.append(1)
            now.append(1)
            most[0] = max(most[0], len(now))
            if count > 1:
                both.wait(60)
            now.pop()
            return list(more)

        with self.with_lanes(count), lanes.working(self.folder):
            tasks.Tasks(self.folder, [lambda: task(task, task), task, task, task]).run()
        return len(begun), most[0]

    def test_two_at_once_while_a_lane_is_idle(self):
        self.assertEqual(self.most_at_once(2), (6, 2))

    def test_one_after_the_other_while_none_is(self):
        self.assertEqual(self.most_at_once(1), (6, 1))

    def test_fault_ends_the_tasks(self):
        begun = []
        with self.with_lanes(1), lanes.working(self.folder), self.assertRaises(ZeroDivisionError):
            tasks.Tasks(self.folder, [lambda: [1 // 0], lambda: begun.append(1)]).run()
        self.assertEqual(begun, [])


# A kit that answers from files: $STUB/CRATE.WORD has the status in its first line, and CRATE.WORD.again is the answer to later calls.
STUB = """#!/bin/bash
case $1 in version) echo stub; exit;; doc) echo /nowhere/it.md; exit;; fmt) exit 0;; esac
word=$1
for it in "$@"; do case $it in --empty-contracts) word=house;; --only) word=edits; break;; rattle) word=run.rattle;; esac; done
it=$STUB/$(basename "$PWD").$word
if [ -e "$it.again" ] && [ -e "$it.called" ]; then it=$it.again; fi
[ -e "$it" ] || exit 2
touch "$it.called"
[ "$word" = lib ] && mkdir -p out/incremental out/rlib
case $word in run*) mkdir -p out; echo "$word" > "out/$(basename "$PWD")"; cat "$it.err" >&2;; esac
tail -n +2 "$it"
exit "$(head -n 1 "$it")"
"""
LIBRARY = "//! Numbers.\n\n/// Twice.\npub fn twice(number: u32) -> u64 {\n    u64::from(number) * 2\n}\n"
TESTS = "\n#[cfg(test)]\nmod tests {\n    #[test]\n    fn one() {\n    }\n\n    #[test]\n    fn two() {\n    }\n}\n"
PROVED = "0\nfn {0}::twice: proved\nlogic=proved functions=1 sum=1\n"
SEARCHED = "empty contracts: 0 found; tried 1 of 1 functions\n"
REFUSED = "1\nnote: src/lib.rt:5:5: it is not proved that what the function ensures holds (`returns`)\nfn {0}::twice: not proved\nonly=1 proved=0\n"
HOUSE = "0\nempty contracts: 0 found; tried 1 of 1 functions\nlogic=proved functions=1 sum=1\n"
TRIED = "0\ntests: 2\ntest tests::one ... ok\ntest tests::two ... ok\nrun=ended status=0 runners=1 proved=no\n"


def write(path, text):
    """Writes a file, and its folders."""
    os.makedirs(os.path.dirname(path), exist_ok=True)
    with open(path, "w", encoding="utf-8") as it:
        it.write(text)


class Gate(unittest.TestCase):
    """Whole runs over two crates, one on the other."""

    def setUp(self):
        folder = tempfile.TemporaryDirectory()
        self.addCleanup(folder.cleanup)
        self.top, self.stub = f"{folder.name}/top", f"{folder.name}/stub"
        write(f"{self.top}/crates.txt", "low:\nhigh: low\n")
        write(f"{self.top}/HANDLES", "Handles allowed: none.\n")
        write(f"{self.top}/.gitignore", "/.gate*/\n")
        write(f"{self.stub}/bin/rt", STUB)
        os.chmod(f"{self.stub}/bin/rt", 0o755)
        for name in ("low", "high"):
            write(f"{self.top}/crates/{name}/src/lib.rt", LIBRARY + TESTS)
            write(f"{self.top}/crates/{name}/must-fail/thrice.edit", "file: src/lib.rt\nold: * 2\nnew: * 3\n")
            for word, text in (("lib", PROVED), ("edits", REFUSED), ("house", HOUSE), ("try", TRIED)):
                write(f"{self.stub}/{name}.{word}", text.format(name))
        subprocess.run(["git", "init", "-q"], cwd=self.top, check=True)

    def gate(self, **settings):
        """Runs the gate. Returns its status and its output."""
        path = f"{self.stub}/bin:{os.environ['PATH']}"
        inherited = {it: text for it, text in os.environ.items() if not it.startswith("GATE_")}
        words = [sys.executable, os.path.join(TOP, "tools", "gate", "make.py")]
        how = {"cwd": self.top, "env": {**inherited, "PATH": path, "STUB": self.stub, **settings}, "check": False}
        ran = subprocess.run(words, stdin=subprocess.DEVNULL, stdout=subprocess.PIPE, stderr=subprocess.STDOUT, text=True, **how)
        return ran.returncode, ran.stdout

    def fails(self, why, count=1, passed=8):
        """Sees that the gate fails for this reason, and goes through all the same."""
        status, said = self.gate()
        self.assertRegex(said, f"(?m)^gate: FAILED {why}")
        self.assertEqual((status, said.splitlines()[-1]), (1, f"{passed} passed, {count} failed"), said)

    def test_all_is_well(self):
        status, said = self.gate()
        self.assertEqual((status, said.splitlines()[-1]), (0, "8 passed, 0 failed"), said)
        self.assertIn("gate: 2 functions proved, 0 of the sources not among them\n", said)
        self.assertIn("gate: 2 crates proved, 4 tests run unproved, 2 edits refused\n", said)
        self.assertRegex(said, r"\ngate: stub; \d+ processors; at least \d+ MiB of memory and \d+ MB of disk were left\n")

    def test_all_is_well_without_ninja(self):
        status, said = self.gate(GATE_NINJA="no")
        self.assertEqual((status, said.splitlines()[-1]), (0, "8 passed, 0 failed"), said)
        proofs = [it.start() for it in re.finditer("^(?:low|high) proof: functions", said, re.M)]
        self.assertEqual(said.find("low proof: functions"), proofs[0], said)

    def test_function_that_no_check_has_seen(self):
        write(f"{self.stub}/high.lib", "0\nlogic=proved functions=0 sum=1\n")
        self.fails("high proof: no check has proved twice", 3, 6)

    def test_edit_that_can_not_be_applied(self):
        write(f"{self.top}/crates/low/must-fail/lost.edit", "file: src/lib.rt\nold: * 4\nnew: * 3\n")
        self.fails("low edits: lost.edit: BAD EDIT: it can't be applied")

    def test_edit_that_is_proved(self):
        write(f"{self.stub}/low.edits", "0\nfn low::twice: proved\nonly=1 proved=1\n")
        write(f"{self.stub}/low.check", PROVED.format("low"))
        self.fails("low edits: thrice.edit: NOT REFUSED", 1, 7)

    def test_test_that_is_skipped(self):
        write(f"{self.stub}/low.try", TRIED.replace("test tests::two ... ok", "test tests::two ... ignored"))
        self.fails("low tests: 1 of 2 tests passed", 2, 6)

    def test_test_that_is_not_compiled(self):
        write(f"{self.stub}/low.try", TRIED.replace("tests: 2", "tests: 1").replace("test tests::two ... ok\n", ""))
        self.fails("low tests: 1 of 2 tests passed", 4, 6)

    def test_ignored_test_fails_by_its_text(self):
        write(f"{self.top}/crates/low/src/lib.rt", LIBRARY + TESTS.replace("#[test]\n    fn two", "#[test]\n    #[ignore]\n    fn two"))
        self.fails("low texts: src/lib.rt: an ignored test")

    def test_crate_that_is_not_proved(self):
        write(f"{self.stub}/low.lib", "1\nfn low::twice: not proved\nlogic=not-proved functions=1 sum=1\n")
        status, said = self.gate()
        self.assertEqual(status, 1)
        whys = "low proof: fn low::twice: not proved", "low edits: not tried, since low isn't proved", "high proof: not tried, since low isn't proved"
        for why in whys:
            self.assertIn(f"gate: FAILED {why}\n", said)
        self.assertIn("4 tests run unproved", said)

    def test_contract_that_no_call_can_meet(self):
        write(f"{self.stub}/low.house", HOUSE.replace("0 found", "1 found"))
        self.fails("low house: empty contracts: 1 found")

    def test_search_that_a_check_of_edits_has_made(self):
        os.unlink(f"{self.stub}/low.house")
        write(f"{self.stub}/low.edits", REFUSED.format("low").replace("only=1", SEARCHED + "only=1"))
        status, said = self.gate()
        self.assertEqual((status, said.splitlines()[-1]), (0, "8 passed, 0 failed"), said)

    def test_search_that_no_check_has_made(self):
        os.unlink(f"{self.stub}/low.house")
        self.fails("low house: no search for empty contracts")

    def test_check_that_refused_nothing_gets_a_second_run(self):
        write(f"{self.stub}/low.lib", "3\nfn low::twice: could not tell\n")
        write(f"{self.stub}/low.lib.again", PROVED.format("low"))
        status, said = self.gate()
        self.assertEqual((status, said.splitlines()[-1]), (0, "8 passed, 0 failed"), said)
        self.assertIn("gate: low proof: its check ended with status 3\n", said)
        self.assertIn("gate: low proof: retried with one job, the check ended with status 0\n", said)

    def test_proof_that_began_with_the_work_of_others(self):
        write(f"{self.stub}/low.lib", PROVED.format("low").replace("0\n", "0\nrt: low: begins with what a check kept in /elsewhere\n", 1))
        self.fails("low proof: it isn't proved from nothing", 6, 4)

    def test_file_that_no_check_reads(self):
        for path in ("docs/lost.rt", "tests/unproved/low/tests.rt", "tests/unproved/low/Lost.antt", "bench/lost.rt"):
            write(f"{self.top}/{path}", "")
            self.fails(f"repository files: no check reads {path}")
            os.unlink(f"{self.top}/{path}")

    def test_tests_that_are_not_proved(self):
        write(f"{self.top}/crates/low/src/lib.rt", LIBRARY)
        write(f"{self.top}/tests/unproved/low/tests.rt.txt", "#[test]\nfn one() {\n}\n\n#[test]\nfn two() {\n}\n")
        status, said = self.gate()
        self.assertEqual((status, said.splitlines()[-1]), (0, "8 passed, 0 failed"), said)
        self.assertIn("gate: 2 crates proved, 4 tests run unproved, 2 edits refused\n", said)

    def test_layout(self):
        write(f"{self.stub}/bin/rt", STUB.replace("fmt) exit 0", "fmt) sed -i 's/ *$//' $(find src -name '*.rt'); exit 0"))
        self.assertEqual(self.gate()[0], 0)
        for path in ("crates/low/src/shape.rt", "tests/unproved/low/tests/shapes.rt.txt"):
            write(f"{self.top}/{path}", "//! Shapes. \n")
            self.fails(f"low layout: not in the layout: {path}")
            os.unlink(f"{self.top}/{path}")
        for path in ("bench/records/main.rt.txt", "tests/outside/stations.rt.txt"):
            write(f"{self.top}/{path}", "//! A driver.\n")
            self.assertEqual(self.gate()[0], 0)
            write(f"{self.top}/{path}", "//! A driver. \n")
            self.fails(f"repository files: not in the layout: {path}")
            os.unlink(f"{self.top}/{path}")

    def test_tidy_gate_leaves_facts_alone(self):
        status, said = self.gate(GATE_TIDY="yes")
        self.assertEqual((status, said.splitlines()[-1]), (0, "8 passed, 0 failed"), said)
        left = [it for it in os.listdir(f"{self.top}/.gate") if os.path.isdir(f"{self.top}/.gate/{it}")]
        self.assertEqual(left, [])
        self.assertTrue(os.path.exists(f"{self.top}/.gate/low.proof"))

    def program(self, by_rattle):
        """Adds a program that prints `four`, and, as the other compiler builds it, this."""
        write(f"{self.top}/crates.txt", "low:\nhigh: low\ntop: high\n")
        write(f"{self.top}/crates/top/src/main.rt", LIBRARY)
        write(f"{self.top}/crates/top/stdout", "four\n")
        for word, text in (("run", "0\nfour\n"), ("run.rattle", f"0\n{by_rattle}\n"), ("house", HOUSE)):
            write(f"{self.stub}/top.{word}", text)
            write(f"{self.stub}/top.{word}.err", PROVED.format("top"))

    def test_program_is_handed_over_as_both_compilers_build_it(self):
        self.program("four")
        status, said = self.gate()
        self.assertEqual((status, said.splitlines()[-1]), (0, "10 passed, 0 failed"), said)
        for name, word in (("top", "run"), ("top.by-rattle", "run.rattle")):
            with open(f"{self.top}/crates/top/out/{name}", encoding="utf-8") as it:
                self.assertEqual(it.read(), f"{word}\n")

    def test_program_that_prints_something_else(self):
        self.program("five")
        self.fails("top backend: as rattle builds it, it ended with status 0 and wrote 5 octets", passed=9)
        self.assertFalse(os.path.exists(f"{self.top}/crates/top/out/top.by-rattle"))

    def test_program_that_prints_something_else_as_it_is_proved(self):
        self.program("four")
        write(f"{self.stub}/top.run", "0\nfive\n")
        self.fails("top proof: as llvm builds it, it ended with status 0 and wrote 5 octets", 4, 8)
        self.assertFalse(os.path.exists(f"{self.top}/crates/top/out/top"))

    def test_resumed_gate_hands_over_both_builds_again(self):
        self.program("four")
        self.gate()
        shutil.rmtree(f"{self.top}/crates/top/out")
        status, said = self.gate(GATE_RESUME=f"{self.top}/.gate")
        self.assertEqual((status, said.splitlines()[-1]), (0, "10 passed, 0 failed"), said)
        self.assertEqual(sorted(os.listdir(f"{self.top}/crates/top/out")), ["top", "top.by-rattle"])

    def test_resumed_gate_does_only_what_changed(self):
        self.gate()
        write(f"{self.top}/crates/high/src/lib.rt", LIBRARY + "// changed\n" + TESTS)
        status, said = self.gate(GATE_RESUME=f"{self.top}/.gate")
        self.assertEqual((status, said.splitlines()[-1]), (0, "8 passed, 0 failed"), said)
        self.assertEqual(sorted(re.findall(r"^(\w+ \w+): as before$", said, re.M)), [f"low {it}" for it in sorted(graph.RULES) if it != "backend"])
        self.assertIn("gate: high proof: proved over kept work\n", said)

    def test_gate_of_another_clone_goes_on(self):
        self.gate()
        first, self.top = self.top, f"{self.top}-other"
        shutil.copytree(first, self.top, ignore=shutil.ignore_patterns(".gate"))
        status, said = self.gate(GATE_RESUME=f"{first}/.gate")
        self.assertEqual((status, said.splitlines()[-1]), (0, "8 passed, 0 failed"), said)
        self.assertEqual(len(re.findall(r": as before$", said, re.M)), 12)
        self.assertTrue(os.path.isdir(f"{self.top}/.gate/low.proof.room/crates/low/out/rlib"))

    def test_some_rules_alone(self):
        status, said = self.gate(GATE_RULES="proof edits")
        self.assertEqual((status, said.splitlines()[-1]), (0, "4 passed, 0 failed"), said)

    def test_resumed_gate_keeps_no_failure(self):
        write(f"{self.stub}/high.house", HOUSE.replace("0 found", "1 found"))
        self.gate()
        write(f"{self.stub}/high.house", HOUSE)
        status, said = self.gate(GATE_RESUME=f"{self.top}/.gate")
        self.assertEqual((status, said.splitlines()[-1]), (0, "8 passed, 0 failed"), said)
        self.assertEqual(len(re.findall(r": as before$", said, re.M)), 11)


if __name__ == "__main__":
    unittest.main()
