"""`tools/audited`: what public contracts lead to, on an example with answers found by hand; and a rule on the crates."""

import os
import sys
import tempfile
import unittest
from pathlib import Path
from typing import Dict, List

from test_records import TOP

sys.path.insert(0, os.path.join(TOP, "tools", "reading"))
import antt
import rust
from reach import lowest_first, project_at, reading_of

# Lines of definitions in specs/ that no public contract leads to. A count may not rise, and one that falls is to be entered.
UNREACHED = {
    "bpdu_wire": 11, "ether_wire": 6, "ev_book": 56, "ev_claims": 40, "ev_config": 67, "ev_console": 105,
    "ev_edge": 14, "ev_exchange": 11, "ev_fabric": 10, "ev_links": 68, "ev_peers": 150, "ev_mailboxes": 68, "ev_report": 65,
    "ev_run": 142, "ev_script": 56, "ev_tunnel": 5, "ev_view": 3, "evpnd": 62, "idx_links": 63, "mac_arena": 55, "route_join": 297, "route_wire": 199,
    "ev_sites": 8, "rstp_run": 87, "rstp_state": 4,
}

EXAMPLE = {
    "crates.txt": "# crates\nhigh: low arrayvec\nlow tests_may=Wait:\nprogram: high low\n",
    "crates/low/src/lib.rt": """//! Low.
mod inside;
mod shape;
pub use shape::{Area, Side, Square, twice};
#[cfg(test)]
mod tests;
""",
    "crates/low/src/shape.rt": """//! Shapes: fn in_a_comment() ensures { commented }.
ghost use Rattle.std.specs.Prelude.{◌≡◌};
ghost use Rattle.low.specs.Shape.{double, told, hidden, quarter, commented, text, half as halved};
use crate::inside::{Inner, Kept};

/// A shape with an area.
pub trait Area {
    ghost use Rattle.low.specs.Shape.{Extent};
    /// Its extent.
    ghost extent: { Self → Extent };
    fn area(&self) -> u64
        requires { told (extent self.now) };
}

/// A square.
pub struct Square { side: u32, kept: Kept }

/// What counts.
pub const MOST: u8 = 3;
const LEAST: u8 = 1;

impl Model for Square {
    ghost use Rattle.low.specs.Shape.{seen, IsSound, coded_by};
    ghost Value = { ℕ };
    ghost view = { λ s. seen s.side };
    ghost coded = { coded_by };
    ghost invariant = { λ s. IsSound s.side };
}

impl Area for Square {
    ghost use Rattle.low.specs.Shape.{extent_of};
    ghost extent = { extent_of };
    fn area(&self) -> u64 {
        let text = "ensures { text }";
        self.side.then(|n| -> u64
            ensures { quarter n }
            { n })
    }
}

impl Ord for Square {
    ghost use Rattle.low.specs.Shape.{order, order_total};
    ghost cmp = { order };
    ghost total = { order_total };
}

/// The sides.
pub enum Side { Left, Right(Inner) }

/// Twice.
pub fn twice(halved: u32) -> u64
    ensures value { result ≡ double halved "text" }
{
    u64::from(number) * 2
}

fn within() -> [u8; 2]
    ensures { hidden result }
{
    [0; 2]
}
""",
    "crates/low/src/inside.rt": """//! Inside.
ghost use Rattle.low.specs.Inside.{inner_value, inner_view, kept_fact};
/// One.
pub(crate) struct Inner { n: u8 }
impl Model for Inner {
    ghost Value = { inner_value };
    ghost view = { inner_view };
}
/// Two.
pub struct Kept {
    pub n: u8,
    ghost fact: { kept_fact n },
}
""",
    "crates/low/src/tests.rt": "//! Tests. This isn't read: {{\n",
    "crates/low/specs/Lib.antt": "pub mod Inside\npub mod Shape\n",
    "crates/low/specs/Inside.antt": """-- The inside.
use Rattle.std.specs.Prelude.{ℕ}

abbrev pub inner_value : Type 0
inner_value = ℕ

abbrev pub inner_view : ℕ
inner_view = 0

abbrev pub kept_fact : ℕ → ℕ
kept_fact n = n
""",
    "crates/low/specs/Shape.antt": """-- Shapes.
use Rattle.std.specs.Prelude.{ℕ, ◌+◌}
use Rattle.low.specs.declared.shape.Side.{Side}
use Rattle.low.specs.declared.shape.Side.TheVariants as sides
use Rattle.low.specs.declared.shape.TheConstants.{LEAST}

-- twice as much: not hidden
abbrev pub double : ℕ → ℕ
double half = half ⊕ by_side sides.Left (λ hidden. LEAST)

infixl 10 ◌⊕◌
abbrev pub ◌⊕◌ : ℕ → ℕ → ℕ
m ⊕ n = m + n

-- ---- a heading

-- by a side,
-- or the other
abbrev pub by_side : Side → (ℕ → ℕ) → ℕ
by_side (sides.Left) quarter = quarter 1
by_side (sides.Right i) f =
    let commented = f 2 in
    commented

abbrev pub half : ℕ → ℕ
half n = n

pub record Extent : Type 0 where
  pub order_total : ℕ
  pub twice_that : ℕ

pub told : Extent → ℕ
unfolding seen
told e = from (record { seen_by = e.hidden; height = 1 })

from : ℕ → ℕ
from n = n

abbrev pub hidden : ℕ → ℕ
hidden n = deeper n

abbrev pub deeper : ℕ → ℕ
deeper n = n

abbrev pub quarter : ℕ → ℕ
quarter n = n
abbrev pub commented : ℕ
commented = 1
abbrev pub text : ℕ
text = 1
abbrev pub seen : ℕ → ℕ
seen n = n
abbrev pub IsSound : ℕ → ℕ
IsSound n = n
abbrev pub coded_by : ℕ
coded_by = 1
abbrev pub extent_of : ℕ
extent_of = 1
abbrev pub order : ℕ
order = 1
abbrev pub order_total : ℕ
order_total = lonely
abbrev pub lonely : ℕ
lonely = 1
abbrev pub height : ℕ
height = 1
""",
    "crates/high/src/lib.rt": """//! High.
ghost use Rattle.high.specs.Way as way;
use low::Area;
/// Up.
pub fn up<A: Area>(a: &A)
    ensures { way.up (A.extent a.now) }
{ }
pub(crate) fn down()
    ensures { way.down }
{ }
""",
    "crates/high/specs/Way.antt": """use Rattle.low.specs.Shape.{deeper}
pub data Way : Type 0 where
  north : Way
  south : Way
abbrev pub up : Way → Way
up north = deeper
up south = south
abbrev pub down : Way
down = north
""",
    "crates/program/src/main.rt": """//! A program.
mod run;
use crate::run::run;
fn main(rt: HostRuntime) -> ExitCode { run() }
""",
    "crates/program/src/run.rt": """//! Its run.
ghost use Rattle.program.specs.Run.{ran, helped};
pub fn run()
    ensures { ran }
{ }
pub fn help()
    ensures { helped }
{ }
""",
    "crates/program/specs/Run.antt": "abbrev pub ran : ℕ\nran = 1\nabbrev pub helped : ℕ\nhelped = 1\n",
}

READ = {  # by hand; `half` by nothing: the parameter `halved` hides its name in the clause
    "low": [
        "inner_value", "double", "◌⊕◌", "by_side", "Extent", "told", "from", "deeper", "seen", "IsSound", "extent_of", "order",
    ],
    "high": ["Way", "up"],
    "program": ["ran"],
}
INNER = {
    "low": ["inner_view", "kept_fact", "hidden", "quarter", "coded_by", "order_total", "lonely"],
    "high": ["down"],
    "program": ["helped"],
}
PROOFS = {"low": ["half", "commented", "text", "height"], "high": [], "program": []}


def example(folder: str) -> None:
    """Writes the example."""
    for name, text in EXAMPLE.items():
        file = Path(folder, name)
        file.parent.mkdir(parents=True, exist_ok=True)
        file.write_text(text, encoding="utf-8")


def said(text: str, *bound: str) -> List[str]:
    """The names that a term says."""
    return [".".join(name) for name in antt.names_in(text, set(bound))]


class Example(unittest.TestCase):
    """What the example's contracts lead to."""

    @classmethod
    def setUpClass(cls):
        with tempfile.TemporaryDirectory(prefix="audited-") as folder:
            example(folder)
            cls.reading = reading_of(project_at(Path(folder)))

    def named(self, part: str) -> Dict[str, List[str]]:
        """The names of the definitions of a part."""
        return {crate: [it.path[-1] for it in self.reading.definitions(crate, part)] for crate in ("low", "high", "program")}

    def test_what_public_contracts_lead_to(self):
        self.assertEqual(self.named("read"), READ)

    def test_what_private_items_cite(self):
        self.assertEqual(self.named("inner"), INNER)

    def test_what_no_source_cites(self):
        self.assertEqual(self.named("proofs"), PROOFS)

    def test_how_many_functions(self):
        counts = {crate: contracts.functions for crate, contracts in self.reading.contracts.items()}
        self.assertEqual(counts, {"low": 2, "high": 1, "program": 1})  # `area` of the trait and `twice`; `up`; `run`

    def test_which_lines(self):
        """With the comment above, not with a heading; `unfolding` is a line of its definition."""
        lines = {it.path[-1]: (it.first, it.last) for it in self.reading.definitions("low", "read")}
        found = [lines[name] for name in ("double", "by_side", "Extent", "told")]
        self.assertEqual(found, [(7, 9), (17, 23), (28, 30), (32, 34)])

    def test_how_many_lines(self):
        self.assertEqual(self.reading.lines("high", "read"), 6)  # three of `Way`, three of `up`
        self.assertEqual(self.reading.lines("high", "inner", "proofs"), 2)

    def test_types(self):
        names = [item.name for _, item in self.reading.types("low")]
        # `Inner` by a field of `Side`; `LEAST` by `double`; a model hides the fields of `Square`
        self.assertEqual(names, ["Inner", "Area", "LEAST", "Side"])

    def test_files(self):
        files = [os.path.basename(it.file) for it in self.reading.files_in_order("low")]
        self.assertEqual(files, ["Inside.antt", "Shape.antt"])
        self.assertEqual(self.reading.unread_files("low"), [])


class Names(unittest.TestCase):
    """Which names a text says."""

    def test_what_is_bound(self):
        self.assertEqual(said("(x y : A) → B x y z"), ["A", "B", "z"])
        self.assertEqual(said("f (λ x (y : A). g x y) x"), ["f", "A", "g", "x"])
        self.assertEqual(said("let x : A = e in h x"), ["A", "e", "h"])
        self.assertEqual(said("do\n  t ← f s\n  g t"), [">>=", "f", "s", "g"])
        self.assertEqual(said("record r { a = b; c = d }"), ["r", "b", "d"])
        self.assertEqual(said("m.f x.a (g y).b", "x"), ["m.f", "g", "y"])

    def test_what_is_no_name(self):
        self.assertEqual(said('codes "if f" -- f is told\n'), ["codes"])

    def test_what_a_use_takes(self):
        scope = antt.imports("use Rattle.a.specs.B.{c, d as e}\nghost use Rattle.a.specs.F as g;\n")
        self.assertEqual(scope.meaning(("c",)), ("a", "specs", "B", "c"))
        self.assertEqual(scope.meaning(("e",)), ("a", "specs", "B", "d"))
        self.assertEqual(scope.meaning(("g", "h")), ("a", "specs", "F", "h"))
        self.assertIsNone(scope.meaning(("d",)))

    def test_what_is_not_understood_is_refused(self):
        with self.assertRaisesRegex(ValueError, "File:2: what is this"):
            antt.module_of("-- a file\nmystery\n", ("a", "specs", "B"), "File")
        with self.assertRaisesRegex(ValueError, "File:1: what is this"):
            rust.source_of("mystery!();\n", ("a",), "File")

    def test_lowest_first(self):
        self.assertEqual(lowest_first("# top: none\nc: b a\nb may=Wait: a kit\na:\n"), ["a", "b", "c"])


class Rules(unittest.TestCase):
    """Rules of the house on the crates."""

    @classmethod
    def setUpClass(cls):
        cls.reading = reading_of(project_at(Path(TOP)))

    def files(self, *parts: str) -> Dict[str, str]:
        """The definitions of these parts by name, with the file of each."""
        found = [it for crate in self.reading.project.crates for part in parts for it in self.reading.definitions(crate, part)]
        return {".".join(it.path): it.file for it in found}

    def test_unreached_lines(self):
        """What an auditor needn't read grows no more in specs/; where it has shrunk, enter the new count."""
        counts = {crate: self.reading.lines(crate, "inner", "proofs") for crate in self.reading.project.crates}
        self.assertEqual({crate: count for crate, count in counts.items() if count > UNREACHED.get(crate, 0)}, {})

    def test_what_is_to_be_read_stands_apart(self):
        """What an auditor needn't read stands in specs/Inner/; what is to be read doesn't."""
        self.assertEqual({name: file for name, file in self.files("inner", "proofs").items() if "/specs/Inner/" not in file}, {})
        self.assertEqual({name: file for name, file in self.files("read").items() if "/specs/Inner/" in file}, {})


if __name__ == "__main__":
    unittest.main()
