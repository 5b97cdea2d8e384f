"""tests/mutants.py: the lists of wrong bodies fit the sources, and each names a test that there is. The wrong bodies themselves are
built and run by tests/planted.py --mutants, which takes too long for each gate."""

import glob
import os
import re
import sys
import tempfile
import unittest
from pathlib import Path

from test_records import TOP

sys.path.insert(0, os.path.join(TOP, "tests"))
import mutants

BLOCKS = """edit: one
test: tests::first
file: src/lib.rt
old: let x = 1;
new: let x = 2;

edit: two
test: tests::second
file: src/lib.rt
old: let y = 1;
new: let y = 2;

edit: same_function
test: tests::third
file: src/lib.rt
old: let x = 1;
new: let x = 3;

edit: same_test
test: tests::first
file: src/lib.rt
old: let z = 1;
new: let z = 2;

edit: in_the_program
test: test_run.Beginning.test_it
file: src/lib.rt
old: let z = 1;
new: let z = 3;

edit: by_itself
test: tests::fourth
group: loud
file: src/lib.rt
old: let w = 1;
new: let w = 2;
"""


class Groups(unittest.TestCase):
    """Which wrong bodies share a build."""

    def setUp(self) -> None:
        folder = tempfile.TemporaryDirectory()
        self.addCleanup(folder.cleanup)
        self.addCleanup(os.chdir, os.getcwd())
        os.chdir(folder.name)
        os.makedirs("crates/low/src")
        os.makedirs("tests/mutants")
        lines = "".join(f"fn {name}() {{\n    let {name} = 1;\n}}\n" for name in "xyzw")
        Path("crates/low/src/lib.rt").write_text(lines, encoding="utf-8")
        Path("tests/mutants/low.edits").write_text(BLOCKS, encoding="utf-8")

    def names(self, are_alone: bool) -> list:
        """The names of each group."""
        return [[it.name for it in group.mutants] for group in mutants.groups_of(mutants.all_mutants(), are_alone)]

    def test_different_functions_and_tests_share_a_build(self) -> None:
        self.assertEqual(self.names(False), [["one", "two"], ["same_function", "same_test"], ["in_the_program"], ["by_itself"]])
        self.assertEqual(len(self.names(True)), 6)

    def test_texts_have_all_wrong_bodies_of_a_group(self) -> None:
        group = mutants.groups_of(mutants.all_mutants(), False)[0]
        text = group.texts[Path("crates/low/src/lib.rt")]
        self.assertTrue("let x = 2;" in text and "let y = 2;" in text and "let z = 1;" in text)

    def test_a_block_without_a_test(self) -> None:
        Path("tests/mutants/low.edits").write_text(BLOCKS.replace("test: tests::second\n", ""), encoding="utf-8")
        self.assertRaises(SystemExit, mutants.all_mutants)

    def test_a_body_that_no_longer_fits(self) -> None:
        Path("tests/mutants/low.edits").write_text(BLOCKS.replace("old: let y = 1;", "old: let y = 9;"), encoding="utf-8")
        self.assertRaises(SystemExit, self.names, False)


class Verdicts(unittest.TestCase):
    """When a test counts as failed."""

    def test_a_test_of_a_crate(self) -> None:
        said = "test tests::a::one ... ok\ntest tests::a::two ... FAILED\n"
        told = [mutants.failed_in_crate(said, f"tests::a::{it}") for it in ("one", "two", "three")]
        self.assertEqual(told, [False, True, False])

    def test_a_test_that_there_is_not(self) -> None:
        self.assertEqual(list(mutants.kept_on("/bin/false", ["test_records.Nothing.test_it"])), ["test_records.Nothing.test_it"])


class Lists(unittest.TestCase):
    """The lists of the repository."""

    def setUp(self) -> None:
        self.addCleanup(os.chdir, os.getcwd())
        os.chdir(TOP)
        self.mutants = mutants.all_mutants()

    def test_each_fits_the_sources(self) -> None:
        self.assertGreater(len(self.mutants), 30)
        for it in mutants.groups_of(self.mutants, True):
            self.assertEqual(len(it.mutants), 1)

    def test_each_has_a_reason(self) -> None:
        for it in self.mutants:
            self.assertRegex(it.edit.text, r"(?m)^why: \S", it.name)

    def sources(self, crate: str) -> str:
        """The tests of a crate."""
        files = glob.glob(f"crates/{crate}/src/tests*", recursive=True) + glob.glob(f"crates/{crate}/src/tests/*")
        files += glob.glob(f"tests/unproved/{crate}/**", recursive=True)
        return "".join(Path(it).read_text(encoding="utf-8") for it in files if os.path.isfile(it))

    def test_each_names_a_test(self) -> None:
        statuses = "".join(Path(it).read_text(encoding="utf-8") for it in glob.glob("tests/statuses.*"))
        for it in self.mutants:
            with self.subTest(it.name):
                if "::" in it.test:
                    name = it.test.rpartition("::")[2]
                    self.assertRegex(self.sources(it.crate), rf"#\[test\]\nfn {name}\(")
                elif it.test.startswith(mutants.STATUSES):
                    self.assertIn(re.sub(r", (checked|summed up)$", "", it.test[len(mutants.STATUSES) :]), statuses)
                else:
                    module, cls, name = it.test.split(".")
                    text = Path(glob.glob(f"tests/*/{module}.py")[0]).read_text(encoding="utf-8")
                    self.assertRegex(text, rf"(?s)class {cls}\((?:(?!\nclass ).)*\n    def {name}\(")


if __name__ == "__main__":
    unittest.main()
