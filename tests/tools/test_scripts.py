"""The scripts that look after the repository: its drawing, its edits, its documents, and the table of statuses."""

import os
import subprocess
import sys
import tempfile
import unittest

from test_records import TOP

sys.path.insert(0, os.path.join(TOP, "tests"))
import crates_svg
import docs_names
import more_edits
import statuses

EDITS = """edit: one_for_two
file: src/lib.rt
old: let x = 1;
new: let x = 2;

edit: other_way
file: src/lib.rt
old: a < b
new: a <= b
old: a <= b
new: b < a
"""


class Folder(unittest.TestCase):
    """Tests that work in a folder of their own."""

    def setUp(self):
        self.folder = tempfile.TemporaryDirectory()
        self.addCleanup(self.folder.cleanup)
        self.addCleanup(os.chdir, os.getcwd())
        os.chdir(self.folder.name)

    def write(self, path: str, text: str) -> None:
        """A file with its folders."""
        os.makedirs(os.path.dirname(path) or ".", exist_ok=True)
        with open(path, "w", encoding="utf-8") as stream:
            stream.write(text)


class Edits(Folder):
    """tests/more_edits.py: edits as files, and as blocks of one file."""

    def setUp(self):
        super().setUp()
        self.write("crates/low/src/lib.rt", "fn f() {\n    let x = 1;\n    a < b\n}\n")
        self.write("crates/low/more-edits/all.edits", EDITS)
        self.write("crates/low/must-fail/feared.edit", "file: src/lib.rt\nold: let x = 1;\nnew: let x = 3;\n")

    def run_script(self, *words: str) -> subprocess.CompletedProcess:
        """The script as a program."""
        script = os.path.join(TOP, "tests", "more_edits.py")
        return subprocess.run([sys.executable, script, *words], capture_output=True, encoding="utf-8", check=False)

    def test_both_forms_apply(self):
        done = self.run_script("applies", "low")
        self.assertEqual((done.returncode, done.stdout), (0, "3 edits, 0 that can't be applied\n"))

    def test_an_edit_that_no_longer_fits(self):
        self.write("crates/low/src/lib.rt", "fn f() {\n    let x = 1;\n    a > b\n}\n")
        done = self.run_script("applies", "low")
        self.assertEqual(done.returncode, 1)
        self.assertIn("crates/low/more-edits/all.edits: other_way: in crates/low/src/lib.rt this stands 0 times: a < b", done.stdout)

    def test_blocks_have_names(self):
        for text in ("file: src/lib.rt\n" + EDITS, EDITS + EDITS, EDITS.replace("one_for_two", "one for two")):
            self.write("crates/low/more-edits/all.edits", text)
            self.assertEqual(self.run_script("applies", "low").returncode, 1)

    def test_unfold(self):
        self.assertEqual(self.run_script("unfold", "low").returncode, 0)
        self.assertEqual(sorted(os.listdir("crates/low/must-fail")), ["one_for_two.edit", "other_way.edit"])
        with open("crates/low/must-fail/one_for_two.edit", encoding="utf-8") as stream:
            self.assertEqual(stream.read(), "file: src/lib.rt\nold: let x = 1;\nnew: let x = 2;\n")

    def test_fold(self):
        """A file beside the blocks becomes one of them, and the blocks stay what they are."""
        self.write("crates/low/more-edits/a_third.edit", "file: src/lib.rt\nold: let x = 1;\nnew: let x = 4;\n")
        for _turn in range(2):
            self.assertEqual(self.run_script("fold", "low").returncode, 0)
            with open("crates/low/more-edits/all.edits", encoding="utf-8") as stream:
                self.assertEqual(stream.read(), "edit: a_third\nfile: src/lib.rt\nold: let x = 1;\nnew: let x = 4;\n\n" + EDITS)
        self.assertEqual(os.listdir("crates/low/more-edits"), ["all.edits"])

    def test_edits_of_the_repository_apply(self):
        os.chdir(TOP)
        crates = sorted(os.listdir("crates"))
        edits = [edit for crate in crates for edit in more_edits.edits_of(crate, "must-fail", "more-edits")]
        faults = [f"{edit}: {why}" for edit, (texts, why) in ((edit, more_edits.apply(edit, {})) for edit in edits) if texts is None]
        self.assertEqual(faults, [])


class Documents(Folder):
    """tests/docs_names.py: names and links that lead nowhere, and what is too long."""

    def faults(self, text: str) -> list:
        """What a document with this text is told."""
        self.write("docs/page.md", text)
        files = ["crates/low/src/lib.rt", "crates/low/specs/Table.antt", "docs/page.md", "docs/other.md"]
        self.write("docs/other.md", "")
        return docs_names.faults_of("docs/page.md", files, {"Table", "take_all", "low", "take", "lib"})[1]

    def test_what_is_there(self):
        self.assertEqual(self.faults("`Table::{take, take_all}`, `low/specs/Table.antt`, `src/lib.rt`, `take(x)`, [x](other.md#part), [y](https://z)\n"), [])

    def test_what_is_not(self):
        cases = {
            "`give_all`": "no name give_all", "`Table::give`": "no name give", "`Giver`": "no name Giver", "`specs/Giver.antt`": "no file specs/Giver.antt",
            "[x](nowhere.md)": "the link to nowhere.md leads nowhere", "`Table::{take, give}`": "no name give",
        }
        for text, fault in cases.items():
            with self.subTest(text=text):
                self.assertEqual(self.faults(f"# T\n\n{text}\n"), [f"docs/page.md:3: {fault}"])

    def test_blocks_and_plain_words_are_left_alone(self):
        self.assertEqual(self.faults("```\n`give_all`\n```\n    `give_all`\n`owner VNI MAC none` and give_all\n"), [])

    def test_comments_are_no_code(self):
        self.write("crates/low/src/lib.rt", "// give_all\nfn take_all() {}\n")
        words = docs_names.words_of_code(["crates/low/src/lib.rt"])
        self.assertTrue("take_all" in words and "give_all" not in words)

    def test_what_is_too_long(self):
        long, fits = " ".join(["word"] * 31), " ".join(["word"] * 30)
        cases = {
            f"{fits}. {fits}.\n": [], f"{fits[5:]} `a b c`.\n": [], f"- {fits}\n- {fits}\n": [],
            f"{long}.\n": [f"docs/page.md:1: a sentence of 31 words, where 30 are meant: {long}."],
            f"Short. Also\nshort.\n{long}.\n": [f"docs/page.md:3: a sentence of 31 words, where 30 are meant: {long}."],
            f"| {fits[25:]} | {fits[20:]} |\n": [f"docs/page.md:1: a cell of 26 words, where 25 are meant: {fits[20:]}"],
        }
        for text, faults in cases.items():
            with self.subTest(text=text):
                self.write("docs/page.md", text)
                self.assertEqual(docs_names.length_faults("docs/page.md"), faults)


class Help(unittest.TestCase):
    """`--help` of the tools that CONTRIBUTING names prints how to call them, and does nothing else."""

    def test_each_prints_it(self):
        for name in ("audited", "check", "gate/edits.py", "gate/make.py", "kits", "package.sh", "seconds", "try"):
            done = subprocess.run([os.path.join(TOP, "tools", name), "--help"], capture_output=True, encoding="utf-8", check=False)
            self.assertEqual((done.returncode, done.stderr), (0, ""), name)
            self.assertIn(f"tools/{name}", done.stdout)

    def test_check_names_a_missing_file(self):
        words = [os.path.join(TOP, "tools", "check"), "crates/nowhere.rt"]
        done = subprocess.run(words, cwd=TOP, capture_output=True, encoding="utf-8", check=False)
        self.assertEqual((done.returncode, done.stdout, done.stderr), (1, "", "tools/check: there is no file crates/nowhere.rt\n"))


class Drawing(unittest.TestCase):
    """tools/crates_svg.py: each crate above those that it names."""

    CRATES = crates_svg.crates_of("# NAME: ..\nlow: arrayvec\nmiddle: low arrayvec\ntop: middle low\nalone:\n")

    def test_names(self):
        self.assertEqual(self.CRATES, {"low": [], "middle": ["low"], "top": ["middle", "low"], "alone": []})

    def test_only_the_nearest_are_joined(self):
        self.assertEqual(sorted(crates_svg.directly_below(self.CRATES, "top")), ["middle"])


class Cells(unittest.TestCase):
    """tests/statuses.py: what a cell of tests/statuses.txt allows."""

    def test_what_is_allowed(self):
        cases = {"": "", "a; b": "a\nb\n", "> a": "> a\n", "*": "a", ">full": "", "+": "a\n", "~ a & b": "b a\n", "^ a": "ab\n", "% a.": "ab\n", r"\xe4": "\xe4\n"}
        for cell, said in cases.items():
            self.assertTrue(statuses.is_said(statuses.plain(cell), said), cell)

    def test_what_is_not(self):
        cases = {"": "\n", "a; b": "a b\n", "a": "a", "> a": "> b\n", "+": "", "~ a & b": "a\n", "^ a": "ba\n", "% a.": "abc\n"}
        for cell, said in cases.items():
            self.assertFalse(statuses.is_said(statuses.plain(cell), said), cell)

    def test_names(self):
        with tempfile.TemporaryDirectory() as work:
            table = statuses.Statuses(work)
        table.row_text("port", "vni = 1")
        table.row_text("edge", table.text_of("address = #:#x; {port}"))
        self.assertEqual(table.text_of("{2*edge}"), "address = 1:01\nvni = 1\naddress = 2:02\nvni = 1")
        self.assertEqual(table.text_of("[{3,port}] {4x0}"), "[vni = 1,vni = 1,vni = 1] 0000")


if __name__ == "__main__":
    unittest.main()
