"""Our own rules of CONTRIBUTING.md that a reader of texts can see: heads of files, comments of public items, lengths of lines and
files, numbers of parameters.

What doesn't keep a rule yet is named or counted here. A count may not rise, and one that falls is to be entered.
"""

import collections
import os
import re
import subprocess
import unittest
from typing import Dict, Iterator, List, Tuple

TOP = os.path.dirname(os.path.dirname(os.path.dirname(os.path.abspath(__file__))))
PUBLIC = re.compile(r"\s*pub (?:const fn|fn|struct|enum|trait|type|const|static)\b")
FUNCTION = re.compile(r"\s*(?:pub\(crate\) )?(?:const )?fn \w")
RT_WIDTH, ANTT_WIDTH, SUBJECT_WIDTH = 100, 120, 72
SUBJECTS_SINCE = "42c388f"  # the subjects of later commits than this one of 2026-11-24 are checked

LONG_RT = {  # bpdu_wire's is the row of a table, ether_wire's are tables of digits, evpnd's texts of the program, ev_run's rows of Linux
    "crates/bpdu_wire/src/reading.rt": 1, "crates/ether_wire/src/text.rt": 4, "crates/ev_report/src/usage.rt": 2, "crates/evpnd/src/subcommand.rt": 5,
    "crates/evpnd_report/src/main.rt": 1, "crates/evpnd_report/src/program.rt": 1,
    "crates/ev_sites/src/bridges.rt": 1, "crates/ev_run/src/tests.rt": 3,
}
LONG_ANTT = 1
MOST_LINES, MOST_PARAMETERS = 450, 6
MANY_PARAMETERS = {  # `self` isn't counted; ev_tunnel's are the arguments that a decision is of
    "crates/ev_tunnel/src/decision.rt": {"decide": 8},
    "crates/ev_tunnel/src/laws.rt": {"known_goes_to_one_place": 8, "members_that_pass": 8, "never_back": 8},
}


def files(ending: str) -> List[str]:
    """The files of crates/, tests/ and bench/ with an ending, of git and new ones. `.txt` behind an ending doesn't count."""
    words = ["git", "ls-files", "-z", "--cached", "--others", "--exclude-standard", "crates", "tests", "bench"]
    names = subprocess.run(words, cwd=TOP, capture_output=True, check=True).stdout.decode().split("\0")
    return sorted(name for name in names if name.removesuffix(".txt").endswith(ending) and os.path.exists(os.path.join(TOP, name)))


def lines_of(name: str) -> List[str]:
    """A file's lines."""
    with open(os.path.join(TOP, name), encoding="utf-8") as stream:
        return stream.read().split("\n")


def bare_items(lines: List[str]) -> Iterator[Tuple[int, str]]:
    """Yields the public items and the functions without a `///` above them; attributes and plain comments may come between. The
    items of a trait's implementation are described at the trait."""
    is_told = is_of_trait = False
    for number, line in enumerate(lines, 1):
        text = line.strip()
        if line.startswith(("impl", "unsafe impl")):
            is_of_trait = " for " in " ".join(lines[number - 1 :]).partition("{")[0]
        elif line.startswith("}"):
            is_of_trait = False
        if not is_told and (PUBLIC.match(line) or FUNCTION.match(line) and not is_of_trait):
            yield number, text
        is_told = text.startswith("///") or is_told and text.startswith(("#[", "//", ")]", '"'))


def can_be_broken(line: str) -> bool:
    """Whether a long line of .rt could be shorter: `ghost use`, attributes and literals of a line can't be broken."""
    text = line.strip()
    return not text.startswith(("ghost use ", "pub ghost use ", "#[", "#![")) and '"' not in text


def behind_brackets(text: str, start: int) -> int:
    """The place behind the bracket that closes the one here. An arrow's `>` closes none."""
    depth = 0
    for place in range(start, len(text)):
        if text[place] in "(<[{":
            depth += 1
        elif text[place] in ")]}" or text[place] == ">" and text[place - 1] != "-":
            depth -= 1
            if depth == 0:
                return place + 1
    return len(text)


def parameters(text: str) -> Iterator[Tuple[str, int]]:
    """Each function of a source, with the number of its parameters but `self`."""
    text = re.sub(r"//[^\n]*", "", text)
    for found in re.finditer(r"\bfn (\w+)", text):
        start = found.end()
        if text[start] == "<":
            start = behind_brackets(text, start)
        inner = text[start + 1 : behind_brackets(text, start) - 1]
        while re.search(r"[(<\[{]", inner):  # types within types hold commas
            at = re.search(r"[(<\[{]", inner).start()
            inner = inner[:at] + inner[behind_brackets(inner, at) :]
        names = [part.strip() for part in inner.split(",") if part.strip()]
        yield found[1], sum(not re.match(r"(&('\w+ )?)?(mut )?self\b", name) for name in names)


class Rules(unittest.TestCase):
    """Each rule."""

    def test_heads_of_files(self):
        self.assertEqual([name for name in files(".rt") if not lines_of(name)[0].startswith("//!")], [])

    def test_items_are_told(self):
        sources = [name for name in files(".rt") if not re.search(r"(^|/)tests(/|\.rt(\.txt)?$)", name)]
        bare = [f"{name}:{number}: {item}" for name in sources for number, item in bare_items(lines_of(name))]
        self.assertEqual(bare, [])

    def test_what_is_bare(self):
        """The rule's own reading."""
        lines = ["/// Told.", "#[inline]", "// why", "pub fn one()", "", "pub struct Two;", "    /// Told.", "    pub const THREE: u8 = 3;", "pub use four;"]
        self.assertEqual(list(bare_items(lines)), [(6, "pub struct Two;")])
        lines = ["impl Five {", "    fn six(&self) {", "}", "impl Drop", "    for Five {", "    fn drop(&mut self) {", "}", "pub(crate) fn seven() {"]
        self.assertEqual(list(bare_items(lines)), [(2, "fn six(&self) {"), (8, "pub(crate) fn seven() {")])

    def test_lines_of_rt(self):
        long: Dict[str, int] = {}
        for name in files(".rt"):
            count = sum(len(line) > RT_WIDTH and can_be_broken(line) for line in lines_of(name))
            if count:
                long[name] = count
        self.assertEqual({name: count for name, count in long.items() if count > LONG_RT.get(name, 0)}, {})

    def test_lines_of_antt(self):
        """Their number may not rise; where it has fallen, enter the new one."""
        self.assertLessEqual(sum(len(line) > ANTT_WIDTH for name in files(".antt") for line in lines_of(name)), LONG_ANTT)

    def test_lengths_of_files(self):
        long = {name: len(lines_of(name)) - 1 for name in files(".rt") if len(lines_of(name)) - 1 > MOST_LINES}
        self.assertEqual(long, {})

    def test_names_of_modules(self):
        """Tests import tools from several folders, so two modules of one name would be mistaken for each other."""
        words = ["git", "ls-files", "--cached", "--others", "--exclude-standard", "*.py"]
        names = subprocess.run(words, cwd=TOP, capture_output=True, encoding="utf-8", check=True).stdout.split()
        there = collections.Counter(os.path.basename(name) for name in names if os.path.exists(os.path.join(TOP, name)))
        self.assertEqual([name for name, count in there.items() if count > 1], [])

    def test_parameters(self):
        """None more than these; where one has fewer, enter that."""
        many = {name: {function: count for function, count in parameters("\n".join(lines_of(name))) if count > MOST_PARAMETERS}
                for name in files(".rt") if "/tests" not in name}
        self.assertEqual({name: found for name, found in many.items() if found}, MANY_PARAMETERS)

    def test_counts_of_parameters(self):
        """The rule's own reading."""
        source = """fn none() {}
fn one(self, a: u8) fn two<F: Fn(u8, u8) -> u8>(&mut self, a: Result<u8, ()>, b: F,)
fn three<'x>(&'x self, a: &[(u8, u8)], b: impl Fn(u8, u8) -> bool, // c: u8
    c: [u8; 4]) -> (u8, u8)"""
        self.assertEqual(list(parameters(source)), [("none", 0), ("one", 1), ("two", 2), ("three", 3)])

    def test_subjects_of_commits(self):
        words = ["git", "log", "--no-merges", "--format=%h %s", f"{SUBJECTS_SINCE}..HEAD"]
        done = subprocess.run(words, cwd=TOP, capture_output=True, encoding="utf-8", check=False)
        if done.returncode != 0:  # a copy without that commit: only the newest
            done = subprocess.run([*words[:-1], "-1"], cwd=TOP, capture_output=True, encoding="utf-8", check=True)
        subjects = [line.split(" ", 1)[1] for line in done.stdout.splitlines()]
        self.assertEqual([subject for subject in subjects if len(subject) > SUBJECT_WIDTH], [])


if __name__ == "__main__":
    unittest.main()
