"""Every function promises something by an `ensures`, or stands in without_promise.txt with the reason why it doesn't.

A pure function between two proved ones that has no contract lets a wrong body through: the caller's contract says nothing of it.
Functions of tests, and those of a trait's impl, whose contract is the trait's, aren't looked at.
"""

import os
import re
import unittest
from typing import Dict, Iterator, List, Set, Tuple

HERE = os.path.dirname(os.path.abspath(__file__))
TOP = os.path.dirname(os.path.dirname(HERE))
LIST = os.path.join(HERE, "without_promise.txt")
FUNCTION = re.compile(r"(\s*)(?:pub(?:\([a-z]+\))? )?(?:const )?fn (\w+)")
REASONS = ("lock", "device", "thread", "gate", "words", "open")


def functions_of(lines: List[str]) -> Iterator[Tuple[str, bool]]:
    """The functions of a file laid out by `rt fmt`, each with whether its head has an `ensures`."""
    is_of_trait = is_test = False
    at = 0
    while at < len(lines):
        line = lines[at]
        if re.match(r"(?:unsafe )?impl\b", line):
            head = " ".join(lines[at : at + 12]).partition("{")[0]
            is_of_trait = " for " in head
        elif line.startswith("}"):
            is_of_trait = False
        if line.strip().startswith("#[test]"):
            is_test = True
        found = FUNCTION.match(line)
        if not found:
            at += 1
            continue
        head = []
        while at < len(lines):
            head.append(lines[at].strip())
            if head[-1] == "{" or head[-1].endswith(";") or head[-1].endswith("{}"):
                break
            if head[-1].endswith("{") and not any(re.match(r"(?:requires|ensures)\b", it) for it in head):
                break
            at += 1
        at += 1
        if not is_test and not is_of_trait:
            yield found[2], any(re.match(r"ensures\b", it) for it in head)
        is_test = False


def bare_functions() -> Iterator[Tuple[str, str]]:
    """The functions with no `ensures`: each file, with a name."""
    for folder, _, names in sorted(os.walk(os.path.join(TOP, "crates"))):
        path = os.path.relpath(folder, os.path.join(TOP, "crates")).split(os.sep)
        if len(path) < 2 or path[1] != "src" or "tests" in path:
            continue
        for name in sorted(names):
            if not name.endswith(".rt") or name in ("tests.rt", "laws.rt"):
                continue
            with open(os.path.join(folder, name), encoding="utf-8") as stream:
                lines = stream.read().split("\n")
            for function, has_ensures in functions_of(lines):
                if not has_ensures:
                    yield "/".join(path[:1] + path[2:] + [name]), function


def listed() -> Dict[Tuple[str, str], str]:
    """The list: a file and a function, with the reason."""
    reasons = {}
    with open(LIST, encoding="utf-8") as stream:
        for line in stream:
            words = line.split("#")[0].split()
            if words:
                file, reason, *names = words
                reasons.update({(file, name): reason for name in names})
    return reasons


class PromisesTest(unittest.TestCase):
    """Functions without an `ensures`."""

    def test_each_is_listed_with_a_reason(self):
        """No function without an `ensures` is missing in the list, and none in it has one."""
        bare: Set[Tuple[str, str]] = set(bare_functions())
        self.assertEqual(sorted(bare - set(listed())), [], "without an ensures and without a reason")
        self.assertEqual(sorted(set(listed()) - bare), [], "listed, and promises something or is gone")

    def test_reasons(self):
        """Each reason is one of those that the list explains."""
        self.assertEqual(sorted(set(listed().values()) - set(REASONS)), [])

    def test_what_has_an_ensures(self):
        """A head over several lines, one without clauses, one with a `requires` alone, and a trait's impl."""
        lines = ["fn one(", "    a: u8,", ") -> u8", "    ensures { result ≡ a }", "{", "}", "fn two() -> u8 {", "}"]
        self.assertEqual(list(functions_of(lines)), [("one", True), ("two", False)])
        lines = ["fn three()", "    requires { true }", "{", "}", "impl A for B {", "    fn four() {", "    }", "}"]
        self.assertEqual(list(functions_of(lines)), [("three", False)])


if __name__ == "__main__":
    unittest.main()
