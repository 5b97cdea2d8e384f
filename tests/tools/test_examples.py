"""The examples: lines to records, records to the report and back to lines, by the scripts that the README names."""

import itertools
import os
import random
import subprocess
import unittest

from test_audit import PROGRAM, needs_program
from test_records import TOP

EXAMPLES = os.path.join(TOP, "examples")
NAMES = sorted(name[: -len(".lines")] for name in os.listdir(EXAMPLES) if name.endswith(".lines"))
ORIGINATORS = "10.0.0.1,10.0.0.2,10.0.0.3,10.0.0.9"


def text_of(name: str) -> bytes:
    """A file of the examples."""
    with open(os.path.join(EXAMPLES, name), "rb") as stream:
        return stream.read()


def lines_of(name: str) -> list:
    """An example's lines without those that say nothing."""
    return [line + b"\n" for line in text_of(name + ".lines").splitlines() if not line.startswith(b"#")]


def through(words: list, given: bytes) -> bytes:
    """What a program prints; it has to succeed in silence."""
    done = subprocess.run(words, input=given, capture_output=True, check=False)
    if done.returncode != 0 or done.stderr:
        raise AssertionError((words, done.returncode, done.stderr))
    return done.stdout


def make(text: bytes) -> bytes:
    """The records of some lines."""
    return through([os.path.join(EXAMPLES, "make_records")], text)


class Examples(unittest.TestCase):
    """Each example."""

    def test_there_are_examples(self):
        self.assertGreaterEqual(len(NAMES), 7)

    def test_lines_and_back(self):
        for name in NAMES:
            with self.subTest(name=name):
                shown = through([os.path.join(EXAMPLES, "show_records")], make(text_of(name + ".lines")))
                self.assertEqual(shown, b"".join(lines_of(name)))

    @needs_program
    def test_reports(self):
        for name in NAMES:
            with self.subTest(name=name):
                records = make(text_of(name + ".lines"))
                self.assertEqual(through([PROGRAM, "report", "--originators", ORIGINATORS], records), text_of(name + ".report"))

    @needs_program
    def test_order_and_repetition_do_not_matter(self):
        random_numbers = random.Random(1)
        for name in NAMES:
            orders = list(itertools.permutations(lines_of(name)))
            for order in random_numbers.sample(orders, min(3, len(orders))):
                with self.subTest(name=name, order=order):
                    records = make(b"".join(order + order[:2]))
                    self.assertEqual(through([PROGRAM, "report", "--originators", ORIGINATORS], records), text_of(name + ".report"))

    @needs_program
    def test_old_records_are_migrated(self):
        old = text_of("old_address.records")
        migrated = through([PROGRAM, "migrate", "--originators", ORIGINATORS], old)
        self.assertEqual(len(migrated), 124)
        self.assertEqual(through([os.path.join(EXAMPLES, "show_records")], migrated), b"".join(lines_of("old_address")))
        # the replaced address doesn't come back with the old record that said it, whose length is 60 octets
        for records in (migrated, migrated + old[:60], old[:60] + migrated):
            report = through([PROGRAM, "report", "--originators", ORIGINATORS], records)
            self.assertEqual(report, text_of("old_address.report"))


if __name__ == "__main__":
    unittest.main()
