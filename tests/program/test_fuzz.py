"""A short run of each fuzzer (tests/fuzz/) with a fixed seed: a few cases find no fault, and each kind of input occurs."""

import tests_path  # noqa: F401
import os
import sys
import unittest

from test_audit import needs_program
from test_records import TOP

sys.path.append(os.path.join(TOP, "tests", "fuzz"))
import fuzz_configurations
import fuzz_consoles
import fuzz_edges
import fuzz_records
import fuzzing

SEED = 59


@needs_program
class Fuzzers(unittest.TestCase):
    """Each of them."""

    def passes(self, module, cases: int) -> fuzzing.Seen:
        """Runs these many cases of a fuzzer, and returns what occurred."""
        ran = fuzzing.run_cases(module.NAME, module.case, SEED, 0, cases, fuzzing.PATIENCE, lambda text: None)
        self.assertEqual((ran.passed, ran.findings), (cases, []))
        return ran.seen

    def test_edges(self) -> None:
        seen = self.passes(fuzz_edges, 1)
        self.assertLess({"to a tunnel", "to a port", "BPDUs to a port", "stations reported"}, set(seen))

    def test_records(self) -> None:
        seen = self.passes(fuzz_records, 1)
        self.assertLess({"truncated", "refused 12", "migrations", "records received", "registers of an edge"}, set(seen))

    def test_configurations(self) -> None:
        seen = self.passes(fuzz_configurations, 40)
        self.assertLess({"TOML", "no TOML", "valid", "faulty", "fault text"}, set(seen))

    def test_consoles(self) -> None:
        seen = self.passes(fuzz_consoles, 1)
        self.assertLess({"answer bad", "answer refused", "answer bpdu", "answer mac", "invalid lines", "queries"}, set(seen))


if __name__ == "__main__":
    unittest.main()
