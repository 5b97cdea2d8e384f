"""The gate and tools/try with a kit that isn't this one: another name, and other names in its scripts."""

import os
import shutil
import subprocess
import sys
import tempfile
import unittest

import other_kit
from test_records import TOP

sys.path.insert(0, os.path.join(TOP, "tools", "gate"))
import project
import rooms

LOW = """//! Numbers.
#![tactic(auto)]

ghost use Rattle.std.specs.Prelude.{◌≡◌, ◌*◌};

/// Returns twice the number.
pub fn twice(number: u32) -> u64
    ensures { result ≡ number * 2 }
{
    u64::from(number) * 2
}
"""
HIGH = """//! Larger numbers.
#![tactic(auto)]

ghost use Rattle.std.specs.Prelude.{◌≡◌, ◌*◌};

use low::twice;

/// Returns four times the number.
pub fn four_times(number: u16) -> u64
    ensures { result ≡ number * 2 * 2 }
{
    twice(u32::from(number)) * 2
}
"""
REFUSED = "file: src/lib.rt\nold:     u64::from(number) * 2\nnew:     u64::from(number) * 3\n"
PROVED = "file: src/lib.rt\nold:     twice(u32::from(number)) * 2\nnew:     2 * twice(u32::from(number))\n"


class OtherKit(unittest.TestCase):
    """A copy of the kit by links, first on the path."""

    @classmethod
    def setUpClass(cls):
        folder = tempfile.TemporaryDirectory(prefix="other-kit-")
        cls.addClassCleanup(folder.cleanup)
        cls.folder = folder.name
        cls.changed = other_kit.make(f"{cls.folder}/kit")
        inherited = {it: text for it, text in os.environ.items() if not it.startswith("GATE_")}
        cls.settings = {**inherited, "PATH": f"{cls.folder}/kit/bin:{os.environ['PATH']}"}

    def run_in(self, folder: str, *words: str, given: bytes = b"") -> subprocess.CompletedProcess:
        """Runs a command with that kit."""
        return subprocess.run(words, cwd=folder, env=self.settings, input=given, capture_output=True, timeout=900, check=False)

    def repository(self) -> str:
        """Makes a repository of two crates, with an edit that must be refused, and one that is proved."""
        top = f"{self.folder}/top"
        texts = {
            "crates.txt": "low:\nhigh: low\n", "HANDLES": "Handles allowed: none.\n", ".gitignore": "/.gate*/\n", "crates/low/src/lib.rt": LOW,
            "crates/high/src/lib.rt": HIGH, "crates/low/must-fail/thrice.edit": REFUSED, "crates/high/must-fail/other_order.edit": PROVED,
        }
        for path, text in texts.items():
            os.makedirs(os.path.dirname(f"{top}/{path}"), exist_ok=True)
            with open(f"{top}/{path}", "w", encoding="utf-8") as stream:
                stream.write(text)
        subprocess.run(["git", "init", "-q"], cwd=top, check=True)
        return top

    def test_it_is_another_one(self):
        self.assertGreater(self.changed, 50)
        self.assertIn(b"rattle-kit-other", self.run_in(TOP, "rt", "version").stdout)

    def test_gate_proves_refuses_and_finds_what_is_not_refused(self):
        ran = self.run_in(self.repository(), sys.executable, os.path.join(TOP, "tools", "gate", "make.py"))
        said = ran.stdout.decode()
        self.assertEqual((ran.returncode, said.splitlines()[-1]), (1, "3 passed, 1 failed"), said)
        self.assertIn("gate: FAILED high edits: other_order.edit: NOT REFUSED: it is proved\n", said)
        self.assertIn("gate: 2 crates proved, 0 tests run unproved, 1 edits refused\n", said)

    def test_small_program_is_built_and_runs(self):
        """In a copy, in which nobody has built it."""
        top, crate, given = f"{self.folder}/small", os.path.join(TOP, "crates", "evpnd_report"), {}
        rooms.fill(project.Project(TOP), "evpnd_report", top)
        os.makedirs(f"{top}/tools")
        for name in os.listdir(os.path.join(TOP, "tools")):
            if name.startswith("try"):
                shutil.copy2(os.path.join(TOP, "tools", name), f"{top}/tools/{name}")
        for name in ("stdin", "stdout"):
            with open(os.path.join(crate, name), "rb") as stream:
                given[name] = stream.read()
        ran = self.run_in(top, f"{top}/tools/try", "evpnd_report", "10.0.0.1", given=given["stdin"])
        self.assertEqual((ran.returncode, ran.stdout), (0, given["stdout"]), ran.stderr)


if __name__ == "__main__":
    unittest.main()
