"""`--help` and `--version` of each program: status 0 and text on standard output, except of evpnd (docs/DECISIONS.md)."""

import os
import re
import subprocess
import sys
import unittest
from typing import List

from test_audit import PROGRAM, needs_program
from test_records import TOP

SUBCOMMANDS = ("report", "migrate", "check", "simulate", "play", "run", "serve", "version")
# programs that a package installs, with their names there
INSTALLED = {"evpndctl": "evpndctl", "evpnd-attach": "evpnd-attach", "evpnd_audit.py": "evpnd-audit", "evpnd_bgp.py": "evpnd-bgp", "evpnd_records.py": "evpnd-records"}
PLAIN_SCRIPTS = ("crates_svg.py", "network_svg.py")  # called by python3


def words_of(folder: str, name: str) -> List[str]:
    """How a tool is called."""
    path = os.path.join(TOP, folder, name)
    return [path] if os.access(path, os.X_OK) else [sys.executable, "-B", path]


def called(*words: str, **there: str) -> subprocess.CompletedProcess:
    """What comes of these words, without standard input."""
    return subprocess.run(
        words, stdin=subprocess.DEVNULL, capture_output=True, encoding="utf-8", timeout=60, check=False, env={**os.environ, **there}
    )


class Help(unittest.TestCase):
    """What a reader tries first."""

    def tools(self) -> List[List[str]]:
        """Each program of tools/ and examples/."""
        found = [words_of("tools", name) for name in PLAIN_SCRIPTS]
        for folder in ("tools", "tools/gate", "examples", "examples/run"):
            for name in sorted(os.listdir(os.path.join(TOP, folder))):
                path = os.path.join(TOP, folder, name)
                if os.path.isfile(path) and os.access(path, os.X_OK):
                    found.append([path])
        return found

    def test_help_of_tools(self) -> None:
        tools = self.tools()
        self.assertGreater(len(tools), 15)
        for words in tools:
            with self.subTest(words=words[-1]):
                done = called(*words, "--help")
                self.assertEqual((done.returncode, done.stderr), (0, ""))
                self.assertGreater(len(done.stdout.split()), 3)

    def test_versions(self) -> None:
        """The installed tools have the newest version of CHANGELOG.md."""
        with open(os.path.join(TOP, "CHANGELOG.md"), encoding="utf-8") as changes:
            version = re.search(r"^## ([0-9.]+)", changes.read(), re.M).group(1)
        for file, name in INSTALLED.items():
            done = called(*words_of("tools", file), "--version")
            self.assertEqual((done.returncode, done.stdout, done.stderr), (0, f"{name} {version}\n", ""))

    @needs_program
    def test_version_of_evpnd_run(self) -> None:
        """It is evpnd's."""
        done = called(os.path.join(TOP, "examples", "run", "evpnd-run"), "--version", EVPND=PROGRAM)
        self.assertEqual((done.returncode, done.stdout, done.stderr), (0, called(PROGRAM, "version").stdout, ""))

    @needs_program
    def test_evpnd(self) -> None:
        """Help is usage: status 2, on standard error. `evpnd version` has status 0."""
        for words in (["--help"], ["-h"], ["help"], *(words for name in SUBCOMMANDS for words in ([name, "--help"], ["help", name]))):
            with self.subTest(words=words):
                done = called(PROGRAM, *words)
                self.assertEqual((done.returncode, done.stdout), (2, ""))
                self.assertIn("Usage: ", done.stderr)
        done = called(PROGRAM, "--version")
        self.assertEqual((done.returncode, done.stdout), (2, ""))
        done = called(PROGRAM, "version")
        self.assertEqual((done.returncode, done.stderr), (0, ""))


if __name__ == "__main__":
    unittest.main()
