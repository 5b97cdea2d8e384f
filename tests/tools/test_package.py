"""tools/package.sh packs a program that says that it is proved, and one that says that it isn't. Both are stubs here: what is
tried is what the package says of them. tests/outside/package.sh installs a package of the real program."""

import gzip
import os
import shutil
import subprocess
import tempfile
import unittest
from typing import Dict

TOP = os.path.dirname(os.path.dirname(os.path.dirname(os.path.abspath(__file__))))
TOOLS = all(shutil.which(name) for name in ("dpkg-deb", "strip", "git"))
STUB = """#!/bin/sh
case $1 in
  version) printf 'evpnd 0.1.0\\n%s' '{proof}' ;;
  *) echo 'Usage: evpnd [COMMAND]' ;;
esac
"""
SOURCES = f"{'0' * 64}  crates/evpnd/src/main.rt\n"
COMMANDS = ("evpnd", "evpndctl", "evpnd-run", "evpnd-attach", "evpnd-audit", "evpnd-bgp", "evpnd-records")


def packed(folder: str, proof: str, sources: str = "") -> str:
    """Packs a stub, and returns the path of the package."""
    os.makedirs(folder)
    program = f"{folder}/stub"
    with open(program, "w", encoding="utf-8") as stream:
        stream.write(STUB.format(proof=proof))
    os.chmod(program, 0o755)
    if sources:
        with open(f"{program}.sources", "w", encoding="utf-8") as stream:
            stream.write(sources)
    words = [f"{TOP}/tools/package.sh", f"{folder}/made", "--evpnd", program]
    return subprocess.run(words, capture_output=True, text=True, check=True).stdout.strip()


@unittest.skipUnless(TOOLS, "dpkg-deb, strip or git isn't there")
class Package(unittest.TestCase):
    """Packages of a proved program and of an unproved one."""

    @classmethod
    def setUpClass(cls):
        folder = tempfile.TemporaryDirectory()
        cls.addClassCleanup(folder.cleanup)
        cls.folder = folder.name
        cls.paths: Dict[str, str] = {
            "proved": packed(f"{folder.name}/proved", "proved\n", SOURCES),
            "unproved": packed(f"{folder.name}/unproved", "unproved\n"),
            "silent": packed(f"{folder.name}/silent", ""),
        }
        for name, path in cls.paths.items():
            subprocess.run(["dpkg-deb", "-x", path, f"{folder.name}/{name}/root"], check=True)

    def field(self, name: str, field: str) -> str:
        """Returns a field of the package's control file."""
        return subprocess.run(["dpkg-deb", "-f", self.paths[name], field], capture_output=True, text=True, check=True).stdout.strip()

    def document(self, name: str, document: str) -> str:
        """Returns the text of a file of the package's documents."""
        path = f"{self.folder}/{name}/root/usr/share/doc/evpnd/{document}"
        with gzip.open(path, "rt", encoding="utf-8") if path.endswith(".gz") else open(path, encoding="utf-8") as stream:
            return stream.read()

    def test_version_and_description_say_whether_it_is_proved(self):
        for name, is_proved in (("proved", True), ("unproved", False), ("silent", False)):
            version, description = self.field(name, "Version"), self.field(name, "Description")
            self.assertEqual(version.endswith("~unproved"), not is_proved, version)
            self.assertEqual("A checker has proved the program" in description, is_proved, description)
            self.assertEqual("No checker has proved the program" in description, not is_proved, description)

    def test_unproved_package_sorts_before_the_proved_one_of_its_commit(self):
        words = ["dpkg", "--compare-versions", self.field("unproved", "Version"), "lt", self.field("proved", "Version")]
        self.assertEqual(subprocess.run(words, check=False).returncode, 0, words)

    def test_sources_are_those_of_the_program(self):
        self.assertIn(SOURCES, self.document("proved", "sums.gz"))
        self.assertIn("which is proved,", self.document("proved", "sums.gz"))
        self.assertIn("the sources of this program aren't known", self.document("unproved", "sums.gz"))
        self.assertIn("which is unproved,", self.document("unproved", "sums.gz"))

    def test_changelog_has_the_version_and_copyright_the_notice(self):
        self.assertTrue(self.document("proved", "changelog.gz").startswith(f"evpnd ({self.field('proved', 'Version')}) "))
        with open(f"{TOP}/NOTICE", encoding="utf-8") as stream:
            self.assertTrue(self.document("proved", "copyright").startswith(stream.read()))

    def test_each_command_has_its_page_and_its_completion(self):
        root = f"{self.folder}/proved/root/usr"
        self.assertEqual(sorted(os.listdir(f"{root}/bin")), sorted(COMMANDS))
        for name in COMMANDS:
            self.assertTrue(os.path.exists(f"{root}/share/man/man1/{name}.1.gz"), name)
            script = f"source {root}/share/bash-completion/completions/{name} && complete -p {name}"
            self.assertEqual(subprocess.run(["bash", "-c", script], capture_output=True, check=False).returncode, 0, name)

    def test_units_name_installed_programs_and_are_not_enabled(self):
        folder = f"{self.folder}/proved/root/lib/systemd/system"
        services = ("evpnd", "evpnd-serve", "evpnd-bgp", "evpnd-bgp2", "evpnd-gobgpd2", "evpnd-audit")
        for name in (*(f"{each}.service" for each in services), "evpnd-audit.timer"):
            with open(f"{folder}/{name}", encoding="utf-8") as stream:
                self.assertNotIn("/usr/local", stream.read())
        self.assertFalse(os.path.exists(f"{self.folder}/proved/root/etc"))

    def test_wrong_words(self):
        for words in ([], ["--no-such"], ["folder", "--evpnd"], ["folder", "--evpnd", f"{self.folder}/none"]):
            done = subprocess.run([f"{TOP}/tools/package.sh", *words], capture_output=True, text=True, check=False)
            self.assertEqual(done.returncode, 2, done)


if __name__ == "__main__":
    unittest.main()
