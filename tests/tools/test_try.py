"""tools/try over a kit that isn't there: a command `rt` of a few lines stands for it, which knows nothing but the documented words."""

import os
import shutil
import subprocess
import tempfile
import unittest
from typing import Dict

TOP = os.path.dirname(os.path.dirname(os.path.dirname(os.path.abspath(__file__))))
COMPILER = shutil.which("cc")

# `rt try` of a kit that builds a program below TMPDIR, runs it, and removes it: the source is C, and a run notes that in a file.
RT = """#!/bin/sh
case $1 in
  version) echo 'another-kit 1'; exit ;;
  doc) echo "$KIT/START-HERE.md"; exit ;;
esac
echo "rt $*" >> "$ASKED"
[ "$2" != --test ] || shift
if [ -n "$HIDES" ]; then built=$HIDES; mkdir -p "$built"; else built=$(mktemp -d); fi
trap 'rm -rf "$built"' EXIT
cc -x c -o "$built/program" "$(ls src/*.rt | head -n 1)" || { echo 'error: run=none' >&2; exit 1; }
if [ "$2" != -- ] && [ -z "$HIDES" ]; then
  # the program of a kit runs for a while: here until tools/try has given the file a second name, for a minute at most
  for _ in $(seq 600); do [ "$(stat -c %h "$built/program")" = 1 ] || break; sleep 0.1; done
fi
shift; shift
"$built/program" "$@"
"""
SOURCE = """#include <stdio.h>
#define b
int main(int count, char **words) { printf(b"evpnd 0.1.0\\nproved\\n"); printf("%d words\\n", count - 1); return 3; }
"""


@unittest.skipUnless(COMPILER, "there is no C compiler")
class Try(unittest.TestCase):
    """Builds of a small program."""

    def setUp(self):
        folder = tempfile.TemporaryDirectory()
        self.addCleanup(folder.cleanup)
        self.top, self.asked = f"{folder.name}/top", f"{folder.name}/asked"
        self.crate = f"{self.top}/crates/small"
        os.makedirs(f"{self.top}/tools")
        os.makedirs(f"{self.crate}/src")
        os.makedirs(f"{folder.name}/bin")
        shutil.copy(f"{TOP}/tools/try", f"{self.top}/tools/try")
        self.write(f"{self.top}/crates.txt", "small:\n")
        self.write(f"{self.crate}/src/main.rt", SOURCE)
        self.write(f"{folder.name}/bin/rt", RT)
        os.chmod(f"{folder.name}/bin/rt", 0o755)
        path = f"{folder.name}/bin:{os.environ['PATH']}"
        self.there: Dict[str, str] = {**os.environ, "PATH": path, "ASKED": self.asked, "KIT": folder.name, "HIDES": ""}
        self.folder = folder.name

    @staticmethod
    def write(path: str, text: str) -> None:
        """Writes a file."""
        with open(path, "w", encoding="utf-8") as stream:
            stream.write(text)

    def run_try(self, *words: str, status: int = 0, **there: str) -> "subprocess.CompletedProcess[str]":
        """Runs tools/try, which has to end with this status."""
        how = {"cwd": self.folder, "env": {**self.there, **there}, "stdin": subprocess.DEVNULL, "timeout": 60}
        done = subprocess.run([f"{self.top}/tools/try", *words], capture_output=True, text=True, check=False, **how)
        self.assertEqual(done.returncode, status, done)
        return done

    def builds(self) -> int:
        """Returns how often `rt try` was run."""
        if not os.path.exists(self.asked):
            return 0
        with open(self.asked, encoding="utf-8") as stream:
            return len(stream.readlines())

    def test_built_program_is_kept_until_a_source_changes(self):
        done = self.run_try("small", "one", "two", status=3)
        self.assertEqual((done.stdout, done.stderr), ("evpnd 0.1.0\nunproved\n2 words\n", ""))
        self.run_try("small", status=3)
        self.assertEqual(self.builds(), 1)
        self.write(f"{self.crate}/src/main.rt", SOURCE.replace("return 3", "return 4"))
        self.run_try("small", status=4)
        self.assertEqual(self.builds(), 2)
        self.assertEqual(sorted(os.listdir(f"{self.crate}/out/tried")), ["small", "small.sources", "stamp"])

    def test_build_prints_the_path(self):
        self.assertEqual(self.run_try("--proved", "small", status=1).stdout, "")
        self.assertEqual(self.run_try("--build", "small").stdout, f"{self.crate}/out/tried/small\n")
        with open(f"{self.crate}/out/tried/small.sources", encoding="utf-8") as stream:
            listed = stream.read()
        self.assertEqual(subprocess.run(["sha256sum", "--check", "--quiet"], input=listed, cwd=self.top, text=True, check=False).returncode, 0)
        self.assertEqual([line.split()[1] for line in listed.splitlines()], ["crates.txt", "crates/small/src/main.rt"])
        self.assertEqual(self.run_try("--sources", "small").stdout, listed)

    def test_proved_program_is_taken_while_no_source_is_newer(self):
        os.makedirs(f"{self.crate}/out")
        self.write(f"{self.crate}/out/small", "#!/bin/sh\nexit 7\n")
        os.chmod(f"{self.crate}/out/small", 0o755)
        self.run_try("small", status=7)
        for option in ("--build", "--proved"):
            self.assertEqual(self.run_try(option, "small").stdout, f"{self.crate}/out/small\n")
        self.assertEqual(self.builds(), 0)
        later = os.stat(f"{self.crate}/out/small").st_mtime + 5
        os.utime(f"{self.crate}/src/main.rt", (later, later))
        self.run_try("small", status=3)

    def test_removed_source_makes_the_proved_program_old(self):
        self.write(f"{self.crate}/src/other.rt", "")
        os.makedirs(f"{self.crate}/out")
        self.write(f"{self.crate}/out/small", "#!/bin/sh\nexit 7\n")
        os.chmod(f"{self.crate}/out/small", 0o755)
        os.remove(f"{self.crate}/src/other.rt")
        later = os.stat(f"{self.crate}/out/small").st_mtime + 5
        os.utime(f"{self.crate}/src", (later, later))
        self.run_try("small", status=3)

    def test_kit_whose_program_is_not_seen_is_asked_each_time(self):
        for number in (1, 3):
            hidden = f"{self.folder}/hidden{number}"
            done = self.run_try("--build", "small", HIDES=hidden)
            self.assertIn("each call builds again", done.stderr)
            ran = subprocess.run([done.stdout.strip(), "one"], env={**self.there, "HIDES": f"{hidden}.too"}, capture_output=True, text=True, check=False)
            self.assertEqual((ran.returncode, ran.stdout.splitlines()[-1]), (3, "1 words"))
            self.assertEqual(self.builds(), number + 1)

    def test_fast_way_falls_back(self):
        done = self.run_try("--fast", "small", status=3)
        self.assertIn("--fast isn't possible with this kit", done.stderr)
        shutil.copy(f"{TOP}/tools/try_fast", f"{self.top}/tools/try_fast")
        self.write(f"{self.crate}/src/main.rt", SOURCE + "\n")
        done = self.run_try("--fast", "small", status=3)
        self.assertIn("--fast isn't possible with this kit", done.stderr)

    def test_source_that_does_not_compile(self):
        self.write(f"{self.crate}/src/main.rt", "int main() { return x; }\n")
        self.assertIn("small wasn't built", self.run_try("small", status=1).stderr)

    def test_tests_have_one_more_module(self):
        self.write(f"{self.crate}/src/lib.rt", SOURCE)
        self.write(f"{self.crate}/src/tests.rt", "")
        self.write(f"{self.folder}/more.rt", "mod is here\n")
        self.run_try("--tests", "small", f"{self.folder}/more.rt", f"{self.folder}/tests")
        self.assertEqual(subprocess.run([f"{self.folder}/tests"], capture_output=True, check=False).returncode, 3)
        self.assertFalse(os.path.exists(f"{self.crate}/src/tests"))

    def test_unknown_program(self):
        self.assertIn("crates.txt has no program nobody", self.run_try("nobody", status=1).stderr)


class Kits(unittest.TestCase):
    """tools/kits."""

    def run_kits(self, *words: str, line: str) -> "subprocess.CompletedProcess[str]":
        """Runs tools/kits beside a kit that prints this line as its version."""
        with tempfile.TemporaryDirectory() as folder:
            with open(f"{folder}/rt", "w", encoding="utf-8") as stream:
                stream.write(f"#!/bin/sh\necho '{line}'\n")
            os.chmod(f"{folder}/rt", 0o755)
            there = {**os.environ, "PATH": f"{folder}:{os.environ['PATH']}"}
            return subprocess.run([f"{TOP}/tools/kits", *words], env=there, capture_output=True, text=True, check=False)

    def test_listed_kit_and_another_one(self):
        first = self.run_kits(line="any").stdout.splitlines()[0]
        done = self.run_kits("--here", line=first)
        self.assertEqual((done.returncode, done.stdout), (0, f"a gate ended green with this kit: {first}\n"))
        done = self.run_kits("--here", line="another-kit 1")
        self.assertEqual(done.returncode, 1)
        self.assertIn("the commands are the same", done.stdout)


if __name__ == "__main__":
    unittest.main()
