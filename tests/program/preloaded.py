"""Runs of the built program with a library loaded before the C library, which makes its memory or its devices fail."""

import os
import shutil
import subprocess
import tempfile
import unittest
from typing import Dict, List, NamedTuple, Tuple

from test_audit import PROGRAM

# A build by Rattle's own compiler may call the system without the C library: nothing fails there then.
BY_RATTLE = PROGRAM.endswith(".by-rattle")
COMPILER = shutil.which("cc")


def is_checked(program: str) -> bool:
    """Returns `True` for the checked program of `rt try`, whose allocator is its own: a library can't make its memory fail."""
    with open(program, "rb") as stream:
        return b"__asan_" in stream.read()


class Done(NamedTuple):
    """What came of a run."""

    status: int
    out: bytes
    notes: bytes


class Preloaded(unittest.TestCase):
    """Tests over the library of one source. They aren't run if there is no C compiler, or if the program is a checked one."""

    source = ""

    @classmethod
    def setUpClass(cls):
        if cls.hindrance():
            return
        folder = tempfile.TemporaryDirectory()
        cls.addClassCleanup(folder.cleanup)
        cls.folder = folder.name
        cls.library = os.path.join(cls.folder, "preloaded.so")
        subprocess.run([COMPILER, "-shared", "-fPIC", "-O1", "-o", cls.library, cls.source], check=True)

    @staticmethod
    def hindrance() -> str:
        """Returns why these tests can't run, or an empty string."""
        if not COMPILER:
            return "there is no C compiler"
        return "EVPND is a checked program (use tools/try --fast --build evpnd, or the proved one)" if is_checked(PROGRAM) else ""

    def run(self, result=None):
        """Runs the test, or prints why it can't run."""
        why = self.hindrance()
        if not why:
            return super().run(result)
        print(f"{self}: not run: {why}")
        return result

    @classmethod
    def write(cls, name: str, text: str) -> str:
        """A file of this text: its path."""
        path = os.path.join(cls.folder, name)
        with open(path, "w", encoding="utf-8") as stream:
            stream.write(text)
        return path

    def run_with(self, settings: Dict[str, object], words: List[str], given: bytes) -> Tuple[Done, List[int]]:
        """A run under these settings of the library, and the numbers that this tells at the end."""
        told = os.path.join(self.folder, "told")
        names = [f"{name}={value}" for name, value in settings.items()]
        shell = ["bash", "-c", 'exec 3> "$0"; exec env "$@"', told, f"LD_PRELOAD={self.library}", *names, PROGRAM, *words]
        done = subprocess.run(shell, input=given, capture_output=True, timeout=180, check=False)
        with open(told, encoding="utf-8") as stream:
            return Done(done.returncode, done.stdout, done.stderr), [int(number) for number in stream.read().split()]
