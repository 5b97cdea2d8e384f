"""What the audit says where it can't look: one line that names the command or the file, and the cause.

The stub vtysh answers what the real one answered, of FRR 7.5.1, 8.4.4, 10.3 and 10.7.1 (tests/data/frr/answers, with their origin; taken by
tests/outside/frr/messages.py, which asks the same beside running daemons). TOOLS names another commit's tools to ask.
"""

import os
import shutil
import subprocess
import sys
import tempfile
import unittest

TOP = os.path.dirname(os.path.dirname(os.path.dirname(os.path.abspath(__file__))))
TOOLS = os.environ.get("TOOLS", os.path.join(TOP, "tools"))
ANSWERS = os.path.join(TOP, "tests", "data", "frr", "answers")
VIEW = os.path.join(TOP, "tests", "data", "frr", "views", "8.4.4", "home")
VERSIONS = tuple(sorted(name[: -len(".json")] for name in os.listdir(ANSWERS)))
ROUTES = "show bgp l2vpn evpn route json"
BINARY = bytes(range(128, 256)) * 8  # begins with an octet that no UTF-8 text begins with
SILENT = "no daemon of FRR answers: start it"

VTYSH = """#!%s
import json, sys
with open(%r) as stream:
    answer = json.load(stream)[%r][sys.argv[2]]
sys.stdout.write(answer["out"])
sys.stderr.write(answer["err"])
sys.exit(answer["status"])
"""

# Runs a tool as another user than root would, whoever runs the test: the tool asks who it is, and vtysh has answered already.
AS_USER = """
import os, runpy, sys
os.geteuid = lambda: %d
sys.argv = sys.argv[1:]
sys.path[0] = os.path.dirname(sys.argv[0])
runpy.run_path(sys.argv[0], run_name="__main__")
"""


def written(folder: str, name: str, content, is_program: bool = False, mode: str = "w") -> str:
    """A file of a folder: text or octets, in the place of what is there or behind it."""
    path = os.path.join(folder, name)
    with open(path, mode + "b") as out:
        out.write(content if isinstance(content, bytes) else content.encode())
    os.chmod(path, 0o755 if is_program else 0o644)
    return path


def run(tool: str, *words: str, user: int = 0, **how) -> subprocess.CompletedProcess:
    """A tool, asked by a user."""
    command = [sys.executable, "-c", AS_USER % user, os.path.join(TOOLS, tool), *words]
    return subprocess.run(command, capture_output=True, encoding="utf-8", errors="replace", check=False, **how)


class Named(unittest.TestCase):
    """What all these have in common."""

    def names(self, done: subprocess.CompletedProcess, *parts: str) -> None:
        """One line on standard error with each of these parts, nothing else, and status 2."""
        self.assertEqual((done.returncode, done.stdout), (2, ""), done.stderr)
        self.assertRegex(done.stderr, r"^evpnd_[a-z]+: [^\n]+\n$")
        for part in parts:
            self.assertIn(part, done.stderr)


class OfFrr(Named):
    """Real answers of vtysh."""

    def test_the_versions_are_there(self):
        self.assertEqual(VERSIONS, ("10.3", "10.7.1", "7.5.1", "8.4.4"))

    def asked(self, version: str, case: str, *words: str, user: int = 0) -> subprocess.CompletedProcess:
        """The audit where vtysh answers as it did in a case."""
        with tempfile.TemporaryDirectory() as folder:
            answers = os.path.join(ANSWERS, f"{version}.json")
            vtysh = written(folder, "vtysh", VTYSH % (sys.executable, answers, case), True)
            return run("evpnd_audit.py", "--vtysh", vtysh, *words, user=user)

    def causes(self, case: str, cause: str, user: int = 0) -> None:
        """The line ends with the cause, of each version; which command was asked stands before it."""
        for version in VERSIONS:
            with self.subTest(version=version):
                self.names(self.asked(version, case, user=user), "vtysh -c 'show ", f": {cause}\n")

    def test_bgpd_down(self):
        """vtysh then answers 'show evpn vni json' with nothing, or an empty table, and status 0."""
        self.causes("bgpd down", "bgpd is not running")

    def test_not_root(self):
        """vtysh's first line names a file of its own that nobody may read; the cause stands below it."""
        self.causes("not root", f"{SILENT}, or run this as root or in the group frrvty", user=65534)

    def test_no_daemon(self):
        self.causes("no daemon", SILENT)

    def test_zebra_down(self):
        self.causes("zebra down", "zebra is not running")

    def test_for_nagios(self):
        """The line of monitoring has the same words."""
        for version in VERSIONS:
            for case, cause in (("bgpd down", "bgpd is not running"), ("no daemon", SILENT)):
                with self.subTest(version=version, case=case):
                    done = self.asked(version, case, "--nagios", "--again", "0")
                    self.assertEqual((done.returncode, done.stderr), (3, ""))
                    self.assertRegex(done.stdout, rf"^EVPN UNKNOWN: [^\n]*: {cause}\n$")


class BinaryFiles(Named):
    """A binary file where text or JSON is meant: its name, and that it is binary."""

    def setUp(self):
        self.folder = tempfile.mkdtemp()
        self.addCleanup(shutil.rmtree, self.folder)

    def test_each_text_of_a_view(self):
        for name in sorted(os.listdir(VIEW)):
            with self.subTest(name=name):
                view = os.path.join(self.folder, f"of-{name}")
                shutil.copytree(VIEW, view)
                path = written(view, name, BINARY)
                self.names(run("evpnd_audit.py", "--vni", "5001", view), f"{path}: a binary file, no text")

    def test_binary_further_on(self):
        """Text at first, and octets that are none far behind."""
        view = os.path.join(self.folder, "view")
        shutil.copytree(VIEW, view)
        path = written(view, "routes.json", b" " * 1000000 + BINARY)
        self.names(run("evpnd_audit.py", "--vni", "5001", view), f"{path}: a binary file, no text")

    def test_a_command_that_frr_does_not_know(self):
        """The command of another version, whose output FRR 8.4.4 gave: the line names the one of each version."""
        view = os.path.join(self.folder, "view")
        shutil.copytree(VIEW, view)
        path = written(view, "best.json", "% Unknown command: show bgp vni all json\n")
        told = "before FRR 10 the command is 'show bgp l2vpn evpn route vni all json', since then 'show bgp vni all json'"
        self.names(run("evpnd_audit.py", "--vni", "5001", view), f"{path}: '% Unknown command: show bgp vni all json'; {told}")

    def test_a_report_and_routes(self):
        path = written(self.folder, "given", BINARY)
        for words in (("--report", path), ("--routes", path)):
            with self.subTest(words=words):
                self.names(run("evpnd_audit.py", "--vni", "5001", *words, VIEW), f"{path}: a binary file, no text")

    def test_a_state(self):
        path = written(self.folder, "state", BINARY)
        report = written(self.folder, "report", "owner 5001 02:00:00:00:00:01 10.0.0.1\n")
        done = run("evpnd_audit.py", "--state", path, "--report", report, VIEW)
        self.assertIn(f"evpnd_audit: {path}: no state of an audit, begun anew\n", done.stderr)
        self.assertEqual(done.returncode, 1)

    def test_records_of_routes(self):
        path = written(self.folder, "routes.json", BINARY)
        self.names(run("evpnd_records.py", "frr", "--vni", "5001", path), f"{path}: a binary file, no text")

    def test_what_a_command_prints(self):
        """Also where its first octets are no text, and where it fails beside them."""
        for status in (0, 1):
            printed = written(self.folder, "printed", BINARY)
            vtysh = written(self.folder, "vtysh", f"#!/bin/sh\ncat '{printed}'\nexit {status}\n", True)
            self.names(run("evpnd_audit.py", "--vtysh", vtysh), f"{vtysh} -c 'show ")

    def test_what_the_program_prints(self):
        printed = written(self.folder, "printed", BINARY)
        program = written(self.folder, "evpnd", f"#!/bin/sh\ncat '{printed}'\n", True)
        self.names(run("evpnd_audit.py", "--vni", "5001", "--evpnd", program, VIEW), "line 1 of the report isn't one of a report")


if __name__ == "__main__":
    unittest.main()
