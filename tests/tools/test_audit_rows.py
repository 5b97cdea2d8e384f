"""The audit beside the texts of each version of FRR if a command hangs, if the state file is broken, if a value of the texts is
null or a number, if vtysh has no vtysh.conf, and if the wanted VNI isn't that of the texts. The views are those of routed.py."""

import concurrent.futures
import contextlib
import io
import json
import os
import re
import subprocess
import sys
import tempfile
import unittest
from typing import Dict, Iterator, List, Tuple

from test_audit import PROGRAM, needs_program, run
from test_audit_messages import ANSWERS, written
from test_audit_routed import VERSIONS, view
from test_audit_views import Changed, text_of
from test_records import TOP

import audit_fabric
import audit_views
import evpnd_audit
import update_records as records

TOOL = os.path.join(TOP, "tools", "evpnd_audit.py")
BEFORE_10 = ("7.5.1", "8.4.4")  # their vtysh doesn't know the command of bgpd's tables that later ones have
LIMIT = 3  # seconds: no other command of the host takes as long, also on a machine with other work
ENDED = f"no end within {LIMIT} s (--timeout)"
# The command of each version that hangs without --nagios, and the one with it: of bgpd, of zebra, of the kernel
HANGING = {
    "7.5.1": (audit_views.ROUTES, audit_views.BEST_BEFORE),
    "8.4.4": (audit_views.BEST_BEFORE, audit_views.SHOWN["macs"]),
    "10.3": (audit_views.SHOWN["macs"], audit_views.SHOWN["sessions"]),
    "10.7.1": ("bridge -j fdb show", audit_views.BEST),
}
UNKNOWN = "% Unknown command: "


def command_of(name: str) -> str:
    """A command as a shell script's name and arguments print it: those of FRR are vtysh's."""
    return f"vtysh -c {name}" if name.startswith("show ") else name


def host_of(folder: str, version: str, hanging: str = "") -> None:
    """Writes the commands of a host that prints a stored view; one of them hangs with a child, and writes both process ids."""
    shown = {name: f"cat {view(version, 'l3vni')}/{name}.json" for name in ("routes", "best", *audit_views.SHOWN, *audit_views.KERNEL)}
    best = audit_views.BEST_BEFORE if version in BEFORE_10 else audit_views.BEST
    commands = {command_of(command): shown[name] for name, command in audit_views.SHOWN.items()}
    commands.update({" ".join(words): shown[name] for name, words in audit_views.KERNEL.items()})
    commands.update({command_of(audit_views.ROUTES): shown["routes"], command_of(audit_fabric.DETAIL): shown["routes"]})
    commands[command_of(best)] = shown["best"]
    if version in BEFORE_10:
        commands[command_of(audit_views.BEST)] = f"echo '{UNKNOWN}{audit_views.BEST}'; exit 1"
    if hanging:
        commands[command_of(hanging)] = f"sleep 600 & echo $$ $! > {folder}/hanging; wait"
    cases = [f"  '{command}') {what} ;;" for command, what in commands.items()]
    script = "\n".join(["#!/bin/sh", 'case "${0##*/} $*" in', *cases, "esac", "exit 0", ""])
    for name in ("vtysh", "bridge", "ip"):
        written(folder, name, script, True)


def on_host(folder: str, *words: str) -> subprocess.CompletedProcess:
    """The audit on a host whose commands are those of a folder."""
    there = {**os.environ, "EVPND": PROGRAM, "PATH": folder + os.pathsep + os.environ["PATH"]}
    return subprocess.run([sys.executable, "-S", TOOL, *words], capture_output=True, encoding="utf-8", check=False, env=there)


def is_running(process: str) -> bool:
    """Whether a process is there, and isn't one that has ended and that nobody waits for."""
    try:
        with open(f"/proc/{process}/stat", encoding="utf-8") as stream:
            return stream.read().rpartition(")")[2].split()[0] not in ("Z", "X")
    except (FileNotFoundError, ProcessLookupError):
        return False


@needs_program
class OnHosts(unittest.TestCase):
    """Hosts whose commands print what each version printed."""

    def test_the_host_agrees(self):
        """None of its commands hangs."""
        for version in VERSIONS:
            with tempfile.TemporaryDirectory() as folder:
                host_of(folder, version)
                done = on_host(folder)
                self.assertEqual(done.returncode, 0, done.stdout + done.stderr)
                self.assertIn("VNI 6000: L3VNI, 0 router MACs and next hops differ\n", done.stdout)

    def hung(self, version: str, hanging: str, *words: str) -> subprocess.CompletedProcess:
        """The audit of a host of which a command hangs; no process of it is left."""
        with tempfile.TemporaryDirectory() as folder:
            host_of(folder, version, hanging)
            done = on_host(folder, "--timeout", str(LIMIT), *words)
            with open(os.path.join(folder, "hanging"), encoding="ascii") as stream:
                left = [process for process in stream.read().split() if is_running(process)]
        self.assertEqual(left, [], f"{hanging}: {done.stdout}{done.stderr}")
        return done

    def test_a_command_that_hangs(self):
        """One line names the command; for Nagios it is UNKNOWN. Of a fabric the other leaf is audited."""
        with concurrent.futures.ThreadPoolExecutor(3 * len(VERSIONS)) as pool:
            plain = {pool.submit(self.hung, version, HANGING[version][0]): HANGING[version][0] for version in VERSIONS}
            nagios = {pool.submit(self.hung, version, HANGING[version][1], "--nagios", "--again", "0"): HANGING[version][1] for version in VERSIONS}
            fabrics = [pool.submit(self.fabric, version) for version in VERSIONS]
            for each, hanging in plain.items():
                done = each.result()
                self.assertEqual((done.returncode, done.stdout), (2, ""), done.stderr)
                self.assertRegex(done.stderr, rf"^evpnd_audit: [^\n]*'?{re.escape(hanging)}'?: {re.escape(ENDED)}\n$")
            for each, hanging in nagios.items():
                done = each.result()
                self.assertEqual((done.returncode, done.stderr), (3, ""), done.stdout)
                self.assertRegex(done.stdout, rf"^EVPN UNKNOWN: [^\n]*'{re.escape(hanging)}': {re.escape(ENDED)}\n$")
            for fabric in fabrics:
                done = fabric.result()
                silent, summed = done.stdout.splitlines()
                self.assertEqual((done.returncode, summed), (3, "fabric: 2 leaves, 1 answered; 0 differences"), done.stderr)
                self.assertRegex(silent, rf"^leaf2: doesn't answer: .*'{re.escape(audit_views.SHOWN['macs'])}': {re.escape(ENDED)}$")

    def fabric(self, version: str) -> subprocess.CompletedProcess:
        """The audit of two leaves, of which the second hangs."""
        with tempfile.TemporaryDirectory() as folder:
            for leaf, hanging in (("leaf1", ""), ("leaf2", audit_views.SHOWN["macs"])):
                os.mkdir(os.path.join(folder, leaf))
                host_of(os.path.join(folder, leaf), version, hanging)
            path = written(folder, "on", f'#!/bin/sh\nPATH={folder}/$1:$PATH\nshift\nexec "$@"\n', True)
            return run("fabric", "leaf1,leaf2", "--run", f"{path} {{leaf}}", "--timeout", str(LIMIT))

    def test_without_vtysh_conf(self):
        """vtysh warns with each answer, and the audit goes on; before FRR 10 the warning once hid `Unknown command`."""
        for version in VERSIONS:
            with open(os.path.join(ANSWERS, f"{version}.json"), encoding="utf-8") as stream:
                answers = json.load(stream)["no vtysh.conf"]
            self.assertTrue(all("vtysh.conf" in answer["err"] for answer in answers.values()))
            with tempfile.TemporaryDirectory() as folder:
                cases = []
                for number, (command, answer) in enumerate(answers.items()):
                    written(folder, f"out{number}", answer["out"])
                    cases.append(f"  '{command}') cat {folder}/out{number}; cat {folder}/err >&2; exit {answer['status']} ;;")
                written(folder, "err", answers[audit_views.ROUTES]["err"])
                unknown = f'cat {folder}/err >&2; echo "{UNKNOWN}$2"; exit 1'
                written(folder, "vtysh", "\n".join(["#!/bin/sh", 'case "$2" in', *cases, "esac", unknown, ""]), True)
                for name in ("bridge", "ip"):
                    written(folder, name, "#!/bin/sh\nexit 0\n", True)
                done = on_host(folder)
            self.assertEqual((done.returncode, done.stderr), (0, ""), done.stdout)
            self.assertRegex(done.stdout, "^this host: VNI 5001: 0 MACs, 0 equal, ")


@needs_program
class States(unittest.TestCase):
    """`--state FILE` beside each version's texts."""

    BROKEN = (b"{", b"[]", b"\xff\xfe", b'{"a": null}')

    def audited(self, state: str, version: str) -> subprocess.CompletedProcess:
        """The audit of a view with one difference."""
        done = run("--state", state, view(version, "otheredge"))
        self.assertEqual((done.returncode, done.stdout.count("\n    since 2")), (1, 1), done.stdout + done.stderr)
        return done

    def test_a_broken_file(self):
        """The audit prints what it prints without the file, and a new file takes its place."""
        for place, version in enumerate(VERSIONS):
            plain = run(view(version, "otheredge"))
            for broken in self.BROKEN if place == 0 else self.BROKEN[place - 1 : place]:
                with tempfile.TemporaryDirectory() as folder:
                    state = written(folder, "state", broken)
                    done = self.audited(state, version)
                    self.assertEqual(re.sub("    since .*\n", "", done.stdout), plain.stdout)
                    told = "" if broken.endswith(b"}") else f"evpnd_audit: {state}: no state of an audit, begun anew\n"
                    self.assertEqual(done.stderr, told + plain.stderr)
                    with open(state, encoding="utf-8") as stream:
                        known = json.load(stream)
                self.assertEqual([type(second) for second in known.values()], [int])

    def test_a_second_that_is_none(self):
        """A time of the past stays; any other value counts as new."""
        for version, value in zip(VERSIONS, (None, 10**30, -1, True)):
            with tempfile.TemporaryDirectory() as folder:
                state = os.path.join(folder, "state")
                self.audited(state, version)
                with open(state, encoding="utf-8") as stream:
                    known = json.load(stream)
                past = [(1600000000, "    since 2020-09-13T12:26:40Z\n")] if value is None else []
                for second, text in (*past, (value, "    since 2")):
                    written(folder, "state", json.dumps(dict.fromkeys(known, second)))
                    self.assertIn(text, self.audited(state, version).stdout)


@needs_program
class Values(unittest.TestCase):
    """Each key of each text of each version with null, or a number, in the place of its values: a result or one line."""

    def audited(self, report: str, path: str) -> Tuple[str, str]:
        """The audit of a changed view in this process; its fault, if it has one, and what it prints."""
        out, errors = io.StringIO(), io.StringIO()
        with contextlib.redirect_stdout(out), contextlib.redirect_stderr(errors):
            try:
                self.assertIn(evpnd_audit.run(["--report", report, path]), range(5))
                return "", out.getvalue()
            except records.Unreadable as fault:
                return str(fault), out.getvalue()

    def report_of(self, folder: str, version: str) -> str:
        """The report of a view's routes."""
        routes = os.path.join(view(version, "l3vni"), "routes.json")
        shown = subprocess.run([sys.executable, os.path.join(TOP, "tools", "evpnd_records.py"), "frr", "--vni", "5001,5002", routes], capture_output=True, check=True).stdout
        words = [PROGRAM, "report", "--originators", "10.0.0.1,10.0.0.2,10.0.0.100"]
        done = subprocess.run(words, input=shown, capture_output=True, check=True)
        return written(folder, "report", done.stdout)

    def test_null_and_numbers(self):
        """No value ends the audit with a traceback, and a fault names the file. Each key has null in two versions, 7 in two."""
        for turn, version in enumerate(VERSIONS):
            with Changed(view(version, "l3vni")) as changed:
                report = self.report_of(changed.folder, version)
                self.assertEqual(self.audited(report, changed.path)[0], "")
                for name in sorted(os.listdir(changed.path)):
                    text = text_of(changed.path, name)
                    for key in sorted({*keys_of(text)}):
                        value = (None, 7)[(turn + len(key)) % 2]
                        changed.write(name, with_value(text, key, value))
                        fault, said = self.audited(report, changed.path)
                        self.assertNotIn("\n", fault)
                        self.assertTrue(name in fault or not fault and "VNI 5001" in said, f"{version} {name} {key} {value}: {fault} {said}")
                    changed.write(name, text)

    def test_null_state_and_numeric_flags(self):
        """Of the kernel's entries: null counts as none, so the audit goes on; a number is named."""
        for version in VERSIONS:
            for name in ("fdb.json", "neigh.json"):
                with Changed(view(version, "l3vni")) as changed:
                    text = text_of(changed.path, name)
                    changed.write(name, [{**entry, "state": None} for entry in text])
                    done = run(changed.path)
                    self.assertEqual((done.returncode, done.stderr), (0, ""), done.stdout)
            with Changed(view(version, "l3vni")) as changed:
                changed.write("fdb.json", [{**entry, "flags": 7} for entry in text_of(changed.path, "fdb.json")])
                done = run(changed.path)
                fault = f"evpnd_audit: {changed.path}/fdb.json: '7' where a list of words is meant\n"
                self.assertEqual((done.returncode, done.stdout, done.stderr), (2, "", fault))


def keys_of(table: object) -> Iterator[str]:
    """The keys of all objects in a table of JSON."""
    if isinstance(table, dict):
        yield from table
    for each in table.values() if isinstance(table, dict) else table if isinstance(table, list) else ():
        yield from keys_of(each)


def with_value(table: object, key: str, value: object) -> object:
    """A table of JSON with a value in the place of all that a key has."""
    if isinstance(table, dict):
        return {each: value if each == key else with_value(found, key, value) for each, found in table.items()}
    return [with_value(each, key, value) for each in table] if isinstance(table, list) else table


@needs_program
class OfOneNetwork(unittest.TestCase):
    """The texts of one network, as `show evpn mac vni 5001 json` and `bridge -j fdb show dev vxlan5001` print them."""

    def test_a_mistyped_vni(self):
        """It is a fault: no MAC is extra, and no command is printed."""
        for version in VERSIONS:
            with Changed(view(version, "l3vni")) as changed:
                kept: Dict[str, object] = {"macs.json": text_of(changed.path, "macs.json")["5001"]}
                kept["fdb.json"] = [entry for entry in text_of(changed.path, "fdb.json") if entry["ifname"] == "vxlan5001"]
                for name in os.listdir(changed.path):
                    if name != "routes.json":
                        changed.write(name, kept.get(name))
                self.assertEqual(run("--vni", "5001", changed.path).returncode, 0)
                for words, status in (((), 2), (("--nagios",), 3)):
                    done = run("--vni", "5003", *words, changed.path)
                    said: List[str] = (done.stdout + done.stderr).splitlines()
                    self.assertEqual((done.returncode, len(said)), (status, 1), done.stdout + done.stderr)
                    self.assertIn("VNI 5003: routes.json has no route of it, and routes of other VNIs", said[0])


if __name__ == "__main__":
    unittest.main()
