"""The audit on a host whose commands print the stored texts of FRR 10.3: how often each is run, and two looks while a MAC moves.

TOOLS names another commit's tools to ask (see test_audit_messages.py); those of 04daf64 dump each VNI alone and look once.
"""

import collections
import os
import subprocess
import sys
import tempfile
import unittest
from typing import Dict, List

from test_audit_messages import TOOLS, TOP, written

VIEW = os.path.join(TOP, "tests", "data", "frr", "views", "10.3", "home")
FAR = "02:00:00:00:00:01"

# Prints the stored output of a host, whole or of one VNI; notes each command; the first table of MACs may be of another moment.
COMMAND = """#!%s
import json, os, re, sys
folder, view, vnis, name = %r, %r, %r, os.path.basename(sys.argv[0])
asked = sys.argv[-1] if name == "vtysh" else " ".join([name, *sys.argv[1:]])
with open(os.path.join(folder, "commands"), "a") as out:
    out.write(asked + "\\n")
def text(of):
    with open(os.path.join(view, of + ".json")) as stream:
        return json.load(stream)
def of_vnis(table):
    return {key: value for key, value in table.items() if not key.isdecimal() or int(key) in vnis}
one = re.search("vni ([0-9]+) json", asked)
if asked == "show bgp l2vpn evpn route json":
    found = text("routes")
elif asked == "show evpn vni json":
    found = of_vnis(text("vnis"))
elif asked.startswith("show evpn mac"):
    found = of_vnis(text("macs"))
    early = os.path.join(folder, "early")
    if os.path.exists(early):
        os.remove(early)
        found["5001"]["macs"]["02:00:00:00:00:01"]["remoteVtep"] = "10.0.0.2"
    found = found[one[1]] if one else found
elif asked in ("show bgp l2vpn evpn vni json", "show evpn rmac vni all json", "show evpn next-hops vni all json", "show bgp l2vpn evpn summary json", "show evpn arp-cache vni all json"):
    print("%% Unknown command: " + asked)
    sys.exit(1)
elif asked.startswith("show bgp"):
    found = of_vnis(text("best"))
    found = found[one[1]] if one else found
elif name == "bridge" and "fdb" in asked:
    found = [entry for entry in text("fdb") if "dev" not in sys.argv or entry["ifname"] == sys.argv[-1]]
elif name == "bridge":
    found = text("tunnels" if "tunnelshow" in asked else "vlans")
elif "route get" in asked or "nexthop" in asked:
    found = []
else:
    found = text("links" if "link" in asked else "neigh")
print(json.dumps(found))
"""


class OnAHost(unittest.TestCase):
    """Stubs of vtysh, bridge and ip."""

    def audited(self, vnis: List[int], *words: str, is_early: bool = False) -> subprocess.CompletedProcess:
        """The audit of a host with these VNIs; sets how often each command was run."""
        with tempfile.TemporaryDirectory() as folder:
            for name in ("vtysh", "bridge", "ip"):
                written(folder, name, COMMAND % (sys.executable, folder, VIEW, vnis), True)
            if is_early:
                written(folder, "early", "")
            report = written(folder, "report", self.report())
            there = {**os.environ, "PATH": folder + os.pathsep + os.environ["PATH"]}
            command = [sys.executable, os.path.join(TOOLS, "evpnd_audit.py"), "--report", report, *words]
            done = subprocess.run(command, capture_output=True, encoding="utf-8", check=False, env=there)
            with open(written(folder, "commands", "", False, "a"), encoding="utf-8") as stream:
                self.commands: Dict[str, int] = collections.Counter(stream.read().splitlines())
        return done

    def report(self) -> str:
        """The owners of the stored routes, as tests/outside/frr/leaves.py said them to the leaf, its two marks among them."""
        lines = ["02:00:00:00:00:aa 10.0.0.100 1 dynamic 2"]
        lines += [f"{mac} 10.0.0.1 1 dynamic 0" for mac in (FAR, "02:00:00:00:00:02", "02:ff:ff:ff:00:01", "02:ff:ff:ff:00:02")]
        said = "".join(f"mac 5001 {line}\nowner 5001 {line[:17]} {line.split()[1]}\n" for line in lines)
        return said + "mac 5002 02:00:00:00:00:01 10.0.0.2 1 dynamic 0\nowner 5002 02:00:00:00:00:01 10.0.0.2\n"

    def test_more_vnis_cost_no_more_commands(self):
        counts = []
        for vnis in ([5001], [5001, 5002]):
            done = self.audited(vnis)
            self.assertIn(f"VNI {vnis[-1]}: ", done.stdout, done.stderr)
            counts.append(sum(self.commands.values()))
        self.assertEqual(counts[0], counts[1], self.commands)

    def test_no_command_twice(self):
        self.audited([5001, 5002])
        self.assertEqual({command: count for command, count in self.commands.items() if count > 1}, {})

    def test_a_move_between_two_commands(self):
        """One look tells it; of two looks only what both see by the same values is told."""
        done = self.audited([5001], "--vni", "5001", is_early=True)
        self.assertEqual(done.returncode, 1, done.stdout + done.stderr)
        self.assertIn(f"wrong 5001 {FAR} ", done.stdout)
        done = self.audited([5001], "--vni", "5001", "--again", "0", is_early=True)
        self.assertEqual(done.returncode, 0, done.stdout + done.stderr)


if __name__ == "__main__":
    unittest.main()
