"""The audit of stored views of FRR 7.5.1, 8.4.4, 10.3 and 10.7.1 in a routed fabric, as tests/outside/frr/routed.py kept them: an
L3VNI, route targets, other programs' devices and entries, and what keeps frames from arriving. Each case is a row of what once
misled."""

import json
import os
import random
import re
import shutil
import subprocess
import sys
import tempfile
import unittest
from typing import List, Sequence

from test_audit import needs_program, run
from test_audit_views import Changed, routes_in, text_of
from test_records import DATA, TOP

import audit_fabric
import audit_frr
import audit_views
import update_records as records

ROUTED = os.path.join(DATA, "routed")
VERSIONS = ("10.3", "10.7.1", "7.5.1", "8.4.4")
MULTIHOMED = ("10.3", "10.7.1", "8.4.4")  # those that know segments
HOME = "02:00:00:00:00:aa"
FAR, OTHER, ROUTER = "02:00:00:00:00:01", "02:00:00:00:00:02", "02:00:00:00:fe:01"
FAR_IP = "198.18.1.7"


def view(version: str, name: str) -> str:
    """A stored view."""
    return os.path.join(ROUTED, version, name)


@needs_program
class Routed(unittest.TestCase):
    """Each case by the texts of each version."""

    def test_the_versions_are_there(self):
        """Each case of each version; 7.5.1 knows no segments."""
        self.assertEqual(sorted(os.listdir(ROUTED)), sorted(VERSIONS))
        names = {version: sorted(os.listdir(os.path.join(ROUTED, version))) for version in VERSIONS}
        self.assertGreater(len(names["10.3"]), 30)
        for version in VERSIONS:
            without = [] if version in MULTIHOMED else ["segmentwrong"]
            self.assertEqual(names[version], [name for name in names["10.3"] if name not in without])

    def each(self, name: str, *words: str, versions: Sequence[str] = VERSIONS) -> List[subprocess.CompletedProcess]:
        """The audit of a stored view, of each version."""
        return [run(*words, view(version, name)) for version in versions]

    def agrees(self, name: str, versions: Sequence[str] = VERSIONS) -> None:
        """Nothing differs."""
        for done in self.each(name, versions=versions):
            self.assertEqual(done.returncode, 0, done.stdout + done.stderr)

    def finds(self, name: str, *parts: str, mend: str = "", others: int = 0, versions: Sequence[str] = VERSIONS) -> None:
        """Each part is told, the mend is as it was run in the lab or there is none, and so many other lines differ."""
        for done in self.each(name, versions=versions):
            self.assertEqual(done.returncode, 1, done.stdout + done.stderr)
            for part in parts:
                self.assertIn(part, done.stdout)
            mends = [line for line in done.stdout.splitlines() if line.startswith("    mend: ")]
            self.assertEqual(mends, [f"    mend: {mend}"] if mend else [])
            told = [line for line in done.stdout.splitlines() if not line.startswith(" ") and not re.search(r": VNI [0-9]+: ", line)]
            self.assertEqual(len(told), len(parts) + others, done.stdout)

    # ---- L3VNIs

    def test_an_l3vni_has_no_stations(self):
        self.agrees("l3vni")
        for done in self.each("l3vni"):
            self.assertIn("VNI 6000: L3VNI, 0 router MACs and next hops differ\n", done.stdout)

    def test_an_l3vni_of_a_lower_number(self):
        """Each host with an IP counts in its own network, not in the first one that its route targets name."""
        self.agrees("lowl3vni")
        for done in self.each("lowl3vni"):
            self.assertRegex(done.stdout, "VNI 5001: 2 MACs, 2 equal")

    def test_without_bgpds_networks_zebra_tells_an_l3vni(self):
        for version in VERSIONS:
            for name in ("l3vni", "lowl3vni"):
                with self.subTest(version=version, name=name), Changed(view(version, name)) as changed:
                    changed.write("bgpvnis.json", None)
                    done = run(changed.path)
                    self.assertEqual(done.returncode, 0, done.stdout)

    def test_a_routers_mac_at_another_edge(self):
        words = f"bridge fdb replace {ROUTER} dev vxlan6000"
        mend = f"{words} dst 10.0.0.1 self extern_learn; {words} master extern_learn"
        self.finds("routerwrong", f"router wrong 6000 {ROUTER}: by the routes 10.0.0.1, found zebra 10.0.0.1, kernel 10.0.0.2\n", mend=mend)

    def test_a_next_hop_of_another_router(self):
        mend = f"ip neigh replace 10.0.0.1 lladdr {ROUTER} dev br6000 nud noarp extern_learn protocol zebra"
        self.finds("hopwrong", f"next hop wrong 6000 10.0.0.1: by the routes {ROUTER}, found zebra {ROUTER}, kernel 02:00:00:00:fe:02\n", mend=mend)

    def test_a_routers_mac_of_somebody_else(self):
        self.finds("routerforeign", "router foreign 6000 02:00:00:00:fe:99: by the routes nowhere, found zebra nowhere, kernel flooded to 10.0.0.9\n")

    # ---- route targets, devices, names

    def test_two_local_route_targets(self):
        """The MAC counts in both networks."""
        self.agrees("twotargets")
        for done in self.each("twotargets", "--mac", "02:00:00:00:00:12"):
            for vni in (5001, 5002):
                self.assertIn(f"VNI {vni}: 1 MACs, 1 equal", done.stdout)

    def test_another_import_target(self):
        self.agrees("import")
        for done in self.each("import", "--mac", "02:00:00:00:00:13"):
            self.assertIn("VNI 5002: 1 MACs, 1 equal", done.stdout)

    def test_a_flannels_device_is_left_out_by_name(self):
        self.agrees("flannel")
        for done in self.each("flannel"):
            self.assertIn("left out: VXLAN device flannel.1 (VNI 1), which FRR doesn't run\n", done.stderr)

    def test_an_entry_of_somebody_else(self):
        self.finds("foreign", "foreign 5001 02:00:00:00:66:66 owner none")
        self.finds("foreignflood", "flood extra 5001 10.0.0.66: no route of it\n")

    def test_a_vni_that_is_not_there(self):
        for words, status in (((), 2), (("--nagios",), 3), (("--json",), 2)):
            for done in self.each("l3vni", "--vni", "5003", *words):
                self.assertEqual(done.returncode, status)
                self.assertIn("VNI 5003: zebra and the kernel have no such VNI; they have 5001, 5002", done.stdout + done.stderr)

    # ---- what keeps frames from arriving

    def test_an_entry_with_another_vni_or_port(self):
        words = f"bridge fdb replace {FAR} dev vxlan5001"
        mend = f"{words} dst 10.0.0.1 self extern_learn; {words} master extern_learn"
        for name, place in (("othervni", "10.0.0.1 vni 77"), ("otherport", "10.0.0.1 port 4790"), ("otheredge", "10.0.0.2")):
            self.finds(name, f"zebra 10.0.0.1, kernel {place}; after", mend=mend)

    def test_neighbours(self):
        """One was lost while zebra was stopped (the kernel asks for its MAC), one is wrong, no route names one; each mend is as it was run."""
        mend = f"ip neigh replace {FAR_IP} lladdr {FAR} dev br5001 nud noarp extern_learn protocol zebra"
        for version in VERSIONS:
            asked = [entry for entry in text_of(view(version, "neighbourmissing"), "neigh.json") if entry["dst"] == FAR_IP]
            self.assertEqual([entry.get("lladdr") for entry in asked], [None])
        self.finds("neighbourmissing", f"neighbour missing 5001 {FAR_IP}: by the routes {FAR}, in the kernel nowhere\n", mend=mend)
        self.finds("neighbour", f"neighbour wrong 5001 {FAR_IP}: by the routes {FAR}, in the kernel {OTHER}\n", mend=mend)
        line = f"neighbour extra 5001 198.18.1.99: by the routes nowhere, in the kernel {OTHER}\n"
        self.finds("neighbourextra", line, mend="ip neigh del 198.18.1.99 dev br5001")

    def test_entries_that_are_lost(self):
        """zebra has them, so the mends that routed.py ran in its case `lost` are printed."""
        words = f"bridge fdb replace {FAR} dev vxlan5001"
        for version in VERSIONS:
            with self.subTest(version=version), Changed(view(version, "l3vni")) as changed:
                for name, key, lost in (("fdb", "mac", FAR), ("neigh", "dst", "10.0.0.1")):
                    changed.write(f"{name}.json", [entry for entry in text_of(changed.path, f"{name}.json") if entry[key] != lost])
                done = run(changed.path)
                self.assertEqual(done.returncode, 1)
                lines = [line for line in done.stdout.splitlines() if ": VNI " not in line and not line.startswith("    1. ")]
                begins = f"missing 5001 {FAR} owner 10.0.0.1 (the only advert); bgpd 10.0.0.1, zebra 10.0.0.1, kernel nowhere; "
                self.assertEqual((len(lines), lines[0].startswith(begins)), (4, True), done.stdout)
                self.assertEqual(lines[1], f"    mend: {words} dst 10.0.0.1 self extern_learn; {words} master extern_learn")
                self.assertEqual(lines[2], f"next hop missing 6000 10.0.0.1: by the routes {ROUTER}, found zebra {ROUTER}, kernel nowhere")
                self.assertEqual(lines[3], f"    mend: ip neigh replace 10.0.0.1 lladdr {ROUTER} dev br6000 nud noarp extern_learn protocol zebra")

    def test_causes_each_with_its_stations(self):
        """One line a cause, and none a MAC."""
        for name, text in (
            ("bridgedown", "bridge br5001 is down: 3 stations"),
            ("portdisabled", "bridge port vxlan5001 is disabled, not forwarding: 3 stations"),
            ("isolated", "the VXLAN port and access ports are isolated from each other: vxlan5001, acc5001: 3 stations"),
            ("devicedown", "device vxlan5001 is down: 3 stations"),
        ):
            self.finds(name, f"cause 5001 {text}\n")

    def test_two_networks_in_one_bridge(self):
        for done in self.each("sharedbridge"):
            self.assertEqual(done.returncode, 1)
            self.assertIn("networks leak into each other: vxlan5001, vxlan5002 are in one bridge, br5001", done.stdout)
            self.assertNotIn("mend:", done.stdout)

    def test_no_route_of_the_underlay(self):
        for done in self.each("noroute"):
            self.assertEqual(done.returncode, 1)
            self.assertRegex(done.stdout, r"cause 5001 [^\n]*10\.0\.0\.1[^\n]*: [0-9]+ stations?\n")

    def test_routes_that_are_not_valid(self):
        """The underlay reaches no edge: bgpd takes none of their routes, so no MAC has an owner."""
        for done in self.each("notvalid"):
            self.assertEqual(done.returncode, 1)
            for pe, stations in ((1, "2 stations"), (2, "[0-9]+ stations?")):
                line = rf"cause 500{pe} bgpd holds the routes of 10\.0\.0\.{pe} for not valid: it doesn't reach this next hop: {stations}\n"
                self.assertRegex(done.stdout, line)
            self.assertNotIn("mend:", done.stdout)

    def test_no_advertise_all_vni(self):
        for done in self.each("switchedoff"):
            self.assertEqual(done.returncode, 1)
            self.assertTrue(done.stdout.endswith(": cause: bgpd has no 'advertise-all-vni': it runs no network: 3 stations\n"), done.stdout)
            self.assertEqual(done.stdout.count("\n"), 1)

    def test_a_session_that_is_down(self):
        for done in self.each("session"):
            self.assertEqual(done.returncode, 1)
            self.assertRegex(done.stdout, r": cause: the session with 192\.168\.77\.2 is [A-Z][A-Za-z]+: what it would say isn't known here\n")

    # ---- what FRR forgets

    def test_a_station_that_is_pinned_elsewhere(self):
        """zebra keeps a station whose sequence number is higher than that of the static route."""
        words = f"bridge fdb replace {HOME} dev vxlan5001"
        mend = f"{words} dst 10.0.0.2 self extern_learn; {words} master extern_learn"
        self.finds("pinnedelsewhere", f"wrong 5001 {HOME} owner 10.0.0.2 (the only advert); bgpd 10.0.0.2, zebra local, kernel local;", mend=mend)

    def test_a_local_station_that_nobody_advertises(self):
        """The pin has ended; zebra has the station as local, and bgpd has no route of it."""
        self.finds("unadvertised", f"cause 5001 local stations that nobody advertises: {HOME}: 1 station\n")

    def test_a_local_station_that_no_port_has_learnt(self):
        for version in VERSIONS:
            with Changed(view(version, "unadvertised")) as changed:
                changed.write("fdb.json", [entry for entry in text_of(changed.path, "fdb.json") if entry["mac"] != HOME])
                done = run("--brief", changed.path)
                self.assertEqual(done.returncode, 1)
                self.assertIn(f"cause 5001 local stations that nobody advertises: {HOME}: 1 station\n", done.stdout)

    def test_what_a_killed_zebra_leaves(self):
        """A sticky entry of a static station; the next zebra knows nothing of the other stations so far."""
        self.finds(
            "leftsticky",
            "foreign 5001 02:00:00:00:00:55 owner none (no router advertises it); bgpd nowhere, zebra nowhere, kernel 10.0.0.2;",
            "a sticky entry that zebra doesn't name: a zebra that was killed leaves those of static MACs behind; or it was made by hand\n",
            others=2,
        )

    def test_next_hops_that_the_kernels_routes_use(self):
        """Two edges have a prefix, zebra has neither's router: each is missing, by the kernel's own routes."""
        for version in VERSIONS:
            with Changed(view(version, "l3vni")) as changed:
                without_routers(changed)
                self.assertNotIn(" missing 6000 ", run("--brief", changed.path).stdout)
                hops = [{"gateway": f"10.0.0.{pe}", "dev": "br6000", "weight": 1, "flags": ["onlink"]} for pe in (1, 2)]
                changed.write("ways.json", [{"dst": FAR_IP, "nhid": 7, "nexthops": hops}, {"dst": "198.18.9.9", "gateway": "10.9.9.9", "dev": "up0"}])
                done = run("--brief", changed.path)
                self.assertEqual(done.returncode, 1, done.stdout)
                for pe in (1, 2):
                    self.assertIn(f"router missing 6000 02:00:00:00:fe:0{pe}: by the routes 10.0.0.{pe}, found zebra nowhere, kernel nowhere\n", done.stdout)
                    self.assertIn(f"next hop missing 6000 10.0.0.{pe}: by the routes 02:00:00:00:fe:0{pe}, found zebra nowhere, kernel nowhere\n", done.stdout)
                changed.write("ways.json", [{"dst": FAR_IP, "gateway": "10.0.0.2", "dev": "br6000"}, {"dst": FAR_IP, "nexthops": [None, {"gateway": 1}]}])
                done = run("--brief", changed.path)
                self.assertEqual(re.findall("next hop missing 6000 (\\S+):", done.stdout), ["10.0.0.2"])

    # ---- segments

    def test_each_edge_of_a_segment_is_right(self):
        self.agrees("segment", MULTIHOMED)
        for done in self.each("segment", versions=MULTIHOMED):
            self.assertRegex(done.stdout, "VNI 5001: [0-9]+ MACs, [0-9]+ equal, 0 wrong, 0 missing, 0 extra, 0 not judged")

    def test_a_version_that_writes_no_entry_of_a_segment(self):
        """7.5.1: frames to its MACs are flooded."""
        parts = [f"missing 5001 02:00:00:00:00:{last} owner segment 03:" for last in ("21", "22")]
        self.finds("segment", *parts, versions=("7.5.1",))

    def test_an_edge_that_is_not_at_the_segment(self):
        part = "wrong 5001 02:00:00:00:00:22 owner segment 03:44:38:39:ff:ff:01:00:00:01 (any of 10.0.0.1, 10.0.0.2);"
        self.finds("segmentwrong", part, versions=MULTIHOMED)

    def test_a_segment_that_no_edge_advertises(self):
        """Its MAC isn't judged, all else is; the status is one of its own."""
        for words, status, part in (((), 4, ", 1 not judged"), (("--nagios",), 1, "EVPN WARNING: "), (("--accept-unjudged",), 0, ", 1 not judged")):
            for done in self.each("segmentunknown", *words):
                self.assertEqual(done.returncode, status, done.stdout)
                self.assertIn(part, done.stdout)

    def test_without_the_kernels_groups_zebra_decides(self):
        for version in MULTIHOMED:
            with Changed(view(version, "segment")) as changed:
                changed.write("groups.json", None)
                self.assertEqual(run(changed.path).returncode, 0)

    def test_nagios_names_the_first_cause(self):
        for done in self.each("devicedown", "--nagios"):
            self.assertRegex(done.stdout, r"^EVPN CRITICAL: [^|]*; cause 5001 device vxlan5001 is down: 3 stations \| 'MACs'=")

    def test_json(self):
        for done in self.each("devicedown", "--json"):
            said = json.loads(done.stdout)
            self.assertEqual((said["schema"], said["status"]), (2, 1))
            self.assertEqual([cause["kind"] for cause in said["results"][0]["causes"]], ["device_down"])
            self.assertEqual([result["kind"] for result in said["results"]][-1], "L3")


def answering(folder: str) -> str:
    """A script of a leaf that answers with stored texts: the first look gets those of FOLDER/1, the later ones those of FOLDER/2.

    Each look begins with the command of the routes.
    """
    shown = {f"vtysh -c {command}": name for name, command in audit_views.SHOWN.items()}
    shown.update({f"vtysh -c {command}": "best" for command in (audit_views.BEST, audit_views.BEST_BEFORE)})
    shown.update({" ".join(words): name for name, words in audit_views.KERNEL.items()})
    lines = [f"cd {folder}", "shift", 'case "$*" in', f"  'vtysh -c {audit_fabric.DETAIL}') echo >> looks; name=routes ;;"]
    lines += [f"  '{command}') name={name} ;;" for command, name in shown.items()]
    lines += ["  *) exit 0 ;;", "esac", "turn=1; [ $(wc -l < looks) = 1 ] || turn=2", "cat $turn/$name.json 2> /dev/null || true"]
    path = os.path.join(folder, "leaf.sh")
    with open(path, "w", encoding="utf-8") as out:
        out.write("\n".join(lines) + "\n")
    return path


def without_routers(changed: Changed) -> None:
    """Takes the routers from zebra's and the kernel's texts, and gives each prefix a second edge."""
    for name in ("rmacs", "nexthops"):
        changed.write(f"{name}.json", {})
    changed.write("fdb.json", [each for each in text_of(changed.path, "fdb.json") if not each["mac"].startswith("02:00:00:00:fe:")])
    changed.write("neigh.json", [each for each in text_of(changed.path, "neigh.json") if each["dev"] != "br6000"])
    table = text_of(changed.path, "routes.json")
    for pe, other, router in ((1, 2, "02"), (2, 1, "01")):
        for prefix, route in list(table[f"10.0.0.{pe}:{5000 + pe}"].items()):
            if prefix.startswith("[2]") and ":[32]:[" in prefix:
                text = json.dumps(route).replace(f'"10.0.0.{pe}"', f'"10.0.0.{other}"').replace(f"Rmac:02:00:00:00:fe:0{pe}", f"Rmac:02:00:00:00:fe:{router}")
                table.setdefault(f"10.0.0.{other}:{5000 + pe}", {})[prefix] = json.loads(text)
    changed.write("routes.json", table)


@needs_program
class Fabrics(unittest.TestCase):
    """Leaves of a list, together: stored views in the place of leaves that answer."""

    def leaves(self, version: str, *names: str) -> str:
        """A list of stored views."""
        return ",".join(view(version, name) for name in names)

    def test_leaves_that_agree(self):
        for version in VERSIONS:
            done = run("fabric", self.leaves(version, "l3vni", "flannel"))
            self.assertEqual((done.returncode, done.stdout), (0, "fabric: 2 leaves, 2 answered; 0 differences\n"), done.stderr)

    def test_a_leaf_that_does_not_answer(self):
        """The others are audited; the status isn't 0."""
        for version in VERSIONS:
            done = run("fabric", f"{self.leaves(version, 'l3vni', 'flannel')},/nowhere")
            lines = ["/nowhere: doesn't answer: /nowhere: no such directory", "fabric: 3 leaves, 2 answered; 0 differences"]
            self.assertEqual((done.returncode, done.stdout.splitlines()), (3, lines))
        self.assertEqual(run("fabric", "/nowhere,/neither").returncode, 2)

    def test_a_leaf_that_lost_its_session(self):
        """The other leaf shows the routes: which edges' are lacking, with the session."""
        for version in VERSIONS:
            lost = view(version, "session")
            done = run("fabric", self.leaves(version, "l3vni", "session"))
            self.assertEqual(done.returncode, 1)
            for edge in ("10.0.0.1", "10.0.0.2"):
                self.assertRegex(done.stdout, rf"{lost}: lacks the routes of {edge}: [0-9]+ stations?; 192\.168\.77\.2 is [A-Z]")
            self.assertNotIn("l3vni: lacks", done.stdout)

    def test_one_line_for_what_a_leaf_forwards_otherwise(self):
        for version in VERSIONS:
            wrong = view(version, "otheredge")
            done = run("fabric", self.leaves(version, "l3vni", "otheredge"))
            line = f"5001 {FAR} owner 10.0.0.1 (the only advert); {wrong}: wrong, bgpd 10.0.0.1, zebra 10.0.0.1, kernel 10.0.0.2"
            self.assertEqual((done.returncode, done.stdout.splitlines()[0]), (1, line))
            said = json.loads(run("fabric", "--json", self.leaves(version, "l3vni", "otheredge")).stdout)
            self.assertEqual(said["macs"][0]["leaves"], {wrong: ["wrong", "10.0.0.1", "10.0.0.1", "10.0.0.2"]})

    def test_the_routes_of_a_reflector(self):
        """--routes: by what it printed, and by the records that evpnd_bgp.py --watch writes all the time, of which the newest count."""
        for version in VERSIONS:
            lost = view(version, "session")
            with tempfile.TemporaryDirectory() as folder:
                path = os.path.join(folder, "watched")
                shown = subprocess.run([sys.executable, os.path.join(TOP, "tools", "evpnd_records.py"), "frr", "--vni", "5001,5002",
                                        os.path.join(view(version, "l3vni"), "routes.json")], capture_output=True, check=True).stdout  # fmt: skip
                with open(path, "wb") as out:
                    out.write(shown + shown[:20])  # its writer goes on: the last record isn't whole
                for truth in (view(version, "l3vni"), path):
                    done = run("fabric", self.leaves(version, "l3vni"), "--routes", truth)
                    self.assertEqual((done.returncode, done.stdout), (0, "fabric: 1 leaves, 1 answered; 0 differences\n"), done.stderr)
                    done = run("fabric", self.leaves(version, "session"), "--routes", truth)
                    self.assertEqual(done.returncode, 1)
                    self.assertRegex(done.stdout, rf"{lost}: lacks the routes of 10\.0\.0\.1: [0-9]+ stations?; 192\.168\.77\.2 is [A-Z]")
                withdrawn = records.record_of(records.update_of_line(f"withdraw 10.0.0.1 5001 {FAR} ip {FAR_IP} counter 9"))
                with open(path, "wb") as out:
                    out.write(shown + withdrawn)
                done = run("fabric", self.leaves(version, "l3vni"), "--routes", path)
                self.assertIn(f"{view(version, 'l3vni')}: keeps routes that are gone, of 10.0.0.1: 1 station; ", done.stdout)
                with open(path, "wb") as out:
                    out.write(b"EV\3\1\0\1\0")
                self.assertIn("watched: record 1 spells no update", run("fabric", self.leaves(version, "l3vni"), "--routes", path).stderr)

    def test_a_reflector_that_lacks_a_leafs_own_routes(self):
        """A leaf advertises a station, and the reflector doesn't have it."""
        for version in VERSIONS:
            with tempfile.TemporaryDirectory() as folder:
                place = os.path.join(folder, "watched")
                with open(place, "wb") as out:
                    out.write(records.record_of(records.update_of_line("advert 10.0.0.1 5001 flood")))
                done = run("fabric", self.leaves(version, "unadvertised"), "--routes", place)
                self.assertRegex(done.stdout, r"reflector: lacks [0-9]+ routes? of 10\.0\.0\.100, which 10\.0\.0\.100 advertises itself\n")

    def test_two_looks_while_a_station_moves(self):
        """The first look finds a difference; a route of its MAC is new in the second one: no alarm. At rest it is told."""
        for version in VERSIONS:
            for newer in (True, False):
                with tempfile.TemporaryDirectory() as folder:
                    for turn in (1, 2):
                        shutil.copytree(view(version, "otheredge"), os.path.join(folder, str(turn)))
                    path = os.path.join(folder, "2", "routes.json")
                    with open(path, encoding="utf-8") as stream:
                        table = json.load(stream)
                    for prefix, route in routes_in(table) if newer else ():
                        for group in route["paths"] if f"[{FAR}]" in prefix else ():
                            for each in group if isinstance(group, list) else [group]:
                                each["extendedCommunity"]["string"] += " MM:7"
                    with open(path, "w", encoding="utf-8") as out:
                        json.dump(table, out)
                    done = run("fabric", "leaf1,", "--run", f"sh {answering(folder)} {{leaf}}", "--again", "0")
                    self.assertEqual((done.returncode, FAR in done.stdout), (0, False) if newer else (1, True), done.stdout + done.stderr)

    def test_causes_by_leaf(self):
        for version in VERSIONS:
            done = run("fabric", self.leaves(version, "l3vni", "devicedown"))
            self.assertIn(f"{view(version, 'devicedown')}: cause 5001: device vxlan5001 is down: 3 stations\n", done.stdout)

    def test_a_network_that_one_leaf_lacks(self):
        """Two others have it."""
        for version in VERSIONS:
            with Changed(view(version, "l3vni")) as changed:
                for name in ("vnis.json", "macs.json", "bgpvnis.json"):
                    changed.write(name, {key: each for key, each in text_of(changed.path, name).items() if key != "5002"})
                for name, key in (("links.json", "ifname"), ("fdb.json", "ifname"), ("neigh.json", "dev")):
                    changed.write(name, [each for each in text_of(changed.path, name) if not each[key].endswith("5002")])
                done = run("fabric", f"{self.leaves(version, 'l3vni', 'flannel')},{changed.path}")
                self.assertIn(f"{changed.path}: lacks network 5002, which all others have\n", done.stdout, done.stderr)
                self.assertEqual(done.stdout.count(": lacks network "), 1)

    def test_a_command_of_each_leaf(self):
        """--run stands before each command; behind ssh a command is one word."""
        with tempfile.TemporaryDirectory() as folder:
            for name in ("ssh", "jump"):
                path = os.path.join(folder, name)
                with open(path, "w", encoding="utf-8") as out:
                    out.write(f'#!/bin/sh\necho "$# $1 $2" >> {folder}/said\nexit 1\n')
                os.chmod(path, 0o755)
                self.assertEqual(run("fabric", "a,b", "--run", f"{path} {{leaf}}").returncode, 2)
            with open(os.path.join(folder, "said"), encoding="utf-8") as stream:
                said = sorted(stream.read().splitlines())
        wanted = ["2 a vtysh -c 'show bgp l2vpn evpn route detail json'", "2 b vtysh -c 'show bgp l2vpn evpn route detail json'"]
        self.assertEqual(said, [*wanted, "4 a vtysh", "4 b vtysh"])


class NoMendHarms(unittest.TestCase):
    """What a mend may be, by the text of the tools: one entry, by its MAC or address."""

    def test_nothing_is_cleared(self):
        for name in ("audit_compare.py", "audit_print.py", "audit_causes.py", "evpnd_audit.py"):
            with open(os.path.join(TOP, "tools", name), encoding="utf-8") as stream:
                self.assertNotIn("clear bgp", stream.read())


@needs_program
class Fuzzed(unittest.TestCase):
    """Texts with a value in the place of another, of any type: a result or one line, and no traceback."""

    VALUES = (None, 0, -1, 1e400, "", "x", [], {}, [None], {"a": None}, True)
    COUNT = 120

    def test_values(self):
        numbers = random.Random(56)
        for turn in range(self.COUNT):
            version = VERSIONS[turn % len(VERSIONS)]
            with Changed(view(version, "l3vni")) as changed:
                name = numbers.choice(sorted(os.listdir(changed.path)))
                table = text_of(changed.path, name)
                replaced(table, numbers, numbers.choice(self.VALUES))
                changed.write(name, table)
                done = run("--json", changed.path)
                self.assertIn(done.returncode, (0, 1, 2, 3), done.stderr)
                self.assertNotIn("Traceback", done.stderr, f"{name}: {done.stderr}")
                self.assertLessEqual(done.stderr.count("\n"), 12 if done.returncode != 2 else 1, done.stderr)


def replaced(table: object, numbers: random.Random, value: object) -> None:
    """Puts a value in some place of a table of JSON."""
    while isinstance(table, (dict, list)) and table:
        key = numbers.choice(list(table) if isinstance(table, dict) else range(len(table)))
        if not isinstance(table[key], (dict, list)) or not table[key] or numbers.random() < 0.15:
            table[key] = value
            return
        table = table[key]


class Hangs(unittest.TestCase):
    """A vtysh that doesn't end, and one without vtysh.conf."""

    def on_a_host(self, script: str, *words: str) -> subprocess.CompletedProcess:
        """The audit where vtysh is a script."""
        with tempfile.TemporaryDirectory() as folder:
            path = os.path.join(folder, "vtysh")
            with open(path, "w", encoding="utf-8") as out:
                out.write("#!/bin/sh\n" + script)
            os.chmod(path, 0o755)
            tool = os.path.join(TOP, "tools", "evpnd_audit.py")
            return subprocess.run([sys.executable, tool, "--vtysh", path, *words], capture_output=True, encoding="utf-8", check=False, timeout=60)

    def test_a_vtysh_that_hangs(self):
        """The whole group of processes is ended."""
        done = self.on_a_host("sleep 600 & wait\n", "--timeout", "1")
        self.assertEqual((done.returncode, done.stdout), (2, ""))
        self.assertIn("no end within 1 s (--timeout)", done.stderr)
        done = self.on_a_host("sleep 600 & wait\n", "--timeout", "1", "--nagios", "--again", "0")
        self.assertEqual((done.returncode, done.stderr), (3, ""))
        self.assertIn("EVPN UNKNOWN: ", done.stdout)

    def test_without_vtysh_conf(self):
        """FRR before 10 warns on standard error, and 'Unknown command' stands on standard output (answers/)."""
        for version in ("7.5.1", "8.4.4"):
            with open(os.path.join(DATA, "answers", f"{version}.json"), encoding="utf-8") as stream:
                answer = json.load(stream)["no vtysh.conf"]["show bgp vni all json"]
            self.assertIn("vtysh.conf", answer["err"])
            self.asks_the_older_one(answer)

    def asks_the_older_one(self, answer: dict) -> None:
        """The audit asks for bgpd's tables by the command of before FRR 10."""
        with tempfile.TemporaryDirectory() as folder:
            for name in ("out", "err"):
                with open(os.path.join(folder, name), "w", encoding="utf-8") as out:
                    out.write(answer[name])
            script = f'case "$2" in\n  "show bgp vni all json") cat {folder}/out; cat {folder}/err >&2; exit {answer["status"]} ;;\n'
            script += '  "show bgp l2vpn evpn route vni all json") echo "the older one is asked" >&2; exit 4 ;;\n  *) echo "{}" ;;\nesac\n'
            done = self.on_a_host(script)
        self.assertIn("the older one is asked", done.stderr)


class CommandLine(unittest.TestCase):
    """Commands stand anywhere among the options; a fault of usage is Nagios's 3."""

    def test_a_command_behind_its_options(self):
        with tempfile.TemporaryDirectory() as folder:
            for words in (("--vtysh", "false", "save", folder), ("save", "--vtysh", "false", folder), ("save", folder, "--vtysh", "false")):
                done = run(*words)
                self.assertIn("false -c 'show bgp l2vpn evpn route json': status 1", done.stderr)

    def test_usage_of_nagios(self):
        for words in (("--nagios", "--vni", "x"), ("--nagios", "save"), ("--vni", "--nagios"), ("mac", "5001", "--nagios")):
            done = run(*words)
            self.assertEqual((done.returncode, done.stdout[:14]), (3, "EVPN UNKNOWN: "), done.stderr)
        for words in (("save",), ("mac", "5001"), ("plot", "a", "1", "2", "3")):
            self.assertEqual(run(*words).returncode, 2)


class ReadsInstances(unittest.TestCase):
    """`show bgp l2vpn evpn vni json`."""

    def test_kinds_and_imports(self):
        for version in VERSIONS:
            with open(os.path.join(view(version, "import"), "bgpvnis.json"), encoding="utf-8") as stream:
                instance = audit_frr.read_instance(stream.read(), "bgpvnis")
            self.assertEqual({vni: each.is_routed for vni, each in instance.vnis.items()}, {5001: False, 5002: False, 6000: True})
            imports = instance.imports([])
            self.assertEqual(imports.vnis_of("65000:100"), (5002,))
            self.assertEqual(imports.vnis_of("64999:5001"), (5001,))
            self.assertEqual(imports.vnis_of("65000:268440457"), ())


if __name__ == "__main__":
    unittest.main()
