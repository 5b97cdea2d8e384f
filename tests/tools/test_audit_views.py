"""The audit of stored views of FRR 7.5.1, 8.4.4, 10.3 and 10.7.1, as tests/outside/frr/leaves.py kept them: leaves with access ports,
three VNIs of which one is empty, another edge's entries, flood lists, neighbours, a lost session; and what is printed."""

import json
import os
import re
import shutil
import subprocess
import sys
import tempfile
import unittest
import xml.etree.ElementTree

from test_audit import PROGRAM, needs_program, run
from test_records import DATA, TOP

import audit_compare
import audit_history
import audit_kernel
import audit_plot
import audit_print
import update_records as records

VIEWS = os.path.join(DATA, "views")
VERSIONS = sorted(os.listdir(VIEWS))
HOME, FAR, PLANTED, SHARED = (f"02:00:00:00:00:{last}" for last in ("aa", "01", "02", "e1"))
ADDRESS = "198.18.1.7"


def view(version: str, name: str) -> str:
    """A stored view."""
    return os.path.join(VIEWS, version, name)


def text_of(path: str, name: str) -> object:
    """One of a view's texts."""
    with open(os.path.join(path, name), encoding="utf-8") as stream:
        return json.load(stream)


def octets_of(path: str) -> bytes:
    """A file's octets."""
    with open(path, "rb") as stream:
        return stream.read()


class Changed:
    """A copy of a stored view whose texts can be changed."""

    def __init__(self, version: str, name: str = "") -> None:
        self.folder = tempfile.mkdtemp()
        self.path = os.path.join(self.folder, "view")
        shutil.copytree(view(version, name) if name else version, self.path)

    def __enter__(self) -> "Changed":
        return self

    def __exit__(self, *_cause: object) -> None:
        shutil.rmtree(self.folder)

    def write(self, name: str, text: object) -> None:
        """Writes a text, which may be an object of JSON, or octets; nothing removes it."""
        path = os.path.join(self.path, name)
        if text is None:
            os.remove(path)
        elif isinstance(text, bytes):
            with open(path, "wb") as out:
                out.write(text)
        else:
            with open(path, "w", encoding="utf-8") as out:
                out.write(text if isinstance(text, str) else json.dumps(text))


def routes_in(table: dict):
    """Each route of a table of routes, by its prefix."""
    for prefixes in table.values():
        for prefix, route in prefixes.items() if isinstance(prefixes, dict) else ():
            if prefix.startswith("["):
                yield prefix, route


@needs_program
class AuditsLeaves(unittest.TestCase):
    """What an operator has met, on each version."""

    def test_the_versions_are_there(self):
        self.assertEqual(VERSIONS, ["10.3", "10.7.1", "7.5.1", "8.4.4"])

    def each(self, name: str, *words: str):
        """The audit of a stored view, of each version."""
        for version in VERSIONS:
            with self.subTest(version=version):
                yield run("--brief", *words, view(version, name))

    def test_a_station_that_came_home(self):
        """The VXLAN device still holds the other edge; the bridge's own entry decides."""
        for version in VERSIONS:
            entries = [entry for entry in text_of(view(version, "home"), "fdb.json") if entry["mac"] == HOME]
            self.assertEqual({entry.get("dst", entry["ifname"]) for entry in entries}, {"10.0.0.2", "acc5001"})
        for done in self.each("home"):
            self.assertEqual((done.returncode, done.stderr), (0, ""), done.stdout)

    def test_three_vnis_each_with_its_result(self):
        for done in self.each("home"):
            lines = [line.split(": ", 1)[1] for line in done.stdout.splitlines()]
            self.assertEqual([line.split(" MACs")[0] for line in lines], ["VNI 5001: 5", "VNI 5002: 1", "VNI 5003: 0"])

    def test_another_edge_in_the_kernel(self):
        line = f"wrong 5001 {FAR} owner 10.0.0.1 (the only advert); bgpd 10.0.0.1, zebra 10.0.0.1, kernel 10.0.0.2; "
        for done in self.each("planted"):
            self.assertEqual((done.returncode, done.stdout.splitlines()[0][: len(line)]), (1, line))

    def test_nothing_mends_an_entry_of_somebody_else(self):
        """It was made by hand (no extern_learn): told in its own words, and no command touches it."""
        for version in VERSIONS:
            done = run(view(version, "planted"))
            self.assertIn("; an entry that zebra didn't make: by hand, by another program, or learnt by the device\n", done.stdout)
            self.assertIn("    see who made the entry: zebra's have the flag extern_learn, those of static MACs sticky (bridge -d fdb show)\n", done.stdout)
            self.assertNotIn("mend:", done.stdout)

    def test_a_static_macs_entry_is_zebras(self):
        """zebra writes the entry of a static MAC with 'sticky' in the place of 'extern_learn' (seen with both versions)."""
        for version in VERSIONS:
            with Changed(version, "planted") as changed:
                entries = text_of(changed.path, "fdb.json")
                for entry in entries:
                    if entry["mac"] == FAR and "dst" in entry:
                        entry.update(flags=["self", "sticky"], state="static")
                stray = {"mac": "02:00:00:00:66:66", "ifname": "vxlan5001", "dst": "10.0.0.1", "flags": ["self", "sticky"], "state": "static"}
                changed.write("fdb.json", [*entries, stray])
                lines = run(changed.path).stdout.splitlines()
            place = next(number for number, line in enumerate(lines) if line.startswith(f"wrong 5001 {FAR} "))
            self.assertIn(f"    mend: bridge fdb replace {FAR} dev vxlan5001 dst 10.0.0.1 self extern_learn; ", lines[place + 2])
            place = next(number for number, line in enumerate(lines) if line.startswith("foreign 5001 02:00:00:00:66:66 "))
            self.assertIn("; a sticky entry that zebra doesn't name: a zebra that was killed leaves those of static MACs behind", lines[place])
            self.assertTrue(lines[place + 1].startswith("    see whether zebra was killed here"), "what nobody advertises isn't touched")

    def test_an_empty_vni_hides_nothing(self):
        """VNI 5003 has no MACs; the wrong one of VNI 5001 is told all the same."""
        for done in self.each("planted"):
            self.assertIn("VNI 5003: 0 MACs", done.stdout)

    def test_a_foreign_flood_entry(self):
        for done in self.each("floods"):
            self.assertEqual((done.returncode, done.stdout.splitlines()[0]), (1, "flood extra 5001 10.0.0.66: no route of it"))

    def test_flood_entries_that_are_not_there(self):
        for version in VERSIONS:
            with self.subTest(version=version), Changed(version, "noflood") as changed:
                if os.path.exists(os.path.join(changed.path, "bgpvnis.json")):
                    done = run("--brief", changed.path)
                    self.assertIn(": cause: bgpd doesn't flood by ingress replication: its flooding is switched off\n", done.stdout)
                    self.assertEqual((done.returncode, "flood missing" in done.stdout), (1, False))
                    changed.write("bgpvnis.json", None)
                done = run("--brief", changed.path)
                self.assertEqual(done.returncode, 1)
                self.assertIn("flood missing 5001 10.0.0.2: its route is there, and the kernel doesn't flood to it", done.stdout)

    def test_a_wrong_neighbour(self):
        line = f"neighbour wrong 5001 {ADDRESS}: by the routes {PLANTED}, in the kernel {FAR}"
        for done in self.each("neighbour"):
            self.assertEqual((done.returncode, done.stdout.splitlines()[0]), (1, line))

    def test_a_neighbour_that_is_not_there(self):
        for version in VERSIONS:
            with self.subTest(version=version), Changed(version, "home") as changed:
                changed.write("neigh.json", [entry for entry in text_of(changed.path, "neigh.json") if entry["dst"] != ADDRESS])
                done = run("--brief", changed.path)
                self.assertEqual((done.returncode, done.stdout.splitlines()[0]), (1, f"neighbour missing 5001 {ADDRESS}: by the routes {PLANTED}, in the kernel nowhere"))

    def test_a_neighbour_that_no_route_names(self):
        for version in VERSIONS:
            with self.subTest(version=version), Changed(version, "home") as changed:
                stray = {"dst": "198.18.1.99", "dev": "br5001", "lladdr": FAR, "extern_learn": None, "state": ["NOARP"], "protocol": "zebra"}
                learnt = {"dst": "198.18.1.98", "dev": "br5001", "lladdr": FAR, "state": ["REACHABLE"]}
                changed.write("neigh.json", [*text_of(changed.path, "neigh.json"), stray, learnt])
                done = run("--brief", changed.path)
                self.assertEqual((done.returncode, done.stdout.splitlines()[0]), (1, f"neighbour extra 5001 198.18.1.99: by the routes nowhere, in the kernel {FAR}"))

    def test_a_route_that_it_was_not_told(self):
        """A MAC-only route: the cause isn't the forwarding plane's, by the tables that each version has."""
        for version in VERSIONS:
            with self.subTest(version=version):
                done = run("--brief", "--vni", "5001", "--mac", SHARED, view(version, "untold"), view(version, "told"))
                lines = [line for line in done.stdout.splitlines() if ": wrong" in line and "/untold: " in line]
                self.assertEqual((done.returncode, len(lines)), (1, 1), done.stdout)
                self.assertIn("owner 10.0.0.2 (static, against dynamic 3 of 10.0.0.1); bgpd 10.0.0.1, zebra 10.0.0.1, kernel 10.0.0.1;", lines[0])
                self.assertIn("this router shows no route of the owner", lines[0])

    def test_a_lost_session(self):
        """Alone the leaf agrees; by a route reflector's routes it misses its MACs."""
        for version in VERSIONS:
            with self.subTest(version=version):
                lost, reflector = view(version, "lost"), view(version, "home")
                done = run("--brief", lost)
                says_sessions = os.path.exists(os.path.join(lost, "sessions.json"))
                self.assertEqual((done.returncode, "cause: the session with" in done.stdout), (int(says_sessions), says_sessions))
                done = run("--brief", "--routes", reflector, lost)
                self.assertEqual(done.returncode, 1)
                self.assertIn(f"missing 5001 {FAR} owner 10.0.0.1 (the only advert); bgpd nowhere, zebra nowhere, kernel nowhere;", done.stdout)
                self.assertIn("flood missing 5001 10.0.0.1", done.stdout)

    def test_an_old_table_of_best_paths(self):
        """FRR 10 shows MAC-only routes in macTable alone: without it bgpd's choice isn't known, and no fault of the forwarding plane."""
        with Changed("10.3", "untold") as changed:
            best = text_of(changed.path, "best.json")
            for table in best.values():
                table.pop("macTable", None)
            changed.write("best.json", best)
            done = run("--brief", "--vni", "5001", "--mac", FAR, changed.path)
            self.assertEqual(done.returncode, 0, done.stdout)
            macs = text_of(changed.path, "macs.json")
            macs["5001"]["macs"][FAR]["remoteVtep"] = "10.0.0.2"
            changed.write("macs.json", macs)
            done = run("--brief", "--vni", "5001", "--mac", FAR, changed.path)
            self.assertIn("bgpd unknown, zebra 10.0.0.2, kernel 10.0.0.1; after a withdrawal nowhere; bgpd's own best path isn't known", done.stdout)

    def test_a_difference_of_rule(self):
        """bgpd's own table of MACs names another path."""
        for version in VERSIONS:
            with self.subTest(version=version), Changed(version, "told") as changed:
                best, macs, fdb = (text_of(changed.path, f"{name}.json") for name in ("best", "macs", "fdb"))
                for table in (best["5001"], best["5001"].get("macTable", {})):
                    for paths in table.get(f"[2]:[0]:[48]:[{SHARED}]", {}).get("paths", []):
                        paths[0]["bestpath"] = paths[0]["nexthops"][0]["ip"] == "10.0.0.1"
                macs["5001"]["macs"][SHARED]["remoteVtep"] = "10.0.0.1"
                for entry in fdb:
                    if entry["mac"] == SHARED and "dst" in entry:
                        entry["dst"] = "10.0.0.1"
                for name, text in (("best", best), ("macs", macs), ("fdb", fdb)):
                    changed.write(f"{name}.json", text)
                done = run("--brief", "--mac", SHARED, changed.path)
                self.assertIn("bgpd 10.0.0.1, zebra 10.0.0.1, kernel 10.0.0.1; after a withdrawal 10.0.0.1; bgpd's own best path is there: a difference of rule", done.stdout)

    def test_nothing_judged_is_no_agreement(self):
        """All routes have an ESI."""
        for version in VERSIONS:
            with self.subTest(version=version), Changed(version, "home") as changed:
                table = text_of(changed.path, "routes.json")
                for prefix, route in routes_in(table):
                    for group in route["paths"]:
                        for path in group if isinstance(group, list) else [group]:
                            path.update({"esi": "03:00:00:00:00:00:00:00:00:01"} if prefix.startswith("[2]") else {})
                changed.write("routes.json", table)
                done = run("--brief", changed.path)
                self.assertEqual(done.returncode, 4, done.stdout)
                self.assertIn("VNI 5001: 5 MACs, 0 equal, 0 wrong, 0 missing, 0 extra, 5 not judged", done.stdout)
                self.assertEqual(run("--brief", "--accept-unjudged", changed.path).returncode, 0)
                done = run("--nagios", changed.path)
                self.assertEqual((done.returncode, done.stdout[:14]), (1, "EVPN WARNING: "))

    def test_one_vni_that_cannot_be_read(self):
        """The others are told."""
        for version in VERSIONS:
            with self.subTest(version=version), Changed(version, "planted") as changed:
                changed.write("links.json", [link for link in text_of(changed.path, "links.json") if link["ifname"] != "vxlan5003"])
                done = run("--brief", changed.path)
                self.assertEqual(done.returncode, 1)
                self.assertIn(f"wrong 5001 {FAR}", done.stdout)
                self.assertIn("VNI 5003: can't be audited: no VXLAN device of the kernel carries it", done.stdout)

    def test_a_file_that_cannot_be_read_is_named(self):
        for name in ("routes", "best", "macs", "fdb", "links", "neigh", "vnis"):
            for text, cause in ((b"\xff\xfe\0", "a binary file"), (b"{", "JSON")):
                with self.subTest(name=name), Changed(VERSIONS[0], "home") as changed:
                    changed.write(f"{name}.json", text)
                    done = run(changed.path)
                    self.assertEqual((done.returncode, done.stdout), (2, ""))
                    self.assertRegex(done.stderr, rf"^evpnd_audit: {changed.path}\S* ?{name}[^\n]*{cause}[^\n]*\n$")

    def test_without_the_program_its_place_is_told(self):
        done = run("--evpnd", "/nowhere/evpnd", view(VERSIONS[0], "home"))
        self.assertEqual((done.returncode, done.stdout), (2, ""))
        self.assertIn("install the package evpnd", done.stderr)


@needs_program
class ForMonitoring(unittest.TestCase):
    """Nagios, Prometheus, JSON, since when."""

    def test_nagios(self):
        for version in VERSIONS:
            done = run("--nagios", view(version, "planted"))
            self.assertEqual((done.returncode, done.stderr), (2, ""))
            self.assertRegex(done.stdout, r"^EVPN CRITICAL: [0-9]+ MACs, 1 wrong, 0 missing[^\n]* \| 'MACs'=[0-9]+ 'wrong'=1 [^\n]*\n$")
            done = run("--nagios", view(version, "home"))
            self.assertEqual((done.returncode, done.stdout.startswith("EVPN OK: 6 MACs, 0 wrong")), (0, True), done.stdout)
        done = run("--nagios", "/nowhere")
        self.assertEqual((done.returncode, done.stdout), (3, "EVPN UNKNOWN: /nowhere: no such directory\n"))

    def test_prometheus(self):
        with tempfile.TemporaryDirectory() as folder:
            path = os.path.join(folder, "evpnd.prom")
            self.assertEqual(run("--vni", "5001", "--prometheus", path, view("10.3", "planted")).returncode, 1)
            with open(path, encoding="utf-8") as stream:
                text = stream.read()
            self.assertIn("\nevpnd_audit_status 1\n", text)
            self.assertIn(f'evpnd_audit_entries{{view="{view("10.3", "planted")}",vni="5001",kind="wrong"}} 1\n', text)
            self.assertIn('evpnd_audit_left_out{view=', text)
            self.assertEqual(run("--prometheus", path, "/nowhere").returncode, 2)
            with open(path, encoding="utf-8") as stream:
                self.assertIn("\nevpnd_audit_status 2\n", stream.read())
            for line in text.splitlines():
                self.assertRegex(line, r'^(# (HELP|TYPE) .+|[a-z_]+(\{([a-z]+="[^"]*",?)+\})? [0-9]+)$')

    def test_json_has_every_count(self):
        results = json.loads(run("--json", view("10.3", "planted")).stdout)["results"]
        self.assertEqual([result["vni"] for result in results], [5001, 5002, 5003])
        self.assertEqual(results[0]["sums"]["wrong"], 1)
        self.assertEqual([entry["adverts"] for entry in results[0]["macs"]], [["dynamic 0 of 10.0.0.1"]])
        self.assertTrue(all("left out" in result and result["fault"] is None for result in results))

    def test_since_when(self):
        with tempfile.TemporaryDirectory() as folder:
            state = os.path.join(folder, "state")
            self.assertIn("    since 20", run("--state", state, view("10.3", "planted")).stdout)
            with open(state, encoding="utf-8") as stream:
                known = json.load(stream)
            self.assertEqual(len(known), 1)
            with open(state, "w", encoding="utf-8") as out:
                json.dump(dict.fromkeys(known, 1600000000), out)
            self.assertIn("    since 2020-09-13T12:26:40Z\n", run("--state", state, view("10.3", "planted")).stdout)
            run("--state", state, view("10.3", "home"))
            with open(state, encoding="utf-8") as stream:
                self.assertEqual(json.load(stream), {})
            for text in ("[]", "", "{", '{"a": null}', "\0"):
                with open(state, "w", encoding="utf-8") as out:
                    out.write(text)
                self.assertEqual(run("--state", state, view("10.3", "home")).returncode, 0)
                with open(state, encoding="utf-8") as stream:
                    self.assertEqual(json.load(stream), {})

    def test_one_station(self):
        for version in VERSIONS:
            done = run("mac", "5001", HOME, view(version, "home"))
            self.assertEqual(done.returncode, 0, done.stderr)
            self.assertIn("owner 10.0.0.100 (the higher sequence 2, against dynamic 1 of 10.0.0.2); bgpd local, zebra local, kernel local;", done.stdout)
            self.assertIn("    1. dynamic 2 of 10.0.0.100, before the next: the higher sequence 2\n    2. dynamic 1 of 10.0.0.2\n", done.stdout)
            self.assertIn("VXLAN device vxlan5001, bridge br5001, neighbours at br5001", done.stdout)
            self.assertIn(f"addresses by the routes: {ADDRESS}\n", run("mac", "5001", PLANTED, view(version, "home")).stdout)
        self.assertEqual(run("mac", "5001", "x", view("10.3", "home")).returncode, 2)


@needs_program
class OverTime(unittest.TestCase):
    """Snapshots as streams of records, and drawings."""

    def test_snapshots_and_drawings(self):
        with tempfile.TemporaryDirectory() as folder:
            place = os.path.join(folder, "kept")
            for name in ("untold", "told", "planted"):
                done = run("record", place, view("10.3", name))
                self.assertEqual(done.returncode, 1 if name == "planted" else 0, done.stderr)
            streams = [path for _, path in audit_history.streams_of(place)]
            self.assertEqual(len(streams), 3)
            vni, mac = 5001, records.read_mac(SHARED)
            owners = [owner for _, owner in audit_plot.owners_over_time(place, vni, mac)]
            self.assertEqual(owners, ["10.0.0.1", "10.0.0.2", "none"])
            self.assertEqual([count for _, count in audit_plot.wrong_over_time(place)], [0, 0, 1])
            octets = b"".join(map(octets_of, reversed(streams)))
            words = [PROGRAM, "report", "--originators", "10.0.0.1,10.0.0.2,10.0.0.100"]
            report = subprocess.run(words, input=octets, capture_output=True, check=True).stdout.decode()
            self.assertIn(f"owner 5001 {SHARED} none\n", report)
            self.assertIn(f"owner 5001 {FAR} 10.0.0.1\n", report)
            for words in (("plot", place), ("plot", place, "5001", SHARED)):
                done = run(*words)
                self.assertEqual(done.returncode, 0, done.stderr)
                self.assertTrue(xml.etree.ElementTree.fromstring(done.stdout).tag.endswith("svg"))
            self.assertIn(">10.0.0.2<", done.stdout)
            self.assertEqual(run("plot", os.path.join(folder, "nothing")).returncode, 2)


def result(*macs: tuple) -> audit_compare.Result:
    """A result of some MACs: (last octet, kind, owner, sequence)."""
    verdicts = [
        audit_compare.Verdict(bytes([2, 0, 0, 0, 0, last]), kind, owner, "", "b", "z", "k", "", "forwarding", [f"dynamic {sequence}"], "mend")
        for last, kind, owner, sequence in macs
    ]
    return audit_compare.Result("here", 5001, "", verdicts, [], None)


@needs_program
class DrawsTheFault(unittest.TestCase):
    """docs/fault.svg is drawn of the recorded run (tests/outside/frr/fault.py made it), and a wrong MAC is never drawn as right."""

    FAULT, STATION = os.path.join(DATA, "fault"), records.read_mac("02:00:00:00:00:0a")

    def test_the_picture_is_of_the_record(self):
        with open(os.path.join(TOP, "docs", "fault.svg"), encoding="utf-8") as stream:
            self.assertEqual(stream.read(), audit_plot.plot(self.FAULT, 5001, self.STATION))

    def test_two_lines_and_the_time_between_them(self):
        """The routes lead home while the kernel sends to the edge that has withdrawn."""
        steps = audit_plot.steps_of(self.FAULT, 5001, self.STATION)
        pairs = [(step.owner, step.kernel) for step in steps]
        kept = [pair for place, pair in enumerate(pairs) if place == 0 or pairs[place - 1] != pair]
        self.assertEqual(kept, [("10.0.0.1",) * 2, ("10.0.0.2",) * 2, ("10.0.0.1", "10.0.0.2"), ("10.0.0.1",) * 2])
        ((begin, end),) = audit_plot.spans_of(steps)
        drawing = audit_plot.plot(self.FAULT, 5001, self.STATION)
        self.assertIn(f">{end - begin} s: frames go elsewhere<", drawing)
        wrong = sum(step.is_wrong for step in steps)
        self.assertEqual((wrong > 3, drawing.count(f'stroke="{audit_plot.WRONG_COLOUR}"')), (True, wrong))

    def test_nothing_is_green(self):
        """Neither of a MAC's lines, nor the count of what differs."""
        for drawing in (audit_plot.plot(self.FAULT, 5001, self.STATION), audit_plot.plot(self.FAULT, 0, b"")):
            for colour in re.findall("#([0-9a-f]{6})", drawing):
                red, green, blue = bytes.fromhex(colour)
                self.assertFalse(green > red and green > blue, colour)

    def test_pruned_snapshots_say_the_same(self):
        with tempfile.TemporaryDirectory() as folder:
            place = os.path.join(folder, "kept")
            shutil.copytree(self.FAULT, place)
            before = audit_plot.owners_over_time(place, 5001, self.STATION)
            audit_history.prune(place, before[8][0])
            after = audit_plot.owners_over_time(place, 5001, self.STATION)
            self.assertEqual(after, before[7:])
            self.assertEqual(len(os.listdir(place)), 2 * len(after))


class LooksTwice(unittest.TestCase):
    """What both looks saw by the same values stays."""

    def kinds(self, first: audit_compare.Result, second: audit_compare.Result) -> list:
        """The kinds after both looks."""
        return [verdict.kind for verdict in audit_compare.seen_twice([first], [second])[0].macs]

    def test_the_same(self):
        self.assertEqual(self.kinds(result((1, "wrong", "a", 0)), result((1, "wrong", "a", 0))), ["wrong"])

    def test_another_owner_or_a_move_in_between(self):
        for then in ((1, "wrong", "b", 0), (1, "wrong", "a", 1), (1, "missing", "a", 0)):
            self.assertEqual(self.kinds(result((1, "wrong", "a", 0)), result(then)), ["equal"])

    def test_new_ones(self):
        self.assertEqual(self.kinds(result((1, "wrong", "a", 0)), result((1, "equal", "a", 0), (2, "wrong", "a", 0))), ["equal", "equal"])

    def test_status(self):
        self.assertEqual(audit_print.status_of(audit_compare.seen_twice([result()], [result((2, "wrong", "a", 0))]), False), 0)


class SingleDevices(unittest.TestCase):
    """One VXLAN device for all VNIs in a bridge with VLANs; texts made by hand in the form of iproute2."""

    LINKS = [
        {"ifname": "br0", "flags": ["UP"], "linkinfo": {"info_kind": "bridge", "info_data": {"vlan_filtering": 1}}},
        {"ifname": "vxlan0", "flags": ["UP"], "master": "br0", "linkinfo": {"info_kind": "vxlan", "info_data": {"external": True, "vnifilter": True, "local": "10.0.0.100"}}},
        {"ifname": "br0.11", "link": "br0", "flags": ["UP"], "linkinfo": {"info_kind": "vlan", "info_data": {"id": 11}}},
        {"ifname": "vxlan7", "flags": ["UP"], "master": "br0", "linkinfo": {"info_kind": "vxlan", "info_data": {"id": 7007}}},
    ]
    TUNNELS = [{"ifname": "vxlan0", "tunnels": [{"vlan": 10, "vlanEnd": 11, "tunid": 5001, "tunidEnd": 5002}, {"vlan": 12, "tunid": 9}]}]
    VLANS = [{"ifname": "vxlan7", "vlans": [{"vlan": 3}, {"vlan": 77, "flags": ["PVID", "Egress Untagged"]}]}]
    ENTRIES = [
        {"mac": "02:00:00:00:00:01", "ifname": "vxlan0", "vlan": 10, "flags": ["extern_learn"], "master": "br0", "state": ""},
        {"mac": "02:00:00:00:00:01", "ifname": "vxlan0", "dst": "10.0.0.1", "src_vni": 5001, "flags": ["self", "extern_learn"], "state": ""},
        {"mac": "02:00:00:00:00:01", "ifname": "vxlan0", "vlan": 11, "flags": ["extern_learn"], "master": "br0", "state": ""},
        {"mac": "02:00:00:00:00:01", "ifname": "vxlan0", "dst": "10.0.0.2", "src_vni": 5002, "flags": ["self", "extern_learn"], "state": ""},
        {"mac": "02:00:00:00:00:02", "ifname": "acc", "vlan": 10, "flags": [], "master": "br0", "state": ""},
        {"mac": "02:00:00:00:00:02", "ifname": "vxlan0", "dst": "10.0.0.2", "src_vni": 5001, "flags": ["self"], "state": ""},
        {"mac": "00:00:00:00:00:00", "ifname": "vxlan0", "dst": "10.0.0.2", "src_vni": 5002, "flags": ["self"], "state": "permanent"},
        {"mac": "02:00:00:00:00:03", "ifname": "vxlan0", "dst": "10.0.0.3", "src_vni": 5002, "flags": ["self"], "state": ""},
    ]

    def test_networks(self):
        found = audit_kernel.networks_of(self.LINKS, self.VLANS, self.TUNNELS, "links")
        said = {vni: (network.device, network.bridge, network.vlan, network.gateway) for vni, network in found.items()}
        self.assertEqual(said, {
            5001: ("vxlan0", "br0", 10, ""), 5002: ("vxlan0", "br0", 11, "br0.11"), 9: ("vxlan0", "br0", 12, ""), 7007: ("vxlan7", "br0", 77, ""),
        })

    def test_entries(self):
        networks = audit_kernel.networks_of(self.LINKS, self.VLANS, self.TUNNELS, "links")
        tables = audit_kernel.Tables(self.ENTRIES, [], "fdb")
        one, two = tables.of_network(networks[5001]), tables.of_network(networks[5002])
        places = {records.mac_text(mac)[-2:]: place for mac, place in one.places.items()}
        self.assertEqual((places, one.floods, one.neighbours), ({"01": "10.0.0.1", "02": "local"}, set(), None))
        places = {records.mac_text(mac)[-2:]: place for mac, place in two.places.items()}
        self.assertEqual((places, two.floods, two.neighbours), ({"01": "10.0.0.2", "03": "flooded to 10.0.0.3"}, {"10.0.0.2"}, {}))

    def test_cannot_be_read(self):
        for links, vlans, tunnels in (([{}], [], []), (self.LINKS, [{"vlans": [{"flags": ["PVID"]}]}], []), (self.LINKS, [], [{"ifname": "vxlan0", "tunnels": [{"vlan": "x"}]}])):
            with self.assertRaises(records.Unreadable):
                audit_kernel.networks_of(links, vlans, tunnels, "links")


class SaysWhatFails(unittest.TestCase):
    """A host's commands that fail: the line names the command and the cause."""

    def on_a_host(self, vtysh: str) -> subprocess.CompletedProcess:
        """The audit where vtysh is a script."""
        with tempfile.TemporaryDirectory() as folder:
            path = os.path.join(folder, "vtysh")
            with open(path, "w", encoding="utf-8") as out:
                out.write("#!/bin/sh\n" + vtysh)
            os.chmod(path, 0o755)
            tool = os.path.join(TOP, "tools", "evpnd_audit.py")
            return subprocess.run([sys.executable, tool, "--vtysh", path], capture_output=True, encoding="utf-8", check=False)

    def test_causes(self):
        cases = [
            ("echo 'bgpd is not running'; exit 1\n", "bgpd is not running"),
            ("echo 'bgpd is not running'; exit 0\n", "bgpd is not running"),
            ("echo 'Exiting: failed to connect to any daemons.' >&2; exit 1\n", "no daemon of FRR answers"),
            ("echo 'what' >&2; exit 4\n", "status 4: what"),
            ("exit 0\n", "show evpn vni json': empty; zebra prints nothing while bgpd isn't connected to it, .*: audit again in a minute"),
        ]
        for script, cause in cases:
            with self.subTest(script=script):
                done = self.on_a_host(script)
                self.assertEqual((done.returncode, done.stdout), (2, ""))
                self.assertRegex(done.stderr, rf"^evpnd_audit: [^\n]*{cause}[^\n]*\n$")


if __name__ == "__main__":
    unittest.main()
