"""The audit (tools/evpnd_audit.py): reports, what routers print, verdicts; stored views of one VNI, as they once were taken."""

import json
import os
import random
import shutil
import subprocess
import sys
import tempfile
import unittest

from test_records import DATA, TOP, answers

import audit_compare
import audit_frr
import audit_kernel
import audit_report
import frr_routes
import update_records as records

PROGRAM = os.environ.get("EVPND") or audit_report.program_of(None)
needs_program = unittest.skipUnless(os.access(PROGRAM, os.X_OK), "evpnd isn't built")
SHORT = os.path.join(DATA, "short")
REPORT = """flood 5001 10.0.0.1 1 up
mac 5001 02:00:00:00:00:0a 10.0.0.1 1 dynamic 0
owner 5001 02:00:00:00:00:0a 10.0.0.1
mac 5001 02:00:00:00:00:0b 10.0.0.1 1 dynamic 3
mac 5001 02:00:00:00:00:0b 10.0.0.2 7.1 static 0 ip 192.0.2.1 label2 4001
owner 5001 02:00:00:00:00:0b 10.0.0.2
mac 5001 02:00:00:00:00:0c 10.0.0.1 2 withdrawn
owner 5001 02:00:00:00:00:0c none
"""


def station(last: str) -> bytes:
    """A MAC by its last octet."""
    return bytes.fromhex("0200000000" + last)


def run(*words: str) -> subprocess.CompletedProcess:
    """The tool as a program."""
    tool = os.path.join(TOP, "tools", "evpnd_audit.py")
    there = {**os.environ, "EVPND": PROGRAM}
    return subprocess.run([sys.executable, "-S", tool, *words], capture_output=True, encoding="utf-8", check=False, env=there)


class ReadsReports(unittest.TestCase):
    """The report's lines (docs/routes.md)."""

    def setUp(self):
        self.report = audit_report.read_report(REPORT)

    def test_owners(self):
        owners = [owned.owner and records.address_text(owned.owner) for owned in self.report.values()]
        self.assertEqual(owners, ["10.0.0.1", "10.0.0.2", None])

    def test_reasons(self):
        reasons = [audit_report.reason_of(owned) for owned in self.report.values()]
        self.assertEqual(
            reasons,
            [("the only advert", "nowhere"), ("static, against dynamic 3 of 10.0.0.1", "10.0.0.1"), ("no router advertises it", "nowhere")],
        )

    def reason(self, *adverts: tuple) -> tuple:
        """The reason among some adverts, (last octet of the address, static, sequence), of which the first wins."""
        said = [audit_report.Said(bytes([10, 0, 0, last]), records.Advert(static, sequence), "") for last, static, sequence in adverts]
        return audit_report.reason_of(audit_report.Owned(said, said[0].originator))

    def test_higher_sequence(self):
        self.assertEqual(self.reason((2, False, 5), (1, False, 3), (3, False, 4)), ("the higher sequence 5, against dynamic 4 of 10.0.0.3", "10.0.0.3"))

    def test_lower_address(self):
        self.assertEqual(self.reason((1, False, 5), (3, False, 5), (2, False, 5)), ("the lower address at sequence 5, against dynamic 5 of 10.0.0.2", "10.0.0.2"))

    def test_addresses_by_octets(self):
        """10.0.0.9 is lower than 10.0.0.10, although its text isn't."""
        self.assertEqual(self.reason((9, True, 1), (10, True, 1))[0], "the lower address at sequence 1, against static 1 of 10.0.0.10")

    def test_an_owner_with_two_adverts(self):
        self.assertEqual(self.reason((1, False, 0), (1, False, 7), (2, False, 6))[0], "the higher sequence 7, against dynamic 6 of 10.0.0.2")

    def test_a_withdrawn_advert_with_an_address(self):
        line = "mac 5001 02:00:00:00:00:0d 10.0.0.5 29 withdrawn ip 192.0.2.1\nowner 5001 02:00:00:00:00:0d none\n"
        self.assertEqual(audit_report.read_report(line), {(5001, station("0d")): audit_report.Owned([], None)})

    def test_no_report(self):
        for options in ("", " 02:00:00:00:00:0d 10.0.0.5 29 dynamic", " 02:00:00:00:00:0d 10.0.0.5 29 dynamic 1 ip", " 02:00:00:00:00:0d 10.0.0.5 29 lost 1"):
            with self.assertRaises(records.Unreadable):
                audit_report.read_report(f"mac 5001{options}\n")


class Judges(unittest.TestCase):
    """Where a MAC should go, and where zebra and the kernel send it."""

    CASES = [
        ("10.0.0.1", "10.0.0.1", "10.0.0.1", "equal"),
        ("10.0.0.1", "10.0.0.2", "10.0.0.2", "wrong"),
        ("10.0.0.1", "10.0.0.1", "10.0.0.2", "wrong"),
        ("10.0.0.1", "10.0.0.2", "10.0.0.1", "wrong"),
        ("10.0.0.1", "local", "nowhere", "wrong"),
        ("10.0.0.1", "10.0.0.1", "nowhere", "missing"),
        ("10.0.0.1", "nowhere", "nowhere", "missing"),
        ("10.0.0.1", "unknown", "10.0.0.1", "equal"),
        ("10.0.0.1", "unknown", "nowhere", "missing"),
        ("10.0.0.1", "10.0.0.1", "10.0.0.1+10.0.0.2", "wrong"),
        ("local", "local", "local", "equal"),
        ("local", "local", "nowhere", "missing"),
        ("local", "10.0.0.1", "10.0.0.1", "wrong"),
        ("local", "local", "10.0.0.1", "wrong"),
        ("local", "local", "flooded to 10.0.0.1", "missing"),
        ("10.0.0.1", "10.0.0.1", "local", "wrong"),
        ("10.0.0.1", "10.0.0.1", "flooded to 10.0.0.1", "missing"),
        ("10.0.0.1", "10.0.0.1", "flooded to 10.0.0.2", "wrong"),
        ("nowhere", "local", "local", "equal"),
        ("nowhere", "nowhere", "flooded to 10.0.0.1", "extra"),
        ("local", "nowhere", "nowhere", "missing"),
        ("nowhere", "nowhere", "nowhere", "equal"),
        ("nowhere", "local", "nowhere", "equal"),
        ("nowhere", "10.0.0.1", "nowhere", "extra"),
        ("nowhere", "nowhere", "10.0.0.1", "extra"),
    ]

    def test_kinds(self):
        for wanted, zebra, kernel, kind in self.CASES:
            with self.subTest(wanted=wanted, zebra=zebra, kernel=kernel):
                self.assertEqual(audit_compare.kind_of(wanted, zebra, kernel), kind)

    def test_entries_of_the_device_alone(self):
        """A local station's own entry can't be seen there."""
        self.assertEqual(audit_compare.kind_of("local", "local", "nowhere", False), "equal")
        self.assertEqual(audit_compare.kind_of("local", "local", "10.0.0.1", False), "wrong")


class ReadsRouters(unittest.TestCase):
    """What zebra and the kernel print."""

    def text(self, name: str) -> str:
        """A stored text of FRR 8.4.4."""
        with open(os.path.join(SHORT, name), encoding="utf-8") as stream:
            return stream.read()

    def zebra(self, text: str) -> dict:
        """Where zebra sends the MACs of VNI 5001."""
        return audit_frr.read_macs(text, "macs", [5001]).get(5001, {})

    def kernel(self, text: str, vni: int = 5001) -> dict:
        """Where a VXLAN device sends MACs, of which nothing else is known."""
        entries = audit_kernel.read_list(text, "fdb", "bridge")
        return audit_kernel.Tables(entries, None, "fdb").of_one_device(vni, "").places

    def test_zebra(self):
        found = self.zebra(self.text("macs.json"))
        self.assertEqual((found[station("0a")], found[station("0b")]), ("10.0.0.2", "10.0.0.1"))

    def test_zebra_of_all_vnis(self):
        one = json.loads(self.text("macs.json"))
        found = audit_frr.read_macs(json.dumps({"5001": one, "5002": {"numMacs": 0, "macs": {}}, "5003": {"numMacs": 0}}), "macs", [5001, 5002])
        self.assertEqual(found, {5001: self.zebra(self.text("macs.json")), 5002: {}, 5003: {}})

    def test_one_vni_for_two(self):
        with self.assertRaises(records.Unreadable):
            audit_frr.read_macs(self.text("macs.json"), "macs", [5001, 5002])

    def test_local_macs(self):
        found = self.zebra('{"macs":{"02:00:00:00:00:0a":{"type":"local","intf":"up"},"02:00:00:00:00:0b":{"type":"auto"}}}')
        self.assertEqual(found, {station("0a"): "local"})

    def test_kernel(self):
        found = self.kernel(self.text("fdb.json"))
        self.assertEqual((found[station("0a")], found[station("0b")]), ("10.0.0.2", "10.0.0.1"))
        self.assertNotIn(bytes(6), found)

    def test_one_device_for_all_vnis(self):
        entries = [{"mac": "02:00:00:00:00:0a", "dst": "10.0.0.1", "src_vni": 5001}, {"mac": "02:00:00:00:00:0a", "dst": "10.0.0.2", "src_vni": 5002}]
        self.assertEqual(self.kernel(json.dumps(entries), 5002), {station("0a"): "10.0.0.2"})

    def test_cannot_be_read(self):
        for text in ("", "{", "[]", "3", '{"macs":3}', '{"macs":{"x":{"type":"local"}}}', '{"macs":{"02:00:00:00:00:0a":{}}}', '{"macs":{"02:00:00:00:00:0a":{"type":"remote"}}}', "Error: VNI 77 doesn't exist"):
            with self.subTest(text=text), self.assertRaises(records.Unreadable):
                self.zebra(text)
        for text in ("[", "{}", "3", "[3]", "[{}]", '[{"mac":3}]', '[{"mac":"x"}]'):
            with self.subTest(text=text), self.assertRaises(records.Unreadable):
                self.kernel(text)


class Views:
    """A place for changed views."""

    def __enter__(self):
        self.folder = tempfile.mkdtemp()
        return self

    def __exit__(self, *_cause):
        shutil.rmtree(self.folder)

    def make(self, name: str, change=None) -> str:
        """A copy of the stored view, with its texts changed: name of the text to its new text."""
        path = os.path.join(self.folder, name)
        shutil.copytree(SHORT, path)
        for text, new in (change or {}).items():
            if new is None:
                os.remove(os.path.join(path, text))
            else:
                with open(os.path.join(path, text), "w", encoding="utf-8") as stream:
                    stream.write(new)
        return path


VTYSH = """echo "$2" >> 'FOLDER/commands'
case "$2" in
  "show evpn vni json") echo 'VNIS' ;;
  "show bgp l2vpn evpn route json") cat 'SHORT/routes.json' ;;
  "show bgp vni all json") echo '% Unknown command: show bgp vni all json'; exit UNKNOWN ;;
  "show bgp l2vpn evpn route vni all json") printf '{"5001":'; cat 'SHORT/best.json'; echo '}' ;;
  "show evpn mac vni all json") printf '{"5001":'; cat 'SHORT/macs.json'; echo '}' ;;
  "show bgp l2vpn evpn vni json"|"show evpn rmac vni all json"|"show evpn next-hops vni all json"|"show bgp l2vpn evpn summary json"|"show evpn arp-cache vni all json")
    echo "% Unknown command: $2"; exit UNKNOWN ;;
  *) echo 'not expected' >&2; exit 1 ;;
esac
"""
BRIDGE = """echo "bridge $*" >> 'FOLDER/commands'
case "$2" in fdb) cat 'SHORT/fdb.json' ;; *) echo '[]' ;; esac
"""
EMPTY = [("fdb.json", "[]"), ("fdb.json", ""), ("routes.json", "{}"), ("best.json", "{}"), ("macs.json", "{}")]  # nothing is there
GONE = (
    "wrong 5001 02:00:00:00:00:0a owner 10.0.0.1 (the only advert); bgpd 10.0.0.1, zebra 10.0.0.2, kernel 10.0.0.2; "
    "after a withdrawal nowhere; differs from bgpd's own best path: a fault of the forwarding plane"
)
STATIC = (
    "wrong 5001 02:00:00:00:00:0b owner 10.0.0.2 (static, against dynamic 3 of 10.0.0.1); bgpd 10.0.0.2, zebra 10.0.0.1, kernel 10.0.0.1; "
    "after a withdrawal 10.0.0.1; differs from bgpd's own best path: a fault of the forwarding plane"
)


@needs_program
class Audits(unittest.TestCase):
    """Whole audits of the stored view of FRR 8.4.4 after its two short histories."""

    def test_short_histories(self):
        done = run("--brief", "--vni", "5001", SHORT)
        self.assertEqual((done.returncode, done.stdout.splitlines()[:2]), (1, [GONE, STATIC]))
        self.assertIn("VNI 5001: 6 MACs, 4 equal, 2 wrong, 0 missing, 0 extra, 0 not judged; 2 unlike bgpd's own best path, 0 unlike the report alone; 0 flood", done.stdout)

    def test_why_and_what_mends_it(self):
        done = run("--vni", "5001", SHORT)
        see = "    see the device of the network (ip -d link show)"
        adverts = ["    1. static 0 of 10.0.0.2, before the next: static", "    2. dynamic 3 of 10.0.0.1"]
        self.assertEqual(done.stdout.splitlines()[:7], [GONE, "    1. dynamic 0 of 10.0.0.1", see, STATIC, *adverts, see])

    def test_one_mac(self):
        done = run("--vni", "5001", "--mac", "02:00:00:00:00:0b", SHORT)
        self.assertEqual((done.returncode, done.stdout.splitlines()[0], len(done.stdout.splitlines())), (1, STATIC, 5))

    def test_json(self):
        done = run("--vni", "5001", "--json", SHORT)
        result = json.loads(done.stdout)["results"][0]
        self.assertEqual((done.returncode, result["sums"]["wrong"], [entry["mac"][-2:] for entry in result["macs"]]), (1, 2, ["0a", "0b"]))

    def test_all_agree(self):
        """The stored view with zebra and the kernel mended."""
        with Views() as views, open(os.path.join(SHORT, "macs.json"), encoding="utf-8") as macs, open(os.path.join(SHORT, "fdb.json"), encoding="utf-8") as fdb:
            zebra, kernel = json.load(macs), json.load(fdb)
            for last, place in (("0a", "10.0.0.1"), ("0b", "10.0.0.2")):
                zebra["macs"][f"02:00:00:00:00:{last}"]["remoteVtep"] = place
                for entry in kernel:
                    if entry["mac"].endswith(f":00:{last}") and "dst" in entry:
                        entry["dst"] = place
            path = views.make("mended", {"macs.json": json.dumps(zebra), "fdb.json": json.dumps(kernel)})
            done = run("--vni", "5001", path)
            self.assertEqual((done.returncode, len(done.stdout.splitlines())), (0, 1))

    def test_without_best_paths(self):
        with Views() as views:
            done = run("--vni", "5001", views.make("bare", {"best.json": None}))
            self.assertEqual(done.returncode, 1)
            self.assertIn("bgpd unknown", done.stdout)
            self.assertIn("bgpd's own best path isn't known", done.stdout)

    def test_difference_of_rule(self):
        """bgpd itself prefers what is forwarded: not a fault of the forwarding plane."""
        with Views() as views, open(os.path.join(SHORT, "best.json"), encoding="utf-8") as stream:
            best = json.load(stream)
            for paths in best["[2]:[0]:[48]:[02:00:00:00:00:0b]"]["paths"]:
                paths[0]["bestpath"] = paths[0]["nexthops"][0]["ip"] == "10.0.0.1"
            done = run("--vni", "5001", views.make("rule", {"best.json": json.dumps(best)}))
            self.assertEqual(done.returncode, 1)
            self.assertIn("bgpd 10.0.0.1, zebra 10.0.0.1, kernel 10.0.0.1; after a withdrawal 10.0.0.1; bgpd's own best path is there", done.stdout)

    def test_multihomed_is_not_judged(self):
        with Views() as views, open(os.path.join(SHORT, "routes.json"), encoding="utf-8") as stream:
            routes = json.load(stream)
            routes["10.0.0.1:1"]["[2]:[0]:[48]:[02:00:00:00:00:0b]"]["paths"][0][0]["esi"] = "03:00:00:00:00:00:00:00:00:01"
            done = run("--vni", "5001", views.make("multihomed", {"routes.json": json.dumps(routes)}))
            self.assertIn("1 wrong, 0 missing, 0 extra, 1 not judged", done.stdout)
            self.assertIn("left out 1: a nonzero ESI (multihomed)", done.stderr)

    def test_two_views(self):
        """A second router that shows nothing of 10.0.0.2: the report is of both sets together."""
        with Views() as views, open(os.path.join(SHORT, "routes.json"), encoding="utf-8") as stream:
            routes = json.load(stream)
            del routes["10.0.0.2:1"]
            done = run("--vni", "5001", views.make("one"), views.make("two", {"routes.json": json.dumps(routes)}))
            self.assertEqual((done.returncode, sum(line.endswith(STATIC) for line in done.stdout.splitlines())), (1, 2))

    def test_a_view_that_was_not_told(self):
        """The second router knows nothing of the owner, and forwards by what it knows."""
        with Views() as views, open(os.path.join(SHORT, "routes.json"), encoding="utf-8") as routes, open(
            os.path.join(SHORT, "best.json"), encoding="utf-8"
        ) as best:
            fewer, paths = json.load(routes), json.load(best)
            del fewer["10.0.0.2:1"]
            entry = paths["[2]:[0]:[48]:[02:00:00:00:00:0b]"]
            entry["paths"] = [path for path in entry["paths"] if path[0]["nexthops"][0]["ip"] == "10.0.0.1"]
            entry["paths"][0][0]["bestpath"] = True
            two = views.make("two", {"routes.json": json.dumps(fewer), "best.json": json.dumps(paths)})
            done = run("--vni", "5001", "--mac", "02:00:00:00:00:0b", views.make("one"), two)
            self.assertEqual(done.returncode, 1)
            self.assertIn("this router shows no route of the owner", done.stdout)

    def test_report_of_before(self):
        with Views() as views:
            report = os.path.join(views.folder, "report")
            with open(report, "w", encoding="utf-8") as stream:
                stream.write(REPORT)
            done = run("--vni", "5001", "--report", report, "--mac", "02:00:00:00:00:0b", SHORT)
            self.assertEqual((done.returncode, done.stdout.splitlines()[0]), (1, STATIC))

    def test_cannot_be_read(self):
        with Views() as views:
            cases = [
                ("--vni", "5001", "/nowhere"), (SHORT,), ("--vni", "5001,5002", SHORT),
                ("--vni", "5001", "--vtysh", "/nowhere/vtysh"), ("--vni", "5001", "--evpnd", "/nowhere/evpnd", SHORT),
                ("--vni", "5001", "--report", "/nowhere", SHORT),
            ]
            for place, text in enumerate(("", "{", "[]", "garbage", "{}")):
                for name in ("routes.json", "best.json", "macs.json", "fdb.json"):
                    if (name, text) not in EMPTY:
                        cases.append(("--vni", "5001", views.make(f"{place}{name}", {name: text})))
            cases.append(("--vni", "5001", views.make("nothing", {"macs.json": None, "fdb.json": None})))
            cases.append(("--vni", "5001", "--again", "1", SHORT))
            for words in cases:
                with self.subTest(words=words):
                    done = run(*words)
                    self.assertEqual((done.returncode, done.stdout), (2, ""), done.stderr)
                    self.assertRegex(done.stderr, r"^evpnd_audit: [^\n]+\n$")

    def on_a_host(
        self, *words: str, vnis: str = '{"5001":{"vni":5001,"type":"L2","vxlanIf":"vxlan5001"}}', last: str = "", unknown: str = "1"
    ) -> subprocess.CompletedProcess:
        """The audit on a host whose vtysh, bridge and ip print the stored texts."""
        with Views() as views:
            for name, text in (("vtysh", VTYSH), ("bridge", f"{BRIDGE}{last}"), ("ip", "echo '[]'")):
                path = os.path.join(views.folder, name)
                with open(path, "w", encoding="utf-8") as stream:
                    text = text.replace("VNIS", vnis).replace("SHORT", SHORT).replace("FOLDER", views.folder)
                    stream.write("#!/bin/sh\n" + text.replace("UNKNOWN", unknown))
                os.chmod(path, 0o755)
            there = {**os.environ, "PATH": views.folder + os.pathsep + os.environ["PATH"]}
            tool = os.path.join(TOP, "tools", "evpnd_audit.py")
            command = [sys.executable, tool, "--evpnd", PROGRAM, *words]
            done = subprocess.run(command, capture_output=True, encoding="utf-8", check=False, env=there)
            with open(os.path.join(views.folder, "commands"), encoding="utf-8") as stream:
                self.commands = stream.read().splitlines()
            return done

    def test_on_the_host(self):
        for words in ((), ("--vni", "5001"), ("--device", "vxlan5001")):
            for unknown in ("0", "1"):
                done = self.on_a_host("--brief", *words, unknown=unknown)
                self.assertEqual((done.returncode, done.stdout.splitlines()[:2]), (1, [GONE, STATIC]), done.stderr)

    def test_each_command_once(self):
        """Three VNIs cost no more dumps than one."""
        vnis = ",".join('"%d":{"vni":%d,"type":"L2","vxlanIf":"vxlan%d"}' % (vni, vni, vni) for vni in (5001, 5002, 5003))
        done = self.on_a_host("--brief", vnis="{" + vnis + "}")
        self.assertEqual((done.returncode, done.stdout.splitlines()[:2]), (1, [GONE, STATIC]), done.stderr)
        self.assertEqual(sorted(self.commands), sorted(set(self.commands)))
        self.assertEqual(len([command for command in self.commands if command.startswith("show bgp")]), 5)

    def test_twice(self):
        """What stays the same is told after the second look."""
        done = self.on_a_host("--brief", "--again", "0")
        self.assertEqual((done.returncode, done.stdout.splitlines()[:2]), (1, [GONE, STATIC]), done.stderr)
        self.assertEqual(self.commands.count("show evpn mac vni all json"), 2)

    def test_on_a_host_that_fails(self):
        cases = [
            ((), {"vnis": ""}), ((), {"vnis": "{}"}), ((), {"vnis": "[]"}), ((), {"vnis": '{"5001":{"vni":"x"}}'}),
            ((), {"last": "echo broken >&2; exit 3"}), (("--vtysh", "false"), {}),
        ]
        for words, how in cases:
            with self.subTest(words=words, how=how):
                done = self.on_a_host(*words, **how) if words == () else run(*words)
                self.assertEqual((done.returncode, done.stdout), (2, ""))
                self.assertRegex(done.stderr, r"^evpnd_audit: [^\n]+\n$")

    def test_a_vni_that_is_not_there(self):
        """It can't be audited, and the others are."""
        done = self.on_a_host("--brief", "--vni", "77,5001")
        self.assertEqual((done.returncode, done.stdout.splitlines()[1:3]), (1, [GONE, STATIC]), done.stderr)
        self.assertIn("VNI 77: can't be audited: zebra and the kernel have no such VNI; they have 5001", done.stdout)
        done = self.on_a_host("--brief", "--vni", "77")
        self.assertEqual((done.returncode, done.stdout), (2, ""))
        self.assertIn("VNI 77: zebra and the kernel have no such VNI; they have 5001", done.stderr)

    def test_a_mistyped_vni_with_the_texts_of_one_network(self):
        """Nothing of them is of that VNI: a fault, no difference, and nothing to clear."""
        for words in ((), ("--nagios",), ("--json",)):
            done = run("--vni", "5002", *words, SHORT)
            self.assertEqual(done.returncode, 3 if words == ("--nagios",) else 2, done.stdout)
            self.assertIn("VNI 5002: routes.json has no route of it, and routes of other VNIs", done.stdout + done.stderr)
            self.assertNotIn("mend", done.stdout)

    def test_usage(self):
        for words in (("--vni", "x"), ("--mac", "x"), ("--colour",)):
            with self.subTest(words=words):
                self.assertEqual(run(*words).returncode, 2)


def older(record: bytes, version: int) -> bytes:
    """A version 3 record as an earlier version has it: version 1 has no incarnation."""
    rest = record[6:10] + (record[14:] if version == 1 else record[10:])
    return record[:2] + bytes([version, record[3]]) + len(rest).to_bytes(2, "big") + rest


class NoMemory(dict):
    """A table that keeps nothing."""

    def __setitem__(self, key: object, value: object) -> None:
        pass


class Alike(unittest.TestCase):
    """What is kept of one path for others like it changes no answer."""

    def test_stored_routes_without_what_is_kept(self):
        """All stored routes, with imports where they are stored, with an L3VNI and without."""
        paths = [os.path.join(place, name) for place, _, names in os.walk(DATA) for name in names if name == "routes.json" or name == "detail.json"]
        self.assertGreater(len(paths), 30)
        for path in paths:
            for routed in ((), (6000,)):
                kept, forgotten = (frr_routes.Routes([5001, 5002, 5003], True, (), True, None, routed) for _ in range(2))
                forgotten.alike = NoMemory()
                found = []
                for routes in (kept, forgotten):
                    with records.open_text(path) as stream:
                        found.append(list(routes.read(stream, path)))
                self.assertEqual(*found, path)
                for name in ("left_out", "told", "routers", "prefixes", "invalid", "segments", "multihomed", "unjudged", "routes"):
                    self.assertEqual(getattr(kept, name), getattr(forgotten, name), f"{path}: {name}")

    def test_records_of_one_kind(self):
        """A record by another one's octets is the record that is spelt whole."""
        rests = ("1 seq 3", "2 seq 3", "3 ip 198.18.0.9 static seq 0", "4 ip 198.18.0.7 static seq 0", "5 ip 2001:db8::1 seq 0 label2 6000")
        lines = [f"advert 10.0.0.1 5001 02:00:00:00:00:0{rest}" for rest in rests]
        lines += [f"withdraw 10.0.0.1 5001 02:00:00:00:00:0{rest}" for rest in ("1", "2", "3 ip 198.18.0.9")]
        for line in (*lines, "advert 10.0.0.1 5001 flood"):
            update = records.update_of_line(line)
            self.assertEqual(records.record_of(update), records.spelt(update), line)


class OtherProgram(unittest.TestCase):
    """`evpnd_report`, which is the report only, in the place of `evpnd`."""

    def test_its_words(self):
        with tempfile.TemporaryDirectory() as folder:
            for name, wanted in (("evpnd_report", "10.0.0.1"), ("evpnd", "report --originators 10.0.0.1")):
                program = os.path.join(folder, name)
                with open(program, "w", encoding="utf-8") as out:
                    out.write('#!/bin/sh\necho "$@"\n')
                os.chmod(program, 0o755)
                updates = [records.update_of_line("advert 10.0.0.1 5001 02:00:00:00:00:01 seq 0")]
                self.assertEqual(audit_report.run_report(program, updates), f"{wanted}\n")


@needs_program
class AgreesWithTheProgram(unittest.TestCase):
    """The proved program reads records as these tools do."""

    def report(self, octets: bytes, *originators: str) -> subprocess.CompletedProcess:
        """What the program answers."""
        words = [PROGRAM, "report", "--originators", ",".join(originators)]
        return subprocess.run(words, input=octets, capture_output=True, check=False)

    def test_stored_routes_are_taken_whole(self):
        with open(os.path.join(DATA, "routes.json"), encoding="utf-8") as stream:
            snapshot = frr_routes.snapshot_of(frr_routes.Routes([5001]), stream, "routes")
        updates = list(snapshot.updates(lambda _: 1))
        octets = b"".join(records.record_of(update) for update in updates)
        done = self.report(octets, *sorted({records.address_text(update.originator) for update in updates}))
        self.assertEqual((done.returncode, done.stderr), (0, b""))
        owned = audit_report.read_report(done.stdout.decode())
        self.assertEqual(len(owned), len({update.mac for update in updates if update.mac}))
        for (_, mac), part in owned.items():
            self.assertEqual(part.owner, audit_report.best_of(part.adverts).originator, mac)

    def test_more_originators_than_a_table_has(self):
        """200 MACs of 100 routers, two a MAC: several tables, each MAC in one."""
        updates = [
            records.update_of_line(f"advert 10.0.{router}.1 5001 02:00:00:00:00:{place:02x} seq {router % 3}")
            for place in range(200) for router in (place % 100, (place * 7 + 1) % 100)
        ]
        stations: dict = {}
        for update in updates:
            stations.setdefault((5001, update.mac), []).append(update)
        parts = list(audit_report.parts_of(stations))
        self.assertEqual(sum(len(part) for part in parts), len(updates))
        self.assertTrue(all(len({update.originator for update in part}) <= 64 for part in parts))
        owned: dict = {}
        for part in parts:
            owned.update(audit_report.read_report(audit_report.run_report(PROGRAM, part)))
        self.assertEqual(len(owned), 200)

    def test_changed_records(self):
        """Records with an octet changed here and there: the same refusals, fault and updates."""
        random_numbers = random.Random(4556)
        kinds = [
            older(records.record_of(records.update_of_line(line)), version)
            for version in (1, 2, 3)
            for line in (
                "advert 10.0.0.1 5001 02:00:00:00:00:0a seq 0",
                "advert 10.0.0.1 5001 02:00:00:00:00:0b ip 192.0.2.10 static seq 3", "withdraw 10.0.0.1 5001 02:00:00:00:00:0b ip 192.0.2.10",
                "advert 10.0.0.1 5001 flood", "withdraw 10.0.0.1 5001 flood", "advert 10.0.0.1 5001 02:00:00:00:00:0c ip 2001:db8::1 seq 1 label2 7",
            )
        ]
        stream = b""
        for _turn in range(1500):
            record = bytearray(random_numbers.choice(kinds))
            record[random_numbers.randrange(18, len(record))] = random_numbers.choice([0, 1, 2, 32, 255])
            stream += bytes(record)
        found = answers(stream)
        self.assertEqual(len(found), 1500)
        notes = [f"record {number} refused {answer.number}" for number, answer in enumerate(found, 1) if isinstance(answer, records.Refused)]
        taken = [answer for answer in found if isinstance(answer, records.Update)]
        done = self.report(stream, *sorted({records.address_text(update.originator) for update in taken}))
        self.assertEqual((done.returncode, done.stderr.decode().splitlines()), (0, notes))
        again = self.report(b"".join(records.record_of(update) for update in taken), *sorted({records.address_text(update.originator) for update in taken}))
        self.assertEqual(again.stdout, done.stdout)


if __name__ == "__main__":
    unittest.main()
