"""Records, readable lines and FRR's routes (tools/evpnd_records.py)."""

import io
import json
import os
import random
import subprocess
import sys
import unittest

TOP = os.path.normpath(os.path.join(os.path.dirname(os.path.abspath(__file__)), "..", ".."))
sys.path.insert(0, os.path.join(TOP, "tools"))
import evpnd_records  # noqa: E402
import frr_routes  # noqa: E402
import update_records as records  # noqa: E402
from update_records import Fault, Refused, Truncated, Update  # noqa: E402

DATA = os.path.join(TOP, "tests", "data", "frr")
STATION = "5001 02:00:00:00:00:0a"

# The first record of all, in version 1: an advert of 10.0.0.1 with counter 1.
FIRST = bytes.fromhex(
    "45560101 0032 0a000001 0000000000000001 001389"
    "02 21 00010a0000010001 00000000000000000000 00000000 30 02000000000a 00 001389"
)


def changed(place: int, octet: int) -> bytes:
    """The first record with one octet changed."""
    return FIRST[:place] + bytes([octet]) + FIRST[place + 1 :]


def with_community(record: bytes, community: str, counter: int = 1, address: str = "0a000001") -> bytes:
    """The first record with a MAC Mobility community behind it, of another counter and originator."""
    octets = bytes.fromhex(address)
    record = record[:6] + octets + counter.to_bytes(8, "big") + record[18:25] + octets + record[29:]
    return record[:4] + b"\x00\x3a" + record[6:] + bytes.fromhex(community)


def answers(octets: bytes) -> list:
    """The answers of a stream."""
    return list(records.read_records(io.BytesIO(octets)))


def lines(octets: bytes) -> list:
    """The readable lines of a stream."""
    out = io.StringIO()
    evpnd_records.show(io.BytesIO(octets), out)
    return out.getvalue().splitlines()


def run(*words: str, given: bytes = b"") -> subprocess.CompletedProcess:
    """The tool as a program."""
    tool = os.path.join(TOP, "tools", "evpnd_records.py")
    return subprocess.run([sys.executable, "-S", tool, *words], input=given, capture_output=True, check=False)


class ReadsRecords(unittest.TestCase):
    """Octets of records, as docs/records.md has them."""

    def test_first_record(self):
        self.assertEqual(lines(FIRST), [f"advert 10.0.0.1 {STATION} seq 0"])

    def test_written_in_version_3(self):
        """Version 3 has four octets more, the incarnation."""
        octets = records.record_of(records.update_of_line(f"advert 10.0.0.1 {STATION} seq 0"))
        self.assertEqual(octets, FIRST[:2] + b"\x03\x01\x00\x36" + FIRST[6:10] + bytes(4) + FIRST[10:])

    def test_withdrawal(self):
        octets = FIRST[:3] + b"\x02" + FIRST[4:17] + b"\x02" + FIRST[18:]
        self.assertEqual(lines(octets), [f"withdraw 10.0.0.1 {STATION} counter 2"])

    def test_sequence(self):
        octets = with_community(FIRST, "06000000ffffffff")
        self.assertEqual(lines(octets), [f"advert 10.0.0.1 {STATION} seq 4294967295"])

    def test_static(self):
        octets = with_community(FIRST, "0600010000000000", address="0a000009")
        self.assertEqual(lines(octets), [f"advert 10.0.0.9 {STATION} static seq 0"])

    def test_other_flag_bits_are_ignored(self):
        octets = with_community(FIRST, "0600feff00000004", counter=5)
        self.assertEqual(lines(octets), [f"advert 10.0.0.1 {STATION} seq 4 counter 5"])

    def test_ip(self):
        octets = FIRST[:5] + b"\x36" + FIRST[6:22] + b"\x25" + FIRST[23:52] + b"\x20\xc0\x00\x02\x0a" + FIRST[53:]
        self.assertEqual(lines(octets), [f"advert 10.0.0.1 {STATION} ip 192.0.2.10 seq 0"])

    def test_refusals(self):
        """The first record changed in one field."""
        cases = [
            (changed(21, 4), 5), (changed(52, 32), 6), (changed(28, 2), 7), (changed(40, 1), 8), (changed(44, 1), 9),
            (changed(55, 0x8A), 10), (changed(46, 3), 11), (changed(17, 0), 14),
        ]
        for octets, number in cases:
            with self.subTest(number=number):
                self.assertEqual(answers(FIRST + octets + FIRST)[1], Refused(number))
                self.assertEqual(len(answers(FIRST + octets + FIRST)), 3)

    def test_faults(self):
        cases = [(b"\x45\x57", 1), (b"\x45\x56\x04", 2), (b"\x45\x56\x01\x03", 3), (b"\x45\x56\x01\x01\x00\x0e", 4)]
        for octets, number in cases:
            with self.subTest(number=number):
                self.assertEqual(answers(FIRST + octets), [answers(FIRST)[0], Fault(number)])

    def test_truncation(self):
        self.assertEqual(answers(FIRST[:-1]), [Truncated(55)])
        self.assertEqual(answers(FIRST + FIRST[:3])[1], Truncated(3))

    def test_empty(self):
        self.assertEqual(answers(b""), [])


class RoundTrips(unittest.TestCase):
    """Readable lines to records and back."""

    LINES = [
        f"advert 10.0.0.1 {STATION} seq 0",
        f"withdraw 10.0.0.1 {STATION} counter 2",
        f"advert 10.0.0.2 {STATION} seq 7",
        f"advert 10.0.0.9 {STATION} static seq 0",
        f"advert 10.0.0.1 {STATION} seq 4294967295",
        f"advert 10.0.0.1 {STATION} ip 192.0.2.10 seq 0",
        f"advert 10.0.0.1 {STATION} ip 2001:0db8:0000:0000:0000:0000:0000:0001 static seq 3 label2 4001 counter 9 incarnation 2",
        f"withdraw 10.0.0.1 {STATION} ip 192.0.2.10 incarnation 4294967295",
        "advert 255.255.255.255 16777215 flood",
        "withdraw 10.0.0.1 0 flood counter 18446744073709551615",
        "advert 0.0.0.0 0 00:00:00:00:00:00 seq 0",
    ]

    def test_each_line(self):
        for line in self.LINES:
            with self.subTest(line=line):
                self.assertEqual(lines(records.record_of(records.update_of_line(line))), [line])

    def test_as_programs(self):
        text = "".join(line + "\n" for line in self.LINES).encode()
        made = run("make", given=b"# a comment\n\n" + text)
        self.assertEqual((made.returncode, made.stderr), (0, b""))
        shown = run("show", given=made.stdout)
        self.assertEqual((shown.returncode, shown.stdout), (0, text))

    def test_short_ipv6(self):
        update = records.update_of_line(f"advert 10.0.0.1 {STATION} ip 2001:db8::1")
        self.assertEqual(records.line_of(update), f"advert 10.0.0.1 {STATION} ip 2001:0db8:0000:0000:0000:0000:0000:0001 seq 0")

    def test_wrong_lines(self):
        wrong = [
            "advert", "say 10.0.0.1 5001 flood", f"advert 10.0.0.01 {STATION}", f"advert 10.0.0.256 {STATION}",
            "advert 10.0.0.1 16777216 flood", "advert 10.0.0.1 5001 02:00:00:00:00:0A", "advert 10.0.0.1 5001 03:00:00:00:00:0a",
            f"advert 10.0.0.1 {STATION} seq", f"advert 10.0.0.1 {STATION} seq 4294967296", f"advert 10.0.0.1 {STATION} seq 1 seq 1",
            f"advert 10.0.0.1 {STATION} counter 0", f"withdraw 10.0.0.1 {STATION} seq 1", "advert 10.0.0.1 5001 flood seq 1",
            f"advert 10.0.0.1 {STATION} ip 1.2.3", f"advert 10.0.0.1 {STATION} ip 1::2::3", f"advert 10.0.0.1 {STATION} colour 3",
        ]
        for line in wrong:
            with self.subTest(line=line):
                done = run("make", given=line.encode() + b"\n")
                self.assertEqual(done.returncode, 2)
                self.assertRegex(done.stderr.decode(), r"^evpnd_records: line 1: [^\n]+\n$")

    def test_no_utf8(self):
        done = run("make", given=b"\xff\xfe\n")
        self.assertEqual((done.returncode, done.stderr.count(b"\n")), (2, 1))

    def test_originators(self):
        made = run("make", given="".join(line + "\n" for line in self.LINES).encode())
        self.assertEqual(run("originators", given=made.stdout).stdout, b"0.0.0.0,10.0.0.1,10.0.0.2,10.0.0.9,255.255.255.255\n")
        self.assertEqual(run("originators").returncode, 2)


def frr_lines(*words: str, name: str = "routes.json") -> list:
    """The lines of what FRR printed."""
    made = run("frr", *words, os.path.join(DATA, name))
    if made.returncode != 0:
        raise AssertionError(made.stderr.decode())
    return lines(made.stdout)


class ReadsRoutes(unittest.TestCase):
    """What FRR 8.4.4 printed in a namespace of ours."""

    def test_stored_routes(self):
        """Each path is a record, or is counted."""
        made = run("frr", "--vni", "5001", os.path.join(DATA, "routes.json"))
        self.assertEqual(made.returncode, 0)
        self.assertEqual(len(answers(made.stdout)), 152)
        self.assertTrue(all(isinstance(answer, Update) for answer in answers(made.stdout)))
        self.assertEqual(
            made.stderr.decode(), "read 153 paths, wrote 152 records\nleft out 1: a nonzero ESI (multihomed)\n"
        )

    def test_static_and_sequence(self):
        found = frr_lines("--vni", "5001", name="short/routes.json")
        self.assertIn("advert 10.0.0.1 5001 02:00:00:00:00:0b seq 3", found)
        self.assertIn("advert 10.0.0.2 5001 02:00:00:00:00:0b static seq 0", found)
        self.assertIn("advert 10.0.0.100 5001 flood", found)

    def test_times(self):
        found = frr_lines("--vni", "5001", "--time", name="detail.json")
        self.assertIn("advert 10.0.0.3 5001 02:00:00:00:00:0c ip 192.0.2.1 seq 2 counter 1795383712", found)

    def test_vni_table(self):
        """A VNI's table has no RDs, and the same registers."""
        self.assertEqual(
            sorted(frr_lines("--vni", "5001", name="short/best.json")), sorted(frr_lines("--vni", "5001", name="short/routes.json"))
        )

    def test_standard_input(self):
        with open(os.path.join(DATA, "routes.json"), "rb") as stream:
            text = stream.read()
        self.assertEqual(run("frr", "--vni", "5001", given=text).stdout, run("frr", "--vni", "5001", os.path.join(DATA, "routes.json")).stdout)

    def test_layout_does_not_matter(self):
        with open(os.path.join(DATA, "routes.json"), "rb") as stream:
            table = json.load(stream)
        laid_out = run("frr", "--vni", "5001", given=json.dumps(table, indent=8).encode())
        self.assertEqual(laid_out.stdout, run("frr", "--vni", "5001", os.path.join(DATA, "routes.json")).stdout)


def table_of(*routes: tuple) -> bytes:
    """A table of routes: (RD, prefix, fields of the path that differ from the usual)."""
    table: dict = {}
    for rd, prefix, fields in routes:
        path = {"valid": True, "bestpath": True, "extendedCommunity": {"string": "RT:65000:5001 ET:8"}, "nexthops": [{"ip": "10.0.0.1"}]}
        path.update(fields)
        table.setdefault(rd, {"rd": rd})[prefix] = {"prefix": prefix, "paths": [[path]]}
    return json.dumps(table).encode()


PREFIX = "[2]:[0]:[48]:[02:00:00:00:00:0a]"
FOLDED = b"told 1: folded into the better route of the same next hop and key\n"


class LeavesOut(unittest.TestCase):
    """What has no counterpart is counted, by cause."""

    def made(self, *routes: tuple, words: tuple = ()) -> tuple:
        """Lines and complaints of a table."""
        done = run("frr", "--vni", "5001", *words, given=table_of(("10.0.0.1:1", "[3]:[0]:[32]:[10.0.0.1]", {}), *routes))
        self.assertEqual(done.returncode, 0, done.stderr)
        return lines(done.stdout)[1:], done.stderr.split(b"\n", 1)[1]

    def test_each_cause(self):
        other = {"extendedCommunity": {"string": "RT:65000:5002 ET:8"}}
        cases = [
            (("10.0.0.1:1", PREFIX, other), b"another route target"),
            (("10.0.0.1:1", PREFIX, {"extendedCommunity": {"string": ""}}), b"another route target"),
            (("65000:1", PREFIX, {}), b"an RD that isn't an address"),
            (("10.0.0.1:1", PREFIX, {"esi": "03:00:00:00:00:00:00:00:00:01"}), b"a nonzero ESI (multihomed)"),
            (("10.0.0.1:1", PREFIX, {"valid": False}), b"not valid"),
            (("10.0.0.1:1", "[2]:[7]:[48]:[02:00:00:00:00:0a]", {}), b"an Ethernet Tag other than 0"),
            (("10.0.0.1:1", "[5]:[0]:[24]:[10.1.0.0]", {}), b"neither a MAC route nor an inclusive multicast route"),
            (("10.0.0.1:1", PREFIX, {"nexthops": [{"ip": "2001:db8::1"}]}), b"a next hop that isn't an IPv4 address"),
        ]
        for route, cause in cases:
            with self.subTest(cause=cause):
                self.assertEqual(self.made(route), ([], b"left out 1: " + cause + b"\n"))

    def test_two_rds_of_one_router(self):
        """The better route stays, whichever comes first."""
        plain = ("10.0.0.1:1", PREFIX, {"extendedCommunity": {"string": "RT:65000:5001 MM:3"}})
        static = ("10.0.0.1:7", PREFIX, {"extendedCommunity": {"string": "RT:65000:5001 MM:0, sticky MAC"}})
        kept = [f"advert 10.0.0.1 {STATION} static seq 0"]
        self.assertEqual(self.made(plain, static), (kept, FOLDED))
        self.assertEqual(self.made(static, plain), (kept, FOLDED))

    def test_next_hop_is_the_originator(self):
        found, told = self.made(("10.0.0.9:1", PREFIX, {}))
        self.assertEqual(found, [f"advert 10.0.0.1 {STATION} seq 0"])
        self.assertEqual(told, b"told 1: taken by their next hop, which isn't the address in the RD\n")

    def test_any_rd(self):
        self.assertEqual(self.made(("65000:1", PREFIX, {}), words=("--any-rd",)), ([f"advert 10.0.0.1 {STATION} seq 0"], b""))

    def test_route_target_by_name(self):
        other = ("10.0.0.1:1", PREFIX, {"extendedCommunity": {"string": "RT:65000:77"}})
        self.assertEqual(self.made(other, words=("--rt", "65000:77=5001"))[0], [f"advert 10.0.0.1 {STATION} seq 0"])

    def test_automatic_route_target(self):
        """RFC 8365, 5.1.2.1: type 1 (VXLAN) in front of the VNI."""
        auto = ("10.0.0.1:1", PREFIX, {"extendedCommunity": {"string": f"RT:65000:{(1 << 28) + 5001}"}})
        self.assertEqual(self.made(auto)[0], [f"advert 10.0.0.1 {STATION} seq 0"])

    def test_second_label(self):
        found = self.made(("10.0.0.1:1", PREFIX, {"VNI": "5001/4001"}))[0]
        self.assertEqual(found, [f"advert 10.0.0.1 {STATION} seq 0 label2 4001"])

    def test_label_names_the_vni(self):
        """Only `detail json` has labels: they name the VNI where no route target does, and have to agree where one does."""
        other = {"extendedCommunity": {"string": "RT:65000:77"}}
        found, told = self.made(("10.0.0.1:1", PREFIX, {**other, "VNI": "5001"}))
        self.assertEqual(found, [f"advert 10.0.0.1 {STATION} seq 0"])
        self.assertEqual(told, b"told 1: taken by the VNI in their label: no route target names it\n")
        self.assertEqual(self.made(("10.0.0.1:1", PREFIX, {**other, "VNI": "78"})), ([], b"left out 1: another route target and label\n"))
        self.assertEqual(self.made(("10.0.0.1:1", PREFIX, {"VNI": "78"})), ([], b"left out 1: a label that isn't the VNI of the route target\n"))
        flood = "[3]:[0]:[32]:[10.0.0.1]"
        self.assertEqual(self.made(("10.0.0.1:2", flood, {**other, "pmsi": {"label": 5001}}))[1].count(b"taken by the VNI"), 1)

    def test_vanished_route_is_withdrawn(self):
        before = os.path.join(DATA, "short", "routes.json")
        with open(before, encoding="utf-8") as stream:
            table = json.load(stream)
        del table["10.0.0.2:1"]["[2]:[0]:[48]:[02:00:00:00:00:0b]"]
        done = run("frr", "--vni", "5001", "--before", before, given=json.dumps(table).encode())
        found = lines(done.stdout)
        self.assertEqual([line for line in found if line.startswith("withdraw")], ["withdraw 10.0.0.2 5001 02:00:00:00:00:0b counter 2"])
        self.assertIn("advert 10.0.0.1 5001 02:00:00:00:00:0b seq 3 counter 2", found)


def places_of(value: object):
    """Each place in a value of JSON: what holds it, and its key or number."""
    for key in value if isinstance(value, dict) else range(len(value)) if isinstance(value, list) else ():
        yield value, key
        yield from places_of(value[key])


class CannotBeRead(unittest.TestCase):
    """One plain line, status 2, no traceback."""

    def refused(self, text: bytes, vni: str = "5001") -> None:
        """Sees that a text is refused so."""
        done = run("frr", "--vni", vni, given=text)
        self.assertEqual((done.returncode, done.stdout), (2, b""), text[:80])
        self.assertRegex(done.stderr.decode(), r"^evpnd_records: [^\n]+\n$")

    def test_garbage(self):
        for text in (b"", b" \n", b"garbage", b"[]", b"3", b"{", b'{"a"', b'{"a":', b'{"a":{}', b'{"a":{}} x', b"{3:4}", b'{"a" 4}', b"\xff\xfe",
                     b"% Unknown command\n", b"{" + b'"a":[' * 100000):
            with self.subTest(text=text[:20]):
                self.refused(text)

    def test_empty_tables(self):
        self.refused(b"{}")
        self.refused(b"{\n}")
        self.refused(b'{"numPrefix":0,"numPaths":0}')

    def test_unknown_vni(self):
        self.refused(table_of(("10.0.0.1:1", PREFIX, {})), vni="77")

    def test_cut_text(self):
        with open(os.path.join(DATA, "short", "routes.json"), "rb") as stream:
            text = stream.read().rstrip()
        for end in range(0, len(text), 97):
            with self.subTest(end=end), self.assertRaises(records.Unreadable):
                frr_routes.snapshot_of(frr_routes.Routes([5001]), io.StringIO(text[:end].decode()), "text")

    def test_missing_fields(self):
        for fields in ({"nexthops": []}, {"nexthops": None}, {"nexthops": [{}]}, {"nexthops": [{"ip": "10.0.0"}]}, {"nexthops": [{"ip": 3}]},
                       {"extendedCommunity": None}, {"extendedCommunity": {"string": 3}}, {"lastUpdate": {}}, {"esi": 3}):
            with self.subTest(fields=fields):
                self.refused(table_of(("10.0.0.1:1", PREFIX, fields)))
        for route in (b"{}", b"3", b'{"paths":3}', b'{"paths":[3]}', b'{"paths":[[3]]}'):
            with self.subTest(route=route):
                self.refused(b'{"10.0.0.1:1":{"' + PREFIX.encode() + b'":' + route + b"}}")

    def test_changed_values(self):
        """Tables with a value changed somewhere: unreadable, or each update that they give is spelled by its record."""
        random_numbers = random.Random(7432)
        values = [None, -1, 2**70, 1.5, "", "x", "10.0.0", [], {}, [[]], [{}], True, "MM:99999999999", "RT:65000:" + "9" * 5000, "5001/99999999999"]
        with open(os.path.join(DATA, "detail.json"), encoding="utf-8") as stream:
            text = stream.read()
        unreadable = 0
        for _turn in range(400):
            table = json.loads(text)
            holder, key = random_numbers.choice(list(places_of(table)))
            holder[key] = random_numbers.choice(values)
            try:
                snapshot = frr_routes.snapshot_of(frr_routes.Routes([5001]), io.StringIO(json.dumps(table)), "text")
            except records.Unreadable:
                unreadable += 1
                continue
            for update in snapshot.updates(lambda seconds: max(seconds, 1)):
                self.assertEqual(answers(records.record_of(update)), [update])
        self.assertTrue(50 < unreadable < 350)

    def test_no_such_file(self):
        self.assertEqual(run("frr", "--vni", "5001", "/nowhere/at/all").returncode, 2)

    def test_usage(self):
        for words in ((), ("frr",), ("frr", "--vni", "x"), ("frr", "--vni", "16777216"), ("frr", "--vni", "1", "--rt", "x")):
            with self.subTest(words=words):
                self.assertEqual(run(*words).returncode, 2)


if __name__ == "__main__":
    unittest.main()
