"""The gateway to BGP (tools/evpnd_bgp.py), with everything but GoBGP itself: tests/outside/bgp.sh runs beside that.

Fields and octets are written by hand, from RFC 7432 (7.2, 7.3, 7.7, 7.9, 11.2), RFC 8365 (5.1.2.1, 5.1.3), RFC 6514 (5)
and docs/records.md.
"""

import contextlib
import io
import itertools
import logging
import os
import queue
import random
import socket
import subprocess
import sys
import tempfile
import threading
import time
import types
import unittest
from unittest import mock

TOP = os.path.normpath(os.path.join(os.path.dirname(os.path.abspath(__file__)), "..", ".."))
sys.path.insert(0, os.path.join(TOP, "tools"))
import bgp_service  # noqa: E402
import evpnd_bgp as program  # noqa: E402
from bgp_routes import Heard, Names, Own, Pmsi, Route, announced_by, is_target, lacking_in, route_of, said_by  # noqa: E402
from bgp_service import Family, Lock, Pending, prometheus_text  # noqa: E402
from evpnd_bgp import Gateway  # noqa: E402
from frr_routes import Routes  # noqa: E402
from gobgp import Declined, Event, Messages, NoDaemon, Session  # noqa: E402
from report_model import line_of, random_update, report_of  # noqa: E402
from report_model import register_of as place_of  # noqa: E402
from update_records import Advert, Unreadable, Update, read_records, record_of  # noqa: E402
from update_records import newness_of, update_of_line, update_of_report  # noqa: E402

ONE, TWO, LEAF = (bytes([10, 0, 0, last]) for last in (1, 2, 100))
STATION, OTHER, THIRD = "02:00:00:00:00:0a", "02:00:00:00:00:0b", "02:00:00:00:00:0c"
EVERY = range(1 << 24)


def octets(*parts: str) -> bytes:
    """Octets by their digits."""
    return bytes.fromhex("".join(parts))


def update(line: str) -> Update:
    """An update by its readable line."""
    return update_of_line(line)


def read_one(record: bytes) -> Update:
    """The only record of a stream."""
    (found,) = read_records(io.BytesIO(record))
    return found


def leaf_route(mac: str = STATION, **fields: object) -> Route:
    """A leaf's MAC route, as FRR says it."""
    usual = {"labels": (5001,), "hop": "10.0.0.100", "targets": ("65000:5001",)}
    return Route(2, "10.0.0.100:2", mac, **{**usual, **fields})


def leaf_flood(**fields: object) -> Route:
    """A leaf's inclusive multicast route, as FRR says it."""
    usual = {"hop": "10.0.0.100", "targets": ("65000:5001",), "pmsi": Pmsi(6, 5001, LEAF)}
    return Route(3, "10.0.0.100:2", ip="10.0.0.100", **{**usual, **fields})


def reached(holds, seconds: float = 60.0) -> bool:
    """Whether something holds within some seconds: many, so that a busy machine makes no failure."""
    end = time.monotonic() + seconds
    while not holds() and time.monotonic() < end:
        time.sleep(0.01)
    return bool(holds())


class RecordsBecomeRoutes(unittest.TestCase):
    """A record's octets to a route's fields."""

    def route(self, record: bytes, names: Names = None) -> Route:
        """The route that a record becomes, in AS 65000."""
        return route_of(read_one(record), names or Names(65000))

    def test_an_advert_with_a_sequence_number(self):
        record = octets(
            "4556 03 01 003e 0a000001 00000000 0000000000000001 001389",
            "02 21 00010a0000010001 00000000000000000000 00000000 30 02000000000a 00 001389",
            "0600 00 00 00000007",
        )
        wanted = Route(
            2, "10.0.0.1:5001", STATION, labels=(5001,), hop="10.0.0.1", targets=("65000:5001",), mobility=(False, 7)
        )
        self.assertEqual(self.route(record), wanted)

    def test_a_static_advert_with_an_address_and_a_second_label(self):
        record = octets(
            "4556 03 01 0045 0a000001 00000000 0000000000000001 001389",
            "02 28 00010a0000010001 00000000000000000000 00000000 30 02000000000a 20 c0000209 001389 000fa0",
            "0600 01 00 00000000",
        )
        route = self.route(record)
        self.assertEqual((route.ip, route.labels, route.mobility), ("192.0.2.9", (5001, 4000), (True, 0)))

    def test_no_community_is_announced_as_dynamic_with_sequence_0(self):
        """So GoBGP doesn't put one of its own making into it."""
        record = octets(
            "4556 03 01 0036 0a000001 00000000 0000000000000001 001389",
            "02 21 00010a0000010001 00000000000000000000 00000000 30 02000000000a 00 001389",
        )
        self.assertEqual(self.route(record).mobility, (False, 0))

    def test_a_flood_list(self):
        record = octets(
            "4556 03 01 0026 0a000001 00000000 0000000000000001 001389", "03 11 00010a0000010001 00000000 20 0a000001"
        )
        wanted = Route(
            3, "10.0.0.1:5001", ip="10.0.0.1", hop="10.0.0.1", targets=("65000:5001",), pmsi=Pmsi(6, 5001, ONE)
        )
        self.assertEqual(self.route(record), wanted)

    def test_a_withdrawal_has_the_same_key(self):
        withdrawal = octets(
            "4556 03 02 003a 0a000001 00000000 0000000000000002 001389",
            "02 25 00010a0000010001 00000000000000000000 00000000 30 02000000000a 20 c0000209 001389",
        )
        names = Names(65000)
        advert = route_of(update(f"advert 10.0.0.1 5001 {STATION} ip 192.0.2.9 seq 3"), names)
        found = self.route(withdrawal, names)
        self.assertEqual(found.key(), advert.key())
        self.assertEqual(found, Route(2, "10.0.0.1:5001", STATION, "192.0.2.9", labels=(5001,)))

    def test_networks_of_an_edge_have_different_numbers(self):
        """Two octets hold 5001; 70537 is 5001 beyond them, 0 and 65536 would be 0, which isn't used."""
        names = Names(65000)
        found = [names.rd(ONE, vni) for vni in (5001, 70537, 5002, 0, 65536, 5001)]
        numbers = [5001, 5002, 5003, 1, 2, 5001]
        self.assertEqual(found, [f"10.0.0.1:{number}" for number in numbers])

    def test_all_numbers_can_be_given_and_no_more(self):
        names = Names(65000)
        self.assertEqual(len({names.number(vni) for vni in range(65535)}), 65535)
        with self.assertRaises(Unreadable):
            names.number(65535)

    def test_route_targets(self):
        """As FRR makes them, with the low two octets of the AS; as RFC 8365 has them, of type 1 (VXLAN); as said."""
        self.assertEqual(Names(65000).target(5001), "65000:5001")
        self.assertEqual(Names(4200000001).target(70537), "59905:70537")
        self.assertEqual(Names(65000, automatic=True).target(5001), "65000:268440457")
        self.assertEqual(Names(65000, [("65000:77", 5001)]).target(5001), "65000:77")


    def test_what_a_route_target_is(self):
        """Six octets: an AS of two and a number of four, or an AS or an address of four and a number of two."""
        for text in ("65535:4294967295", "65536:65535", "4294967295:0", "10.0.0.1:65535"):
            self.assertTrue(is_target(text), text)
        for text in ("65535:4294967296", "65536:65536", "4294967296:0", "10.0.0.1:65536", "10.0.0:1", "a:1", "1:", ":1"):
            self.assertFalse(is_target(text), text)

    def test_a_network_too_many_is_declined(self):
        names = Names(65000)
        names.networks = dict.fromkeys(range(65535))
        gateway = Gateway(Stand(), Routes(EVERY), [ONE], names)
        gateway.own.take(update("advert 10.0.0.1 5001 flood"))
        with self.assertRaises(Declined):
            gateway.change([update("advert 10.0.0.1 5001 flood")[:4]])


class RoutesBecomeRecords(unittest.TestCase):
    """A route's fields to a record's octets."""

    def record(self, route: Route) -> bytes:
        """The record of the first change that a gateway of second 6 hears."""
        heard = Heard(6)
        (register,) = heard.take("192.0.2.1", route.key(), said_by(route, Routes(EVERY)))
        return record_of(heard.updates[register])

    def test_a_leafs_station(self):
        wanted = octets(
            "4556 03 01 003e 0a000064 00000006 0000000000000001 001389",
            "02 21 00010a0000640001 00000000000000000000 00000000 30 02000000000a 00 001389",
            "0600 01 00 00000004",
        )
        self.assertEqual(self.record(leaf_route(mobility=(True, 4))), wanted)

    def test_one_with_an_address_and_no_community(self):
        wanted = octets(
            "4556 03 01 0046 0a000064 00000006 0000000000000001 001389",
            "02 31 00010a0000640001 00000000000000000000 00000000 30 02000000000a 80",
            "20010db8000000000000000000000009 001389",
        )
        self.assertEqual(self.record(leaf_route(ip="2001:db8::9")), wanted)

    def test_a_leafs_flood_list(self):
        wanted = octets(
            "4556 03 01 0026 0a000064 00000006 0000000000000001 001389", "03 11 00010a0000640001 00000000 20 0a000064"
        )
        self.assertEqual(self.record(leaf_flood()), wanted)

    def test_two_labels_and_two_route_targets(self):
        """A leaf that routes too: the second label and target are its routing instance's."""
        route = leaf_route(labels=(5001, 4000), targets=("65000:4000", "65000:5001"))
        register = (LEAF, 5001, octets("02000000000a"), b"")
        self.assertEqual(said_by(route, Routes(EVERY)), (register, Advert(False, 0, 4000)))

    def test_a_route_target_in_the_automatic_form(self):
        self.assertEqual(said_by(leaf_flood(targets=("65000:268440457",)), Routes(EVERY))[0][1], 5001)

    def test_a_route_target_that_was_said(self):
        route = leaf_route(targets=("65000:77",))
        self.assertEqual(said_by(route, Routes(EVERY, targets=[("65000:77", 5001)]))[0][1], 5001)
        self.assertIsNone(said_by(route, Routes(EVERY)))


class WhatIsLeftOut(unittest.TestCase):
    """Routes that a record can't say, by cause."""

    def left_out(self, route: Route, vnis=EVERY) -> dict:
        """The causes for which a route is left out."""
        routes = Routes(vnis)
        self.assertIsNone(said_by(route, routes))
        return dict(routes.left_out)

    def test_a_station_at_two_edges(self):
        esi = octets("00 11111111111111111101")
        self.assertEqual(self.left_out(leaf_route(esi=esi)), {"a nonzero ESI (multihomed)": 1})

    def test_other_types(self):
        for kind in (0, 1, 4, 5):
            cause = {"neither a MAC route nor an inclusive multicast route": 1}
            self.assertEqual(self.left_out(Route(kind, "10.0.0.100:2")), cause)

    def test_next_hops(self):
        cause = {"a next hop that isn't an IPv4 address": 1}
        self.assertEqual(self.left_out(leaf_route(hop="2001:db8::1")), cause)
        self.assertEqual(self.left_out(leaf_route(hop="0.0.0.0")), {"no next hop": 1})
        self.assertEqual(self.left_out(leaf_route(hop="")), {"an address that a record can't say": 1})

    def test_labels(self):
        cause = {"a label that isn't the VNI of the route target": 1}
        self.assertEqual(self.left_out(leaf_route(labels=(5002,))), cause)
        self.assertEqual(self.left_out(leaf_flood(pmsi=Pmsi(6, 5002, LEAF))), cause)

    def test_networks_that_arent_wanted(self):
        self.assertEqual(self.left_out(leaf_route(), [5002]), {"another route target and label": 1})

    def test_tunnels_rds_and_tags(self):
        cause = {"a multicast tunnel that isn't ingress replication": 1}
        self.assertEqual(self.left_out(leaf_flood(pmsi=Pmsi(3, 5001, LEAF))), cause)
        self.assertEqual(self.left_out(leaf_route(tag=100)), {"an Ethernet Tag other than 0": 1})
        self.assertEqual(self.left_out(leaf_route()._replace(rd="65000:2")), {"an RD that isn't an address": 1})

    def test_macs(self):
        for mac in ("01:00:5e:00:00:01", "", "02-00-00-00-00-0a"):
            self.assertEqual(self.left_out(leaf_route(mac)), {"an address that a record can't say": 1})


class ReportsBecomeUpdates(unittest.TestCase):
    """A report's lines (docs/routes.md), as edges that run tell them."""

    def test_lines(self):
        lines = {
            "flood 5001 10.0.0.1 1 up": "advert 10.0.0.1 5001 flood",
            "flood 5001 10.0.0.1 7.2 withdrawn": "withdraw 10.0.0.1 5001 flood counter 2 incarnation 7",
            f"mac 5001 {STATION} 10.0.0.1 3 withdrawn": f"withdraw 10.0.0.1 5001 {STATION} counter 3",
            f"mac 5001 {STATION} 10.0.0.1 3 dynamic 9": f"advert 10.0.0.1 5001 {STATION} seq 9 counter 3",
            f"mac 5001 {STATION} 10.0.0.1 6.3 static 0 ip 192.0.2.9 label2 7":
                f"advert 10.0.0.1 5001 {STATION} ip 192.0.2.9 static seq 0 label2 7 counter 3 incarnation 6",
        }
        for line, wanted in lines.items():
            self.assertEqual(update_of_report(line), update(wanted), line)
        for line in (f"owner 5001 {STATION} 10.0.0.1", f"owner 5001 {STATION} none", "", "bad: no such edge"):
            self.assertIsNone(update_of_report(line))

    def test_any_register(self):
        numbers = random.Random(11)
        for _ in range(1000):
            each = random_update(numbers)
            self.assertEqual(update_of_report(line_of(each)), each)


class Hears(unittest.TestCase):
    """Registers of BGP's routes, and their numbers."""

    def setUp(self):
        self.heard = Heard(6)
        self.routes = Routes(EVERY)

    def say(self, route: Route, neighbour: str = "a") -> list:
        """Hears a route; gives the updates that follow."""
        return self.updates(self.heard.take(neighbour, route.key(), said_by(route, self.routes)))

    def unsay(self, route: Route, neighbour: str = "a") -> list:
        """Hears that a route is withdrawn."""
        return self.updates(self.heard.take(neighbour, route.key(), None))

    def updates(self, registers: list) -> list:
        """Registers' updates: originator's last octet, advert, counter."""
        found = [self.heard.updates[register] for register in registers]
        self.assertEqual({each.incarnation for each in found} - {6}, set())
        return [(each.originator[3], each.advert, each.counter) for each in found]

    def test_each_change_takes_its_originators_next_number(self):
        self.assertEqual(self.say(leaf_route()), [(100, Advert(), 1)])
        self.assertEqual(self.say(leaf_flood()), [(100, Advert(), 2)])
        self.assertEqual(self.say(leaf_route(OTHER, hop="10.0.0.7")), [(7, Advert(), 1)])
        self.assertEqual(self.say(leaf_route(mobility=(False, 5))), [(100, Advert(False, 5), 3)])
        self.assertEqual(self.unsay(leaf_route()), [(100, None, 4)])
        self.assertEqual(self.say(leaf_route()), [(100, Advert(), 5)])

    def test_what_says_nothing_new_takes_no_number(self):
        self.say(leaf_route())
        self.assertEqual(self.say(leaf_route()), [])
        self.assertEqual(self.say(leaf_route(mobility=(False, 0))), [])
        self.assertEqual(self.unsay(leaf_route(OTHER)), [])
        self.assertEqual(self.say(leaf_flood()), [(100, Advert(), 2)])

    def test_a_route_with_another_next_hop_leaves_the_first(self):
        self.say(leaf_route())
        self.assertEqual(self.say(leaf_route(hop="10.0.0.7")), [(100, None, 2), (7, Advert(), 1)])

    def test_two_routes_of_one_register_are_the_better(self):
        """Two RDs of one edge, and two reflectors."""
        second = leaf_route(mobility=(False, 9))._replace(rd="10.0.0.100:3")
        self.say(leaf_route())
        self.assertEqual(self.say(second), [(100, Advert(False, 9), 2)])
        self.assertEqual(self.say(leaf_route(), "b"), [])
        self.assertEqual(self.unsay(second), [(100, Advert(), 3)])
        self.assertEqual(self.unsay(leaf_route()), [])
        self.assertEqual(self.unsay(leaf_route(), "b"), [(100, None, 4)])

    def test_a_session_that_ends_takes_what_it_brought(self):
        self.say(leaf_route())
        self.say(leaf_route(OTHER), "b")
        self.assertEqual(self.updates(self.heard.lose("a")), [(100, None, 3)])
        self.assertEqual(self.updates(self.heard.lose("a")), [])

    def test_what_is_in_doubt_stays_until_it_expires(self):
        """A daemon that has ended takes nothing with it: its routes are said again, or withdrawn in the end."""
        self.say(leaf_route())
        self.say(leaf_route(OTHER))
        self.heard.doubt_all()
        self.assertEqual(self.heard.lose("a"), [])
        self.assertEqual(self.say(leaf_route()), [])
        self.assertEqual(self.updates(self.heard.expire()), [(100, None, 3)])
        self.assertEqual(self.heard.expire(), [])
        self.assertEqual(self.updates(self.heard.lose("a")), [(100, None, 4)])

    def test_what_is_in_doubt_is_withdrawn_if_its_neighbour_no_longer_holds_it(self):
        """Of this neighbour alone; what the neighbour holds is no longer in doubt."""
        for mac, neighbour in ((STATION, "a"), (OTHER, "a"), (THIRD, "b")):
            self.say(leaf_route(mac), neighbour)
        self.heard.doubt_all()
        self.assertEqual((self.heard.doubted_of("a"), self.heard.doubted_of("b")), (2, 1))
        held = [leaf_route().key()]
        self.assertEqual(self.updates(self.heard.confirm("a", held)), [(100, None, 4)])
        self.assertEqual((self.heard.doubted_of("a"), self.heard.doubted_of("b")), (0, 1))
        self.assertEqual(self.updates(self.heard.expire()), [(100, None, 5)])
        self.assertEqual(self.updates(self.heard.lose("a")), [(100, None, 6)])

    def test_what_an_edge_lacks(self):
        """A register that isn't there, or an older update of it; a withdrawal only where the edge has the register."""
        self.say(leaf_route())
        self.say(leaf_route(OTHER))
        self.unsay(leaf_route(OTHER))
        station, other = (f"10.0.0.100 5001 {mac}" for mac in (STATION, OTHER))
        same, gone = f"advert {station} seq 0 counter 1 incarnation 6", f"withdraw {other} counter 3 incarnation 6"
        for lines, wanted in (
            ([same], []),
            ([], [STATION]),
            ([f"advert {station} seq 0 counter 9 incarnation 5"], [STATION]),
            ([same, f"advert {other} seq 0 counter 2 incarnation 6"], [OTHER]),
            ([same, gone], []),
        ):
            found = {each[:4]: each for each in map(update, lines)}
            lacking = lacking_in(found, self.heard.updates)
            self.assertEqual([register[2].hex(":") for register in lacking], wanted)

    def test_a_route_that_can_no_longer_be_said_is_withdrawn(self):
        self.say(leaf_route())
        self.assertEqual(self.say(leaf_route(esi=octets("00 00000000000000000001"))), [(100, None, 2)])

    def test_an_earlier_life_is_answered_where_bgp_says_nothing(self):
        self.say(leaf_route())
        older = update(f"advert 10.0.0.100 5001 {OTHER} seq 3 counter 70 incarnation 5")
        self.assertTrue(self.heard.repeat(older))
        self.assertEqual(self.updates([older[:4]]), [(100, None, 2)])
        self.assertFalse(self.heard.repeat(older))
        self.assertFalse(self.heard.repeat(update(f"advert 10.0.0.100 5001 {STATION} seq 3 counter 70 incarnation 5")))
        self.assertFalse(self.heard.repeat(update("withdraw 10.0.0.9 5001 flood incarnation 5")))
        self.assertFalse(self.heard.repeat(self.heard.updates[older[:4]]))

    def test_what_is_newer_than_this_life_cant_be_answered(self):
        for numbers in ("incarnation 7", "counter 9 incarnation 6"):
            with self.assertRaises(Unreadable):
                self.heard.repeat(update(f"advert 10.0.0.100 5001 flood {numbers}"))


class Announces(unittest.TestCase):
    """What our edges say, as steps that GoBGP takes."""

    def setUp(self):
        self.own = Own()

    def plan(self, *lines: str) -> list:
        """Takes records; the steps of their registers: last octet, VNI, sequence number or None."""
        taken = [update(line) for line in lines]
        for each in taken:
            self.own.take(each)
        steps = self.own.plan(each[:4] for each in taken)
        return [(each.originator[3], each.vni, each.advert and each.advert.sequence) for each in steps]

    def test_the_newest_of_a_register_stays(self):
        """By incarnation, counter, content (docs/routes.md)."""
        newest = update(f"advert 10.0.0.1 5001 {STATION} static seq 0 counter 2 incarnation 3")
        self.assertTrue(self.own.take(newest))
        self.assertFalse(self.own.take(newest))
        for numbers in ("counter 2 incarnation 3", "counter 1 incarnation 3", "counter 9 incarnation 2"):
            older = f"seq 9 {numbers}"
            self.assertFalse(self.own.take(update(f"advert 10.0.0.1 5001 {STATION} {older}")))
        self.assertFalse(self.own.take(update(f"advert 10.0.0.1 5001 {STATION} static seq 9 counter 1 incarnation 3")))
        self.assertFalse(self.own.take(update(f"withdraw 10.0.0.1 5001 {STATION} counter 2 incarnation 3")))
        self.assertTrue(self.own.take(update(f"withdraw 10.0.0.1 5001 {STATION} counter 3 incarnation 3")))
        self.assertTrue(self.own.take(update(f"advert 10.0.0.1 5001 {STATION} ip 192.0.2.9 seq 0")))

    def test_lower_sequence_numbers_of_a_mac_go_first(self):
        pinned = f"advert 10.0.0.2 5001 {STATION} static seq 0"
        found = self.plan(f"advert 10.0.0.1 5001 {STATION} seq 3", pinned, "advert 10.0.0.1 5001 flood")
        self.assertEqual(found, [(2, 5001, 0), (1, 5001, 0), (1, 5001, 3)])

    def test_what_is_above_gives_way_and_comes_back(self):
        self.plan(f"advert 10.0.0.1 5001 {STATION} seq 3", f"advert 10.0.0.1 5002 {STATION} seq 1")
        self.plan(f"advert 10.0.0.1 5001 {OTHER} seq 9")
        found = self.plan(f"advert 10.0.0.2 5001 {STATION} seq 2")
        self.assertEqual(found, [(1, 5001, None), (2, 5001, 2), (1, 5001, 3)])

    def test_a_lower_number_of_the_same_register_takes_its_place(self):
        self.plan(f"advert 10.0.0.1 5001 {STATION} seq 3")
        self.assertEqual(self.plan(f"advert 10.0.0.1 5001 {STATION} seq 1 counter 2"), [(1, 5001, None), (1, 5001, 1)])

    def test_only_what_is_announced_is_withdrawn(self):
        self.assertEqual(self.plan(f"withdraw 10.0.0.1 5001 {STATION}"), [])
        self.plan(f"advert 10.0.0.1 5001 {STATION} seq 1 counter 2")
        self.assertEqual(self.plan(f"withdraw 10.0.0.1 5001 {STATION} counter 3"), [(1, 5001, None)])
        self.assertEqual(self.plan(f"withdraw 10.0.0.1 5001 {STATION} counter 4"), [])

    def test_a_sessions_end_withdraws_what_it_brought(self):
        self.plan(f"advert 10.0.0.1 5001 {STATION} seq 3", "advert 10.0.0.1 5001 flood")
        left = self.own.forget()
        self.assertEqual([each.advert for each in self.own.plan(left)], [None, None])
        self.assertEqual(self.own.announced, {})

    def test_what_an_earlier_life_left_is_known_again(self):
        said = update("advert 10.0.0.1 70537 flood")
        route = Route(3, "10.0.0.1:9", ip="10.0.0.1", hop="10.0.0.1", pmsi=Pmsi(6, 70537, ONE))
        names = Names(65000)
        self.assertEqual(announced_by(route, [ONE], names), said)
        self.assertEqual(route_of(said, names).rd, "10.0.0.1:9")
        for other in ({"hop": "10.0.0.2"}, {"hop": ""}, {"rd": "65000:9"}, {"rd": "10.0.0.1:8"}, {"pmsi": None}):
            self.assertIsNone(announced_by(route._replace(**other), [ONE, TWO], names))
        self.assertIsNone(announced_by(route, [TWO], Names(65000)))


# ---- GoBGP's messages, with stand-ins for protoc's classes -----------------------------------------------------


class Message(types.SimpleNamespace):
    """A message: its fields, and the name of its class; it stands for its own octets."""

    __hash__ = object.__hash__


def maker(name: str):
    """A class of messages."""

    def make(**fields: object) -> Message:
        return Message(name=name, **fields)

    make.FromString = lambda value: value
    return make


class Box:
    """An Any."""

    def Pack(self, message: Message) -> None:  # noqa: N802, as protobuf has it
        """Holds a message."""
        self.message = self.value = message
        self.type_url = f"type.googleapis.com/apipb.{message.name}"


class Classes:
    """A module of protoc's: any class, but none of an unknown name."""

    def __getattr__(self, name: str):
        if name.startswith(("_", "Unknown")):
            raise AttributeError(name)
        return maker(name)


def messages() -> Messages:
    """The conversion, over stand-ins."""
    family = types.SimpleNamespace(AFI_L2VPN=25, SAFI_EVPN=70)
    gobgp = types.SimpleNamespace(Path=maker("Path"), PeerState=types.SimpleNamespace(ESTABLISHED=6))
    gobgp.Family = lambda afi, safi: (afi, safi)
    gobgp.Family.AFI_L2VPN, gobgp.Family.SAFI_EVPN = family.AFI_L2VPN, family.SAFI_EVPN
    return Messages(Classes(), gobgp, Box)


def plain(message: object) -> object:
    """A message as tuples, without boxes."""
    if isinstance(message, Box):
        return plain(message.message)
    if isinstance(message, Message):
        fields = {key: plain(value) for key, value in message.__dict__.items() if key != "name"}
        return (message.name, fields)
    return [plain(each) for each in message] if isinstance(message, list) else message


class SpeaksToGobgp(unittest.TestCase):
    """Routes as messages (GoBGP's attribute.proto), and back."""

    RD = ("RouteDistinguisherIPAddress", {"admin": "10.0.0.1", "assigned": 5001})

    def test_a_mac_route(self):
        route = Route(2, "10.0.0.1:5001", STATION, "192.0.2.9", labels=(5001,), hop="10.0.0.1", mobility=(True, 7))
        route = route._replace(targets=("65000:5001",))
        name, path = plain(messages().path(route, False))
        esi = ("EthernetSegmentIdentifier", {"type": 0, "value": bytes(9)})
        fields = {"rd": self.RD, "esi": esi, "ethernet_tag": 0, "mac_address": STATION, "ip_address": "192.0.2.9"}
        fields["labels"] = [5001]
        nlri = ("EVPNMACIPAdvertisementRoute", fields)
        self.assertEqual((name, path["nlri"], path["family"], path["is_withdraw"]), ("Path", nlri, (25, 70), False))
        target = {"is_transitive": True, "sub_type": 2, "local_admin": 5001, "asn": 65000}
        communities = [
            ("TwoOctetAsSpecificExtended", target),
            ("EncapExtended", {"tunnel_type": 8}),
            ("MacMobilityExtended", {"is_sticky": True, "sequence_num": 7}),
        ]
        wanted = [
            ("OriginAttribute", {"origin": 0}),
            ("MpReachNLRIAttribute", {"family": (25, 70), "next_hops": ["10.0.0.1"], "nlris": [nlri]}),
            ("ExtendedCommunitiesAttribute", {"communities": communities}),
        ]
        self.assertEqual(path["pattrs"], wanted)

    def test_a_multicast_route(self):
        route = Route(3, "10.0.0.1:5001", ip="10.0.0.1", hop="10.0.0.1", pmsi=Pmsi(6, 5001, ONE))
        _, path = plain(messages().path(route, False))
        fields = {"rd": self.RD, "ethernet_tag": 0, "ip_address": "10.0.0.1"}
        self.assertEqual(path["nlri"], ("EVPNInclusiveMulticastEthernetTagRoute", fields))
        tunnel = {"flags": 0, "type": 6, "label": 5001, "id": ONE}
        self.assertEqual(path["pattrs"][-1], ("PmsiTunnelAttribute", tunnel))

    def test_a_withdrawal_has_no_attributes(self):
        _, path = plain(messages().path(Route(2, "10.0.0.1:5001", STATION, labels=(5001,)), True))
        self.assertEqual((path["is_withdraw"], path["pattrs"]), (True, []))

    def test_route_targets(self):
        usual = {"is_transitive": True, "sub_type": 2, "local_admin": 7}
        four = ("FourOctetAsSpecificExtended", {**usual, "asn": 4200000001})
        address = ("IPv4AddressSpecificExtended", {**usual, "address": "10.0.0.9"})
        self.assertEqual(plain(messages().target("4200000001:7")), four)
        self.assertEqual(plain(messages().target("10.0.0.9:7")), address)

    def test_what_is_said_is_read_again(self):
        targets = ("65000:5001", "10.0.0.9:7", "4200000001:7")
        station = leaf_route(ip="192.0.2.9", labels=(5001, 4000), mobility=(False, 9), targets=targets)
        for route in (station, leaf_flood()):
            self.assertEqual(messages().route(messages().path(route, False)), route)

    def test_no_address_is_spelt_nil_by_go(self):
        path = messages().path(leaf_route(ip="<nil>"), False)
        self.assertEqual(messages().route(path), leaf_route())

    def test_other_types_and_attributes_are_read(self):
        path = messages().path(leaf_route(), False)
        unknown = Box()
        unknown.message, unknown.type_url = Message(), "type.googleapis.com/apipb.UnknownAttribute"
        path.pattrs.append(unknown)
        self.assertEqual(messages().route(path), leaf_route())
        path.nlri = Box()
        path.nlri.Pack(Message(name="EVPNIPPrefixRoute", ip_prefix="192.0.2.0"))
        self.assertEqual(messages().route(path).kind, 0)

    def test_keys(self):
        for route in (leaf_route(ip="192.0.2.9", mobility=(False, 9)), leaf_flood()):
            self.assertEqual(messages().key(messages().path(route, False)), route.key())

    def test_sessions(self):
        """Of the family EVPN alone."""

        def part(family: tuple, received: int, *ends: bool) -> Message:
            restart = Message(state=Message(received=ends[0], end_of_rib_received=ends[1]))
            return Message(state=Message(family=family, received=received), mp_graceful_restart=restart)

        for state, parts, wanted in (
            (6, [part((1, 1), 9, False, False), part((25, 70), 5, True, True)], Session("192.0.2.1", True, 5, True, True)),
            (6, [part((25, 70), 5, True, False)], Session("192.0.2.1", True, 5, True, False)),
            (3, [part((1, 1), 9, True, True)], Session("192.0.2.1", False)),
        ):
            state = Message(neighbor_address="192.0.2.1", session_state=state)
            self.assertEqual(messages().session(Message(state=state, afi_safis=parts)), wanted)

    def test_events(self):
        path = messages().path(leaf_route(), False)
        path.neighbor_ip, path.identifier = "192.0.2.1", 7
        other = Message(name="Path", family=(1, 1))
        table = Message(WhichOneof=lambda _: "table", table=Message(paths=[other, path]))
        self.assertEqual(list(messages().events(table)), [Event("192.0.2.1", leaf_route(), False, 7)])
        for state, is_up in ((6, True), (1, False), (3, False)):
            wanted = [Event("192.0.2.1", is_up=is_up)]
            peer = Message(state=Message(neighbor_address="192.0.2.1", session_state=state))
            answer = Message(WhichOneof=lambda _: "peer", peer=Message(peer=peer))
            self.assertEqual(list(messages().events(answer)), wanted)


# ---- the gateway, beside a daemon that keeps GoBGP's rule ------------------------------------------------------


class Stand:
    """A daemon in the place of gobgpd: it tells events, keeps routes, and declines sequence numbers as GoBGP does."""

    def __init__(self) -> None:
        self.events: "queue.Queue" = queue.Queue()
        self.table: dict = {}
        self.changes: list = []
        self.is_there = self.has_begun = True
        self.foreign = -1
        self.neighbours: list = []
        self.held: list = []

    def autonomous(self) -> int:
        """Its AS, which has four octets."""
        return 4200000001

    def watch(self, with_routes: bool = True):
        """Events until an exception is among them; whoever wants no routes gets none."""
        if not self.is_there:
            raise NoDaemon("not there")
        yield []
        while True:
            event = self.events.get()
            if isinstance(event, Exception):
                raise event
            if with_routes or event.route is None:
                yield [event]

    def own(self) -> list:
        """What it was told."""
        if not self.is_there:
            raise NoDaemon("not there")
        if not self.has_begun:
            raise Declined("BGP hasn't begun")
        return list(self.table.values())

    def sessions(self) -> list:
        """Its neighbours' sessions."""
        return list(self.neighbours)

    def held_of(self, neighbour: str) -> list:
        """The keys of what a neighbour has said, each with its identifier."""
        return [(route.key(), 0) for each, route in self.held if each == neighbour]

    def clear(self) -> None:
        """Forgets all that it was told."""
        self.changes.append("clear")
        self.table.clear()

    def change(self, changes) -> None:
        """Takes routes one by one."""
        for route, is_withdrawn in changes:
            if not self.is_there:
                raise NoDaemon("not there")
            self.changes.append((route, is_withdrawn))
            if is_withdrawn:
                self.table.pop(route.key(), None)
                continue
            others = [each.mobility[1] for each in self.table.values() if each.mobility and each.mac == route.mac]
            if route.mobility and route.mobility[1] < max([self.foreign + 1, *others]):
                raise Declined("invalid MAC mobility sequence number")
            self.table[route.key()] = route


class Edges:
    """Edges in the place of `evpnd serve`, at a Unix socket: they say their records, take what comes, and report it."""

    def __init__(self, path: str, *own: str) -> None:
        self.own, self.table = [update(line) for line in own], {}
        self.is_busy = self.is_full = False
        self.refused = b""
        self.sessions: list = []
        self.listener = socket.socket(socket.AF_UNIX)
        self.listener.bind(path)
        self.listener.listen()
        threading.Thread(target=self.serve, daemon=True).start()

    def serve(self) -> None:
        """Takes one client after the other."""
        with contextlib.suppress(OSError):
            while True:
                connection, _ = self.listener.accept()
                threading.Thread(target=self.answer, args=(connection,), daemon=True).start()

    def answer(self, connection: socket.socket) -> None:
        """Does what a client's first line asks for, until it ends."""
        with connection, connection.makefile("rb") as stream, contextlib.suppress(OSError):
            word = stream.readline()
            if word == b"records\n" and self.is_full:
                connection.sendall(b"busy\n")
            elif word == b"records\n":
                self.sessions.append(connection)
                connection.sendall(b"".join(map(record_of, self.own)))
                for each in read_records(stream):
                    self.take(each)
            elif self.is_busy:
                connection.sendall(b"busy\n")
            else:
                answers = {b"edges\n": "1 edge 10.0.0.1 ports 1:5001 networks 5001\n", b"1 report\n": report_of(self.table)}
                for line in stream:
                    connection.sendall((answers[line] + "\n").encode())

    def take(self, each: Update) -> None:
        """Enters a record: the newest of a register stays; those of an edge that it refuses aren't taken."""
        if each.originator == self.refused:
            return
        old = self.table.get(place_of(each))
        if old is None or newness_of(each) > newness_of(old):
            self.table[place_of(each)] = each

    def end(self) -> None:
        """Ends all sessions, as a killed program does."""
        self.listener.close()
        for connection in self.sessions:
            with contextlib.suppress(OSError):
                connection.shutdown(socket.SHUT_RDWR)


def log_of(test: unittest.TestCase) -> io.StringIO:
    """What is logged during a test."""
    said = io.StringIO()
    handler = logging.StreamHandler(said)
    program.LOG.addHandler(handler)
    program.LOG.propagate = False
    test.addCleanup(program.LOG.removeHandler, handler)
    return said


class Joins(unittest.TestCase):
    """The gateway's threads, from one side to the other."""

    def setUp(self):
        times = {"HOLD": 1, "KEEP": 1, "AGAIN": 0.05, "TICK": 0.05, "CONNECT": 0.05}
        for name, value in times.items():
            patch = mock.patch.object(program, name, value)
            patch.start()
            self.addCleanup(patch.stop)
        self.stand = Stand()
        self.said = log_of(self)
        self.gateways, self.threads = [], []

    def tearDown(self):
        for gateway in self.gateways:
            gateway.stopping.set()
            gateway.announcing.close()
            gateway.outgoing.close()
        self.stand.is_there = False
        for _ in self.gateways:
            self.stand.events.put(NoDaemon("the end"))
        for thread in self.threads:
            thread.join(5)

    def gateway(self) -> Gateway:
        """A running gateway of the edges 10.0.0.1 and 10.0.0.2, whose second is over; it writes into `out`."""
        gateway = Gateway(self.stand, Routes(EVERY), [ONE, TWO], Names(0))
        gateway.heard.incarnation -= 2 - len(self.gateways)
        self.gateways.append(gateway)
        self.out = io.BytesIO()
        self.writer = program.started(gateway.write, self.out, gateway.begin_session())
        self.threads += [self.writer, *(program.started(body) for body in (gateway.announce, gateway.tend, gateway.resolve, gateway.watch))]
        return gateway

    def records(self) -> list:
        """What was written: originator's last octet, MAC or none, advert, counter."""
        updates = list(read_records(io.BytesIO(self.out.getvalue())))
        return [(each.originator[3], each.mac and each.mac.hex(":"), each.advert, each.counter) for each in updates]

    def writes(self, *wanted: tuple) -> None:
        """Sees that these records were written, and no others."""
        reached(lambda: len(self.records()) >= len(wanted))
        self.assertEqual(self.records(), list(wanted))

    def announces(self, *wanted: tuple) -> None:
        """Sees that the daemon has these routes: next hop, MAC or none, mobility."""
        found = lambda: sorted((each.hop, each.mac, each.mobility) for each in self.stand.table.values())  # noqa: E731
        reached(lambda: found() == sorted(wanted))
        self.assertEqual(found(), sorted(wanted))

    def give(self, gateway: Gateway, *lines: str, behind: bytes = b"") -> object:
        """Lets a gateway read records."""
        return gateway.read(io.BytesIO(b"".join(record_of(update(line)) for line in lines) + behind))

    def test_from_bgp_to_records(self):
        self.gateway()
        self.stand.events.put(Event("a", leaf_route()))
        self.writes((100, STATION, Advert(), 1))
        self.stand.events.put(Event("a", leaf_route(), True))
        self.writes((100, STATION, Advert(), 1), (100, STATION, None, 2))

    def test_a_leaf_that_dies_is_withdrawn(self):
        self.gateway()
        self.stand.events.put(Event("a", leaf_route()))
        self.stand.events.put(Event("b", leaf_route(OTHER, hop="10.0.0.7")))
        self.writes((100, STATION, Advert(), 1), (7, OTHER, Advert(), 1))
        self.stand.events.put(Event("a"))
        self.writes((100, STATION, Advert(), 1), (7, OTHER, Advert(), 1), (100, STATION, None, 2))

    def test_several_paths_of_one_route(self):
        """Told apart by their identifiers: each next hop has its own register."""
        self.gateway()
        self.stand.events.put(Event("a", leaf_route(), False, 1))
        self.stand.events.put(Event("a", leaf_route(hop="10.0.0.7"), False, 2))
        self.writes((100, STATION, Advert(), 1), (7, STATION, Advert(), 1))
        self.stand.events.put(Event("a", leaf_route(), True, 1))
        self.writes((100, STATION, Advert(), 1), (7, STATION, Advert(), 1), (100, STATION, None, 2))

    def test_two_rds_of_one_edge_are_told(self):
        """By two reflectors one route comes twice, which is nothing to tell."""
        gateway = self.gateway()
        self.stand.events.put(Event("a", leaf_route()))
        self.stand.events.put(Event("b", leaf_route()))
        self.stand.events.put(Event("b", leaf_route(mobility=(False, 9))._replace(rd="10.0.0.100:3")))
        self.assertTrue(reached(lambda: self.records() and self.records()[-1][2] == Advert(False, 9)))
        self.assertEqual(gateway.told, {"folded into the better route of the same next hop and key": 1})

    def test_a_daemon_that_begins_anew_in_time_takes_nothing(self):
        """What it says again stays without a word; what it doesn't is withdrawn in the end."""
        self.gateway()
        self.stand.events.put(Event("a", leaf_route()))
        self.stand.events.put(Event("a", leaf_route(OTHER)))
        both = (100, STATION, Advert(), 1), (100, OTHER, Advert(), 2)
        self.writes(*both)
        self.stand.events.put(NoDaemon("gone"))
        self.stand.events.put(Event("a", leaf_route()))
        self.writes(*both, (100, OTHER, None, 3))
        self.assertEqual(self.said.getvalue().count("gone"), 1)
        self.stand.events.put(Event("a"))
        self.writes(*both, (100, OTHER, None, 3), (100, STATION, None, 4))

    def lost_routes(self) -> tuple:
        """A daemon has ended, with two routes of a neighbour that no limit of time withdraws in this test."""
        self.set("KEEP", 600)
        gateway = self.gateway()
        self.stand.events.put(Event("a", leaf_route()))
        self.stand.events.put(Event("a", leaf_route(OTHER)))
        both = (100, STATION, Advert(), 1), (100, OTHER, Advert(), 2)
        self.writes(*both)
        self.stand.events.put(NoDaemon("gone"))
        self.assertTrue(reached(lambda: gateway.lives == 1 and gateway.is_up))
        return gateway, both

    def test_what_ends_while_a_daemon_is_away_is_withdrawn_with_its_end_of_rib(self):
        """Not before; and what the neighbour has sent stays, though its event is still on its way."""
        gateway, both = self.lost_routes()
        self.stand.held = [("a", leaf_route())]
        for neighbours in ([], [Session("a", False, 1)], [Session("a", True, 1, marks_end=True)]):
            self.stand.neighbours = neighbours
            time.sleep(0.7)
            self.assertEqual(self.records(), list(both), neighbours)
        self.stand.neighbours = [Session("a", True, 1, marks_end=True, has_all=True)]
        self.writes(*both, (100, OTHER, None, 3))
        self.assertTrue(reached(lambda: gateway.doubt_ends_at is None))
        self.stand.events.put(Event("a", leaf_route()))
        self.stand.events.put(Event("a", leaf_route(), True))
        self.writes(*both, (100, OTHER, None, 3), (100, STATION, None, 4))

    def test_new_routes_dont_delay_that(self):
        """A fabric where stations come and go all the time."""
        _, both = self.lost_routes()
        self.stand.held = [("a", leaf_route())]
        grows = itertools.count()
        found = lambda: [Session("a", True, next(grows), marks_end=True, has_all=True)]  # noqa: E731
        with mock.patch.object(self.stand, "sessions", side_effect=found):
            self.writes(*both, (100, OTHER, None, 3))

    def test_a_neighbour_that_sends_no_end_of_rib_has_sent_all_when_it_is_silent(self):
        _, both = self.lost_routes()
        self.set("QUIET", 3)
        self.stand.held = [("a", leaf_route())]
        for received in range(20):
            self.stand.neighbours = [Session("a", True, received)]
            time.sleep(0.2)
        self.assertEqual(self.records(), list(both))
        self.writes(*both, (100, OTHER, None, 3))

    def test_a_daemons_word_doesnt_count_for_the_next_one(self):
        """A daemon that ends while it lists what it holds settles no doubt."""
        gateway, both = self.lost_routes()

        def lists(_neighbour: str) -> list:
            gateway.lose_daemon()
            return []

        with mock.patch.object(self.stand, "held_of", side_effect=lists):
            gateway.confirm("a")
        self.assertEqual(gateway.heard.doubted_of("a"), 2)
        self.assertEqual(self.records(), list(both))

    def test_a_daemon_that_stays_away_takes_all(self):
        self.gateway()
        self.stand.events.put(Event("a", leaf_route()))
        self.writes((100, STATION, Advert(), 1))
        self.stand.is_there = False
        self.stand.events.put(NoDaemon("gone"))
        self.writes((100, STATION, Advert(), 1), (100, STATION, None, 2))

    def test_what_somebody_else_changes_at_the_daemon_is_mended(self):
        """A route that is gone, and one with another route target or sequence number."""
        gateway = self.gateway()
        self.set("LOOK", 0.1)
        self.give(gateway, f"advert 10.0.0.1 5001 {STATION} seq 3", f"advert 10.0.0.1 5001 {OTHER} seq 1")
        wanted = ("10.0.0.1", STATION, (False, 3)), ("10.0.0.1", OTHER, (False, 1))
        self.announces(*wanted)
        good = dict(self.stand.table)
        self.stand.table.clear()
        self.announces(*wanted)
        for fields in ({"targets": ("65000:7",)}, {"mobility": (False, 9)}):
            self.stand.table.update({key: route._replace(**fields) for key, route in good.items()})
            self.assertTrue(reached(lambda: self.stand.table == good), fields)
        self.assertIn("mended", self.said.getvalue())

    def test_a_look_that_finds_nothing_changes_nothing(self):
        gateway = self.gateway()
        self.set("LOOK", 0.05)
        self.give(gateway, f"advert 10.0.0.1 5001 {STATION} seq 3", "advert 10.0.0.1 5001 flood counter 2")
        self.assertTrue(reached(lambda: len(self.stand.table) == 2))
        count = len(self.stand.changes)
        time.sleep(0.5)
        self.assertEqual((len(self.stand.changes), self.said.getvalue()), (count, ""))

    def set(self, name: str, value: float) -> None:
        """Another time, for this test."""
        patch = mock.patch.object(program, name, value)
        patch.start()
        self.addCleanup(patch.stop)

    def left_over(self) -> None:
        """A route that an earlier life left at the daemon."""
        route = leaf_route()._replace(rd="10.0.0.1:5001", hop="10.0.0.1", mobility=(False, 0))
        self.stand.table[route.key()] = route

    def test_what_an_earlier_life_left_is_withdrawn_though_no_edge_comes(self):
        self.left_over()
        self.edges().end()
        os.unlink(self.path)
        self.at_the_edges()
        time.sleep(0.5)
        self.announces(("10.0.0.1", STATION, (False, 0)))
        self.announces_in_the_end()

    def announces_in_the_end(self, *wanted: tuple) -> None:
        """Sees that the daemon has these routes in the end, as `announces`."""
        reached(lambda: len(self.stand.table) == len(wanted))
        self.announces(*wanted)

    def test_withdraw(self):
        """What an earlier life left is withdrawn at once; another's route isn't."""
        theirs = Route(3, "10.0.0.9:1", ip="10.0.0.9", hop="10.0.0.9", pmsi=Pmsi(6, 5001, ONE))
        self.stand.table["theirs"] = theirs
        self.left_over()
        gateway = Gateway(self.stand, Routes(EVERY), [ONE], Names(0))
        self.assertEqual(gateway.withdraw(), 0)
        self.assertEqual(self.stand.table, {"theirs": theirs})
        self.stand.is_there = False
        self.assertEqual(gateway.withdraw(), 1)

    def test_edges_are_looked_at(self):
        """What they lack of the fabric is told again, and what BGP doesn't say is withdrawn, whoever said it there."""
        edges = self.edges()
        self.set("LOOK", 0.2)
        self.at_the_edges()
        self.stand.events.put(Event("a", leaf_route()))
        self.stand.events.put(Event("a", leaf_flood()))
        wanted = (100, STATION, Advert()), (100, None, Advert())
        self.has(edges, *wanted)
        time.sleep(1.5)
        edges.take(update("advert 10.0.0.77 5001 flood"))
        edges.table.pop(place_of(update(f"advert 10.0.0.100 5001 {STATION}")))
        self.has(edges, *wanted, (77, None, None))
        self.assertIn("an edge lacked 1 registers", self.said.getvalue())

    def test_one_that_announces_only(self):
        """For a second GoBGP: it announces and withdraws, and tells the edges nothing, whatever they or the fabric say."""
        edges = self.edges()
        edges.own.append(update("advert 10.0.0.77 5001 flood"))
        self.left_over()
        gateway = self.at_the_edges(announces_only=True)
        self.stand.events.put(Event("a", is_up=True))
        self.stand.events.put(Event("a", leaf_route()))
        wanted = ("10.0.0.1", "", None), ("10.0.0.1", OTHER, (False, 0))
        self.announces_in_the_end(*wanted)
        time.sleep(1.5)
        self.assertEqual((edges.table, gateway.outgoing.waiting(), gateway.heard.updates), ({}, set(), {}))
        self.announces(*wanted)
        edges.end()
        self.announces_in_the_end()

    def test_a_leaf_of_which_the_edges_take_nothing_is_told(self):
        """No [[peer]] names it."""
        edges = self.edges()
        edges.refused = LEAF
        self.set("LOOK", 0.2)
        self.at_the_edges()
        self.stand.events.put(Event("a", leaf_route()))
        self.stand.events.put(Event("a", leaf_route(OTHER, hop="10.0.0.7")))
        self.assertTrue(reached(lambda: "takes nothing of 10.0.0.100: no [[peer]] names it" in self.said.getvalue()))
        self.assertNotIn("nothing of 10.0.0.7", self.said.getvalue())

    def test_edges_that_have_no_seat(self):
        """That is logged once, the gateway waits longer each time, and is in as soon as there is one."""
        edges = self.edges()
        edges.is_full = True
        waits = []
        gateway = self.at_the_edges()
        with mock.patch.object(gateway.stopping, "wait", side_effect=lambda seconds=None: waits.append(seconds) or time.sleep(0.01)):
            self.assertTrue(reached(lambda: program.LONGEST in waits))
        longer = sorted(set(waits).difference((program.TICK, program.AGAIN)))
        self.assertEqual(longer[1:], [min(2 * each, program.LONGEST) for each in longer[:-1]])
        self.assertEqual(self.said.getvalue().count("busy"), 1)
        self.assertNotIn("connected", self.said.getvalue())

    def test_figures(self):
        gateway = self.gateway()
        self.stand.events.put(Event("192.0.2.1", is_up=True))
        self.stand.events.put(Event("192.0.2.1", leaf_route()))
        self.stand.events.put(Event("192.0.2.1", leaf_route(OTHER, hop="2001:db8::1")))
        self.give(gateway, "advert 10.0.0.1 5001 flood")
        self.assertTrue(reached(lambda: self.stand.table and gateway.left_out))
        text = prometheus_text(gateway.figures())
        for line in (
            'evpnd_bgp_session_up{session="gobgpd"} 1',
            'evpnd_bgp_session_up{session="records"} 0',
            'evpnd_bgp_neighbor_up{neighbor="192.0.2.1"} 1',
            'evpnd_bgp_routes{direction="in"} 1',
            'evpnd_bgp_routes{direction="out"} 1',
            'evpnd_bgp_refused_total{kind="left out",reason="a next hop that isn\'t an IPv4 address"} 1',
        ):
            self.assertIn(f"{line}\n", text)
        self.assertRegex(text, r'evpnd_bgp_seconds_since_look\{at="gobgpd"\} [0-9.]+\n')

    def test_from_records_to_bgp(self):
        gateway = self.gateway()
        self.give(gateway, f"advert 10.0.0.1 5001 {STATION} seq 3", f"advert 10.0.0.2 5001 {STATION} static seq 0")
        self.announces(("10.0.0.1", STATION, (False, 3)), ("10.0.0.2", STATION, (True, 0)))
        self.assertEqual({each.targets for each in self.stand.table.values()}, {("59905:5001",)})
        self.give(gateway, f"withdraw 10.0.0.1 5001 {STATION} counter 2")
        self.announces(("10.0.0.2", STATION, (True, 0)))
        gateway.end_session()
        self.announces()

    def test_many_are_withdrawn_at_once_where_nobody_elses_are_there(self):
        gateway = self.gateway()
        lines = [f"advert 10.0.0.1 5001 02:00:00:00:{number:02x}:01 seq 1" for number in range(250)]
        for theirs in ({}, {"theirs": Route(3, "10.0.0.9:1", ip="10.0.0.9", hop="10.0.0.9", pmsi=Pmsi(6, 5001, ONE))}):
            self.stand.table.update(theirs)
            self.give(gateway, *lines)
            self.assertTrue(reached(lambda: len(self.stand.table) == 250 + len(theirs)))
            self.stand.changes.clear()
            gateway.end_session()
            self.assertTrue(reached(lambda: len(self.stand.table) == len(theirs)))
            self.assertEqual(self.stand.changes.count("clear"), 1 - len(theirs))

    def test_nothing_comes_back(self):
        """A record of another edge isn't announced; a route to an edge of ours is no record."""
        gateway = self.gateway()
        self.stand.events.put(Event("a", leaf_route()))
        self.writes((100, STATION, Advert(), 1))
        gateway.read(io.BytesIO(self.out.getvalue()))
        self.give(gateway, f"advert 10.0.0.1 5001 {OTHER} seq 0")
        self.announces(("10.0.0.1", OTHER, (False, 0)))
        self.stand.events.put(Event("a", leaf_route(OTHER, hop="10.0.0.1")._replace(rd="10.0.0.1:5001")))
        self.stand.events.put(Event("a", leaf_flood()))
        self.writes((100, STATION, Advert(), 1), (100, None, Advert(), 2))
        self.assertEqual(gateway.left_out, {"a next hop that is one of our own edges": 1})
        self.assertEqual(gateway.told, {})

    def test_a_daemon_that_begins_anew_is_told_all(self):
        gateway = self.gateway()
        self.give(gateway, f"advert 10.0.0.1 5001 {STATION} seq 3")
        self.announces(("10.0.0.1", STATION, (False, 3)))
        self.stand.table.clear()
        self.stand.events.put(NoDaemon("gone"))
        self.announces(("10.0.0.1", STATION, (False, 3)))

    def test_a_daemon_that_isnt_there_is_waited_for(self):
        self.stand.is_there = False
        gateway = self.gateway()
        self.give(gateway, f"advert 10.0.0.1 5001 {STATION} seq 3")
        time.sleep(0.3)
        self.stand.is_there = True
        self.announces(("10.0.0.1", STATION, (False, 3)))
        self.assertEqual(self.said.getvalue().count("not there"), 1)

    def test_a_daemon_that_hasnt_begun_is_waited_for(self):
        self.stand.has_begun = False
        gateway = self.gateway()
        self.give(gateway, f"advert 10.0.0.1 5001 {STATION} seq 3")
        self.assertTrue(reached(lambda: "BGP hasn't begun" in self.said.getvalue()))
        self.stand.has_begun = True
        self.announces(("10.0.0.1", STATION, (False, 3)))

    def test_a_life_after_a_life(self):
        """What the first left is said anew or withdrawn, in BGP and in the records; what is said is newer."""
        first = self.gateway()
        self.give(first, f"advert 10.0.0.1 5001 {STATION} seq 3", f"advert 10.0.0.1 5001 {OTHER} seq 3")
        self.stand.events.put(Event("a", leaf_route()))
        self.stand.events.put(Event("a", leaf_flood()))
        self.writes((100, STATION, Advert(), 1), (100, None, Advert(), 2))
        self.announces(("10.0.0.1", STATION, (False, 3)), ("10.0.0.1", OTHER, (False, 3)))
        first.stopping.set()
        self.stand.events.put(NoDaemon("killed"))
        old = self.out.getvalue()
        first.outgoing.close()
        self.writer.join()
        second = self.gateway()
        second.read(io.BytesIO(old))
        self.give(second, f"advert 10.0.0.1 5001 {OTHER} seq 3")
        self.stand.events.put(Event("a", leaf_route()))
        self.announces(("10.0.0.1", OTHER, (False, 3)))
        self.writes((100, STATION, Advert(), 1), (100, None, None, 2))
        for older, newer in zip(read_records(io.BytesIO(old)), read_records(io.BytesIO(self.out.getvalue()))):
            self.assertGreater(newer.incarnation, older.incarnation)

    def edges(self) -> Edges:
        """Edges that run at a socket, with a station of their own."""
        folder = tempfile.TemporaryDirectory()
        self.addCleanup(folder.cleanup)
        self.path = os.path.join(folder.name, "control")
        edges = Edges(self.path, "advert 10.0.0.1 5001 flood", f"advert 10.0.0.1 5001 {OTHER} seq 0 counter 2")
        self.addCleanup(edges.end)
        return edges

    def at_the_edges(self, announces_only: bool = False) -> Gateway:
        """A running gateway at their socket, with a later incarnation than the one before it."""
        gateway = Gateway(self.stand, Routes(EVERY), [ONE], Names(0))
        gateway.announces_only = announces_only
        gateway.heard.incarnation -= 4 - len(self.gateways)
        self.gateways.append(gateway)
        bodies = (gateway.announce, gateway.tend, gateway.look_often, gateway.watch)
        self.threads += [program.started(gateway.by_socket, self.path), *map(program.started, bodies)]
        return gateway

    def kill(self, gateway: Gateway, edges: Edges) -> None:
        """Ends a gateway in mid-session: neither GoBGP nor the edges hear of it."""
        table = dict(self.stand.table)
        gateway.stopping.set()
        for connection in edges.sessions:
            connection.shutdown(socket.SHUT_RDWR)
        self.stand.events.put(NoDaemon("killed"))
        for thread in (self.threads[-3], self.threads[-1]):
            thread.join(5)
        gateway.announcing.close()
        self.threads[-2].join(5)
        self.stand.table = table

    def has(self, edges: Edges, *wanted: tuple) -> None:
        """Sees that the edges soon have these registers of others: originator's last octet, MAC or none, advert."""
        found = lambda: {(each.originator[3], each.mac and each.mac.hex(":"), each.advert) for each in edges.table.values()}  # noqa: E731
        reached(lambda: found() == set(wanted))
        self.assertEqual(found(), set(wanted))

    def test_a_killed_gateway_is_followed_at_the_edges(self):
        """What the first one brought is refreshed, and withdrawn where BGP has ceased to say it while there was none."""
        edges = self.edges()
        first = self.at_the_edges()
        for route in (leaf_route(), leaf_route("02:00:00:00:00:0c"), leaf_flood()):
            self.stand.events.put(Event("a", route))
        self.has(edges, (100, STATION, Advert()), (100, "02:00:00:00:00:0c", Advert()), (100, None, Advert()))
        self.announces(("10.0.0.1", "", None), ("10.0.0.1", OTHER, (False, 0)))
        self.kill(first, edges)
        old = dict(edges.table)
        self.at_the_edges()
        self.stand.events.put(Event("a", leaf_route()))
        self.stand.events.put(Event("a", leaf_flood()))
        self.has(edges, (100, STATION, Advert()), (100, "02:00:00:00:00:0c", None), (100, None, Advert()))
        for register, each in edges.table.items():
            self.assertGreater(each.incarnation, old[register].incarnation)
        self.announces(("10.0.0.1", "", None), ("10.0.0.1", OTHER, (False, 0)))

    def test_edges_that_begin_anew_are_told_all(self):
        """A gateway outlives them: all of the fabric is said to the new ones, all of theirs is announced."""
        edges = self.edges()
        self.at_the_edges()
        self.stand.events.put(Event("a", leaf_route()))
        self.has(edges, (100, STATION, Advert()))
        self.announces(("10.0.0.1", "", None), ("10.0.0.1", OTHER, (False, 0)))
        edges.end()
        self.announces()
        os.unlink(self.path)
        edges = Edges(self.path, "advert 10.0.0.1 5001 flood incarnation 1")
        self.addCleanup(edges.end)
        self.has(edges, (100, STATION, Advert()))
        self.announces(("10.0.0.1", "", None))

    def test_edges_that_answer_others(self):
        """That they have no seat for the question is told."""
        edges = self.edges()
        edges.is_busy = True
        self.at_the_edges()
        self.stand.events.put(Event("a", leaf_route()))
        self.has(edges, (100, STATION, Advert()))
        self.assertTrue(reached(lambda: "what they have of the fabric (busy)" in self.said.getvalue()))

    def test_garbage_ends_the_stream_with_a_line_and_nothing_else(self):
        gateway = self.gateway()
        good = f"advert 10.0.0.1 5001 {STATION} seq 3"
        self.assertEqual(self.give(gateway, good, behind=b"garbage"), "fault 1 at record 2")
        self.assertEqual(self.give(gateway, good, behind=b"EV\x03"), "truncated 3 at record 2")
        self.assertIsNone(self.give(gateway, good))
        self.announces(("10.0.0.1", STATION, (False, 3)))

    def test_a_refused_record_is_counted_and_told_once(self):
        gateway = self.gateway()
        record = record_of(update(f"advert 10.0.0.1 5001 {STATION} seq 0"))
        group = record.replace(octets("02000000000a"), octets("03000000000a"))
        self.assertIsNone(self.give(gateway, behind=group + group + record))
        self.announces(("10.0.0.1", STATION, (False, 0)))
        self.assertEqual(gateway.refused, {"a record, for cause 11 (docs/records.md)": 2})
        self.assertEqual(self.said.getvalue().count("cause 11"), 1)

    def test_any_octets_are_taken(self):
        """Each octet of a record changed in turn, and cuts: an answer, and no exception."""
        gateway = self.gateway()
        record = record_of(update(f"advert 10.0.0.1 5001 {STATION} ip 192.0.2.9 seq 3 label2 7"))
        for place in range(len(record)):
            for octet in (0, 1, 255):
                gateway.read(io.BytesIO(record[:place] + bytes([octet]) + record[place + 1 :]))
            gateway.read(io.BytesIO(record[:place]))
        self.give(gateway, "advert 10.0.0.2 5001 flood counter 9 incarnation 4294967295")
        self.assertTrue(reached(lambda: any(each.kind == 3 for each in self.stand.table.values())))

    def test_what_gobgp_declines_is_tried_again_when_the_fabric_has_changed(self):
        """Its own table has the fabric's routes then, which docs/fabric.md keeps out of it."""
        self.stand.foreign = 4
        gateway = self.gateway()
        self.stand.events.put(Event("a", leaf_route(mobility=(False, 4))))
        self.give(gateway, f"advert 10.0.0.1 5001 {STATION} static seq 0", f"advert 10.0.0.1 5001 {OTHER} seq 9")
        self.announces(("10.0.0.1", OTHER, (False, 9)))
        self.assertEqual(self.said.getvalue().count("declined by gobgpd"), 1)
        self.stand.foreign = -1
        self.stand.events.put(Event("a", leaf_route(), True))
        self.announces(("10.0.0.1", OTHER, (False, 9)), ("10.0.0.1", STATION, (True, 0)))

    def test_what_waits_is_written_once_by_its_newest_value(self):
        pending = Pending()
        gateway = Gateway(self.stand, Routes(EVERY), [ONE], Names(0))
        gateway.heard.incarnation -= 2
        gateway.outgoing = pending
        for sequence in range(5):
            gateway.hear([Event("a", leaf_route(mobility=(False, sequence)))])
        pending.close()
        self.out = io.BytesIO()
        gateway.write(self.out, pending)
        self.assertEqual(self.records(), [(100, STATION, Advert(False, 4), 5)])

    def test_nothing_is_written_in_the_second_of_the_incarnation(self):
        gateway = Gateway(self.stand, Routes(EVERY), [ONE], Names(0))
        pending = Pending()
        pending.close()
        gateway.write(io.BytesIO(), pending)
        self.assertGreaterEqual(time.time(), gateway.heard.incarnation + 1)


class AtASocket(unittest.TestCase):
    """Sessions at a Unix socket, as its client."""

    def test_it_says_its_word_and_connects_again(self):
        again, program.AGAIN = program.AGAIN, 0.05
        stand, said = Stand(), io.StringIO()
        with contextlib.ExitStack() as held:
            folder = held.enter_context(tempfile.TemporaryDirectory())
            server = held.enter_context(socket.socket(socket.AF_UNIX))
            held.enter_context(contextlib.redirect_stderr(said))
            path = os.path.join(folder, "records")
            gateway = Gateway(stand, Routes(EVERY), [ONE], Names(0))
            gateway.heard.incarnation -= 2
            for body, words in ((gateway.by_socket, [path]), (gateway.announce, []), (gateway.watch, [])):
                program.started(body, *words)
            self.assertTrue(reached(lambda: "No such file" in said.getvalue()))
            server.bind(path)
            server.listen()
            stand.events.put(Event("a", leaf_route()))
            wanted = octets("4556 03 01 0036 0a000064")
            for number in range(2):
                connection, _ = server.accept()
                with connection, connection.makefile("rb") as stream:
                    self.assertEqual(stream.readline(), b"records\n")
                    self.assertEqual(stream.read(10), wanted)
                    connection.sendall(record_of(update(f"advert 10.0.0.1 5001 {STATION} seq 3")))
                    self.assertTrue(reached(lambda: stand.table))
                    connection.sendall(b"garbage")
                    self.assertTrue(reached(lambda: said.getvalue().count("ended: fault 1 at record 2") > number))
                    self.assertTrue(reached(lambda: not stand.table))
            connection, _ = server.accept()
            self.assertEqual(connection.recv(8), b"records\n")
            connection.close()
            ends = lambda: "ended: by the other side" in said.getvalue() or "reset" in said.getvalue()  # noqa: E731
            self.assertTrue(reached(ends))
            gateway.stopping.set()
            gateway.announcing.close()
        program.AGAIN = again


class IsAService(unittest.TestCase):
    """One at a time; Prometheus' text format."""

    def test_one_at_a_time(self):
        first = Lock(["edge 10.0.0.1 at GoBGP here", "a path"])
        with self.assertRaisesRegex(Unreadable, rf"^a path: another gateway runs there \(process {os.getpid()}\)"):
            Lock(["edge 10.0.0.2 at GoBGP here", "a path"])
        second = Lock(["edge 10.0.0.2 at GoBGP here"])
        first.free()
        third = Lock(["a path"])
        second.free()
        third.free()

    def test_a_second_gobgp_has_a_gateway_of_its_own(self):
        """It shares the edges' socket with the first one, which alone tells them of the fabric."""
        names = []
        for words in (["--gobgp", "here:1"], ["--gobgp", "here:2", "--announce"], ["--gobgp", "here:3"]):
            arguments = program.parser().parse_args(["--own", "10.0.0.1", "--socket", "/run/it", *words])
            names.append(set(program.lock_names(arguments)))
        self.assertFalse(names[0] & names[1])
        self.assertTrue(names[0] & names[2])

    def test_one_that_is_killed_frees_its_names(self):
        tool = "import sys; sys.path.insert(0, sys.argv[1]); from bgp_service import Lock; Lock(['killed']); print(flush=True); input()"
        words = [sys.executable, "-B", "-c", f"{tool.replace('Lock([', 'it = Lock([')}", os.path.join(TOP, "tools")]
        with subprocess.Popen(words, stdin=subprocess.PIPE, stdout=subprocess.PIPE) as child:
            child.stdout.readline()
            with self.assertRaisesRegex(Unreadable, f"process {child.pid}"):
                Lock(["killed"])
            child.kill()
            child.wait()
        Lock(["killed"]).free()

    def test_the_text_format(self):
        """By Prometheus' text format, version 0.0.4: backslash, quotation mark and line feed are escaped in labels."""
        family = Family("counter", "What it says.").set(3, reason='a "b" \\ c\nd').set(1000000)
        wanted = '# HELP it What it says.\n# TYPE it counter\nit{reason="a \\"b\\" \\\\ c\\nd"} 3\nit 1000000\n'
        self.assertEqual(prometheus_text({"it": family}), wanted)

    def test_a_file_is_written_as_a_whole(self):
        with tempfile.TemporaryDirectory() as folder:
            path = os.path.join(folder, "metrics.prom")
            for text in ("one\n", "two\n"):
                bgp_service.write_whole(path, text)
                with open(path, encoding="utf-8") as stream:
                    self.assertEqual((stream.read(), os.listdir(folder)), (text, ["metrics.prom"]))


class AsAProgram(unittest.TestCase):
    """The words, and what is missing."""

    def run_it(self, *words: str) -> subprocess.CompletedProcess:
        """The program by a Python without packages."""
        tool = os.path.join(TOP, "tools", "evpnd_bgp.py")
        return subprocess.run([sys.executable, "-S", tool, *words], capture_output=True, encoding="utf-8", check=False)

    def test_a_package_that_is_missing_is_told(self):
        done = self.run_it("--watch")
        self.assertEqual((done.returncode, done.stdout), (2, ""))
        self.assertRegex(done.stderr, r"^\S+Z ERROR evpnd_bgp: \S+ has no grpc: install gobgpd .*python3-grpcio.*\n$")

    def test_usage(self):
        wrong = [("--own", "10.0.0.256", "--stdio"), ("--rt", "a:1=5001", "--watch"), ("--own", "10.0.0.1", "--stdio", "--announce")]
        for words in ((), ("--stdio",), ("--watch", "--own", "10.0.0.1"), ("--socket", "it"), ("--withdraw",), *wrong):
            self.assertEqual(self.run_it(*words).returncode, 2)
        self.assertIn("--socket PATH", self.run_it("--help").stdout)


if __name__ == "__main__":
    unittest.main()
