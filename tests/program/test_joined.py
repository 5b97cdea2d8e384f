"""Two programs of edges (`evpnd serve`) whose records two `evpndctl records` carry, by pipes: as two hosts are joined by socat."""

import tests_path  # noqa: F401
import os
import socket
import subprocess
import sys
import tempfile
import time
import unittest
from typing import List, Optional

from test_audit import PROGRAM, needs_program
from test_records import TOP
from test_run import BROADCAST, FLOODS, ONE, PATIENCE, STRANGER, TWO, Cable, Running, TwoCables, edge, first_life, frame, is_reached, learnt, station
from test_serve import Client

TOOL = [sys.executable, os.path.join(TOP, "tools", "evpndctl"), "--control"]


@needs_program
class Joined(TwoCables):
    """An edge in each program, with one cable each."""

    def setUp(self) -> None:
        super().setUp()
        folder = tempfile.TemporaryDirectory()
        self.addCleanup(folder.cleanup)
        self.paths = [os.path.join(folder.name, name) for name in ("one", "two")]
        self.carriers: List[subprocess.Popen] = []
        self.addCleanup(self.part)
        self.programs = [self.serve(0, ONE, self.one, TWO), self.serve(1, TWO, self.two, ONE)]

    def serve(self, place: int, address: str, cable: Cable, other: str, incarnation: Optional[int] = 1) -> Running:
        """A program with one edge that knows of the other one, until it answers."""
        keys = "" if incarnation is None else f"incarnation = {incarnation}\n"
        text = f'control = "{self.paths[place]}"\n' + edge(address, place + 1, cable, keys=keys)
        return self.started(place, f'{text}[[peer]]\naddress = "{other}"\n')

    def started(self, place: int, text: str) -> Running:
        """A program of this configuration, once it answers."""
        running = Running(text, subcommand="serve")
        self.addCleanup(running.kill)
        if not is_reached(lambda: self.report(place) != ""):
            self.fail(running.end())
        return running

    def asked(self, place: int, *words: str) -> str:
        """What an edge answers; nothing where it doesn't answer."""
        asked = [*TOOL, self.paths[place], "1", *words]
        return subprocess.run(asked, capture_output=True, encoding="utf-8", check=False, timeout=PATIENCE).stdout

    def report(self, place: int) -> str:
        """What an edge reports; nothing where it doesn't answer."""
        return first_life(self.asked(place, "report"))

    def join(self) -> None:
        """Joins both."""
        (one_in, two_out), (two_in, one_out) = os.pipe(), os.pipe()
        for path, there, back in ((self.paths[0], one_in, one_out), (self.paths[1], two_in, two_out)):
            how = {"stdin": there, "stdout": back, "stderr": subprocess.DEVNULL}
            self.carriers.append(subprocess.Popen([*TOOL, path, "records"], **how))
        for end in (one_in, one_out, two_in, two_out):
            os.close(end)

    def part(self) -> None:
        """Ends what joins them."""
        for carrier in self.carriers:
            carrier.kill()
            carrier.wait()
        self.carriers = []

    def both_report(self, report: str) -> None:
        """Sees that both soon report this."""
        is_reached(lambda: [self.report(0), self.report(1)] == [report, report])
        self.assertEqual([self.report(0), self.report(1)], [report, report])

    def end_well(self, report: str) -> None:
        """Sees that both end with this report, and have told nothing."""
        self.part()
        for running in self.programs:
            status, out, notes = running.end()
            self.assertEqual((status, first_life(out), notes), (0, f"edge 1\n{report}", ""))

    def test_frames_and_reports(self) -> None:
        """Each reports what both have said, and frames go over the tunnel and back."""
        self.join()
        self.both_report(FLOODS)
        self.is_carried(self.one, self.two, frame(BROADCAST, station(1), b"who is there"))
        self.is_carried(self.two, self.one, frame(station(1), station(2), b"station 2 is"))
        report = FLOODS + learnt(1, ONE, 2) + learnt(2, TWO, 2)
        self.both_report(report)
        self.end_well(report)

    def test_before_they_are_joined(self) -> None:
        """Each reports its own, and no frame goes over."""
        self.one.send(frame(BROADCAST, station(1), b"who is there"))
        self.assertEqual(self.two.receive(0.5), b"")
        self.assertNotIn(TWO, self.report(0))
        self.assertNotIn(ONE, self.report(1))

    def test_parted_and_joined_again(self) -> None:
        """A station that moves meanwhile belongs to its new edge once they are joined."""
        self.join()
        self.is_carried(self.one, self.two, frame(BROADCAST, station(1), b"here"))
        self.both_report(FLOODS + learnt(1, ONE, 2))
        self.part()
        self.two.send(frame(BROADCAST, station(1), b"now here"))
        self.assertTrue(is_reached(lambda: f"owner 5001 02:00:00:00:00:01 {TWO}" in self.report(1)))
        self.join()
        mac = "mac 5001 02:00:00:00:00:01"
        report = FLOODS + f"{mac} {ONE} 3 withdrawn\n{mac} {TWO} 2 dynamic 1\nowner 5001 02:00:00:00:00:01 {TWO}\n"
        self.both_report(report)
        self.end_well(report)

    def test_restarted_edge_withdraws_the_stations_of_its_earlier_life(self) -> None:
        """The other side sends back what it holds of it: a station that sends no more frames has no owner at either side."""
        self.join()
        self.is_carried(self.two, self.one, frame(BROADCAST, station(2), b"here"))
        self.both_report(FLOODS + learnt(2, TWO, 2))
        self.part()
        self.programs[1].kill()
        self.programs[1] = self.serve(1, TWO, self.two, ONE, incarnation=2)
        self.join()
        mac = "02:00:00:00:00:02"
        flood = f"flood 5001 {ONE} 1 up\nflood 5001 {TWO} 2.1 up\n"
        report = f"{flood}mac 5001 {mac} {TWO} 2.2 withdrawn\nowner 5001 {mac} none\n"
        self.both_report(report)
        self.end_well(report)

    def again(self, incarnation: Optional[int]) -> None:
        """Edge 2 learns a station, of which edge 1 hears; its program is killed, and starts again. Then edge 2 learns another one."""
        self.join()
        self.is_carried(self.two, self.one, frame(BROADCAST, station(2), b"here"))
        self.both_report(FLOODS + learnt(2, TWO, 2))
        self.part()
        self.programs[1].kill()
        self.programs[1] = self.serve(1, TWO, self.two, ONE, incarnation)
        self.two.send(frame(BROADCAST, station(3), b"here"))
        self.assertTrue(is_reached(lambda: "owner 5001 02:00:00:00:00:03" in self.report(1)), self.report(1))

    def test_same_configuration_agrees_within_two_seconds(self) -> None:
        """An edge without a configured incarnation: two seconds after they are joined both have its new station, and not its old one. Here
        they have ten times as long, and the time of ten looks at both, which start as many programs as the joining and more."""
        self.again(None)
        begun = time.monotonic()
        told = [self.report(0), self.report(1)]
        seconds = 20 + 10 * (time.monotonic() - begun)
        self.join()
        begun = time.monotonic()
        told = ["", "-"]
        while told[0] != told[1] or "owner 5001 02:00:00:00:00:02 none" not in told[0]:
            self.assertLess(time.monotonic() - begun, seconds, told)
            told = [self.report(0), self.report(1)]
        self.assertRegex(told[0], rf"(?m)^mac 5001 02:00:00:00:00:02 {TWO} [0-9]+\.[0-9]+ withdrawn$")
        self.assertRegex(told[0], rf"(?m)^owner 5001 02:00:00:00:00:03 {TWO}$")

    def test_incarnation_that_does_not_rise_is_told_at_both_ends(self) -> None:
        """Also where the new life has made as many updates as the earlier one: as soon as they are joined."""
        self.again(1)
        self.join()
        there = f"records of {TWO}: older than those of its earlier life; raise its incarnation there\n"
        here = f"records of {TWO}: a peer holds newer ones of its earlier life; raise its incarnation here\n"
        self.assertEqual([running.note() for running in self.programs], [there, here])

    def test_peer_that_was_removed_gets_no_frame(self) -> None:
        """Neither one for its station nor a flooded one, until it is added again; the report stays as it is."""
        self.join()
        self.is_carried(self.two, self.one, frame(BROADCAST, station(2), b"here"))
        self.both_report(FLOODS + learnt(2, TWO, 2))
        self.assertEqual(self.asked(0, "peers"), f"1 peer {TWO} up\n")
        self.part()
        self.programs[1].kill()
        self.assertEqual(self.asked(0, "peer", "remove", TWO), "")
        self.assertEqual(self.asked(0, "peers"), f"1 peer {TWO} away\n")
        with socket.socket(socket.AF_INET, socket.SOCK_DGRAM) as tunnel:
            tunnel.bind((TWO, 4789))
            tunnel.settimeout(0.5)
            for destination in (station(2), BROADCAST):
                self.one.send(frame(destination, station(1), b"who is there"))
                with self.assertRaises(TimeoutError):
                    tunnel.recv(9216)
            self.assertEqual(self.asked(0, "peer", "add", TWO), "")
            self.one.send(frame(station(2), station(1), b"who is there"))
            tunnel.settimeout(PATIENCE)
            self.assertIn(b"who is there", tunnel.recv(9216))
        self.assertEqual(self.asked(0, "peer", "add", STRANGER), "1 refused edge 12\n")
        self.assertIn(f"owner 5001 02:00:00:00:00:02 {TWO}", self.report(0))

    def sent_from_1(self, octets: bytes, to: Cable, not_to: Cable) -> None:
        """Sees that a frame of edge 1's first cable comes out at one other cable, and not at the other one."""
        self.is_carried(self.one, to, octets)
        while not_to.receive(0.2):
            pass
        self.one.send(octets)
        self.assertEqual((to.receive(), not_to.receive(0.5)), (octets, b""))

    def test_peer_without_a_session_gets_no_frame(self) -> None:
        """`peer_hold` seconds after its session has ended a frame for its station is flooded here, until the session is back. A connection
        that says nothing is none."""
        beside, seconds = Cable(), 3
        self.addCleanup(beside.here.close)
        self.programs[0].kill()
        keys = f'control = "{self.paths[0]}"\npeer_hold = {seconds}\n'
        text = keys + edge(ONE, 1, self.one, beside, keys="incarnation = 2\n") + f'[[peer]]\naddress = "{TWO}"\n'
        self.programs[0] = self.started(0, text)
        self.join()
        self.is_carried(self.two, self.one, frame(BROADCAST, station(2), b"here"))
        self.assertTrue(is_reached(lambda: f"owner 5001 02:00:00:00:00:02 {TWO}" in self.report(0)))
        to_owned = frame(station(2), station(1), b"who is there")
        self.sent_from_1(to_owned, self.two, beside)
        self.assertEqual(self.asked(0, "peers"), f"1 peer {TWO} up\n")

        begun = time.monotonic()
        self.part()
        self.assertTrue(is_reached(lambda: self.asked(0, "peers") == f"1 peer {TWO} away\n"))
        self.assertGreaterEqual(time.monotonic() - begun, seconds)
        self.sent_from_1(to_owned, beside, self.two)
        self.sent_from_1(frame(BROADCAST, station(1), b"who is there"), beside, self.two)
        self.assertIn(f"owner 5001 02:00:00:00:00:02 {TWO}", self.report(0))

        silent = Client(self.paths[0]).send(b"records\n")
        self.addCleanup(silent.close)
        self.assertNotEqual(silent.socket.recv(9), b"")
        time.sleep(0.5)
        self.assertEqual(self.asked(0, "peers"), f"1 peer {TWO} away\n")
        self.join()
        self.assertTrue(is_reached(lambda: self.asked(0, "peers") == f"1 peer {TWO} up\n"))
        self.sent_from_1(to_owned, self.two, beside)

    def test_peer_that_is_not_listed_is_told_once(self) -> None:
        """Nothing of it is taken; its name is told at the first connection, and not at the second. The console lists it once."""
        text = f'control = "{self.paths[1]}"\n' + edge(STRANGER, 2, self.two, keys="incarnation = 1\n") + f'[[peer]]\naddress = "{ONE}"\n'
        self.programs[1].kill()
        self.programs[1] = self.started(1, text)
        for _ in range(2):
            self.join()
            self.assertTrue(is_reached(lambda: ONE in self.report(1)))
            self.part()
        listed = f"1 peer {TWO} up\n1 peer {STRANGER} unlisted\n"
        self.assertTrue(is_reached(lambda: self.asked(0, "peers") == listed), self.asked(0, "peers"))
        noted = f"records of {STRANGER}: dropped; no [[edge]] and no [[peer]] has this address\n"
        self.assertEqual(self.programs[0].note(), noted)
        status, out, told = self.programs[0].end()
        self.assertEqual((status, first_life(out), told), (0, f"edge 1\nflood 5001 {ONE} 1 up\n", ""))


@needs_program
class Example(unittest.TestCase):
    """The configuration of docs/fabric.md."""

    def test_it_can_be_served(self) -> None:
        path = os.path.join(TOP, "examples", "fabric", "edge.toml")
        words = [PROGRAM, "check", "--serve", "--config", path]
        done = subprocess.run(words, capture_output=True, encoding="utf-8", check=False, timeout=PATIENCE)
        self.assertEqual((done.returncode, done.stderr), (0, ""))
        self.assertTrue(done.stdout.startswith("ok: 1 edge, 1 port, 1 VNI, 1 peer\n"), done.stdout)


if __name__ == "__main__":
    unittest.main()
