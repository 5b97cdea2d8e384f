"""Edges that run and are asked meanwhile (`evpnd serve`): questions and steps over the control socket, clients of every kind."""

import tests_path  # noqa: F401
import contextlib
import ctypes
import os
import re
import resource
import select
import signal
import socket
import stat
import subprocess
import sys
import tempfile
import threading
import time
import unittest
from typing import Callable, Dict, List, Optional, Tuple

from test_audit import PROGRAM, needs_program
from test_records import TOP
from test_run import BRIDGES, BROADCAST, FLOODS, HOST, PATIENCE, VNI, Cable, Running, carry, edge, first_life, frame, is_reached, learnt, station
from update_records import Answer, Update, line_of, read_records, record_of, update_of_line

# addresses of these tests' own, beside those of test_run.py
ONE, TWO, ELSEWHERE = HOST + "1", HOST + "2", HOST + "3"
SEATS, CONSOLES = 8, 6
WRONG = b"error: the first line is neither 'console' nor 'records'\n"
MAC = "02:00:00:00:00:01"


class Client:
    """A connection to a control socket."""

    def __init__(self, path: str, seconds: float = PATIENCE) -> None:
        self.socket = socket.socket(socket.AF_UNIX, socket.SOCK_STREAM)
        self.socket.settimeout(seconds)
        try:
            self.socket.connect(path)
        except OSError:
            self.socket.close()
            raise

    def send(self, octets: bytes) -> "Client":
        """Sends these octets, as far as somebody is there to take them."""
        with contextlib.suppress(BrokenPipeError):
            self.socket.sendall(octets)
        return self

    def rest(self) -> bytes:
        """What comes until the connection ends."""
        came = b""
        while True:
            try:
                octets = self.socket.recv(65535)
            except ConnectionResetError:
                return came
            if not octets:
                return came
            came += octets

    def ask(self, line: str) -> str:
        """The answer to a line, without the empty line behind it."""
        self.send(line.encode() + b"\n")
        came = b""
        while not (came == b"\n" or came.endswith(b"\n\n")):
            octets = self.socket.recv(65535)
            if not octets:
                raise AssertionError(f"it ended behind {came!r}")
            came += octets
        return first_life(came[:-1].decode())

    def close(self) -> None:
        """Ends the connection."""
        self.socket.close()


class Served(unittest.TestCase):
    """Two edges, one cable each, and a control socket."""

    notes = ""  # the lines on standard error at the end

    def setUp(self) -> None:
        folder = tempfile.TemporaryDirectory()
        self.addCleanup(folder.cleanup)
        self.path = os.path.join(folder.name, "control")
        self.one, self.two = Cable(), Cable()
        self.addCleanup(self.one.here.close)
        self.addCleanup(self.two.here.close)

    def text(self) -> str:
        """The configuration, whose edges are of incarnation 1."""
        keys = "incarnation = 1\n"
        return f'control = "{self.path}"\n' + edge(ONE, 1, self.one, keys=keys) + edge(TWO, 2, self.two, keys=keys)

    def started(self, before: Optional[Callable] = None) -> Running:
        """A run of it. The call `before` precedes it in its process."""
        running = Running(self.text(), subcommand="serve", before=before)
        self.addCleanup(running.kill)
        return running

    def begin(self) -> None:
        """Runs it, and waits until both edges have heard of each other."""
        self.running = self.started()
        if not is_reached(self.is_ready):
            self.fail(self.running.end())

    def is_ready(self) -> bool:
        """Whether somebody listens at the path, and each edge reports what both said at first."""
        try:
            client = Client(self.path)
        except OSError:
            return False
        client.send(b"console\n")
        told = [client.ask(f"{number} report") for number in (1, 2)]
        client.close()
        return told == [FLOODS, FLOODS]

    def client(self) -> Client:
        """A client more, that says nothing yet."""
        client = Client(self.path)
        self.addCleanup(client.close)
        return client

    def console(self) -> Client:
        """A client that asks."""
        return self.client().send(b"console\n")

    def seated(self) -> Client:
        """A client that asks and was answered; again where those that have just gone still have their seats."""
        end = time.monotonic() + PATIENCE
        while time.monotonic() < end:
            client = self.console()
            try:
                client.ask("help")
                return client
            except (AssertionError, OSError):
                time.sleep(0.05)
        raise AssertionError("busy all the time")

    def seated_records(self) -> Client:
        """A client that exchanges records and reads nothing; again where those that have just gone still have their seats."""
        end = time.monotonic() + PATIENCE
        while time.monotonic() < end:
            client = self.client().send(b"records\n")
            with contextlib.suppress(OSError):
                if client.socket.recv(44, socket.MSG_WAITALL | socket.MSG_PEEK)[:2] == b"EV":
                    return client
            time.sleep(0.05)
        raise AssertionError("busy all the time")

    def stop_and_continue(self) -> None:
        """Stops the process and continues it, three times: Linux interrupts each read that has a time limit."""
        for number in (signal.SIGSTOP, signal.SIGCONT) * 3:
            time.sleep(0.1)
            self.running.program.send_signal(number)
        time.sleep(0.1)

    def hears_station(self) -> None:
        """Station 1 speaks at edge 1, and is heard at edge 2's cable."""
        self.assertTrue(carry(self.one, self.two, frame(BROADCAST, station(1), b"who is there")))

    def links(self, console: Client, number: int) -> Dict[str, Dict[str, int]]:
        """The numbers of each link of an edge, by its name and their words with the direction in front: `in octets`."""
        found = {}
        for line in console.ask(f"{number} links").splitlines():
            words = line.split(" ")
            way = words.index("out")
            names = [f"in {word}" for word in words[3:way:2]] + [f"out {word}" for word in words[way::2]]
            found[words[2]] = dict(zip(names, map(int, words[4::2])))
        return found

    def ends_well(self, report: str = FLOODS, seconds: float = 8) -> None:
        """Its input ends, and the run with it within this time, with this report of both edges. The clock of an edge looks once a second: a
        busy machine has eight times as long, but less than the ten seconds after which a client is cut off."""
        begun = time.monotonic()
        status, out, notes = self.running.end()
        self.assertLess(time.monotonic() - begun, seconds)
        self.assertEqual((status, first_life(out), notes), (0, f"edge 1\n{report}edge 2\n{report}", self.notes))
        self.assertFalse(os.path.lexists(self.path))


def udp_socket(process: int, place: Tuple[str, int]) -> socket.socket:
    """Another process's UDP socket that is bound at this place. PermissionError or OSError if the system gives none of them."""
    call = ctypes.CDLL(None, use_errno=True).syscall
    pidfd = os.pidfd_open(process)
    try:
        for name in os.listdir(f"/proc/{process}/fd"):
            descriptor = call(438, pidfd, int(name), 0)  # pidfd_getfd
            if descriptor < 0:
                raise OSError(ctypes.get_errno(), "pidfd_getfd")
            if not stat.S_ISSOCK(os.fstat(descriptor).st_mode):
                os.close(descriptor)
                continue
            found = socket.socket(fileno=descriptor)
            if (found.family, found.type) == (socket.AF_INET, socket.SOCK_DGRAM) and found.getsockname() == place:
                return found
            found.close()
    finally:
        os.close(pidfd)
    raise AssertionError(f"no socket at {place}")


@needs_program
class Stormy(Served):
    """Edges whose ports have a storm limit."""

    def text(self) -> str:
        """The configuration, with two group or unknown frames a second at each port."""
        return super().text().replace("[[edge.port]]\n", "[[edge.port]]\nstorm = 2\n")

    def test_storm_is_counted(self) -> None:
        """Broadcasts beyond the limit of a port are counted at its link."""
        self.begin()
        console, begun = self.console(), time.monotonic()
        for number in range(100):
            self.one.send(frame(BROADCAST, station(1), b"storm %d" % number))

        def is_counted() -> bool:
            """Whether all came, and all were dropped that no second of the edge allowed."""
            row, most = self.links(console, 1)["1"], 2 * (int(time.monotonic() - begun) + 2)
            return row["in in"] == 100 and 100 - most <= row["in storm"] <= 98

        self.assertTrue(is_reached(is_counted))
        self.assertEqual([row["in memory"] for row in self.links(console, 1).values()], [0, 0])
        self.assertEqual(self.links(console, 1)["tunnel"]["in storm"], 0)
        status, _, notes = self.running.end()
        self.assertEqual((status, notes.splitlines()[0]), (0, "edge 1: too many group or unknown frames on port 1"))


@needs_program
class Asked(Served):
    """What is asked of edges that run."""

    def setUp(self) -> None:
        super().setUp()
        self.begin()

    def test_edges(self) -> None:
        """Each edge with its ports and networks, as docs/script.md has it."""
        lines = "".join(f"{n} edge {address} ports 1:{VNI} networks {VNI}\n" for n, address in ((1, ONE), (2, TWO)))
        self.assertEqual(self.console().ask("edges"), lines)
        self.ends_well()

    def test_report(self) -> None:
        """That of an edge's table, before and after a station was heard."""
        console = self.console()
        self.assertEqual(console.ask("2 report"), FLOODS)
        self.hears_station()
        is_reached(lambda: console.ask("2 report") != FLOODS)
        self.assertEqual(console.ask("2 report"), FLOODS + learnt(1, ONE, 2))
        self.ends_well(FLOODS + learnt(1, ONE, 2))

    def test_port(self) -> None:
        """A port that passes frames at once, and one that there isn't."""
        console = self.console()
        # (a thread of the edge brings the port up soon after the start)
        is_reached(lambda: "disabled" not in console.ask("1 port 1"))
        self.assertEqual(console.ask("1 port 1"), "1 port 1 designated forwarding passes\n")
        self.assertEqual(console.ask("1 port 2"), "1 refused edge 16\n")
        self.assertEqual(console.ask("3 port 1"), "3 refused fabric 18\n")
        self.ends_well()

    def test_pin(self) -> None:
        """A station that is pinned by one client is static to another one, and at the end."""
        self.assertNotIn("refused", self.console().ask(f"1 pin {VNI} {MAC} 1"))
        pinned = FLOODS + f"mac {VNI} {MAC} {ONE} 2 static 0\nowner {VNI} {MAC} {ONE}\n"
        self.assertEqual(self.console().ask("1 report"), pinned)
        self.assertIn("refused edge 16", self.console().ask(f"1 pin {VNI} {MAC} 2"))
        self.ends_well(pinned)

    def test_bad_line(self) -> None:
        """It is told, and the next one is answered."""
        console = self.console()
        self.assertNotEqual(console.ask("1 dance"), "")
        self.assertEqual(console.ask("1 report"), FLOODS)
        self.ends_well()

    def test_links(self) -> None:
        """What came over each link, and why datagrams were dropped, while the edges run."""
        console = self.console()
        octets = frame(BROADCAST, station(1), b"to all")
        self.assertTrue(carry(self.one, self.two, octets))
        before = {number: self.links(console, number) for number in (1, 2)}
        self.assertEqual(list(before[1]), ["tunnel", "1"])
        sent = [octets] * 5 + [b"short"] * 3 + [octets.ljust(9019, b"x")]
        for each in sent:
            self.one.send(each)
        for address, vni in ((ELSEWHERE, VNI), (TWO, VNI + 1)):
            with socket.socket(socket.AF_INET, socket.SOCK_DGRAM) as other:
                other.bind((address, 0))
                other.sendto(b"\x08\0\0\0" + vni.to_bytes(3, "big") + b"\0" + octets, (ONE, 4789))

        def more(number: int, link: str, word: str) -> int:
            return self.links(console, number)[link][word] - before[number][link][word]

        self.assertTrue(is_reached(lambda: more(1, "1", "in in") == 9 and more(1, "tunnel", "in in") == 2 and more(2, "tunnel", "in in") == 5))
        self.assertEqual(more(1, "1", "in octets"), sum(map(len, sent)))
        self.assertEqual((more(1, "1", "in malformed"), more(1, "1", "in long")), (3, 1))
        self.assertEqual((more(1, "tunnel", "in unlisted"), more(1, "tunnel", "in network")), (1, 1))
        datagram = 8 + len(octets)
        self.assertEqual((more(1, "tunnel", "out out"), more(1, "tunnel", "out octets")), (5, 5 * datagram))
        self.assertEqual((more(1, "tunnel", "in octets"), more(2, "tunnel", "in octets")), (2 * datagram, 5 * datagram))
        self.assertGreaterEqual(more(2, "1", "out out"), 5)
        for each in (*self.links(console, 1).values(), *self.links(console, 2).values()):
            self.assertEqual([each[word] for word in ("in failed", "in memory", "out dropped", "out failed")], [0, 0, 0, 0])
        self.ends_well(FLOODS + learnt(1, ONE, 2))

    def test_idle_links(self) -> None:
        """How many seconds ago the last datagram came and was sent: one more each second, and none after a datagram of this link."""
        console = self.console()

        def idle(link: str, way: str) -> int:
            return self.links(console, 2)[link][f"{way} idle"]

        self.hears_station()
        # (nothing comes over the tunnel and the port of edge 2 any more, and nothing leaves by its tunnel; its port sends BPDUs)
        ways = (("tunnel", "in"), ("tunnel", "out"), ("1", "in"))
        self.assertTrue(is_reached(lambda: all(idle(*way) >= 4 for way in ways)))
        self.assertLess(idle("1", "out"), 4)
        begun = {way: idle(*way) for way in ways}
        self.hears_station()
        self.assertTrue(is_reached(lambda: idle("tunnel", "in") < 2))
        self.assertGreaterEqual(idle("1", "in"), begun["1", "in"])
        self.assertGreaterEqual(idle("tunnel", "out"), begun["tunnel", "out"])
        self.two.send(frame(BROADCAST, station(2), b"who is there"))
        self.assertTrue(is_reached(lambda: idle("1", "in") < 2 and idle("tunnel", "out") < 2))
        self.running.end()

    def fail_a_read(self, place: Tuple[str, int]) -> None:
        """Makes the next read of the program's socket there fail: the system reports to it that nobody hears a datagram of that socket."""
        try:
            it = udp_socket(self.running.program.pid, place)
        except OSError as why:
            self.skipTest(f"the system gives no socket of another process: {why}")
        with it, socket.socket(socket.AF_INET, socket.SOCK_DGRAM) as gone:
            gone.bind((ONE, 0))
            deaf = gone.getsockname()
            gone.close()
            it.setsockopt(socket.IPPROTO_IP, 11, 1)  # IP_RECVERR
            it.sendto(b"", deaf)
            it.setsockopt(socket.IPPROTO_IP, 11, 0)

    def test_failed_reads(self) -> None:
        """Each is counted at its link, and the link is read again."""
        console = self.console()
        for link, name, place in (("1", "port 1", (ONE, self.one.port)), ("tunnel", "tunnel", (ONE, 4789))):
            self.fail_a_read(place)
            self.assertEqual(self.running.note(lines=2), f"edge 1 {name}: receiving failed\nedge 1 {name}: receiving again\n")
            found = self.links(console, 1)
            self.assertEqual(found[link]["in failed"], 1)
        self.assertEqual([each["in failed"] for each in found.values()], [1, 1])
        self.assertEqual(self.running.end()[0], 4)

    def test_evpndctl(self) -> None:
        """The tool, over the socket."""
        no_port = "evpndctl: edge 1 has no port 9 (edge 16)\n"
        counts = '[{"line": "counts", "edge": 1, "stations": 0, "pinned": 0, "frozen": 0, "registers": 2, "own": 1, "foreign": 1, "pending": 0}]\n'
        tried = (
            (["1", "report"], 0, FLOODS, ""),
            (["1", "report", "--network", str(VNI)], 0, FLOODS, ""),
            (["1", "report", "--mac", MAC], 0, "", ""),
            (["1", "counts", "--json"], 0, counts, ""),
            (["1", "port", "9"], 1, "1 refused edge 16\n", no_port),
        )
        for words, status, out, notes in tried:
            tool = [sys.executable, os.path.join(TOP, "tools", "evpndctl"), "--control", self.path, *words]
            done = subprocess.run(tool, capture_output=True, encoding="utf-8", timeout=PATIENCE, check=False)
            self.assertEqual((done.returncode, first_life(done.stdout), done.stderr), (status, out, notes))
        self.ends_well()

    def test_metrics(self) -> None:
        """`evpndctl metrics` prints each number of each link."""
        self.hears_station()
        tool = [sys.executable, os.path.join(TOP, "tools", "evpndctl"), "--control", self.path, "metrics"]
        done = subprocess.run(tool, capture_output=True, encoding="utf-8", timeout=PATIENCE, check=False)
        self.assertEqual((done.returncode, done.stderr), (0, ""))
        found = [line.split(" ")[0] for line in done.stdout.splitlines() if not line.startswith("#")]
        ways = [f"{name}{{LINK,way=\"{way}\"}}" for name in ("datagrams_total", "octets_total", "failures_total", "idle_seconds") for way in ("in", "out")]
        causes = ("no_room", "too_long", "malformed", "unlisted", "other_network", "storm", "no_memory", "by_system")
        wanted = ways + [f"drops_total{{LINK,cause=\"{cause}\"}}" for cause in causes]
        links = [f'edge="{number}",link="{link}"' for number in (1, 2) for link in ("tunnel", "port1")]
        self.assertEqual(sorted(found), sorted(f"evpnd_link_{line.replace('LINK', link)}" for line in wanted for link in links))
        self.ends_well(FLOODS + learnt(1, ONE, 2))

    def test_watch(self) -> None:
        """`evpndctl watch` shows a station that is pinned and unpinned, until SIGINT; the run goes on."""
        console = self.console()
        words = [sys.executable, os.path.join(TOP, "tools", "evpndctl"), "--control", self.path, "watch", "0.1"]
        with subprocess.Popen(words, stdout=subprocess.PIPE, stderr=subprocess.PIPE, encoding="utf-8") as tool:
            console.ask(f"1 pin {VNI} {MAC} 1")
            came = tool.stdout.readline()
            console.ask(f"1 unpin {VNI} {MAC}")
            went = tool.stdout.readline()
            tool.send_signal(signal.SIGINT)
            rest, notes = tool.communicate(timeout=PATIENCE)
        self.assertRegex(came, rf"^[0-9:]+ (new|known) {VNI} {MAC} at {re.escape(ONE)} port 1 pinned\n$")
        self.assertRegex(went, rf"^[0-9:]+ gone {VNI} {MAC} from {re.escape(ONE)} port 1 pinned\n$")
        self.assertEqual((tool.returncode, rest, notes), (0, "", ""))
        withdrawn = f"mac {VNI} {MAC} {ONE} 3 withdrawn\nowner {VNI} {MAC} none\n"
        self.ends_well(FLOODS + withdrawn)


class Nowhere(Cable):
    """A port's cable that takes nothing: the system sends nothing to this address for a socket that hasn't asked for broadcasts."""

    def keys(self) -> str:
        """The port's keys in the configuration."""
        return f'local = "{self.address}:{self.port}"\nremote = "255.255.255.255:9"\n'


@needs_program
class Failing(Served):
    """A link whose sends fail."""

    def setUp(self) -> None:
        super().setUp()
        self.nowhere = Nowhere()
        self.addCleanup(self.nowhere.here.close)
        self.begin()

    def text(self) -> str:
        """Edge 1 has a second port, each of whose sends fails."""
        keys = "incarnation = 1\n"
        return f'control = "{self.path}"\n' + edge(ONE, 1, self.one, self.nowhere, keys=keys) + edge(TWO, 2, self.two, keys=keys)

    def test_failed_sends(self) -> None:
        """Each is counted at its port, is no datagram that was sent, and is one of those that are lost at the end."""
        console = self.console()
        octets = frame(BROADCAST, station(1), b"to all")
        self.assertTrue(carry(self.one, self.two, octets))
        before = self.links(console, 1)["2"]["out failed"]
        for _ in range(7):
            self.one.send(octets)
        self.assertTrue(is_reached(lambda: self.links(console, 1)["2"]["out failed"] >= before + 7))
        self.assertEqual(self.running.note(), "edge 1 port 2: sending failed\n")
        found = self.links(console, 1)
        self.assertEqual([found["2"][word] for word in ("out out", "out octets", "out dropped", "in in", "in failed")], [0, 0, 0, 0, 0])
        self.assertEqual((found["1"]["out failed"], found["tunnel"]["out failed"]), (0, 0))
        status, _, notes = self.running.end()
        self.assertEqual((status, re.sub("[0-9]+", "N", notes)), (4, "lost N\n"))
        # (the edge sends a BPDU each two seconds)
        self.assertIn(int(notes.split()[1]) - found["2"]["out failed"], range(8))


@needs_program
class Clients(Served):
    """Clients of every kind, which disturb neither each other nor the edges."""

    def setUp(self) -> None:
        super().setUp()
        self.begin()

    def test_wrong_first_line(self) -> None:
        """Anything but `console` and `records` gets a word of what is wrong, and the connection ends."""
        for octets in (b"records \n", b"edges\n", b"\n", b"console \n", b"CONSOLE\n", b"console\r\n", b"\xff\x00" * 500, b"consoles and more\n"):
            self.assertEqual(self.client().send(octets).rest(), WRONG, octets)
        self.ends_well()

    def test_seventh_console_and_ninth_client_are_busy(self) -> None:
        """Six consoles are served, and two that exchange records; another console is served once one of the six has gone."""
        held = [self.seated() for _ in range(CONSOLES)]
        self.assertEqual(self.console().rest(), b"busy\n")
        records = [self.seated_records() for _ in range(SEATS - CONSOLES)]
        for client in (self.client(), self.console(), self.client().send(b"records\n")):
            self.assertEqual(client.rest(), b"busy\n")
        records[0].close()
        self.seated_records()
        held[3].close()
        self.assertEqual(self.seated().ask("1 report"), FLOODS)
        for client in held[:3] + held[4:]:
            self.assertEqual(client.ask("1 report"), FLOODS)
        self.ends_well()

    def test_stopped_process_keeps_its_clients(self) -> None:
        """A stopped process that continues answers the consoles that it had, also one whose first line was incomplete."""
        console, halfway = self.seated(), self.client().send(b"cons")
        self.stop_and_continue()
        self.assertEqual(console.ask("1 report"), FLOODS)
        self.assertEqual(halfway.send(b"ole\n").ask("1 report"), FLOODS)
        self.ends_well()

    def test_end_with_clients(self) -> None:
        """The run ends within its second whatever clients do: eight that say nothing, or ask, or broke off in mid-line."""
        for octets in (b"", b"cons", b"console\n", b"console\n1 rep", b"console\n1 report\n" * 2, b"console\n\xff\xff\n", b"garbage", b""):
            self.client().send(octets)
        self.ends_well()

    def test_end_with_clients_that_are_not_accepted_yet(self) -> None:
        """2,000 that connected while the program stood still, and say nothing: at its end none of them gets a seat any more."""
        soft, hard = resource.getrlimit(resource.RLIMIT_NOFILE)
        resource.setrlimit(resource.RLIMIT_NOFILE, (min(hard, 4096), hard))
        self.addCleanup(resource.setrlimit, resource.RLIMIT_NOFILE, (soft, hard))
        self.running.program.send_signal(signal.SIGSTOP)
        for _ in range(2000):
            self.client()
        self.running.program.stdin.close()
        self.running.program.stdin = None
        self.running.program.send_signal(signal.SIGCONT)
        self.ends_well()

    def test_end_with_clients_that_do_not_read(self) -> None:
        """They ask until there is no room for more, read nothing, and the run ends all the same."""
        for _ in range(CONSOLES):
            self.flood(self.console())
        self.ends_well()

    @staticmethod
    def flood(client: Client, seconds: float = 0.5) -> None:
        """Asks until there has been no room for more for this time."""
        client.socket.settimeout(seconds)
        try:
            while True:
                client.send(b"1 report\n" * 1000)
        except socket.timeout:
            pass

    def test_client_that_does_not_read(self) -> None:
        """It waits alone: another one is answered, and frames go on. After ten seconds it is cut off."""
        begun = time.monotonic()
        deaf = self.console()
        self.flood(deaf, 3)
        self.assertEqual(self.console().ask("1 report"), FLOODS)
        self.hears_station()
        poll = select.poll()
        poll.register(deaf.socket, 0)  # only for a connection that has ended
        self.assertNotEqual(poll.poll(1000 * PATIENCE), [])
        self.assertGreater(time.monotonic() - begun, 9)
        self.assertEqual(self.console().ask("1 port 1"), "1 port 1 designated forwarding passes\n")
        self.ends_well(FLOODS + learnt(1, ONE, 2))

    def test_silent_client_is_cut_off(self) -> None:
        """One that says nothing keeps its seat for ten seconds."""
        begun = time.monotonic()
        silent = Client(self.path)
        self.addCleanup(silent.close)
        self.assertEqual(silent.rest(), b"")
        self.assertGreater(time.monotonic() - begun, 9)
        self.ends_well()

    def threads(self) -> int:
        """How many threads the program has."""
        return len(os.listdir(f"/proc/{self.running.program.pid}/task"))

    def threads_of_check(self) -> int:
        """How many it has without clients: as many as `check` says, one that accepts clients, and one that watches sessions."""
        words = [PROGRAM, "check", "--serve", "--config", os.path.join(self.running.folder.name, "edges.toml")]
        done = subprocess.run(words, capture_output=True, encoding="utf-8", timeout=PATIENCE, check=False)
        return int(done.stdout.splitlines()[1].split()[0]) + 2

    def test_many_clients(self) -> None:
        """3,000 one after the other, some of which break off: neither memory nor threads grow with them."""
        sizes, threads = [], self.threads_of_check()
        for turn in range(3000):
            client = Client(self.path)
            if turn % 3 == 0:
                client.send(b"garbage\n").rest()
            elif turn % 3 == 1:
                client.send(b"console\nedges\n1 rep")
            client.close()
            if turn % 1000 == 999:
                last = self.seated()
                self.assertEqual(last.ask("1 report"), FLOODS)
                last.close()
                # on a busy machine those of clients that are gone end late
                self.assertTrue(is_reached(lambda: self.threads() == threads), (self.threads(), threads))
                sizes.append(self.running.resident())
        self.assertLess(sizes[-1], sizes[0] + 1024, f"kilobytes after each 1,000: {sizes}")
        # no client is left that could be cut off, so only a machine that stands still needs longer than a second
        self.ends_well(seconds=PATIENCE)


# sends a datagram again and again for some seconds
FLOOD = """
import socket, sys, time
link, to, octets = socket.socket(socket.AF_INET, socket.SOCK_DGRAM), (sys.argv[1], int(sys.argv[2])), bytes.fromhex(sys.argv[3])
end = time.monotonic() + float(sys.argv[4])
while time.monotonic() < end:
    for _ in range(50):
        link.sendto(octets, to)
"""


def designated(sender: str, cost: int, port: int, age: int) -> bytes:
    """The RST BPDU of a designated port that forwards, from a bridge whose root is 1000.02:bb:00:00:00:01: hello 1, max age 6 and
    forward delay 4 seconds (IEEE 802.1D-2004, 9.3.3)."""
    times = b"".join((it << 8).to_bytes(2, "big") for it in (age, 6, 1, 4))
    bridge = bytes.fromhex(sender)
    body = bytes.fromhex("000002023c100002bb00000001") + cost.to_bytes(4, "big") + bridge + port.to_bytes(2, "big") + times + b"\0"
    return (BRIDGES + bridge[2:] + (len(body) + 3).to_bytes(2, "big") + bytes.fromhex("424203") + body).ljust(60, b"\0")


@needs_program
class Blocked(Served):
    """An edge with two ports, of which the second one blocks: the bridges at both know one root, and that at port 2 is better there than
    the edge. Within some five seconds after its last BPDU port 2 opens."""

    shut = "1 port 2 alternate discarding blocks\n"

    def text(self) -> str:
        """The configuration of the edge, with quick timers."""
        keys = "incarnation = 1\nhello = 1\nmax_age = 6\nforward_delay = 4\n"
        return f'control = "{self.path}"\n' + edge(ONE, 1, self.one, self.two, keys=keys).replace("admin_edge = true\n", "")

    def setUp(self) -> None:
        super().setUp()
        self.running = self.started()
        self.assertTrue(is_reached(lambda: os.path.exists(self.path)))
        self.asked = self.seated()
        self.beside(self.speak)
        self.assertTrue(is_reached(self.is_shut))

    def beside(self, turn: Callable[[], None]) -> threading.Event:
        """Calls a function again and again in a thread, until the event that this returns is set, or the test ends."""
        is_over = threading.Event()

        def turns() -> None:
            while not is_over.is_set():
                turn()

        thread = threading.Thread(target=turns)
        self.addCleanup(thread.join)
        self.addCleanup(is_over.set)
        thread.start()
        return is_over

    def speak(self) -> None:
        """The bridge at port 1, the root, sends a BPDU and waits for a second."""
        self.one.send(designated("100002bb00000001", 0, 0x8001, 0))
        time.sleep(1)

    def is_shut(self) -> bool:
        """Whether port 2 blocks, after one more BPDU of its bridge."""
        self.two.send(designated("200002bb00000002", 20_000, 0x8002, 1))
        return self.asked.ask("1 port 2") == self.shut

    def crawl(self) -> None:
        """The program has a fiftieth of a processor."""
        for number, seconds in ((signal.SIGSTOP, 0.098), (signal.SIGCONT, 0.002)):
            self.running.program.send_signal(number)
            time.sleep(seconds)

    def states_in_a_flood(self, seconds: int) -> set:
        """The states of port 2 while it is flooded, without a BPDU, and the program has a fiftieth of a processor."""
        octets = frame(BROADCAST, station(9), b"flood").hex()
        words = [sys.executable, "-c", FLOOD, self.two.address, str(self.two.port), octets, str(seconds + 1)]
        states, end = set(), time.monotonic() + seconds
        with subprocess.Popen(words):
            is_over = self.beside(self.crawl)
            while time.monotonic() < end:
                states.add(self.asked.ask("1 port 2"))
                time.sleep(0.5)
            is_over.set()
        return states

    def test_flooded_port_stays_shut(self) -> None:
        """It does as if the system had dropped all BPDUs of the bridge with the flood."""
        self.assertEqual(self.states_in_a_flood(9), {self.shut})

    def test_flood_brings_no_old_bpdu(self) -> None:
        """Nine seconds after its last BPDU the port is open, and stays open in a flood."""
        time.sleep(9)
        self.assertNotIn(self.shut, self.states_in_a_flood(4))

    def test_port_opens_after_its_last_bpdu(self) -> None:
        """Frames come one by one, so none is lost, and no BPDU: the port opens as the standard has it."""

        def send() -> None:
            self.two.send(frame(BROADCAST, station(9), b"one by one"))
            time.sleep(0.002)

        self.beside(send)
        self.assertTrue(is_reached(lambda: self.asked.ask("1 port 2") != self.shut))


@needs_program
class Idle(Served):
    """Clients that send nothing for longer than the configured three seconds."""

    def text(self) -> str:
        """The configuration, with the key."""
        return "idle = 3\n" + super().text()

    def test_silent_console_is_ended(self) -> None:
        """It receives a line. One that sends lines is served for longer, and so is a silent connection of records."""
        self.begin()
        silent, records, asks = self.seated(), self.seated_records(), self.seated()
        for _ in range(8):
            time.sleep(0.5)
            self.assertEqual(asks.ask("1 report"), FLOODS)
        self.assertEqual(silent.rest(), b"error: no line came in time\n")
        self.assertEqual(asks.rest(), b"error: no line came in time\n")
        self.assertEqual(len(records.socket.recv(88, socket.MSG_WAITALL)), 88)
        records.socket.settimeout(0.2)
        with self.assertRaises(socket.timeout):
            records.socket.recv(1)
        self.ends_well()


class Joined(Served):
    """Edges that exchange records with clients."""

    def setUp(self) -> None:
        super().setUp()
        self.begin()

    def joined(self) -> Client:
        """A client that exchanges records, and has read what the edges say when it begins."""
        client = self.client().send(b"records\n")
        self.assertEqual(self.lines(client, 2), [f"advert {ONE} {VNI} flood", f"advert {TWO} {VNI} flood"])
        return client

    def lines(self, client: Client, many: int) -> List[str]:
        """The next so many records, as readable lines."""
        stream = client.socket.makefile("rb", 0)
        return [self.line(answer) for _, answer in zip(range(many), read_records(stream))]

    def line(self, answer: Answer) -> str:
        """An update as a line, without its incarnation, which is 1."""
        self.assertIsInstance(answer, Update)
        self.assertEqual(answer.incarnation, 1)
        return line_of(answer._replace(incarnation=0))


@needs_program
class Records(Joined):
    """Records that are exchanged with edges that run."""

    def pinned(self, number: int, mac: str) -> str:
        """The record's line of a station that an edge pins, which has announced two things before."""
        self.assertEqual(self.console().ask(f"{number} pin {VNI} {mac} 1"), "")
        return f"advert {(ONE, TWO)[number - 1]} {VNI} {mac} static seq 0 counter 2"

    def test_both_edges_say_what_they_are_and_then_what_they_announce(self) -> None:
        """First the registers of each edge's own, and then each update once, to each of two clients."""
        first, second = self.joined(), self.joined()
        wanted = [self.pinned(1, MAC), self.pinned(2, MAC[:-1] + "2")]
        self.assertEqual(self.lines(first, 2), wanted)
        self.assertEqual(self.lines(second, 2), wanted)
        late = self.client().send(b"records\n")
        self.assertEqual(len(self.lines(late, 4)), 4)

    def test_what_comes_is_taken(self) -> None:
        """A withdrawal of edge 2's flood list, of a later life, is taken at edge 1, and not at edge 2: that one says anew what it is."""
        client = self.joined()
        client.send(record_of(update_of_line(f"withdraw {TWO} {VNI} flood counter 9 incarnation 1")))
        # (a console that has just gone may still have its seat, so one client asks each time)
        console = self.console()
        is_reached(lambda: console.ask("1 report") != FLOODS)
        self.assertNotIn(f"flood {VNI} {TWO} 1 up\n", console.ask("1 report"))

    def test_stopped_process_keeps_its_peers(self) -> None:
        """A stopped process that continues takes the records of the connections that it had."""
        client = self.joined()
        self.stop_and_continue()
        client.send(record_of(update_of_line(f"withdraw {TWO} {VNI} flood counter 9 incarnation 1")))
        console = self.console()
        self.assertTrue(is_reached(lambda: f"flood {VNI} {TWO} 9 withdrawn\n" in console.ask("1 report")))

    def test_refused_records_are_told_once_a_kind(self) -> None:
        """Behind them records are taken; a fault ends the connection alone, and is told, too."""
        octets = bytearray(record_of(update_of_line(f"advert {ONE} {VNI} flood")))
        octets[14:22] = bytes(8)  # a counter of 0
        for _ in range(2):
            client = self.joined()
            client.send(bytes(octets) * 3).send(b"GET / HTTP/1.1\r\n\r\n")
            self.assertEqual(client.rest(), b"")
        self.notes = "records: refused 14\nrecords: refused 1\n"
        self.hears_station()
        self.ends_well(FLOODS + learnt(1, ONE, 2))

    def test_many_unlisted_edges_leave_room_for_other_lines(self) -> None:
        """64 edges that no [[peer]] names are told, more aren't, and a refused record is told after them."""
        others = [f"{HOST}{last}" for last in range(100, 170)]
        client = self.joined()
        client.send(b"".join(record_of(update_of_line(f"advert {other} {VNI} flood")) for other in others))
        octets = bytearray(record_of(update_of_line(f"advert {ONE} {VNI} flood")))
        octets[14:22] = bytes(8)  # a counter of 0
        client.send(bytes(octets))
        told = [f"records of {other}: dropped; no [[edge]] and no [[peer]] has this address\n" for other in others[:64]]
        self.assertEqual(self.running.note(lines=65).splitlines(True), [*told, "records: refused 14\n"])

    def test_clients_that_break_off(self) -> None:
        """In mid-record, and eight at once that read nothing: nothing else is disturbed, and the run ends in its time."""
        octets = record_of(update_of_line(f"advert {ONE} {VNI} flood"))
        for cut in (1, 8, len(octets) - 1):
            self.joined().send(octets[:cut]).close()
        held = [self.seated_records() for _ in range(SEATS - 1)]
        self.hears_station()
        self.assertEqual(self.seated().ask("1 port 1"), "1 port 1 designated forwarding passes\n")
        self.assertEqual(len(held), SEATS - 1)
        self.ends_well(FLOODS + learnt(1, ONE, 2))


@needs_program
class Begun(Served):
    """Edges whose configuration names no incarnation: it is the second of their start, and rises with each."""

    def text(self) -> str:
        """The configuration without the key."""
        return super().text().replace("incarnation = 1\n", "")

    def incarnations(self) -> List[int]:
        """Those of the flood lists that edge 1 reports, once it has heard of both edges."""
        end = time.monotonic() + PATIENCE
        while time.monotonic() < end:
            with contextlib.suppress(OSError, AssertionError):
                told = re.findall(r"^flood \S+ \S+ ([0-9]+)\.1 up$", self.console().ask("1 report"), re.MULTILINE)
                if len(told) == 2:
                    return [int(each) for each in told]
            time.sleep(0.05)
        return self.fail(self.running.end())

    def test_each_start_has_a_higher_one(self) -> None:
        """Also where the run before was killed at once; nothing is said before the second is over."""
        before = 0
        for _ in range(3):
            begun = int(time.time())
            self.running = self.started()
            found = self.incarnations()
            now = time.time()
            self.assertEqual(found, found[:1] * 2)
            self.assertTrue(max(begun, before + 1) <= found[0] < int(now), (begun, before, found, now))
            before = found[0]
            self.running.program.kill()
            self.running.program.communicate()


@needs_program
class SentBack(Joined):
    """An edge elsewhere, of which these edges hold a station."""

    def text(self) -> str:
        """The configuration, which lists the edge elsewhere."""
        return super().text() + f'[[peer]]\naddress = "{ELSEWHERE}"\n'

    def taken(self, client: Client, number: int, incarnation: int = 1) -> str:
        """The record's line, without its incarnation, of a station of the edge elsewhere, once both edges have taken it from a client."""
        update = update_of_line(f"advert {ELSEWHERE} {VNI} 02:00:00:00:00:1{number} seq 0 counter {number}")
        client.send(record_of(update._replace(incarnation=incarnation)))
        console = self.seated()
        has_taken = lambda edge: f"02:00:00:00:00:1{number} {ELSEWHERE} " in console.ask(f"{edge} report")  # noqa: E731
        self.assertTrue(is_reached(lambda: has_taken(1) and has_taken(2)), "not taken")
        console.close()
        return line_of(update)

    def test_registers_of_a_named_edge_are_sent_back(self) -> None:
        """What each edge holds of it, once a connection, before later announcements; nothing of any other edge."""
        first = self.taken(self.joined(), 1)
        client = self.joined()
        for line in (f"advert {ONE} {VNI} flood", f"advert {HOST}9 {VNI} flood", first, first):
            client.send(record_of(update_of_line(line)))
        self.assertEqual(self.lines(client, 2), [first] * 2)
        self.taken(client, 2, 2)
        self.assertEqual(self.console().ask(f"1 pin {VNI} {MAC} 1"), "")
        self.assertEqual(self.lines(client, 1), [f"advert {ONE} {VNI} {MAC} static seq 0 counter 2"])


@needs_program
class Leftovers(Joined):
    """Two processes that hold different updates of an earlier life of edge 1."""

    def text(self) -> str:
        """The configuration, with edges that have begun anew."""
        return super().text()

    def line(self, answer: Answer) -> str:
        """An update as a line."""
        return line_of(answer)

    def joined(self) -> Client:
        """A client that exchanges records, and has read what the edges say when it begins."""
        client = self.client().send(b"records\n")
        self.assertEqual(len(self.lines(client, 2)), 2)
        return client

    def test_withdrawal_of_an_earlier_life_is_passed_on(self) -> None:
        """One sends back a withdrawal, and the other one the advert before it, which is no news any more: that one gets the withdrawal."""
        first, second = self.joined(), self.joined()
        withdrawal = f"withdraw {ONE} {VNI} {MAC} counter 9"
        first.send(record_of(update_of_line(withdrawal)))
        self.assertEqual(self.lines(second, 1), [withdrawal])
        second.send(record_of(update_of_line(f"advert {ONE} {VNI} {MAC} seq 0 counter 8")))
        console = self.console()
        self.assertTrue(is_reached(lambda: f"mac {VNI} {MAC} {ONE} 9 withdrawn\n" in console.ask("2 report")))
        self.assertEqual(select.select([second.socket], [], [], 0.5)[0], [])


@needs_program
class Deaf(Joined):
    """One that records are told to and that doesn't read them, at edges that learn more stations than its socket has room for."""

    def text(self) -> str:
        """The configuration, with room for as many stations as an edge may have, and ports that may bring all of them."""
        port = "[[edge.port]]\n"
        text = super().text().replace(port, port + "stations = 65536\nnew_stations = 4294967295\n")
        return text.replace("bridge = ", "capacity = 65536\nbridge = ")

    def test_peer_that_does_not_read(self) -> None:
        """Stations speak until no more of them can be told it: it is cut off, while frames go on and another one hears all the time."""
        deaf, hears = self.joined(), self.joined()
        poll = select.poll()
        poll.register(deaf.socket, 0)  # only for a connection that has ended
        begun = time.monotonic()
        told, number = b"", 0
        while not poll.poll(0) and time.monotonic() - begun < 10 * PATIENCE:
            number += 1
            self.one.send(frame(BROADCAST, bytes([2, 1]) + number.to_bytes(4, "big"), b""))
            told = self.taken(hears, told)
        self.assertNotEqual(poll.poll(0), [])
        self.assertNotEqual(told, b"")
        while self.two.receive(0.1):
            pass
        self.hears_station()
        again = self.client().send(b"records\n")
        self.assertEqual(self.lines(again, 1), [f"advert {ONE} {VNI} flood"])

    def taken(self, client: Client, before: bytes) -> bytes:
        """What came to a client at once, of which the last piece is kept."""
        if select.select([client.socket], [], [], 0)[0]:
            return client.socket.recv(65535)
        return before


@needs_program
class Socket(Served):
    """The socket's file."""

    def refused(self, why: str) -> None:
        """It doesn't begin, for this cause."""
        self.assertEqual(self.started().end(), (4, "", f"can't listen at {self.path}: {why}\n"))

    def test_file_is_its_users_alone(self) -> None:
        """Its mode is 0600, whatever the mask of the one who starts it."""
        before = os.umask(0)
        try:
            self.begin()
        finally:
            os.umask(before)
        mode = os.lstat(self.path).st_mode
        self.assertTrue(stat.S_ISSOCK(mode))
        self.assertEqual(stat.S_IMODE(mode), 0o600)
        self.ends_well()

    def test_socket_of_a_killed_run(self) -> None:
        """Nobody listens there any more: it is taken over."""
        self.begin()
        self.running.program.kill()
        self.running.program.communicate()
        self.assertTrue(os.path.lexists(self.path))
        self.begin()
        self.assertEqual(self.console().ask("1 report"), FLOODS)
        self.ends_well()

    def test_somebody_listens(self) -> None:
        """Another run's socket stays, and is asked as before."""
        self.begin()
        self.refused("it is in use")
        self.assertEqual(self.console().ask("1 report"), FLOODS)
        self.ends_well()

    def test_another_file(self) -> None:
        """It stays as it is."""
        with open(self.path, "w", encoding="ascii") as it:
            it.write("kept\n")
        self.refused("it is a file that is no socket")
        with open(self.path, encoding="ascii") as it:
            self.assertEqual(it.read(), "kept\n")

    def test_link_to_a_file(self) -> None:
        os.symlink("/dev/null", self.path)
        self.refused("it is a file that is no socket")

    def test_no_folder(self) -> None:
        self.path = os.path.join(self.path, "control")
        self.refused("there is no such folder")

    def test_descriptor_limit(self) -> None:
        """Of four descriptors one is free. The socket takes it, and there is none for a second handle of the socket."""
        running = self.started(before=lambda: resource.setrlimit(resource.RLIMIT_NOFILE, (4, 4)))
        why = "too many files are open; raise ulimit -n"
        self.assertEqual(running.end(), (4, "", f"can't listen at {self.path}: {why}\n"))
        self.assertFalse(os.path.lexists(self.path))

    def test_longest_path(self) -> None:
        """107 octets are one of a socket, 108 aren't: the configuration is wrong then."""
        folder = os.path.dirname(self.path)
        self.path = os.path.join(folder, "x" * (107 - len(folder) - 1))
        self.begin()
        self.ends_well()
        self.path += "x"
        status, out, notes = self.started().end()
        self.assertEqual((status, out, notes.split("\n")[0]), (2, "", "config control"))
        self.assertIn(", allowed is the path of a socket, 1 to 107 octets, none of them 0\n", notes)

    def test_file_that_was_moved_away(self) -> None:
        """What lies at the path at the end and isn't the socket stays, and the run ends as ever."""
        self.begin()
        os.unlink(self.path)
        with open(self.path, "w", encoding="ascii"):
            pass
        status, _, notes = self.running.end()
        self.assertEqual((status, notes), (0, ""))
        self.assertTrue(os.path.isfile(self.path))

    def test_edges_that_do_not_begin(self) -> None:
        """Where an address can't be bound no socket stays behind."""
        with socket.socket(socket.AF_INET, socket.SOCK_DGRAM) as other:
            other.bind((ONE, self.one.port))
            status, out, notes = self.started().end()
        self.assertEqual((status, out), (4, ""))
        self.assertRegex(notes, rf"^can't bind {re.escape(ONE)}:\d+: it is in use\n$")
        self.assertFalse(os.path.lexists(self.path))


if __name__ == "__main__":
    unittest.main()
