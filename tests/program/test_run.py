"""Two edges over loopback sockets: frames from port to port, garbage, refused memory, the report at the end."""

import tests_path  # noqa: F401
import contextlib
import os
import random
import re
import resource
import select
import shutil
import signal
import socket
import subprocess
import sys
import tempfile
import time
import unittest
from concurrent.futures import ThreadPoolExecutor
from itertools import chain, count
from typing import Callable, Dict, List, NamedTuple, Optional, Tuple

from preloaded import BY_RATTLE, Preloaded
from test_audit import PROGRAM, needs_program
from test_records import TOP

# loopback addresses of this run's own
HOST = f"127.{os.getpid() >> 8 & 127 | 64}.{os.getpid() & 255}."
ONE, TWO, STRANGER = HOST + "1", HOST + "2", HOST + "3"
VNI = 5001
TUNNELS = 4789
# for how many seconds a test waits for what has to come: it fails only then, so that a busy or slow machine makes no failure
PATIENCE = 60
# numbers for texts of frames and for users, none twice
numbers = count(1)
ports = iter(range(10_000, 32_768))


def station(number: int) -> bytes:
    """The MAC of a station."""
    return bytes([2, 0, 0, 0, 0, number])


BROADCAST = b"\xff" * 6
BRIDGES = bytes.fromhex("0180c2000000")


def frame(to: bytes, of: bytes, text: bytes) -> bytes:
    """A frame with this text."""
    return to + of + b"\x88\xb5" + text.ljust(46, b"\0")


def granted_octets() -> int:
    """Returns the receive buffer that Linux grants to a socket for which 512 KiB are asked: twice the number, up to its limit."""
    with open("/proc/sys/net/core/rmem_max", encoding="ascii") as most:
        return 2 * min(512 << 10, int(most.read()))


def free_port() -> int:
    """A UDP port that nothing has: none twice, and none that the system gives to a socket by itself (32768 and above)."""
    for port in ports:
        with socket.socket(socket.AF_INET, socket.SOCK_DGRAM) as it, contextlib.suppress(OSError):
            it.bind((ONE, port))
            return port
    raise AssertionError("no port is free")


def is_reached(holds: Callable[[], bool], seconds: float = PATIENCE) -> bool:
    """Whether something holds within this time."""
    end = time.monotonic() + seconds
    while not holds():
        if time.monotonic() > end:
            return False
        time.sleep(0.05)
    return True


class Cable:
    """The end of a port's cable: what it sends comes to the port, what the port sends comes to it."""

    def __init__(self, address: str = ONE, port: int = 0) -> None:
        self.address = address
        self.here = socket.socket(socket.AF_INET, socket.SOCK_DGRAM)
        self.here.bind((address, 0))
        self.port = port or free_port()

    def keys(self) -> str:
        """The port's keys in the configuration."""
        return f'local = "{self.address}:{self.port}"\nremote = "{self.address}:{self.here.getsockname()[1]}"\n'

    def send(self, octets: bytes) -> None:
        """Sends a frame to the port."""
        self.here.sendto(octets, (self.address, self.port))

    def receive(self, seconds: float = PATIENCE) -> bytes:
        """The next frame of the port within this time, none if there is none. BPDUs are passed over."""
        end = time.monotonic() + seconds
        while (left := end - time.monotonic()) > 0:
            self.here.settimeout(left)
            try:
                octets = self.here.recv(65535)
            except socket.timeout:
                break
            if octets[:6] != BRIDGES:
                return octets
        return b""

    def waiting(self) -> List[bytes]:
        """The frames that have come, BPDUs among them."""
        self.here.setblocking(False)
        came = []
        with contextlib.suppress(BlockingIOError):
            while True:
                came.append(self.here.recv(65535))
        return came


def carry(source: Cable, to: Cable, octets: bytes) -> bool:
    """Whether a frame comes out at another cable as it was, perhaps behind others; sent again while the edges aren't ready.

    Each time another frame of the same addresses is sent behind it. They overtake none, so when that one has come, nothing that was sent
    before is still on its way."""
    is_carried, end = False, time.monotonic() + PATIENCE
    while not is_carried and time.monotonic() < end:
        last = frame(octets[:6], octets[6:12], b"behind it %d" % next(numbers))
        source.send(octets)
        source.send(last)
        while (came := to.receive(0.5)) not in (last, b""):
            is_carried = is_carried or came == octets
        is_carried = is_carried and came == last
    return is_carried


def edge(address: str, number: int, *cables: Cable, keys: str = "") -> str:
    """An edge with a port for each cable, and these keys."""
    ports = "".join(f"[[edge.port]]\nvni = {VNI}\nadmin_edge = true\n{it.keys()}" for it in cables)
    return f'[[edge]]\naddress = "{address}"\nbridge = "02:aa:00:00:00:0{number}"\nvnis = [{VNI}]\n{keys}{ports}'


class Row(NamedTuple):
    """What the system says of a UDP socket."""

    waiting: int  # octets
    dropped: int  # datagrams


def row_of(address: str, port: int) -> Row:
    """What it says of the one that is bound there."""
    local = f"{socket.inet_aton(address)[::-1].hex().upper()}:{port:04X}"
    with open("/proc/net/udp", encoding="ascii") as it:
        words = next(words for words in map(str.split, it) if words[1] == local)
    return Row(int(words[4].split(":")[1], 16), int(words[-1]))


class Running:
    """The program on a configuration, until `end`."""

    def __init__(self, text: str, notes: int = subprocess.PIPE, subcommand: str = "run", before: Optional[Callable] = None) -> None:
        self.folder = tempfile.TemporaryDirectory()
        path = os.path.join(self.folder.name, "edges.toml")
        with open(path, "w", encoding="utf-8") as it:
            it.write(text)
        pipes = {"stdin": subprocess.PIPE, "stdout": subprocess.PIPE, "stderr": notes}
        self.program = subprocess.Popen([PROGRAM, subcommand, "--config", path], preexec_fn=before, **pipes)

    def resident(self) -> int:
        """How much memory it has, in kilobytes."""
        with open(f"/proc/{self.program.pid}/status", encoding="ascii") as it:
            return next(int(line.split()[1]) for line in it if line.startswith("VmRSS:"))

    def note(self, seconds: float = PATIENCE, lines: int = 1) -> str:
        """The next lines that it notes while it runs: as many as these, or fewer where no further one comes within this time."""
        notes, text = self.program.stderr.fileno(), b""
        while text.count(b"\n") < lines and select.select([notes], [], [], seconds)[0]:
            text += os.read(notes, 65535)
        return text.decode()

    def end(self) -> tuple:
        """Its status, its report and its notes when its input has ended."""
        out, notes = self.program.communicate(timeout=PATIENCE)
        self.folder.cleanup()
        return self.program.returncode, out.decode(), notes.decode()

    def kill(self) -> None:
        """Ends it where a test has failed before."""
        if self.program.poll() is None:
            self.program.kill()
            self.program.communicate()
        self.folder.cleanup()


def reports(lines: str) -> str:
    """What both edges print where both report these lines."""
    return f"edge 1\n{lines}edge 2\n{lines}"


FLOODS = f"flood {VNI} {ONE} 1 up\nflood {VNI} {TWO} 1 up\n"


def first_life(text: str) -> str:
    """A report of edges of incarnation 1, as one of edges of incarnation 0 is written."""
    return re.sub(r" 1\.([0-9]+) (?=up|withdrawn|dynamic|static)", r" \1 ", text)


def learnt(number: int, address: str, counter: int) -> str:
    """The lines of a station that one edge has said it has."""
    return f"mac {VNI} 02:00:00:00:00:0{number} {address} {counter} dynamic 0\nowner {VNI} 02:00:00:00:00:0{number} {address}\n"


class TwoCables(unittest.TestCase):
    """Two cables, and a run that they belong to."""

    def setUp(self) -> None:
        self.one, self.two = Cable(), Cable()
        self.addCleanup(self.one.here.close)
        self.addCleanup(self.two.here.close)

    def begin(self, text: str, notes: int = subprocess.PIPE, subcommand: str = "run") -> None:
        """Runs these edges."""
        self.running = Running(text, notes, subcommand)
        self.addCleanup(self.running.kill)

    def is_carried(self, source: Cable, to: Cable, octets: bytes) -> None:
        """A frame comes out at another cable as it was, and nothing that was sent here is on its way any more (`carry`)."""
        self.assertTrue(carry(source, to, octets), octets)


@needs_program
class TwoEdges(TwoCables):
    """Two edges, one cable each."""

    def setUp(self) -> None:
        super().setUp()
        self.begin(edge(ONE, 1, self.one) + edge(TWO, 2, self.two))

    def test_station_is_answered(self) -> None:
        """A broadcast goes over the tunnel, the answer comes back to its sender, and both edges say the same of them."""
        self.is_carried(self.one, self.two, frame(BROADCAST, station(1), b"who is there"))
        answer = frame(station(1), station(2), b"station 2 is")
        self.two.send(answer)
        self.assertEqual(self.one.receive(), answer)
        again = frame(station(2), station(1), b"thanks")
        self.one.send(again)
        self.assertEqual(self.two.receive(), again)
        self.assertEqual((self.one.receive(0.1), self.two.receive(0.1)), (b"", b""))
        status, report, notes = self.running.end()
        self.assertEqual((status, notes), (0, ""))
        self.assertEqual(report, reports(FLOODS + learnt(1, ONE, 2) + learnt(2, TWO, 2)))

    def test_longest_frame(self) -> None:
        """A frame of 9,018 octets goes over the tunnel, one of 9,019 doesn't."""
        self.is_carried(self.one, self.two, frame(BROADCAST, station(1), b"first"))
        longest = frame(BROADCAST, station(1), b"x" * 9004)
        self.one.send(longest + b"x")
        self.one.send(longest)
        self.assertEqual(self.two.receive(), longest)
        self.assertEqual(self.two.receive(0.1), b"")
        self.assertEqual(self.running.end()[0], 0)

    def test_empty_datagram_ends_no_link(self) -> None:
        """After an empty datagram to a port and one to a tunnel, frames are carried as before."""
        self.is_carried(self.one, self.two, frame(BROADCAST, station(1), b"first"))
        self.one.send(b"")
        self.one.here.sendto(b"", (TWO, TUNNELS))
        self.is_carried(self.one, self.two, frame(BROADCAST, station(1), b"second"))
        status, _, notes = self.running.end()
        self.assertEqual((status, notes), (0, ""))

    def test_stranger_is_not_let_in(self) -> None:
        """A datagram from an address that is no edge's is dropped, the same from an edge's is taken."""
        self.is_carried(self.one, self.two, frame(BROADCAST, station(1), b"first"))
        inner = frame(BROADCAST, station(7), b"let me in")
        datagram = bytes([8, 0, 0, 0]) + VNI.to_bytes(3, "big") + b"\0" + inner
        for address, is_in in ((STRANGER, False), (ONE, True)):
            with socket.socket(socket.AF_INET, socket.SOCK_DGRAM) as sender:
                sender.bind((address, 0))
                sender.sendto(datagram, (TWO, TUNNELS))
            if is_in:
                self.assertEqual(self.two.receive(), inner)
            else:
                self.assertEqual(self.two.receive(0.1), b"")
        status, report, _ = self.running.end()
        self.assertEqual(status, 0)
        self.assertNotIn("02:00:00:00:00:07", report)

    def moves_to_and_fro(self) -> None:
        """A station that is heard at both edges in turn, more than five times at each. An edge counts a move only if it has the other
        one's route, and a frame may arrive before the route does."""
        self.is_carried(self.one, self.two, frame(BROADCAST, station(1), b"first"))
        for _ in range(6):
            for cable, other in ((self.one, self.two), (self.two, self.one)):
                self.is_carried(cable, other, frame(BROADCAST, station(10), b"here I am"))
                time.sleep(0.1)

    def test_duplicate_is_told_at_once(self) -> None:
        """A station that moves to and fro is told while the edges run, and once. That takes less than a second; a busy machine has a
        minute."""
        self.moves_to_and_fro()
        note = self.running.note()
        self.assertRegex(note, rf"^edge [12]: duplicate {VNI} 02:00:00:00:00:0a on port 1\n$")
        self.assertIsNone(self.running.program.poll())
        status, _, rest = self.running.end()
        self.assertEqual((status, rest), (0, ""))

    def test_failing_standard_error_stops_nothing(self) -> None:
        """Where an alert can't be written frames go on, the reports come at the end, and the status is that of a failed device."""
        self.running.program.stderr.close()
        self.moves_to_and_fro()
        self.is_carried(self.one, self.two, frame(BROADCAST, station(1), b"second"))
        status, report, _ = self.running.end()
        self.assertEqual(status, 4)
        self.assertEqual(report.count("edge "), 2)

    def garbage(self, chance: random.Random) -> bytes:
        """A random datagram of 0 to 9,100 octets, some with a real beginning. None is a frame that is taken."""
        size = min(int(chance.paretovariate(0.7) * 10) - 10, 9100)
        octets = chance.randbytes(size)
        real = chance.randrange(8)
        if real == 0:  # a BPDU's addresses and length
            octets = bytes.fromhex("0180c2000000") + station(8) + (39).to_bytes(2, "big") + bytes.fromhex("424203") + octets
        elif real == 1:  # a VXLAN header without its flag
            octets = bytes([0, 0, 0, 0]) + VNI.to_bytes(3, "big") + b"\0" + octets
        elif real == 2:  # a datagram with a frame of another network
            octets = bytes([8, 0, 0, 0]) + (VNI + 1).to_bytes(3, "big") + b"\0" + frame(BROADCAST, station(8), octets)
        elif real == 3:  # a frame of a group's address
            octets = BROADCAST + BROADCAST + octets
        return octets[:9100]

    def test_garbage(self) -> None:
        """100,000 random datagrams to a port and to a tunnel: it goes on, and its memory doesn't grow with them."""
        chance = random.Random(17)
        self.is_carried(self.one, self.two, frame(BROADCAST, station(1), b"first"))
        with socket.socket(socket.AF_INET, socket.SOCK_DGRAM) as sender:
            sender.bind((TWO, 0))
            sizes = []
            for turn in range(100_000):
                octets = self.garbage(chance)
                if turn % 2:
                    sender.sendto(octets, (ONE, TUNNELS))
                else:
                    # what may be a frame at a port has a group's address as its sender there, so nothing is learnt
                    self.one.send(octets[:6] + b"\xff" + octets[7:])
                if turn % 10_000 == 9_999:
                    good = frame(BROADCAST, station(1), b"turn %d" % turn)
                    self.is_carried(self.one, self.two, good)
                    sizes.append(self.running.resident())
        self.assertLess(sizes[-1], sizes[0] + 1024, f"kilobytes after each 10,000: {sizes}")
        self.two.send(frame(station(1), station(2), b"the last"))
        while (came := self.one.receive()) not in (frame(station(1), station(2), b"the last"), b""):
            pass
        self.assertNotEqual(came, b"")
        status, report, notes = self.running.end()
        self.assertEqual(status, 0)
        # on a busy machine the system, or a line to a link, may have no room for some of them
        self.assertRegex(notes, r"^(edge [12] (tunnel|port 1): \d+ (frames dropped: no room|datagrams dropped by the system)\n)*$")
        self.assertEqual(report, reports(FLOODS + learnt(1, ONE, 2) + learnt(2, TWO, 2)))


@needs_program
class FullSockets(TwoCables):
    """One edge with two ports, which stands still while its tunnel's socket and that of port 1 are filled."""

    def fill(self, tunnel: int, port: int) -> None:
        """Sends both sockets as many datagrams. An edge refuses each: as a frame it is shorter than its length, and no edge has its VNI."""
        octets = b"\xff" * 12 + (1500).to_bytes(2, "big") + b"\xff" * 1386
        self.running.program.send_signal(signal.SIGSTOP)
        # each of its threads goes on until it meets the signal, on a busy machine for milliseconds
        os.waitid(os.P_PID, self.running.program.pid, os.WSTOPPED | os.WNOWAIT)
        for at, many in ((TUNNELS, tunnel), (self.one.port, port)):
            for _ in range(many):
                self.one.here.sendto(octets, (ONE, at))
        self.running.program.send_signal(signal.SIGCONT)

    def lost(self, port: int) -> int:
        """How many datagrams the system has dropped at a socket, told when nothing waits there any more."""
        self.assertTrue(is_reached(lambda: row_of(ONE, port).waiting == 0), port)
        return row_of(ONE, port).dropped

    def filled(self, keys: str, subcommand: str) -> str:
        """Runs the edge, and overfills the sockets. Returns the lines about them at the end: none about port 2."""
        self.begin(keys + edge(ONE, 1, self.one, self.two), subcommand=subcommand)
        self.is_carried(self.one, self.two, frame(BROADCAST, station(1), b"first"))
        many = 2 * granted_octets() // 1400
        self.fill(many, 2 * many)
        tunnel, port = self.lost(TUNNELS), self.lost(self.one.port)
        self.assertTrue(0 < tunnel < many and 0 < port < 2 * many, (tunnel, port))
        lines = f"tunnel: {tunnel}", f"port 1: {port}"
        return "".join(f"edge 1 {line} datagrams dropped by the system\n" for line in lines)

    def test_burst_fits(self) -> None:
        """An edge that stands still for a moment loses none of a burst that fits into the buffer for which it asks the system."""
        self.begin(edge(ONE, 1, self.one, self.two))
        self.is_carried(self.one, self.two, frame(BROADCAST, station(1), b"first"))
        # a datagram of 1,400 octets takes less than 2,400 of the buffer
        many = granted_octets() // 2400
        self.fill(many, many)
        self.assertEqual((self.lost(TUNNELS), self.lost(self.one.port)), (0, 0))
        self.assertEqual(self.running.end()[0], 0)

    def test_what_the_system_dropped_is_told(self) -> None:
        """`run` and `serve` tell it at their end."""
        with tempfile.TemporaryDirectory() as folder:
            for keys, subcommand in (("", "run"), (f'control = "{folder}/control"\n', "serve")):
                lines = self.filled(keys, subcommand)
                status, _, notes = self.running.end()
                self.assertEqual((status, notes), (0, lines))

    def test_a_console_shows_it(self) -> None:
        """While the edge runs, in the line of each link; where no file can be opened any more the lines have no such number."""
        with tempfile.TemporaryDirectory() as folder:
            path = f"{folder}/control"
            self.filled(f'control = "{path}"\n', "serve")
            with socket.socket(socket.AF_UNIX, socket.SOCK_STREAM) as console:
                console.settimeout(PATIENCE)
                console.connect(path)
                console.sendall(b"console\n")
                shown = system_drops(console)
                self.assertEqual(shown, {link: row_of(ONE, port).dropped for link, port in self.links().items()})
                self.assertTrue(shown["tunnel"] > 0 and shown["1"] > 0 and shown["2"] == 0, shown)
                most = resource.getrlimit(resource.RLIMIT_NOFILE)[1]
                resource.prlimit(self.running.program.pid, resource.RLIMIT_NOFILE, (3, most))
                self.assertEqual(system_drops(console), dict.fromkeys(shown))
            self.assertEqual(self.running.end()[0], 0)

    def links(self) -> Dict[str, int]:
        """The UDP port of each link, by the link's word in a console's line."""
        return {"tunnel": TUNNELS, "1": self.one.port, "2": self.two.port}

    def test_where_that_cannot_be_read(self) -> None:
        """Where no file can be opened any more nothing is told of it, and the status is 0."""
        self.filled("", "run")
        most = resource.getrlimit(resource.RLIMIT_NOFILE)[1]
        resource.prlimit(self.running.program.pid, resource.RLIMIT_NOFILE, (3, most))
        status, _, notes = self.running.end()
        self.assertEqual((status, notes), (0, ""))


def system_drops(console: socket.socket) -> Dict[str, Optional[int]]:
    """What each link's line says that the system has dropped, where it says it."""
    console.sendall(b"1 links\n")
    came = b""
    while not came.endswith(b"\n\n"):
        came += console.recv(65535)
    found = (re.match(r"1 link (\S+) in .* memory [0-9]+(?: system ([0-9]+))? out ", line) for line in came.decode().splitlines() if line)
    return {each[1]: each[2] and int(each[2]) for each in found}


@needs_program
class FullTable(TwoCables):
    """One edge with two ports, which may learn one station: whatever another one sends is an alert, and goes on nevertheless."""

    def fill(self, notes: int = subprocess.PIPE) -> None:
        """Runs the edge, and lets it learn station 1."""
        self.begin(edge(ONE, 1, self.one, self.two, keys="capacity = 1\n"), notes)
        self.is_carried(self.one, self.two, frame(BROADCAST, station(1), b"first"))

    def speak(self, *numbers: int) -> None:
        """A broadcast of each of these stations, which comes out once."""
        frames = [frame(BROADCAST, station(number), b"turn %d" % turn) for turn, number in enumerate(numbers)]
        for octets in frames:
            self.one.send(octets)
        self.assertEqual([self.two.receive() for _ in frames], frames)
        self.assertEqual(self.two.receive(0.1), b"")

    def line(self, number: int) -> str:
        """What is told of a station for which there is no place."""
        return f"edge 1: learning table full {VNI} 02:00:00:00:00:{number:02x} on port 1\n"

    def test_repeated_alert_is_held_back(self) -> None:
        """An alert of the same kind and station is told once, and before the next one, or at the end, how many more there were."""
        self.fill()
        self.speak(2, 2, 2)
        self.assertEqual(self.running.note(), self.line(2))
        self.speak(2, 3, 2)
        self.assertEqual(self.running.note(lines=2), "edge 1: 3 more alerts were held back\n" + self.line(3))
        status, report, rest = self.running.end()
        self.assertEqual((status, rest), (0, "edge 1: 1 more alerts were held back\n"))
        self.assertEqual(report, f"edge 1\nflood {VNI} {ONE} 1 up\n" + learnt(1, ONE, 2))

    def test_sixteen_stations_are_told(self) -> None:
        """Of 20 stations 16 are told at once, and at the end how many more there were."""
        self.fill()
        self.speak(*range(2, 22))
        self.assertEqual(self.running.note(lines=16), "".join(self.line(number) for number in range(2, 18)))
        self.assertEqual(self.running.note(0.5), "")
        status, _, rest = self.running.end()
        self.assertEqual((status, rest), (0, "edge 1: 4 more alerts were held back\n"))

    def test_standard_error_that_nobody_reads(self) -> None:
        """Frames go on meanwhile; once it is read what waits is told, and the run comes to its end."""
        notes, full = os.pipe()
        self.addCleanup(os.close, notes)
        os.set_blocking(full, False)
        filled = 0
        while select.select([], [full], [], 0)[1]:
            filled += os.write(full, bytes(4096))
        os.set_blocking(full, True)
        self.fill(full)
        os.close(full)
        self.speak(2, 2, 3, 2)
        self.running.program.stdin.close()
        time.sleep(2)
        self.assertIsNone(self.running.program.poll())
        told = b""
        while octets := os.read(notes, 65535):
            told += octets
        self.assertEqual(told[filled:].decode(), self.line(2) + "edge 1: 1 more alerts were held back\n" + self.line(3)
                         + "edge 1: 1 more alerts were held back\n")
        self.assertEqual(self.running.program.wait(PATIENCE), 0)
        self.assertEqual(self.running.program.stdout.read().decode(), f"edge 1\nflood {VNI} {ONE} 1 up\n" + learnt(1, ONE, 2))
        self.running.program.stdout.close()


@needs_program
class LimitedPort(TwoCables):
    """One edge with two ports, of which port 1 has a limit of stations: its frames go on, and made-up sources make no register."""

    def flood(self, keys: str, alert: str) -> None:
        """Of 201 source addresses at port 1 two are learnt, one line names the port, and port 2 learns as before."""
        self.begin(edge(ONE, 1, self.one, self.two).replace(self.one.keys(), keys + self.one.keys()))
        self.is_carried(self.one, self.two, frame(BROADCAST, station(1), b"first"))
        for number in range(2, 202):
            octets = frame(BROADCAST, station(number), b"made up")
            self.one.send(octets)
            self.assertEqual(self.two.receive(), octets)
        self.assertEqual(self.running.note(), f"edge 1: {alert} on port 1\n")
        self.is_carried(self.two, self.one, frame(BROADCAST, station(9), b"at the other port"))
        status, report, rest = self.running.end()
        self.assertEqual((status, rest), (0, "edge 1: 198 more alerts were held back\n"))
        self.assertEqual(report, f"edge 1\nflood {VNI} {ONE} 1 up\n" + learnt(1, ONE, 2) + learnt(2, ONE, 3) + learnt(9, ONE, 4))

    def test_stations(self) -> None:
        """Two stations at once."""
        self.flood("stations = 2\n", "too many stations")

    def test_new_stations(self) -> None:
        """Two new stations in 60 seconds."""
        self.flood("new_stations = 2\n", "too many new stations")

    def test_storm(self) -> None:
        """Of 200 broadcasts at once at most 20 a second are carried, one line names the port, and other frames go on."""
        self.begin(edge(ONE, 1, self.one, self.two).replace(self.one.keys(), "storm = 20\n" + self.one.keys()))
        self.is_carried(self.two, self.one, frame(BROADCAST, station(9), b"known from now on"))
        start, known = time.monotonic(), frame(station(9), station(1), b"for a known station")
        for number in range(200):
            self.one.send(frame(BROADCAST, station(1), b"storm %d" % number))
        self.one.send(known)
        carried = 0
        while (came := self.two.receive()) not in (known, b""):
            carried += 1
        self.assertEqual(came, known)
        seconds = int(time.monotonic() - start) + 2
        self.assertTrue(20 <= carried <= 20 * seconds, (carried, seconds))
        self.assertEqual(self.running.note(), "edge 1: too many group or unknown frames on port 1\n")
        status, report, _ = self.running.end()
        self.assertEqual(status, 0)
        self.assertEqual(report, f"edge 1\nflood {VNI} {ONE} 1 up\n" + learnt(1, ONE, 3) + learnt(9, ONE, 2))

    def test_each_port_is_named(self) -> None:
        """Where both ports are full each has a line of its own."""
        self.begin(edge(ONE, 1, self.one, self.two).replace("admin_edge = true\n", "admin_edge = true\nstations = 1\n"))
        self.is_carried(self.one, self.two, frame(BROADCAST, station(1), b"first"))
        self.is_carried(self.two, self.one, frame(BROADCAST, station(2), b"second"))
        for source, to, number in ((self.one, self.two, 3), (self.two, self.one, 4)):
            octets = frame(BROADCAST, station(number), b"made up")
            source.send(octets)
            self.assertEqual(to.receive(), octets)
        self.assertEqual(self.running.note(lines=2), "edge 1: too many stations on port 1\nedge 1: too many stations on port 2\n")
        status, report, rest = self.running.end()
        self.assertEqual((status, rest), (0, ""))
        self.assertEqual(report, f"edge 1\nflood {VNI} {ONE} 1 up\n" + learnt(1, ONE, 2) + learnt(2, ONE, 3))


@needs_program
class Beginning(unittest.TestCase):
    """What keeps edges from beginning."""

    def test_address_in_use(self) -> None:
        """A port's address that another socket has: which and why is told, and no edge has begun."""
        one, two = Cable(), Cable()
        with socket.socket(socket.AF_INET, socket.SOCK_DGRAM) as other:
            other.bind((ONE, two.port))
            running = Running(edge(ONE, 1, one) + edge(TWO, 2, two))
            self.addCleanup(running.kill)
            self.assertEqual(running.end(), (4, "", f"can't bind {ONE}:{two.port}: it is in use\n"))
        self.assertEqual(one.receive(0.1), b"")
        one.here.close()
        two.here.close()

    def test_address_of_no_device(self) -> None:
        """An edge's address that the host doesn't have."""
        one = Cable()
        running = Running(edge("192.0.2.1", 1, one))
        self.addCleanup(running.kill)
        self.assertEqual(running.end(), (4, "", "can't bind 192.0.2.1:4789: no device here has it\n"))
        one.here.close()

    def test_what_it_takes_is_what_check_tells(self) -> None:
        """Threads, sockets and memory of two edges with three ports."""
        cables = [Cable(), Cable(), Cable(TWO)]
        running = Running(edge(ONE, 1, *cables[:2]) + edge(TWO, 2, *cables[2:]))
        self.addCleanup(running.kill)
        path = os.path.join(running.folder.name, "edges.toml")
        done = subprocess.run([PROGRAM, "check", "--run", "--config", path], capture_output=True, text=True, check=False)
        self.assertEqual(done.returncode, 0)
        lines = done.stdout.splitlines()
        self.assertEqual(lines[0], "ok: 2 edges, 3 ports, 1 VNI")
        threads, sockets, memory = int(lines[1].split()[0]), int(lines[2].split()[0]), int(lines[3].split()[1])
        folder = f"/proc/{running.program.pid}"

        def takes() -> Tuple[int, int, bool]:
            """How many threads and sockets it has, and whether its memory is about that."""
            links = [os.readlink(f"{folder}/fd/{it}") for it in os.listdir(f"{folder}/fd")]
            is_about = memory / 2 < running.resident() / 1024 < 2 * memory
            return len(os.listdir(f"{folder}/task")), sum(it.startswith("socket:") for it in links), is_about

        # each port sends a BPDU when it comes up: all threads of the run start about then, and none of those that were tried before is left
        for it in cables:
            it.here.settimeout(PATIENCE)
            self.assertEqual(it.here.recv(65535)[:6], BRIDGES)
        is_reached(lambda: takes() == (threads, sockets, True))
        time.sleep(0.5)
        self.assertEqual(takes(), (threads, sockets, True))
        self.assertEqual(running.end()[0], 0)
        for it in cables:
            it.here.close()

    def test_too_few_descriptors(self) -> None:
        """Descriptors for the streams and for two of three sockets: the third can't be bound, and the limit is named."""
        cables = [Cable(), Cable()]
        running = Running(edge(ONE, 1, *cables), before=lambda: resource.setrlimit(resource.RLIMIT_NOFILE, (5, 5)))
        self.addCleanup(running.kill)
        self.assertEqual(running.end(), (4, "", f"can't bind {ONE}:{cables[1].port}: too many files are open; raise ulimit -n\n"))
        for it in cables:
            it.here.close()

    def test_small_stack(self) -> None:
        """A stack of 64 KiB: a line, and no crash."""
        for subcommand in ("run", "check", "serve"):
            with self.subTest(subcommand=subcommand):
                running = Running(edge(ONE, 1), subcommand=subcommand, before=lambda: resource.setrlimit(resource.RLIMIT_STACK, (65536, -1)))
                self.addCleanup(running.kill)
                self.assertEqual(running.end(), (3, "", "error: the stack is limited to 64 KiB, and evpnd needs 1024 KiB: raise ulimit -s\n"))

    def limited(self, threads: int, words: List[str], text: str) -> subprocess.Popen:
        """The program as a user of its own, whom the system allows this many threads. Only root can start it."""
        user = 1_000_000 + 1000 * os.getpid() + next(numbers) % 1000
        folder = tempfile.TemporaryDirectory()
        self.addCleanup(folder.cleanup)
        os.chmod(folder.name, 0o755)
        os.mkdir(f"{folder.name}/socket")
        os.chown(f"{folder.name}/socket", user, user)
        program, config = f"{folder.name}/evpnd", f"{folder.name}/edges.toml"
        shutil.copy(PROGRAM, program)
        os.chmod(program, 0o755)
        with open(config, "w", encoding="utf-8") as it:
            it.write(f'control = "{folder.name}/socket/it"\n{text}' if words[-1].endswith("serve") else text)

        def become_user() -> None:
            resource.setrlimit(resource.RLIMIT_NPROC, (threads, threads))
            os.setgroups([])
            os.setgid(user)
            os.setuid(user)

        pipes = {"stdin": subprocess.PIPE, "stdout": subprocess.PIPE, "stderr": subprocess.PIPE, "text": True}
        return subprocess.Popen([program, *words, "--config", config], preexec_fn=become_user, **pipes)

    @unittest.skipIf(os.getuid(), "only root can give a user a limit of its own")
    def test_refused_thread_is_told_at_once(self) -> None:
        """Two edges of one port with 16 threads, 18 if they are served: with fewer the run doesn't begin, though its input hasn't ended."""
        one, two = Cable(), Cable(TWO)
        text = edge(ONE, 1, one) + edge(TWO, 2, two)
        for subcommand, needed in (("run", 16), ("serve", 18)):
            for allowed in (1, 2, needed // 2, needed - 1):
                with self.subTest(subcommand=subcommand, allowed=allowed), self.limited(allowed, [subcommand], text) as program:
                    try:
                        self.assertEqual(program.wait(PATIENCE), 3)
                        self.assertEqual(
                            program.communicate(),
                            ("", f"can't start {needed} threads: the system allows {allowed}; raise ulimit -u or TasksMax, or free memory\n"),
                        )
                    finally:
                        program.kill()
                with self.subTest(check=subcommand, allowed=allowed), self.limited(allowed, ["check", f"--{subcommand}"], text) as program:
                    self.assertEqual(program.communicate(timeout=PATIENCE), ("", f"{needed} threads, allowed are {allowed}\n"))
                    self.assertEqual(program.returncode, 2)
            with self.subTest(check=subcommand), self.limited(needed, ["check", f"--{subcommand}"], text) as program:
                self.assertEqual((program.communicate(timeout=PATIENCE)[1], program.returncode), ("", 0))
            # exactly as many as it needs: it runs, ten times, since the system counts a thread for a moment after its end
            for turn in range(10):
                with self.subTest(subcommand=subcommand, turn=turn), self.limited(needed, [subcommand], text) as program:
                    time.sleep(0.3)
                    self.assertEqual((program.communicate(timeout=PATIENCE)[1], program.returncode), ("", 0))
        one.here.close()
        two.here.close()

    @unittest.skipIf(os.getuid(), "only root can give a user a limit of its own")
    def test_degraded(self) -> None:
        """A lack of threads is told at once, and the edges begin. With enough threads nothing is told.

        With half of the threads, the workers of one edge may take all of them before the other has one. Then the other doesn't begin.
        """
        one, two = Cable(), Cable(TWO)
        text = edge(ONE, 1, one) + edge(TWO, 2, two)
        for allowed in (8, 15):
            told = f"can't start 16 threads: the system allows {allowed}; raise ulimit -u or TasksMax, or free memory\n"
            with self.subTest(allowed=allowed), self.limited(allowed, ["run", "--degraded"], text) as program:
                try:
                    self.assertEqual(program.stderr.readline(), told)
                    time.sleep(0.5)
                    self.assertIsNone(program.poll())
                    program.stdin.close()
                    self.assertEqual(program.wait(PATIENCE), 3)
                    begun, alerts = set(re.findall(r"^edge ([12])$", program.stdout.read(), re.M)), program.stderr.read()
                    self.assertRegex(alerts, r"^(edge [12]: no memory\n)+$")
                    self.assertLessEqual({"1", "2"} - begun, set(re.findall("edge ([12]):", alerts)))
                    self.assertGreaterEqual(len(begun), 2 if allowed == 15 else 1)
                finally:
                    program.kill()
        with self.limited(16, ["run", "--degraded"], text) as program:
            time.sleep(0.3)
            self.assertEqual((program.communicate(timeout=PATIENCE)[1], program.returncode), ("", 0))
        one.here.close()
        two.here.close()

    @unittest.skipIf(os.getuid(), "only root can give a user a limit of its own")
    def test_degraded_edge_that_forwards_has_a_clock(self) -> None:
        """Whatever thread is missing: an edge that forwards frames out of its port also sends a BPDU there every two seconds."""
        one, two = Cable(), Cable(TWO)
        text = edge(ONE, 1, one) + edge(TWO, 2, two)
        for allowed in (13, 14, 15):
            with self.subTest(allowed=allowed), self.limited(allowed, ["run", "--degraded"], text) as program:
                program.stderr.readline()
                for turn in range(10):
                    one.send(frame(BROADCAST, station(1), b"from one, %d" % turn))
                    two.send(frame(BROADCAST, station(2), b"from two, %d" % turn))
                    time.sleep(0.1)
                time.sleep(5)
                for cable in (one, two):
                    came = cable.waiting()
                    bpdus = sum(octets[:6] == BRIDGES for octets in came)
                    self.assertTrue(bpdus == len(came) or bpdus > 2, f"{bpdus} of {len(came)} at {cable.address}")
                program.communicate(timeout=PATIENCE)
        one.here.close()
        two.here.close()

    def test_it_goes_on_until_its_input_ends(self) -> None:
        """What is read is ignored."""
        one = Cable()
        running = Running(edge(ONE, 1, one))
        self.addCleanup(running.kill)
        running.program.stdin.write(b"anything\n" * 10_000)
        running.program.stdin.flush()
        time.sleep(0.5)
        self.assertIsNone(running.program.poll())
        self.assertEqual(running.end(), (0, f"edge 1\nflood {VNI} {ONE} 1 up\n", ""))
        one.here.close()


# the lines about refused memory while edges run
LINES = (
    rf"^((edge [12]: no memory( {VNI} 02:00:00:00:00:0[12])?( on port 1)?\n|edge [12]: \d+ more alerts were held back\n)*"
    r"|can't start 16 threads: the system allows \d+; .*\n)$"
)


class Kept(NamedTuple):
    """What came of a run that is refused memory."""

    status: int
    report: str
    notes: str
    asked: int
    # whether the frames came out at the other edge's cable
    carried: bool = False
    # frames that came out at a cable and that no station sent
    strange: Tuple[bytes, ...] = ()


class RefusedGrowth(Preloaded):
    """Two edges with each allocation refused, one a run: each run ends by itself. Threads allocate in an order of their own, so that
    what is refused by one number isn't the same in each run."""

    source = os.path.join(TOP, "tests", "refuse_allocation.c")

    def cables(self, number: int) -> List[Cable]:
        """A cable for each of two edges. Those of runs beside each other have other addresses."""
        return [Cable(f"{HOST}{2 * (number % 100) + it + 9}", 20001) for it in (1, 2)]

    def config(self, number: int, cables: List[Cable]) -> str:
        """The path of a configuration of two edges with these cables."""
        return self.write(f"{number}.toml", "".join(edge(it.address, n, it) for n, it in enumerate(cables, 1)))

    def begin(self, number: int, config: str) -> Tuple[subprocess.Popen, str]:
        """The program with this allocation refused, and the file to which it tells how many were asked for."""
        told = config + ".told"
        shell = ["bash", "-c", 'exec 3> "$0"; exec env "$@"', told, f"LD_PRELOAD={self.library}", f"REFUSE={number}", PROGRAM]
        pipes = {"stdin": subprocess.PIPE, "stdout": subprocess.PIPE, "stderr": subprocess.PIPE}
        return subprocess.Popen([*shell, "run", "--config", config], **pipes), told

    def ended(self, program: subprocess.Popen, told: str) -> Kept:
        """Its end, for which it has five minutes, since many run beside each other."""
        try:
            out, notes = program.communicate(timeout=5 * PATIENCE)
        finally:
            program.kill()
        with open(told, encoding="utf-8") as it:
            return Kept(program.returncode, out.decode(), notes.decode(), sum(int(n) for n in it.read().split()))

    def idle(self, number: int) -> Kept:
        """A run whose input is at its end at once, with this allocation refused."""
        cables = self.cables(number)
        try:
            return self.ended(*self.begin(number, self.config(number, cables)))
        finally:
            for it in cables:
                it.here.close()

    def busy(self, number: int) -> Kept:
        """A run with a station at each cable, with this allocation refused. Frames are sent until they came twice, and then the input ends.
        Once the run has noted that memory was refused, they have two seconds more."""
        one, two = cables = self.cables(number)
        program, told = self.begin(number, self.config(number, cables))
        frames = [frame(BROADCAST, station(1), b"who is there"), frame(station(1), station(2), b"station 2 is")]
        end, is_noted = time.monotonic() + PATIENCE, False
        carried, strange = True, []
        # the second one comes after the records that the first one led to are sent
        for source, to, octets in 2 * [(one, two, frames[0]), (two, one, frames[1])]:
            came = b""
            while came != octets and program.poll() is None and time.monotonic() < end:
                source.send(octets)
                came = to.receive(0.05)
                if came not in (b"", *frames):
                    strange.append(came)
                if not is_noted and select.select([program.stderr], [], [], 0)[0]:
                    end, is_noted = min(end, time.monotonic() + 2), True
            carried = carried and came == octets
        if carried:
            # for the last record
            time.sleep(1)
        try:
            return self.ended(program, told)._replace(carried=carried, strange=tuple(strange))
        finally:
            for it in cables:
                it.here.close()

    def each(self, what: str, run: Callable[[int], Kept], is_whole: Callable[[str], bool]) -> Dict[int, int]:
        """Refuses each allocation in turn, as many as a good run asks for and some more. Status 3 where an edge wants for it, with the
        report of each edge that ran; 4 where a socket does, before an edge has begun; 0 where it was made up for, with whole reports. How
        often each came."""
        good = run(0)
        self.assertEqual((good.status, good.notes), (0, ""))
        most = good.asked + good.asked // 10
        if not BY_RATTLE:
            self.assertGreater(most, 0)
        found = {0: 0, 3: 0, 4: 0}
        carried = told = 0
        with ThreadPoolExecutor(16) as pool:
            # a hundred at a time, since the hundredth next run has the same addresses
            rounds = (pool.map(run, range(first, min(first + 100, most + 1))) for first in range(1, most + 1, 100))
            for number, kept in enumerate(chain.from_iterable(rounds), 1):
                with self.subTest(allocation=number, kept=kept):
                    self.assertEqual(kept.strange, ())
                    self.assertIn(kept.status, found)
                    found[kept.status] += 1
                    carried += kept.carried
                    told += kept.notes.startswith("edge ")
                    if kept.status == 3:
                        self.assertRegex(kept.notes, LINES)
                    if kept.report.count("edge ") == 1:
                        self.assertIn(": no memory\n", kept.notes, "an edge didn't begin")
                    self.assertEqual(kept.notes.endswith(": there is no memory\n"), kept.status == 4)
                    self.assertLessEqual(kept.report.count("edge "), 2 if kept.status != 4 else 0)
                    if kept.status == 0:
                        self.assertTrue(is_whole(kept.report))
        print(f"evpnd run, {what}, each of {most} allocations refused: {found}, frames carried in {carried}, told at once in {told}", file=sys.stderr)
        return found

    @needs_program
    def test_each_growth_refused(self) -> None:
        """Of a run whose input is at its end at once. Then it isn't said which records the other edge has taken."""
        found = self.each("no input", self.idle, lambda report: report.count("edge ") == 2)
        if not BY_RATTLE:
            self.assertGreater(found[3], 0)

    @needs_program
    def test_each_growth_refused_with_frames(self) -> None:
        """Of a run in which stations speak to each other: no record of an edge is lost to the other one unless that is told."""

        def is_agreed(report: str) -> bool:
            one, _, two = report.removeprefix("edge 1\n").partition("edge 2\n")
            return one == two and one.count("flood ") == 2

        found = self.each("frames", self.busy, is_agreed)
        if not BY_RATTLE:
            self.assertGreater(found[3], 0)


if __name__ == "__main__":
    unittest.main()
