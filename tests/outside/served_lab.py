"""A running `evpnd serve` and FRR leaves on one wire, with hosts that can be plugged in anywhere.

Each is in a network namespace of its own. Ports of the edges are UDP sockets, to which tap_relay.py carries a host's
frames. A leaf's port is a tap device in its bridge, so that a host's cable can be pulled there and put in elsewhere while
the port stays up, as behind a switch. Everything is a child of ours and is ended by its own process id.
"""

import json
import os
import re
import shutil
import signal
import subprocess
import sys
import tempfile
import threading
from concurrent.futures import ThreadPoolExecutor
from typing import Any, Callable, Dict, Iterable, List, NamedTuple, Optional, Sequence, Set, Tuple

HERE = os.path.dirname(os.path.abspath(__file__))
TOP = os.path.dirname(os.path.dirname(HERE))
sys.path[:0] = [os.path.join(HERE, "frr"), os.path.join(TOP, "tools")]
from bgp_fabric import Child, waited  # noqa: E402
from edge import Edge, Trouble, run  # noqa: E402

VNI = 5001
PORTS = 2
NOBODY = "none"
PATIENCE = 60
CONTROLLER = os.path.join(TOP, "tools", "evpndctl")
LEAF_LINES = """router bgp 65000
 bgp router-id {0}
 no bgp default ipv4-unicast
 timers bgp 1 3
 neighbor {1} remote-as 65000
 neighbor {1} timers connect 1
 address-family l2vpn evpn
  neighbor {1} activate
  advertise-all-vni
 exit-address-family
"""


REFLECTOR_LINES = """router bgp 65000
 bgp router-id {0}
 bgp cluster-id {0}
 no bgp default ipv4-unicast
{1} address-family l2vpn evpn
{2} exit-address-family
"""


class Place(NamedTuple):
    """Where a cable can end: the namespace whose sockets are meant, or none for the lab's; both ends' UDP places; the edge."""

    netns: Optional[str]
    here: str
    there: str
    edge: str


class Lab:
    """Namespaces, a wire between them, and children; use it by `with`."""

    def __init__(self) -> None:
        self.folder = tempfile.mkdtemp(prefix="evpnd-served-")
        os.chmod(self.folder, 0o755)
        self.spaces: List[str] = []
        self.children: List[Child] = []
        self.leaves: List[Edge] = []

    def __enter__(self) -> "Lab":
        signal.signal(signal.SIGTERM, lambda *_: sys.exit(143))  # so that all is taken down
        run("ip", "link", "set", "lo", "up")
        self.wire = self.space("wire")
        run("ip", "-n", self.wire, "link", "add", "br0", "type", "bridge")
        run("ip", "-n", self.wire, "link", "set", "br0", "up")
        return self

    def __exit__(self, *_cause: object) -> None:
        for child in reversed(self.children):
            if child.process.poll() is None:
                child.kill()
        for leaf in self.leaves:
            leaf.__exit__()
        for name in self.spaces:
            subprocess.run(["ip", "netns", "del", name], capture_output=True, check=False)
        shutil.rmtree(self.folder, ignore_errors=True)

    def space(self, name: str) -> str:
        """A namespace; gives its full name."""
        full = f"evpnd-{os.getpid()}-{name}"
        run("ip", "netns", "add", full)
        self.spaces.append(full)
        run("ip", "-n", full, "link", "set", "lo", "up")
        return full

    def attach(self, netns: str, address: str) -> None:
        """A device in a namespace with an address on the wire."""
        end = f"w{address.rpartition('.')[2]}"
        run("ip", "link", "add", end, "netns", self.wire, "type", "veth", "peer", "name", "up0", "netns", netns)
        run("ip", "-n", self.wire, "link", "set", end, "master", "br0", "up")
        run("ip", "-n", netns, "addr", "add", f"{address}/24", "dev", "up0")
        run("ip", "-n", netns, "link", "set", "up0", "up")

    def keep(self, child: Child) -> Child:
        """A child that ends with the lab."""
        self.children.append(child)
        return child

    def start(self, netns: Optional[str], *words: str, **how: object) -> Child:
        """A child in a namespace."""
        return self.keep(Child([*entering(netns), *words], **how))


def entering(netns: Optional[str]) -> List[str]:
    """The words that enter a namespace; none for the lab's own."""
    return [] if netns is None else ["ip", "netns", "exec", netns]


def make_tap(netns: str, device: str, *more: str) -> None:
    """A tap device that outlives its relays, at which nothing speaks unasked."""
    run("ip", "-n", netns, "tuntap", "add", "dev", device, "mode", "tap")
    run("ip", "netns", "exec", netns, "sysctl", "-qw", f"net.ipv6.conf.{device}.disable_ipv6=1")
    run("ip", "-n", netns, "link", "set", device, *more, "mtu", "1450", "up")


class Relay:
    """A cable from a tap device to a place."""

    def __init__(self, lab: Lab, netns: str, device: str, place: Place) -> None:
        program = os.path.join(HERE, "tap_relay.py")
        words = [sys.executable, program, netns, device, place.here, place.there]
        self.child = lab.start(place.netns, *words)
        shows = lambda: "LOWER_UP" in run("ip", "-n", netns, "link", "show", "dev", device)  # noqa: E731
        if waited(shows, 15) is None:
            raise Trouble(f"no cable at {device} of {netns}")

    def pull(self) -> None:
        """Takes it out."""
        self.child.kill(signal.SIGTERM)


def numbers_of(told: Iterable[int]) -> Set[int]:
    """The numbers of pings that were answered: ping tells them by their last 16 bits."""
    numbers, last = set(), 0
    for low in told:
        last += (low - last + 0x8000) % 0x10000 - 0x8000
        numbers.add(last)
    return numbers


class Pings:
    """Pings from a host to others, five a second if nothing else is said, until the end."""

    def __init__(self, host: "Host", others: Iterable["Host"], every: float = 0.2) -> None:
        words = ["ping", "-n", "-i", str(every), "-W", "1"]
        how = {"stdout": subprocess.PIPE, "stderr": subprocess.DEVNULL}
        self.running = [host.lab.start(host.netns, *words, other.address, **how) for other in others]
        self.texts: List[str] = []
        self.sent, self.slowest = 0, 0.0
        self.readers = [threading.Thread(target=self.read, args=(each,)) for each in self.running]
        for reader in self.readers:
            reader.start()

    def read(self, child: Child) -> None:
        """Reads what one of them prints."""
        self.texts.append(child.process.stdout.read().decode())

    def end(self) -> int:
        """How many found no answer before the last one that found one; all, where none did."""
        for each in self.running:
            each.process.send_signal(signal.SIGINT)
        for reader in self.readers:
            reader.join(PATIENCE)
        lost = 0
        for text in self.texts:
            answered = numbers_of(int(number) for number in re.findall(r"icmp_seq=([0-9]+) ttl", text))
            sent = int(re.search(r"([0-9]+) packets transmitted", text)[1])
            lost += (max(answered) if answered else sent) - len(answered)
            self.sent += sent
            self.slowest = max([self.slowest, *map(float, re.findall(r"time=([0-9.]+) ms", text))])
        return lost


class Host:
    """A host with one device, whose cable goes wherever it is plugged in."""

    def __init__(self, lab: Lab, number: int, space: str = "") -> None:
        self.lab, self.name = lab, f"host {number}"
        self.address, self.mac = f"192.168.77.{number}", f"02:00:00:00:77:{number:02x}"
        self.netns = lab.space(f"h{space or number}")
        make_tap(self.netns, "eth", "address", self.mac)
        run("ip", "-n", self.netns, "address", "add", f"{self.address}/24", "dev", "eth")
        self.cable: Optional[Relay] = None
        self.place: Optional[Place] = None

    def plug(self, place: Place) -> None:
        """Puts the cable in; out of where it was before."""
        self.unplug()
        self.place, self.cable = place, Relay(self.lab, self.netns, "eth", place)

    def unplug(self) -> None:
        """Takes the cable out."""
        if self.cable is not None:
            self.cable.pull()
        self.cable = self.place = None

    def pings(self, other: "Host", count: int = 5) -> int:
        """How many pings of so many are answered."""
        words = ["ping", "-n", "-c", str(count), "-i", "0.2", "-W", "2", other.address]
        done = subprocess.run([*entering(self.netns), *words], capture_output=True, encoding="utf-8", check=False)
        return done.stdout.count("bytes from")

    def reaches(self, other: "Host") -> bool:
        """Whether a ping is answered."""
        return self.pings(other, 1) == 1

    def broadcasts(self, others: List["Host"], count: int) -> List[Tuple[int, int]]:
        """Of so many broadcasts, how many come to each of others, and how many of these were new."""
        probe = [sys.executable, os.path.join(HERE, "bridge_probe.py")]
        how = {"stdout": subprocess.PIPE}
        counting = [self.lab.start(each.netns, *probe, "count", "eth", "2", **how) for each in others]
        for each in counting:
            each.process.stdout.readline()  # it is ready
        run(*entering(self.netns), *probe, "send", "eth", str(count))
        told = [each.process.communicate(timeout=PATIENCE)[0].split() for each in counting]
        return [(int(came), int(new)) for came, new in told]


def ports_of(vnis: Sequence[int], ports: int) -> List[Tuple[int, int]]:
    """The numbers of an edge's ports, each with its network: so many of the first one, then of the next."""
    return list(enumerate((vni for vni in vnis for _ in range(ports)), 1))


class Served:
    """An `evpnd serve` with one edge, in a namespace with an address on the wire."""

    def __init__(
        self,
        lab: Lab,
        name: str,
        address: str,
        peers: Iterable[str],
        capacity: int = 1024,
        vnis: Sequence[int] = (VNI,),
        ports: int = PORTS,
        more: str = "",
        above: str = "",
        is_numbered: bool = True,
    ) -> None:
        self.lab, self.name, self.address = lab, name, address
        self.vnis, self.ports, self.more, self.above = list(vnis), ports, more, above
        self.netns = lab.space(name)
        lab.attach(self.netns, address)
        self.control = os.path.join(lab.folder, f"{name}.control")
        self.notes = os.path.join(lab.folder, f"{name}.notes")
        self.peers, self.capacity, self.is_numbered = list(peers), capacity, is_numbered
        self.child: Optional[Child] = None
        self.incarnation = 0

    def text(self) -> str:
        """Its configuration."""
        keys = f'address = "{self.address}"\nbridge = "02:aa:00:00:00:{int(self.address.rpartition(".")[2]):02x}"\n'
        keys += f"vnis = {self.vnis}\ncapacity = {self.capacity}\n{self.more}"
        keys += f"incarnation = {self.incarnation}\n" if self.is_numbered else ""
        ports = "".join(
            f'[[edge.port]]\nvni = {vni}\nadmin_edge = true\nlocal = "127.0.0.1:2000{port}"\nremote = "127.0.0.1:3000{port}"\n'
            for port, vni in ports_of(self.vnis, self.ports)
        )
        peers = "".join(f'[[peer]]\naddress = "{each}"\n' for each in self.peers)
        return f'control = "{self.control}"\n{self.above}[[edge]]\n{keys}{ports}{peers}'

    def port(self, number: int) -> Place:
        """Where a cable to a port ends."""
        return Place(self.netns, f"127.0.0.1:3000{number}", f"127.0.0.1:2000{number}", self.address)

    def start(self) -> None:
        """Starts it until it answers, with a higher incarnation than before, or with none in its configuration."""
        self.incarnation += 1
        path = os.path.join(self.lab.folder, f"{self.name}.toml")
        with open(path, "w", encoding="utf-8") as stream:
            stream.write(self.text())
        words = [os.environ["EVPND"], "serve", "--config", path]
        with open(self.notes, "ab") as notes:
            how = {"stdin": subprocess.PIPE, "stdout": subprocess.PIPE, "stderr": notes}
            self.child = self.lab.start(self.netns, *words, **how)
        if waited(lambda: self.child.process.poll() is not None or self.ask("edges"), 15) is None or not self.ask("edges"):
            raise Trouble(f"evpnd serve of {self.name} doesn't answer: {self.noted()}")

    def end(self) -> Tuple[int, str]:
        """Ends its input; gives its status and what it has printed."""
        out, _ = self.child.process.communicate(timeout=PATIENCE)
        return self.child.process.returncode, out.decode()

    def noted(self) -> str:
        """What it has told."""
        with open(self.notes, encoding="utf-8") as stream:
            return stream.read()

    def ask(self, *words: str) -> List[str]:
        """The lines of what evpndctl answers to a question; none where it has no answer."""
        there = [sys.executable, CONTROLLER, "--control", self.control, *words]
        done = subprocess.run(there, capture_output=True, encoding="utf-8", check=False)
        return done.stdout.splitlines() if done.returncode == 0 else []

    def owners(self) -> Dict[str, str]:
        """The stations' owners by its edge's table, of those that have one."""
        told = (line.split() for line in self.ask("1", "report") if line.startswith("owner "))
        return {mac: owner for _, _, mac, owner in told if owner != NOBODY}

    def views(self) -> Dict[str, Callable[[], Dict[str, str]]]:
        """What can be asked here for the stations' owners."""
        return {f"evpndctl at {self.name}": self.owners}


class Leaf(Edge):
    """An FRR leaf on the wire, with ports at which a cable can be put in."""

    def __init__(
        self, lab: Lab, name: str, address: str, reflector: str, vnis: Sequence[int] = (VNI,), ports: int = PORTS
    ) -> None:
        super().__init__(name, os.environ.get("LEAVES", ""), vnis)
        self.lab, self.name, self.address, self.ports = lab, f"leaf {name}", address, ports
        self.bgpd_lines = LEAF_LINES.format(address, reflector)
        lab.leaves.append(self)
        self.__enter__()

    def make_links(self) -> None:
        """The namespace, its device on the wire, the bridge with its VXLAN device and ports."""
        run("ip", "netns", "add", self.inside)
        run("ip", "-n", self.inside, "link", "set", "lo", "up")
        self.lab.attach(self.inside, self.address)
        for vni in self.vnis:
            self.make_network(vni)
        for port, vni in ports_of(self.vnis, self.ports):
            make_tap(self.inside, f"acc{port}", "master", f"br{vni}")
            inner = self.port(port)
            Relay(self.lab, self.inside, f"acc{port}", Place(None, inner.there, inner.here, self.address))

    def start_speaker(self) -> None:
        """There is none: the route reflector is another's."""

    def port(self, number: int) -> Place:
        """Where a cable to a port ends."""
        last = self.address.rpartition(".")[2]
        return Place(None, f"127.0.0.1:3{last}0{number}", f"127.0.0.1:4{last}0{number}", self.address)

    def die(self) -> None:
        """Kills both daemons."""
        for daemon in self.daemons.values():
            daemon.kill()
            daemon.wait()
        for name in os.listdir(self.folder):
            if name.endswith((".vty", ".api", ".pid")):
                os.unlink(os.path.join(self.folder, name))

    def bgpd_dies(self) -> None:
        """Kills bgpd alone."""
        self.daemons["bgpd"].kill()
        self.daemons["bgpd"].wait()
        for name in ("bgpd.vty", "bgpd.pid"):
            os.unlink(os.path.join(self.folder, name))

    def begin_anew(self) -> None:
        """Kills both daemons, deletes what zebra has put into the kernel, and starts them again."""
        self.die()
        for vni in self.vnis:
            device = f"vxlan{vni}"
            for entry in json.loads(run("bridge", "-n", self.inside, "-j", "fdb", "show", "dev", device)):
                if {"extern_learn", "sticky"} & set(entry.get("flags", [])):
                    place = ["dst", entry["dst"], "self"] if "dst" in entry else ["master"]
                    run("bridge", "-n", self.inside, "fdb", "del", entry["mac"], "dev", device, *place)
        self.start_daemons()

    def told(self, vni: int = VNI) -> Dict[str, str]:
        """The stations' owners by zebra."""
        text = self.shell(f"show evpn mac vni {vni} json")  # empty where zebra doesn't know the network yet
        found = json.loads(text).get("macs", {}) if text.strip() else {}
        return {mac: self.address if each["type"] == "local" else each["remoteVtep"] for mac, each in found.items()}

    def kernel(self, vni: int = VNI) -> Dict[str, str]:
        """The stations' owners by the kernel: the bridge's entry decides, and behind its VXLAN device the device's own."""
        entries = json.loads(run("bridge", "-n", self.inside, "-j", "fdb", "show", "br", f"br{vni}"))
        ports = {each["mac"]: each["ifname"] for each in entries if "master" in each}
        ends = {each["mac"]: each["dst"] for each in entries if "dst" in each}
        far = {mac: ends[mac] for mac, port in ports.items() if port.startswith("vxlan") and mac in ends}
        return {**far, **{mac: self.address for mac, port in ports.items() if port.startswith("acc")}}

    def views(self) -> Dict[str, Callable[[], Dict[str, str]]]:
        """What can be asked here for the stations' owners."""
        return {f"vtysh at {self.name}": self.told, f"the kernel at {self.name}": self.kernel}


class Reflector(Leaf):
    """A route reflector that is FRR: without networks, bridges and ports. It tries to connect each second."""

    def __init__(self, lab: Lab, address: str, neighbours: Sequence[str]) -> None:
        self.neighbours = neighbours
        super().__init__(lab, "reflector", address, "", vnis=(), ports=0)

    def start_daemons(self) -> None:
        """zebra and bgpd, with the neighbours as clients."""
        sessions = (f" neighbor {each} remote-as 65000\n neighbor {each} timers connect 1\n" for each in self.neighbours)
        clients = (f"  neighbor {each} activate\n  neighbor {each} route-reflector-client\n" for each in self.neighbours)
        self.bgpd_lines = REFLECTOR_LINES.format(self.address, "".join(sessions), "".join(clients))
        super().start_daemons()


def differing(asked: Iterable[Any], homes: Dict[str, str]) -> Dict[str, Dict[str, str]]:
    """Who names other owners than these, of edges and leaves, and whom; all are asked at once."""
    views = {name: view for each in asked for name, view in each.views().items()}
    with ThreadPoolExecutor() as pool:
        answers = dict(zip(views, pool.map(lambda view: view(), views.values())))
    found = {
        name: {mac: told.get(mac, NOBODY) for mac, home in homes.items() if told.get(mac, NOBODY) != home}
        for name, told in answers.items()
    }
    return {name: wrong for name, wrong in found.items() if wrong}
