"""Random histories in a fabric of two `evpnd serve` and two FRR leaves; `fabric.sh EVPND rounds [ROUNDS] [SEED]` starts this.

Each round draws some events: a host's cable goes elsewhere, a station behind a host speaks, a station is pinned or released,
a leaf gets a station's address, a link is away, a part is killed and begins anew. There are two networks with the same MACs.
At rest all have to agree within 15 s: each edge's owner, `show evpn mac` and the kernel's entry at each leaf, and a ping
from each host to each other one of its network. The audit (tools/evpnd_audit.py) judges each leaf by its own routes, so a
round that doesn't agree names whose fault it is. The same seed gives the same history, as far as pins are taken alike. With
8.4.4 and 10.3 a pin that replaces an entry of zebra's own is sticky in zebra, but bgpd announces the station as dynamic, so that it may
move: such a pin is taken back.

Status 0: each round agreed, or differed only at a leaf that contradicts its own routes, which is FRR's fault. What FRR 8.4.4
does so: zebra is killed, and meanwhile a route ends whose entry it has made. The next zebra leaves this entry in the kernel; the
entry of a pinned station has no mark of zebra, so the audit calls it foreign. A station spoke at a leaf and is pinned elsewhere; the
pin ends, and zebra has the station as its own again, but doesn't tell bgpd.
And zebra keeps a station's place if the new place's sequence number is lower, as that of a pinned station is. Such a leaf begins
anew, so that the next rounds don't differ by it, too. A leaf is the cause of a difference only if our edges name the right owner,
and the audit finds the leaf's fault twice.
"""

import itertools
import os
import random
import re
import statistics
import sys
import time
from concurrent.futures import ThreadPoolExecutor
from typing import Callable, Dict, List, NamedTuple, Optional, Tuple

from served_lab import HERE, NOBODY, Host, Lab, Leaf, Served, entering

from bgp_fabric import Gateway, Gobgpd, gateway_text, reflector_text, waited  # noqa: E402, isort: skip
from edge import Trouble, run  # noqa: E402, isort: skip
from histories import said  # noqa: E402, isort: skip

EDGES, LEAVES, REFLECTOR = ("10.0.0.1", "10.0.0.2"), ("10.0.0.11", "10.0.0.12"), "10.0.0.9"
NETWORKS = (5001, 5002)
HOSTS = 3  # in each network
GUESTS = tuple(f"02:00:00:00:78:{number:02x}" for number in (1, 2, 3))  # stations behind hosts, in each network
LIMIT = 15  # seconds within which all have to agree
LATE = 45  # seconds more for which a round that doesn't is watched
STICKY = 3  # seconds in which a leaf's bgpd has to announce a sticky station as one
TWICE = 5  # seconds between two looks of the audit, which both have to find a leaf's fault
START = 60  # seconds in which all have to agree at first
AGEING = 100000  # longer than any run, in seconds
THEIRS = "a leaf contradicts its own routes"
LEAF_FAULT = "by its own routes, fault of"
FAULTS = re.compile(r"(^|: )(wrong|missing|extra|foreign|flood|cause:?) ")  # of the audit's lines

Key = Tuple[int, str]
Owners = Dict[Key, str]


class End(NamedTuple):
    """An edge of ours or a leaf, as a place where stations are."""

    name: str
    address: str
    served: Optional[Served]
    leaf: Optional[Leaf]

    def space(self) -> str:
        """Its namespace."""
        return self.served.netns if self.served else self.leaf.inside

    def port(self, vni: int, number: int) -> int:
        """The number of a host's own port here."""
        return NETWORKS.index(vni) * HOSTS + number

    def views(self) -> Dict[str, Callable[[], Owners]]:
        """What can be asked here for the stations' owners."""
        if self.served:
            return {self.name: lambda: owners_of(self.served)}
        told = lambda: {(vni, mac): owner for vni in NETWORKS for mac, owner in self.leaf.told(vni).items()}  # noqa: E731
        kernel = lambda: {(vni, mac): owner for vni in NETWORKS for mac, owner in self.leaf.kernel(vni).items()}  # noqa: E731
        return {f"{self.name}'s zebra": told, f"{self.name}'s kernel": kernel}


def own_routes(end: End, vni: int, mac: str) -> List[str]:
    """A leaf's own routes of a station in a network, as its bgpd shows them."""
    parts = end.leaf.shell("show bgp l2vpn evpn route type macip").split("Route Distinguisher: ")
    own = [part for part in parts if part.startswith(f"{end.address}:") and re.search(rf"RT:[0-9]+:{vni}\b", part)]
    return [route for part in own for route in part.split(":[48]:[")[1:] if route.startswith(mac)]


def owners_of(served: Served) -> Owners:
    """The owners by an edge's report, of those stations that have one."""
    told = (line.split() for line in served.ask("1", "report") if line.startswith("owner "))
    return {(int(vni), mac): owner for _, vni, mac, owner in told if owner != NOBODY}


class Fabric:
    """Two edges of ours, each with a gateway and a GoBGP, two leaves, a route reflector, and hosts in two networks."""

    def __init__(self, lab: Lab) -> None:
        self.lab = lab
        netns = lab.space("reflector")
        lab.attach(netns, REFLECTOR)
        text = reflector_text(REFLECTOR, [*EDGES, *LEAVES])
        self.gobgpds = {"reflector": Gobgpd(entering(netns), lab.folder, "reflector", text)}
        lab.keep(self.gobgpds["reflector"])
        self.gateways: Dict[str, Gateway] = {}
        self.lives = itertools.count(1)
        self.ends = [self.make_edge(name, address) for name, address in zip(("edge 1", "edge 2"), EDGES)]
        self.ends += [self.make_leaf(name, address) for name, address in zip(("one", "two"), LEAVES)]
        self.hosts = {(vni, number): self.make_host(vni, number) for vni in NETWORKS for number in range(1, HOSTS + 1)}
        for place, (vni, number) in enumerate(self.hosts):
            self.plug(vni, number, self.ends[place % len(self.ends)])

    def make_edge(self, name: str, address: str) -> End:
        """An edge of ours with its gateway and GoBGP."""
        peers = [each for each in (*EDGES, *LEAVES) if each != address]
        ageing = f"ageing = {AGEING}\n"
        served = Served(self.lab, name.replace(" ", ""), address, peers, vnis=NETWORKS, ports=HOSTS, more=ageing)
        self.gobgpds[name] = Gobgpd(entering(served.netns), self.lab.folder, served.name, gateway_text(REFLECTOR, address))
        self.lab.keep(self.gobgpds[name])
        served.start()
        end = End(name, address, served, None)
        self.start_gateway(end)
        return end

    def make_leaf(self, name: str, address: str) -> End:
        """A leaf with an address in each bridge, so that zebra takes its neighbours."""
        leaf = Leaf(self.lab, name, address, REFLECTOR, NETWORKS, HOSTS)
        last = address.rpartition(".")[2]
        for vni in NETWORKS:
            run("ip", "-n", leaf.inside, "link", "set", f"br{vni}", "type", "bridge", "ageing_time", str(AGEING * 100))
            run("ip", "-n", leaf.inside, "address", "add", f"198.18.{vni % 250}.2{last}/24", "dev", f"br{vni}")
        return End(leaf.name, address, None, leaf)

    def make_host(self, vni: int, number: int) -> Host:
        """A host; both networks have the same MACs and addresses."""
        return Host(self.lab, number, f"{vni}-{number}")

    def start_gateway(self, end: End) -> None:
        """A new gateway of an edge."""
        way = ("--socket", end.served.control)
        path = self.gobgpds[end.name].path
        self.gateways[end.name] = Gateway(self.lab.folder, path, f"gateway{next(self.lives)}", way, end.address)
        self.lab.keep(self.gateways[end.name])

    def plug(self, vni: int, number: int, end: End) -> None:
        """A host's cable goes to its port at an edge or leaf, and the host speaks."""
        host = self.hosts[vni, number]
        host.plug((end.served or end.leaf).port(end.port(vni, number)))
        self.speak(host, host.mac)

    def speak(self, host: Host, mac: str) -> None:
        """A frame of a station comes out of a host's device."""
        run(*entering(host.netns), sys.executable, os.path.join(HERE, "frr", "frames.py"), "heard", "eth", mac)

    def end_at(self, address: str) -> End:
        """The edge or leaf with an address."""
        return next(end for end in self.ends if end.address == address)


# ---- events --------------------------------------------------------------------------------------------------


class History:
    """The events of a seed, played to a fabric."""

    def __init__(self, fabric: Fabric, seed: int) -> None:
        self.fabric, self.draw = fabric, random.Random(seed)
        self.pinned: Dict[Key, End] = {}
        self.events: Tuple[Tuple[int, Callable[[], str]], ...] = (
            (8, self.moves), (4, self.speaks), (2, self.pins), (1, self.unpins), (2, self.gets_address),
            (1, self.link_away), (1, self.edge_dies), (1, self.gateway_dies), (1, self.gobgpd_dies), (1, self.bgpd_dies),
            (1, self.frr_dies), (1, self.reflector_dies),
        )

    def round(self) -> List[str]:
        """Plays a round's events; gives their words."""
        weights, events = zip(*self.events)
        told = []
        for event in self.draw.choices(events, weights, k=self.draw.randint(3, 8)):
            told.append(event())
            time.sleep(self.draw.random())
        return told

    def drawn_end(self, is_leaf: bool) -> End:
        """An edge of ours, or a leaf."""
        return self.draw.choice([end for end in self.fabric.ends if (end.leaf is not None) == is_leaf])

    def drawn_host(self) -> Tuple[int, int]:
        """A host's network and number."""
        return self.draw.choice(NETWORKS), self.draw.randint(1, HOSTS)

    def moves(self) -> str:
        """A host's cable goes to another edge or leaf."""
        vni, number = self.drawn_host()
        at = self.fabric.hosts[vni, number].place.edge
        end = self.draw.choice([each for each in self.fabric.ends if each.address != at])
        self.fabric.plug(vni, number, end)
        return f"host {number} of {vni} goes to {end.name}"

    def speaks(self) -> str:
        """A station speaks behind a host, though it may be pinned elsewhere."""
        vni, number = self.drawn_host()
        mac, host = self.draw.choice(GUESTS), self.fabric.hosts[vni, number]
        self.fabric.speak(host, mac)
        return f"{mac} of {vni} speaks at {self.fabric.end_at(host.place.edge).name}"

    def pins(self) -> str:
        """A station is pinned or sticky at a place, and no longer where it was before."""
        vni, number = self.drawn_host()
        key, end = (vni, self.draw.choice(GUESTS)), self.draw.choice(self.fabric.ends)
        port = end.port(vni, number)
        self.release(key)
        self.pinned[key] = end
        if end.served:
            end.served.ask("1", "pin", str(vni), key[1], str(port))
            if not any(key[1] in line and " pinned" in line for line in end.served.ask("1", "stations", str(vni))):
                del self.pinned[key]
                return f"{key[1]} of {key[0]} isn't pinned at {end.name}: it is static at another edge still"
        else:
            end.leaf.within("bridge", "fdb", "replace", key[1], "dev", f"acc{port}", "master", "static", "sticky")
            if waited(lambda: any("sticky MAC" in route for route in own_routes(end, *key)), STICKY) is None:
                self.release(key)
                return f"{key[1]} of {key[0]} isn't pinned at {end.name}: its bgpd doesn't announce it as sticky"
        return f"{key[1]} of {vni} is pinned at {end.name}"

    def unpins(self) -> str:
        """A pinned station is no longer."""
        keys = sorted(self.pinned)
        key = self.draw.choice(keys) if keys else None
        self.release(key)
        return f"{key[1]} of {key[0]} is no longer pinned" if key else "nothing is pinned"

    def release(self, key: Optional[Key]) -> None:
        """A station is no longer pinned, where it was."""
        end = self.pinned.pop(key, None)
        if end is not None and end.served:
            end.served.ask("1", "unpin", str(key[0]), key[1])
        elif end is not None:
            device = self.port_of(end.leaf, key)
            if device:
                end.leaf.within("bridge", "fdb", "del", key[1], "dev", device, "master")

    def port_of(self, leaf: Leaf, key: Key) -> Optional[str]:
        """The port at which a leaf's bridge has a station."""
        for line in leaf.within("bridge", "fdb", "show", "br", f"br{key[0]}").splitlines():
            words = line.split()
            if words[0] == key[1] and words[2].startswith("acc"):
                return words[2]
        return None

    def gets_address(self) -> str:
        """A leaf hears the address of a host: it announces a route of MAC and IP address."""
        vni, number = self.drawn_host()
        host, leaf = self.fabric.hosts[vni, number], self.drawn_end(True)
        self.fabric.plug(vni, number, leaf)
        address = f"198.18.{vni % 250}.{number}"
        leaf.leaf.within("ip", "neigh", "replace", address, "lladdr", host.mac, "dev", f"br{vni}", "nud", "reachable")
        return f"host {number} of {vni} goes to {leaf.name}, with an address"

    def link_away(self) -> str:
        """A link is away for some seconds, in which a host moves."""
        end, seconds = self.draw.choice(self.fabric.ends), self.draw.randint(1, 8)
        run("ip", "-n", end.space(), "link", "set", "up0", "down")
        told = self.moves()
        time.sleep(seconds)
        run("ip", "-n", end.space(), "link", "set", "up0", "up")
        return f"the link of {end.name} is away for {seconds} s, while {told}"

    def edge_dies(self) -> str:
        """An edge of ours is killed and begins anew: what was pinned there isn't any more."""
        end = self.drawn_end(False)
        end.served.child.kill()
        self.pinned = {key: each for key, each in self.pinned.items() if each is not end}
        time.sleep(self.draw.random())
        end.served.start()
        return f"{end.name} is killed and begins anew"

    def gateway_dies(self) -> str:
        """A gateway is killed and begins anew."""
        end = self.drawn_end(False)
        self.fabric.gateways[end.name].kill()
        time.sleep(self.draw.random())
        self.fabric.start_gateway(end)
        return f"the gateway of {end.name} is killed and begins anew"

    def restart_gobgpd(self, name: str) -> str:
        """A GoBGP is killed and begins anew."""
        old = self.fabric.gobgpds[name]
        old.kill()
        time.sleep(self.draw.random())
        self.fabric.gobgpds[name] = Gobgpd(*old.again)
        self.fabric.lab.keep(self.fabric.gobgpds[name])
        return f"gobgpd ({name}) is killed and begins anew"

    def gobgpd_dies(self) -> str:
        """GoBGP beside a gateway."""
        return self.restart_gobgpd(self.drawn_end(False).name)

    def reflector_dies(self) -> str:
        """The route reflector."""
        return self.restart_gobgpd("reflector")

    def bgpd_dies(self) -> str:
        """A leaf's bgpd is killed and begins anew."""
        end = self.drawn_end(True)
        end.leaf.bgpd_dies()
        time.sleep(self.draw.random())
        end.leaf.start_daemon("bgpd", end.leaf.bgpd_lines)
        return f"bgpd of {end.name} is killed and begins anew"

    def frr_dies(self) -> str:
        """All of FRR at a leaf is killed and begins anew."""
        end = self.drawn_end(True)
        end.leaf.die()
        time.sleep(self.draw.random())
        end.leaf.start_daemons()
        return f"FRR of {end.name} is killed and begins anew"


# ---- looks ---------------------------------------------------------------------------------------------------


class Looks:
    """What all say, and whose fault it is if they differ."""

    def __init__(self, history: History) -> None:
        self.fabric, self.history, self.thawed = history.fabric, history, 0

    def homes(self) -> Owners:
        """Where the hosts and the pinned stations are."""
        homes = {(vni, host.mac): host.place.edge for (vni, _), host in self.fabric.hosts.items()}
        return {**homes, **{key: end.address for key, end in self.history.pinned.items()}}

    def pings(self, pool: ThreadPoolExecutor) -> List[str]:
        """The pings that are lost, of one from each host to each other one of its network."""
        hosts = [(vni, host) for (vni, _), host in self.fabric.hosts.items()]
        pairs = [(vni, one, other) for (vni, one), (its, other) in itertools.permutations(hosts, 2) if vni == its]
        answered = list(pool.map(lambda pair: pair[1].reaches(pair[2]), pairs))
        return [f"{vni}: {one.name} to {other.name}" for (vni, one, other), found in zip(pairs, answered) if not found]

    def differing(self) -> Dict[str, object]:
        """The stations that not all name alike, or not where they are, with what each says; and the pings that are lost."""
        with ThreadPoolExecutor(16) as pool:
            lost = self.pings(pool)
            views = {name: view for end in self.fabric.ends for name, view in end.views().items()}
            answers = dict(zip(views, pool.map(lambda view: view(), views.values())))
        homes, found = self.homes(), {}
        macs = {*GUESTS, *(host.mac for host in self.fabric.hosts.values())}
        for key in itertools.product(NETWORKS, sorted(macs)):
            told = {name: owners.get(key, NOBODY) for name, owners in answers.items()}
            if len({*told.values(), homes.get(key, told["edge 1"])}) > 1:
                found[f"{key[0]} {key[1]}, home {homes.get(key, 'unknown')}"] = told
        return {**found, **({"pings lost": lost} if lost else {})}

    def thaw(self) -> None:
        """Thaws what an edge has frozen, as its operator would."""
        for end in self.fabric.ends[:2]:
            for words in (line.split() for line in end.served.ask("1", "stations") if line.endswith(" frozen")):
                self.thawed += 1
                end.served.ask("1", "thaw", words[2], words[3])

    def agreed(self, limit: float) -> Tuple[Optional[float], Dict[str, object]]:
        """The seconds until all agree, or nothing and what differs then. A look counts by its beginning: a ping may wait in it."""
        begun, found = time.monotonic(), {}
        while (took := time.monotonic() - begun) <= limit:
            self.thaw()
            found = self.differing()
            if not found:
                return took, found
        return None, found

    def verdicts(self, found: Dict[str, object]) -> List[str]:
        """Whose fault it is: that of a leaf that contradicts its routes, which begins anew, else of whom the owners show."""
        told = []
        for end, vni in itertools.product(self.fabric.ends[2:], NETWORKS):
            _, text = said(*end.leaf.audit_words("--vni", str(vni), "--again", str(TWICE)))
            told += [f"{LEAF_FAULT} {end.name}: {vni}: {line}" for line in text.splitlines() if FAULTS.search(line)]
        told += [self.verdict(key, owners, told) for key, owners in found.items() if isinstance(owners, dict)]
        if not any(isinstance(owners, dict) for owners in found.values()):
            told.append("fault of the frames: all name the same owners, and pings are lost")
            told += self.floods()
        for end in self.fabric.ends[2:]:
            if any(end.name in line and (line.startswith(LEAF_FAULT) or THEIRS in line) for line in told):
                end.leaf.begin_anew()
        return told

    def floods(self) -> List[str]:
        """Where each edge and leaf sends broadcasts, and what each host knows of its neighbours: without both no ping goes."""
        told = []
        for end in self.fabric.ends:
            if end.served:
                lines = [line for line in end.served.ask("1", "report") if line.startswith("flood ")]
                told.append(f"{end.name} floods to: {'; '.join(lines)}; peers: {'; '.join(end.served.ask('1', 'peers'))}")
            else:
                lists = [end.leaf.within("bridge", "fdb", "show", "dev", f"vxlan{vni}") for vni in NETWORKS]
                lines = [line for text in lists for line in text.splitlines() if line.startswith("00:00:00:00:00:00")]
                told.append(f"{end.name} floods to: {'; '.join(lines)}")
        for (vni, number), host in self.fabric.hosts.items():
            neighbours = run(*entering(host.netns), "ip", "-4", "neigh").splitlines()
            told.append(f"host {number} of {vni}, at {host.place.edge}, knows: {'; '.join(neighbours)}")
        return told

    def verdict(self, key: str, owners: Owners, told: List[str]) -> str:
        """Who differs at a station. A leaf is the cause only if our edges are right, and the audit or its own kernel shows it."""
        station, _, home = key.partition(", home ")
        if len({*owners.values()}) == 1:
            return f"{station}: nobody's by the routes: all name {owners['edge 1']}"
        leaf = next((end for end in self.fabric.ends[2:] if end.address == home), None)
        if leaf and owners[f"{leaf.name}'s kernel"] == home != owners[f"{leaf.name}'s zebra"]:
            return f"{station}: {THEIRS}: zebra of {leaf.name} doesn't take its kernel's entry"
        ours = {end.name: owners[end.name] for end in self.fabric.ends[:2]}
        zebras = {end: owners[f"{end.name}'s zebra"] for end in self.fabric.ends[2:]}
        silent = [end.name for end, owner in zebras.items() if owner == end.address and not own_routes(end, *station.split())]
        if silent:
            return f"{station}: {THEIRS}: bgpd of {' and '.join(silent)} doesn't know what its zebra has as local"
        if len({*ours.values(), *zebras.values()}) == 1 and home in ("unknown", *ours.values()):
            wrong = [end.name for end, owner in zebras.items() if owners[f"{end.name}'s kernel"] != owner]
            return f"{station}: {THEIRS}: kernel of {' and '.join(wrong)}"
        if len({*ours.values()}) > 1 or home not in ("unknown", *ours.values()):
            has = [line for end in self.fabric.ends[:2] for line in end.served.ask("1", "report") if f" {station} " in line]
            return f"{station}: fault of our edges, or a gateway there: {ours}; {has}"
        vni, mac = station.split()
        if any(f": {vni}: " in line and mac in line for line in told):
            return f"{station}: {THEIRS}"
        return f"{station}: the leaves have different routes: fault of the reflector, a session or who announces"


def play(history: History, looks: Looks, number: int) -> Tuple[Optional[float], bool]:
    """Plays a round and tells of it; gives the seconds until all agreed, and whether a difference is only FRR's fault."""
    told = history.round()
    took, found = looks.agreed(LIMIT)
    if took is not None:
        print(f"round {number}: {len(told)} events, agreed after {took:.1f} s", flush=True)
        return took, True
    print(f"round {number}: not agreed after {LIMIT} s: {'; '.join(told)}", flush=True)
    verdicts = looks.verdicts(found)
    lines = [*(f"{key}: {each}" for key, each in found.items()), *verdicts]
    late, _ = looks.agreed(LATE)
    lines.append("still not agreed" if late is None else f"agreed {late:.1f} s later")
    print("\n".join(f"   {line}" for line in lines), flush=True)
    return None, all(line.startswith(LEAF_FAULT) or THEIRS in line for line in verdicts)


def main(rounds: int, seed: int) -> int:
    """Plays so many rounds; the last line says how many agreed."""
    with Lab() as lab:
        fabric = Fabric(lab)
        history = History(fabric, seed)
        looks = Looks(history)
        version = fabric.ends[2].leaf.version()
        print(f"-- two evpnd serve, two leaves of FRR {version}; seed {seed}; load {os.getloadavg()[0]:.1f}", flush=True)
        took, found = looks.agreed(START)
        if took is None:
            raise Trouble(f"the fabric doesn't begin: {found}")
        results = [play(history, looks, number) for number in range(1, rounds + 1)]
    agreed = [took for took, _ in results if took is not None]
    if agreed:
        figures = f"median {statistics.median(agreed):.1f} s, longest {max(agreed):.1f} s"
        print(f"{figures}; {looks.thawed} times thawed; load {os.getloadavg()[0]:.1f}")
    print(f"rounds: {len(agreed)} agreed, {rounds - len(agreed)} not; seed {seed}")
    return int(not all(is_theirs for _, is_theirs in results))


if __name__ == "__main__":
    try:
        sys.exit(main(int(sys.argv[1]), int(sys.argv[2])))
    except Trouble as trouble:
        print(f"FAILED: {trouble}")
        sys.exit(1)
