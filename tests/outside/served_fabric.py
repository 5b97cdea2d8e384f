"""`evpnd serve` among FRR leaves, and two of them without BGP; `fabric.sh` starts this in a network namespace of its own.

Host 1 stands at our edge, host 2 at leaf one, host 3 at leaf two. Host 4 moves, and its home is leaf one. After each step
all that can be asked have to name the same owner of each host: evpndctl, vtysh at both leaves, and their kernels' tables.
Host N has the address 02:00:00:00:77:0N.
"""

import sys
import time
from typing import Callable, Dict, List, Optional, Tuple

from served_lab import CONTROLLER, NOBODY, VNI, Host, Lab, Leaf, Pings, Place, Served, differing, entering

from bgp_fabric import HOLD, Gateway, Gobgpd, gateway_text, reflector_text, seconds, waited  # noqa: E402, isort: skip
from edge import Trouble, run  # noqa: E402, isort: skip
from histories import Tally  # noqa: E402, isort: skip

OURS, REFLECTOR, ONE, TWO = "10.0.0.1", "10.0.0.9", "10.0.0.11", "10.0.0.12"
LEFT, RIGHT = "10.0.0.21", "10.0.0.22"
BROADCASTS = 50
GONE = 20  # seconds after which TCP takes a peer for gone that answers nothing
# Keepalives find that out while nothing is sent. While octets wait for an answer Linux sends no keepalives: then it is
# TCP_USER_TIMEOUT (level 6, option 18, in milliseconds).
WATCHED = f"keepalive,keepidle=5,keepintvl=5,keepcnt=3,setsockopt-int=6:18:{GONE * 1000}"
AWAY = 3  # seconds without a session after which a peer is away here: the key `peer_hold`
SILENT = "02:00:00:00:78:01"  # a station that no host has


class Fabric:
    """Our edge and two leaves, with a host at each and one that moves."""

    neighbours = [OURS, ONE, TWO]  # of the route reflector
    is_numbered = True  # whether our edge's configuration has an incarnation

    def __init__(self, lab: Lab, tally: Tally) -> None:
        self.lab, self.tally = lab, tally
        self.served = Served(lab, "ours", OURS, [ONE, TWO], is_numbered=self.is_numbered)
        self.make_reflector()
        self.near = Gobgpd(entering(self.served.netns), lab.folder, "near", self.near_text())
        lab.keep(self.near)
        self.one, self.two = Leaf(lab, "one", ONE, REFLECTOR), Leaf(lab, "two", TWO, REFLECTOR)
        self.gateways = 0
        self.served.start()
        self.start_gateway()
        self.hosts = [Host(lab, number) for number in (1, 2, 3, 4)]
        for host, place in zip(self.hosts, (self.served.port(1), self.one.port(1), self.two.port(1), self.one.port(2))):
            host.plug(place)
        self.mover = self.hosts[3]
        self.homes = {host.mac: host.place.edge for host in self.hosts}

    def make_reflector(self) -> None:
        """The route reflector, which is GoBGP."""
        netns = self.lab.space("reflector")
        self.lab.attach(netns, REFLECTOR)
        text = reflector_text(REFLECTOR, self.neighbours)
        self.reflector = Gobgpd(entering(netns), self.lab.folder, "reflector", text)
        self.lab.keep(self.reflector)

    def restart_reflector(self) -> None:
        """It is killed and begins anew."""
        self.reflector.kill()
        time.sleep(1)
        self.reflector = Gobgpd(*self.reflector.again)
        self.lab.keep(self.reflector)

    def near_text(self) -> str:
        """The configuration of GoBGP beside the gateway."""
        return gateway_text(REFLECTOR, OURS)

    def start_gateway(self) -> None:
        """A new gateway."""
        self.gateways += 1
        way = ("--socket", self.served.control)
        self.gateway = Gateway(self.lab.folder, self.near.path, f"gateway{self.gateways}", way, OURS)
        self.lab.keep(self.gateway)

    def agree(self, what: str, dead: Optional[Leaf] = None, since: Optional[float] = None) -> None:
        """Sees that all but a dead leaf soon name the wanted owner of each station, and tells after how long."""
        begun = time.monotonic() if since is None else since
        asked = [each for each in (self.served, self.one, self.two) if each is not dead]
        found = waited(lambda: not differing(asked, self.homes))
        owners = ", ".join(f"{mac[-5:]} at {home}" for mac, home in self.homes.items())
        told = f"after {time.monotonic() - begun:.1f} s: {owners}" if found is not None else differing(asked, self.homes)
        self.tally.see(found is not None, f"{what}: all agree {told}")

    def leaves_agree(self) -> Optional[float]:
        """The seconds until both leaves name the wanted owners."""
        return waited(lambda: not differing([self.one, self.two], self.homes))

    def all_ping(self, what: str) -> None:
        """Sees that each host reaches each other one."""
        pairs = [(one, other) for one in self.hosts for other in self.hosts if one is not other]
        waited(lambda: all(one.reaches(other) for one, other in pairs), 20)
        lost = {f"{one.name} to {other.name}": 5 - one.pings(other) for one, other in pairs}
        lost = {pair: count for pair, count in lost.items() if count}
        self.tally.see(not lost, f"{what}: each host pings each other one five times, and {lost or 'none'} is lost")

    def broadcasts_once(self, what: str) -> None:
        """Sees that broadcasts of each host come once to each other one."""
        wrong = {}
        for host in self.hosts:
            others = [each for each in self.hosts if each is not host]
            for other, came in zip(others, host.broadcasts(others, BROADCASTS)):
                if came != (BROADCASTS, BROADCASTS):
                    wrong[f"{host.name} to {other.name}"] = came
        self.tally.see(not wrong, f"{what}: {BROADCASTS} broadcasts of each host come to each other one once{wrong or ''}")

    def pinging(self, step: Callable[[], object], host: Host) -> Tuple[int, int]:
        """Does something while a host pings all others, and they it; gives how many pings were lost each way."""
        others = [each for each in self.hosts if each is not host]
        to, of = Pings(host, others), [Pings(each, [host]) for each in others]
        time.sleep(1)
        step()
        time.sleep(2)
        return to.end(), sum(each.end() for each in of)

    def moves(self, host: Host, place: Place, where: str) -> None:
        """A host's cable is pulled and put in elsewhere, while pings go on."""

        def step() -> None:
            begun = time.monotonic()
            host.plug(place)
            self.homes[host.mac] = place.edge
            plugged = time.monotonic() - begun
            self.agree(f"{host.name} moves {where} (the cable took {plugged:.1f} s)", since=begun + plugged)

        to, of = self.pinging(step, host)
        print(f"   lost of 15 pings a second each way: {to} of its own, {of} to it", flush=True)
        self.all_ping("then")


# ---- with BGP ------------------------------------------------------------------------------------------------


def begins(fabric: Fabric, tally: Tally) -> None:
    """All reach each other."""
    fabric.all_ping("at first")
    fabric.agree("at first")
    fabric.broadcasts_once("at first")
    told = [line for line in fabric.served.ask("1", "stations") if fabric.hosts[0].mac in line]
    tally.see(bool(told) and "port 1" in told[0], "evpndctl shows host 1 at port 1")


def moves(fabric: Fabric, _tally: Tally) -> None:
    """A host moves to us, to the other leaf, and home."""
    fabric.moves(fabric.mover, fabric.served.port(2), "from leaf one to us")
    fabric.broadcasts_once("there")
    fabric.moves(fabric.mover, fabric.two.port(2), "from us to leaf two")
    fabric.moves(fabric.mover, fabric.one.port(2), "back home to leaf one")
    fabric.broadcasts_once("there")


def leaf_dies(fabric: Fabric, tally: Tally) -> None:
    """A leaf's daemons are killed, and begin anew."""
    homes = dict(fabric.homes)
    fabric.one.die()
    fabric.homes.update({mac: NOBODY for mac, home in homes.items() if home == ONE})
    fabric.agree("leaf one dies", dead=fabric.one)
    flood = [line for line in fabric.served.ask("1", "report") if line.startswith(f"flood {VNI} {ONE} ")]
    tally.see(bool(flood) and flood[0].endswith("withdrawn"), "and has left our flood list")
    tally.see(fabric.hosts[0].pings(fabric.hosts[2]) == 5, "hosts elsewhere go on pinging each other")
    begun = time.monotonic()
    fabric.one.start_daemons()
    fabric.homes = homes
    hosts = [fabric.hosts[1], fabric.mover]
    waited(lambda: all(host.reaches(fabric.hosts[0]) for host in hosts), 30)
    fabric.agree("it begins anew", since=begun)
    fabric.all_ping("then")


def gateway_dies(fabric: Fabric, tally: Tally) -> None:
    """The gateway is killed. Meanwhile a host moves and a station goes, which the next one has to tell our edge."""
    fabric.one.within("bridge", "fdb", "add", SILENT, "dev", "acc1", "master", "dynamic")
    fabric.homes[SILENT] = ONE
    fabric.agree("a station of leaf one's")
    host = fabric.hosts[1]
    lost = fabric.pinging(fabric.gateway.kill, fabric.hosts[0])
    tally.see(lost == (0, 0), f"the gateway is killed: {sum(lost)} of 30 pings a second are lost")
    host.plug(fabric.two.port(2))
    fabric.homes[host.mac] = TWO
    fabric.one.within("bridge", "fdb", "del", SILENT, "dev", "acc1", "master")
    fabric.homes[SILENT] = NOBODY
    waited(lambda: host.reaches(fabric.hosts[2]), 20)
    told = fabric.leaves_agree(), fabric.served.owners()
    is_old = told[0] is not None and told[1][host.mac] == told[1][SILENT] == ONE
    tally.see(is_old, "meanwhile our edge doesn't hear that a host moves between the leaves, nor that a station ends")
    begun = time.monotonic()
    fabric.start_gateway()
    found = waited(lambda: fabric.served.owners().get(host.mac) == TWO, 30)
    tally.see(found is not None, f"the next gateway tells it the move after {time.monotonic() - begun:.1f} s")
    fabric.agree(f"and the end, behind the {HOLD} s of a gateway's beginning", since=begun)
    del fabric.homes[SILENT]
    fabric.all_ping("then")
    fabric.moves(host, fabric.one.port(1), "back to leaf one")


def served_dies(fabric: Fabric, tally: Tally) -> None:
    """Our edge is killed, and begins anew with a higher incarnation; hosts elsewhere go on."""
    pings = Pings(fabric.hosts[1], [fabric.hosts[2]])
    homes = dict(fabric.homes)
    fabric.served.child.kill()
    fabric.homes.update({mac: NOBODY for mac, home in homes.items() if home == OURS})
    found = fabric.leaves_agree()
    tally.see(found is not None, f"evpnd serve is killed: the leaves have withdrawn its host after {seconds(found)}")
    begun = time.monotonic()
    fabric.served.start()
    fabric.homes = homes
    waited(lambda: fabric.hosts[0].reaches(fabric.hosts[1]), 30)
    fabric.agree(f"it begins anew with incarnation {fabric.served.incarnation}", since=begun)
    lost = pings.end()
    tally.see(lost == 0, f"{lost} pings between the leaves' hosts were lost meanwhile")
    fabric.all_ping("then")
    fabric.broadcasts_once("then")


def ends(fabric: Fabric, tally: Tally) -> None:
    """Its input ends."""
    wanted = fabric.served.ask("1", "report")
    status, out = fabric.served.end()
    tally.see(status == 0, f"evpnd serve ends with status {status}")
    tally.see(out.splitlines() == ["edge 1", *wanted], "and prints the report that evpndctl has shown")
    for name, text in (("evpnd serve", fabric.served.noted()), ("the last gateway", fabric.gateway.noted())):
        print(f"   {name} has told: {'; '.join(text.splitlines()) or 'nothing'}", flush=True)


def with_bgp(tally: Tally) -> None:
    """One edge of ours among two leaves."""
    with Lab() as lab:
        fabric = Fabric(lab, tally)
        print(f"-- one evpnd serve, two leaves of FRR {fabric.one.version()}, a route reflector of GoBGP", flush=True)
        for case in (begins, moves, leaf_dies, gateway_dies, served_dies, ends):
            case(fabric, tally)


# ---- without BGP ---------------------------------------------------------------------------------------------


class Pair:
    """Two edges in two namespaces, whose records socat carries."""

    def __init__(self, lab: Lab, tally: Tally, above: str = "", watched: str = WATCHED) -> None:
        self.lab, self.tally, self.watched = lab, tally, watched
        self.left, self.right = Served(lab, "left", LEFT, [RIGHT], above=above), Served(lab, "right", RIGHT, [LEFT], above=above)
        self.left.start()
        self.right.start()
        self.hosts = [Host(lab, number) for number in (5, 6, 7)]
        for host, place in zip(self.hosts, (self.left.port(1), self.right.port(1), self.left.port(2))):
            host.plug(place)
        self.homes = {host.mac: host.place.edge for host in self.hosts}
        self.join()

    def join(self) -> None:
        """A socat on each side, one of which listens."""
        listening, calling = f"TCP-LISTEN:7000,bind={LEFT},reuseaddr,{self.watched}", f"TCP:{LEFT}:7000,retry=50,interval=0.1,{self.watched}"
        ends = ((self.left, listening), (self.right, calling))
        self.carriers = []
        for served, end in ends:
            records = f"EXEC:{sys.executable} {CONTROLLER} --control {served.control} records"
            self.carriers.append(self.lab.start(served.netns, "socat", end, records))

    def part(self) -> None:
        """Both end."""
        for carrier in self.carriers:
            if carrier.process.poll() is None:
                carrier.kill()

    def agree(self, what: str, since: Optional[float] = None) -> None:
        """Sees that both soon name the wanted owner of each host."""
        begun = time.monotonic() if since is None else since
        asked = (self.left, self.right)
        found = waited(lambda: not differing(asked, self.homes), 20)
        told = "" if found is not None else differing(asked, self.homes)
        self.tally.see(found is not None, f"{what}: both agree after {time.monotonic() - begun:.1f} s{told}")

    def all_ping(self, what: str) -> None:
        """Sees that each host reaches each other one."""
        pairs = [(one, other) for one in self.hosts for other in self.hosts if one is not other]
        waited(lambda: all(one.reaches(other) for one, other in pairs), 20)
        lost = sum(5 - one.pings(other) for one, other in pairs)
        self.tally.see(lost == 0, f"{what}: of five pings of each host to each other one {lost or 'none'} is lost")

    def moves(self, host: Host, place: Place, where: str) -> None:
        """A host moves while it pings the others."""
        pings = Pings(host, [each for each in self.hosts if each is not host])
        time.sleep(1)
        begun = time.monotonic()
        host.plug(place)
        plugged = time.monotonic()
        self.homes[host.mac] = place.edge
        self.agree(f"{host.name} moves {where} (the cable took {plugged - begun:.1f} s)", plugged)
        time.sleep(1)
        print(f"   {pings.end()} of 10 pings a second were lost", flush=True)


def without_bgp(tally: Tally) -> None:
    """Two edges of ours, joined by socat."""
    with Lab() as lab:
        pair = Pair(lab, tally)
        print("-- two evpnd serve without BGP, joined by socat", flush=True)
        pair.all_ping("at first")
        pair.agree("at first")
        pair.moves(pair.hosts[2], pair.right.port(2), "to the other edge")
        pair.part()
        mover = pair.hosts[2]
        mover.plug(pair.left.port(2))
        waited(lambda: mover.reaches(pair.hosts[0]), 10)
        owners = [each.owners().get(mover.mac) for each in (pair.left, pair.right)]
        tally.see(owners == [LEFT, RIGHT], "socat is killed, the host moves back, and the other edge doesn't hear of it")
        pair.homes[mover.mac] = LEFT
        begun = time.monotonic()
        pair.join()
        pair.agree("joined again", begun)
        pair.all_ping("then")
        reports = [each.ask("1", "report") for each in (pair.left, pair.right)]
        tally.see(reports[0] == reports[1] != [], "both report the same")
        pair.right.ask("1", "pin", str(VNI), SILENT, "2")
        waited(lambda: SILENT in pair.left.owners(), 10)
        pair.part()
        pair.right.child.kill()
        begun = time.monotonic()
        pair.right.start()
        pair.join()
        waited(lambda: pair.hosts[1].reaches(pair.hosts[0]), 20)
        pair.agree(f"one is killed, and begins anew with incarnation {pair.right.incarnation}", begun)
        pair.all_ping("then")
        print(f"   a station that was pinned in its earlier life is at {pair.left.owners().get(SILENT, NOBODY)} for the other one")
        for each in (pair.left, pair.right):
            print(f"   {each.name} ends with status {each.end()[0]} and has told: {'; '.join(each.noted().splitlines()) or 'nothing'}")


def power_lost(tally: Tally) -> None:
    """The host of one of the two loses power, first while nothing is sent to it, and then while something is."""
    with Lab() as lab:
        pair = Pair(lab, tally, above=f"peer_hold = {AWAY}\n")
        print(f"-- the same, and the host of one loses power; {WATCHED}", flush=True)
        pair.all_ping("at first")
        for what, words in (("nothing is sent to it", ("edges",)), ("a route is sent to it", ("1", "pin", str(VNI), SILENT, "2"))):
            up, away = ([f"1 peer {RIGHT} {state}"] for state in ("up", "away"))
            waited(lambda: pair.left.ask("1", "peers") == up, 20)
            run("ip", "-n", pair.right.netns, "link", "set", "up0", "down")
            pair.right.child.kill()
            pair.left.ask(*words)
            found = waited(lambda: pair.left.ask("1", "peers") == away, GONE + AWAY + 20)
            is_right = found is not None and found < GONE + AWAY + 10
            tally.see(is_right, f"power lost, {what}: the other edge gives it no frame after {seconds(found)}")
            pair.part()
            run("ip", "-n", pair.right.netns, "link", "set", "up0", "up")
            begun = time.monotonic()
            pair.right.start()
            pair.join()
            waited(lambda: pair.hosts[1].reaches(pair.hosts[0]), 20)
            pair.agree("power is back", begun)
            pair.all_ping("then")


PARTS: Dict[str, Callable[[Tally], None]] = {"bgp": with_bgp, "joined": without_bgp, "power": power_lost}


def main(names: List[str]) -> int:
    """The parts of these names, or all; the last line is `ok` where all passed."""
    tally = Tally()
    for name in names or PARTS:
        PARTS[name](tally)
    print(f"{tally.passed} passed, {tally.failed} failed")
    if tally.failed:
        return 1
    print("ok")
    return 0


if __name__ == "__main__":
    try:
        sys.exit(main(sys.argv[1:]))
    except Trouble as trouble:
        print(f"FAILED: {trouble}")
        sys.exit(1)
