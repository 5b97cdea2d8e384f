"""EVPN routes of BGP as fields (RFC 7432, 7; RFC 8365, 5), made of update records, and registers made of them.

Nothing here knows a socket, and no octets of BGP are made: gobgp.py hands the fields to a daemon. `Heard` holds what
the fabric says, as registers whose changes are numbered. `Own` holds what our edges say, and the steps in which a
daemon takes it.
"""

import re
from typing import Container, Dict, Hashable, Iterable, List, NamedTuple, Optional, Set, Tuple

from frr_routes import AUTO_RT, NO_KIND, Routes, Seen
from update_records import FLOOD_ROUTE, MAC_ROUTE, Advert, Register, Unreadable, Update
from update_records import address_text, content_of, ip_text, mac_text, newness_of, register_of
from update_records import read_address, read_ip, read_mac, read_number

VXLAN = 8  # the tunnel type of the encapsulation community (RFC 8365, 5.1.3)
INGRESS_REPLICATION = 6  # the tunnel type of the PMSI attribute (RFC 6514, 5; RFC 7432, 11.2)
REMEMBERED = 1 << 16  # answers that are kept of each kind, for routes that are alike
GREATEST_NUMBER = (1 << 16) - 1  # an RD of type 1 and a route target of an AS have two octets of it (RFC 4364, 4.2)


Place = Tuple[bytes, int]  # a route's originator and VNI


class Pmsi(NamedTuple):
    """A PMSI tunnel attribute (RFC 6514, 5): the tunnel's type, its label, the address at its end."""

    tunnel: int
    label: int
    end: bytes


class Route(NamedTuple):
    """An EVPN route with the attributes that a record says; of type 3 the IP is the originating router's."""

    kind: int
    rd: str
    mac: str = ""
    ip: str = ""
    tag: int = 0
    esi: bytes = bytes(10)
    labels: Tuple[int, ...] = ()
    hop: str = ""
    targets: Tuple[str, ...] = ()
    mobility: Optional[Tuple[bool, int]] = None
    pmsi: Optional[Pmsi] = None

    def key(self) -> Hashable:
        """What a BGP session knows the route by: its NLRI without ESI and labels (RFC 7432, 7.2 and 7.3)."""
        return self.kind, self.rd, self.tag, self.mac, self.ip


# ---- records to routes -------------------------------------------------------------------------------------


class Names:
    """The RDs and route targets of our networks.

    An RD's number is the VNI where that has two octets and nobody has the number, else the next that is free: two
    networks of one edge never share one. A route target is what was said for a VNI, else AS:VNI as FRR has it, or
    RFC 8365's form.
    """

    def __init__(self, autonomous: int, targets: Iterable[Tuple[str, int]] = (), automatic: bool = False) -> None:
        self.autonomous = autonomous
        self.targets = {vni: target for target, vni in targets}
        self.automatic = automatic
        self.numbers: Dict[int, int] = {}
        self.networks: Dict[int, int] = {}

    def number(self, vni: int) -> int:
        """The number of a network."""
        if vni not in self.numbers:
            if len(self.networks) == GREATEST_NUMBER:
                raise Unreadable(f"more than {GREATEST_NUMBER} networks")
            number = vni & GREATEST_NUMBER
            while number == 0 or number in self.networks:
                number = number % GREATEST_NUMBER + 1
            self.adopt(vni, number)
        return self.numbers[vni]

    def adopt(self, vni: int, number: int) -> bool:
        """Gives a network a number, unless either has another already."""
        if self.numbers.get(vni, number) != number or self.networks.get(number, vni) != vni:
            return False
        self.numbers[vni] = number
        self.networks[number] = vni
        return True

    def rd(self, originator: bytes, vni: int) -> str:
        """The RD of an edge's network (RFC 7432, 7.9)."""
        return f"{address_text(originator)}:{self.number(vni)}"

    def target(self, vni: int) -> str:
        """A network's route target (RFC 8365, 5.1.2.1 where it is automatic), with the low two octets of the AS."""
        number = vni + AUTO_RT if self.automatic else vni
        return self.targets.get(vni) or f"{self.autonomous & GREATEST_NUMBER}:{number}"


def is_target(text: str) -> bool:
    """Whether a text spells a route target (RFC 4360, 4): AS:NUMBER, or ADDRESS:NUMBER, of six octets in all."""
    admin, _, number = text.rpartition(":")
    try:
        if "." in admin:
            read_address(admin)
            is_short = True
        else:
            is_short = read_number(admin, 1 << 32, "AS") > GREATEST_NUMBER
        read_number(number, 1 << (16 if is_short else 32), "number")
    except Unreadable:
        return False
    return True


def route_of(update: Update, names: Names) -> Route:
    """The route of an update; a withdrawal's says the key and its label alone.

    The mobility community is always there: GoBGP gives an advert without one a sequence number of its own making.
    """
    originator = address_text(update.originator)
    rd = names.rd(update.originator, update.vni)
    if update.mac is None:
        route = Route(FLOOD_ROUTE, rd, ip=originator)
    else:
        ip = ip_text(update.ip) if update.ip else ""
        route = Route(MAC_ROUTE, rd, mac_text(update.mac), ip, labels=(update.vni,))
    advert = update.advert
    if advert is None:
        return route
    route = route._replace(hop=originator, targets=(names.target(update.vni),))
    if update.mac is None:
        return route._replace(pmsi=Pmsi(INGRESS_REPLICATION, update.vni, update.originator))
    labels = route.labels + (() if advert.label2 is None else (advert.label2,))
    return route._replace(labels=labels, mobility=(advert.static, advert.sequence))


def remember(cache: dict, key: Hashable, value: object) -> None:
    """Puts a value into a cache, which is emptied first if it is full."""
    if len(cache) >= REMEMBERED:
        cache.clear()
    cache[key] = value


# ---- routes to registers -----------------------------------------------------------------------------------


def said_by(route: Route, routes: Routes) -> Optional[Tuple[Register, Advert]]:
    """The register of a route and what it says there; nothing, with its cause counted, where a record can't say it."""
    routes.routes += 1
    if route.kind not in (MAC_ROUTE, FLOOD_ROUTE):
        return routes.leave(NO_KIND)
    try:
        mac = read_mac(route.mac) if route.kind == MAC_ROUTE else None
        ip = b"" if mac is None or route.ip == "" else read_ip(route.ip)
        place = place_of(route, mac, routes)
    except Unreadable:
        return routes.leave("an address that a record can't say")
    return None if place is None else ((*place, mac, ip), advert_of(route))


def place_of(route: Route, mac: Optional[bytes], routes: Routes) -> Optional[Place]:
    """The originator and the VNI of a route. Most of a leaf's routes differ by MAC only, and have the same answer."""
    alike = route.kind, route.rd, route.tag, route.esi, route.labels, route.hop, route.targets, route.pmsi
    place = routes.places.get(alike)
    if place is None:
        counted = sum(routes.told.values())
        place = judged(route, mac, routes)
        if place is not None and counted == sum(routes.told.values()):
            remember(routes.places, alike, place)
    return place


def judged(route: Route, mac: Optional[bytes], routes: Routes) -> Optional[Place]:
    """The originator and the VNI of a route, by its attributes; nothing, with its cause counted, if a record can't say it."""
    if route.kind == FLOOD_ROUTE and route.pmsi is not None and route.pmsi.tunnel != INGRESS_REPLICATION:
        return routes.leave("a multicast tunnel that isn't ingress replication")
    label = label_of(route)
    seen = Seen(target_of(route, label, routes), label, mac, str(route.tag), route.esi.hex(), True)
    vni = routes.network_of(seen)
    originator = None if vni is None else routes.next_hop(route.rd, route.hop, vni, mac)
    if originator is None:
        return None
    return routes.leave("no next hop") if originator == bytes(4) else (originator, vni)


def label_of(route: Route) -> Optional[int]:
    """The label that is to be the VNI (RFC 8365, 5.1.3)."""
    if route.kind == FLOOD_ROUTE:
        return None if route.pmsi is None else route.pmsi.label
    return route.labels[0] if route.labels else None


def target_of(route: Route, label: Optional[int], routes: Routes) -> Optional[int]:
    """The wanted VNI that a route target stands for: the label's, where one of several does, else the first."""
    named = [vni for vni in map(routes.vni_of_target, route.targets) if vni in routes.vnis]
    return label if label in named else next(iter(named), None)


def advert_of(route: Route) -> Advert:
    """What a route says of its register (RFC 7432, 7.7); no community means dynamic with sequence 0."""
    if route.kind == FLOOD_ROUTE:
        return Advert()
    static, sequence = route.mobility or (False, 0)
    return Advert(static, sequence, route.labels[1] if len(route.labels) > 1 else None)


# ---- the fabric's routes ----------------------------------------------------------------------------------


class Heard:
    """The registers that BGP's routes say, each with its newest update; a withdrawn one stays, to be told again.

    A route is known by its session's neighbour and what BGP knows it by. Two routes of one register, by two reflectors
    or with two RDs, are the better of them. Each change takes the next number of its originator.

    When a daemon ends, each route that it said is in doubt: until a daemon says it again, until it is known what the next
    daemon holds of this neighbour, or until the doubt expires.
    """

    def __init__(self, incarnation: int) -> None:
        self.incarnation = incarnation
        self.sessions: Dict[str, Dict[Hashable, Tuple[Register, Advert]]] = {}
        self.routes: Dict[Register, Tuple[Tuple[str, Hashable], ...]] = {}
        self.updates: Dict[Register, Update] = {}
        self.counters: Dict[bytes, int] = {}
        self.doubted: Set[Tuple[str, Hashable]] = set()

    def take(self, neighbour: str, key: Hashable, said: Optional[Tuple[Register, Advert]]) -> List[Register]:
        """Takes what a route says now, nothing where it is withdrawn or left out; gives the registers that changed."""
        session, route = self.sessions.setdefault(neighbour, {}), (neighbour, key)
        self.doubted.discard(route)
        old = session.pop(key, None)
        touched = []
        if old is not None:
            self.drop(old[0], route)
            touched.append(old[0])
        if said is not None:
            register = said[0]
            session[key] = said
            self.routes[register] = (*self.routes.get(register, ()), route)
            if touched != [register]:
                touched.append(register)
        return [register for register in touched if self.settle(register)]

    def is_folded(self, neighbour: str, register: Register) -> bool:
        """Whether a register is the better of several routes of one neighbour."""
        routes = self.routes.get(register, ())
        return len(routes) > 1 and sum(each == neighbour for each, _ in routes) > 1

    def drop(self, register: Register, route: Tuple[str, Hashable]) -> None:
        """Takes a route off its register."""
        left = tuple(each for each in self.routes[register] if each != route)
        if left:
            self.routes[register] = left
        else:
            del self.routes[register]

    def lose(self, neighbour: str) -> List[Register]:
        """Withdraws what a neighbour's session brought, but for what is in doubt; gives the registers that changed."""
        keys = [key for key in self.sessions.get(neighbour, ()) if (neighbour, key) not in self.doubted]
        return [register for key in keys for register in self.take(neighbour, key, None)]

    def doubt_all(self) -> None:
        """Puts each route in doubt."""
        self.doubted = {(neighbour, key) for neighbour, session in self.sessions.items() for key in session}

    def doubted_of(self, neighbour: str) -> int:
        """The number of a neighbour's routes that are in doubt."""
        return sum(each == neighbour for each, _ in self.doubted)

    def confirm(self, neighbour: str, held: Container[Hashable]) -> List[Register]:
        """Ends the doubt about a neighbour's routes: withdraws those that aren't held; gives the registers that changed."""
        keys = [key for each, key in self.doubted if each == neighbour]
        self.doubted.difference_update((neighbour, key) for key in keys)
        return [register for key in keys if key not in held for register in self.take(neighbour, key, None)]

    def expire(self) -> List[Register]:
        """Withdraws each route that is still in doubt; gives the registers that changed."""
        return [register for each in list(self.doubted) for register in self.take(*each, None)]

    def settle(self, register: Register) -> bool:
        """Numbers a change of a register, if what its routes say is another thing than before."""
        adverts = [self.sessions[neighbour][key][1] for neighbour, key in self.routes.get(register, ())]
        advert = adverts[0] if len(adverts) == 1 else max(adverts, key=content_of, default=None)
        old = self.updates.get(register)
        if advert == (None if old is None else old.advert):
            return False
        self.say(register, advert)
        return True

    def say(self, register: Register, advert: Optional[Advert]) -> None:
        """Gives a register its next update."""
        counter = self.counters.get(register[0], 0) + 1
        self.counters[register[0]] = counter
        self.updates[register] = Update(*register, advert, counter, self.incarnation)

    def repeat(self, update: Update) -> bool:
        """Meets a record of the fabric's own that comes in, of an earlier life of this gateway, say.

        Where it advertises what BGP doesn't say, a withdrawal follows, and the answer is true. One that is newer than
        what stands here can't be answered.
        """
        register = register_of(update)
        old = self.updates.get(register)
        counter = self.counters.get(update.originator, 0) + 1
        mine = old or Update(*register, None, counter, self.incarnation)
        if newness_of(update) > newness_of(mine):
            raise Unreadable("newer than what this gateway says of the fabric: is there another one, or a slow clock?")
        if old is not None or update.advert is None:
            return False
        self.say(register, None)
        return True


def lacking_in(found: Dict[Register, Update], said: Dict[Register, Update]) -> List[Register]:
    """The registers that an edge lacks, or of which it has an older update, by what it reports and what was said to it."""
    return [
        register
        for register, update in said.items()
        if (update.advert is not None and register not in found)
        or (register in found and newness_of(found[register]) < newness_of(update))
    ]


# ---- what our edges say ------------------------------------------------------------------------------------


class Own:
    """What the records of our edges say, and what the daemon has of it."""

    def __init__(self) -> None:
        self.wanted: Dict[Register, Update] = {}
        self.announced: Dict[Register, Update] = {}
        self.stations: Dict[bytes, set] = {}

    def take(self, update: Update) -> bool:
        """Takes a record; false where a newer one of its register is known, or itself."""
        register = register_of(update)
        old = self.wanted.get(register)
        if old is not None and newness_of(update) <= newness_of(old):
            return False
        self.wanted[register] = update
        return True

    def forget(self) -> List[Register]:
        """Ends a session of records: nothing is wanted; gives the registers that have to be withdrawn."""
        self.wanted = {}
        return list(self.announced)

    def renew(self, announced: Iterable[Update]) -> None:
        """Begins with what a daemon has."""
        self.announced, self.stations = {}, {}
        for update in announced:
            self.note(update)

    def differing(self, is_settled: bool) -> List[Register]:
        """The registers of which the daemon has something else than our edges say.

        What an earlier life announced and nobody has said again counts only if it had its time for that.
        """
        registers = dict.fromkeys([*self.wanted, *(self.announced if is_settled else ())])
        return [each for each in registers if advert_in(self.wanted, each) != advert_in(self.announced, each)]

    def note(self, update: Update) -> None:
        """Notes what the daemon was told."""
        register = register_of(update)
        if update.advert is None:
            self.announced.pop(register, None)
        else:
            self.announced[register] = update
        if update.mac is None:
            return
        station = self.stations.setdefault(update.mac, set())
        (station.discard if update.advert is None else station.add)(register)
        if not station:
            del self.stations[update.mac]

    def plan(self, registers: Iterable[Register]) -> List[Update]:
        """What to tell the daemon of some registers, in an order that it takes; it is noted as told.

        GoBGP takes no advert whose sequence number is below another's of the same MAC in its table, of whatever edge
        and network: those of ours are withdrawn before, and announced again behind.
        """
        wanted = [self.wanted.get(each) or Update(*each) for each in registers]
        steps = []
        for update in sorted(wanted, key=lambda update: (update.advert is not None, content_of(update.advert)[1])):
            if update.advert is not None or register_of(update) in self.announced:
                steps += self.steps(update)
        return steps

    def steps(self, update: Update) -> List[Update]:
        """The steps of one update, noted as told."""
        above = [] if update.advert is None or update.mac is None else self.above(update)
        again = [other for other in above if register_of(other) != register_of(update)]
        steps = [*(other._replace(advert=None) for other in above), update, *again]
        for step in steps:
            self.note(step)
        return steps

    def above(self, update: Update) -> List[Update]:
        """The announced adverts of the same MAC with a higher sequence number, the lowest first."""
        others = [self.announced[each] for each in self.stations.get(update.mac, ())]
        higher = [other for other in others if other.advert.sequence > update.advert.sequence]
        return sorted(higher, key=lambda other: other.advert.sequence)


def advert_in(updates: Dict[Register, Update], register: Register) -> Optional[Advert]:
    """What updates advertise of a register."""
    update = updates.get(register)
    return None if update is None else update.advert


RD_NUMBER = re.compile(r".*:([0-9]{1,5})")


def announced_by(route: Route, own: Iterable[bytes], names: Names) -> Optional[Update]:
    """What a route in the daemon's own table says, if it is of one of our edges as an earlier life announced it."""
    label, number = label_of(route), RD_NUMBER.fullmatch(route.rd)
    try:
        originator = read_ip(route.hop)
        if label is None or number is None or route.rd != f"{address_text(originator)}:{int(number[1])}":
            return None
        mac = read_mac(route.mac) if route.kind == MAC_ROUTE else None
        ip = b"" if mac is None or route.ip == "" else read_ip(route.ip)
    except Unreadable:
        return None
    if originator not in own or route.kind not in (MAC_ROUTE, FLOOD_ROUTE) or not names.adopt(label, int(number[1])):
        return None
    return Update(originator, label, mac, ip, advert_of(route))
