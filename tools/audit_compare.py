"""The comparison: each MAC, flood list and neighbour of a VNI at one router against the routes."""

import functools
import ipaddress
from collections import Counter
from typing import Dict, Iterable, Iterator, List, NamedTuple, Optional, Set, Tuple

import audit_causes
import frr_routes
import update_records as records
from audit_causes import Cause
from audit_frr import Best
from audit_kernel import FLOODED, LOCAL, NOWHERE, UNKNOWN, Kernel, Network
from audit_report import NOBODY, Owned, Station, preferences_of, reason_of
from audit_views import View

KINDS = ("equal", "wrong", "missing", "extra", "foreign", "not judged")
DIFFERING = frozenset(("wrong", "missing", "extra", "foreign"))
CAUSES = {
    "foreign": "an entry that zebra didn't make: by hand, by another program, or learnt by the device",
    "left": "a sticky entry that zebra doesn't name: a zebra that was killed leaves those of static MACs behind; or it was made by hand",
    "forwarding": "differs from bgpd's own best path: a fault of the forwarding plane",
    "unheard": "this router shows no route of the owner: it wasn't told, or its snapshot is of another moment",
    "rule": "bgpd's own best path is there: a difference of rule, or of what the snapshot shows",
    "unknown": "bgpd's own best path isn't known",
}
WHOSE = "who made the entry: zebra's have the flag extern_learn, those of static MACs sticky (bridge -d fdb show)"
LEFT = "whether zebra was killed here, which knows nothing of the entry since then (show evpn mac vni all); or who made it"
NOT_ZEBRAS = "who made the entry: zebra's are marked 'extern_learn' and 'proto zebra' (ip neigh show)"
SEGMENTS = "zebra's own view of the segment (show evpn es detail), and the kernel's group (ip nexthop)"
BY_SEGMENT, NO_EDGE = "by segment", "0.0.0.0"  # FRR 8.4.4 prints 0.0.0.0 for a MAC behind a segment, 10.3 the segment
SHARED = "the bridge first, which two networks share"
ARPS = "zebra's own entry of the address (show evpn arp-cache vni all)"
ROUTER_STAYS = "zebra's own view (show evpn rmac vni all, show evpn next-hops vni all), and the L3VNI's device and bridge"
STAYS = "whether zebra still names it in a minute; a newer FRR doesn't leave it (docs/audit.md lists FRR's faults)"


address_text = functools.lru_cache(maxsize=None)(records.address_text)


class Verdict(NamedTuple):
    """One MAC at one router."""

    mac: bytes
    kind: str
    owner: str
    reason: str
    bgpd: str
    zebra: str
    kernel: str
    heir: str
    cause: str
    adverts: List[str]
    mend: str
    see: str = ""


class Difference(NamedTuple):
    """A flood list's entry, a neighbour, or a router's MAC that differs from the routes."""

    kind: str
    what: str
    wanted: str
    found: str
    mend: str
    see: str = ""


class Truth(NamedTuple):
    """What the routes say: owners, each VNI's stations, the edges of each flood list, each IP address's MACs, what isn't judged.

    Of an L3VNI: each VTEP's router MACs, and the VTEPs that alone have some prefix, so that the router has to use them.
    """

    report: Dict[Station, Owned]
    stations: Dict[int, Set[bytes]]
    floods: Dict[int, Set[bytes]]
    neighbours: Dict[int, Dict[bytes, Dict[bytes, Set[bytes]]]]
    unjudged: Set[Tuple[int, Optional[bytes]]]
    routers: Dict[int, Dict[str, Set[bytes]]]
    needed: Dict[int, Set[str]]
    multihomed: Dict[Station, Set[str]]
    segments: Dict[str, Set[str]]


class Result(NamedTuple):
    """One VNI at one router; a fault says why there is nothing else. An L3VNI has routers, and no MACs."""

    view: str
    vni: int
    fault: str
    macs: List[Verdict]
    floods: Optional[List[Difference]]
    neighbours: Optional[List[Difference]]
    causes: List[Cause] = []
    routers: Optional[List[Difference]] = None

    def is_stopped(self) -> bool:
        """Returns whether a cause stops the whole network, and stands for all that differs in it."""
        return any(cause.kind.stops for cause in self.causes)


def truth_of(report: Dict[Station, Owned], snapshots: Iterable[frr_routes.Snapshot]) -> Truth:
    """What the routes of some snapshots say together."""
    truth = Truth(report, {}, {}, {}, set(), {}, {}, {}, {})
    prefixes: Dict[Tuple[int, str], Set[str]] = {}
    for vni, mac in report:
        truth.stations.setdefault(vni, set()).add(mac)
    for snapshot in snapshots:
        for vni, routers in snapshot.routes.routers.items():
            for vtep, macs in routers.items():
                truth.routers.setdefault(vni, {}).setdefault(vtep, set()).update(macs)
        for vni, hops in snapshot.routes.prefixes.items():
            for prefix, vteps in hops.items():
                prefixes.setdefault((vni, prefix), set()).update(vteps)
        for esi, edges in snapshot.routes.segments.items():
            truth.segments.setdefault(esi, set()).update(edges)
        for (vni, multihomed), esis in snapshot.routes.multihomed.items():
            if multihomed is not None:
                truth.multihomed.setdefault((vni, multihomed), set()).update(esis)
                truth.stations.setdefault(vni, set()).add(multihomed)
        truth.unjudged.update(snapshot.routes.unjudged)
        for vni, station in snapshot.routes.unjudged:
            truth.stations.setdefault(vni, set()).update(() if station is None else (station,))
        for key in snapshot.registers:
            vni, mac, ip = int.from_bytes(key[4:7], "big"), key[7:13], key[13:]
            if not mac:
                truth.floods.setdefault(vni, set()).add(key[:4])
            elif ip:
                truth.neighbours.setdefault(vni, {}).setdefault(ip, {}).setdefault(mac, set()).add(key[:4])
    for (vni, _), vteps in prefixes.items():
        if len(vteps) == 1:
            truth.needed.setdefault(vni, set()).update(vteps)
    return truth


# ---- MACs ---------------------------------------------------------------------------------------------------------


def kind_of(wanted: str, zebra: str, kernel: str, is_whole: bool = True) -> str:
    """How zebra and the kernel stand to where a MAC should go: a VTEP, 'local' or 'nowhere'.

    Where not the whole bridge's entries are known, a local station's own entry can't be seen.
    """
    if wanted == NOWHERE:
        strays = zebra not in (UNKNOWN, NOWHERE, LOCAL) or kernel not in (UNKNOWN, NOWHERE, LOCAL)
        return "extra" if strays else "equal"
    if kernel.startswith(FLOODED):
        towards = kernel[len(FLOODED) :]
        kernel = NOWHERE if wanted in (LOCAL, towards) else towards
    elif kernel == NOWHERE and wanted == LOCAL and not is_whole:
        kernel = LOCAL
    if zebra in (UNKNOWN, wanted) and kernel in (UNKNOWN, wanted):
        return "equal"
    if zebra in (UNKNOWN, NOWHERE, wanted) and kernel in (UNKNOWN, NOWHERE, wanted):
        return "missing"
    return "wrong"


def verdict_of(view: View, station: Station, owned: Owned, is_unjudged: bool) -> Verdict:
    """Compares one MAC at one router; `explained` says why, where that is wanted."""
    vni, mac = station
    owner, name = place_of_owner(view, owned)
    table = view.kernel.get(vni)
    zebra = UNKNOWN if view.zebra is None else view.zebra.get(vni, {}).get(mac, NOWHERE)
    kernel = UNKNOWN if table is None else table.places.get(mac, NOWHERE)
    is_whole = table is None or table.is_whole
    kind = "not judged" if is_unjudged else "equal" if zebra == kernel == owner else kind_of(owner, zebra, kernel, is_whole)
    return Verdict(mac, kind, name, "", "", zebra, kernel, "", "", [], "")


def place_of_owner(view: View, owned: Owned) -> Tuple[str, str]:
    """Where a MAC should go at a router, and its owner's name."""
    if owned.owner is None:
        return NOWHERE, "none"
    name = address_text(owned.owner)
    return (LOCAL if owned.owner in view.own else name), name


def explained(view: View, best: Optional[Best], vni: int, verdict: Verdict, owned: Owned) -> Verdict:
    """A verdict with why its owner is the owner, where bgpd's own best path leads, the cause, and what mends it."""
    mac, kind, zebra, kernel = verdict.mac, verdict.kind, verdict.zebra, verdict.kernel
    table, owner = view.kernel.get(vni), place_of_owner(view, owned)[0]
    is_heard = owned.owner is None or view.snapshot.shows(owned.owner + vni.to_bytes(3, "big") + mac)
    bgpd = bgpd_of(best, vni, mac, is_heard and owned.owner is not None)
    cause = cause_of(bgpd, zebra, kernel, table is None or table.is_whole, is_heard)
    reason, heir = reason_of(owned)
    verdict = verdict._replace(reason=reason, bgpd=bgpd, heir=heir, cause=cause, adverts=preferences_of(owned))
    if kind not in DIFFERING:
        return verdict
    is_zebras_static = table is not None and mac in table.sticky and zebra == owner not in (LOCAL, NOWHERE)
    if table is not None and mac in table.foreign and zebra in (owner, NOWHERE, UNKNOWN) and not is_zebras_static:
        is_left = kind == "extra" and mac in table.sticky
        kind, cause = ("foreign" if kind == "extra" else kind), ("left" if is_left else "foreign")
    mend, see = mend_of(view.networks.get(vni), mac, owner, zebra, kernel, cause)
    return verdict._replace(kind=kind, cause=cause, mend=mend, see=see)


def bgpd_of(best: Optional[Best], vni: int, mac: bytes, is_heard: bool) -> str:
    """Where bgpd's own best path leads; unknown where its tables don't show a MAC of which it shows a route."""
    if best is None:
        return UNKNOWN
    hides = is_heard and not best.has_mac_tables
    return best.places.get(vni, {}).get(mac, UNKNOWN if hides else NOWHERE)


def cause_of(bgpd: str, zebra: str, kernel: str, is_whole: bool, is_heard: bool) -> str:
    """Which of the CAUSES a difference has."""
    if bgpd == UNKNOWN:
        return "unknown" if is_heard else "unheard"
    if kind_of(bgpd, zebra, kernel, is_whole) != "equal":
        return "forwarding"
    return "rule" if is_heard else "unheard"


def mend_of(network: Optional[Network], mac: bytes, wanted: str, zebra: str, kernel: str, cause: str) -> Tuple[str, str]:
    """The command that mends a MAC's entries in the kernel, if one was shown to; else what to look at.

    No command touches what zebra didn't make, nor more than this MAC.
    """
    if cause == "unheard":
        return "", "why the route isn't heard (show bgp l2vpn evpn summary)"
    if cause == "rule":
        return "", "what weighs bgpd's paths (show running-config)"
    if cause in ("foreign", "left"):
        return "", WHOSE if cause == "foreign" else LEFT
    if network is None or not network.bridge or kernel == UNKNOWN:
        return "", "the device of the network (ip -d link show)"
    is_remote = wanted not in (LOCAL, NOWHERE)
    if zebra not in (wanted, UNKNOWN) and (not is_remote or kernel == wanted or zebra == NOWHERE):
        return "", STAYS  # what zebra doesn't know it wouldn't take away later
    name, device = records.mac_text(mac), network.device
    vlan = "" if network.vlan is None else f" vlan {network.vlan}"
    number = "" if network.vlan is None else f" src_vni {network.vni}"
    if not is_remote:
        towards = kernel[len(FLOODED) :] if kernel.startswith(FLOODED) else kernel
        if towards in (LOCAL, NOWHERE) or "+" in towards or " " in towards:
            return "", "the entries of this MAC (bridge fdb show)"
        own = f"bridge fdb del {name} dev {device} dst {towards} self{number}"
        return own if kernel.startswith(FLOODED) else f"bridge fdb del {name} dev {device} master{vlan}; {own}", ""
    return (
        f"bridge fdb replace {name} dev {device} dst {wanted} self extern_learn{number}; "
        f"bridge fdb replace {name} dev {device} master extern_learn{vlan}"
    ), (STAYS if zebra not in (wanted, UNKNOWN) else "")


def segment_verdict(view: View, station: Station, owned: Owned, truth: Truth) -> Verdict:
    """Compares a MAC behind a segment: each edge that advertises the segment is right (RFC 7432, 8.4 and 14.1.2).

    One with a route without the segment as well, or of a segment that no edge advertises, can't be judged.
    """
    vni, mac = station
    (esi, *others), table = sorted(truth.multihomed[station]), view.kernel.get(vni)
    members = truth.segments.get(esi, set())
    zebra = UNKNOWN if view.zebra is None else view.zebra.get(vni, {}).get(mac, NOWHERE)
    kernel = UNKNOWN if table is None else table.places.get(mac, NOWHERE)
    kind = "not judged"
    if members and not others and not owned.adverts and station not in truth.unjudged:
        right = members | ({LOCAL} if any(records.address_text(own) in members for own in view.own) else set())
        kind = segment_kind(right, BY_SEGMENT if zebra in (esi, NO_EDGE) else zebra, kernel)
    reason = f"any of {', '.join(sorted(members))}" if members else "no edge advertises it"
    see = SEGMENTS if kind in DIFFERING else ""
    return Verdict(mac, kind, f"segment {esi}", reason, UNKNOWN, zebra, kernel, UNKNOWN, "unknown", [], "", see)


def segment_kind(right: Set[str], zebra: str, kernel: str) -> str:
    """How zebra and the kernel stand to a segment's edges; zebra may name the segment itself."""
    is_flooded = kernel.startswith(FLOODED)
    kernel = UNKNOWN if "group " in kernel else kernel
    edges = {*kernel[len(FLOODED) if is_flooded else 0 :].split("+")}
    if not (zebra in (UNKNOWN, NOWHERE, BY_SEGMENT) or zebra in right) or not (edges <= right or kernel in (UNKNOWN, NOWHERE)):
        return "wrong"
    return "missing" if NOWHERE in (zebra, kernel) or is_flooded else "equal"


def verdicts_of(view: View, vni: int, truth: Truth, wanted: Set[bytes]) -> List[Verdict]:
    """All MACs that the report, zebra or the kernel knows, in order; none but those behind a segment is explained."""
    macs = truth.stations.get(vni, set()) | set((view.zebra or {}).get(vni, {}))
    macs |= set(view.kernel[vni].places) if vni in view.kernel else set()
    if wanted:
        macs &= wanted
    verdicts = []
    for mac in sorted(macs):
        station = vni, mac
        owned = truth.report.get(station, NOBODY)
        if station in truth.multihomed:
            verdicts.append(segment_verdict(view, station, owned, truth))
            continue
        verdict = verdict_of(view, station, owned, station in truth.unjudged)
        if verdict.owner != "none" or verdict.kind != "equal" or station in truth.report:
            verdicts.append(verdict)
    return verdicts


def all_verdicts_of(view: View, truth: Truth, wanted: Set[bytes]) -> Dict[int, List[Verdict]]:
    """The MACs of all networks; those that differ or are asked for are explained, and of them alone bgpd's tables are read."""
    found = {vni: verdicts_of(view, vni, truth, wanted) for vni in view.vnis if vni not in view.faults}
    open_ones = {
        (vni, each.mac)
        for vni, verdicts in found.items()
        for each in verdicts
        if (wanted or differs(each)) and (vni, each.mac) not in truth.multihomed
    }
    best = view.best(open_ones) if open_ones else None
    for vni, verdicts in found.items() if open_ones else ():
        for number, each in enumerate(verdicts):
            if (vni, each.mac) in open_ones:
                verdicts[number] = explained(view, best, vni, each, truth.report.get((vni, each.mac), NOBODY))
    return found


def differs(verdict: Verdict) -> bool:
    """Whether a MAC is forwarded otherwise than the report says."""
    return verdict.kind in DIFFERING


# ---- flood lists and neighbours -----------------------------------------------------------------------------------------


def floods_of(view: View, vni: int, truth: Truth) -> Optional[List[Difference]]:
    """The flood list against the inclusive multicast routes (RFC 7432, 7.3); nothing where it isn't known or bgpd floods none."""
    if vni not in view.kernel or (view.instance is not None and not view.instance.floods):
        return None
    network = view.networks.get(vni)
    device = network.device if network else "the VXLAN device"
    number = f" src_vni {vni}" if network and network.vlan is not None else ""
    advertised = {records.address_text(edge) for edge in truth.floods.get(vni, set()) - view.own}
    wanted = {place for place in advertised if not ((vni, None) in truth.unjudged)}
    found = view.kernel[vni].floods
    differences = []
    for edge in sorted(wanted - found):
        mend = f"bridge fdb append 00:00:00:00:00:00 dev {device} dst {edge} self permanent{number}"
        is_zebras = network is not None and edge in view.floods.get(vni, frozenset())
        see = "" if is_zebras else f"why zebra doesn't know the edge (show evpn vni {vni})"
        differences.append(Difference("flood missing", edge, "there", "not there", mend if is_zebras else "", see))
    for edge in sorted(found - advertised) if (vni, None) not in truth.unjudged else []:
        see = f"who made the entry: zebra's are in 'show evpn vni {vni}' (remote VTEPs)"
        differences.append(Difference("flood extra", edge, "not there", "there", "", see))
    return differences


def neighbours_of(view: View, vni: int, truth: Truth, wanted: Set[bytes]) -> Optional[List[Difference]]:
    """ARP and ND entries against the routes with an IP address; nothing where the VNI has no interface with neighbours."""
    kernel, network = view.kernel.get(vni), view.networks.get(vni)
    if kernel is None or kernel.neighbours is None or network is None:
        return None
    differences = []
    routes = truth.neighbours.get(vni, {})
    for ip in sorted({*routes, *kernel.neighbours}):
        difference = neighbour_difference(view, ip, routes.get(ip, {}), kernel, network, truth.unjudged | set(truth.multihomed))
        if difference is not None and (not wanted or wanted & {*routes.get(ip, {})}):
            differences.append(difference)
    return differences


def neighbour_difference(
    view: View, ip: bytes, macs: Dict[bytes, Set[bytes]], kernel: Kernel, network: Network, unjudged: Set[Tuple[int, Optional[bytes]]]
) -> Optional[Difference]:
    """What is wrong with one address: several MACs of one address are all taken for right, an own one isn't asked for."""
    there = kernel.neighbours.get(ip)
    address, device = str(ipaddress.ip_address(ip)), network.gateway
    is_unjudged = any((network.vni, mac) in unjudged for mac in {*macs, *([there.mac] if there else [])})
    is_own = any(edges & view.own for edges in macs.values())
    names = " or ".join(sorted(records.mac_text(mac) for mac in macs))
    mend = f"ip neigh replace {address} lladdr {names} dev {device} nud noarp extern_learn protocol zebra"
    if is_unjudged or is_own and there is None:
        return None
    by_zebra = view.arps.get(network.vni, {}).get(ip)
    mend = mend if {by_zebra} == {*macs} else ""
    if macs and there is None:
        return Difference("neighbour missing", address, names, NOWHERE, mend, "" if mend else ARPS)
    if macs and there is not None and there.mac not in macs:
        found = records.mac_text(there.mac)
        if not there.is_zebras:
            return Difference("neighbour foreign", address, names, found, "", NOT_ZEBRAS)
        return Difference("neighbour wrong", address, names, found, mend, "" if mend else ARPS)
    if not macs and there is not None and there.is_zebras:
        found, is_left = records.mac_text(there.mac), network.vni in view.arps and by_zebra is None
        mend = f"ip neigh del {address} dev {device}" if is_left else ""
        return Difference("neighbour extra", address, NOWHERE, found, mend, "" if mend else ARPS)
    return None


# ---- L3VNIs -----------------------------------------------------------------------------------------------------------


def routers_of(view: View, vni: int, truth: Truth) -> List[Difference]:
    """An L3VNI: the router's MAC and the next hop of each VTEP that advertises one, in zebra and in the kernel.

    bgpd tells zebra only those of the routes that it has chosen. So one that neither zebra nor the kernel has is missing only
    where its VTEP alone has some prefix, or where the kernel's own routes lead to it.
    """
    wanted = {vtep: macs for vtep, macs in truth.routers.get(vni, {}).items() if records.read_address(vtep) not in view.own}
    network = view.networks.get(vni)
    needed = truth.needed.get(vni, set()) | (view.ways.get(network.gateway, set()) if network is not None else set())
    return [*router_macs(view, vni, wanted, needed), *next_hops(view, vni, wanted, needed)]


def router_macs(view: View, vni: int, wanted: Dict[str, Set[bytes]], needed: Set[str]) -> Iterator[Difference]:
    """Each router's MAC: an own one isn't asked for; of several of one VTEP one has to be there."""
    zebra, kernel = view.routed.get(vni), view.kernel.get(vni)
    by_mac: Dict[bytes, Set[str]] = {}
    for vtep, macs in wanted.items():
        for mac in macs:
            by_mac.setdefault(mac, set()).add(vtep)
    places = {} if kernel is None else kernel.places
    named = {mac: places_of(zebra and zebra.routers.get(mac, NOWHERE), kernel and places.get(mac, NOWHERE)) for mac in by_mac}
    right = {vtep for mac, found in named.items() for vtep in by_mac[mac] if {*found} <= {UNKNOWN, *by_mac[mac]}}
    strays = {*(zebra.routers if zebra else ()), *(mac for mac, place in places.items() if place not in (LOCAL, NOWHERE))}
    for mac in sorted({*by_mac, *strays}):
        zebras, kernels = places_of(zebra and zebra.routers.get(mac, NOWHERE), kernel and places.get(mac, NOWHERE))
        owners, name = by_mac.get(mac, set()), records.mac_text(mac)
        found = f"zebra {zebras}, kernel {kernels}"
        if not owners:
            kind = "foreign" if kernel and mac in kernel.foreign and zebras in (NOWHERE, UNKNOWN) else "extra"
            yield Difference(f"router {kind}", name, NOWHERE, found, "", WHOSE if kind == "foreign" else ROUTER_STAYS)
        elif {zebras, kernels} <= {UNKNOWN, NOWHERE} and not owners & needed:
            continue
        elif not {zebras, kernels} <= {UNKNOWN, *owners} and not owners <= right:
            kind = "missing" if {zebras, kernels} <= {UNKNOWN, NOWHERE, *owners} else "wrong"
            mend = router_mend(view.networks.get(vni), name, owners) if zebras in owners and not (kernel and mac in kernel.foreign) else ""
            yield Difference(f"router {kind}", name, " or ".join(sorted(owners)), found, mend, "" if mend else ROUTER_STAYS)


def places_of(zebra: Optional[str], kernel: Optional[str]) -> Tuple[str, str]:
    """Two places, of which each may be unknown."""
    return zebra or UNKNOWN, kernel or UNKNOWN


def router_mend(network: Optional[Network], mac: str, owners: Set[str]) -> str:
    """What puts a router's MAC back into the kernel, where zebra has it."""
    if network is None or not network.bridge or network.vlan is not None or len(owners) != 1:
        return ""
    vtep, device = next(iter(owners)), network.device
    self_words = f"bridge fdb replace {mac} dev {device} dst {vtep} self extern_learn"
    return f"{self_words}; bridge fdb replace {mac} dev {device} master extern_learn"


def next_hops(view: View, vni: int, wanted: Dict[str, Set[bytes]], needed: Set[str]) -> Iterator[Difference]:
    """Each next hop's neighbour entry: a VTEP's address, with its router's MAC."""
    zebra, kernel, network = view.routed.get(vni), view.kernel.get(vni), view.networks.get(vni)
    there = {} if kernel is None else kernel.neighbours
    zebras = {str(ipaddress.ip_address(ip)): each for ip, each in (there or {}).items()}
    strays = {*(zebra.next_hops if zebra else ()), *(hop for hop, each in zebras.items() if each.is_zebras)}
    for hop in sorted({*wanted, *strays}):
        macs = {records.mac_text(mac) for mac in wanted.get(hop, set())}
        by_zebra = UNKNOWN if zebra is None else mac_or_nowhere(zebra.next_hops.get(hop))
        by_kernel = UNKNOWN if kernel is None or there is None else mac_or_nowhere(zebras[hop].mac if hop in zebras else None)
        found = f"zebra {by_zebra}, kernel {by_kernel}"
        if not macs:
            yield Difference("next hop extra", hop, NOWHERE, found, "", ROUTER_STAYS)
        elif {by_zebra, by_kernel} <= {UNKNOWN, NOWHERE} and hop not in needed:
            continue
        elif not {by_zebra, by_kernel} <= {UNKNOWN, *macs}:
            kind = "missing" if {by_zebra, by_kernel} <= {UNKNOWN, NOWHERE, *macs} else "wrong"
            is_foreign = hop in zebras and not zebras[hop].is_zebras
            mend = ""
            if by_zebra in macs and not is_foreign and network is not None and network.gateway:
                words = f"lladdr {by_zebra} dev {network.gateway} nud noarp extern_learn protocol zebra"
                mend = f"ip neigh replace {hop} {words}"
            see = NOT_ZEBRAS if is_foreign else "" if mend else ROUTER_STAYS
            yield Difference(f"next hop {kind}", hop, " or ".join(sorted(macs)), found, mend, see)


def mac_or_nowhere(mac: Optional[bytes]) -> str:
    """A MAC as text, or that there is none."""
    return NOWHERE if mac is None else records.mac_text(mac)


def results_of(view: View, truth: Truth, wanted: Set[bytes]) -> Iterator[Result]:
    """Each VNI's result: the networks of layer 2, then the L3VNIs."""
    verdicts = all_verdicts_of(view, truth, wanted)
    for vni in view.vnis:
        if vni in view.faults:
            yield Result(view.name, vni, view.faults[vni], [], None, None)
            continue
        floods = None if wanted else floods_of(view, vni, truth)
        neighbours = neighbours_of(view, vni, truth, wanted)
        causes = audit_causes.of_network(view, vni, others_of(view, vni, truth, wanted))
        result = Result(view.name, vni, "", verdicts[vni], floods, neighbours, causes)
        yield without_mends(result) if any(cause.kind is audit_causes.Kind.SHARED_BRIDGE for cause in causes) else result
    for vni in view.routed if not wanted else ():
        if vni in view.faults:
            yield Result(view.name, vni, view.faults[vni], [], None, None)
        else:
            yield Result(view.name, vni, "", [], None, None, [], routers_of(view, vni, truth))


def without_mends(result: Result) -> Result:
    """A result of a network that shares its bridge: an entry may be the other network's, so no command touches it."""
    macs = [each._replace(mend="", see=SHARED) if each.mend else each for each in result.macs]
    return result._replace(macs=macs, neighbours=None)


def others_of(view: View, vni: int, truth: Truth, wanted: Set[bytes]) -> Dict[bytes, bytes]:
    """The MACs of a network that another router owns."""
    found = {}
    for mac in truth.stations.get(vni, set()) & wanted if wanted else truth.stations.get(vni, set()):
        owner = truth.report.get((vni, mac), NOBODY).owner
        if owner is not None and owner not in view.own:
            found[mac] = owner
    return found


# ---- figures and identities -----------------------------------------------------------------------------------------------


def sums_of(result: Result) -> Dict[str, int]:
    """How many MACs are of each kind, how many differ by which cause, and how many entries of the other two."""
    kinds = Counter(verdict.kind for verdict in result.macs)
    causes = Counter(verdict.cause for verdict in result.macs if verdict.kind in DIFFERING)
    sums = {"MACs": len(result.macs), **{kind: kinds[kind] for kind in KINDS}}
    sums.update((f"by {cause}", causes[cause]) for cause in CAUSES)
    sums["flood entries"] = len(result.floods or [])
    sums["neighbours"] = len(result.neighbours or [])
    sums["routers"] = len(result.routers or [])
    sums["causes"] = len(result.causes)
    return sums


def marks_of(result: Result) -> Dict[tuple, object]:
    """What differs in a result, each by all its values: two looks saw the same only where these are equal.

    Where a cause stops the network, the causes are all that is told.
    """
    marks: Dict[tuple, object] = {("cause", cause.kind.name, cause.what): cause for cause in result.causes}
    if result.is_stopped():
        return marks
    for each in result.macs:
        if each.kind in DIFFERING:
            values = each.kind, each.owner, each.bgpd, each.zebra, each.kernel, *each.adverts
            marks[("mac", records.mac_text(each.mac), *values)] = each
    for entry in [*(result.floods or []), *(result.neighbours or []), *(result.routers or [])]:
        marks[(entry.kind, entry.what, entry.wanted, entry.found)] = entry
    return marks


def seen_twice(first: List[Result], second: List[Result]) -> List[Result]:
    """The second look with what the first one saw by the same values; the rest counts as equal."""
    before = {(result.view, result.vni): result for result in first}
    kept = []
    for result in second:
        older = before.get((result.view, result.vni))
        old = marks_of(older) if older is not None else {}
        same = {id(entry) for mark, entry in marks_of(result).items() if mark in old}
        causes = audit_causes.both(older.causes if older is not None else [], result.causes)
        macs = [each if not differs(each) or id(each) in same else each._replace(kind="equal", mend="") for each in result.macs]
        kept.append(
            result._replace(
                macs=macs,
                floods=only(result.floods, same),
                neighbours=only(result.neighbours, same),
                routers=only(result.routers, same),
                causes=causes,
            )
        )
    return kept


def only(entries: Optional[List[Difference]], same: Set[int]) -> Optional[List[Difference]]:
    """The entries that both looks saw."""
    return None if entries is None else [each for each in entries if id(each) in same]
