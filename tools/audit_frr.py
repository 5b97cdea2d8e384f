"""What zebra and bgpd say of their own choice: MACs, VNIs, best paths. Their routes stand in frr_routes.py."""

import functools
import re
from dataclasses import dataclass, field
from typing import Dict, FrozenSet, Iterable, Iterator, List, Mapping, NamedTuple, Optional, Set, TextIO, Tuple

import frr_routes
import update_records as records
from audit_kernel import LOCAL, ip_of, octets_of, read_json
from audit_report import Said, Station, best_of
from update_records import Unreadable

SWITCHED_ON = "Enabled"
FEW = 16  # stations of a network, of which each is sought in the text of a table
MAC_IN_KEY = re.compile(r"\[48\]:\[([0-9a-f:]{17})\]")

address_text = functools.lru_cache(maxsize=None)(records.address_text)


class Best(NamedTuple):
    """Where bgpd's own best path of each MAC that was asked for leads, by VNI."""

    places: Dict[int, Dict[bytes, str]]
    has_mac_tables: bool


def read_macs(text: str, name: str, vnis: List[int]) -> Dict[int, Dict[bytes, str]]:
    """Where zebra sends each MAC, 'local' or a VTEP: of `show evpn mac vni all json`, or of the one wanted VNI's text."""
    table = read_json(text, name)
    if not isinstance(table, dict):
        raise Unreadable(f"{name}: not what 'show evpn mac vni all json' prints")
    if "macs" in table or "numMacs" in table:
        if len(vnis) != 1:
            raise Unreadable(f"{name}: the MACs of one VNI, and {len(vnis)} are asked for: print 'show evpn mac vni all json'")
        return {vnis[0]: macs_of(table, name)}
    return {int(vni): macs_of(part, name) for vni, part in table.items() if vni.isdecimal()}


def macs_of(table: object, name: str) -> Dict[bytes, str]:
    """The MACs of one VNI; one without any has no 'macs'."""
    macs = table.get("macs", {} if table.get("numMacs") == 0 else None) if isinstance(table, dict) else None
    if not isinstance(macs, dict):
        raise Unreadable(f"{name}: a VNI without 'macs'")
    found = {}
    for mac, entry in macs.items():
        if not isinstance(entry, dict) or "type" not in entry:
            raise Unreadable(f"{name}: MAC {mac} has no 'type'")
        if entry["type"] == "local":
            found[octets_of(mac, name)] = LOCAL
        elif entry["type"] == "remote":
            place = entry.get("remoteVtep", entry.get("remoteEs"))
            if not isinstance(place, str):
                raise Unreadable(f"{name}: remote MAC {mac} has no 'remoteVtep'")
            found[octets_of(mac, name)] = place
    return found


@dataclass(frozen=True)
class Vni:
    """A network as zebra or bgpd knows it: of layer 2, or an L3VNI; bgpd alone knows its RD and its route targets."""

    number: int
    is_routed: bool
    device: str = ""
    rd: str = ""
    imports: Tuple[str, ...] = ()
    is_in_kernel: bool = True
    floods: FrozenSet[str] = frozenset()


@dataclass(frozen=True)
class Instance:
    """What `show bgp l2vpn evpn vni json` says: bgpd's networks, and two of its switches."""

    vnis: Mapping[int, Vni] = field(default_factory=dict)
    advertises_all: bool = True
    floods: bool = True

    def imports(self, stopped: List[int]) -> frr_routes.Imports:
        """Returns which network imports what; networks that bgpd doesn't run import the targets that it would derive."""
        exact: Dict[str, Tuple[int, ...]] = {}
        by_number: Dict[int, Tuple[int, ...]] = {}
        for vni in self.vnis.values():
            for target in vni.imports:
                number = int(target.rpartition(":")[2])
                if target.startswith("*:") or number in (vni.number, vni.number + frr_routes.AUTO_RT):
                    by_number[number] = (*by_number.get(number, ()), vni.number)
                else:
                    exact[target] = (*exact.get(target, ()), vni.number)
        for number in stopped:
            for target in (number, number + frr_routes.AUTO_RT):
                by_number[target] = (*by_number.get(target, ()), number)
        own = {vni.rd: vni.number for vni in self.vnis.values() if vni.rd and not vni.is_routed}
        return frr_routes.Imports(exact, by_number, own)


def read_table(text: str, name: str, command: str) -> dict:
    """An object of JSON; nothing at all is an empty one."""
    table = read_json(text, name) if text.strip() else {}
    if not isinstance(table, dict):
        raise Unreadable(f"{name}: not what '{command}' prints")
    return table


def read_vnis(text: str, name: str, may_be_empty: bool = False) -> Dict[int, Vni]:
    """The VNIs of `show evpn vni json`, each with its VXLAN device."""
    if not text.strip() and not may_be_empty:  # seen with 8.4.4, which a bgpd reconnects to after 10 s; 10.3 prints {}
        raise Unreadable(f"{name}: empty; zebra prints nothing while bgpd isn't connected to it, as after a start of zebra: audit again in a minute")
    table = read_json(text, name) if text.strip() else {}
    if not isinstance(table, dict):
        raise Unreadable(f"{name}: not what 'show evpn vni json' prints")
    entries = [entry for entry in table.values() if isinstance(entry, dict) and isinstance(entry.get("vni"), int)]
    found = {}
    for entry in entries:
        edges = entry.get("remoteVteps")
        floods = frozenset(each for each in edges if isinstance(each, str)) if isinstance(edges, list) else frozenset()
        kind, device = entry.get("type", "L2"), str(entry.get("vxlanIf", ""))
        found[entry["vni"]] = Vni(entry["vni"], kind != "L2", device, floods=floods)
    return found


def read_instance(text: str, name: str) -> Instance:
    """bgpd's networks, of `show bgp l2vpn evpn vni json`."""
    table = read_table(text, name, "show bgp l2vpn evpn vni json")
    vnis = {}
    for entry in table.values():
        if isinstance(entry, dict) and isinstance(entry.get("vni"), int):
            targets = entry.get("importRTs", [])
            if not isinstance(targets, list) or not all(is_target(target) for target in targets):
                raise Unreadable(f"{name}: VNI {entry['vni']} has no list of route targets")
            rd, in_kernel = str(entry.get("rd", "")), entry.get("inKernel", "True") == "True"
            vnis[entry["vni"]] = Vni(entry["vni"], entry.get("type") == "L3", "", rd, tuple(targets), in_kernel)
    return Instance(
        vnis,
        table.get("advertiseAllVnis", SWITCHED_ON) == SWITCHED_ON,
        table.get("vxlanFlooding", SWITCHED_ON) == SWITCHED_ON and table.get("flooding", "") != "Disabled",
    )


def is_target(target: object) -> bool:
    """Whether a value is a route target, as text."""
    return isinstance(target, str) and target.rpartition(":")[2].isdecimal()


@dataclass
class Routed:
    """What zebra has of an L3VNI: each router MAC's VTEP, each next hop's router MAC."""

    routers: Dict[bytes, str] = field(default_factory=dict)
    next_hops: Dict[str, bytes] = field(default_factory=dict)


def read_routed(rmacs: str, hops: str, names: Tuple[str, str]) -> Dict[int, Routed]:
    """The L3VNIs of `show evpn rmac vni all json` and `show evpn next-hops vni all json`."""
    found: Dict[int, Routed] = {}
    for vni, entries in parts_of(rmacs, names[0], "show evpn rmac vni all json"):
        for entry in entries:
            mac = octets_of(entry.get("routerMac"), names[0])
            found.setdefault(vni, Routed()).routers[mac] = str(entry.get("vtepIp", ""))
    for vni, entries in parts_of(hops, names[1], "show evpn next-hops vni all json"):
        for entry in entries:
            mac = octets_of(entry.get("routerMac"), names[1])
            found.setdefault(vni, Routed()).next_hops[str(entry.get("nexthopIp", ""))] = mac
    return found


def read_arps(text: str, name: str) -> Dict[int, Dict[bytes, bytes]]:
    """The MAC of each address that zebra has as another edge's, of `show evpn arp-cache vni all json`."""
    found: Dict[int, Dict[bytes, bytes]] = {}
    for vni, table in read_table(text, name, "show evpn arp-cache vni all json").items():
        for ip, entry in table.items() if vni.isdecimal() and isinstance(table, dict) else ():
            if isinstance(entry, dict) and entry.get("type") == "remote":
                found.setdefault(int(vni), {})[ip_of(ip, name)] = octets_of(entry.get("mac"), name)
    return found


def parts_of(text: str, name: str, command: str) -> Iterator[Tuple[int, List[dict]]]:
    """Each VNI's entries, where a command prints a table of tables."""
    for vni, table in read_table(text, name, command).items():
        if vni.isdecimal() and isinstance(table, dict):
            yield int(vni), [entry for entry in table.values() if isinstance(entry, dict)]


def read_peers(text: str, name: str) -> Dict[str, str]:
    """The state of each session, of `show bgp l2vpn evpn summary json`; FRR before 8 has the table in one more."""
    table = read_table(text, name, "show bgp l2vpn evpn summary json")
    peers = table.get("peers", {})
    if not isinstance(peers, dict) or not all(isinstance(peer, dict) for peer in peers.values()):
        raise Unreadable(f"{name}: no 'peers'")
    return {peer: str(entry.get("state", "unknown")) for peer, entry in peers.items()}


def read_best(stream: TextIO, name: str, routes: frr_routes.Routes, wanted: Set[Station]) -> Best:
    """The best paths of the wanted stations that bgpd's tables of VNIs show, of one VNI or of all.

    FRR 10 keeps MACs in a table of their own, `macTable`, and shows another MAC in the keys of the other
    one; where it is there it alone is read.
    """
    text = frr_routes.JsonText(stream, name)
    if text.peek() == "":
        raise Unreadable(f"{name}: empty")
    if text.peek() != "{":
        raise text.fail("not what 'show bgp vni all json' prints")
    tables: Tuple[Dict[Station, List[frr_routes.Path]], ...] = ({}, {})
    sought = Sought(wanted)
    for in_mac_table, path in paths_of(text, name, routes, sought):
        if path.is_best and path.mac is not None and any(path.mac):
            tables[in_mac_table].setdefault((path.vni, path.mac), []).append(path)
    if text.peek() != "":
        raise text.fail("something stands behind the JSON text")
    places: Dict[int, Dict[bytes, str]] = {}
    for (vni, mac), paths in tables[sought.has_mac_tables].items():
        best = best_of(Said(path.vtep, path.advert, "") for path in paths)
        is_own = any(path.is_own and path.vtep == best.originator for path in paths)
        places.setdefault(vni, {})[mac] = LOCAL if is_own else address_text(best.originator)
    return Best(places, sought.has_mac_tables)


class Sought:
    """The stations whose routes are wanted of bgpd's tables, and whether a table of MACs was met there."""

    def __init__(self, wanted: Set[Station]) -> None:
        self.has_mac_tables = False
        self.names: Dict[Optional[int], Set[str]] = {None: set()}
        for vni, mac in wanted:
            for table in (vni, None):  # a network's own text doesn't name it
                self.names.setdefault(table, set()).add(records.mac_text(mac))

    def items_of(self, text: frr_routes.JsonText, vni: Optional[int]) -> Iterable[Tuple[str, object]]:
        """Returns the items of a network's table of MACs: the wanted ones, if they are few, else all."""
        names = self.names.get(vni, set())
        few = text.some_items([f"[48]:[{name}]" for name in names]) if len(names) <= FEW else None
        return text.items() if few is None else few

    def wants(self, vni: Optional[int], key: str) -> bool:
        """Returns whether a route's key names a wanted station."""
        named = MAC_IN_KEY.search(key)
        return named is not None and named[1] in self.names.get(vni, ())


def paths_of(
    text: frr_routes.JsonText,
    name: str,
    routes: frr_routes.Routes,
    sought: Sought,
    in_mac_table: bool = False,
    vni: Optional[int] = None,
) -> Iterator[Tuple[bool, frr_routes.Path]]:
    """The wanted paths of the next object and of the tables in it, and whether each stands in a table of MACs."""
    for key in text.keys():
        if key.startswith("["):
            route = text.value()
            if sought.wants(vni, key):
                for path in routes.paths("", key, route, name, vni):
                    yield in_mac_table, path
        elif key == "macTable" and text.peek() == "{":
            sought.has_mac_tables = True
            for mac_key, route in sought.items_of(text, vni):
                if sought.wants(vni, mac_key):
                    for path in routes.paths("", mac_key, route, name, vni):
                        yield True, path
        elif text.peek() == "{":
            yield from paths_of(text, name, routes, sought, in_mac_table, int(key) if key.isdecimal() else vni)
        else:
            text.value()
