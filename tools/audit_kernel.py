"""What Linux does with a VNI's frames: the outputs of `ip -j` and `bridge -j`.

A bridge's own entry decides first. Only where it names the VXLAN device, or where there is none and the frame
is flooded, the device's entry (`self`) says to which edge. An access port's entry therefore hides what the
device still holds of a station that has come home.
"""

import ipaddress
import json
from dataclasses import dataclass
from typing import Dict, FrozenSet, Iterator, List, Mapping, NamedTuple, Optional, Set, Tuple

from update_records import Unreadable, mac_octets, read_ip

LOCAL, NOWHERE, UNKNOWN, FLOODED = "local", "nowhere", "unknown", "flooded to "
ALL_ZERO = bytes(6)
GONE = ("FAILED", "INCOMPLETE")
VXLAN_PORT = 4789  # RFC 7348, 5


class Network(NamedTuple):
    """How the kernel carries one VNI."""

    vni: int
    device: str
    bridge: str
    vlan: Optional[int]
    gateway: str
    address: str


class Neighbour(NamedTuple):
    """An ARP or ND entry."""

    mac: bytes
    is_zebras: bool


class Kernel(NamedTuple):
    """What the kernel does with one VNI: each MAC's place, the flood list, the neighbours where it has an address.

    `foreign` has the MACs with an entry of the VXLAN device without zebra's mark, `extern_learn`; `sticky` has those of them
    that are static, since zebra writes a static MAC's entry with `sticky` alone. `learnt` has the MACs that an access port
    learnt, with the port.
    """

    places: Dict[bytes, str]
    floods: Set[str]
    neighbours: Optional[Dict[bytes, Neighbour]]
    is_whole: bool
    foreign: FrozenSet[bytes] = frozenset()
    learnt: Mapping[bytes, str] = {}
    sticky: FrozenSet[bytes] = frozenset()


@dataclass(frozen=True)
class Link:
    """A link as far as frames depend on it."""

    name: str
    kind: str
    is_up: bool
    master: str
    address: str
    mtu: int
    port_state: str
    is_isolated: bool
    floods_unknown: bool
    floods_broadcast: bool
    tells_vlans: bool
    vni: Optional[int]
    udp_port: int
    local: str
    is_external: bool


def read_json(text: str, name: str) -> object:
    """A text of JSON, whole."""
    try:
        return json.loads(text)
    except (ValueError, RecursionError):
        raise Unreadable(f"{name}: no JSON, or cut" if text.strip() else f"{name}: empty") from None


def read_list(text: str, name: str, command: str) -> List[dict]:
    """A list of objects, as the tools of iproute2 print it; nothing at all is an empty list."""
    entries = read_json(text, name) if text.strip() else []
    if not isinstance(entries, list) or not all(isinstance(entry, dict) for entry in entries):
        raise Unreadable(f"{name}: not what '{command}' prints")
    return entries


def octets_of(mac: object, name: str) -> bytes:
    """A MAC's octets, of a group or not."""
    octets = mac_octets(mac) if isinstance(mac, str) else None
    if octets is None:
        raise Unreadable(f"{name}: an entry without a MAC address" if mac is None else f"{name}: {mac!r} is no MAC address")
    return octets


# ---- which device, bridge and VLAN carries a VNI ------------------------------------------------------------------


def pairs_of(tunnels: List[dict]) -> Iterator[Tuple[str, int, int]]:
    """The device, the VLAN and the VNI of each pair that `bridge -j vlan tunnelshow` prints; ranges are spread."""
    for port in tunnels:
        for pair in port.get("tunnels", []):
            first, last = int(pair["vlan"]), int(pair.get("vlanEnd", pair["vlan"]))
            for vlan in range(first, last + 1):
                yield str(port["ifname"]), vlan, int(pair["tunid"]) + vlan - first


def untagged_of(vlans: List[dict]) -> Dict[str, int]:
    """The VLAN of each port's untagged frames, as `bridge -j vlan show` prints it."""
    found = {}
    for port in vlans:
        for vlan in port.get("vlans", []):
            if "PVID" in vlan.get("flags", []):
                found[str(port["ifname"])] = int(vlan["vlan"])
    return found


def words_of(value: object, name: str) -> List[str]:
    """The words of a list, as `flags` and `state` have them; null is none."""
    if isinstance(value, list):
        return value
    if value is None or value == "":
        return []
    if isinstance(value, str):
        return [value]
    raise Unreadable(f"{name}: {str(value)[:40]!r} where a list of words is meant")


def ip_of(value: object, name: str) -> bytes:
    """An IP address's octets."""
    try:
        return read_ip(value if isinstance(value, str) else "")
    except Unreadable:
        raise Unreadable(f"{name}: {str(value)[:40]!r} is no IP address") from None


def object_of(value: object) -> dict:
    """A value that is an object of JSON, else an empty one."""
    return value if isinstance(value, dict) else {}


def link_of(entry: dict, name: str) -> Link:
    """A link of `ip -j -d link show`."""
    if not isinstance(entry.get("ifname"), str):
        raise Unreadable(f"{name}: a link without 'ifname'")
    info = object_of(entry.get("linkinfo"))
    data, port = object_of(info.get("info_data")), object_of(info.get("info_slave_data"))
    vni, mtu, udp_port = data.get("id"), entry.get("mtu"), data.get("port")
    kind = str(info.get("info_kind", ""))
    return Link(
        name=entry["ifname"],
        kind=kind,
        is_up="UP" in words_of(entry.get("flags"), name),
        master=str(entry.get("master") or ""),
        address=str(entry.get("address") or ""),
        mtu=mtu if isinstance(mtu, int) else 0,
        port_state=str(port.get("state", "forwarding")),
        is_isolated=port.get("isolated") is True,
        floods_unknown=port.get("flood") is not False,
        floods_broadcast=port.get("bcast_flood") is not False,
        tells_vlans=bool(data.get("vlan_filtering")),
        vni=vni if kind == "vxlan" and isinstance(vni, int) and not isinstance(vni, bool) else None,
        udp_port=udp_port if isinstance(udp_port, int) else 0,
        local=str(data.get("local") or ""),
        is_external=bool(data.get("external")),
    )


def links_of(entries: List[dict], name: str) -> Dict[str, Link]:
    """All links by name."""
    found = (link_of(entry, name) for entry in entries)
    return {link.name: link for link in found}


def networks_of(links: List[dict], vlans: List[dict], tunnels: List[dict], name: str) -> Dict[int, Network]:
    """Each VNI's network, of what `ip -j -d link show` and the two of `bridge -j vlan` print.

    Of two devices of one VNI the one in a bridge counts.
    """
    found: Dict[int, Network] = {}
    try:
        for vni, network in each_network(links, links_of(links, name), untagged_of(vlans), list(pairs_of(tunnels))):
            if vni not in found or network.bridge:
                found[vni] = network
    except (KeyError, TypeError, ValueError, AttributeError) as fault:
        raise Unreadable(f"{name}: a link or a VLAN lacks what is needed ({fault})") from None
    return found


def each_network(
    entries: List[dict], links: Dict[str, Link], untagged: Dict[str, int], pairs: List[Tuple[str, int, int]]
) -> Iterator[Tuple[int, Network]]:
    """The networks one by one."""
    uppers = [entry for entry in entries if links[entry["ifname"]].kind == "vlan"]
    tagged = {(entry.get("link"), object_of(object_of(entry.get("linkinfo")).get("info_data")).get("id")): entry["ifname"] for entry in uppers}
    for link in links.values():
        if link.kind != "vxlan":
            continue
        tells_vlans = link.master in links and links[link.master].tells_vlans
        if link.is_external:
            carried = [(vni, vlan) for port, vlan, vni in pairs if port == link.name]
        elif link.vni is None:
            raise KeyError("id")
        else:
            carried = [(link.vni, untagged.get(link.name) if tells_vlans else None)]
        for vni, vlan in carried:
            gateway = tagged.get((link.master, vlan), "") if tells_vlans else link.master
            is_up = gateway in links and links[gateway].is_up
            yield vni, Network(vni, link.name, link.master, vlan if tells_vlans else None, gateway if is_up else "", link.local)


# ---- where the frames go ------------------------------------------------------------------------------------------


class Tables:
    """All forwarding entries and neighbours of a host, read once for all VNIs."""

    def __init__(
        self,
        entries: List[dict],
        neighbours: Optional[List[dict]],
        name: str,
        groups: Optional[Dict[int, str]] = None,
        neighbours_name: str = "",
    ) -> None:
        self.name, self.neighbours_name = name, neighbours_name or name
        self.groups = groups or {}
        self.ports: Dict[Tuple[str, Optional[int]], Dict[bytes, str]] = {}
        self.tunnels: Dict[Tuple[str, Optional[int]], Dict[bytes, str]] = {}
        self.floods: Dict[Tuple[str, Optional[int]], Set[str]] = {}
        self.foreign: Dict[Tuple[str, Optional[int]], Set[bytes]] = {}
        self.sticky: Dict[Tuple[str, Optional[int]], Set[bytes]] = {}
        self.neighbours: Optional[Dict[str, Dict[bytes, Neighbour]]] = None if neighbours is None else {}
        for entry in entries:
            self.take_entry(entry)
        for entry in neighbours or []:
            self.take_neighbour(entry)

    def take_entry(self, entry: dict) -> None:
        """Takes an entry of `bridge -j fdb show`."""
        get = entry.get
        mac, device, flags = octets_of(get("mac"), self.name), str(get("ifname", "")), get("flags")
        if mac[0] & 1:
            return
        if not isinstance(flags, list):
            flags = words_of(flags, self.name)
        if "master" in entry and "self" not in flags:
            is_own = "extern_learn" not in flags and "permanent" in words_of(get("state"), self.name)
            vlan = number_of(entry, "vlan", self.name) if "vlan" in entry else None
            self.ports.setdefault((str(entry["master"]), vlan), {})[mac] = LOCAL if is_own else device
            return
        place = place_text(entry, self.name, self.groups)
        if not place:
            return
        of_device = device, number_of(entry, "src_vni", self.name) if "src_vni" in entry else None
        if mac == ALL_ZERO:
            self.floods.setdefault(of_device, set()).add(place)
            return
        places = self.tunnels.setdefault(of_device, {})
        if places.setdefault(mac, place) is not place and places[mac] != place:
            places[mac] = "+".join(sorted({*places[mac].split("+"), place}))
        if "extern_learn" not in flags:
            self.foreign.setdefault(of_device, set()).add(mac)
            if "sticky" in flags:
                self.sticky.setdefault(of_device, set()).add(mac)

    def take_neighbour(self, entry: dict) -> None:
        """Takes an entry of `ip -j neigh show`; one without a MAC says nothing."""
        name = self.neighbours_name
        if "dst" not in entry or "dev" not in entry:
            raise Unreadable(f"{name}: a neighbour without 'dst' or 'dev'")
        if "lladdr" in entry and not any(word in GONE for word in words_of(entry.get("state"), name)):
            is_zebras = "extern_learn" in entry or entry.get("protocol") == "zebra"
            neighbour = Neighbour(octets_of(entry["lladdr"], name), is_zebras)
            self.neighbours.setdefault(str(entry["dev"]), {})[ip_of(entry["dst"], name)] = neighbour

    def of_network(self, network: Network) -> Kernel:
        """What the kernel does with a VNI."""
        ports = self.ports.get((network.bridge, network.vlan), {})
        tunnels = self.tunnels_of(network.device, network.vni)
        places = {mac: place_of(ports.get(mac), network.device, tunnels.get(mac, "")) for mac in {*ports, *tunnels} - {ALL_ZERO}}
        neighbours = None
        if self.neighbours is not None and network.gateway:
            neighbours = self.neighbours.get(network.gateway, {})
        learnt = {mac: port for mac, port in ports.items() if port not in (LOCAL, network.device)}
        foreign, sticky = (of_device(marked, network.device, network.vni) for marked in (self.foreign, self.sticky))
        return Kernel(places, self.floods_of(network.device, network.vni), neighbours, True, foreign, learnt, sticky)

    def tunnels_of(self, device: str, vni: int) -> Dict[bytes, str]:
        """Where the entries of a VNI's device lead."""
        return {**self.tunnels.get((device, None), {}), **self.tunnels.get((device, vni), {})}

    def floods_of(self, device: str, vni: int) -> Set[str]:
        """The flood list of a VNI's device."""
        return unicast_of(self.floods.get((device, vni), self.floods.get((device, None), set())))

    def of_one_device(self, vni: int, device: str) -> Kernel:
        """The same where nobody said which device and bridge is the VNI's: the dump is of its device alone, or that is named."""
        named = {name for name, _ in (*self.tunnels, *self.floods)}
        if not device and len(named) > 1:
            raise Unreadable(f"{self.name}: entries of several VXLAN devices, and no links.json says which is of VNI {vni}")
        if not device or named == {""}:
            device = next(iter(named), "")
        ports = {mac: port for places in self.ports.values() for mac, port in places.items() if port in ("", device, LOCAL)}
        tunnels = self.tunnels_of(device, vni)
        places = {}
        for mac in {*ports, *tunnels} - {ALL_ZERO}:
            hides = mac not in ports and any(port != LOCAL for port in ports.values())
            towards = tunnels.get(mac, "")
            places[mac] = LOCAL if ports.get(mac) == LOCAL else UNKNOWN if hides and towards else towards or NOWHERE
        foreign, sticky = (of_device(marked, device, vni) for marked in (self.foreign, self.sticky))
        return Kernel(places, self.floods_of(device, vni), None, False, foreign, {}, sticky)


def of_device(marked: Mapping[Tuple[str, Optional[int]], Set[bytes]], device: str, vni: int) -> FrozenSet[bytes]:
    """The MACs of a VNI's device, of some that are sorted by device and VNI."""
    return frozenset(marked.get((device, None), set()) | marked.get((device, vni), set()))


def number_of(entry: dict, key: str, name: str) -> Optional[int]:
    """A number of an entry, if it is there."""
    value = entry.get(key)
    if value is None:
        return None
    if not isinstance(value, int) or isinstance(value, bool):
        raise Unreadable(f"{name}: {key} is {str(value)[:40]!r}, no number")
    return value


def groups_of(entries: List[dict], name: str) -> Dict[int, str]:
    """The edges of each next hop and of each group, of `ip -j nexthop show`; a group's have a plus between them."""
    hops = {number_of(entry, "id", name): str(entry["gateway"]) for entry in entries if entry.get("gateway") and "fdb" in entry}
    found = {number: hop for number, hop in hops.items() if number is not None}
    for entry in entries:
        members, number = entry.get("group"), number_of(entry, "id", name)
        if isinstance(members, list) and number is not None:
            edges = {hops.get(member.get("id"), "?") for member in members if isinstance(member, dict)}
            found[number] = "+".join(sorted(edges))
    return found


def ways_of(entries: List[dict]) -> Dict[str, Set[str]]:
    """The next hops that BGP's routes in the kernel use, by device, of `ip -4 -j route show table all proto bgp`."""
    found: Dict[str, Set[str]] = {}
    for entry in entries:
        hops = entry.get("nexthops")
        for hop in hops if isinstance(hops, list) else [entry]:
            if isinstance(hop, dict) and isinstance(hop.get("gateway"), str) and isinstance(hop.get("dev"), str):
                found.setdefault(hop["dev"], set()).add(hop["gateway"])
    return found


def place_text(entry: dict, name: str, groups: Dict[int, str]) -> str:
    """Where an entry of a VXLAN device leads: the edge, with the VNI and the UDP port where they aren't the device's."""
    edge = entry.get("dst")
    if edge is None:
        group = number_of(entry, "nhid", name)
        return "" if group is None else groups.get(group, f"group {group}")
    if "vni" not in entry and "port" not in entry:
        return str(edge)
    more = [f" {key} {number}" for key in ("vni", "port") if (number := number_of(entry, key, name)) is not None]
    return str(edge) + "".join(more)


def place_of(port: Optional[str], device: str, towards: str) -> str:
    """Where a bridge and its VXLAN device, whose own entry leads towards some edge or to none, send a MAC."""
    if port is None:
        return FLOODED + towards if towards else NOWHERE
    return towards or NOWHERE if port == device else LOCAL


def unicast_of(places: Set[str]) -> Set[str]:
    """The edges of a flood list; a multicast group isn't one."""
    found = set()
    for place in places:
        try:
            if not ipaddress.ip_address(place).is_multicast:
                found.add(place)
        except ValueError:
            continue
    return found
