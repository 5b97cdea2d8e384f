"""Causes that stand behind many stations at once: a device that is down, a bridge, an edge without a route, a session.

Each is one line with the number of stations behind it. One that stops a whole network hides the lines of its MACs.
"""

import enum
from dataclasses import dataclass
from typing import Dict, FrozenSet, Iterator, List, Set, Tuple

import update_records as records
from audit_kernel import LOCAL, Network, octets_of
from audit_views import View

ESTABLISHED = "Established"
SHOWN_MACS = 3


class Kind(enum.Enum):
    """What a cause is; the value is its text, and whether it stops the whole network."""

    DEVICE_DOWN = ("device {} is down", True)
    NO_BRIDGE = ("device {} is in no bridge", True)
    BRIDGE_DOWN = ("bridge {} is down", True)
    PORT_STATE = ("bridge port {}, not forwarding", True)
    NOT_RUN = ("bgpd doesn't run the network of device {}", True)
    NOT_IN_KERNEL = ("bgpd has the network, and zebra says that the kernel has no device for it{}", True)
    ISOLATED = ("the VXLAN port and access ports are isolated from each other: {}", False)
    SHARED_BRIDGE = ("networks leak into each other: {}", False)
    NO_ROUTE = ("the underlay has no route to {}", False)
    NOT_VALID = ("bgpd holds the routes of {} for not valid: it doesn't reach this next hop", False)
    UNADVERTISED = ("local stations that nobody advertises: {}", False)
    NO_FLOODING = ("bgpd doesn't flood by ingress replication: {}", False)
    SESSION = ("the session with {}: what it would say isn't known here", False)
    SWITCHED_OFF = ("bgpd has no 'advertise-all-vni'{}: it runs no network", False)

    @property
    def text(self) -> str:
        """The text, with a place for what it is about."""
        return self.value[0]

    @property
    def stops(self) -> bool:
        """Whether no frame of the network arrives."""
        return self.value[1]


PASSING = (Kind.NOT_VALID, Kind.UNADVERTISED)


@dataclass(frozen=True)
class Cause:
    """One cause and the stations behind it."""

    kind: Kind
    what: str
    members: FrozenSet[bytes] = frozenset()

    def line(self) -> str:
        """Returns the text with the number of stations."""
        what = self.what
        if self.kind is Kind.UNADVERTISED:
            what = names_of(self.members)
        counted = f": {len(self.members)} station{'s' * (len(self.members) != 1)}" if self.members else ""
        return self.kind.text.format(what) + counted


def names_of(macs: FrozenSet[bytes]) -> str:
    """The first few MACs."""
    names = [records.mac_text(mac) for mac in sorted(macs)]
    return ", ".join(names[:SHOWN_MACS]) + (f" and {len(names) - SHOWN_MACS} more" if len(names) > SHOWN_MACS else "")


# ---- of one network ----------------------------------------------------------------------------------------------


def of_network(view: View, vni: int, owners: Dict[bytes, bytes]) -> List[Cause]:
    """The causes that a network has at a router; `owners` has each of its MACs that somebody else owns."""
    network, behind = view.networks.get(vni), frozenset(owners)
    found: List[Cause] = []
    if network is not None and network.device in view.links:
        found += (Cause(kind, what, behind) for kind, what in of_links(view, network))
    stops = any(cause.kind.stops for cause in found)
    if vni in view.stopped and not stops:
        found.append(Cause(Kind.NOT_RUN, network.device if network else "?", behind))
    elif view.instance is not None and vni in view.instance.vnis and not view.instance.vnis[vni].is_in_kernel and not stops:
        found.append(Cause(Kind.NOT_IN_KERNEL, "", behind))
    if any(cause.kind.stops for cause in found):
        return found
    found += no_routes(view, owners)
    found += not_valid(view, vni)
    return found + unadvertised(view, vni)


def of_links(view: View, network: Network) -> Iterator[Tuple[Kind, str]]:
    """What the state of the device, of its bridge and of its ports says."""
    device, bridge = view.links[network.device], view.links.get(network.bridge)
    if not device.is_up:
        yield Kind.DEVICE_DOWN, device.name
    elif bridge is None:
        yield Kind.NO_BRIDGE, device.name
    elif not bridge.is_up:
        yield Kind.BRIDGE_DOWN, bridge.name
    elif device.port_state != "forwarding":
        yield Kind.PORT_STATE, f"{device.name} is {device.port_state}"
    access = [link for link in view.links.values() if link.master == network.bridge and link.kind != "vxlan"]
    isolated = sorted(link.name for link in access if link.is_isolated)
    if network.bridge and device.is_isolated and isolated:
        yield Kind.ISOLATED, ", ".join([device.name, *isolated])
    others = sorted(
        each.device
        for each in view.networks.values()
        if each.bridge and (each.bridge, each.vlan) == (network.bridge, network.vlan) and each.vni != network.vni
    )
    if others:
        where = f" in VLAN {network.vlan}" if network.vlan is not None else ""
        yield Kind.SHARED_BRIDGE, f"{', '.join(sorted([network.device, *others]))} are in one bridge, {network.bridge}{where}"


def no_routes(view: View, owners: Dict[bytes, bytes]) -> Iterator[Cause]:
    """The owners that the underlay doesn't reach."""
    if not view.underlay:
        return
    behind: Dict[bytes, Set[bytes]] = {}
    for mac, owner in owners.items():
        behind.setdefault(owner, set()).add(mac)
    for owner, macs in sorted(behind.items()):
        said = view.underlay.get(records.address_text(owner))
        if said:
            yield Cause(Kind.NO_ROUTE, f"{records.address_text(owner)} ({said.splitlines()[0]})", frozenset(macs))


def not_valid(view: View, vni: int) -> Iterator[Cause]:
    """The next hops whose routes bgpd doesn't use."""
    for (network, hop), macs in sorted(view.snapshot.routes.invalid.items()):
        if network == vni:
            yield Cause(Kind.NOT_VALID, hop, frozenset(macs))


def unadvertised(view: View, vni: int) -> List[Cause]:
    """The stations that zebra has as local, and of which no router advertises a route, whether an access port learnt them or not."""
    if view.zebra is None or vni not in view.kernel or not view.links:
        return []
    candidates = {mac for mac, place in view.zebra.get(vni, {}).items() if place == LOCAL}
    if not candidates:
        return []
    own = {octets_of(link.address, "links") for link in view.links.values() if link.address.count(":") == 5}
    key = vni.to_bytes(3, "big")
    told = {register[7:13] for register in view.snapshot.registers if register[4:7] == key}
    unjudged = {*view.snapshot.routes.unjudged, *view.snapshot.routes.multihomed}
    told |= {mac for network, mac in unjudged if network == vni and mac is not None}
    told |= {mac for (network, _), macs in view.snapshot.routes.invalid.items() if network == vni for mac in macs}
    there = frozenset(candidates - told - own)
    return [Cause(Kind.UNADVERTISED, "", there)] if there else []


# ---- of a router ---------------------------------------------------------------------------------------------------


def switched_off(view: View) -> bool:
    """Whether bgpd advertises no network at all."""
    return view.instance is not None and not view.instance.advertises_all and not view.instance.vnis


def of_router(view: View) -> List[Cause]:
    """The causes that a router has: sessions that are down, and bgpd's switches."""
    found = [
        Cause(Kind.SESSION, f"{peer} is {state}") for peer, state in sorted(view.sessions.items()) if state != ESTABLISHED
    ]
    if switched_off(view):
        others = (key for key in view.snapshot.registers if key[:4] not in view.own)
        found.append(Cause(Kind.SWITCHED_OFF, "", frozenset(key[7:13] for key in others if len(key) > 7)))
    if view.instance is not None and not view.instance.floods:
        found.append(Cause(Kind.NO_FLOODING, "its flooding is switched off"))
    return found


def both(first: List[Cause], second: List[Cause]) -> List[Cause]:
    """The second look's causes that the first one had too; of causes that come and go with stations, with those of both."""
    before = {(cause.kind, cause.what): cause for cause in first}
    kept = []
    for cause in second:
        old = before.get((cause.kind, cause.what))
        if old is not None and cause.kind in PASSING:
            if cause.members & old.members:
                kept.append(Cause(cause.kind, cause.what, cause.members & old.members))
        elif old is not None:
            kept.append(cause)
    return kept
