#!/usr/bin/env python3
"""Writes a view of a large leaf, in the form that FRR 10.3 and iproute2 print, for timing the audit:

    python3 tests/tools/many_vnis.py FOLDER [VNIS] [MACS] && time tools/evpnd_audit.py FOLDER

VNIS networks (100) of MACS stations each (1000), each station behind one of 20 edges, one in ten with an IP
address; every thousandth is in the kernel behind another edge.
"""

import json
import os
import sys

EDGES = [f"10.0.1.{edge}" for edge in range(1, 21)]
OWN = "10.0.0.100"


def mac_of(vni: int, place: int) -> str:
    """A station's MAC."""
    return f"02:{vni >> 8:02x}:{vni & 255:02x}:{place >> 16:02x}:{place >> 8 & 255:02x}:{place & 255:02x}"


def path_of(edge: str, vni: int) -> dict:
    """A path, as FRR prints it."""
    is_own = edge == OWN
    return {
        "valid": True, "bestpath": True, "selectionReason": "First path received", "pathFrom": "external" if is_own else "internal",
        "routeType": 2, "ethTag": 0, "macLen": 48, "locPrf": 100, "weight": 0, "peerId": "(unspec)" if is_own else "192.168.77.2",
        "path": "", "origin": "IGP", "extendedCommunity": {"string": f"RT:65000:{vni} ET:8"},
        "nexthops": [{"ip": edge, "afi": "ipv4", "used": True}],
    }


def route_of(prefix: str, edge: str, vni: int) -> dict:
    """A route with its one path."""
    return {"prefix": prefix, "prefixLen": 352, "paths": [[path_of(edge, vni)]]}


class Leaf:
    """The texts of a leaf."""

    def __init__(self) -> None:
        self.routes: dict = {}
        self.best: dict = {}
        self.vnis: dict = {}
        self.macs: dict = {}
        self.fdb: list = []
        self.links: list = []
        self.neigh: list = []

    def add_network(self, vni: int, stations: int) -> None:
        """A VNI with its devices, its flood list and its stations."""
        bridge, device = f"br{vni}", f"vxlan{vni}"
        data = {"id": vni, "local": OWN, "port": 4789}
        self.links.append({"ifname": bridge, "flags": ["UP"], "linkinfo": {"info_kind": "bridge", "info_data": {"vlan_filtering": 0}}})
        self.links.append({"ifname": device, "master": bridge, "flags": ["UP"], "linkinfo": {"info_kind": "vxlan", "info_data": data}})
        self.vnis[str(vni)] = {"vni": vni, "type": "L2", "vxlanIf": device}
        self.macs[str(vni)] = {"numMacs": stations, "macs": {}}
        self.best[str(vni)] = {"vni": vni, "macTable": {}}
        for edge in [*EDGES, OWN]:
            prefix = f"[3]:[0]:[32]:[{edge}]"
            self.routes.setdefault(f"{edge}:{vni}", {"rd": f"{edge}:{vni}"})[prefix] = route_of(prefix, edge, vni)
            if edge != OWN:
                self.fdb.append({"mac": "00:00:00:00:00:00", "ifname": device, "dst": edge, "flags": ["self"], "state": "permanent"})
        for place in range(stations):
            self.add_station(vni, place)

    def add_station(self, vni: int, place: int) -> None:
        """A station everywhere where a leaf has it."""
        bridge, device, mac, edge = f"br{vni}", f"vxlan{vni}", mac_of(vni, place), EDGES[place % len(EDGES)]
        address = f"198.18.{place >> 8 & 255}.{place & 255}" if place % 10 == 0 else ""
        prefix = f"[2]:[0]:[48]:[{mac}]" + (f":[32]:[{address}]" if address else "")
        route = route_of(prefix, edge, vni)
        self.routes[f"{edge}:{vni}"][prefix] = route
        self.best[str(vni)]["macTable"][f"[2]:[0]:[48]:[{mac}]"] = route
        self.macs[str(vni)]["macs"][mac] = {"type": "remote", "remoteVtep": edge, "localSequence": 0, "remoteSequence": 0}
        place_there = EDGES[(place + 1) % len(EDGES)] if place % 1000 == 999 else edge
        self.fdb.append({"mac": mac, "ifname": device, "flags": ["extern_learn"], "master": bridge, "state": ""})
        self.fdb.append({"mac": mac, "ifname": device, "dst": place_there, "flags": ["self", "extern_learn"], "state": ""})
        if address:
            self.neigh.append({"dst": address, "dev": bridge, "lladdr": mac, "extern_learn": None, "state": ["NOARP"], "protocol": "zebra"})


def main() -> None:
    """Writes the texts."""
    folder = sys.argv[1]
    vnis, stations = (int(word) for word in (sys.argv[2:4] + ["100", "1000"][len(sys.argv[2:4]) :]))
    leaf = Leaf()
    for vni in range(5001, 5001 + vnis):
        leaf.add_network(vni, stations)
    os.makedirs(folder, exist_ok=True)
    for name, text in vars(leaf).items():
        with open(os.path.join(folder, f"{name}.json"), "w", encoding="utf-8") as out:
            json.dump(text, out, indent=2 if name in ("routes", "best") else None)


if __name__ == "__main__":
    main()
