#!/usr/bin/env python3
"""Writes the views of a large fabric, in the form that FRR 10.3 and iproute2 print, for timing the audit of a whole fabric:

    python3 tests/tools/many_leaves.py FOLDER [LEAVES] [MACS] && cd FOLDER && time evpnd_audit.py fabric leaves

LEAVES leaves (200) have one network of MACS stations (1000), each station at one leaf; all leaves show all routes. Each leaf has
one entry that leads to another leaf than the owner.
"""

import json
import os
import sys

from many_vnis import mac_of, route_of

VNI = 5001


def address_of(leaf: int) -> str:
    """The VXLAN address of a leaf."""
    return f"10.0.{1 + leaf // 250}.{1 + leaf % 250}"


def own(route: dict) -> dict:
    """A route as the leaf shows it that advertises it."""
    [[path]] = route["paths"]
    return {**route, "paths": [[{**path, "peerId": "(unspec)", "pathFrom": "external", "weight": 32768}]]}


class Leaf:
    """The texts of a leaf."""

    def __init__(self, number: int, leaves: int, macs: int) -> None:
        self.number, self.leaves = number, leaves
        self.routes: dict = {}
        self.vnis = {str(VNI): {"vni": VNI, "type": "L2", "vxlanIf": f"vxlan{VNI}"}}
        self.macs: dict = {str(VNI): {"numMacs": macs, "macs": {}}}
        self.fdb: list = []
        data = {"id": VNI, "local": address_of(number), "port": 4789}
        self.links = [
            {"ifname": f"br{VNI}", "flags": ["UP"], "linkinfo": {"info_kind": "bridge", "info_data": {"vlan_filtering": 0}}},
            {"ifname": f"vxlan{VNI}", "master": f"br{VNI}", "flags": ["UP"], "linkinfo": {"info_kind": "vxlan", "info_data": data}},
        ]
        self.best: dict = {str(VNI): {"vni": VNI, "macTable": {}}}
        for leaf in range(leaves):
            self.add_flood(address_of(leaf), leaf == number)
        wrong = next(place for place in range(macs) if place % leaves == (number + 1) % leaves)
        for place in range(macs):
            self.add_station(place, place == wrong)

    def add_flood(self, edge: str, is_own: bool) -> None:
        """An inclusive multicast route, and an entry of the flood list."""
        prefix = f"[3]:[0]:[32]:[{edge}]"
        route = route_of(prefix, edge, VNI)
        self.routes.setdefault(f"{edge}:{VNI}", {"rd": f"{edge}:{VNI}"})[prefix] = own(route) if is_own else route
        if not is_own:
            flood = {"mac": "00:00:00:00:00:00", "ifname": f"vxlan{VNI}", "dst": edge, "flags": ["self"], "state": "permanent"}
            self.fdb.append(flood)

    def add_station(self, place: int, is_wrong: bool) -> None:
        """A station, at this leaf or at another one."""
        mac, home = mac_of(VNI, place), place % self.leaves
        edge, prefix = address_of(home), f"[2]:[0]:[48]:[{mac}]"
        route = own(route_of(prefix, edge, VNI)) if home == self.number else route_of(prefix, edge, VNI)
        self.routes[f"{edge}:{VNI}"][prefix] = route
        self.best[str(VNI)]["macTable"][prefix] = route
        entry = {"type": "remote", "remoteVtep": edge, "localSequence": 0, "remoteSequence": 0}
        local = {"type": "local", "intf": "acc", "localSequence": 0, "remoteSequence": 0}
        self.macs[str(VNI)]["macs"][mac] = local if home == self.number else entry
        if home == self.number:
            self.fdb.append({"mac": mac, "ifname": "acc", "flags": [], "master": f"br{VNI}", "state": ""})
            return
        there = address_of((home + 1) % self.leaves) if is_wrong else edge
        self.fdb.append({"mac": mac, "ifname": f"vxlan{VNI}", "flags": ["extern_learn"], "master": f"br{VNI}", "state": ""})
        self.fdb.append({"mac": mac, "ifname": f"vxlan{VNI}", "dst": there, "flags": ["self", "extern_learn"], "state": ""})


def main() -> None:
    """Writes the texts and the list of leaves."""
    folder = sys.argv[1]
    leaves, macs = (int(word) for word in (sys.argv[2:4] + ["200", "1000"][len(sys.argv[2:4]) :]))
    os.makedirs(folder, exist_ok=True)
    with open(os.path.join(folder, "leaves"), "w", encoding="utf-8") as out:
        out.writelines(f"leaf{number}\n" for number in range(leaves))
    for number in range(leaves):
        path = os.path.join(folder, f"leaf{number}")
        os.makedirs(path, exist_ok=True)
        leaf = Leaf(number, leaves, macs)
        for name in ("routes", "best", "vnis", "macs", "fdb", "links"):
            with open(os.path.join(path, f"{name}.json"), "w", encoding="utf-8") as text:
                json.dump(getattr(leaf, name), text, indent=2 if name == "best" else None)  # as FRR 10.3 prints each


if __name__ == "__main__":
    main()
