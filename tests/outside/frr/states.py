#!/usr/bin/env python3
"""States of random histories in a routed leaf, judged by real frames. As root, with frr and iproute2:

    states.py [--states N] [--seed N] [--until HH:MM] [ROOT]

The leaf has an L3VNI, another program's VXLAN device, a network with a configured import target, and routes with two local route
targets. In each state some routes change, and in half of them an entry of the kernel is changed as zebra would write it. A real
frame to each MAC says where it goes; the owner is that of the routes that were told (a model of its own here). Each MAC whose
frame goes elsewhere has to be told, no other one may be, and after each `mend:` its frame has to go to the owner. A line a state
that is missed or false, a sum each 20 states. The audits are those of one process (auditor.py); each 50th state is audited by
the program and by vtysh as well, which has to print the same. Several may run side by side. Not part of the gate.
"""

import argparse
import json
import os
import random
import re
import shlex
import subprocess
import sys
import time
from typing import Dict, List, NamedTuple, Optional, Set, Tuple

import edge as lab
from edge import Edge, Trouble, run
from leaves import audited

VNIS, L3VNI, IMPORT = (5001, 5002), 6000, 100
STATIONS, EDGES, CHANGES = 24, 4, 6
SETTLES, COMPARED = 0.4, 50  # seconds that zebra gets after a change; after each COMPARED states vtysh is queried, too
Key = Tuple[int, str]


class Said(NamedTuple):
    """A route of a MAC: its edge, and what it says."""

    static: bool
    sequence: int
    ip: str


class Model:
    """What the speaker has said: of each network and MAC the route of each edge."""

    def __init__(self, numbers: random.Random) -> None:
        self.numbers = numbers
        self.routes: Dict[Key, Dict[int, Said]] = {}
        self.shared: Dict[Tuple[int, str], bool] = {}

    def owner(self, key: Key) -> Optional[str]:
        """The owner: static, then the higher sequence number, then the lower address (RFC 7432, 15 and 15.2)."""
        said = self.routes.get(key, {})
        best = min(said, key=lambda edge: (not said[edge].static, -said[edge].sequence, edge), default=None)
        return None if best is None else f"10.0.0.{best}"

    def change(self) -> List[str]:
        """Some changes of distinct MACs, as the speaker's lines."""
        lines = []
        for place in self.numbers.sample(range(STATIONS), CHANGES):
            vni, mac = VNIS[place % 2], f"02:00:00:00:05:{place:02x}"
            edge = self.numbers.randint(1, EDGES)
            both = place % 6 == 1  # a station of the first network whose routes have both networks' targets
            vnis = VNIS if both else (vni,)
            if self.numbers.random() < 0.3:
                gone = [self.routes.setdefault((each, mac), {}).pop(edge, None) for each in vnis][0]
                ip = f" ip {gone.ip}" if gone is not None and gone.ip else ""
                lines.append(f"withdraw 10.0.0.{edge} {vni} {mac}{ip}")
                continue
            old = self.routes.get((vni, mac), {}).get(edge)
            said = Said(self.numbers.random() < 0.1, self.numbers.randint(0, 4), old.ip if old else self.address(place, vni))
            for each in vnis:
                self.routes.setdefault((each, mac), {})[edge] = said
            numbers = [IMPORT if each == 5002 else each for each in vnis] + ([L3VNI] if said.ip else [])
            words = "".join(f"target 65000:{number} " for number in numbers)
            words += f"router 02:00:00:00:fe:{edge:02x} " if said.ip else ""
            ip = f" ip {said.ip}" if said.ip else ""
            label = f" label2 {L3VNI}" if said.ip else ""
            lines.append(f"{words}advert 10.0.0.{edge} {vni} {mac}{ip}{' static' if said.static else ''} seq {said.sequence}{label}")
        return lines

    def routed(self) -> Dict[str, Set[int]]:
        """The edges of each address that has a route."""
        found: Dict[str, Set[int]] = {}
        for said in self.routes.values():
            for edge, route in said.items():
                if route.ip:
                    found.setdefault(route.ip, set()).add(edge)
        return found

    def address(self, place: int, vni: int) -> str:
        """An address of the network for a third of the stations."""
        return f"198.18.{vni % 250}.{100 + place}" if place % 3 == 0 else ""


class Leaf:
    """The leaf with its judge and its auditor."""

    def __init__(self, edge: Edge) -> None:
        """Makes the other device, the import target and the flood lists."""
        self.edge, self.marks = edge, 0
        inside = ["ip", "-n", edge.inside]
        edge.within("sysctl", "-qw", "net.ipv4.fib_multipath_hash_policy=1")  # each flow may take another next hop
        run(*inside, "link", "add", "flannel.1", "type", "vxlan", "id", "1", "dstport", "8472", "local", edge.address, "nolearning")
        run(*inside, "link", "set", "flannel.1", "up")
        for number in range(1, EDGES + 1):  # a way to each edge's router alone
            run(*inside, "route", "add", probe_of(number), "via", f"10.0.0.{number}", "dev", f"br{L3VNI}", "onlink")
        edge.within("bridge", "fdb", "append", "02:00:00:00:f1:01", "dev", "flannel.1", "dst", "10.0.0.1", "self", "permanent")
        target = f"route-target import 65000:{IMPORT}"
        edge.shell_lines("configure terminal", "router bgp 65000", "address-family l2vpn evpn", "vni 5002", target)
        self.judge = self.started("frames.py", "judge", "up0", *map(str, VNIS))
        self.auditor = self.started("auditor.py", edge.folder)
        pairs = [(pe, vni) for pe in range(1, EDGES + 1) for vni in VNIS]
        self.tell([f"target 65000:{IMPORT if vni == 5002 else vni} advert 10.0.0.{pe} {vni} flood" for pe, vni in pairs])

    def started(self, program: str, *words: str) -> subprocess.Popen:
        """A program of this folder in the leaf's namespace, which answers lines."""
        pipe, command = subprocess.PIPE, [sys.executable, os.path.join(lab.HERE, program), *words]
        child = self.edge.start(self.edge.inside, command, stdin=pipe, stdout=pipe, encoding="utf-8")
        self.edge.children.append(child)
        return child

    def asked(self, *words: str) -> Tuple[int, str]:
        """The auditor's answer."""
        self.auditor.stdin.write(json.dumps(words) + "\n")
        self.auditor.stdin.flush()
        status, text = json.loads(self.auditor.stdout.readline())
        return status, text

    def tell(self, lines: List[str]) -> None:
        """Says some lines and a mark behind them in the place of the last one, and waits until the kernel has the mark."""
        last, self.marks = self.marks, self.marks + 1
        names = [f"02:ff:ff:{each >> 16:02x}:{each >> 8 & 255:02x}:{each & 255:02x}" for each in (last, self.marks)]
        gone = [f"withdraw 10.0.0.1 {VNIS[0]} {names[0]}"] if last else []
        self.edge.speaker.stdin.write("\n".join([*gone, *lines, f"advert 10.0.0.1 {VNIS[0]} {names[1]} seq 0", ""]))
        self.edge.speaker.stdin.flush()
        status, fault = self.asked("mark", f"vxlan{VNIS[0]}", names[1])
        if status:
            raise Trouble(fault)

    def audited(self, *words: str) -> Tuple[int, str]:
        """The audit by the auditor."""
        return self.asked("audit", *words)

    def agrees(self) -> bool:
        """Whether the program with vtysh prints what the auditor prints; both are asked until nothing moves."""
        for _ in range(3):
            before, whole, after = self.audited("--json"), audited(self.edge, "--json"), self.audited("--json")
            if before == after:
                return whole[0] == before[0] and whole[1].startswith(before[1])  # then comes standard error
        return False


class Judgement(NamedTuple):
    """The MACs whose real frames go elsewhere than to their owner, the addresses whose datagrams aren't routed to an edge of theirs,
    and the edges to whose router no datagram gets."""

    frames: Dict[Key, str]
    datagrams: Dict[str, str]
    edges: Set[int]


def judged(leaf: Leaf, model: Model, keys: List[Key]) -> Judgement:
    """Sends a frame to each MAC and a datagram to each address that has a route: without an owner a frame is flooded to all edges."""
    routed, probes = model.routed(), {probe_of(number): number for number in range(1, EDGES + 1)}
    leaf.judge.stdin.write(json.dumps([keys, [*routed, *probes]]) + "\n")
    leaf.judge.stdin.flush()
    places, ways = json.loads(leaf.judge.stdout.readline())
    everywhere = {f"10.0.0.{edge}" for edge in range(1, EDGES + 1)}
    found = {key: "flooded" if everywhere <= {*place.split("+")} else place for key, place in zip(keys, places)}
    frames = {key: place for key, place in found.items() if place != (model.owner(key) or "flooded")}
    right = {address: {way_to(edge) for edge in edges} for address, edges in routed.items()}
    datagrams = {address: way for address, way in zip(routed, ways) if not {*way.split("+")} <= right[address]}
    broken = {number for number, way in zip(probes.values(), ways[len(routed) :]) if way != way_to(number)}
    return Judgement(frames, datagrams, broken)


def probe_of(edge: int) -> str:
    """An address whose only next hop is an edge's router."""
    return f"203.0.113.{edge}"


def way_to(edge: int) -> str:
    """How a datagram that is routed to an edge leaves: its outer address, the L3VNI and the router's MAC."""
    return f"10.0.0.{edge} vni {L3VNI} 02:00:00:00:fe:{edge:02x}"


def plant(leaf: Leaf, model: Model, keys: List[Key]) -> str:
    """Changes an entry of the kernel, as zebra would write it."""
    vni, mac = model.numbers.choice(keys)
    device, kind = f"vxlan{vni}", model.numbers.choice(["edge", "vni", "port", "gone", "stray"])
    owner = model.owner((vni, mac)) or "10.0.0.1"
    other = f"10.0.0.{1 + int(owner.rpartition('.')[2]) % EDGES}"
    words = {"edge": ["dst", other], "vni": ["dst", owner, "vni", "77"], "port": ["dst", owner, "port", "4790"]}
    replace, owned = ["bridge", "fdb", "replace", mac, "dev", device], model.owner((vni, mac)) is not None
    commands: List[List[str]] = []
    if kind in words and owned:
        commands = [[*replace, *words[kind], "self", "extern_learn"]]
    elif kind == "gone" and owned:
        commands = [["bridge", "fdb", "del", mac, "dev", device, "self"]]
    elif not owned:
        commands = [[*replace, "dst", owner, "self", "extern_learn"], [*replace, "master", "extern_learn"]]
    leaf.asked("run", *map(shlex.join, commands)) if commands else None
    return f"{kind} {vni} {mac}"


def restore(leaf: Leaf, model: Model, keys: List[Key]) -> None:
    """Puts the owners' entries of MACs back that no mend was printed for, so that later states differ in other MACs."""
    places = [(vni, mac, model.owner((vni, mac))) for vni, mac in keys]
    commands = [f"bridge fdb replace {mac} dev vxlan{vni} dst {owner} self" for vni, mac, owner in places if owner]
    if commands:
        leaf.asked("run", *commands)


class Told(NamedTuple):
    """What an audit tells: MACs whose frames go elsewhere, edges that datagrams aren't routed to, each with its mend; edges whose
    router is there though no route names it; and the rest."""

    macs: Dict[Key, str]
    edges: Dict[int, str]
    extras: Set[int]
    others: List[str]


def told_of(text: str) -> Told:
    """What an audit tells, of its JSON.

    zebra 8.4.4 may name a wrong edge while the kernel is right: that is told too, and no frame shows it.
    """
    said = json.loads(text)
    told = Told({}, {}, set(), [cause["text"] for view in said["views"] for cause in view["causes"]])
    for result in said["results"]:
        wrong = [each for each in result["macs"] if each["kernel"].replace("nowhere", "none") != each["owner"]]
        told.macs.update({(result["vni"], each["mac"]): each["mend"] for each in wrong})
        told.others.extend(f"{result['vni']} {cause['text']}" for cause in result["causes"])
        told.others.extend(f"{each['kind']} {result['vni']} {each['what']}" for each in result["floods"] or [])
        for each in result["routers"] or []:
            number = int(re.split("[.:]", each["what"])[-1], 16)
            if each["kind"].endswith(("missing", "wrong")):
                told.edges[number] = each["mend"]
            elif each["kind"].endswith("extra") and number <= EDGES:
                told.extras.add(number)
            else:
                told.others.append(f"{each['kind']} {result['vni']} {each['what']}")
    return told


NAMES = (
    "states", "differed", "told", "missed", "false", "mends", "failed mends",
    "addresses differed", "edges told", "extras told", "addresses missed", "edges false", "others", "compared",
)  # fmt: skip
FAULTS = ("missed", "false", "failed mends", "addresses missed", "edges false", "others")


def play(edge: Edge, states: int, seed: int, until: str) -> int:
    """Plays so many states, or until a time."""
    leaf, model = Leaf(edge), Model(random.Random(seed))
    keys = [(vni, f"02:00:00:00:05:{place:02x}") for place in range(STATIONS) for vni in (VNIS if place % 6 == 1 else (VNIS[place % 2],))]
    sums = dict.fromkeys(NAMES, 0)
    for state in range(states):
        if until and time.strftime("%H:%M") >= until:
            break
        found = played(leaf, model, keys, state)
        for name, count in found.items():
            sums[name] += count
        if state % 20 == 19:
            print(f"{time.strftime('%H:%M:%S')} {sums}", flush=True)
    print(f"end {time.strftime('%H:%M:%S')} {sums}", flush=True)
    return sum(sums[name] for name in FAULTS)


def played(leaf: Leaf, model: Model, keys: List[Key], state: int) -> Dict[str, int]:
    """Plays one state; says what came."""
    leaf.tell(model.change())
    time.sleep(SETTLES)
    planted = plant(leaf, model, keys) if model.numbers.random() < 0.5 else ""
    before = judged(leaf, model, keys)
    status, text = leaf.audited("--json", "--again", "1")
    if status not in (0, 1):
        raise Trouble(f"status {status}: {text}")
    told, after = told_of(text), judged(leaf, model, keys)
    found = dict.fromkeys(NAMES, 0)
    missed, false = {*before.frames} & {*after.frames} - {*told.macs}, {*told.macs} - {*before.frames} - {*after.frames}
    lost, needless = compared(model, told, before, after)
    if state % COMPARED == COMPARED - 1:
        found["compared"] = 1
        told.others.extend([] if leaf.agrees() else ["vtysh and the sockets differ"])
    mended = [key for key, mend in told.macs.items() if mend]
    commands = [told.macs[key] for key in mended] + [mend for mend in told.edges.values() if mend]
    if commands:
        leaf.asked("run", *commands)
    failed = failed_of(judged(leaf, model, mended), told, model) if commands else set()
    restore(leaf, model, [key for key in told.macs if key not in mended])
    if missed or false or failed or lost or needless or told.others:
        shown = [(key, before.frames[key], model.owner(key)) for key in sorted(missed)]
        lists = f"missed {shown}, false {sorted(false)}, failed {sorted(failed)}, addresses {lost}, edges {needless}, others {told.others}"
        print(f"state {state} ({planted}): {lists}", flush=True)
        for key in false:
            print(leaf.audited("--vni", str(key[0]), "--mac", key[1])[1], end="", flush=True)
    counts = (1, len(before.frames), len(told.macs), len(missed), len(false), len(commands), len(failed))
    more = (len(before.datagrams), len(told.edges), len(told.extras), len(lost), len(needless), len(told.others), found["compared"])
    return dict(zip(NAMES, counts + more))


def compared(model: Model, told: Told, before: Judgement, after: Judgement) -> Tuple[List[str], List[int]]:
    """The addresses that aren't routed and of whose edges none is told, and the edges that are told though datagrams get to their
    router, or as extra though their router isn't there."""
    routed, wrong = model.routed(), {*before.datagrams} & {*after.datagrams}
    lost = [f"{address} {before.datagrams[address]}" for address in sorted(wrong) if not routed[address] & {*told.edges}]
    named = {edge for edges in routed.values() for edge in edges}
    stray = told.extras & named | told.extras & before.edges & after.edges  # a route names it, or no datagram gets there
    return lost, sorted({*told.edges} - before.edges - after.edges | stray)


def failed_of(after: Judgement, told: Told, model: Model) -> Set[str]:
    """What still differs though a mend was run for it."""
    addresses = {address for address, edges in model.routed().items() if any(told.edges.get(edge) for edge in edges)}
    return {f"{vni} {mac}" for vni, mac in after.frames} | (addresses & {*after.datagrams})


def main() -> int:
    """Plays states to a leaf."""
    words = argparse.ArgumentParser(description=__doc__, formatter_class=argparse.RawDescriptionHelpFormatter)
    words.add_argument("--states", type=int, default=100, metavar="N")
    words.add_argument("--seed", type=int, default=56, metavar="N")
    words.add_argument("--until", default="", metavar="HH:MM")
    words.add_argument("root", nargs="?", default="", metavar="ROOT")
    arguments = words.parse_args()
    with Edge("states", arguments.root, VNIS, access=True, routed=L3VNI) as edge:
        print(f"-- FRR {edge.version()}, seed {arguments.seed}", flush=True)
        return 1 if play(edge, arguments.states, arguments.seed, arguments.until) else 0


if __name__ == "__main__":
    sys.exit(main())
