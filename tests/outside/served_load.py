"""How far one `evpnd serve` goes in a fabric; `fabric.sh` starts this in a network namespace of its own.

    served_load.py ROUTES MINUTES

A speaker in a route reflector's place tells GoBGP so many MAC routes of four leaves, and the gateway brings them to the
edge, at whose two ports hosts ping each other a hundred times a second. Then so many minutes of ten moves a second.
"""

import os
import random
import re
import subprocess
import sys
import time
from typing import Dict, List, Optional

from served_lab import HERE, VNI, Host, Lab, Pings, Served, entering

from bgp_fabric import Child, Gateway, Gobgpd, gateway_text, mac_of, seconds, waited  # noqa: E402, isort: skip
from edge import Trouble  # noqa: E402, isort: skip
from histories import Tally  # noqa: E402, isort: skip

OURS, REFLECTOR = "10.0.0.1", "10.0.0.9"
LEAVES = [f"10.0.0.{last}" for last in (11, 12, 13, 14)]
RATE = 10  # moves a second
LOOKED = 25  # moves of which one is checked
LONG = 600  # seconds that the routes may take
ENOUGH = 10  # seconds of a processor that the gateway may take for 100,000 routes


class Load:
    """An edge, the gateway and GoBGP, and a speaker that tells routes."""

    def __init__(self, lab: Lab) -> None:
        self.served = Served(lab, "ours", OURS, LEAVES)
        netns = lab.space("reflector")
        lab.attach(netns, REFLECTOR)
        self.near = Gobgpd(entering(self.served.netns), lab.folder, "near", gateway_text(REFLECTOR, OURS))
        lab.keep(self.near)
        self.served.start()
        self.gateway = Gateway(lab.folder, self.near.path, "gateway", ("--socket", self.served.control), OURS)
        lab.keep(self.gateway)
        words = [sys.executable, os.path.join(HERE, "frr", "speaker.py"), OURS, REFLECTOR]
        how = {"stdin": subprocess.PIPE, "stdout": subprocess.PIPE, "encoding": "utf-8"}
        self.speaker = lab.start(netns, *words, **how)
        if self.speaker.process.stdout.readline() != "up\n":
            raise Trouble("the speaker's session doesn't stand")
        self.hosts = [Host(lab, 1), Host(lab, 2)]
        for number, host in enumerate(self.hosts, 1):
            host.plug(self.served.port(number))
        if waited(lambda: self.hosts[0].reaches(self.hosts[1]), 20) is None:
            raise Trouble("the hosts don't reach each other")

    def tell(self, lines: List[str]) -> None:
        """Lets the speaker tell routes."""
        self.speaker.process.stdin.write("".join(f"{line}\n" for line in lines))
        self.speaker.process.stdin.flush()

    def foreign(self) -> int:
        """How many adverts of others the edge has in its table."""
        found = re.search(r" foreign ([0-9]+)", " ".join(self.served.ask("1", "counts")))
        return int(found[1]) if found else -1

    def memory(self) -> str:
        """What each has held at most."""
        return "memory at most: " + ", ".join(f"{name} {child.most_memory()} MB" for name, child in self.children().items())

    def processor(self) -> str:
        """The seconds of a processor that each has taken."""
        taken = ", ".join(f"{name} {child.processor():.1f} s" for name, child in self.children().items())
        return f"of a processor: {taken}; load {os.getloadavg()[0]:.1f}"

    def children(self) -> Dict[str, Child]:
        """The programs that are measured, by their names."""
        return {"evpnd serve": self.served.child, "the gateway": self.gateway, "its gobgpd": self.near}


def many(load: Load, count: int, tally: Tally) -> None:
    """So many routes at once, while the hosts ping each other."""
    before = load.foreign()
    pings = Pings(load.hosts[0], [load.hosts[1]], 0.01)
    begun, before_them = time.monotonic(), load.gateway.processor()
    load.tell([f"advert {LEAVES[each % len(LEAVES)]} {VNI} {mac_of(each)} seq 0" for each in range(count)])
    told = time.monotonic() - begun
    came = waited(lambda: load.foreign() >= before + count, LONG)
    tally.see(came is not None, f"{count} routes are in the edge's table {seconds(came)} after the speaker has told them, in {told:.1f} s")
    took = load.gateway.processor() - before_them
    tally.see(took <= ENOUGH * max(1, count / 100000), f"the gateway took {took:.1f} s of a processor for them")
    lost = pings.end()
    tally.see(lost == 0, f"{lost} of {pings.sent} pings through the edge were lost meanwhile; the slowest took {pings.slowest} ms")
    print(f"{load.memory()}; {load.processor()}", flush=True)


def moving(load: Load, count: int, minutes: float, tally: Tally) -> None:
    """Stations move from leaf to leaf, ten a second, while the hosts ping each other."""
    draw, homes, sequences = random.Random(36), [each % len(LEAVES) for each in range(count)], [0] * count
    delays: List[Optional[float]] = []
    pings = Pings(load.hosts[0], [load.hosts[1]], 0.01)
    begun, moves = time.monotonic(), int(60 * RATE * minutes)
    for number in range(moves):
        time.sleep(max(0.0, begun + number / RATE - time.monotonic()))
        place = draw.randrange(count)
        old, homes[place] = homes[place], (homes[place] + 1) % len(LEAVES)
        sequences[place] += 1
        new, mac = LEAVES[homes[place]], mac_of(place)
        load.tell([f"advert {new} {VNI} {mac} seq {sequences[place]}", f"withdraw {LEAVES[old]} {VNI} {mac}"])
        if number % LOOKED == 0:
            delays.append(waited(lambda: load.served.ask("1", "owner", str(VNI), mac)[:1] == [f"1 owner {new}"], 20))  # noqa: B023
    print_delays(delays, moves, time.monotonic() - begun)
    tally.see(None not in delays, "each move that was looked at was known in time")
    print(f"{load.memory()}, before a report", flush=True)
    wanted = {mac_of(place): LEAVES[home] for place, home in enumerate(homes)}
    found = waited(lambda: owners_of(load, wanted) == wanted, 60)
    tally.see(found is not None, f"after {moves} moves the edge names the owner of each of {count} stations")
    lost = pings.end()
    tally.see(lost == 0, f"{lost} of {pings.sent} pings through the edge were lost meanwhile; the slowest took {pings.slowest} ms")
    print(load.memory(), flush=True)


def owners_of(load: Load, wanted: Dict[str, str]) -> Dict[str, str]:
    """The edge's owners of these stations."""
    return {mac: owner for mac, owner in load.served.owners().items() if mac in wanted}


def print_delays(delays: List[Optional[float]], moves: int, took: float) -> None:
    """How long moves took from the speaker to the edge's table, a question by evpndctl included."""
    known = sorted(each for each in delays if each is not None)
    half, most = known[len(known) // 2], known[-1]
    print(f"{moves} moves in {took:.0f} s: known to the edge after {half:.2f} s in the middle, {most:.2f} s at most, of {len(known)} looks")


def main(words: List[str]) -> int:
    """Both; the last line is `ok` where all passed."""
    count, minutes = int(words[0]), float(words[1])
    tally = Tally()
    with Lab() as lab:
        load = Load(lab)
        many(load, count, tally)
        if minutes > 0:
            moving(load, count, minutes, tally)
        print(f"evpnd serve has told: {load.served.noted() or 'nothing'}", flush=True)
    print(f"{tally.passed} passed, {tally.failed} failed")
    if not tally.failed:
        print("ok")
    return 1 if tally.failed else 0


if __name__ == "__main__":
    try:
        sys.exit(main(sys.argv[1:]))
    except Trouble as trouble:
        print(f"FAILED: {trouble}")
        sys.exit(1)
