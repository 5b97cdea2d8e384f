#!/usr/bin/env python3
"""A fabric of four leaves, and its audits while stations move. As root, with frr and iproute2:

    fabric_leaves.py [--audits N] [--live] [ROOT]

Four edges (edge.py), whose speakers are a route reflector together: each UPDATE of a leaf is sent to the other three as it is. A
station moves by a real frame at another leaf's access port. `evpnd_audit.py fabric` queries all four in their namespaces (--run)
while stations move 20 times a second. No audit may find anything; then a planted fault, a leaf that lacks routes and a leaf that
doesn't answer each have to be found. With --live the truth is what a GoBGP hears of all leaves, in the records that
`evpnd_bgp.py --watch` writes all the time (/usr/bin/python3 with what bgp_needs.sh names). Not part of the gate.
"""

import argparse
import contextlib
import os
import random
import shutil
import subprocess
import sys
import tempfile
import threading
import time
from typing import List, Tuple

import edge as lab
from edge import Edge, Trouble, run
from histories import Tally

sys.path.append(os.path.join(lab.HERE, ".."))
LEAVES, MACS, VNI = 4, 400, 5001
RATE = 20.0
PROGRAM = "/run/evpnd-lab-{}"  # runs a command of a leaf


def address_of(leaf: int) -> str:
    """The VXLAN address of a leaf."""
    return f"10.0.0.{101 + leaf}"


class Leaf(Edge):
    """A leaf with its own address."""

    def __init__(self, number: int, root: str, has_hub: bool) -> None:
        super().__init__(f"leaf{number}", root, (VNI,), access=True)
        self.number, self.address = number, address_of(number)
        distinguisher = f"  vni {VNI}\n   rd {self.address}:{VNI}\n  exit-vni\n"  # the speaker withdraws a route of this one
        lines = lab.BGPD_LINES.replace("  advertise-all-vni\n", f"  advertise-all-vni\n{distinguisher}")
        self.hub = f"192.168.{80 + number}"
        for place, words in ((" address-family", "remote-as 65000"), ("  advertise-all-vni", "activate")) if has_hub else ():
            lines = lines.replace(place, f" neighbor {self.hub}.2 {words}\n{place}", 1)
        self.bgpd_lines = lines.replace(lab.OWN, self.address)
        self.speaker_words, self.speaks = ["reflect"], threading.Lock()

    def __enter__(self) -> "Leaf":
        super().__enter__()
        words = [sys.executable, os.path.join(lab.HERE, "frames.py"), "stations", f"host{VNI}"]
        self.stations = self.start(self.inside, words, stdin=subprocess.PIPE, encoding="utf-8")
        self.children.append(self.stations)
        # FRR 10.3 leaves entries of stations that age (docs/audit.md), which is no false alarm; here none does
        self.within("ip", "link", "set", f"br{VNI}", "type", "bridge", "ageing_time", "360000")
        return self

    def hear(self, macs: List[str]) -> None:
        """Real frames of stations at the access port."""
        self.stations.stdin.write("".join(f"{mac}\n" for mac in macs))
        self.stations.stdin.flush()

    def say(self, lines: List[str]) -> None:
        """Tells routes, and waits for nothing."""
        with self.speaks:
            self.speaker.stdin.write("".join(f"{line}\n" for line in lines))
            self.speaker.stdin.flush()

    def reflect(self, others: List["Leaf"]) -> None:
        """Sends each UPDATE of this leaf to the others, until its session ends."""
        for line in self.speaker.stdout:
            kind, _, octets = line.strip().partition(" ")
            for other in others if kind == "update" else ():
                with contextlib.suppress(OSError, ValueError):  # its speaker may have ended
                    other.say([f"raw {octets}"])


class Hub:
    """A GoBGP with a session to each leaf, and the gateway that writes what it hears; use it by `with`."""

    def __init__(self, leaves: List[Leaf]) -> None:
        self.leaves, self.name, self.children = leaves, f"evpnd-{os.getpid()}-hub", []
        self.folder = tempfile.mkdtemp(prefix="evpnd-hub-")
        self.records = os.path.join(self.folder, "records")

    def __enter__(self) -> "Hub":
        """Joins the leaves, and waits until the records have a route of each."""
        import bgp_fabric  # pylint: disable=import-outside-toplevel

        run("ip", "netns", "add", self.name)
        run("ip", "-n", self.name, "link", "set", "lo", "up")
        ends = []
        for leaf in self.leaves:
            run("ip", "link", "add", "hub", "netns", leaf.inside, "type", "veth", "peer", "name", f"hub{leaf.number}", "netns", self.name)
            for space, device, last in ((leaf.inside, "hub", 1), (self.name, f"hub{leaf.number}", 2)):
                run("ip", "-n", space, "addr", "add", f"{leaf.hub}.{last}/24", "dev", device)
                run("ip", "-n", space, "link", "set", device, "up")
            ends.append(bgp_fabric.NEIGHBOUR.format(f"{leaf.hub}.1", 65000, f"{leaf.hub}.2"))
        addresses = ", ".join(f'"{leaf.hub}.2"' for leaf in self.leaves)
        text = f'[global.config]\n  as = 65000\n  router-id = "192.0.2.9"\n  local-address-list = [{addresses}]\n'
        daemon = bgp_fabric.Gobgpd(["ip", "netns", "exec", self.name], self.folder, "hub", text + "".join(ends))
        self.children.append(daemon.process)
        words = ["/usr/bin/python3", "-B", os.path.join(lab.TOOLS, "evpnd_bgp.py"), "--gobgp", f"unix:{daemon.path}", "--watch"]
        with open(self.records, "wb") as out:
            self.children.append(subprocess.Popen(words, stdout=out))
        return self

    def __exit__(self, *_cause: object) -> None:
        for child in reversed(self.children):
            child.terminate()
            child.wait()
        subprocess.run(["ip", "netns", "del", self.name], capture_output=True, check=False)
        shutil.rmtree(self.folder, ignore_errors=True)


def station(place: int) -> str:
    """The MAC of a station."""
    return f"02:00:00:02:{place >> 8:02x}:{place & 255:02x}"


class Fabric:
    """The leaves, and where each station is."""

    def __init__(self, leaves: List[Leaf], *truth: str) -> None:
        self.leaves, self.homes, self.moves, self.truth = leaves, [place % LEAVES for place in range(MACS)], 0, truth

    def begin(self) -> None:
        """Each station is heard at its leaf, and the leaves hear each other."""
        for leaf in self.leaves:
            others = [each for each in self.leaves if each is not leaf]
            threading.Thread(target=leaf.reflect, args=(others,), daemon=True).start()
        for leaf in self.leaves:
            leaf.hear([station(place) for place, home in enumerate(self.homes) if home == leaf.number])

    def keep_moving(self, ended: threading.Event) -> None:
        """Stations move until that ends."""
        numbers = random.Random(4)
        while not ended.wait(1 / RATE):
            place = numbers.randrange(MACS)
            self.homes[place] = (self.homes[place] + numbers.randint(1, LEAVES - 1)) % LEAVES
            self.leaves[self.homes[place]].hear([station(place)])
            self.moves += 1


def audited(fabric: Fabric, *words: str) -> Tuple[int, str]:
    """The audit of the fabric, with its status."""
    names = ",".join(leaf.inside for leaf in fabric.leaves)
    tool = [sys.executable, os.path.join(lab.TOOLS, "evpnd_audit.py"), "fabric", names, "--again", "4", *fabric.truth, *words]
    how = {"capture_output": True, "encoding": "utf-8", "check": False}
    done = subprocess.run([*tool, "--run", PROGRAM.format("{leaf}")], **how)
    return done.returncode, done.stdout + done.stderr


def write_within(leaf: Leaf, path: str) -> None:
    """Writes the program that runs a command of a leaf in its namespace; vtysh runs in zebra's namespaces and root."""
    there = f"exec nsenter --net=/run/netns/{leaf.inside}"
    shell = f"exec nsenter -t {leaf.daemons['zebra'].pid} --net --mount --root vtysh --vty_socket {leaf.frr_folder}"
    with open(path, "w", encoding="utf-8") as out:
        out.write(f'#!/bin/sh\n[ "$1" = vtysh ] && shift && {shell} "$@"\n{there} "$@"\n')
    os.chmod(path, 0o755)


def main() -> int:
    """Plays the fabric."""
    words = argparse.ArgumentParser(description=__doc__, formatter_class=argparse.RawDescriptionHelpFormatter)
    words.add_argument("--audits", type=int, default=10, metavar="N")
    words.add_argument("--live", action="store_true")
    words.add_argument("root", nargs="?", default="", metavar="ROOT")
    arguments = words.parse_args()
    tally = Tally()
    with contextlib.ExitStack() as stack:
        try:
            leaves = [stack.enter_context(Leaf(number, arguments.root, arguments.live)) for number in range(LEAVES)]
            for leaf in leaves:
                path = PROGRAM.format(leaf.inside)
                stack.callback(os.remove, path)
                write_within(leaf, path)
            print(f"-- FRR {leaves[0].version()}", flush=True)
            truth = ("--routes", stack.enter_context(Hub(leaves)).records) if arguments.live else ()
            play(Fabric(leaves, *truth), tally, arguments.audits)
        except (Trouble, subprocess.SubprocessError, OSError) as trouble:
            tally.see(False, str(trouble))
    print(f"{tally.passed} passed, {tally.failed} failed")
    return 1 if tally.failed else 0


def play(fabric: Fabric, tally: Tally, audits: int) -> None:
    """Audits at rest, while stations move, and with planted faults."""
    fabric.begin()
    time.sleep(8)
    status, text = audited(fabric)
    tally.see(status == 0, f"at rest all agree: {text if status else text.strip()}")
    ended = threading.Event()
    mover = threading.Thread(target=fabric.keep_moving, args=(ended,))
    mover.start()
    begun, alarms = time.monotonic(), 0
    try:
        for turn in range(audits):
            status, text = audited(fabric)
            alarms += status != 0
            print(f"audit {turn + 1}: {alarms} alarms {text if status else ''}", flush=True)
        rate = fabric.moves / (time.monotonic() - begun)
        tally.see(alarms == 0, f"{alarms} alarms in {audits} audits at {rate:.0f} moves a second")
        first, second = fabric.leaves[:2]
        mac = "02:00:00:00:00:77"
        first.hear([mac])
        time.sleep(3)
        wrong = ["dst", fabric.leaves[2].address, "self", "extern_learn"]
        second.within("bridge", "fdb", "replace", mac, "dev", f"vxlan{VNI}", *wrong)
        status, text = audited(fabric)
        tally.see(status == 1 and f"{VNI} {mac} owner {first.address}" in text, f"a planted fault is found meanwhile\n{text}")
        right = ["dst", first.address, "self", "extern_learn"]
        second.within("bridge", "fdb", "replace", mac, "dev", f"vxlan{VNI}", *right)
        second.say([f"withdraw {first.address} {VNI} {mac}"])
        time.sleep(2)
        status, text = audited(fabric)
        tally.see(status == 1 and f"{second.inside}: lacks the routes of {first.address}: 1 station" in text, f"a leaf that lacks a route\n{text}")
        ended.set()
        mover.join()
        second.daemons["bgpd"].terminate()
        second.daemons["bgpd"].wait()
        status, text = audited(fabric)
        tally.see(f"{second.inside}: doesn't answer: " in text and "4 leaves, 3 answered" in text, f"a leaf that doesn't answer\n{text}")
    finally:
        ended.set()
        mover.join()


if __name__ == "__main__":
    sys.exit(main())
