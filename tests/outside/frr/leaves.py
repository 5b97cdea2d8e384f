#!/usr/bin/env python3
"""Leaves with access ports and real frames, beside FRR of one or several versions. As root, with iproute2:

    leaves.py [--keep FOLDER] [--tools FOLDER [--no-empty]] [--moves AUDITS] [ROOT ..]

A ROOT is a folder with a Debian that has frr: `debootstrap --variant=minbase --include=iproute2 SUITE ROOT`, and then
`chroot ROOT apt-get install --no-install-recommends frr`. With none, this host's FRR. On 2026-11-28 bullseye had FRR 7.5.1, bookworm
8.4.4, trixie 10.3 and sid 10.7.1. With `--include=frr` Debian 12's debootstrap fails for trixie and sid: systemd isn't configured.
Each case is what an operator has met; with --tools another commit's tools get the same questions (they find evpnd on the path),
and --no-empty leaves out the VNI without MACs, at which the tools of 04daf64 end before all else.
--moves plays 20 moves a second of 5,000 MACs while the audits run. Not part of the gate.
"""

import argparse
import json
import os
import random
import signal
import subprocess
import sys
import tempfile
import threading
import time
from typing import Callable, Dict, List, Optional, Tuple

import edge as lab
from edge import Edge, Trouble
from histories import Tally, said

VNIS = (5001, 5002, 5003)
HOME, FAR, PLANTED, STICKY, SHARED = (f"02:00:00:00:00:{last}" for last in ("aa", "01", "02", "55", "e1"))
OWN = lab.OWN
KEPT: Dict[str, Optional[str]] = {"folder": None}


def start_of(edge: Edge) -> List[str]:
    """Two other edges, and stations behind them; VNI 5003 stays empty."""
    address = f"198.18.{5001 % 250}.7"
    lines = [f"advert 10.0.0.{pe} {vni} flood" for pe in (1, 2) for vni in (5001, 5002)]
    lines += [f"advert 10.0.0.1 5001 {FAR} seq 0", f"advert 10.0.0.1 5001 {PLANTED} ip {address} seq 0", f"advert 10.0.0.2 5002 {FAR} seq 0"]
    return lines


def audited(edge: Edge, *words: str) -> Tuple[int, str]:
    """The audit of the edge, there."""
    return said(*edge.audit_words(*words))


def agrees(edge: Edge, tally: Tally, what: str) -> str:
    """Sees that the audit finds nothing."""
    status, text = audited(edge)
    tally.see(status == 0, f"{what}: all agree" + ("" if status == 0 else f"\n{text}"))
    return text


def finds(edge: Edge, tally: Tally, words: str, what: str) -> str:
    """Sees that the audit tells of something; gives what it prints."""
    status, text = audited(edge)
    tally.see(status == 1 and words in text, what + ("" if words in text else f"\nstatus {status}: {text}"))
    return text


def mends(edge: Edge, tally: Tally, text: str) -> None:
    """Runs what the audit says that mends, and sees that it did."""
    commands = [line.strip()[len("mend: ") :] for line in text.splitlines() if line.strip().startswith("mend: ")]
    for command in commands:
        edge.within("sh", "-c", command)
    status, after = audited(edge)
    tally.see(bool(commands) and status == 0, f"mended by: {'; '.join(commands)}" + ("" if status == 0 else f"\n{after}"))


def keep(edge: Edge, name: str) -> None:
    """Keeps a view, if that is wanted."""
    if KEPT["folder"]:
        edge.save(os.path.join(KEPT["folder"], edge.version(), name))


def as_frames(edge: Edge, tally: Tally, vni: int, mac: str, place: str) -> None:
    """Sees where a real frame goes."""
    found = edge.goes(vni, mac)
    tally.see(found == place, f"a real frame to {mac} goes to {place}" + ("" if found == place else f", not {found}"))


# ---- the cases ------------------------------------------------------------------------------------------------------


def moves_home(edge: Edge, tally: Tally) -> None:
    """A station is heard here, moves away, and comes home."""
    edge.heard(5001, HOME)
    time.sleep(1)
    edge.tell(start_of(edge))
    as_frames(edge, tally, 5001, HOME, "local")
    agrees(edge, tally, "a station at the access port, three VNIs of which one is empty")
    keep(edge, "start")
    edge.tell([f"advert 10.0.0.2 5001 {HOME} seq 1"])
    time.sleep(1)
    as_frames(edge, tally, 5001, HOME, "10.0.0.2")
    agrees(edge, tally, "it has moved away")
    edge.heard(5001, HOME)
    time.sleep(2)
    as_frames(edge, tally, 5001, HOME, "local")
    agrees(edge, tally, "it has come home, while the VXLAN device still holds the other edge")
    keep(edge, "home")


def is_sticky(edge: Edge, tally: Tally) -> None:
    """A static station of the access port isn't taken over."""
    edge.within("bridge", "fdb", "add", STICKY, "dev", "acc5001", "master", "static", "sticky")
    time.sleep(1)
    edge.tell([*start_of(edge), f"advert 10.0.0.2 5001 {STICKY} seq 9"])
    time.sleep(1)
    as_frames(edge, tally, 5001, STICKY, "local")
    agrees(edge, tally, "a sticky station, and another edge's advert of it with a higher sequence")
    keep(edge, "sticky")


def finds_unless(edge: Edge, tally: Tally, there: Callable[[], bool], words: str, what: str) -> None:
    """Sees that what was deleted is told and mended, or that zebra has put it back and the audit agrees."""
    time.sleep(1)
    if there():
        agrees(edge, tally, f"{what}, and zebra has put it back")
    else:
        mends(edge, tally, finds(edge, tally, words, what))


def has_entry(edge: Edge, mac: str, *words: str) -> bool:
    """Whether the kernel has an entry of a MAC at the VXLAN device with some words."""
    lines = edge.within("bridge", "fdb", "show", "dev", "vxlan5001").splitlines()
    return any(line.startswith(mac) and all(word in line for word in words) for line in lines)


def has_planted_entries(edge: Edge, tally: Tally) -> None:
    """Entries of the kernel are changed by hand: each is told, and what is said to mend it does."""
    edge.tell(start_of(edge))
    time.sleep(1)
    device = ["dev", "vxlan5001"]
    edge.within("bridge", "fdb", "replace", FAR, *device, "dst", "10.0.0.2", "self")
    as_frames(edge, tally, 5001, FAR, "10.0.0.2")
    line = f"wrong 5001 {FAR} owner 10.0.0.1 (the only advert); bgpd 10.0.0.1, zebra 10.0.0.1, kernel 10.0.0.2;"
    text = finds(edge, tally, line, "another edge in the VXLAN device, by hand")
    keep(edge, "planted")
    tally.see("mend:" not in text and "see who made the entry" in text, "no command touches what zebra didn't make")
    edge.within("bridge", "fdb", "del", FAR, *device, "dst", "10.0.0.2", "self")  # replace would keep it without zebra's mark
    edge.within("bridge", "fdb", "replace", FAR, *device, "dst", "10.0.0.2", "self", "extern_learn")
    mends(edge, tally, finds(edge, tally, line, "another edge in the VXLAN device, like zebra's"))
    as_frames(edge, tally, 5001, FAR, "10.0.0.1")
    edge.within("bridge", "fdb", "del", FAR, *device, "master")
    finds_unless(edge, tally, lambda: has_entry(edge, FAR, "master"), f"missing 5001 {FAR}", "the bridge's entry deleted")
    edge.within("bridge", "fdb", "del", FAR, *device, "dst", "10.0.0.1", "self")
    finds_unless(edge, tally, lambda: has_entry(edge, FAR, "dst"), f"missing 5001 {FAR}", "the VXLAN device's entry deleted")
    edge.within("bridge", "fdb", "replace", "02:00:00:00:66:66", *device, "dst", "10.0.0.1", "self", "extern_learn")
    edge.within("bridge", "fdb", "replace", "02:00:00:00:66:66", *device, "master", "extern_learn")
    text = finds(edge, tally, "extra 5001 02:00:00:00:66:66 owner none", "an entry that nobody advertises")
    mends(edge, tally, text)


def has_planted_floods(edge: Edge, tally: Tally) -> None:
    """A flood entry is deleted, a foreign one added, flooding switched off; a neighbour is deleted, then wrong."""
    edge.tell(start_of(edge))
    time.sleep(1)
    zero, nobody = "00:00:00:00:00:00", "02:00:00:00:77:77"
    as_frames(edge, tally, 5001, nobody, "10.0.0.1+10.0.0.2+local")
    edge.within("bridge", "fdb", "del", zero, "dev", "vxlan5001", "dst", "10.0.0.2", "self")
    there = lambda: has_entry(edge, zero, "10.0.0.2")  # noqa: E731
    finds_unless(edge, tally, there, "flood missing 5001 10.0.0.2", "a flood entry deleted")
    edge.within("bridge", "fdb", "append", zero, "dev", "vxlan5001", "dst", "10.0.0.66", "self", "permanent")
    as_frames(edge, tally, 5001, nobody, "10.0.0.1+10.0.0.2+10.0.0.66+local")
    text = finds(edge, tally, "flood extra 5001 10.0.0.66", "a foreign flood entry added")
    keep(edge, "floods")
    tally.see("mend:" not in text and "see who made the entry" in text, "no command deletes a flood entry")
    edge.within("bridge", "fdb", "del", zero, "dev", "vxlan5001", "dst", "10.0.0.66", "self")
    as_frames(edge, tally, 5001, nobody, "10.0.0.1+10.0.0.2+local")
    address = f"198.18.{5001 % 250}.7"
    edge.within("ip", "neigh", "del", address, "dev", "br5001")
    there = lambda: PLANTED in edge.within("ip", "neigh", "show", address)  # noqa: E731
    finds_unless(edge, tally, there, f"neighbour missing 5001 {address}", "an ARP entry deleted")
    edge.within("ip", "neigh", "replace", address, "lladdr", FAR, "dev", "br5001", "nud", "noarp", "extern_learn")
    text = finds(edge, tally, f"neighbour wrong 5001 {address}: by the routes {PLANTED}, in the kernel {FAR}", "a wrong ARP entry")
    keep(edge, "neighbour")
    mends(edge, tally, text)
    edge.shell_lines("configure terminal", "router bgp 65000", "address-family l2vpn evpn", "flooding disable")
    time.sleep(1)
    finds(edge, tally, "bgpd doesn't flood by ingress replication", "flooding switched off in bgpd")
    keep(edge, "noflood")


def has_lost_flood(edge: Edge, tally: Tally) -> None:
    """A flood entry is lost while zebra sleeps, which puts it back otherwise: the mend that is printed for it brings the frames back."""
    zero, nobody = "00:00:00:00:00:00", "02:00:00:00:77:77"
    edge.tell(start_of(edge))
    time.sleep(1)
    agrees(edge, tally, "at the beginning")
    mend = mend_of_lost_flood(edge, zero, "10.0.0.2")
    tally.see(mend.startswith("bridge fdb append "), f"flood missing has a mend: {mend}")
    edge.daemons["zebra"].send_signal(signal.SIGSTOP)
    try:
        edge.within("bridge", "fdb", "del", zero, "dev", "vxlan5001", "dst", "10.0.0.2", "self")
        as_frames(edge, tally, 5001, nobody, "10.0.0.1+local")
        edge.within("sh", "-c", mend)
        as_frames(edge, tally, 5001, nobody, "10.0.0.1+10.0.0.2+local")
    finally:
        edge.daemons["zebra"].send_signal(signal.SIGCONT)
    time.sleep(2)
    as_frames(edge, tally, 5001, nobody, "10.0.0.1+10.0.0.2+local")
    agrees(edge, tally, "zebra awake again")


def mend_of_lost_flood(edge: Edge, mac: str, place: str) -> str:
    """The mend that the audit prints for this edge without one entry of the kernel."""
    with tempfile.TemporaryDirectory() as folder:
        edge.save(folder)
        path = os.path.join(folder, "fdb.json")
        with open(path, encoding="utf-8") as stream:
            entries = json.load(stream)
        with open(path, "w", encoding="utf-8") as out:
            json.dump([each for each in entries if (each["mac"], each["ifname"], each.get("dst")) != (mac, "vxlan5001", place)], out)
        _, text = said(sys.executable, os.path.join(lab.TOOLS, "evpnd_audit.py"), "--vni", "5001", folder)
    lines = text.split(f"flood missing 5001 {place}")[-1].splitlines()
    return next((line.strip()[len("mend: ") :] for line in lines if line.strip().startswith("mend: ")), "")


def is_not_told(edge: Edge, tally: Tally) -> None:
    """A MAC-only route that another router shows and this one doesn't: that cause, not the forwarding plane's."""
    edge.tell([*start_of(edge), f"advert 10.0.0.1 5001 {SHARED} seq 3"])
    with tempfile.TemporaryDirectory() as folder:
        here, there = os.path.join(folder, "here"), os.path.join(folder, "there")
        edge.save(here)
        keep(edge, "untold")
        edge.tell([f"advert 10.0.0.2 5001 {SHARED} static seq 0"])
        edge.save(there)
        keep(edge, "told")
        tool = [sys.executable, os.path.join(lab.TOOLS, "evpnd_audit.py"), "--vni", "5001", "--mac", SHARED]
        status, text = said(*tool, here, there)
    line = f"{here}: wrong 5001 {SHARED} owner 10.0.0.2 (static, against dynamic 3 of 10.0.0.1); bgpd 10.0.0.1, zebra 10.0.0.1, kernel 10.0.0.1;"
    found = [each for each in text.splitlines() if each.startswith(line)]
    tally.see(status == 1 and len(found) == 1 and "this router shows no route of the owner" in found[0], "a route that it wasn't told" + ("" if found else f"\n{text}"))


def is_gateway(edge: Edge, tally: Tally) -> None:
    """The bridge's own address, set by hand, is advertised: it is local, though no port learnt it."""
    edge.within("ip", "link", "set", "br5001", "address", "02:00:00:00:fe:01")
    edge.tell(start_of(edge))
    for words in ("advertise-svi-ip", "no advertise-svi-ip", "advertise-default-gw"):
        edge.shell_lines("configure terminal", "router bgp 65000", "address-family l2vpn evpn", words)
        time.sleep(2)
        agrees(edge, tally, words)


def is_multihomed(edge: Edge, tally: Tally) -> None:
    """All stations have an ESI: nothing is judged, and that isn't agreement."""
    lines = [f"advert 10.0.0.1 {vni} flood" for vni in VNIS] + [f"esi advert 10.0.0.1 5001 02:00:00:00:03:{last:02x} seq 0" for last in range(251)]
    for line in lines:
        edge.speaker.stdin.write(line + "\n")
    edge.speaker.stdin.flush()
    edge.wait_for(lambda: "02:00:00:00:03:fa" in edge.shell("show bgp l2vpn evpn route json"), "the routes with an ESI")
    time.sleep(1)
    status, text = audited(edge)
    tally.see(status == 4 and "251 not judged" in text, "251 MACs with an ESI aren't judged, and the status says so" + ("" if status == 4 else f"\n{status} {text}"))
    status, text = audited(edge, "--nagios", "--again", "0")
    tally.see(status == 1 and text.startswith("EVPN WARNING"), "Nagios is told a status of its own")
    keep(edge, "multihomed")


def loses_session(edge: Edge, tally: Tally) -> None:
    """The session ends: only a route reflector's routes tell that this leaf has lost its routes."""
    edge.heard(5001, HOME)
    edge.tell(start_of(edge))
    time.sleep(1)
    with tempfile.TemporaryDirectory() as reflector:
        edge.save(reflector)
        status, text = audited(edge, "--routes", reflector)
        tally.see(status == 0, "with the routes of a route reflector: all agree" + ("" if status == 0 else text))
        edge.speaker.terminate()
        edge.wait_for(lambda: FAR not in edge.shell("show bgp l2vpn evpn route json"), "the end of the session")
        time.sleep(1)
        text = finds(edge, tally, "cause: the session with 192.168.77.2 is ", "the session is lost, and that is told")
        tally.see(text.count("\n") == 1 + len(VNIS), "by its own routes the leaf agrees")
        keep(edge, "lost")
        status, text = audited(edge, "--routes", reflector)
        tally.see(status == 1 and f"missing 5001 {FAR}" in text and "shows no route of the owner" in text, "by the route reflector's it misses MACs")
    edge.daemons["bgpd"].terminate()
    edge.daemons["bgpd"].wait()
    status, text = audited(edge)
    tally.see(status == 2 and "bgpd is not running" in text, f"without bgpd the cause is named: {text.strip()}")


CASES: Tuple[Tuple[str, Callable[[Edge, Tally], None]], ...] = (
    ("home", moves_home), ("sticky", is_sticky), ("entries", has_planted_entries), ("floods", has_planted_floods), ("lostflood", has_lost_flood),
    ("untold", is_not_told), ("gateway", is_gateway), ("esi", is_multihomed), ("lost", loses_session),
)


# ---- while stations move --------------------------------------------------------------------------------------------------


def keep_moving(edge: Edge, macs: int, ended: threading.Event) -> None:
    """20 moves a second, each with the next sequence number of its MAC."""
    numbers, sequences = random.Random(20), [0] * macs
    while not ended.wait(0.05):
        place = numbers.randrange(macs)
        sequences[place] += 1
        mac = f"02:00:00:01:{place >> 8:02x}:{place & 255:02x}"
        edge.speaker.stdin.write(f"advert 10.0.0.{1 + sequences[place] % 6} 5001 {mac} seq {sequences[place]}\n")
        edge.speaker.stdin.flush()


def while_moving(edge: Edge, tally: Tally, audits: int, again: str) -> None:
    """Audits while stations move: none cries wolf, and a planted fault is found."""
    macs = 5000
    edge.tell([f"advert 10.0.0.{pe} 5001 flood" for pe in range(1, 7)])
    edge.tell([f"advert 10.0.0.1 5001 02:00:00:01:{place >> 8:02x}:{place & 255:02x} seq 0" for place in range(macs)])
    ended = threading.Event()
    mover = threading.Thread(target=keep_moving, args=(edge, macs, ended))
    mover.start()
    try:
        once = sum(audited(edge)[0] != 0 for _ in range(6))
        alarms = 0
        for turn in range(audits):
            status, text = audited(edge, "--brief", "--again", again)
            alarms += status != 0
            if status or turn % 10 == 9:
                print(f"audit {turn + 1}: {alarms} alarms {text if status else ''}", flush=True)
        tally.see(alarms == 0, f"{alarms} alarms in {audits} audits of two looks ({once} of 6 of one look)")
        edge.tell([f"advert 10.0.0.1 5001 {FAR} seq 0"])
        edge.within("bridge", "fdb", "replace", FAR, "dev", "vxlan5001", "dst", "10.0.0.2", "self")
        status, text = audited(edge, "--brief", "--again", again)
        tally.see(status == 1 and f"wrong 5001 {FAR}" in text, "a planted fault is found meanwhile")
    finally:
        ended.set()
        mover.join()


def main() -> int:
    """Plays all cases to leaves of each version."""
    words = argparse.ArgumentParser(description=__doc__, formatter_class=argparse.RawDescriptionHelpFormatter)
    words.add_argument("--keep", metavar="FOLDER")
    words.add_argument("--tools", metavar="FOLDER")
    words.add_argument("--no-empty", action="store_true")
    words.add_argument("--moves", type=int, default=0, metavar="AUDITS")
    words.add_argument("--again", default="2", metavar="SECONDS")
    words.add_argument("--only", metavar="CASE")
    words.add_argument("roots", nargs="*", metavar="ROOT")
    arguments = words.parse_args()
    KEPT["folder"] = arguments.keep
    lab.TOOLS = arguments.tools or lab.TOOLS
    tally = Tally()
    cases = [case for case in CASES if arguments.only in (None, case[0])]
    if arguments.moves:
        cases = [("moves", lambda edge, tally: while_moving(edge, tally, arguments.moves, arguments.again))]
    vnis = VNIS[: 1 if arguments.moves else 2 if arguments.no_empty else 3]
    for root in arguments.roots or [""]:
        for name, case in cases:
            try:
                with Edge(name, root, vnis, access=True) as edge:
                    print(f"-- {name}, FRR {edge.version()}", flush=True)
                    case(edge, tally)
            except (Trouble, subprocess.SubprocessError, OSError) as trouble:
                tally.see(False, f"{name}: {trouble}")
    print(f"{tally.passed} passed, {tally.failed} failed")
    return 1 if tally.failed else 0


if __name__ == "__main__":
    sys.exit(main())
