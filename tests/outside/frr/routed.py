#!/usr/bin/env python3
"""Leaves of a routed fabric, and what keeps frames from arriving, beside FRR of one or several versions. As root, with iproute2:

    routed.py [--keep FOLDER] [--only CASE] [ROOT ..]

A ROOT is a folder with a Debian that has frr (see leaves.py); with none, this host's FRR. The L3VNI is of the default VRF:
no kernel with VRFs is needed. Each `mend:` that the audit prints is run as printed, with frames before and after; --keep
keeps each case's texts as views, which tests/tools/test_audit_routed.py reads. Not part of the gate.
"""

import argparse
import json
import os
import shutil
import signal
import subprocess
import sys
import time
from typing import Callable, Dict, List, Optional, Tuple

import edge as lab
from edge import Edge, Trouble, run
from histories import Tally, said
from leaves import audited

L3VNI, LOW_L3VNI = 6000, 4000
VNIS = (5001, 5002)
HOME, FAR, OTHER, ROUTER, OTHER_ROUTER = (f"02:00:00:00:{last}" for last in ("00:aa", "00:01", "00:02", "fe:01", "fe:02"))
FAR_IP, OTHER_IP = f"198.18.{5001 % 250}.7", f"198.18.{5002 % 250}.7"
KEPT: Dict[str, Optional[str]] = {"folder": None}


def start_of(routed: int) -> List[str]:
    """Two other edges with a router's MAC each, and a station with an address behind each."""
    lines = [f"advert 10.0.0.{pe} {vni} flood" for pe in (1, 2) for vni in VNIS]
    for pe, vni, mac, ip, router in ((1, 5001, FAR, FAR_IP, ROUTER), (2, 5002, OTHER, OTHER_IP, OTHER_ROUTER)):
        targets = f"target 65000:{vni} target 65000:{routed}"
        lines.append(f"router {router} {targets} advert 10.0.0.{pe} {vni} {mac} ip {ip} seq 0 label2 {routed}")
    return lines


def keep(edge: Edge, name: str) -> None:
    """Keeps a view, if that is wanted."""
    if KEPT["folder"] and name:
        edge.save(os.path.join(KEPT["folder"], edge.version(), name))


def agrees(edge: Edge, tally: Tally, name: str, what: str) -> None:
    """Keeps the view, and sees that the audit finds nothing."""
    time.sleep(1.5)
    keep(edge, name)
    status, text = audited(edge)
    tally.see(status == 0, f"{what}: all agree" + ("" if status == 0 else f"\n{text}"))


def finds(edge: Edge, tally: Tally, name: str, words: str, what: str) -> str:
    """Keeps the view, and sees that the audit tells of something; gives what it prints."""
    time.sleep(1.5)
    keep(edge, name)
    status, text = audited(edge)
    tally.see(status == 1 and words in text, what + ("" if status == 1 and words in text else f"\nstatus {status}: {text}"))
    return text


def run_mends(edge: Edge, text: str) -> List[str]:
    """Runs each command that the audit prints as a mend, as printed; returns the commands."""
    commands = [line.strip()[len("mend: ") :] for line in text.splitlines() if line.strip().startswith("mend: ")]
    for command in commands:
        edge.within("sh", "-c", command)
    return commands


def mends(edge: Edge, tally: Tally, text: str) -> None:
    """Runs what the audit says that mends, and sees that it did; what has no mend has to say what to look at."""
    commands = run_mends(edge, text)
    status, after = audited(edge)
    tally.see(bool(commands) and status == 0, f"mended by: {'; '.join(commands)}" + ("" if status == 0 else f"\n{after}"))


def has_no_mend(tally: Tally, text: str) -> None:
    """Sees that nothing is said to mend it."""
    tally.see("mend:" not in text, "no command is printed" + ("" if "mend:" not in text else f"\n{text}"))


def goes(edge: Edge, tally: Tally, mac: str, vni: int, place: str) -> None:
    """Sees where a real frame goes."""
    found = edge.goes(vni, mac)
    tally.see(found == place, f"a real frame to {mac} of VNI {vni} goes to {place}" + ("" if found == place else f", not {found}"))


def routes(edge: Edge, tally: Tally, vni: int, where: str = "") -> None:
    """Sees that routed datagrams leave to the right edge, with the L3VNI and the router's MAC."""
    datagrams(edge, tally, FAR_IP, where or f"10.0.0.1 vni {vni} {ROUTER}")


def datagrams(edge: Edge, tally: Tally, address: str, wanted: str) -> None:
    """Sees where datagrams to an address go by the kernel's routes and neighbours."""
    program = os.path.join(lab.HERE, "frames.py")
    found = edge.within(sys.executable, program, "routed", address, "up0").strip()
    leaves = wanted if wanted == "nowhere" else f"out to {wanted}"
    tally.see(found == wanted, f"a datagram to {address} goes {leaves}" + ("" if found == wanted else f", not {found}"))


# ---- L3VNIs -------------------------------------------------------------------------------------------------------


def has_l3vni(edge: Edge, tally: Tally) -> None:
    """Router MACs and next hops: right, changed by hand and mended, deleted, of somebody else."""
    vni, device, bridge = edge.routed, f"vxlan{edge.routed}", f"br{edge.routed}"
    edge.tell(start_of(vni))
    agrees(edge, tally, "l3vni" if vni == L3VNI else "lowl3vni", f"an L3VNI {vni}")
    routes(edge, tally, vni)
    if vni != L3VNI:
        return
    edge.within("bridge", "fdb", "replace", ROUTER, "dev", device, "dst", "10.0.0.2", "self", "extern_learn")
    routes(edge, tally, vni, f"10.0.0.2 vni {vni} {ROUTER}")
    text = finds(edge, tally, "routerwrong", f"router wrong {vni} {ROUTER}", "a router's MAC at another edge")
    mends(edge, tally, text)
    routes(edge, tally, vni)
    edge.within("bridge", "fdb", "del", ROUTER, "dev", device, "dst", "10.0.0.1", "self")
    text = finds(edge, tally, "routergone", f"router missing {vni} {ROUTER}", "a router's MAC deleted")
    mends(edge, tally, text)
    routes(edge, tally, vni)
    edge.within("ip", "neigh", "replace", "10.0.0.1", "lladdr", OTHER_ROUTER, "dev", bridge, "nud", "noarp", "extern_learn", "protocol", "zebra")
    text = finds(edge, tally, "hopwrong", f"next hop wrong {vni} 10.0.0.1", "a next hop with another router's MAC")
    mends(edge, tally, text)
    routes(edge, tally, vni)
    stray = "02:00:00:00:fe:99"
    edge.within("bridge", "fdb", "replace", stray, "dev", device, "dst", "10.0.0.9", "self")
    has_no_mend(tally, finds(edge, tally, "routerforeign", f"router foreign {vni} {stray}", "a router's MAC by hand"))
    edge.within("bridge", "fdb", "del", stray, "dev", device, "dst", "10.0.0.9", "self")
    agrees(edge, tally, "", "it is gone")


def has_low_l3vni(edge: Edge, tally: Tally) -> None:
    """An L3VNI with a lower number than its networks."""
    has_l3vni(edge, tally)


# ---- route targets, other devices, names --------------------------------------------------------------------------


def imports(edge: Edge, tally: Tally) -> None:
    """A route with two local targets counts in both networks; another target is imported as bgpd was told."""
    edge.heard(5001, HOME)
    lines = [*start_of(edge.routed), "target 65000:5001 target 65000:5002 advert 10.0.0.1 5001 02:00:00:00:00:12 seq 0"]
    edge.tell(lines)
    agrees(edge, tally, "twotargets", "a route with two local route targets")
    goes(edge, tally, "02:00:00:00:00:12", 5002, "10.0.0.1")
    edge.shell_lines(
        "configure terminal", "router bgp 65000", "address-family l2vpn evpn", "vni 5002", "route-target import 65000:100"
    )
    edge.tell(["target 65000:100 advert 10.0.0.2 5002 02:00:00:00:00:13 seq 0", "target 65000:100 advert 10.0.0.2 5002 flood"])
    agrees(edge, tally, "import", "another import target")
    goes(edge, tally, "02:00:00:00:00:13", 5002, "10.0.0.2")
    status, text = audited(edge, "--vni", "5003")
    tally.see(status == 2 and "no such VNI" in text, f"a VNI that isn't there: {text.strip()}")


def has_other_devices(edge: Edge, tally: Tally) -> None:
    """A flannel's VXLAN device, and entries that somebody else made: left out by name, and told in their own words."""
    inside = ["ip", "-n", edge.inside]
    edge.tell(start_of(edge.routed))
    run(*inside, "link", "add", "flannel.1", "type", "vxlan", "id", "1", "dstport", "8472", "local", edge.address, "nolearning")
    run(*inside, "link", "set", "flannel.1", "up")
    edge.within("bridge", "fdb", "append", "02:00:00:00:f1:01", "dev", "flannel.1", "dst", "10.0.0.1", "self", "permanent")
    time.sleep(1)
    agrees(edge, tally, "flannel", "a flannel's device")
    tally.see("flannel.1 (VNI 1)" in audited(edge)[1], "the flannel's device is left out by name")
    edge.within("bridge", "fdb", "add", "02:00:00:00:66:66", "dev", "vxlan5001", "dst", "10.0.0.2", "self", "static")
    text = finds(edge, tally, "foreign", "foreign 5001 02:00:00:00:66:66", "an entry by hand that nobody advertises")
    has_no_mend(tally, text)
    edge.within("bridge", "fdb", "del", "02:00:00:00:66:66", "dev", "vxlan5001", "dst", "10.0.0.2", "self")
    edge.within("bridge", "fdb", "append", "00:00:00:00:00:00", "dev", "vxlan5001", "dst", "10.0.0.66", "self", "permanent")
    has_no_mend(tally, finds(edge, tally, "foreignflood", "flood extra 5001 10.0.0.66", "a flood entry by hand"))
    edge.within("bridge", "fdb", "del", "00:00:00:00:00:00", "dev", "vxlan5001", "dst", "10.0.0.66", "self")
    agrees(edge, tally, "", "they are gone")


# ---- entries and states that keep frames from arriving ----------------------------------------------------------------


def has_wrong_entries(edge: Edge, tally: Tally) -> None:
    """An entry with another VNI, another UDP port, another edge; a MAC that nobody advertises; a neighbour."""
    edge.tell(start_of(edge.routed))
    agrees(edge, tally, "", "at the beginning")
    goes(edge, tally, FAR, 5001, "10.0.0.1")
    device, zebras = ["dev", "vxlan5001"], ["self", "extern_learn"]
    for name, words, place in (
        ("othervni", ["dst", "10.0.0.1", "vni", "77"], "10.0.0.1 vni 77"),
        ("otherport", ["dst", "10.0.0.1", "port", "4790"], "10.0.0.1 port 4790"),
        ("otheredge", ["dst", "10.0.0.2"], "10.0.0.2"),
    ):
        edge.within("bridge", "fdb", "replace", FAR, *device, *words, *zebras)
        goes(edge, tally, FAR, 5001, place)
        mends(edge, tally, finds(edge, tally, name, f"kernel {place}", f"an entry to {place}"))
        goes(edge, tally, FAR, 5001, "10.0.0.1")
    stray = "02:00:00:00:66:67"
    edge.within("bridge", "fdb", "replace", stray, *device, "dst", "10.0.0.2", *zebras)
    edge.within("bridge", "fdb", "replace", stray, *device, "master", "extern_learn")
    goes(edge, tally, stray, 5001, "10.0.0.2")
    mends(edge, tally, finds(edge, tally, "extra", f"extra 5001 {stray}", "an entry like zebra's that nobody advertises"))
    goes(edge, tally, stray, 5001, "10.0.0.1+10.0.0.2+local")
    goes(edge, tally, FAR, 5001, "10.0.0.1")
    edge.within("ip", "neigh", "replace", FAR_IP, "lladdr", OTHER, "dev", "br5001", "nud", "noarp", "extern_learn", "protocol", "zebra")
    mends(edge, tally, finds(edge, tally, "neighbour", f"neighbour wrong 5001 {FAR_IP}", "a wrong ARP entry"))
    edge.within("ip", "neigh", "replace", "198.18.1.99", "lladdr", OTHER, "dev", "br5001", "nud", "noarp", "extern_learn", "protocol", "zebra")
    mends(edge, tally, finds(edge, tally, "neighbourextra", "neighbour extra 5001 198.18.1.99", "an ARP entry that no route names"))
    goes(edge, tally, FAR, 5001, "10.0.0.1")


def has_neighbours(edge: Edge, tally: Tally) -> None:
    """ARP entries of a network without an L3VNI: one is lost, one is wrong, and no route names one."""
    edge.tell(start_of(edge.routed or L3VNI))
    agrees(edge, tally, "", "at the beginning")
    right, stray = f"10.0.0.1 vni 5001 {FAR}", "198.18.1.99"
    lost = [["ip", "neigh", "del", FAR_IP, "dev", "br5001"]]
    line = f"neighbour missing 5001 {FAR_IP}: by the routes {FAR}, in the kernel nowhere"
    loses(edge, tally, "neighbourmissing", lost, line, lambda is_lost: datagrams(edge, tally, FAR_IP, "nowhere" if is_lost else right))
    zebras = ["lladdr", OTHER, "dev", "br5001", "nud", "noarp", "extern_learn", "protocol", "zebra"]
    edge.within("ip", "neigh", "replace", FAR_IP, *zebras)
    datagrams(edge, tally, FAR_IP, f"10.0.0.1 vni 5001 {OTHER}+10.0.0.2 vni 5001 {OTHER}")
    mends(edge, tally, finds(edge, tally, "", f"neighbour wrong 5001 {FAR_IP}", "a wrong ARP entry"))
    datagrams(edge, tally, FAR_IP, right)
    edge.within("ip", "neigh", "replace", stray, *zebras)
    datagrams(edge, tally, stray, f"10.0.0.1 vni 5001 {OTHER}+10.0.0.2 vni 5001 {OTHER}")
    mends(edge, tally, finds(edge, tally, "", f"neighbour extra 5001 {stray}", "an ARP entry that no route names"))
    datagrams(edge, tally, stray, "nowhere")
    datagrams(edge, tally, FAR_IP, right)


def loses_entries(edge: Edge, tally: Tally) -> None:
    """A MAC's entries and a next hop's neighbour are lost."""
    edge.tell(start_of(edge.routed))
    agrees(edge, tally, "", "at the beginning")
    words = ["bridge", "fdb", "del", FAR, "dev", "vxlan5001"]
    lost = [[*words, "master"], [*words, "dst", "10.0.0.1", "self"]]
    line = f"missing 5001 {FAR} owner 10.0.0.1 (the only advert); bgpd 10.0.0.1, zebra 10.0.0.1, kernel nowhere; "
    flooded = "10.0.0.1+10.0.0.2+local"
    loses(edge, tally, "macmissing", lost, line, lambda is_lost: goes(edge, tally, FAR, 5001, flooded if is_lost else "10.0.0.1"))
    lost = [["ip", "neigh", "del", "10.0.0.1", "dev", f"br{edge.routed}"]]
    line = f"next hop missing {edge.routed} 10.0.0.1: by the routes {ROUTER}, found zebra {ROUTER}, kernel nowhere"
    loses(edge, tally, "hopmissing", lost, line, lambda is_lost: routes(edge, tally, edge.routed, "nowhere" if is_lost else ""))


def loses(edge: Edge, tally: Tally, name: str, lost: List[List[str]], line: str, look: Callable[[bool], None]) -> None:
    """Deletes entries of the kernel while zebra is stopped, since zebra puts them back otherwise, and runs the mend as printed.

    `look` sees where frames go, without the entries and with them. A stopped zebra answers no vtysh, so the audit reads a view
    with zebra's texts from before and the kernel's texts of that moment.
    """
    look(False)
    view = os.path.join(edge.folder, name)
    edge.save(view)
    edge.daemons["zebra"].send_signal(signal.SIGSTOP)
    try:
        for words in lost:
            edge.within(*words)
        look(True)
        for text, words in (("neigh", ["ip", "-j", "neigh", "show"]), ("fdb", ["bridge", "-j", "fdb", "show"])):
            with open(os.path.join(view, f"{text}.json"), "w", encoding="utf-8") as out:
                out.write(edge.within(*words))
        status, text = said(sys.executable, os.path.join(lab.TOOLS, "evpnd_audit.py"), view)
        found = [each for each in text.splitlines() if not each.startswith(" ") and ": VNI " not in each]
        is_right = status == 1 and len(found) == 1 and found[0].startswith(line)
        tally.see(is_right, f"it is lost, and nothing else differs: {line}" + ("" if is_right else f"\nstatus {status}: {text}"))
        tally.see(len(commands := run_mends(edge, text)) == 1, f"run as printed: {'; '.join(commands)}")
        look(False)
    finally:
        edge.daemons["zebra"].send_signal(signal.SIGCONT)
    if KEPT["folder"]:
        shutil.copytree(view, os.path.join(KEPT["folder"], edge.version(), name))
    agrees(edge, tally, "", "zebra goes on")
    look(False)


def has_causes(edge: Edge, tally: Tally) -> None:
    """Each state that stops frames is one line, with the stations behind it."""
    edge.heard(5001, HOME)
    edge.tell([*start_of(edge.routed), "advert 10.0.0.1 5001 02:00:00:00:00:03 seq 0"])
    time.sleep(1)
    agrees(edge, tally, "", "at the beginning")
    inside = ["ip", "-n", edge.inside]

    def state(name: str, make: List[str], undo: List[str], words: str) -> None:
        run(*make)
        text = finds(edge, tally, name, words, f"{' '.join(make[3:])}: {words}")
        has_no_mend(tally, text)
        lines = [line for line in text.splitlines() if " 5001 " in line and not line.startswith(("cause", " "))]
        tally.see(not lines, "no line a MAC beside it" + ("" if not lines else f"\n{text}"))
        goes_nowhere = edge.goes(5001, FAR)
        tally.see(goes_nowhere != "10.0.0.1" or name == "isolated", f"frames don't arrive: {goes_nowhere}")
        run(*undo)
        time.sleep(3)
        agrees(edge, tally, "", "undone")

    bridge = ["bridge", "-n", edge.inside, "link", "set", "dev"]
    state("bridgedown", [*inside, "link", "set", "br5001", "down"], [*inside, "link", "set", "br5001", "up"], "bridge br5001 is down: 3 stations")
    state("portdisabled", [*bridge, "vxlan5001", "state", "0"], [*bridge, "vxlan5001", "state", "3"], "bridge port vxlan5001 is disabled, not forwarding: 3 stations")
    run(*bridge, "acc5001", "isolated", "on")
    state("isolated", [*bridge, "vxlan5001", "isolated", "on"], [*bridge, "vxlan5001", "isolated", "off"], "isolated from each other: vxlan5001, acc5001: 3 stations")
    run(*bridge, "acc5001", "isolated", "off")
    state("devicedown", [*inside, "link", "set", "vxlan5001", "down"], [*inside, "link", "set", "vxlan5001", "up"], "device vxlan5001 is down: 3 stations")


def shares_bridge(edge: Edge, tally: Tally) -> None:
    """A device in another network's bridge."""
    edge.tell(start_of(edge.routed))
    run("ip", "-n", edge.inside, "link", "set", "vxlan5002", "master", "br5001")
    has_no_mend(tally, finds(edge, tally, "sharedbridge", "networks leak into each other: vxlan5001, vxlan5002 are in one bridge, br5001", "two networks in one bridge"))


def loses_ways(edge: Edge, tally: Tally) -> None:
    """No route of the underlay; routes that aren't valid; a session that is down; no advertise-all-vni."""
    edge.tell(start_of(edge.routed))
    run("ip", "-n", edge.inside, "route", "add", "unreachable", "10.0.0.1/32")
    time.sleep(6)
    text = finds(edge, tally, "noroute", "10.0.0.1", "the underlay has no route to an edge")
    tally.see("cause 5001 " in text, f"it is a cause: {[line for line in text.splitlines() if line.startswith('cause')]}")
    run("ip", "-n", edge.inside, "route", "del", "unreachable", "10.0.0.1/32")
    time.sleep(6)
    agrees(edge, tally, "", "undone")
    run("ip", "-n", edge.inside, "route", "del", "10.0.0.0/24")
    time.sleep(6)
    words = "cause 5001 bgpd holds the routes of 10.0.0.1 for not valid: it doesn't reach this next hop: "
    has_no_mend(tally, finds(edge, tally, "notvalid", words, "no route of the underlay at all: bgpd takes no route of the edges"))
    run("ip", "-n", edge.inside, "route", "add", "10.0.0.0/24", "via", "192.168.77.2")
    time.sleep(6)
    agrees(edge, tally, "", "undone")
    edge.shell_lines("configure terminal", "router bgp 65000", "address-family l2vpn evpn", "no advertise-all-vni")
    finds(edge, tally, "switchedoff", "bgpd has no 'advertise-all-vni'", "no advertise-all-vni")
    edge.shell_lines("configure terminal", "router bgp 65000", "address-family l2vpn evpn", "advertise-all-vni")
    time.sleep(3)
    agrees(edge, tally, "", "undone")
    edge.speaker.terminate()
    edge.wait_for(lambda: FAR not in edge.shell("show bgp l2vpn evpn route json"), "the end of the session")
    finds(edge, tally, "session", "the session with 192.168.77.2 is ", "a session that is down")


def forgets(edge: Edge, tally: Tally) -> None:
    """A station that is pinned elsewhere with a lower sequence number, which nobody advertises after that; what a killed zebra leaves."""
    edge.tell(start_of(edge.routed or L3VNI))
    guest = "02:00:00:00:00:ab"
    for mac in (HOME, guest):
        comes_home(edge, mac)
    agrees(edge, tally, "", "two stations that came home")
    edge.tell([f"advert 10.0.0.2 5001 {HOME} static seq 0"])
    time.sleep(1)
    finds(edge, tally, "pinnedelsewhere", f"wrong 5001 {HOME} owner 10.0.0.2", "one is pinned elsewhere, and zebra keeps it")
    edge.tell([f"withdraw 10.0.0.2 5001 {HOME}"])
    time.sleep(2)
    words = f"local stations that nobody advertises: {HOME}: 1 station"
    has_no_mend(tally, finds(edge, tally, "unadvertised", words, "nobody advertises it any more"))
    edge.within("bridge", "fdb", "del", HOME, "dev", "acc5001", "master")
    edge.within("bridge", "fdb", "del", HOME, "dev", "vxlan5001", "self")
    time.sleep(2)
    agrees(edge, tally, "", "it is gone")
    edge.tell([f"advert 10.0.0.2 5001 {guest} static seq 0"])
    time.sleep(1)
    for line in finds(edge, tally, "", f"wrong 5001 {guest} owner 10.0.0.2", "the other one is pinned elsewhere").splitlines():
        if line.startswith("    mend: "):
            edge.within("sh", "-c", line[len("    mend: ") :])
    goes(edge, tally, guest, 5001, "10.0.0.2")


def comes_home(edge: Edge, mac: str) -> None:
    """A station is heard here, goes to another edge, and is heard here again: its sequence number is 2."""
    edge.heard(5001, mac)
    time.sleep(1)
    edge.tell([f"advert 10.0.0.2 5001 {mac} seq 1"])
    time.sleep(1)
    edge.heard(5001, mac)
    time.sleep(1)


def leaves_entries(edge: Edge, tally: Tally) -> None:
    """zebra is killed, and a static station's route ends before the next zebra begins."""
    edge.tell([*start_of(edge.routed or L3VNI), "advert 10.0.0.2 5001 02:00:00:00:00:55 static seq 0"])
    time.sleep(1)
    agrees(edge, tally, "", "a static station of another edge")
    os.kill(process_of(edge, "zebra"), signal.SIGKILL)
    edge.daemons["zebra"].wait()
    os.remove(os.path.join(edge.folder, "zebra.vty"))
    edge.speaker.stdin.write("withdraw 10.0.0.2 5001 02:00:00:00:00:55\n")
    edge.speaker.stdin.flush()
    time.sleep(2)
    edge.start_daemon("zebra", "hostname edge\n")
    edge.wait_for(lambda: "5001" in edge.shell("show evpn vni json"), "bgpd's connection to the next zebra")  # 8.4.4: 10 s
    text = finds(edge, tally, "leftsticky", "foreign 5001 02:00:00:00:00:55 owner none", "a killed zebra has left an entry")
    tally.see("a sticky entry that zebra doesn't name" in text, "in its own words")


def hangs(edge: Edge, tally: Tally) -> None:
    """bgpd is stopped, so vtysh hangs; a state file that is broken."""
    edge.tell(start_of(edge.routed))
    state = os.path.join(edge.folder, "state")
    for text in ("{", "[]", "\0", '{"a": null}'):
        with open(state, "w", encoding="utf-8") as out:
            out.write(text)
        status, said = audited(edge, "--state", state)
        tally.see(status == 0, f"a state file with {text!r}: the audit goes on" + ("" if status == 0 else f"\n{said}"))
    stopped = process_of(edge, "bgpd")
    os.kill(stopped, signal.SIGSTOP)
    try:
        for words, wanted in (((), 2), (("--nagios", "--again", "0"), 3)):
            begun = time.monotonic()
            status, said = audited(edge, "--timeout", "2", *words)
            took = time.monotonic() - begun
            is_right = status == wanted and "no end within 2 s (--timeout)" in said and took < 20
            tally.see(is_right, f"vtysh hangs: status {status} after {took:.0f} s: {said.strip()}")
    finally:
        os.kill(stopped, signal.SIGCONT)
    agrees(edge, tally, "", "bgpd goes on")


def reads_texts(edge: Edge, tally: Tally) -> None:
    """The texts of this version with null or a number in them, and those of one network with a mistyped VNI."""
    edge.tell(start_of(edge.routed))
    time.sleep(1.5)
    whole, one = os.path.join(edge.folder, "whole"), os.path.join(edge.folder, "one")
    edge.save(whole)
    audit = [sys.executable, os.path.join(lab.TOOLS, "evpnd_audit.py")]
    for name, key, value, wanted in (("neigh", "state", None, 0), ("fdb", "state", None, 0), ("fdb", "flags", 7, 2)):
        changed = os.path.join(edge.folder, f"{name}-{key}")
        shutil.copytree(whole, changed)
        with open(os.path.join(whole, f"{name}.json"), encoding="utf-8") as stream:
            entries = [{**entry, key: value} for entry in json.load(stream)]
        with open(os.path.join(changed, f"{name}.json"), "w", encoding="utf-8") as out:
            json.dump(entries, out)
        status, text = said(*audit, changed)
        is_right = status == wanted and "Traceback" not in text
        tally.see(is_right, f"{name}.json with {key} {json.dumps(value)}: status {status}" + ("" if is_right else f"\n{text}"))
    os.mkdir(one)
    shutil.copy(os.path.join(whole, "routes.json"), one)
    entries = edge.within("bridge", "-j", "fdb", "show", "dev", "vxlan5001")
    for name, text in (("macs", edge.shell("show evpn mac vni 5001 json")), ("fdb", entries)):
        with open(os.path.join(one, f"{name}.json"), "w", encoding="utf-8") as out:
            out.write(text)
    status, text = said(*audit, "--vni", "5001", one)
    tally.see(status == 0, "the texts of one network: all agree" + ("" if status == 0 else f"\n{text}"))
    status, text = said(*audit, "--vni", "5003", one)
    is_right = status == 2 and text.count("\n") == 1 and "VNI 5003: routes.json has no route of it" in text
    tally.see(is_right, f"a mistyped VNI with the texts of one network: {text.strip()}")


def process_of(edge: Edge, daemon: str) -> int:
    """The process of a daemon, which has written it into its file."""
    with open(os.path.join(edge.folder, f"{daemon}.pid"), encoding="ascii") as stream:
        return int(stream.read())


def has_segments(edge: Edge, tally: Tally) -> None:
    """MACs behind a segment of two edges: either edge is right, a third one isn't; without its edges nothing is judged."""
    edge.tell([*start_of(edge.routed), "esi advert 10.0.0.1 5001 02:00:00:00:00:21 seq 0"])
    time.sleep(1)
    status, text = audited(edge)
    keep(edge, "segmentunknown")
    tally.see(status == 4 and "1 not judged" in text, f"a segment that no edge advertises isn't judged, all else is\n{text}")
    edge.tell([f"segment 10.0.0.{pe} 5001" for pe in (1, 2)] + ["esi advert 10.0.0.2 5001 02:00:00:00:00:22 seq 0"])
    if edge.version().startswith("7."):  # it knows no multihoming, and writes no entry
        text = finds(edge, tally, "segment", "missing 5001 02:00:00:00:00:21 owner segment 03:", "this version writes no entry of them")
        found = edge.goes(5001, "02:00:00:00:00:21")
        tally.see(found == "10.0.0.1+10.0.0.2+local", f"a real frame is flooded: {found}")
        has_no_mend(tally, text)
        return
    agrees(edge, tally, "segment", "MACs behind a segment of two edges")
    found = edge.goes(5001, "02:00:00:00:00:21")
    tally.see(found in ("10.0.0.1", "10.0.0.2"), f"a real frame goes to an edge of the segment: {found}")
    edge.within("bridge", "fdb", "del", "02:00:00:00:00:22", "dev", "vxlan5001", "self")  # of a group; replace would keep it
    edge.within("bridge", "fdb", "replace", "02:00:00:00:00:22", "dev", "vxlan5001", "dst", "10.0.0.3", "self", "extern_learn")
    goes(edge, tally, "02:00:00:00:00:22", 5001, "10.0.0.3")
    has_no_mend(tally, finds(edge, tally, "segmentwrong", "wrong 5001 02:00:00:00:00:22 owner segment 03:", "an edge that isn't at the segment"))


CASES: Tuple[Tuple[str, int, Callable[[Edge, Tally], None]], ...] = (
    ("l3vni", L3VNI, has_l3vni), ("lowl3vni", LOW_L3VNI, has_low_l3vni), ("imports", L3VNI, imports),
    ("others", L3VNI, has_other_devices), ("entries", L3VNI, has_wrong_entries), ("neighbours", 0, has_neighbours),
    ("lost", L3VNI, loses_entries), ("causes", L3VNI, has_causes), ("shared", L3VNI, shares_bridge), ("segments", L3VNI, has_segments),
    ("ways", L3VNI, loses_ways), ("forgets", 0, forgets), ("leaves", 0, leaves_entries), ("hangs", L3VNI, hangs), ("texts", L3VNI, reads_texts),
)


def main() -> int:
    """Plays all cases to leaves of each version."""
    words = argparse.ArgumentParser(description=__doc__, formatter_class=argparse.RawDescriptionHelpFormatter)
    words.add_argument("--keep", metavar="FOLDER")
    words.add_argument("--only", metavar="CASE")
    words.add_argument("roots", nargs="*", metavar="ROOT")
    arguments = words.parse_args()
    KEPT["folder"] = arguments.keep
    tally = Tally()
    for root in arguments.roots or [""]:
        for name, routed, case in CASES:
            if arguments.only not in (None, name):
                continue
            try:
                with Edge(name, root, VNIS, access=True, routed=routed) as edge:
                    print(f"-- {name}, FRR {edge.version()}", flush=True)
                    case(edge, tally)
            except (Trouble, subprocess.SubprocessError, OSError) as trouble:
                tally.see(False, f"{name}: {trouble}")
    print(f"{tally.passed} passed, {tally.failed} failed")
    return 1 if tally.failed else 0


if __name__ == "__main__":
    sys.exit(main())
