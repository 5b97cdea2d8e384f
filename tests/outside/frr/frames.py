#!/usr/bin/env python3
"""Real frames in an edge's namespace, by raw sockets. As root:

    frames.py heard PORT MAC ..                sends a frame of each station into a port
    frames.py stations PORT                    sends a frame of each station whose MAC comes on standard input
    frames.py judge UPLINK VNI ..              the same as `goes` and `routed` of many: reads a list of [VNI, MAC] and a list of
                                               addresses a line, and prints two lists of places a line, as JSON, for the
                                               bridges brVNI with their ports hostVNI
    frames.py goes BRIDGE MAC PORT UPLINK      sends a frame to a MAC from the bridge, and says where it came out:
                                               'local' at the port, the outer address of each VXLAN datagram, or 'nowhere';
                                               a datagram of another VNI than the bridge's, or UDP port, has that behind it
    frames.py routed ADDRESS UPLINK            sends datagrams to an address by the kernel's routes, and says of each VXLAN
                                               datagram the outer address, the VNI and the inner destination MAC
"""

import itertools
import json
import select
import socket
import sys
import time
from typing import Dict, List, Set

EXPERIMENT = "88b5"  # IEEE Std 802: the first local experimental EtherType
VXLAN_PORT = 4789
SO_RCVBUFFORCE = 33
WAIT = 0.4
SENT = 32  # datagrams to an address, each of another flow: routes may have several next hops
QUIET = 0.12  # seconds: a frame passes bridge, VXLAN device and cable while it is sent


def opened(device: str) -> socket.socket:
    """A raw socket of a device, for frames of every kind."""
    end = socket.socket(socket.AF_PACKET, socket.SOCK_RAW, socket.htons(3))
    end.setsockopt(socket.SOL_SOCKET, SO_RCVBUFFORCE, 8 << 20)  # all are sent before any is received
    end.bind((device, 0))
    return end


def frame(target: str, source: str) -> bytes:
    """A frame that nobody else sends."""
    return bytes.fromhex((target + source).replace(":", "") + EXPERIMENT) + bytes(46)


def outer_address(octets: bytes, inner: bytes, vni: int) -> str:
    """The address to which a VXLAN datagram carries an inner frame, or nothing."""
    header = 14 + 4 * (octets[14] & 15) if octets[12:14] == b"\x08\x00" else 0
    if not header or octets[23] != 17 or octets[header + 16 :][: len(inner)] != inner:
        return ""
    port, found = int.from_bytes(octets[header + 2 : header + 4], "big"), int.from_bytes(octets[header + 12 : header + 15], "big")
    return socket.inet_ntoa(octets[30:34]) + (f" vni {found}" if found != vni else "") + (f" port {port}" if port != VXLAN_PORT else "")


def goes(bridge: str, mac: str, port: str, uplink: str) -> str:
    """Where a frame comes out."""
    places: Set[str] = set()
    sender, ends = opened(bridge), {opened(port): "local", opened(uplink): ""}
    sent = frame(mac, "02:00:00:00:ff:01")
    try:
        sender.send(sent)
    except OSError:
        return "nowhere"
    end = time.monotonic() + WAIT
    while time.monotonic() < end:
        for ready in select.select(list(ends), [], [], 0.05)[0]:
            octets = ready.recv(65536)
            if ends[ready] and octets[: len(sent)] == sent:
                places.add("local")
            elif not ends[ready]:
                places.add(outer_address(octets, sent, int(bridge.lstrip("br"))))
    return "+".join(sorted(places - {""})) or "nowhere"


def judge(uplink: str, vnis: List[str]) -> None:
    """Says of each two lists on standard input where a frame to each MAC goes, and a datagram to each address by the kernel's routes."""
    out, senders = opened(uplink), {int(vni): opened(f"br{vni}") for vni in vnis}
    ports = {opened(f"host{vni}"): int(vni) for vni in vnis}
    datagrams = socket.socket(socket.AF_INET, socket.SOCK_DGRAM)
    for line in sys.stdin:
        macs, addresses = json.loads(line)
        asked = [(vni, frame(mac, f"02:00:00:00:ff:{vni & 255:02x}")) for vni, mac in macs]
        found: List[Set[str]] = [set() for _ in asked]
        ways: Dict[str, Set[str]] = {address: set() for address in addresses}
        for vni, sent in asked:
            senders[vni].send(sent)
        arrived = dict.fromkeys(addresses, 0)
        for address, port in itertools.product(addresses, range(9, 9 + SENT)):
            try:
                datagrams.sendto(f"evpnd, to {address}".encode(), (address, port))
            except OSError:
                continue
        while there := select.select([out, *ports], [], [], QUIET)[0]:
            for ready in there:
                octets = ready.recv(65536)
                for (vni, sent), places in zip(asked, found):
                    if ready is out:
                        places.add(outer_address(octets, sent, vni))
                    elif ports[ready] == vni and octets[: len(sent)] == sent:
                        places.add("local")
                for address in addresses if ready is out and is_datagram(octets) else ():
                    if octets.endswith(f"evpnd, to {address}".encode()):
                        ways[address].add(way_of(octets))
                        arrived[address] += 1
        for address, count in arrived.items():
            ways[address].update([] if count == SENT else ["nowhere"])
        places = ["+".join(sorted(each - {""})) or "nowhere" for each in found]
        print(json.dumps([places, ["+".join(sorted(ways[address])) for address in addresses]]), flush=True)


def is_datagram(octets: bytes) -> bool:
    """Whether a frame is a UDP datagram of IPv4."""
    return octets[12:14] == b"\x08\x00" and octets[23] == 17


def way_of(octets: bytes) -> str:
    """The outer address, the VNI and the inner destination MAC of a VXLAN datagram."""
    return f"{socket.inet_ntoa(octets[30:34])} vni {int.from_bytes(octets[46:49], 'big')} {octets[50:56].hex(':')}"


def routed(address: str, uplink: str) -> str:
    """Where datagrams to an address come out, sent three times."""
    end, sender = opened(uplink), socket.socket(socket.AF_INET, socket.SOCK_DGRAM)
    text = b"evpnd, routed"
    found: Set[str] = set()
    for _ in range(3):
        try:
            sender.sendto(text, (address, 9))
        except OSError:
            continue
    until = time.monotonic() + WAIT
    while time.monotonic() < until:
        for ready in select.select([end], [], [], 0.05)[0]:
            octets = ready.recv(65536)
            if octets.endswith(text) and is_datagram(octets):
                found.add(way_of(octets))
    return "+".join(sorted(found)) or "nowhere"


def main() -> None:
    """Sends, and says."""
    if sys.argv[1] == "heard":
        port = opened(sys.argv[2])
        for mac in sys.argv[3:]:
            port.send(frame("ff:ff:ff:ff:ff:ff", mac))
    elif sys.argv[1] == "stations":
        port = opened(sys.argv[2])
        for line in sys.stdin:
            port.send(frame("ff:ff:ff:ff:ff:ff", line.strip()))
    elif sys.argv[1] == "judge":
        judge(sys.argv[2], sys.argv[3:])
    elif sys.argv[1] == "routed":
        print(routed(*sys.argv[2:4]))
    else:
        print(goes(*sys.argv[2:6]))


if __name__ == "__main__":
    main()
