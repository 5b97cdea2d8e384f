#!/usr/bin/env python3
"""A small BGP speaker: readable lines (tools/evpnd_records.py) on standard input become EVPN UPDATEs.

    speaker.py PEER OWN-ADDRESS [reflect]

With 'reflect' each EVPN UPDATE of the peer is a line 'update OCTETS' on standard output, in hexadecimal digits, and a line 'raw
OCTETS' on standard input is sent as it is: so several speakers are a route reflector. A line may begin with 'esi' (its route has a nonzero ESI), 'pref N' (its local preference, 100 else), 'target AS:N' (a route
target in place of AS:VNI; may stand more than once) and 'router MAC' (the EVPN Router's MAC community of RFC 9135, 8.1).
'segment EDGE VNI' says that an edge is at the segment of 'esi': its Ethernet A-D routes and its Ethernet Segment route (RFC 7432,
7.1, 7.4). It speaks as a route reflector would: one internal session, the next hop of each route is the line's
originator. A route's octets are those of its record (RFC 7432, 7.2 and 7.3) but for the RD's number,
which is the VNI's, so that one edge's routes of two VNIs are two; the attributes are RFC 4271's, RFC 4760's and RFC 4360's. 'up' on standard output says that the session stands.
"""

import os
import socket
import struct
import sys
import threading
import time
from typing import List, NamedTuple

sys.path.insert(0, os.path.join(os.path.dirname(os.path.abspath(__file__)), "..", "..", "..", "tools"))
import update_records as records  # noqa: E402

AUTONOMOUS_SYSTEM = 65000
EVERY = 1  # seconds between two keepalives: the least hold time is 3 seconds (RFC 4271, 4.2)
L2VPN_EVPN = struct.pack("!HB", 25, 70)
OPEN, UPDATE, NOTIFICATION, KEEPALIVE = 1, 2, 3, 4
ORIGIN, AS_PATH, LOCAL_PREF, REACH, UNREACH, COMMUNITIES, TUNNEL = 1, 2, 5, 14, 15, 16, 22
VXLAN_ENCAPSULATION = bytes([3, 12, 0, 0, 0, 0, 0, 8])
INGRESS_REPLICATION = bytes([0, 6])
ROUTER_MAC = bytes([6, 3])
SEGMENT = bytes([3, 0x44, 0x38, 0x39, 0xFF, 0xFF, 1, 0, 0, 1])


def message(kind: int, body: bytes) -> bytes:
    """A BGP message."""
    return b"\xff" * 16 + struct.pack("!HB", 19 + len(body), kind) + body


def attribute(flags: int, kind: int, value: bytes) -> bytes:
    """A path attribute with a length of two octets."""
    return bytes([flags | 0x10, kind]) + struct.pack("!H", len(value)) + value


class Extras(NamedTuple):
    """What a line says of its route besides the update."""

    esi: bytes
    preference: int
    targets: List[bytes]
    router: bytes


def message_of_line(line: str) -> bytes:
    """The UPDATE that a line says."""
    words, extras = line.split(), Extras(bytes(10), 100, [], b"")
    if words[0] == "raw":
        return bytes.fromhex(words[1])
    if words[0] == "segment":
        return segment_messages(records.read_address(words[1]), int(words[2]))
    while words and words[0] in ("esi", "pref", "target", "router"):
        kind = words.pop(0)
        if kind == "esi":
            extras = extras._replace(esi=SEGMENT)
        elif kind == "pref":
            extras = extras._replace(preference=int(words.pop(0)))
        elif kind == "target":
            extras.targets.append(target_of(*map(int, words.pop(0).split(":"))))
        else:
            extras = extras._replace(router=ROUTER_MAC + records.read_mac(words.pop(0)))
    return update_message(records.update_of_line(" ".join(words)), extras)


def segment_messages(edge: bytes, vni: int) -> bytes:
    """The UPDATEs that say that an edge is at the segment, for a network (RFC 7432, 7.1, 7.4, 7.5 and 7.6)."""
    rd = records.ADDRESS_RD + edge + (vni & 0xFFFF).to_bytes(2, "big")
    label, target = vni.to_bytes(3, "big"), target_of(AUTONOMOUS_SYSTEM, vni)
    esi_label = bytes([6, 1, 0, 0, 0, 0, 0, 0])
    es_import = bytes([6, 2]) + SEGMENT[1:7]
    routes = (
        (bytes([1, 25]) + rd + SEGMENT + b"\xff" * 4 + bytes(3), target + esi_label),
        (bytes([1, 25]) + rd + SEGMENT + bytes(4) + label, target),
        (bytes([4, 23]) + rd + SEGMENT + bytes([32]) + edge, es_import),
    )
    return b"".join(reach_message(route, edge, communities + VXLAN_ENCAPSULATION, 100) for route, communities in routes)


def reach_message(route: bytes, hop: bytes, communities: bytes, preference: int, more: bytes = b"") -> bytes:
    """The UPDATE that advertises a route."""
    attributes = attribute(0x40, ORIGIN, b"\0") + attribute(0x40, AS_PATH, b"")
    attributes += attribute(0x40, LOCAL_PREF, struct.pack("!I", preference))
    attributes += attribute(0x80, REACH, L2VPN_EVPN + bytes([4]) + hop + b"\0" + route)
    attributes += attribute(0xC0, COMMUNITIES, communities) + more
    return message(UPDATE, b"\0\0" + struct.pack("!H", len(attributes)) + attributes)


def target_of(number: int, value: int) -> bytes:
    """A route target of an autonomous system of two octets (RFC 4360, 3.1 and 4)."""
    return struct.pack("!BBHI", 0, 2, number, value)


def update_message(update: records.Update, extras: Extras) -> bytes:
    """The UPDATE that says an update."""
    route = records.route_of(update)
    if update.mac is not None:
        route = route[:10] + extras.esi + route[20:]
    route = route[:8] + (update.vni & 0xFFFF).to_bytes(2, "big") + route[10:]  # an RD for each VNI: routes of two VNIs differ
    if update.advert is None:
        attributes = attribute(0x80, UNREACH, L2VPN_EVPN + route)
        return message(UPDATE, b"\0\0" + struct.pack("!H", len(attributes)) + attributes)
    targets = b"".join(extras.targets or [target_of(AUTONOMOUS_SYSTEM, update.vni)])
    communities = targets + VXLAN_ENCAPSULATION + records.community_of(update) + extras.router
    tunnel = INGRESS_REPLICATION + update.vni.to_bytes(3, "big") + update.originator
    more = attribute(0xC0, TUNNEL, tunnel) if update.mac is None else b""
    return reach_message(route, update.originator, communities, extras.preference, more)


def open_message(own: str) -> bytes:
    """The OPEN: EVPN, and numbers of autonomous systems in four octets."""
    able = bytes([1, 4]) + struct.pack("!HBB", 25, 0, 70) + bytes([65, 4]) + struct.pack("!I", AUTONOMOUS_SYSTEM)
    options = bytes([2, len(able)]) + able
    head = bytes([4]) + struct.pack("!HH", AUTONOMOUS_SYSTEM, 180) + socket.inet_aton(own)
    return message(OPEN, head + bytes([len(options)]) + options)


class Session:
    """A TCP connection on which two threads send whole messages."""

    def __init__(self, peer: str, own: str) -> None:
        self.connection = socket.create_connection((peer, 179), source_address=(own, 0))
        self.lock = threading.Lock()

    def send(self, octets: bytes) -> None:
        """Sends a message, or several."""
        with self.lock:
            self.connection.sendall(octets)


def listen(session: Session, reflects: bool) -> None:
    """Answers the peer's OPEN, and says when the session stands or is refused, and what the peer advertises if that is wanted."""
    held = b""
    while True:
        more = session.connection.recv(65536)
        if not more:
            print("closed", flush=True)
            return
        held += more
        while len(held) >= 19 and len(held) >= int.from_bytes(held[16:18], "big"):
            length, kind = int.from_bytes(held[16:18], "big"), held[18]
            if kind == OPEN:
                session.send(message(KEEPALIVE, b""))
                print("up", flush=True)
            if kind == UPDATE and reflects:
                print("update", held[:length].hex(), flush=True)
            if kind == NOTIFICATION:
                print("notification", held[19:length].hex(), flush=True)
            held = held[length:]


def keep(session: Session) -> None:
    """Keeps the session alive."""
    while True:
        time.sleep(EVERY)
        session.send(message(KEEPALIVE, b""))


def main() -> None:
    """Speaks until standard input ends."""
    peer, own = sys.argv[1:3]
    session = Session(peer, own)
    session.send(open_message(own))
    for work, arguments in ((listen, (session, sys.argv[3:] == ["reflect"])), (keep, (session,))):
        threading.Thread(target=work, args=arguments, daemon=True).start()
    for line in sys.stdin:
        session.send(message_of_line(line))


if __name__ == "__main__":
    main()
