"""GoBGP's interface (gRPC), as far as a gateway needs it: what its neighbours say, and routes of our own in its table.

Debian's packages have all of it: gobgpd, python3-grpcio and python3-protobuf. The classes of the messages stand beside
this file in the folder gobgp_api, where the package of evpnd has them (`gobgp.py FOLDER` makes them there). Where they
don't, `protoc` makes them at each start, of golang-github-osrg-gobgp-dev (the protos) and protobuf-compiler. All of it is
imported late: everything but a connection works without.
"""

import importlib
import os
import subprocess
import sys
import tempfile
from typing import Dict, Hashable, Iterable, Iterator, List, NamedTuple, Optional, Tuple

from bgp_routes import VXLAN, Pmsi, Route, remember
from update_records import FLOOD_ROUTE, MAC_ROUTE, Unreadable

PROTOS = "/usr/share/gocode/src/github.com/osrg/gobgp/api"
PACKAGES = "gobgpd golang-github-osrg-gobgp-dev protobuf-compiler libprotobuf-dev python3-grpcio python3-protobuf"
MADE = os.path.join(os.path.dirname(os.path.abspath(__file__)), "gobgp_api")
NO_NEIGHBOUR = ("", "<nil>")
ROUTE_TARGET = 2  # the subtype of an extended community (RFC 4360, 4)
SECONDS = 30
SINGLE_THREADED = "SingleThreadedUnaryStream"  # grpc reads a stream in the thread that requests it, at half the cost


class NoDaemon(Exception):
    """The daemon doesn't answer, or has ended the call; one plain line."""


class Declined(Exception):
    """The daemon has answered a call by an error of its own; one plain line."""


class Event(NamedTuple):
    """What a watch reports: a neighbour's route; or, without a route, whether the neighbour's session is up.

    The identifier tells several paths of one route apart (RFC 7911).
    """

    neighbour: str
    route: Optional[Route] = None
    is_withdrawn: bool = False
    identifier: int = 0
    is_up: bool = False


class Session(NamedTuple):
    """A neighbour's session of the family EVPN: the routes that have come, and whether the neighbour has sent all.

    `has_all` is true after End-of-RIB (RFC 4724, 2). `marks_end` is false if the neighbour hasn't announced that it sends one.
    """

    neighbour: str
    is_up: bool
    received: int = 0
    marks_end: bool = False
    has_all: bool = False


class Messages:
    """Routes as GoBGP's messages and back; `attribute`, `gobgp` and `any_class` are the classes that protoc made."""

    def __init__(self, attribute: object, gobgp: object, any_class: type) -> None:
        self.attribute, self.gobgp, self.any_class = attribute, gobgp, any_class
        self.family = gobgp.Family(afi=gobgp.Family.AFI_L2VPN, safi=gobgp.Family.SAFI_EVPN)
        self.known: Dict[str, Tuple[str, Optional[type]]] = {}
        self.rds: Dict[Tuple[str, bytes], str] = {}
        self.sets: Dict[bytes, Communities] = {}

    # ---- to messages

    def packed(self, name: str, **fields: object) -> object:
        """A message of attribute.proto, in an Any."""
        box = self.any_class()
        box.Pack(getattr(self.attribute, name)(**fields))
        return box

    def path(self, route: Route, is_withdrawn: bool) -> object:
        """The Path of a route of ours; its RD is of the form ADDRESS:NUMBER."""
        nlri = self.nlri(route)
        attributes = [] if is_withdrawn else list(self.attributes(route, nlri))
        return self.gobgp.Path(nlri=nlri, pattrs=attributes, family=self.family, is_withdraw=is_withdrawn)

    def nlri(self, route: Route) -> object:
        """The NLRI of a route of ours."""
        admin, _, number = route.rd.rpartition(":")
        rd = self.packed("RouteDistinguisherIPAddress", admin=admin, assigned=int(number))
        if route.kind == FLOOD_ROUTE:
            name = "EVPNInclusiveMulticastEthernetTagRoute"
            return self.packed(name, rd=rd, ethernet_tag=route.tag, ip_address=route.ip)
        esi = self.attribute.EthernetSegmentIdentifier(type=route.esi[0], value=route.esi[1:])
        fields = {"mac_address": route.mac, "ip_address": route.ip, "labels": list(route.labels)}
        return self.packed("EVPNMACIPAdvertisementRoute", rd=rd, esi=esi, ethernet_tag=route.tag, **fields)

    def attributes(self, route: Route, nlri: object) -> Iterator[object]:
        """The path attributes of an advert: origin IGP, next hop, communities, and the tunnel of a multicast route."""
        yield self.packed("OriginAttribute", origin=0)
        yield self.packed("MpReachNLRIAttribute", family=self.family, next_hops=[route.hop], nlris=[nlri])
        communities = [self.target(target) for target in route.targets]
        communities.append(self.packed("EncapExtended", tunnel_type=VXLAN))
        if route.mobility is not None:
            static, sequence = route.mobility
            communities.append(self.packed("MacMobilityExtended", is_sticky=static, sequence_num=sequence))
        yield self.packed("ExtendedCommunitiesAttribute", communities=communities)
        if route.pmsi is not None:
            fields = {"type": route.pmsi.tunnel, "label": route.pmsi.label, "id": route.pmsi.end}
            yield self.packed("PmsiTunnelAttribute", flags=0, **fields)

    def target(self, text: str) -> object:
        """A route target by its spelling: ADDRESS:N, AS:N, or with an AS of four octets."""
        admin, _, number = text.rpartition(":")
        fields = {"is_transitive": True, "sub_type": ROUTE_TARGET, "local_admin": int(number)}
        if "." in admin:
            return self.packed("IPv4AddressSpecificExtended", address=admin, **fields)
        name = "TwoOctetAsSpecificExtended" if int(admin) < 1 << 16 else "FourOctetAsSpecificExtended"
        return self.packed(name, asn=int(admin), **fields)

    # ---- from messages

    def named(self, address: str) -> Tuple[str, Optional[type]]:
        """Returns the name and the class that an Any's type address means; another proto's has no class."""
        if address not in self.known:
            name = address.rpartition(".")[2]
            self.known[address] = name, getattr(self.attribute, name, None)
        return self.known[address]

    def unpacked(self, box: object) -> Tuple[str, object]:
        """Returns the name and the message of an Any; another proto's has no message."""
        name, kind = self.named(box.type_url)
        return name, None if kind is None else kind.FromString(box.value)

    def route(self, path: object) -> Route:
        """Returns the route of a Path."""
        head = self.head(path.nlri)
        return self.with_attributes(head, path.pattrs) if head[0] else Route(*head)

    def key(self, path: object) -> Hashable:
        """Returns the key of a Path's route."""
        return Route(*self.head(path.nlri)).key()

    def head(self, box: object) -> tuple:
        """Returns a route's first fields, of its NLRI; of another type than MAC and multicast routes, kind 0 and the NLRI's text."""
        name, nlri = self.unpacked(box)
        if name == "EVPNMACIPAdvertisementRoute":
            segment, address = nlri.esi, nlri.ip_address
            esi = bytes([segment.type & 255]) + segment.value
            address = "" if address in NO_NEIGHBOUR else address
            return MAC_ROUTE, self.rd(nlri.rd), nlri.mac_address, address, nlri.ethernet_tag, esi, tuple(nlri.labels)
        if name == "EVPNInclusiveMulticastEthernetTagRoute":
            return FLOOD_ROUTE, self.rd(nlri.rd), "", nlri.ip_address, nlri.ethernet_tag, bytes(10), ()
        return 0, str(nlri)

    def rd(self, box: object) -> str:
        """Returns an RD's spelling; networks have few of them, and each has many routes."""
        key = box.type_url, box.value
        text = self.rds.get(key)
        if text is None:
            _, rd = self.unpacked(box)
            text = "" if rd is None else f"{rd.admin}:{rd.assigned}"
            remember(self.rds, key, text)
        return text

    def with_attributes(self, head: tuple, boxes: Iterable[object]) -> Route:
        """Returns the route with these first fields and with what its path attributes say."""
        hop, said, pmsi = "", NO_COMMUNITIES, None
        for box in boxes:
            address = box.type_url
            name, kind = self.known.get(address) or self.named(address)
            if name == "MpReachNLRIAttribute":
                hop = next(iter(kind.FromString(box.value).next_hops), hop)
            elif name == "ExtendedCommunitiesAttribute":
                said = self.communities(box)
            elif name == "NextHopAttribute":
                hop = kind.FromString(box.value).next_hop
            elif name == "PmsiTunnelAttribute":
                message = kind.FromString(box.value)
                pmsi = Pmsi(message.type, message.label, message.id)
        return Route(*head, hop, *said, pmsi)

    def communities(self, box: object) -> "Communities":
        """Returns what extended communities say; many routes have the same ones."""
        value = box.value
        said = self.sets.get(value)
        if said is None:
            said = self.communities_of(self.unpacked(box)[1].communities)
            remember(self.sets, value, said)
        return said

    def communities_of(self, boxes: Iterable[object]) -> "Communities":
        """Returns what these extended communities say."""
        targets, mobility = [], None
        for name, message in map(self.unpacked, boxes):
            if name == "MacMobilityExtended":
                mobility = message.is_sticky, message.sequence_num
            elif name.endswith("SpecificExtended") and message.sub_type == ROUTE_TARGET:
                admin = message.address if name.startswith("IPv") else message.asn
                targets.append(f"{admin}:{message.local_admin}")
        return Communities(tuple(targets), mobility)

    def events(self, response: object) -> Iterator[Event]:
        """Yields what a watch's answer reports."""
        if response.WhichOneof("event") == "peer":
            state = response.peer.peer.state
            if state.neighbor_address not in NO_NEIGHBOUR:
                is_up = state.session_state == self.gobgp.PeerState.ESTABLISHED
                yield Event(state.neighbor_address, is_up=is_up)
            return
        for path in response.table.paths:
            if path.family == self.family:
                yield Event(path.neighbor_ip, self.route(path), path.is_withdraw, path.identifier)

    def session(self, peer: object) -> Session:
        """Returns what a Peer says of its session; without the family, no route has come and none will."""
        is_up = peer.state.session_state == self.gobgp.PeerState.ESTABLISHED
        for part in peer.afi_safis:
            if part.state.family == self.family:
                restart = part.mp_graceful_restart.state
                ends = restart.received, restart.end_of_rib_received
                return Session(peer.state.neighbor_address, is_up, part.state.received, *ends)
        return Session(peer.state.neighbor_address, is_up)


class Communities(NamedTuple):
    """What the extended communities of a route say: its route targets, static flag and sequence number."""

    targets: Tuple[str, ...] = ()
    mobility: Optional[Tuple[bool, int]] = None


NO_COMMUNITIES = Communities()


class Daemon:
    """A connection to gobgpd; each call that isn't answered ends in NoDaemon."""

    def __init__(self, address: str, protos: str = PROTOS) -> None:
        self.address = address
        self.grpc = imported("grpc")
        self.gobgp, attribute = classes(protos)
        self.messages = Messages(attribute, self.gobgp, imported("google.protobuf.any_pb2").Any)
        options = [("grpc.max_receive_message_length", -1), (SINGLE_THREADED, 1)]
        self.channel = self.grpc.insecure_channel(address, options)

    def call(self, name: str, kind: str, answer: str, *what: object, **how: object) -> object:
        """A call of the interface; `kind` says which side streams."""
        request = getattr(self.gobgp, f"{name}Request").SerializeToString
        read = getattr(self.gobgp, answer).FromString if answer else bytes
        path = f"/apipb.GobgpApi/{name}"
        method = getattr(self.channel, kind)(path, request_serializer=request, response_deserializer=read)
        return method(*what, **how)

    def autonomous(self) -> int:
        """The daemon's AS."""
        try:
            answer = self.call("GetBgp", "unary_unary", "GetBgpResponse", self.gobgp.GetBgpRequest(), timeout=SECONDS)
        except self.grpc.RpcError as fault:
            raise self.trouble(fault) from None
        return getattr(answer, "global").asn

    def watch(self, with_routes: bool = True) -> Iterator[List[Event]]:
        """Yields each session that comes up or goes down and, with routes, what the neighbours have said and each change.

        Each list is one answer of the daemon's, as it came.
        """
        table = self.gobgp.WatchEventRequest.Table
        wanted = [table.Filter(type=table.Filter.ADJIN, init=True)] if with_routes else []
        request = self.gobgp.WatchEventRequest(peer=self.gobgp.WatchEventRequest.Peer(), table=table(filters=wanted))
        try:
            for response in self.call("WatchEvent", "unary_stream", "WatchEventResponse", request):
                yield list(self.messages.events(response))
        except self.grpc.RpcError as fault:
            raise self.trouble(fault) from None
        raise NoDaemon("the daemon has ended the watch")

    def own(self) -> Iterator[Route]:
        """Yields the routes that this interface has put into the daemon's table."""
        for path in self.paths(table_type=self.gobgp.GLOBAL):
            if path.neighbor_ip in NO_NEIGHBOUR:
                yield self.messages.route(path)

    def held_of(self, neighbour: str) -> Iterator[Hashable]:
        """Yields the key and the identifier of each route that the daemon holds of a neighbour."""
        for path in self.paths(table_type=self.gobgp.ADJ_IN, name=neighbour):
            yield self.messages.key(path), path.identifier

    def paths(self, **which: object) -> Iterator[object]:
        """Yields the Paths of a table of the daemon."""
        request = self.gobgp.ListPathRequest(family=self.messages.family, **which)
        try:
            for response in self.call("ListPath", "unary_stream", "ListPathResponse", request, timeout=SECONDS):
                yield from response.destination.paths
        except self.grpc.RpcError as fault:
            raise self.trouble(fault) from None

    def sessions(self) -> Iterator[Session]:
        """Yields the session of each neighbour."""
        request = self.gobgp.ListPeerRequest()
        try:
            for response in self.call("ListPeer", "unary_stream", "ListPeerResponse", request, timeout=SECONDS):
                yield self.messages.session(response.peer)
        except self.grpc.RpcError as fault:
            raise self.trouble(fault) from None

    def change(self, changes: Iterable[Tuple[Route, bool]]) -> None:
        """Routes to be announced, or withdrawn where it is true, one after the other; an error ends the rest."""
        requests = [self.gobgp.AddPathStreamRequest(paths=[self.messages.path(*each)]) for each in changes]
        try:
            self.call("AddPathStream", "stream_unary", "", iter(requests), timeout=SECONDS)
        except self.grpc.RpcError as fault:
            raise self.trouble(fault) from None

    def clear(self) -> None:
        """Withdraws all routes that this interface has put into the daemon's table."""
        request = self.gobgp.DeletePathRequest(table_type=self.gobgp.GLOBAL, family=self.messages.family)
        try:
            self.call("DeletePath", "unary_unary", "", request, timeout=SECONDS)
        except self.grpc.RpcError as fault:
            raise self.trouble(fault) from None

    def trouble(self, fault: object) -> Exception:
        """What an error of the interface says: an answer of the daemon's, or that there is none."""
        codes: Dict[object, str] = {
            self.grpc.StatusCode.UNAVAILABLE: "the daemon doesn't answer",
            self.grpc.StatusCode.DEADLINE_EXCEEDED: f"the daemon didn't answer within {SECONDS} seconds",
            self.grpc.StatusCode.CANCELLED: "the call was ended",
        }
        if fault.code() in codes:
            return NoDaemon(f"gobgpd at {self.address}: {codes[fault.code()]}")
        return Declined(fault.details())


def classes(protos: str) -> Tuple[object, object]:
    """Returns the modules gobgp_pb2 and attribute_pb2: those of the package, or made by protoc if it has none."""
    if os.path.exists(os.path.join(MADE, "gobgp_pb2.py")) and protos == PROTOS:
        return classes_in(MADE)
    with tempfile.TemporaryDirectory() as folder:
        make_classes(protos, folder)
        return classes_in(folder)


def classes_in(folder: str) -> Tuple[object, object]:
    """Returns the modules gobgp_pb2 and attribute_pb2 of a folder."""
    sys.path.insert(0, folder)
    try:
        return imported("gobgp_pb2"), imported("attribute_pb2")
    finally:
        sys.path.remove(folder)


def imported(name: str) -> object:
    """A module of Debian's packages, or of protoc's making."""
    try:
        return importlib.import_module(name)
    except ImportError as fault:
        missing = f"{sys.executable} has no {fault.name}"
        raise Unreadable(f"{missing}: install {PACKAGES}, and run by /usr/bin/python3") from None


def make_classes(protos: str, folder: str) -> None:
    """The classes of the messages, in a folder."""
    names = ["attribute.proto", "capability.proto", "gobgp.proto"]
    if not os.path.exists(os.path.join(protos, names[0])):
        raise Unreadable(f"{protos}: no attribute.proto; install {PACKAGES}")
    try:
        words = ["protoc", "-I", protos, f"--python_out={folder}", *names]
        done = subprocess.run(words, capture_output=True, encoding="utf-8", check=False)
    except OSError as fault:
        raise Unreadable(f"protoc can't be run ({fault.strerror}): install {PACKAGES}") from None
    if done.returncode != 0:
        raise Unreadable(f"protoc: {done.stderr.strip()}")


def main(words: List[str]) -> int:
    """Makes the classes in a folder, as tools/package.sh does for the package."""
    if len(words) != 1:
        print("usage: gobgp.py FOLDER", file=sys.stderr)
        return 2
    os.makedirs(words[0], exist_ok=True)
    try:
        make_classes(PROTOS, words[0])
    except Unreadable as fault:
        print(f"gobgp: {fault}", file=sys.stderr)
        return 2
    return 0


if __name__ == "__main__":
    sys.exit(main(sys.argv[1:]))
