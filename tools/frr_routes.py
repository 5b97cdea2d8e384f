"""FRR's EVPN routes: what `show bgp l2vpn evpn route json` prints, as the registers of one router's snapshot.

The text is read value by value, so that a table of a million routes never stands in memory. What a
record can't say is left out and counted by cause.
"""

import collections
import functools
import json
import re
from dataclasses import dataclass, field
from typing import Callable, Dict, Iterable, Iterator, List, Mapping, NamedTuple, Optional, Set, TextIO, Tuple

from update_records import Advert, Unreadable, Update, read_address, read_ip, read_mac, read_number

KEYS_KEPT = 1 << 14  # keys of routes whose parts are kept
BLANK = ("", " ", "\t", "\n", "\r")
BLANKS = re.compile(r"[ \t\n\r]*")
KEY = re.compile(r'[ \t\n\r]*"([^"\\]*)"[ \t\n\r]*:[ \t\n\r]*')


class JsonText:
    """A JSON text that is read value by value, so that a table of a million routes never stands in memory."""

    PIECE = 1 << 21

    def __init__(self, stream: TextIO, name: str) -> None:
        self.stream = stream
        self.name = name
        self.text = ""
        self.place = 0
        self.behind = 0
        self.ended = False
        self.decoder = json.JSONDecoder()

    def more(self) -> bool:
        """Reads a piece behind what isn't used yet; false at the end."""
        try:
            piece = self.stream.read(self.PIECE)
        except UnicodeDecodeError as fault:
            raise Unreadable(f"{self.name}: a binary file, no text ({fault.reason})") from None
        except OSError as fault:
            raise Unreadable(f"{self.name}: {fault}") from None
        self.behind += self.place
        self.text = self.text[self.place :] + piece
        self.place = 0
        self.ended = not piece
        return not self.ended

    def fail(self, what: str) -> Unreadable:
        """The complaint about the present place."""
        return Unreadable(f"{self.name}: {what} at character {self.behind + self.place}")

    def peek(self) -> str:
        """The next character that isn't blank, '' at the end."""
        while True:
            self.place = BLANKS.match(self.text, self.place).end()
            if self.place < len(self.text):
                return self.text[self.place]
            if not self.more():
                return ""

    def take(self, wanted: str) -> str:
        """The next character, which must be one of those."""
        found = self.text[self.place : self.place + 1]
        if found in BLANK:
            found = self.peek()
        if found == "" or found not in wanted:
            raise self.fail("the JSON text is cut" if found == "" else f"no JSON: {found!r} where {wanted!r} is meant")
        self.place += 1
        return found

    def value(self) -> object:
        """The next value, whole."""
        if self.text[self.place : self.place + 1] in BLANK:
            self.peek()
        while True:
            try:
                value, end = self.decoder.raw_decode(self.text, self.place)
                if end < len(self.text) or self.ended:
                    self.place = end
                    return value
            except json.JSONDecodeError as fault:
                if self.ended:
                    cut = fault.pos >= len(self.text.rstrip()) or fault.msg.startswith("Unterminated")
                    raise self.fail("the JSON text is cut" if cut else f"no JSON ({fault.msg})") from None
            except RecursionError:
                raise self.fail("JSON of too many levels") from None
            self.more()

    def keys(self) -> Iterator[str]:
        """The keys of the next object; the caller takes each one's value before the next."""
        self.take("{")
        if self.peek() == "}":
            self.place += 1
            return
        while True:
            match = KEY.match(self.text, self.place)
            if match is not None and match.end() < len(self.text):
                self.place = match.end()
                yield match[1]
            else:
                key = self.value() if self.peek() == '"' else self.take('"')
                self.take(":")
                yield str(key)
            if self.take(",}") == "}":
                return

    def items(self) -> Iterator[Tuple[str, object]]:
        """The keys and values of the next object: all at once if the next pieces have the whole object, else one by one."""
        while len(self.text) - self.place < self.PIECE and not self.ended:
            self.more()
        try:
            table, end = self.decoder.raw_decode(self.text, self.place)
        except (json.JSONDecodeError, RecursionError):
            for key in self.keys():
                yield key, self.value()
            return
        self.place = end
        yield from table.items()

    def some_items(self, parts: Iterable[str]) -> Optional[List[Tuple[str, object]]]:
        """The keys with one of some parts, and their values, of the next object, if it is printed with a line for each key.

        Then each line in it is indented at least like its first key, and only the line of its end is less so: what isn't wanted
        is passed over as text. Nothing is taken of an object in another form, or of one that is larger than the next pieces.
        """
        while len(self.text) - self.place < self.PIECE and not self.ended:
            self.more()
        first = FIRST_LINE.match(self.text, self.place)
        if first is None:
            return None
        indent = first[1]
        end = re.compile(rf"\n {{0,{len(indent) - 1}}}\}}").search(self.text, first.end())
        if end is None:
            return None
        found = []
        for part in parts:
            at = self.text.find(part, first.end(), end.start())
            while at >= 0:
                line = self.text.rfind("\n", 0, at) + 1
                key = KEY.match(self.text, line)
                if key is not None and key.start(1) == line + len(indent) + 1 and at < key.end(1):
                    try:
                        value, at = self.decoder.raw_decode(self.text, key.end())
                    except (json.JSONDecodeError, RecursionError):
                        return None
                    found.append((key[1], value))
                at = self.text.find(part, at + 1, end.start())
        self.place = end.end()
        return found


FIRST_LINE = re.compile(r'\{\n( +)(?=")')
PREFIX = re.compile(
    r"\[(?P<type>[0-9]+)\]:\[(?P<tag>[0-9]+)\]:\[(?:48\]:\[(?P<mac>[0-9a-f:]{17})\](?::\[(?:32|128)\]:\[(?P<ip>[^]]+)\])?"
    r"|(?P<rest>.*))"
)
SEGMENT = re.compile(r"\[(?:1\]:\[[0-9]+|4)\]:\[([0-9a-f]{2}(?::[0-9a-f]{2}){9})\].*")  # RFC 7432, 7.1 and 7.4
COMMUNITY_RT = re.compile(r"RT:(\S+:[0-9]{1,10})(?![0-9])")
COMMUNITY_MOBILITY = re.compile(r"MM:([0-9]+)(, sticky MAC)?")
COMMUNITY_ROUTER = re.compile(r"Rmac:([0-9a-f]{2}(?::[0-9a-f]{2}){5})")
LABELS = re.compile(r"([0-9]{1,8})(?:/([0-9]{1,8}))?")
RD_ADDRESS = re.compile(r"([0-9]+\.[0-9]+\.[0-9]+\.[0-9]+):[0-9]+")
AUTO_RT = 1 << 28  # RFC 8365, 5.1.2.1: the type of an automatic route target with a VXLAN identifier


class RouteKey(NamedTuple):
    """What a route's key says: its type, its Ethernet Tag, a MAC route's MAC and IP address, else its segment, or the rest."""

    kind: str
    tag: str
    mac: Optional[bytes]
    ip: bytes
    ip_text: str
    rest: str
    segment: str = ""


@functools.lru_cache(maxsize=KEYS_KEPT)
def key_of(prefix: str) -> RouteKey:
    """What a route's key says; the leaves of a fabric show the same keys."""
    match, segment = PREFIX.fullmatch(prefix), SEGMENT.fullmatch(prefix)
    if match is None or segment is not None:
        return RouteKey("", "", None, b"", "", "", segment[1] if segment else "")
    kind, tag, mac, ip, rest = match.groups("")
    is_of_mac = kind == "2" and mac != ""
    return RouteKey(kind, tag, read_mac(mac) if is_of_mac else None, read_ip(ip) if is_of_mac and ip else b"", ip, rest)


class Path(NamedTuple):
    """One path of one route, as far as an owner depends on it."""

    rd: str
    vni: int
    mac: Optional[bytes]
    ip: bytes
    vtep: bytes
    advert: Advert
    seconds: int
    is_best: bool
    is_own: bool
    targets: str = ""


class Seen(NamedTuple):
    """What decides whether a record can say a path, besides its next hop: FRR's texts and GoBGP's messages say it."""

    target: Optional[int]
    label: Optional[int]
    mac: Optional[bytes]
    tag: str
    esi: str
    is_valid: bool


NO_KIND = "neither a MAC route nor an inclusive multicast route"
FOLDED = "folded into the better route of the same next hop and key"
MULTIHOMED = "a nonzero ESI (multihomed)"
OTHER_LABEL = "taken by their route target, which isn't the VNI in their label"


@dataclass(frozen=True)
class Imports:
    """Which networks import a route: by its route targets, or for an own route by its RD.

    `by_number` has the targets of which FRR compares the number only, whatever the autonomous system: those that it derives
    itself from the VNI, and those with `*`.
    """

    exact: Mapping[str, Tuple[int, ...]] = field(default_factory=dict)
    by_number: Mapping[int, Tuple[int, ...]] = field(default_factory=dict)
    own: Mapping[str, int] = field(default_factory=dict)

    def vnis_of(self, target: str) -> Tuple[int, ...]:
        """Returns the networks that import a route target."""
        return self.exact.get(target, ()) + self.by_number.get(int(target.rpartition(":")[2]), ())


class Community(NamedTuple):
    """What the extended communities of a path say: networks of layer 2, L3VNIs, mobility, the router's MAC."""

    vnis: Tuple[int, ...]
    routed: Tuple[int, ...]
    static: bool
    sequence: int
    router: bytes


class Alike(NamedTuple):
    """What the paths of MACs have in common that agree in RD, next hop, communities and label, and of which nothing is counted."""

    vnis: Tuple[int, ...]
    vtep: bytes
    advert: Advert
    is_own: bool
    said: Community


class Routes:
    """The paths of FRR's tables that are of the wanted VNIs; what is left out is counted by cause.

    `routed` are L3VNIs: their routes give router MACs (RFC 9135, 8.1), no MAC of a network. Without `imports` a route
    target names the VNI that its number is.
    """

    def __init__(
        self,
        vnis: Iterable[int],
        any_rd: bool = False,
        targets: Iterable[Tuple[str, int]] = (),
        may_be_empty: bool = False,
        imports: Optional[Imports] = None,
        routed: Iterable[int] = (),
    ) -> None:
        self.vnis = vnis if isinstance(vnis, range) else set(vnis)
        self.any_rd = any_rd
        self.may_be_empty = may_be_empty
        self.targets = dict(targets)
        self.imports = imports
        self.routed = set(routed)
        self.routers: Dict[int, Dict[str, Set[bytes]]] = {}
        self.prefixes: Dict[int, Dict[str, Set[str]]] = {}
        self.invalid: Dict[Tuple[int, str], Set[bytes]] = {}
        self.left_out: Dict[str, int] = collections.Counter()
        self.told: Dict[str, int] = collections.Counter()
        self.unjudged: set = set()
        self.segments: Dict[str, Set[str]] = {}
        self.multihomed: Dict[Tuple[int, Optional[bytes]], Set[str]] = {}
        self.routes = 0
        self.communities: Dict[str, Community] = {}
        self.adverts: Dict[Tuple[bool, int, Optional[int]], Advert] = {}
        self.addresses: Dict[str, bytes] = {}
        self.rds: Dict[str, Optional[str]] = {}
        self.places: Dict[tuple, Tuple[bytes, int]] = {}
        self.alike: Dict[tuple, Alike] = {}

    def read(self, stream: TextIO, name: str) -> Iterator[Path]:
        """The paths that a stream's text shows: by RD as the whole table has them, or without, as a VNI's."""
        text = JsonText(stream, name)
        if text.peek() == "":
            raise Unreadable(f"{name}: empty")
        if text.peek() != "{":
            raise text.fail("not what 'show bgp l2vpn evpn route json' prints")
        before = self.routes
        for key in text.keys():
            if key.startswith("["):
                yield from self.paths("", key, text.value(), name)
            elif text.peek() == "{":
                for prefix, route in text.items():
                    if prefix.startswith("["):
                        yield from self.paths(key, prefix, route, name)
            else:
                text.value()
        if text.peek() != "":
            raise text.fail("something stands behind the JSON text")
        if self.routes == before and not self.may_be_empty:
            raise Unreadable(f"{name}: no EVPN route stands there")

    def paths(self, rd: str, prefix: str, route: object, name: str, vni: Optional[int] = None) -> List[Path]:
        """The paths of one route, for each network that imports it; in a network's own table `vni` is that network."""
        groups = route.get("paths") if isinstance(route, dict) else None
        if not isinstance(groups, list):
            raise Unreadable(f"{name}: route {prefix} has no 'paths'")
        key = key_of(prefix)
        found: List[Path] = []
        for group in groups:
            for path in group if isinstance(group, list) else [group]:
                self.routes += 1
                if not isinstance(path, dict):
                    raise Unreadable(f"{name}: route {prefix} has a path that is no object")
                try:
                    found += self.path(rd, key, path, vni) if not key.segment else self.take_segment(key.segment, path)
                except (KeyError, TypeError, AttributeError, IndexError) as fault:
                    raise Unreadable(f"{name}: route {prefix} lacks a field that is needed ({fault})") from None
        return found

    def path(self, rd: str, key: RouteKey, path: dict, vni: Optional[int]) -> List[Path]:
        """One path for each network that imports it: most are like an earlier path of another MAC."""
        if key.mac is None:
            return self.other_path(rd, key, path, vni)
        hop, targets = path["nexthops"][0]["ip"], path.get("extendedCommunity", {}).get("string", "")
        kind = rd, hop, targets, path.get("VNI", ""), path.get("peerId"), path.get("local"), vni
        alike = self.alike.get(kind)
        is_plain = key.tag == "0" and path.get("valid") is True and not path.get("esi")
        if alike is None or not is_plain:
            counted = self.counted()
            found = self.other_path(rd, key, path, vni)
            if is_plain and found and self.counted() == counted:
                like = found[0]
                self.alike[kind] = Alike(tuple(each.vni for each in found), like.vtep, like.advert, like.is_own, self.community(targets))
            return found
        vnis, vtep, advert, is_own, said = alike
        if said.routed and key.ip:
            self.take_router(said, hop, key.ip_text, b"" if is_own else said.router)
        seconds = seconds_of(path) if "lastUpdate" in path else 0
        is_best = is_chosen(path)
        return [Path(rd, each, key.mac, key.ip, vtep, advert, seconds, is_best, is_own, targets) for each in vnis]

    def counted(self) -> int:
        """How many paths were counted for whatever cause."""
        return sum(self.left_out.values()) + sum(self.told.values())

    def other_path(self, rd: str, key: RouteKey, path: dict, vni: Optional[int]) -> List[Path]:
        """One path for each network that imports it; what a record can't say is counted by its cause."""
        kind, mac = key.kind, key.mac
        targets = path.get("extendedCommunity", {}).get("string", "")
        said = self.community(targets)
        is_own = path.get("peerId") == "(unspec)" or path.get("local") is True
        if said.routed and path.get("valid") is True and (kind == "5" or (mac is not None and key.ip)):
            prefix = key.rest if kind == "5" else key.ip_text
            self.take_router(said, path["nexthops"][0]["ip"], prefix, b"" if is_own else said.router)
        if kind not in ("2", "3") or (kind == "2" and mac is None):
            if not (kind == "5" and said.routed):
                self.leave(NO_KIND)
            return []
        shown = path.get("pmsi", {}).get("label", "") if mac is None else path.get("VNI", "")
        labels = LABELS.fullmatch(str(shown)) if shown != "" else None
        label, is_valid, esi = int(labels[1]) if labels else None, path.get("valid") is True, path.get("esi", "")
        hop = path["nexthops"][0]["ip"]
        vnis: Tuple[Optional[int], ...] = self.networks_of(rd, said, is_own) if vni is None else (vni,)
        if not is_valid and not is_own:
            self.take_invalid(vnis, hop, mac)
        is_best, seconds = is_chosen(path), seconds_of(path)
        advert = Advert() if mac is None else self.advert(said.static, said.sequence, labels[2] if labels else None)
        found = []
        for each in vnis or (None,):
            is_plain = is_valid and each is not None and label in (None, each) and key.tag == "0" and not esi
            network = each if is_plain else self.network_of(Seen(each, label, mac, key.tag, esi, is_valid))
            vtep = None if network is None else self.next_hop(rd, hop, network, mac)
            if network is not None and vtep is not None:
                found.append(Path(rd, network, mac, key.ip, vtep, advert, seconds, is_best, is_own, targets))
        return found

    def networks_of(self, rd: str, said: Community, is_own: bool) -> Tuple[int, ...]:
        """The wanted networks that have a path: an own one by its RD, another by its route targets."""
        if is_own and self.imports is not None and rd in self.imports.own:
            vni = self.imports.own[rd]
            return (vni,) if vni in self.vnis else ()
        return said.vnis

    def take_router(self, said: Community, hop: str, prefix: str, router: bytes) -> None:
        """Takes the router's MAC that a route of an L3VNI names (RFC 9135, 8.1), of an IPv4 next hop; and who has the prefix."""
        for vni in said.routed if ":" not in hop else ():
            self.prefixes.setdefault(vni, {}).setdefault(prefix, set()).add(hop)
            if router:
                self.routers.setdefault(vni, {}).setdefault(hop, set()).add(router)

    def take_segment(self, esi: str, path: dict) -> List[Path]:
        """Takes an edge that says that it is at a segment; no record says that."""
        if path.get("valid") is True:
            self.segments.setdefault(esi, set()).add(path["nexthops"][0]["ip"])
        return []

    def take_invalid(self, vnis: Tuple[Optional[int], ...], hop: str, mac: Optional[bytes]) -> None:
        """Takes a path that isn't valid: bgpd doesn't reach its next hop."""
        for vni in vnis:
            if vni is not None:
                self.invalid.setdefault((vni, hop), set()).update(() if mac is None else (mac,))

    def network_of(self, seen: Seen) -> Optional[int]:
        """The VNI of a path that a record can say, but for its next hop; else nothing, with its cause counted."""
        vni = self.vni_of(seen.target, seen.label, seen.mac)
        if vni is None:
            return None
        if seen.tag != "0":
            return self.leave("an Ethernet Tag other than 0")
        if not seen.is_valid:
            return self.leave("not valid")
        if seen.esi.strip("0:-") != "":
            self.multihomed.setdefault((vni, seen.mac), set()).add(seen.esi)
            return self.leave(MULTIHOMED)
        return vni

    def vni_of(self, target: Optional[int], label: Optional[int], mac: Optional[bytes]) -> Optional[int]:
        """The wanted VNI of a path: its route target's, with which a label has to agree, else its label's."""
        if target is None and label not in self.vnis:
            return self.leave("another route target" if label is None else "another route target and label")
        if target is None:
            self.told["taken by the VNI in their label: no route target names it"] += 1
            return label
        if label not in (None, target) and self.imports is None:
            return self.leave_unjudged(target, mac, "a label that isn't the VNI of the route target")
        if label not in (None, target):
            self.told[OTHER_LABEL] += 1
        return target

    def next_hop(self, rd: str, hop: str, vni: int, mac: Optional[bytes]) -> Optional[bytes]:
        """The address of a path's next hop, which is the originator."""
        rd_address = self.rd_address(rd)
        if rd != "" and rd_address is None and not self.any_rd:
            return self.leave_unjudged(vni, mac, "an RD that isn't an address")
        if ":" in hop:
            return self.leave_unjudged(vni, mac, "a next hop that isn't an IPv4 address")
        if rd_address is not None and rd_address != hop:
            self.told["taken by their next hop, which isn't the address in the RD"] += 1
        return self.address(hop)

    def leave(self, cause: str) -> None:
        """Counts a path that is left out."""
        self.left_out[cause] += 1

    def leave_unjudged(self, vni: int, mac: Optional[bytes], cause: str) -> None:
        """The same of a path that an owner may depend on: its MAC isn't judged."""
        self.unjudged.add((vni, mac))
        self.leave(cause)

    def community(self, text: str) -> Community:
        """What the extended communities of a path say."""
        found = self.communities.get(text)
        if found is None:
            targets = COMMUNITY_RT.findall(text)
            vnis = tuple(dict.fromkeys(vni for target in targets for vni in self.importers_of(target)))
            mobility, router = COMMUNITY_MOBILITY.search(text), COMMUNITY_ROUTER.search(text)
            found = self.communities[text] = Community(
                tuple(vni for vni in vnis if vni in self.vnis),
                tuple(vni for vni in vnis if vni in self.routed),
                mobility is not None and mobility[2] is not None,
                read_number(mobility[1], 1 << 32, "sequence number") if mobility else 0,
                bytes.fromhex(router[1].replace(":", "")) if router else b"",
            )
        return found

    def importers_of(self, target: str) -> Tuple[int, ...]:
        """The networks that import a route target: as was said, as bgpd imports it, or by the number in it."""
        if target in self.targets or self.imports is None:
            return (self.vni_of_target(target),)
        return self.imports.vnis_of(target)

    def vni_of_target(self, target: str) -> int:
        """The VNI that a route target stands for: as was said, or by the number in it."""
        number = int(target.rpartition(":")[2])
        return self.targets.get(target, number - AUTO_RT if number >= AUTO_RT else number)

    def advert(self, static: bool, sequence: int, label: Optional[str]) -> Advert:
        """The advert, one object for all that are equal."""
        label2 = None if label is None else read_number(label, 1 << 24, "label")
        return self.adverts.setdefault((static, sequence, label2), Advert(static, sequence, label2))

    def rd_address(self, rd: str) -> Optional[str]:
        """The address in an RD, if it has one."""
        if rd not in self.rds:
            match = RD_ADDRESS.fullmatch(rd)
            self.rds[rd] = match[1] if match else None
        return self.rds[rd]

    def address(self, text: str) -> bytes:
        """An IPv4 address, one object for all that are equal."""
        if text not in self.addresses:
            self.addresses[text] = read_address(text)
        return self.addresses[text]

    def tell(self, out: TextIO) -> None:
        """What was left out, by cause, and what was taken in a way that one should know."""
        for cause, count in sorted(self.left_out.items()):
            print(f"left out {count}: {cause}", file=out)
        for cause, count in sorted(self.told.items()):
            print(f"told {count}: {cause}", file=out)


def is_chosen(path: dict) -> bool:
    """Whether a path is bgpd's own best one."""
    best = path.get("bestpath", False)
    return best.get("overall") is True if isinstance(best, dict) else best is True


def seconds_of(path: dict) -> int:
    """The second of a path's last update, which detail alone shows."""
    if "lastUpdate" not in path:
        return 0
    return read_number(str(path["lastUpdate"]["epoch"]), 1 << 63, "time")


STATION_KEY = bytes(4 + 3 + 6)  # an originator, a VNI and a MAC: how a snapshot's key of a MAC begins


class Snapshot:
    """The registers that one router shows: each key's better route, with its time."""

    def __init__(self, routes: Routes, paths: Optional[List[Path]] = None) -> None:
        self.routes = routes
        self.paths = paths
        self.registers: Dict[bytes, Tuple[Advert, int]] = {}
        self.addressed: Set[bytes] = set()
        self.values: Dict[Tuple[Advert, int], Tuple[Advert, int]] = {}
        self.own: set = set()

    def take(self, path: Path) -> None:
        """Takes a path; of two of one originator and key the better stays (RFC 7432, 15 and 15.2)."""
        key = path.vtep + path.vni.to_bytes(3, "big") + (path.mac or b"") + path.ip
        value = path.advert, path.seconds
        value = self.values.setdefault(value, value)
        if path.ip:
            self.addressed.add(key[: len(STATION_KEY)])
        if path.is_own:
            self.own.add(path.vtep)
        if self.paths is not None:
            self.paths.append(path)
        old = self.registers.get(key)
        if old is not None:
            self.routes.told[FOLDED] += 1
            if (old[0].static, old[0].sequence, old[1]) >= (value[0].static, value[0].sequence, value[1]):
                return
        self.registers[key] = value

    def shows(self, station: bytes) -> bool:
        """Returns whether there is a route of an originator, a VNI and a MAC, with an IP address or without."""
        return station in self.registers or station in self.addressed

    def updates(self, counter_of: Callable[[int], int]) -> Iterator[Update]:
        """The updates of this snapshot's registers, each with the counter that its time gives."""
        for key, (advert, seconds) in self.registers.items():
            yield update_of_key(key, advert, counter_of(seconds))


def update_of_key(key: bytes, advert: Optional[Advert], counter: int) -> Update:
    """The update of a snapshot's key: address, VNI, then nothing or a MAC and an IP or none."""
    vni = int.from_bytes(key[4:7], "big")
    return Update(key[:4], vni, key[7:13] or None, key[13:], advert, counter)


def snapshot_of(routes: Routes, stream: TextIO, name: str, keeps_paths: bool = False) -> Snapshot:
    """The snapshot that a stream's text shows; with `keeps_paths` it keeps each path too."""
    snapshot = Snapshot(routes, [] if keeps_paths else None)
    for path in routes.read(stream, name):
        snapshot.take(path)
    if not snapshot.registers and not routes.may_be_empty:
        wanted = ", ".join(str(vni) for vni in sorted(routes.vnis))
        raise Unreadable(f"{name}: no route of VNI {wanted} that can be taken stands there")
    return snapshot


def updates_between(older: Snapshot, newer: Snapshot, by_time: bool) -> Iterator[Update]:
    """Two snapshots of one router: a route that has vanished is withdrawn, later than all that stands."""
    if by_time:
        last = max(seconds for snapshot in (older, newer) for _, seconds in snapshot.registers.values())
        counters = (lambda seconds: max(seconds, 1)), (lambda seconds: max(seconds, 1)), last + 1
    else:
        counters = (lambda _: 1), (lambda _: 2), 2
    yield from older.updates(counters[0])
    yield from newer.updates(counters[1])
    for key in older.registers:
        if key not in newer.registers:
            yield update_of_key(key, None, counters[2])
